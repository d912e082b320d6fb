"""The definitions in crates/*/specs: where each is, what its comment says, and what it names.

Crates come in the order of crates.txt, files in that of their Lib.antt, definitions in that of the
file."""

import re
from pathlib import Path
from typing import NamedTuple

TOP = Path(__file__).resolve().parents[2]
CRATES = TOP / "crates"

DEFINITION = re.compile(r"(?P<indent> *)(?:(?:abbrev|unfoldable) pub|pub (?:record|data)) (?P<name>\S+)")
# a line that ends the definition before it
NEXT = re.compile(r" *(?:abbrev|unfoldable|module|record|data|use|infix[lr]?|pub (?:record|data|mod))\b")
OPERATOR = re.compile(r"\s*infix")
IMPORT = re.compile(r"\bRattle\.(\w+)\.specs\.(\w+)\.\{([^}]*)\}")
ALIAS = re.compile(r"\bRattle\.(\w+)\.specs\.(?!declared\b)(\w+) as (\w+)")
# what a crate passes on of a lower one
PASSED = re.compile(r"\bRattle\.\w+\.specs\.of_(\w+)\.")
# a name behind a dot is a field
NAME = re.compile(r"(?<![\w'.])[A-Za-z_][\w']*")


class Definition(NamedTuple):
    """A definition. The lines from `first` to `last` have its comment and its text."""

    name: str
    file: Path
    line: int
    comment: str
    first: int
    last: int
    text: str

    def place(self):
        return f"{self.file.relative_to(TOP)}:{self.line}"

    def key(self):
        """The crate, the file and the name."""
        return self.file.parts[-3], self.file.stem, self.name


def crates():
    """The crates, lowest first."""
    for line in (TOP / "crates.txt").read_text(encoding="utf-8").splitlines():
        if line.strip() and not line.startswith("#"):
            yield line.split(":")[0].split()[0]


def files():
    """The files of definitions."""
    for crate in crates():
        specs = CRATES / crate / "specs"
        if (specs / "Lib.antt").exists():
            text = (specs / "Lib.antt").read_text(encoding="utf-8")
            yield from (specs / f"{name}.antt" for name in re.findall(r"^pub mod (\w+)", text, re.M))


def end_of(lines, start, indent):
    """The last line of the definition that begins with a line. Lines are numbered from 1."""
    last = start
    for number, line in enumerate(lines[start:], start + 1):
        if not line.strip() or line.lstrip().startswith("--"):
            continue
        if len(line) - len(line.lstrip()) <= indent and NEXT.match(line):
            break
        last = number
    return last


def without_indent(lines):
    """The lines as one text, moved to the left edge."""
    left = min(len(it) - len(it.lstrip()) for it in lines if it.strip())
    return "\n".join(it[left:].rstrip() for it in lines)


def definitions_of(file, lines):
    """The public definitions of a file. The comment that the file begins with is of none."""
    comment, at_head = [], True
    for number, line in enumerate(lines, 1):
        if line.lstrip().startswith("--"):
            if not at_head:
                comment.append((number, line.lstrip()[2:].strip()))
            continue
        at_head = False
        found = DEFINITION.match(line)
        if found:
            first = comment[0][0] if comment else number
            last = end_of(lines, number, len(found["indent"]))
            text = without_indent([it for it in lines[first - 1 : last] if not OPERATOR.match(it)])
            says = " ".join(it for _, it in comment)
            yield Definition(found["name"], file, number, says, first, last, text)
        if not OPERATOR.match(line):
            comment = []


def direct(text):
    """A text that names each definition by its own crate, and not by one that passes it on."""
    return PASSED.sub(r"Rattle.\1.specs.", text)


def imports_of(text):
    """The definitions that a text imports: the name of each, with its crate and file."""
    for crate, module, names in IMPORT.findall(direct(text)):
        yield from ((name.split(" as ")[0].strip(), (crate, module)) for name in names.split(","))


def names_in(text):
    """The names in a definition, in order."""
    return [*dict.fromkeys(NAME.findall(re.sub(r"--.*", "", text)))]


class Specs:
    """All definitions, with what names what."""

    def __init__(self):
        self.lines = {file: file.read_text(encoding="utf-8").splitlines() for file in files()}
        self.of_file = {file: [*definitions_of(file, lines)] for file, lines in self.lines.items()}
        self.all = [it for found in self.of_file.values() for it in found]
        self.by_key = {it.key(): it for it in self.all}
        self.scopes = {file: self.scope(file) for file in self.lines}

    def scope(self, file):
        """The key of each definition that a file can name."""
        imported = {name: (*place, name) for name, place in imports_of("\n".join(self.lines[file]))}
        return imported | {it.name: it.key() for it in self.of_file[file]}

    def named_by(self, definition):
        """The other definitions that a definition names, in the order of its text."""
        scope = self.scopes[definition.file]
        found = (self.by_key.get(scope.get(name)) for name in names_in(definition.text))
        return [it for it in found if it and it.key() != definition.key()]

    def cited(self):
        """The keys of the definitions that another definition, a contract or a proof names."""
        found = {it.key() for definition in self.all for it in self.named_by(definition)}
        for folder in ("src/**/*.rt", "proofs/**/*.antt", "specs/*.antt"):
            for file in CRATES.glob(f"*/{folder}"):
                text = file.read_text(encoding="utf-8")
                found.update((*place, name) for name, place in imports_of(text))
                for crate, module, alias in ALIAS.findall(direct(text)):
                    names = re.findall(rf"\b{alias}\.(\w+)", text)
                    found.update((crate, module, name) for name in names)
        return found
