"""Wrong definitions, and the copies in which they are tried: one of rows, one of laws.

The rows are tried in a copy in which the crates of the definitions and ledger_rows are one crate.
It holds a batch of wrong definitions at a time, each in modules of its own: the one that is changed
and those that stand on it. So the others need not be checked again, and what is refused is told by
the names of the modules."""

import re
import shutil
import subprocess
from itertools import chain
from pathlib import Path
from typing import NamedTuple

from made.written import module_of

TOP = Path(__file__).resolve().parents[2]
WRONG = TOP / "tests/mistakes/definitions"
STREAMS = TOP / "tests/streams/whole"
ROWS = TOP / "crates/ledger_rows/proofs"
FURTHER_ROWS = TOP / "crates/further_rows/proofs"
ROW_CRATES = ("ledger_rows", "further_rows")
# what the modules of rows stand on
WORDS = {"Base": ROWS / "Base.antt", "Texts": FURTHER_ROWS / "Texts.antt"}
# the crates of the definitions, lowest first, and those of them that have types of the program, too
DEFINITIONS = (
    "book_records",
    "gov_model",
    "ledger_model",
    "run_model",
    "text_model",
    "text_forms",
    "checkpoint_model",
    "certificate_model",
    "shortfall_model",
    "outlook_model",
    "follow_model",
    "undo_model",
)
WITH_TYPES = ("book_records", "shortfall_model")
# the crates whose laws are tried where no row refuses
LAWS = ("gov_model", "tx_balance", "epoch_balance", "dormant_laws", "run_laws", "undo_model", "further_laws", "text_laws",
        "formed_laws", "formed_lines", "json_lengths", "action_lengths", "stream_laws")
REFERENCE = re.compile(rf"Rattle\.({'|'.join(DEFINITIONS)})\.specs\.(?!declared\b)(\w+)|Rattle\.(?:ledger|further)_rows\.proofs\.(\w+)")
ERROR = re.compile(r"\./(specs|proofs)/(?:t(\d+)_)?(\S+?)\.antt\S*: error: (.*)")


# ---- wrong definitions


class Wrong(NamedTuple):
    name: str
    what: str
    file: str
    changes: list
    uses: list
    by: list

    def crate(self):
        return self.file.split("/")[1]

    def laws(self):
        """The crates that are expected to refuse it."""
        return [it for it in self.by if (TOP / "crates" / it).is_dir()]

    def fault(self):
        """Why it cannot be applied, if so."""
        if not (TOP / self.file).is_file():
            return f"there is no {self.file}"
        text = (TOP / self.file).read_text(encoding="utf-8")
        for old, new in self.changes:
            if text.count(old) != 1:
                return f"stands {text.count(old)} times in {self.file}: {old}"
            text = text.replace(old, new)
        return None

    def nothing(self):
        """What is expected to refuse it, and is neither a stream, nor a module of rows, nor a crate."""
        places = (lambda it: STREAMS / f"{it}.in", lambda it: module_file(it), lambda it: TOP / "crates" / it)
        return [it for it in self.by if not any(place(it).exists() for place in places)]

    def text(self):
        """The changed file."""
        if self.fault():
            raise SystemExit(f"{self.name}: {self.fault()}")
        text = (TOP / self.file).read_text(encoding="utf-8")
        for old, new in self.changes:
            text = text.replace(old, new)
        head, _, rest = text.partition("\n")
        return "\n".join([head, *(f"use {it}" for it in self.uses), rest])


def wrong_in(path):
    """What a file says. Lines of one word that follow each other are the lines of one text."""
    if not path.is_file():
        raise SystemExit(f"there is no {path.relative_to(TOP)}")
    what, *lines = path.read_text(encoding="utf-8").splitlines()
    parts = []
    for line in lines:
        word, _, text = line.partition(":")
        if word not in ("file", "old", "new", "use", "by"):
            raise SystemExit(f"{path.name}: what is this? {line}")
        if word in ("old", "new") and parts[-1][0] == word:
            parts[-1][1] += f"\n{text[1:]}"
        else:
            parts.append([word, text[1:]])

    def all_of(word):
        return [text for it, text in parts if it == word]

    changes = [*zip(all_of("old"), all_of("new"))]
    return Wrong(path.stem, what, all_of("file")[0], changes, all_of("use"), " ".join(all_of("by")).split())


# ---- one crate of the definitions and the rows


def merged(text, names={}):
    """A text with references into the one crate; those to `names` go to what stands for them there."""

    def to(found):
        kind, name = ("proofs", found[3]) if found[3] else ("specs", f"{found[1]}_{found[2]}")
        return f"Rattle.trial.{kind}.{names.get(name, name)}"

    return REFERENCE.sub(to, text)


def names_of(crate):
    """The files of its definitions."""
    return sorted(it.stem for it in (TOP / "crates" / crate / "specs").glob("*.antt") if it.stem != "Lib")


def definitions():
    """The text of each module of the definitions, by its name in the one crate."""
    files = ((crate, name) for crate in DEFINITIONS for name in names_of(crate))
    return {f"{crate}_{name}": (TOP / f"crates/{crate}/specs/{name}.antt").read_text(encoding="utf-8") for crate, name in files}


def name_of(file):
    path = Path(file)
    return f"{path.parts[1]}_{path.stem}"


def references(text):
    return {found[3] or f"{found[1]}_{found[2]}" for found in REFERENCE.finditer(text)}


def standing_on(name, texts):
    """A module and those that stand on it."""
    found, more = set(), {name}
    while more:
        found |= more
        more = {it for it, text in texts.items() if references(text) & more} - found
    return found


def module_file(name):
    """The file of a module of rows, whether it is there or not."""
    return next((it for folder in (ROWS, FURTHER_ROWS) if (it := folder / f"{name}.antt").exists()), ROWS / f"{name}.antt")


def rows_of(names):
    """Modules of rows, by name: those of streams as one, and others as they are."""
    streams = [STREAMS / f"{it}.in" for it in names if (STREAMS / f"{it}.in").exists()]
    others = {it: module_file(it).read_text(encoding="utf-8") for it in names if module_file(it).exists()}
    return {**others, **({"Expected": module_of("The rows that are expected to refuse it.", streams)} if streams else {})}


def all_rows():
    found = (it.stem for folder in (ROWS, FURTHER_ROWS) for it in sorted(folder.glob("*.antt")))
    return [it for it in found if it not in ("Lib", *WORDS)]


def below(crates):
    """These crates and those that they stand on, lowest first, each with what it stands on. The kit's are not among them."""
    lines = (line.split(":") for line in (TOP / "crates.txt").read_text().splitlines() if ":" in line and not line.startswith("#"))
    needs, found = {name: rest.split() for name, rest in lines}, {}

    def add(name):
        for it in needs.get(name, ()):
            add(it)
        if name in needs:
            found[name] = needs[name]

    for it in crates:
        add(it)
    return found


def make_folder(folder, crates, kept, more=""):
    """A folder with these crates, each with what its checks kept, and a list of them, with more to it."""
    for name in crates:
        for part in ("src", "specs", "proofs", kept):
            if (TOP / "crates" / name / part).is_dir():
                shutil.copytree(TOP / "crates" / name / part, folder / "crates" / name / part)
    (folder / "crates.txt").write_text("".join(f"{name}: {' '.join(needs)}\n" for name, needs in crates.items()) + more)
    subprocess.run(["git", "init", "-q", folder], check=True)


def checked(folder, jobs):
    """Whether a crate is proved, and what the check says."""
    ran = subprocess.run(["rt", "check", "--jobs", str(jobs)], cwd=folder, capture_output=True, text=True)
    return ran.returncode == 0, ran.stdout + ran.stderr


class RowCopy:
    """A folder with the one crate of definitions and rows."""

    def __init__(self, folder):
        self.trial = folder / "crates/trial"
        crates = below(ROW_CRATES)
        inside = {*DEFINITIONS, *ROW_CRATES}.difference(WITH_TYPES)
        # what any of them names
        named = chain(*(crates[it] for it in inside))
        needs = " ".join(it for it in dict.fromkeys(named) if it not in inside)
        # a crate with types stands on others of the definitions, as they are
        low = {name: it for name, it in crates.items() if name not in ROW_CRATES}
        make_folder(folder, low, "out/rlib", f"trial: {needs}\n")
        shutil.copytree(TOP / "crates/ledger_rows/src", self.trial / "src")

    def write(self, kind, texts):
        folder = self.trial / kind
        shutil.rmtree(folder, ignore_errors=True)
        folder.mkdir(parents=True)
        for name, text in texts.items():
            (folder / f"{name}.antt").write_text(text, encoding="utf-8")
        (folder / "Lib.antt").write_text("".join(f"pub mod {name}\n" for name in texts))

    def write_all(self, batch):
        """The definitions as they stand, and those of each wrong definition, with its rows."""
        texts, words = definitions(), {name: path.read_text(encoding="utf-8") for name, path in WORDS.items()}
        specs, proofs = ({name: merged(text) for name, text in them.items()} for them in (texts, words))
        for number, (wrong, names) in batch.items():
            rows = rows_of(names)
            changed = {**texts, **words, **rows, name_of(wrong.file): wrong.text()}
            own = {it: f"t{number}_{it}" for it in {*WORDS, *rows} | standing_on(name_of(wrong.file), changed)}
            for it in own:
                (specs if it in texts else proofs)[own[it]] = merged(changed[it], own)
        self.write("specs", specs)
        self.write("proofs", proofs)

    def check(self, batch):
        """The errors in specs and in proofs of each number of the batch: a wrong definition, and names of rows."""
        self.write_all(batch)
        proved, said = checked(self.trial, 1)
        found = {number: ([], []) for number in batch}
        for kind, number, module, error in ERROR.findall(said):
            if not number:
                raise SystemExit(f"the definitions do not check as they stand: {module}: {error}")
            row = re.match(r"`(\w+)`", error)
            found[int(number)][kind == "proofs"].append(row[1] if row and kind == "proofs" else f"{module}: {error[:200]}")
        if proved == any(specs or proofs for specs, proofs in found.values()):
            raise SystemExit(f"rt check ended so:\n{said[-3000:]}")
        return found


def tried(copy, batch):
    """Each of the batch with its faults and the rows that refuse it. What does not type is taken out, and the rest tried again."""
    results, left = {}, dict(batch)
    while left:
        found = copy.check(left)
        bad = {number for number, (faults, _) in found.items() if faults}
        results.update({number: found[number] for number in bad or found})
        left = {number: it for number, it in left.items() if number not in results}
    return results


# ---- laws


class LawCopy:
    """A folder with crates of laws and those below them."""

    def __init__(self, folder, laws):
        self.folder = folder
        make_folder(folder, below(laws), "out")

    def refusal(self, wrong):
        """The crate that refuses it, with its first error, or None. The crates that are expected to are checked first."""
        (self.folder / wrong.file).write_text(wrong.text(), encoding="utf-8")
        try:
            for crate in dict.fromkeys([*wrong.laws(), *LAWS]):
                proved, said = checked(self.folder / "crates" / crate, 2)
                if not proved:
                    where = re.findall(r"^rt: chose --jobs \d+ for (\w+)", said, re.M)
                    errors = re.findall(r"^\S+: error: .*|^fn \S+: no proof.*|^note: .* must prove: .*", said, re.M)
                    if not errors:
                        raise SystemExit(f"rt check ended so:\n{said[-3000:]}")
                    return [crate, *where][-1], errors[0][:200]
            return None
        finally:
            shutil.copy(TOP / wrong.file, self.folder / wrong.file)
