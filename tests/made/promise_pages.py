"""docs/read/promises.md."""

import re
from typing import NamedTuple

from made.contracts import exported_by, functions_of, is_given, sources_of
from made.entries import PAGES
from made.markdown import code, table, to_line
from made.specs import CRATES, TOP

BODIES = TOP / "tests/mistakes/bodies"
WRONG = TOP / "tests/mistakes/definitions"


class Listed(NamedTuple):
    """A crate as crates.txt has it: its group, and what the line above it says."""

    name: str
    group: str
    sentence: str


def listed_crates():
    """The crates, lowest first."""
    group = sentence = ""
    for line in (TOP / "crates.txt").read_text(encoding="utf-8").splitlines():
        if line.startswith("# =="):
            group = line[4:].strip()
        elif line.startswith("#"):
            sentence = line[1:].strip()
        elif ":" in line:
            yield Listed(line.split(":")[0].split()[0], group, sentence)
            sentence = ""


# what the introduction cites: a crate with a function and its clauses, or a function and its crate
CITED = (
    re.compile(r"\[(?P<crate>\w+)\]\(#\w+\), `(?P<name>\w+)`(?:: (?P<clauses>(?:`\w+`(?:, )?)+))?"),
    re.compile(r"`(?P<name>\w+)` of (?P<clauses>)\[(?P<crate>\w+)\]"),
)


def edits_of(crate):
    """The edits of a crate: those of the gate, then those outside it."""
    folders = (CRATES / crate / "must-fail", BODIES / crate)
    return [it for folder in folders for it in sorted(folder.glob("*.edit"))]


def shown_names(edits):
    """Their names; in italics where they are outside the gate."""
    return ", ".join(f"*`{it.stem}`*" if BODIES in it.parents else f"`{it.stem}`" for it in edits)


def first_change(edit):
    """The file, within its crate, and the text that an edit changes first."""
    parts = [it.partition(": ") for it in edit.read_text(encoding="utf-8").splitlines()]
    return (next(text for word, _, text in parts if word == it) for it in ("file", "old"))


class Crate:
    """The functions of a crate, and the edits by the function whose text they change."""

    def __init__(self, listed):
        self.name, self.group, self.sentence = listed
        exported = exported_by(self.name)
        found = (functions_of(self.name, file) for file in sources_of(self.name))
        self.functions = [it for functions in found for it in functions]
        self.given = [it for it in self.functions if is_given(it, exported)]
        self.all_edits = edits_of(self.name)
        # by function, by file where they change none, and what cannot be placed
        self.edits, self.others, self.faults = {}, {}, []
        for edit in self.all_edits:
            self.place(edit)

    def place(self, edit):
        name, old = first_change(edit)
        file = CRATES / self.name / name
        text = file.read_text(encoding="utf-8") if file.is_file() else ""
        at = text.find(old)
        if at < 0:
            self.faults.append(f"{edit.relative_to(TOP)}: {name} has no such text")
            return
        at += len(old) - len(old.lstrip())
        around = [it for it in self.functions if it.file == file and it.start <= at < it.end]
        if around:
            self.edits.setdefault(around[-1], []).append(edit)
        else:
            self.others.setdefault(file, []).append(edit)


# ---- text


def source_link(crate, file, line=None):
    short, at = file.relative_to(CRATES / crate), f":{line}" if line else ""
    return f"[{short}{at}](../../{file.relative_to(TOP)}{to_line(line)})"


def contract_text(function):
    clauses = ("    " + it.replace("\n", "\n    ") for it in function.clauses)
    return code("\n".join([function.signature, *clauses]))


def function_text(crate, function):
    # what is own shows in definitions.md
    comment = function.comment.replace(" (Own)", "")
    head = f"**`{function.name}`** ({source_link(crate.name, function.file, function.line)})"
    parts = [f"{head}: {comment}" if comment else head, contract_text(function)]
    if function in crate.edits:
        parts.append(f"Refuses: {shown_names(crate.edits[function])}.")
    return "\n\n".join(parts) + "\n"


def inner_text(crate):
    """The edits that change other functions of the crate, or no function."""
    rows = []
    for function, edits in crate.edits.items():
        if function not in crate.given:
            place = source_link(crate.name, function.file, function.line)
            rows.append((f"`{function.name}`", place, shown_names(edits)))
    for file, edits in crate.others.items():
        rows.append(("", source_link(crate.name, file), shown_names(edits)))
    return table(("Inner function", "Where", "Refuses"), rows) if rows else ""


def crate_text(crate):
    functions = (function_text(crate, it) for it in crate.given)
    parts = [f"## {crate.name}\n", f"{crate.sentence}\n", *functions, inner_text(crate)]
    return "\n".join(it for it in parts if it)


def contents_text(found):
    """A table of the crates of each group."""
    parts = []
    for group in dict.fromkeys(it.group for it in found):
        rows = (
            (f"[{it.name}](#{it.name})", it.sentence, len(it.given), len(it.all_edits))
            for it in found
            if it.group == group
        )
        head = ("Crate", "What it is", "Functions", "Wrong bodies")
        parts.append(f"**{group}**\n\n{table(head, rows)}")
    return "\n".join(parts)


def wrong_citations(text, crates):
    """What the introduction cites that is not there."""
    functions = {it.name: it.given for it in crates}
    for found in (it for pattern in CITED for it in pattern.finditer(text)):
        crate, name = found["crate"], found["name"]
        same = [it for it in functions.get(crate, []) if it.name.split("::")[-1] == name]
        clauses = re.findall(r"\w+", found["clauses"] or "")
        if not any(set(clauses) <= {it.split()[1] for it in function.clauses} for function in same):
            yield f"tests/made/pages/promises.md cites {found[0]}, which is not there"


def promises_page():
    """The page, and what could not be placed."""
    crates = [Crate(it) for it in listed_crates() if not it.name.endswith("_tests")]
    found = [it for it in reversed(crates) if it.given or it.all_edits]
    bodies, definitions = sum(len(it.all_edits) for it in found), len([*WRONG.glob("*.edit")])
    text = (PAGES / "promises.md").read_text(encoding="utf-8").rstrip() + "\n"
    text = text.replace("{bodies}", str(bodies)).replace("{definitions}", str(definitions))
    parts = [text, contents_text(found), *(crate_text(it) for it in found)]
    faults = [fault for it in found for fault in it.faults]
    return "\n".join(parts), [*faults, *wrong_citations(text, found)]
