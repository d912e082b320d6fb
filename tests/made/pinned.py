"""What shows that a definition is the one that is meant: wrong ones that are refused, the rows and
laws that refuse them, and the functions whose clauses name it."""

import re
from collections import Counter

from made.contracts import exported_by, functions_of, is_given, sources_of
from made.specs import CRATES, TOP, crates, imports_of, names_in
from mistakes.trials import WRONG, wrong_in

# the modules of rows that are on definitions themselves
ROWS = [CRATES / "ledger_rows/proofs/DefinitionRows.antt", *(CRATES / f"further_rows/proofs/{it}.antt" for it in ("UndoRows", "FormRows", "WidthRows", "CommandRows"))]
ROW = re.compile(r"^pub (\w+) ", re.M)


def lines_of(text, part):
    """The first and the last line of a part of a text, from 1."""
    first = text.count("\n", 0, max(text.find(part), 0)) + 1
    return first, first + part.count("\n")


def changed_by(wrong, specs):
    """The definitions that a wrong definition changes."""
    file = TOP / wrong.file
    text = file.read_text(encoding="utf-8") if file.is_file() else ""
    for old, _ in wrong.changes:
        first, last = lines_of(text, old)
        yield from (it for it in specs.of_file.get(file, []) if it.first <= last and first <= it.last)


def rows_naming():
    """The rows that name a definition themselves, by its key."""
    found = {}
    for file in (it for it in ROWS if it.exists()):
        text = file.read_text(encoding="utf-8")
        scope = {name: (*place, name) for name, place in imports_of(text)}
        parts = ROW.split(text)
        for row, body in zip(parts[1::2], parts[2::2]):
            for name in scope.keys() & set(names_in(body)):
                found.setdefault(scope[name], set()).add(row)
    return found


def functions_naming():
    """The public functions that promise something by a definition, by its key: crate and name."""
    found = {}
    for crate in (it for it in crates() if not it.endswith("_tests")):
        exported = exported_by(crate)
        for file in sources_of(crate):
            text = file.read_text(encoding="utf-8")
            scope = {name: (*place, name) for name, place in imports_of(text)}
            for function in functions_of(crate, file):
                promised = " ".join(it for it in function.clauses if it.startswith("ensures"))
                if is_given(function, exported):
                    for name in scope.keys() & set(names_in(promised)):
                        found.setdefault(scope[name], {})[crate, function.name] = None
    return found


class Pinned:
    """All wrong definitions by name, and what bears on each definition, by its key."""

    def __init__(self, specs):
        self.every = {it.stem: wrong_in(it) for it in sorted(WRONG.glob("*.edit"))}
        self.rows, self.functions = rows_naming(), functions_naming()
        self.mistakes = {}
        for name, wrong in self.every.items():
            for it in changed_by(wrong, specs):
                self.mistakes.setdefault(it.key(), set()).add(name)

    def of(self, definitions):
        """The mistakes in some definitions, the rows, and the crates of laws and of code."""
        keys = [it.key() for it in definitions]
        wrong = set().union(*(self.mistakes.get(it, ()) for it in keys))
        by = {it for name in wrong for it in self.every[name].by}
        laws = {it for it in by if (CRATES / it).is_dir()}
        rows = (by - laws).union(*(self.rows.get(it, ()) for it in keys))
        return wrong, rows, laws

    def counts(self):
        """How many there are of each crate, with whether laws or contracts are to refuse them."""
        return Counter((it.crate(), bool(it.laws())) for it in self.every.values())
