"""The entries of docs/read/definitions.md, as tests/made/pages/definitions.table lists them, each
with the definitions that it is made of."""

import re
from collections import Counter
from pathlib import Path
from typing import NamedTuple

from made.markdown import slug
from made.specs import TOP, Specs

PAGES = Path(__file__).resolve().parent / "pages"
TABLE = PAGES / "definitions.table"


class Entry(NamedTuple):
    """What the page says at one place. `groups` has what the shown definitions are made of, file by
    file; an entry that is whole prints them, too."""

    heading: str
    anchor: str
    shown: tuple
    says: str
    source: str
    differs: str
    is_whole: bool
    groups: list

    def inner(self):
        return [it for group in self.groups for it in group]

    def printed(self):
        return [*self.shown, *(self.inner() if self.is_whole else [])]


class Section(NamedTuple):
    """A section of the table: its kind is 'whole', 'links' or 'own'."""

    title: str
    kind: str
    lines: list


def sections():
    for part in re.split(r"^## ", TABLE.read_text(encoding="utf-8"), flags=re.M)[1:]:
        title, kind, *lines = [it for it in part.splitlines() if it.strip()]
        yield Section(title, kind, [[cell.strip() for cell in line.split("|")] for line in lines])


class Names:
    """The definitions by name, as the table writes it. What is none, or several, is a fault."""

    def __init__(self, specs):
        self.found, self.faults = {}, []
        for it in specs.all:
            for name in (it.name, "::".join(it.key())):
                self.found.setdefault(name, []).append(it)

    def of(self, cell):
        """The definitions of a cell."""
        found = {name.strip(): self.found.get(name.strip(), []) for name in cell.split(",")}
        for name, them in found.items():
            if len(them) != 1:
                text = f"{TABLE.relative_to(TOP)}: there are {len(them)} definitions {name}"
                self.faults += [text] if text not in self.faults else []
        return tuple(them[0] for them in found.values() if len(them) == 1)


class Book:
    """The entries of each section, and the entry of each definition that one shows or is made of."""

    def __init__(self):
        self.specs = Specs()
        self.names = Names(self.specs)
        self.sections = [*sections()]
        self.named = {it.key(): self.specs.named_by(it) for it in self.specs.all}
        self.order = {it.key(): number for number, it in enumerate(self.specs.all)}
        listed = [it for it in self.sections if it.kind != "own"]
        shown = [it for section in listed for line in section.lines for it in self.names.of(line[0])]
        self.repeated = {name for name, n in Counter(it.name for it in shown).items() if n > 1}
        self.seen = {it.key() for it in shown}
        self.entry_of, self.entries = {}, {}
        for section in listed:
            is_whole = section.kind == "whole"
            self.entries[section.title] = [self.entry(line, is_whole) for line in section.lines]

    def entry(self, line, is_whole):
        shown = self.names.of(line[0])
        inner = [it for definition in shown for it in self.unseen_below(definition)]
        heading = ", ".join(self.shown_name(it) for it in shown)
        groups = self.grouped(inner, [it.file for it in shown])
        entry = Entry(heading, slug(heading), shown, *line[1:4], is_whole, groups)
        self.entry_of.update((it.key(), entry) for it in (*shown, *inner))
        return entry

    def shown_name(self, definition):
        """Its name, with its file where several entries have the name."""
        file = f" (`{definition.file.stem}`)" if definition.name in self.repeated else ""
        return f"`{definition.name}`{file}"

    def unseen_below(self, definition):
        """What a definition is made of, without what is at an entry already."""
        for it in self.named[definition.key()]:
            if it.key() not in self.seen:
                self.seen.add(it.key())
                yield it
                yield from self.unseen_below(it)

    def grouped(self, definitions, first):
        """The definitions by file: the first files, then higher ones before those on which they rest."""
        files = {it.file: self.order[it.key()] for it in definitions}
        in_order = sorted(files, key=lambda file: (file not in first, -files[file]))
        return [
            sorted((it for it in definitions if it.file == file), key=lambda it: it.line)
            for file in in_order
        ]

    def printed_at(self, definition):
        """The entry that prints a definition, if one does."""
        entry = self.entry_of.get(definition.key())
        return entry if entry and (entry.is_whole or definition in entry.shown) else None
