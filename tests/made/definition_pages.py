"""docs/read/definitions.md."""

from made.entries import PAGES, Book
from made.markdown import code, counted, folded, listed, slug, table, to_line
from made.pinned import Pinned
from made.specs import CRATES, TOP, crates

MISTAKES, UNCITED = "Mistakes, crate by crate", "Definitions that nothing cites"
# how many functions an entry names at most
MOST = 8


# ---- text


def source_link(definition, text):
    return f"[{text}](../../{definition.file.relative_to(TOP)}{to_line(definition.line)})"


def place_link(definition):
    place = definition.file.relative_to(CRATES)
    return source_link(definition, f"{place}:{definition.line}")


def name_link(book, definition):
    """A link to the entry that prints a definition, or to its source."""
    entry, name = book.printed_at(definition), f"`{definition.name}`"
    return f"[{name}](#{entry.anchor})" if entry else source_link(definition, name)


def texts_of(definitions):
    return code("\n\n".join(it.text for it in definitions))


# ---- an entry


def inner_text(entry):
    """What a whole entry is made of."""
    groups = []
    for it in entry.groups:
        groups.append(f"{source_link(it[0], it[0].file.relative_to(CRATES))}:\n\n{texts_of(it)}")
    return folded(f"Made of {counted(len(entry.inner()), 'more definition')}", "\n\n".join(groups))


def others_text(book, entry):
    """The definitions that an entry names and does not print."""
    printed = {it.key() for it in entry.printed()}
    named = {other.key(): other for it in entry.printed() for other in book.named[it.key()]}
    links = {it.name: name_link(book, it) for key, it in named.items() if key not in printed}
    return f"Also names: {', '.join(links[it] for it in sorted(links))}.\n" if links else ""


def functions_text(pinned, entry):
    """The public functions whose clauses name the shown definitions."""
    found = sorted({it for shown in entry.shown for it in pinned.functions.get(shown.key(), ())})
    if not found:
        return ""
    links = [f"[`{name}`](promises.md#{crate}) of {crate}" for crate, name in found[:MOST]]
    more = f" and {len(found) - MOST} more" if len(found) > MOST else ""
    return f"In clauses of: {', '.join(links)}{more}.\n"


def pinned_text(pinned, entry):
    wrong, rows, laws = pinned.of([*entry.shown, *entry.inner()])
    named = (("Mistakes", wrong), ("Rows", rows), ("Laws and contracts of", laws))
    parts = [f"{word}: {listed(names)}." for word, names in named if names]
    counts = [f"{counted(len(wrong), 'mistake')} refused"] if wrong else []
    counts += [counted(len(rows), "row")] if rows else []
    return folded("; ".join(counts), "\n\n".join(parts)) if parts else ""


def entry_text(book, pinned, entry):
    places = ", ".join(place_link(it) for it in entry.shown)
    parts = [
        f"### {entry.heading}\n",
        f"{entry.says}\n",
        f"{texts_of(entry.shown)}\n",
        f"{places}; source: {entry.source}.\n",
        f"Differs: {entry.differs}.\n" if entry.differs else "",
        functions_text(pinned, entry),
        inner_text(entry) if entry.is_whole and entry.groups else "",
        others_text(book, entry),
        pinned_text(pinned, entry),
    ]
    return "\n".join(it for it in parts if it)


# ---- the page


def own_text(book, section):
    """The table of what is own, with links."""
    rows = []
    for rule, names in section.lines:
        rows.append((rule, ", ".join(name_link(book, it) for it in book.names.of(names))))
    return table(("Rule", "Definitions"), rows)


def mistakes_text(book, pinned):
    """How many mistakes there are, crate by crate, and those that are at no entry."""
    counts, rows = pinned.counts(), []
    for crate in crates():
        by_rows, by_laws = counts[crate, False], counts[crate, True]
        rows += [(crate, by_rows + by_laws, by_rows, by_laws)] if by_rows + by_laws else []
    rows.append(("all", *(sum(row[it] for row in rows) for it in (1, 2, 3))))
    entries = [it for found in book.entries.values() for it in found]
    at_entries = set().union(*(pinned.of([*it.shown, *it.inner()])[0] for it in entries))
    others = listed(set(pinned.every) - at_entries)
    return "\n".join(
        (
            table(("Crate", "Mistakes", "To be refused by rows", "By laws or contracts"), rows),
            f"These change a definition that no entry names or is made of: {others}.\n",
        )
    )


def uncited_text(specs):
    cited = specs.cited()
    found = (it for it in specs.all if it.key() not in cited)
    rows = ((f"`{it.name}`", it.comment, place_link(it)) for it in found)
    return table(("Name", "What it says", "Where"), rows)


def definitions_page():
    """The page, and what could not be placed."""
    book = Book()
    pinned = Pinned(book.specs)
    titles = [*(it.title for it in book.sections), MISTAKES, UNCITED]
    parts = [
        (PAGES / "definitions.md").read_text(encoding="utf-8").rstrip() + "\n",
        "\n".join(f"- [{it}](#{slug(it)})" for it in titles) + "\n",
    ]
    for section in book.sections:
        parts.append(f"## {section.title}\n")
        if section.kind == "own":
            parts.append(own_text(book, section))
        else:
            parts += [entry_text(book, pinned, it) for it in book.entries[section.title]]
    parts += [f"## {MISTAKES}\n", mistakes_text(book, pinned)]
    parts += [f"## {UNCITED}\n", "No other definition, no contract and no proof names these.\n"]
    parts.append(uncited_text(book.specs))
    return "\n".join(parts), book.names.faults
