"""The functions in crates/*/src: where each is, what its comment says, and its contract.

No compiler reads the sources here. Braces are matched; texts, characters and comments are passed
over."""

import re
from bisect import bisect_left
from pathlib import Path
from typing import NamedTuple

TOP = Path(__file__).resolve().parents[2]
CRATES = TOP / "crates"

# what is no code, and then what opens, closes or ends
PART = re.compile(
    r"""
      //[^\n]* | /\*.*?\*/
    | b?"(?:\\.|[^"\\])*"
    | \bb'(?:\\.|[^'\\])'
    | (?<![\w'])'(?:\\(?:x\w\w|u\{\w+\}|.)|[^'\\])'
    | [{}();\[\]]
    """,
    re.S | re.X,
)
VISIBLE = r"pub(?:\([a-z]+\))? "
FUNCTION = re.compile(rf"^(?P<indent> *)(?P<words>(?:{VISIBLE}|const |unsafe )*)fn (?P<name>\w+)", re.M)
BLOCK = re.compile(rf"^(?P<visible>{VISIBLE})?(?P<kind>impl|trait)\b(?P<head>[^{{;]*)\{{", re.M)
# what is before the brace of a clause
CLAUSE = re.compile(r"\b(?:(?:requires|ensures)(?:\s+\w+\*?|\s*\*)?|ghost\s+\w+:)\s*$")


class Function(NamedTuple):
    """A function. Its name has the type or the trait before it; start and end are those of its text."""

    crate: str
    name: str
    file: Path
    line: int
    comment: str
    is_public: bool
    signature: str
    clauses: tuple
    start: int
    end: int


class Block(NamedTuple):
    """An impl or a trait, with the type or the trait that it is of."""

    name: str
    is_public_trait: bool
    is_of_trait: bool
    start: int
    end: int


class Parts:
    """What opens, closes or ends in a text, by place."""

    def __init__(self, text):
        self.text = text
        found = ((it.start(), it[0]) for it in PART.finditer(text))
        self.marks = [(at, mark) for at, mark in found if mark in "{}();[]"]
        self.places = [at for at, _ in self.marks]
        self.closes = self.closing()

    def closing(self):
        """Where each brace is closed that opens."""
        found, opened = {}, []
        for at, mark in self.marks:
            if mark == "{":
                opened.append(at)
            elif mark == "}" and opened:
                found[opened.pop()] = at
        return found

    def contract(self, start):
        """The signature, the clauses and the end of the function whose 'fn' is at a place."""
        number, depth, last, signature, clauses = bisect_left(self.places, start), 0, start, None, []
        while number < len(self.marks):
            at, mark = self.marks[number]
            number += 1
            depth += (mark in "([") - (mark in ")]")
            if depth or mark not in "{;":
                continue
            clause = CLAUSE.search(without_comments(self.text[last:at])) if mark == "{" else None
            begin = self.text.rfind(clause[0], last, at) if clause else at
            if signature is None:
                signature = self.text[start:begin]
            if not clause:
                return signature, tuple(clauses), self.closes.get(at, at) + 1
            last = self.closes[at] + 1
            clauses.append(moved_left(self.text, begin, last))
            number = bisect_left(self.places, last)
        raise SystemExit(f"no function ends: {self.text[start : start + 80]}")


# ---- text


def without_comments(text):
    return re.sub(r"//[^\n]*", "", text)


def moved_left(text, start, end):
    """A part of a text. Its later lines move left as far as its first line is indented."""
    indent = start - text.rfind("\n", 0, start) - 1
    first, *rest = text[start:end].splitlines()
    rest = (it[min(indent, len(it) - len(it.lstrip())) :].rstrip() for it in rest)
    return "\n".join([first, *rest])


def in_one_line(text):
    return re.sub(r"\s+", " ", without_comments(text)).strip()


def tight(signature):
    """A signature in one line, without the spaces and the commas that its lines had."""
    line = in_one_line(signature)
    if "( " in line or "< " in line:
        line = re.sub(r",? ?([>)])", r"\1", re.sub(r"([(<]) ", r"\1", line))
    return line


def comment_above(lines, number):
    """The `///` lines above a line, over its attributes, as one."""
    found = []
    for line in map(str.strip, reversed(lines[: number - 1])):
        if line.startswith("///"):
            found.append(line[3:].strip())
        elif not line.startswith("#[") and (found or not line.startswith("//")):
            break
    return " ".join(reversed(found))


# ---- blocks and functions


def behind_generics(head):
    """The text behind the parameters of types with which it begins."""
    depth = 0
    for at, letter in enumerate(head):
        depth += (letter == "<") - (letter == ">" and head[at - 1] != "-")
        if not depth:
            return head[at + 1 :] if letter == ">" else head
    return head


def blocks_of(text, parts):
    for found in BLOCK.finditer(text):
        opened = found.end() - 1
        head, is_trait = in_one_line(found["head"]), found["kind"] == "trait"
        is_of_trait = not is_trait and " for " in head
        subject = head if is_trait else behind_generics(head).split(" where ")[0].split(" for ")[-1]
        name = re.search(r"(?:\w+::)*(\w+)", subject)
        if name and opened in parts.closes:
            is_public_trait = is_trait and found["visible"] == "pub "
            yield Block(name[1], is_public_trait, is_of_trait, found.start(), parts.closes[opened])


def functions_of(crate, file):
    """The functions of a file, in its order."""
    text = file.read_text(encoding="utf-8")
    parts, lines = Parts(text), text.splitlines()
    blocks = [*blocks_of(text, parts)]
    for found in FUNCTION.finditer(text):
        at = found.start("words")
        line = text.count("\n", 0, at) + 1
        signature, clauses, end = parts.contract(at)
        around = next((it for it in blocks if it.start < at < it.end), None)
        name = f"{around.name}::{found['name']}" if around else found["name"]
        is_public = found["words"].startswith("pub ")
        if around and (around.is_public_trait or around.is_of_trait and clauses):
            is_public = True
        comment = comment_above(lines, line)
        yield Function(crate, name, file, line, comment, is_public, tight(signature), clauses, at, end)


# ---- crates


def sources_of(crate):
    """The files of a crate, lib.rt or main.rt first."""
    found = sorted((CRATES / crate / "src").rglob("*.rt"))
    return sorted(found, key=lambda it: (it.stem not in ("lib", "main"), it))


def exported_by(crate):
    """The names that a crate gives away, and the files all of whose public items it gives away.

    A program gives nothing away. All its public functions are of interest, so its files are open."""
    texts = {it: it.read_text(encoding="utf-8") for it in sources_of(crate)}
    modules = {name for text in texts.values() for name in re.findall(r"^pub mod (\w+);", text, re.M)}
    is_program = any(it.stem == "main" for it in texts)
    opened = {it for it in texts if is_program or it.stem == "lib" or it.stem in modules}
    lists = (it for text in texts.values() for it in re.findall(r"^pub use ([^;]*);", text, re.M))
    names = {name for it in lists for name in re.findall(r"\w+", it)}
    for file in opened:
        names.update(re.findall(r"^pub (?:struct|enum|trait) (\w+)", texts[file], re.M))
    return names, opened


def is_given(function, exported):
    """Whether other crates can call it."""
    names, opened = exported
    return function.is_public and (function.file in opened or function.name.split("::")[0] in names)
