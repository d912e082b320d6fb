"""The streams with stored texts: which there are, and what the built program must give on them.

They are those of examples/, tests/streams/ and tests/streams/worked/ (NAME.in, with NAME.out,
NAME.status, 0 if absent, and NAME.args, one word a line, `replay` if absent), those of
tests/streams/whole, those of the further commands (tests/streams/commands, and
tests/streams/further by the command of their part; one that fails a test has status 8 of `resume`),
and the one that the program itself keeps."""

import os
import re
from pathlib import Path

from cases import Case

TOP = Path(__file__).resolve().parent.parent
# where `rt ci` and `rt run` leave the program
PROGRAM = TOP / "crates/conway/out/conway"
# the commands that read a stream of records from its genesis on, without rollbacks
REPLAYING = ("replay", "explain", "shortfall", "outlook", "checkpoint", "certify")
# the commands that need no further word, and take the option of workers
WITH_WORKERS = (*REPLAYING, "resume", "follow")


def is_missing(program, script):
    """Whether there is no program to run, which is told in the name of the script."""
    missing = not (program.is_file() and os.access(program, os.X_OK))
    if missing:
        where = program.relative_to(TOP) if program.is_relative_to(TOP) else program
        print(f"{script}: there is no program at {where}: run rt ci first")
    return missing


def case_in(stream):
    """The stream of a file, and what the files beside it say that it must give; status 3 where a genesis rule is broken."""
    args, status, rule = (stream.with_suffix(it) for it in (".args", ".status", ".rule"))
    return Case(
        f"{stream.parent.name}/{stream.stem}",
        stream.read_bytes(),
        status=int(status.read_text()) if status.exists() else 3 if rule.exists() else 0,
        wanted=text.read_text() if (text := stream.with_suffix(".out")).exists() else "",
        words=tuple(args.read_text().splitlines()) if args.exists() else ("replay",),
    )


def files_in(folder):
    """The streams of a folder."""
    return map(case_in, sorted((TOP / folder).glob("*.in")))


def further():
    """The streams of tests/streams/further, each with its command."""
    folder = TOP / "tests/streams/further"
    index = (folder / "README.md").read_text(encoding="utf-8")
    for command, table in re.findall(r"^## .*: \w+ \((\w+)\)$([^#]*)", index, re.M):
        for name, test in re.findall(r"^\| `(\w+)` \| [^|]* \|(?: (\w+) \|)?$", table, re.M):
            refused = command == "resume" and test
            yield case_in(folder / f"{name}.in")._replace(words=(command,), **({"status": 8} if refused else {}))


def of_further_commands():
    """The streams of tests/streams/commands and of tests/streams/further."""
    yield from files_in("tests/streams/commands")
    yield from further()


def stored():
    """Each of them."""
    yield from files_in("examples")
    yield from files_in("tests/streams")
    yield from files_in("tests/streams/worked")
    yield from files_in("tests/streams/whole")
    yield from of_further_commands()
    own = TOP / "crates/conway"
    yield Case("the stored run", (own / "stdin").read_bytes(), wanted=(own / "stdout").read_text(), words=tuple((own / "args").read_text().split()))


def replayed():
    """Those whose stream is one of records from a genesis that is read to its end."""
    return (it for it in stored() if it.status == 0 and it.words[0] in REPLAYING)
