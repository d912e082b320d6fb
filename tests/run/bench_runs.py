"""What the scripts share that time blocks: a stream that lies in a file, the program that is handed
its lines one after another, and what the last of them take."""

import re
import subprocess
import tempfile
import time
from pathlib import Path

PROGRAM = Path(__file__).resolve().parents[2] / "crates/conway/out/conway"
# the program under which instructions are counted
COUNTING = ("valgrind", "--tool=cachegrind", "--cache-sim=no", "--cachegrind-out-file=/dev/null")


def written(lines):
    """A file of these lines, and how many they are."""
    stream, count = tempfile.TemporaryFile(), 0
    for line in lines:
        stream.write(line + b"\n")
        count += 1
    stream.flush()
    return stream, count


def seconds_of(program, workers):
    """The seconds of the processors that a running program has taken so far (of Linux): of one thread exactly, of more in hundredths."""
    if workers == 1:
        return int(Path(f"/proc/{program.pid}/schedstat").read_text().split()[0]) / 1e9
    ticks = Path(f"/proc/{program.pid}/stat").read_text().rpartition(")")[2].split()
    return (int(ticks[11]) + int(ticks[12])) / 100


def asked(program, number, line):
    """Hands over a line, and gives the last line of the answer to it."""
    program.stdin.write(line)
    program.stdin.flush()
    if b'"kind":"block"' not in line:
        return program.stdout.readline()
    for answer in program.stdout:
        if answer.startswith((b"%d block" % number, b"%d refused" % number)):
            return answer
    return b""


def timed(stream, count, last, workers=1):
    """The seconds that the last so many of its lines take, those of the processors in them, and the last answer, without its number."""
    program = subprocess.Popen([PROGRAM, "replay", "--workers", str(workers)], stdin=subprocess.PIPE, stdout=subprocess.PIPE)
    stream.seek(0)
    answer = b""
    for number, line in enumerate(stream, 1):
        if number == count - last + 1:
            begun, worked = time.perf_counter(), seconds_of(program, workers)
        answer = asked(program, number, line)
    seconds, worked = time.perf_counter() - begun, seconds_of(program, workers) - worked
    program.communicate()
    return seconds, worked, answer.partition(b" ")[2].decode().rstrip()


def instructions(stream, count):
    """Those of a run over so many of its lines, and the last answer, without its number."""
    stream.seek(0)
    with tempfile.TemporaryFile() as text:
        program = subprocess.Popen([*COUNTING, PROGRAM, "replay"], stdin=subprocess.PIPE, stdout=text, stderr=subprocess.PIPE)
        for _, line in zip(range(count), stream):
            program.stdin.write(line)
        _, told = program.communicate()
        text.seek(max(0, text.seek(0, 2) - 1000))
        last = text.read().splitlines()[-1].decode()
    found = re.search(rb"I +refs: +([0-9,]+)", told)
    return int(found[1].replace(b",", b"")), last.partition(" ")[2]
