"""The ledger for Python, by ctypes over a shared library of crates/conway_c.

    with Conway.open("libconway.so", genesis_line) as ledger:
        verdict = ledger.judge(line)
        text = ledger.record(line)
        with Conway.resume("libconway.so", ledger.checkpoint()) as copy:
            tallies = copy.outlook()

A shared library is made of the archives that examples/c/conway.h names. Run as a program, with the
library as its word, it reads a stream of records from standard input and writes what
`conway replay` writes for it, with the same status."""

import ctypes
import os
import struct
import sys

DONE, BAD_GENESIS, NO_MEMORY, BAD_CHECKPOINT, IS_CLOSED, IS_FULL, IS_BLANK = 0, 3, 6, 8, 20, 21, 22
# bytes of room for a text, before a longer one comes
ROOM = 4096


class _Handle(ctypes.Structure):
    _fields_ = [("ledger", ctypes.c_void_p)]


class _Answer(ctypes.Structure):
    _fields_ = [("status", ctypes.c_uint32), ("written", ctypes.c_size_t), ("wanted", ctypes.c_size_t)]


class Fault(Exception):
    """A call that ended with another status than 0."""

    def __init__(self, status):
        super().__init__(f"status {status}")
        self.status = status


def load(library):
    """The library at this path, with the types of its calls."""
    calls = ctypes.CDLL(library)
    handle, bytes_ = ctypes.POINTER(_Handle), ctypes.c_char_p
    size, number = ctypes.c_size_t, ctypes.c_uint64
    for name, words, result in (
        ("conway_open", [bytes_, size, number, number, number, handle], _Answer),
        ("conway_resume", [bytes_, size, number, number, handle], _Answer),
        ("conway_record", [handle, bytes_, size, bytes_, size], _Answer),
        ("conway_judge", [handle, bytes_, size, bytes_, size], _Answer),
        ("conway_explain", [handle, bytes_, size, bytes_, size], _Answer),
        ("conway_checkpoint", [handle, bytes_, size], _Answer),
        ("conway_outlook", [handle, bytes_, size], _Answer),
        ("conway_text", [handle, bytes_, size], _Answer),
        ("conway_close", [handle], None),
    ):
        call = getattr(calls, name)
        call.argtypes, call.restype = words, result
    return calls


def _seed():
    """Two numbers that whoever sends records cannot guess."""
    return struct.unpack("=QQ", os.urandom(16))


class Conway:
    """A ledger, with the text of its last answer. It is closed once memory ran out."""

    def __init__(self, calls):
        self._calls = calls
        self._handle = _Handle()
        self._room = ctypes.create_string_buffer(ROOM)

    @classmethod
    def open(cls, library, genesis, number=1):
        """The ledger of the genesis on the line of this number, without its line feed."""
        ledger = cls(load(library) if isinstance(library, str) else library)
        ledger._done(ledger._calls.conway_open(genesis, len(genesis), number, *_seed(), ledger._handle))
        return ledger

    @classmethod
    def resume(cls, library, text):
        """The ledger of a checkpoint, of its whole text."""
        ledger = cls(load(library) if isinstance(library, str) else library)
        ledger._done(ledger._calls.conway_resume(text, len(text), *_seed(), ledger._handle))
        return ledger

    def record(self, line):
        """Records the next line, without its line feed; returns what `replay` writes for it."""
        room = self._room
        return self._text(self._calls.conway_record(self._handle, line, len(line), room, len(room)))

    def judge(self, line):
        """The line of the reply that the next line would get; nothing is recorded."""
        room = self._room
        return self._text(self._calls.conway_judge(self._handle, line, len(line), room, len(room)))

    def explain(self, line):
        """A line for each rule that the next line breaks, each bad value and each unknown name; nothing is recorded."""
        room = self._room
        return self._text(self._calls.conway_explain(self._handle, line, len(line), room, len(room)))

    def checkpoint(self):
        """What `checkpoint` writes here."""
        return self._shown(self._calls.conway_checkpoint)

    def outlook(self):
        """What `outlook` writes here. It uses the ledger up; take a copy by `resume` to go on."""
        return self._shown(self._calls.conway_outlook)

    def text(self):
        """The text of the last answer."""
        return self._shown(self._calls.conway_text)

    def close(self):
        """Frees what the ledger holds. It may be closed again."""
        self._calls.conway_close(self._handle)

    def _shown(self, call):
        room = self._room
        return self._text(call(self._handle, room, len(room)))

    def _text(self, answer):
        self._done(answer)
        if answer.written < answer.wanted:
            self._room = ctypes.create_string_buffer(answer.wanted)
            return self.text()
        return ctypes.string_at(self._room, answer.written)

    @staticmethod
    def _done(answer):
        if answer.status != DONE:
            raise Fault(answer.status)

    def __enter__(self):
        return self

    def __exit__(self, *_):
        self.close()


def replay(library, lines, write):
    """Writes what `conway replay` writes for these lines; returns its status."""
    calls = load(library)
    ledger = None
    try:
        for number, line in enumerate(lines, 1):
            line = line[:-1] if line.endswith(b"\n") else line
            if ledger is not None:
                write(ledger.record(line))
                continue
            try:
                ledger = Conway.open(calls, line, number)
            except Fault as fault:
                if fault.status != IS_BLANK:
                    raise
            else:
                write(ledger.text())
    except Fault as fault:
        return fault.status
    finally:
        if ledger is not None:
            ledger.close()
    return DONE if ledger is not None else BAD_GENESIS


if __name__ == "__main__":
    sys.exit(replay(sys.argv[1], sys.stdin.buffer, sys.stdout.buffer.write))
