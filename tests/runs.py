"""A run of a program over a stream, and streams with records behind them."""

import json
import subprocess

SECONDS = 120
PRINT = {"kind": "print", "what": "state"}


def ran(program, command, stream):
    """The status and the text of a command over a stream."""
    it = subprocess.run([program, command], input=stream, capture_output=True, timeout=SECONDS)
    return it.returncode, it.stdout.decode()


def with_records(stream, *records):
    """The stream with these records behind it."""
    end = b"" if stream.endswith(b"\n") else b"\n"
    return stream + end + b"".join(json.dumps(it).encode() + b"\n" for it in records)
