"""The plain program of tests/run/plain, compiled, beside which tests/run/bench and
tests/run/bench_load measure the built one."""

import shutil
import subprocess
from pathlib import Path

SOURCE = Path(__file__).resolve().parent / "plain/main.rs"
# with which it ends at a line that it does not cover
NOT_COVERED = 3


def compiled(script, folder):
    """The program, compiled into this folder, or None where there is no compiler, which it says."""
    if not shutil.which("rustc"):
        print(f"{script}: there is no rustc here to compile the plain program, so it is not measured")
        return None
    program = Path(folder) / "plain"
    subprocess.run(["rustc", "-O", "--edition", "2024", SOURCE, "-o", program], check=True)
    return program
