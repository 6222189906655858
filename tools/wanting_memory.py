#!/usr/bin/env python3
"""Replays each of the examples with each allocation failing in turn.

A run must end with the whole output and status 0, or with status 6 and a front of it. Outside the gate: it needs a C
compiler, and the program as `rt run` leaves it in crates/live_cli/out. A path to another build may be given.
"""
import os
import shutil
import subprocess
import sys
import tempfile
from pathlib import Path

TOP = Path(__file__).resolve().parent.parent
# A growth that may fail without harm gives the whole output too, so the last that was wanted is looked for this far.
BEHIND = 50


def run(program, example, library, fail_at):
    environment = {**os.environ, "LD_PRELOAD": str(library), "FAIL_AT": str(fail_at)}
    words = [program, "replay", example / "bundle"]
    script = (example / "script.txt").read_bytes()
    ended = subprocess.run(words, input=script, capture_output=True, env=environment, timeout=20)
    return ended.returncode, ended.stdout


def try_example(program, example, library):
    whole = (example / "output.txt").read_bytes()
    if not whole or run(program, example, library, 0) != (0, whole):
        print(f"{example.name}: another output than output.txt, with all the memory")
        return False
    wanting, fail_at = 0, 0
    while fail_at <= wanting + BEHIND:
        fail_at += 1
        status, output = run(program, example, library, fail_at)
        if status == 6 and whole.startswith(output):
            wanting = fail_at
        elif (status, output) != (0, whole):
            print(f"{example.name}, allocation {fail_at} failing: status {status}, output {output!r}")
            return False
    print(f"{example.name}: each of {fail_at} allocations failed in turn, and the last that was wanted is {wanting}")
    return True


def main():
    program = Path(sys.argv[1]) if len(sys.argv) > 1 else TOP / "crates" / "live_cli" / "out" / "live_cli"
    compiler = shutil.which("cc")
    if compiler is None or not program.is_file():
        print(f"skipped: no C compiler, or no program at {program}")
        return 0
    examples = sorted((TOP / "examples").iterdir())
    with tempfile.TemporaryDirectory() as folder:
        library = Path(folder) / "failing_malloc.so"
        source = TOP / "tools" / "failing_malloc.c"
        subprocess.run([compiler, "-shared", "-fPIC", "-O1", "-o", library, source, "-ldl"], check=True)
        passed = [try_example(program, example, library) for example in examples]
    return 0 if all(passed) and examples else 1


sys.exit(main())
