#!/usr/bin/python3
"""Chains of 100,000 operators, read, evaluated, shown and dropped by the built program.

    tools/long_chains.py [PROGRAM]

PROGRAM is `crates/live_cli/out/live_cli` where it is not given; `rt run` in `crates/live_cli` makes it. Each expression is
the template's one place and also the value of a step of mount. It stands outside the gate: the prover's runs give tests
less stack than a process has, and what matters here is the program as it is built.
"""

import json
import os
import subprocess
import sys
import tempfile

LENGTH = 100_000
CHAINS = (
    ("a sum", "0" + "+1-1" * (LENGTH // 2) + "+7", "7"),
    ("joined lists", "length(" + "[]++" * LENGTH + "[1])", "1"),
    ("indexes", "is_nil(nil" + "[:a]" * LENGTH + ")", "true"),
    ("fields", "1 || @m" + ".a" * LENGTH, "1"),
    ("pipes", "0" + "|>max(5)" * LENGTH, "5"),
    ("alternatives", "nil" + "||nil" * LENGTH + "||3", "3"),
)


def shown(program, text):
    """What the page of that expression shows."""
    with tempfile.TemporaryDirectory() as folder:
        manifest = {
            "version": 1,
            "views": [{"path": "/", "template": "home", "mount": [["assign", "x", text]]}],
        }
        with open(os.path.join(folder, "home.html.heex"), "w", encoding="utf-8") as file:
            file.write("{%s} {@x}" % text)
        with open(os.path.join(folder, "bundle.json"), "w", encoding="utf-8") as file:
            json.dump(manifest, file)
        script = b"browser A\njoin A /\nrun A\nhtml A\n"
        done = subprocess.run([program, "replay", folder], input=script, capture_output=True, check=False)
        if done.returncode != 0:
            return f"status {done.returncode}"
        return done.stdout.decode().split("\n", 1)[1].rstrip("\n")


def main():
    program = sys.argv[1] if len(sys.argv) > 1 else "crates/live_cli/out/live_cli"
    if not os.path.exists(program):
        sys.exit(f"no program at {program}: make it by `rt run` in crates/live_cli")
    wrong = 0
    for name, text, value in CHAINS:
        found = shown(os.path.abspath(program), text)
        good = found == f"{value} {value}"
        wrong += not good
        print(f"{name}: {'ok' if good else found[:200]}")
    sys.exit(1 if wrong else 0)


if __name__ == "__main__":
    main()
