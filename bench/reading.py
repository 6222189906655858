"""What the benches of the readers share: bundles of one template, and the time that the built program takes to load them."""

import json
import os
import resource
import subprocess
import sys
import tempfile

SIZES = (65_536, 262_144, 1_048_576)
MOST_GROWTH = 5
TRIES = 7


def fill(pieces, size):
    """Pieces one after the other, as long as they fit: pieces(k) is the k-th."""
    taken, length, k = [], 0, 0
    while True:
        piece = pieces(k)
        if length + len(piece) > size:
            return "".join(taken)
        taken.append(piece)
        length += len(piece)
        k += 1


def write_bundle(folder, template):
    """A view with that template."""
    manifest = {"version": 1, "views": [{"path": "/", "template": "home", "mount": []}]}
    with open(os.path.join(folder, "home.html.heex"), "w", encoding="utf-8") as file:
        file.write(template)
    with open(os.path.join(folder, "bundle.json"), "w", encoding="utf-8") as file:
        json.dump(manifest, file)


def seconds_of(program, template):
    """The least processor time of some runs that load the bundle, and evaluate nothing."""
    with tempfile.TemporaryDirectory() as folder:
        write_bundle(folder, template)
        least = None
        for _ in range(TRIES):
            before = resource.getrusage(resource.RUSAGE_CHILDREN)
            subprocess.run([program, "replay", folder], input=b"browser A\n", check=True)
            after = resource.getrusage(resource.RUSAGE_CHILDREN)
            taken = after.ru_utime + after.ru_stime - before.ru_utime - before.ru_stime
            least = taken if least is None else min(least, taken)
        return least


def program_named():
    """The program of the command line, or the one that `rt run` in `crates/live_cli` makes."""
    program = sys.argv[1] if len(sys.argv) > 1 else "crates/live_cli/out/live_cli"
    if not os.path.exists(program):
        sys.exit(f"no program at {program}: make it by `rt run` in crates/live_cli")
    return os.path.abspath(program)


def measure(empty, template_of):
    """Prints what reading the template of each size costs, an empty one's time taken off."""
    program = program_named()
    nothing = seconds_of(program, empty)
    earlier, good = None, True
    for size in SIZES:
        template = template_of(size)
        taken = max(seconds_of(program, template) - nothing, 1e-6)
        growth = "" if earlier is None else f"{taken / earlier:5.2f} times the time for four times the text"
        good = good and (earlier is None or taken <= MOST_GROWTH * earlier)
        print(f"{len(template):8} bytes: {taken * 1000:7.1f} ms {len(template) / taken / 1e6:7.1f} MB/s {growth}")
        earlier = taken
    if not good:
        sys.exit(f"four times the text took more than {MOST_GROWTH} times the time")
