#!/usr/bin/python3
"""What an event costs: runs the built program over bundles of 1, 100 and 1,000 places.

    bench/events.py [PROGRAM]

PROGRAM is `crates/live_cli/out/live_cli` where it is not given; `rt run` in `crates/live_cli` makes it. For each bundle
it writes scripts of so many events, and of twice as many to the same browsers, each event followed by a step, spread so
that no process comes near its limits. It prints events per second, how the time grows with twice the events, bytes per
frame, and peak memory per event. It stands outside the gate.
"""

import json
import os
import resource
import subprocess
import sys
import tempfile
import time

PLACES = (1, 100, 1000)
EVENTS = (5_000, 50_000)
A_BROWSER = 5_000
MOST_GROWTH = 2.2


def names(places):
    """The assigns of a page: `n0`, which the event changes, and those beside it."""
    return [f"n{k}" for k in range(places)]


def write_bundle(folder, places):
    """A view with so many places, and the event `inc` that changes the first."""
    template = " ".join("{@%s}" % name for name in names(places))
    manifest = {
        "version": 1,
        "views": [
            {
                "path": "/",
                "template": "home",
                "mount": [["assign", name, "0"] for name in names(places)],
                "events": {"inc": [["assign", "n0", "@n0 + 1"]]},
            }
        ],
    }
    with open(os.path.join(folder, "home.html.heex"), "w", encoding="utf-8") as file:
        file.write(template)
    with open(os.path.join(folder, "bundle.json"), "w", encoding="utf-8") as file:
        json.dump(manifest, file)


def browsers_for(events):
    """So many browsers that each gets at most `A_BROWSER` events."""
    return -(-events // A_BROWSER)


def script_of(events, browsers, frames):
    """So many events to each of the browsers; `frames` says whether the frames are printed."""
    lines = []
    for k in range(browsers):
        lines += [f"browser B{k}", f"join B{k} /", f"step B{k}"]
    for k in range(browsers):
        lines += [f"event B{k} click inc {{}}", f"step B{k}"] * (events // browsers)
        if frames:
            lines.append(f"frames B{k}")
        lines.append(f"html B{k}")
    return "\n".join(lines) + "\n"


def run(program, folder, script):
    """Seconds, the output, and the peak of memory in bytes."""
    before = resource.getrusage(resource.RUSAGE_CHILDREN)
    began = time.monotonic()
    with subprocess.Popen(
        [program, "replay", folder], stdin=subprocess.PIPE, stdout=subprocess.PIPE
    ) as child:
        output, _ = child.communicate(script.encode())
    seconds = time.monotonic() - began
    if child.returncode != 0:
        sys.exit(f"the program ended with status {child.returncode}: {output[:200]!r}")
    after = resource.getrusage(resource.RUSAGE_CHILDREN)
    processor = after.ru_utime + after.ru_stime - before.ru_utime - before.ru_stime
    return seconds, processor, output


def peak(program, folder, script):
    """The peak of memory of one run in bytes, told by a process of its own."""
    code = (
        "import resource,subprocess,sys;"
        "subprocess.run([sys.argv[1],'replay',sys.argv[2]],stdin=sys.stdin,stdout=subprocess.DEVNULL,check=True);"
        "print(resource.getrusage(resource.RUSAGE_CHILDREN).ru_maxrss*1024)"
    )
    with tempfile.TemporaryFile() as file:
        file.write(script.encode())
        file.seek(0)
        told = subprocess.run(
            [sys.executable, "-c", code, program, folder], stdin=file, capture_output=True, check=True
        )
    return int(told.stdout)


def frames_in(output):
    """The frames of diffs among the lines of the output."""
    return [line for line in output.splitlines() if line.startswith(b"[") and b'"diff"' in line]


def measure(program, folder, places):
    """Prints what the runs of one bundle take, and tells whether the time grows as it may."""
    _, _, output = run(program, folder, script_of(100, 1, True))
    frames = frames_in(output)
    size = sum(map(len, frames)) / len(frames)
    good = True
    for events in EVENTS:
        browsers = browsers_for(2 * events)
        once, twice = (
            min(run(program, folder, script_of(n, browsers, False))[1] for _ in range(5))
            for n in (events, 2 * events)
        )
        growth = twice / once
        good = good and growth <= MOST_GROWTH
        print(
            f"{places:6} places {events:7} events: {events / once:10.0f} events/s "
            f"{growth:5.2f} times the time for twice the events"
        )
    # The peak of a small run is hidden below that of the interpreter that starts it.
    most = max(EVENTS)
    browsers = browsers_for(2 * most)
    twice, once = (
        peak(program, folder, script_of(n, browsers, False)) for n in (2 * most, most)
    )
    print(f"{places:6} places: {size:.1f} bytes/frame, {(twice - once) / most:.0f} bytes of memory/event")
    return good


def main():
    program = sys.argv[1] if len(sys.argv) > 1 else "crates/live_cli/out/live_cli"
    if not os.path.exists(program):
        sys.exit(f"no program at {program}: make it by `rt run` in crates/live_cli")
    good = True
    for places in PLACES:
        with tempfile.TemporaryDirectory() as folder:
            write_bundle(folder, places)
            good = measure(os.path.abspath(program), folder, places) and good
    if not good:
        sys.exit(f"twice the events took more than {MOST_GROWTH} times the time")


if __name__ == "__main__":
    main()
