#!/usr/bin/python3
"""What an event costs on a page of rows and on one of branches: runs the built program over both.

    bench/bodies.py [PROGRAM]

PROGRAM is `crates/live_cli/out/live_cli` where it is not given; `rt run` in `crates/live_cli` makes it. One page is a
loop of 1,000 rows, the other has 200 branches. For each it prints what an event costs that changes one place, beside one
that changes nothing: the time of an event, the time of the joins taken off, and bytes per frame. A loop sends all its
rows where its list differs, a branch only its places that changed. It stands outside the gate.
"""

import json
import os
import sys
import tempfile

from events import run

ROWS = 1_000
BRANCHES = 200
EVENTS = 2_000
A_BROWSER = 500
TRIES = 5


def rows_page():
    """A loop over a list of which the event changes the first item."""
    template = "<ul><li :for={n <- [@first] ++ @rest}>{n}</li></ul>"
    rest = "[" + ", ".join(str(k) for k in range(1, ROWS)) + "]"
    mount = [["assign", "first", "1"], ["assign", "rest", rest]]
    return template, mount, {
        "change": [["assign", "first", "@first + 1"]],
        "nothing": [["assign", "first", "@first"]],
    }


def branches_page():
    """Conditions beside one another; the event changes the one place inside the first."""
    template = "\n".join(
        "<p><%%= if @on do %%>{@n%d}<%% else %%>none<%% end %%></p>" % k for k in range(BRANCHES)
    )
    mount = [["assign", "on", "true"]] + [["assign", f"n{k}", "0"] for k in range(BRANCHES)]
    return template, mount, {
        "change": [["assign", "n0", "@n0 + 1"]],
        "nothing": [["assign", "n0", "@n0"]],
    }


PAGES = (
    (f"{ROWS} rows", rows_page()),
    (f"{BRANCHES} branches", branches_page()),
)


def write_bundle(folder, page):
    """A view with that template, mount and events."""
    template, mount, events = page
    view = {"path": "/", "template": "home", "mount": mount, "events": events}
    with open(os.path.join(folder, "home.html.heex"), "w", encoding="utf-8") as file:
        file.write(template)
    with open(os.path.join(folder, "bundle.json"), "w", encoding="utf-8") as file:
        json.dump({"version": 1, "views": [view]}, file)


def script_of(event, events, browsers, frames):
    """So many events, each followed by a step, spread over the browsers."""
    lines = []
    for k in range(browsers):
        lines += [f"browser B{k}", f"join B{k} /", f"step B{k}"]
    for k in range(browsers):
        lines += [f"event B{k} click {event} {{}}", f"step B{k}"] * (events // browsers)
        if frames:
            lines.append(f"frames B{k}")
    return "\n".join(lines) + "\n"


def seconds_of(program, folder, event, events, browsers):
    """The least processor time of some tries."""
    script = script_of(event, events, browsers, False)
    least = None
    for _ in range(TRIES):
        _, seconds, output = run(program, folder, script)
        if output:
            sys.exit(f"an event was refused: {output[:200]!r}")
        least = seconds if least is None else min(least, seconds)
    return least


def reply_size(program, folder, event):
    """The bytes of a reply to the event, of the replies behind that to the join."""
    _, _, output = run(program, folder, script_of(event, 100, 1, True))
    replies = [line for line in output.splitlines() if line.startswith(b"[")][1:]
    if len(replies) != 100 or any(b'"status":"ok"' not in line for line in replies):
        sys.exit(f"an event has no reply: {output[:200]!r}")
    return sum(map(len, replies)) / len(replies)


def measure(program, folder, name):
    """Prints what both events cost on one page."""
    browsers = 2 * EVENTS // A_BROWSER
    for event in ("change", "nothing"):
        once, twice = (
            seconds_of(program, folder, event, events, browsers) for events in (EVENTS, 2 * EVENTS)
        )
        each = (twice - once) / EVENTS
        size = reply_size(program, folder, event)
        print(f"{name:>13} {event:>8}: {each * 1e6:9.1f} us/event {size:9.1f} bytes/frame")


def main():
    program = sys.argv[1] if len(sys.argv) > 1 else "crates/live_cli/out/live_cli"
    if not os.path.exists(program):
        sys.exit(f"no program at {program}: make it by `rt run` in crates/live_cli")
    for name, page in PAGES:
        with tempfile.TemporaryDirectory() as folder:
            write_bundle(folder, page)
            measure(os.path.abspath(program), folder, name)


if __name__ == "__main__":
    main()
