#!/usr/bin/python3
"""What reading a template costs: runs the built program over bundles whose template has many elements.

    bench/templates.py [PROGRAM]

PROGRAM is `crates/live_cli/out/live_cli` where it is not given; `rt run` in `crates/live_cli` makes it. The templates have
64 KiB, 256 KiB and 1 MiB (a few bytes less) of elements with attributes, void elements, texts, interpolations, spreads,
comments and scripts. It prints megabytes per second, the
time of an empty bundle taken off, and how the time grows with four times the text. It stands outside the gate.
"""

from reading import fill, measure

PIECES = (
    "<p class=\"a\" id='b' hidden>one {@two} three</p>\n",
    "<ul><li>{@a + 1}</li><li title={@t}>x</li></ul>\n",
    "<br><img src={@source} alt=\"\" {@rest} />\n",
    "plain text, and more of it: é → }\n",
    "<!-- a comment with { and < -->\n",
    "<%!-- dropped --%><%= @value %>\n",
    "<div><section><h1 style={nil}>{\"#{@n} } items\"}</h1></section></div>\n",
    "<script>if (a < b) { c(); }</script>\n",
    "<b phx-no-curly-interpolation>{as it is}</b>\n",
)


def template(size):
    """A template of at most that many bytes, and of nearly that."""
    return fill(lambda k: PIECES[k % len(PIECES)], size - size // 64)


if __name__ == "__main__":
    measure("", template)
