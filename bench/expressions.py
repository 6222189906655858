#!/usr/bin/python3
"""What reading an expression costs: runs the built program over bundles whose template is one long expression.

    bench/expressions.py [PROGRAM]

PROGRAM is `crates/live_cli/out/live_cli` where it is not given; `rt run` in `crates/live_cli` makes it. The texts have
64 KiB, 256 KiB and 1 MiB of mixed operators and operands (a few bytes less: a template has at most 1,048,576). It prints
megabytes per second, the time of an empty bundle taken off, and how the time grows with four times the text. It stands
outside the gate.
"""

from reading import fill, measure

OPERANDS = (
    "1", "@n", "v", "(2)", "length(@l)", "@m.k", "@m[:k]", "[1,2]", "-3", "!nil", "nil", "1_000", "max(@n,4)", ":a",
    "Enum.count(@l)", "if(@n,do: 1,else: 2)",
)
OPERATORS = (" + ", "*", " - ", " < ", " == ", " && ", " || ", "+", " ++ ", " <> ", ">=", " and ", " or ", "!=", " |> abs() == ")


def operated(k):
    """An operator with its operand."""
    return OPERATORS[k % len(OPERATORS)] + OPERANDS[(k * 7) % len(OPERANDS)]


def template(size):
    """One expression of nearly that size."""
    return "{0%s}" % fill(operated, size - 3)


if __name__ == "__main__":
    measure("{0}", template)
