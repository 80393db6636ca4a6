"""Conversations with marks between their lines, so that they come out alike in both modes."""
from talk import *
import offering
import orders
import releasing
import using


def in_phases(case):
    """A conversation of commands and turns, with a mark wherever the next line is of another pass."""
    return parted(case, needs_marks(case.script))


def mark_by_mark(case):
    """The conversation with a mark between any two lines."""
    return parted(case, [False] + [True] * (len(case.script) - 1))


def parted(case, marks):
    """The conversation with a mark before these lines. The numbers of its lines are those behind the marks."""
    script, numbers, count = case.script[:head_length(case.script)], [], 0
    for (line, _), marked in zip(lines_of(case.script), marks):
        count += 1 + marked
        numbers.append(count)
        script += mark() * marked + line
    return Case([renumbered(line, numbers) for line in case.text], script + b"\0", runs=BOTH)


def renumbered(line, numbers):
    """A line of the text; that of an entry has the number of its line as the second word."""
    words = line.split(" ")
    if words[0].isdigit():
        words[1] = str(numbers[int(words[1]) - 1])
    return " ".join(words)


CASES = {
    "one-host-alone-in-phases": in_phases(using.CASES["one-host-alone"]),
    "shared-lists-in-phases": in_phases(offering.CASES["shared-lists"]),
    "scrubbing-in-turns-in-phases": in_phases(releasing.CASES["scrubbing-in-turns"]),
    "orders-of-the-manager-in-phases": in_phases(orders.CASES["orders-of-the-manager"]),
    "memory-mark-by-mark": mark_by_mark(using.CASES["memory"]),
    "one-block-mark-by-mark": mark_by_mark(using.CASES["one-block"]),
    "stored-words-mark-by-mark": mark_by_mark(using.CASES["stored-words"]),
    "shared-memory-mark-by-mark": mark_by_mark(using.CASES["shared-memory"]),
    "four-hosts-mark-by-mark": mark_by_mark(using.CASES["four-hosts"]),
}
