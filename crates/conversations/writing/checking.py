"""Texts that are checked against their scripts: a frame is the number of bytes of the script in four bytes, the script, and the text.

Which line is the first wrong one is worked out by hand: it is the line that was changed, left out, or put where its pass has another one to do.
"""
import struct

from phases import parted
from talk import *
from using import CASES as USING, memory, one_block, with_lanes

WRONG, SHORT = 1, 7


def frame(script, text):
    return struct.pack("<I", len(script)) + script + text


def spelled(lines):
    return "".join(line + "\n" for line in lines).encode()


def checked(script, text, wrong=None):
    """The text in bytes, and the number of its first wrong line, or None."""
    if wrong is None:
        return Case(["yes"], frame(script, text), program="journal_check")
    return Case([f"no at {wrong}"], frame(script, text), status=WRONG, program="journal_check")


ONE_BLOCK, MEMORY, NO_LINES = one_block(), memory(), Talk(two_regions()).end([NOTHING, NOTHING])


def changed(case, number, old, new):
    """The text with the last of these words of one line put otherwise: that line is wrong."""
    lines = list(case.text)
    line = lines[number - 1]
    at = line.rindex(old)
    lines[number - 1] = line[:at] + new + line[at + len(old):]
    return checked(case.script, spelled(lines), number)


def cut_behind(count):
    """Only so many lines of the text: the next one is missing."""
    return checked(ONE_BLOCK.script, spelled(ONE_BLOCK.text[:count]), count + 1)


def exchanged():
    """The answer before its offer: there is none then."""
    lines = list(ONE_BLOCK.text)
    lines[1], lines[2] = "1 2" + lines[2][3:], "2 1" + lines[1][3:]
    return checked(ONE_BLOCK.script, spelled(lines), 2)


# ---- orders

def four_lanes():
    """Two hosts with two lanes each: the entries by their lines, and the rest of the text."""
    talk = with_lanes()
    for address, host, lane in ((0, 0, 0), (8, 0, 1), (B + 2 * M, 1, 0), (B + 2 * M + 8, 1, 1)):
        talk.store(host, address, address + 1, lane)
        talk.load(host, address, address + 1, lane)
    told = [record(1, RESPONSE, 0, (0, 2 * M), 63), record(2, RESPONSE, 1, (B + 2 * M, M), 63)]
    hosts = [(1, 2, [record(1, ADD, 0, (0, 2 * M), 63)]), (1, 1, [record(1, ADD, 1, (B + 2 * M, M), 63)])]
    return talk.end(hosts, told, free=17)


LANES = four_lanes()


def ordered(*lines, wrong=None):
    """The text with its entries in this order of their lines, numbered anew."""
    entries = {line.split()[1]: line for line in LANES.text[1:13]}
    text = [LANES.text[0]]
    for number, line in enumerate(lines, 1):
        text.append(f"{number} {line} " + entries[str(line)].split(" ", 2)[2])
    return checked(LANES.script, spelled(text + LANES.text[13:]), wrong)


FOUR_HOSTS = USING["four-hosts"]


def four_hosts_in_order(step):
    """The text of four hosts with their loads and stores in another order: those of each host stay in order, and the hosts take turns of so many."""
    waiting = {}
    for line in accesses(FOUR_HOSTS):
        waiting.setdefault(line.split()[2], []).append(line)
    taken, hosts = [], sorted(waiting, reverse=step % 2 == 0)
    while any(waiting.values()):
        for host in hosts:
            taken += waiting[host][:step]
            del waiting[host][:step]
    return with_accesses(FOUR_HOSTS, taken)


def four_hosts_in_threads():
    """The same where marks part the commands, and all loads and stores stand between two marks: in the order in which a run in threads has printed them."""
    is_access = [line[0] in (2, 3) for line, _ in lines_of(FOUR_HOSTS.script)]
    case = parted(FOUR_HOSTS, [False] + [not (one and other) for one, other in zip(is_access, is_access[1:])])
    by_line = {int(line.split()[1]): line for line in accesses(case)}
    return with_accesses(case, [by_line[line] for lines in PRINTED_IN_THREADS for line in lines])


# The lines of h3, some of h2, those of h0, the rest of h2, those of h1.
PRINTED_IN_THREADS = range(79, 89), range(69, 75), range(49, 59), range(75, 79), range(59, 69)


def accesses(case):
    """The loads and stores among the entries of a text."""
    return [line for line in case.text if line.split()[0].isdigit() and line.split()[3] in ("ld", "st")]


def with_accesses(case, taken):
    """The text with its loads and stores in this order, numbered anew."""
    left = iter(taken)
    lines = [next(left) if line in taken else line for line in case.text]
    numbered = [f"{number} " + line.split(" ", 1)[1] if line.split()[0].isdigit() else line for number, line in enumerate(lines)]
    return checked(case.script, spelled(numbered))


# ---- the frame

def misses(need, have):
    """An input of so many bytes, where so many are needed."""
    return Case([], struct.pack("<I", need - 4)[:have] + bytes(max(0, have - 4)), status=SHORT, program="journal_check")


TEXT = spelled(ONE_BLOCK.text)
CASES = {
    "checked": checked(ONE_BLOCK.script, TEXT),
    "checked-memory": checked(MEMORY.script, spelled(MEMORY.text)),
    "checked-no-lines": checked(NO_LINES.script, spelled(NO_LINES.text)),
    # one word is another
    "checked-digit-title": changed(ONE_BLOCK, 1, "1", "2"),
    "checked-digit-number": changed(ONE_BLOCK, 2, "1 1 fm", "2 1 fm"),
    "checked-digit-line": changed(ONE_BLOCK, 2, "1 1 fm", "1 2 fm"),
    "checked-digit-zero": changed(ONE_BLOCK, 3, "2 2 h0", "2 02 h0"),
    "checked-digit-command": changed(ONE_BLOCK, 3, "0", "1"),
    "checked-digit-loaded": changed(ONE_BLOCK, 6, "7", "8"),
    "checked-digit-stored": changed(ONE_BLOCK, 5, "ok", "refused 3"),
    "checked-digit-refused": changed(MEMORY, 7, "3", "2"),
    "checked-digit-scrubbed": changed(MEMORY, 10, "2", "1"),
    "checked-digit-actor": changed(ONE_BLOCK, 4, "h0", "h1"),
    "checked-digit-record": changed(ONE_BLOCK, 7, "3f", "3e"),
    "checked-digit-manager-record": changed(ONE_BLOCK, 8, "3f", "3e"),
    "checked-digit-host": changed(ONE_BLOCK, 9, "log 1", "log 2"),
    "checked-digit-manager": changed(ONE_BLOCK, 11, "0", "1"),
    "checked-digit-granules": changed(ONE_BLOCK, 12, "19", "18"),
    "checked-digit-end": changed(ONE_BLOCK, 13, "5", "6"),
    # lines that are missing, or too many
    **{f"checked-cut-behind-{count}": cut_behind(count) for count in range(13)},
    "checked-without-end": checked(ONE_BLOCK.script, TEXT[:-1], 13),
    "checked-line-behind": checked(ONE_BLOCK.script, TEXT + b"\n", 14),
    "checked-byte-behind": checked(ONE_BLOCK.script, TEXT + b"e", 14),
    "checked-line-twice": checked(ONE_BLOCK.script, spelled(ONE_BLOCK.text[:4] + ONE_BLOCK.text[3:]), 5),
    "checked-exchanged": exchanged(),
    # orders of one script
    "checked-by-lines": ordered(1, 2, 4, 5, 7, 8, 9, 10, 11, 12, 13, 14),
    "checked-by-turns": ordered(1, 2, 4, 5, 13, 9, 11, 7, 14, 10, 12, 8),
    "checked-lanes-backwards": ordered(1, 2, 4, 5, 13, 14, 11, 12, 9, 10, 7, 8),
    "checked-across-marks": ordered(1, 4, 7, 9, 2, 8, 5, 10, 11, 13, 14, 12),
    "checked-records-of-another-order": ordered(1, 2, 5, 4, 7, 8, 9, 10, 11, 12, 13, 14, wrong=16),
    "checked-lane-out-of-order": ordered(1, 2, 4, 5, 7, 9, 10, 12, 8, 11, 13, 14, wrong=9),
    "checked-four-hosts": checked(FOUR_HOSTS.script, spelled(FOUR_HOSTS.text)),
    **{f"checked-four-hosts-by-turns-of-{step}": four_hosts_in_order(step) for step in range(1, 11)},
    "checked-four-hosts-in-threads": four_hosts_in_threads(),
    "checked-mark": changed(LANES, 4, "3 4 h0", "3 3 h0"),
    # frames that are none
    "checked-nothing": misses(4, 0),
    "checked-three-bytes": misses(4, 3),
    "checked-script-short": misses(148, 147),
    "checked-script-refused": Case(["script refused: 4 at 0"], frame(b"", b""), status=REFUSED, program="journal_check"),
    "checked-script-magic": Case(["script refused: 1 at 0"], frame(b"DCDX", TEXT), status=REFUSED, program="journal_check"),
    "checked-words": Case(["usage: journal_check"], runs=(("--help",),), status=USAGE, program="journal_check"),
}
