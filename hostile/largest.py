"""Scripts that are as large as they may be: the time and the peak memory of a run of each in both modes."""
import os
import time

import runs
import shapes
from dcds import *

MOST_LINES, MOST_BYTES = 65536, 16777216
DONE, YES = 0, 0
PEAK_FILE = 9


def whole(head, lines):
    return head + b"".join(lines) + b"\0"


def most_lines():
    """65,536 lines, nearly all of them replies of 2 KiB: the longest text."""
    return shapes.script(*shapes.extent_pages(MOST_LINES))


def most_bytes():
    """16 MiB: lists of 2,729 extents, as many as a message can have, and a message that fills what is left."""
    head = two_regions()
    line = command(0, respond([(n << 20, 0) for n in range(2729)]))
    lines, left = [], MOST_BYTES - len(head) - 1
    while left >= 2 * len(line):
        lines.append(line)
        left -= len(line)
    for size in (left // 2, left - left // 2):
        lines.append(command(0, (0x4802, bytes(size - 16))))
    script = whole(head, lines)
    assert len(script) == MOST_BYTES, len(script)
    return script


def long_lists():
    """Offers that list 52,000 extents, 1,625 each, where 64 are the most."""
    head = two_regions()
    return whole(head, [command(MANAGER, offer(0, PRESCRIPTIVE, 0, extents=[(n % 16 * MIB, MIB) for n in range(1625)])) for _ in range(32)])


def all_lanes():
    """16 hosts with 4 lanes each, which store and load in 64 blocks of their own."""
    parts = [region(16, 4096 * MIB, MIB, MIB, 0)]
    lines = []
    for host in range(16):
        extents = [(64 * host * MIB + n * MIB, MIB) for n in range(64)]
        lines += [command(MANAGER, offer(host, PRESCRIPTIVE, 0, extents=extents)), mark(), command(host, respond(extents)), mark()]
    for n in range(MOST_LINES - len(lines)):
        host, lane = n % 16, n // 16 % 4
        address = (64 * host + n * 7 % 64) * MIB + n * 8 % MIB
        lines.append(store(host + 16 * lane, address, n) if n & 1 else load(host + 16 * lane, address))
    return whole(head(16, parts, [0] * 16, lanes=4), lines)


def in_turn():
    """4,096 granules in turn free and held: a host takes all of them in one extent, stores, gives them back, and they are zeroed."""
    parts, lines = [region(16, 4096 * MIB, MIB, MIB, 0)], []
    everything, turn = [(0, 4096 * MIB)], 0
    while len(lines) + 9 <= MOST_LINES:
        host = turn % 16
        lines += [command(MANAGER, offer(host, FREE, 0, 4096 * MIB)), mark(), command(host, respond(everything)), store(host, 0, turn),
                  command(host, clear_events([turn // 16 + 1 if turn // 16 < 65535 else 1])), command(host, give_back(everything)), mark(), scrub(4096), mark()]
        turn += 1
    return whole(head(16, parts, [0] * 16), lines)


def by_turns():
    """4,096 granules of which every other one is held, as far as 1,024 extents go, given back and taken again."""
    parts, lines = [region(16, 4096 * MIB, MIB, MIB, 0)], []
    while len(lines) + 16 * 6 <= 16000:
        for host in range(16):
            extents = [((128 * host + 2 * n) * MIB, MIB) for n in range(64)]
            lines += [command(MANAGER, offer(host, PRESCRIPTIVE, 0, extents=extents)), mark(), command(host, respond(extents)),
                      command(host, clear_events([1 + (len(lines) // 96 * 64 + n) % 65535 for n in range(64)])), command(host, give_back(extents)), scrub(4096)]
    return whole(head(16, parts, [0] * 16), lines)


LARGEST = {
    "65,536 lines, replies of 2 KiB": most_lines,
    "16 MiB, lists of 2,729 extents": most_bytes,
    "lists of 52,000 extents in all": long_lists,
    "16 hosts with 4 lanes": all_lanes,
    "4,096 granules, free and held in turn": in_turn,
    "every other one of 2,048 granules held": by_turns,
}


def measured(path, words, given, taken):
    """How a run ends, how long it takes, and its peak memory in millions of bytes, which is not that of this program, since time starts it."""
    peak, begun = runs.memory_file(), time.perf_counter()
    said = ("--quiet", "-f", "%M", "-o", f"/proc/self/fd/{PEAK_FILE}", path, *words)
    ended = runs.ended("/usr/bin/time", said, given, taken, more=[(peak, PEAK_FILE)])
    took, kilobytes = time.perf_counter() - begun, runs.whole(peak)
    os.close(peak)
    return ended, took, int(kilobytes or 0) * 1024 / 1e6


def answer_of(checker, frame):
    """Whether the checker takes the text of a frame, and what it says and takes."""
    said = runs.memory_file()
    checked, took, peak = measured(checker, (), frame, said)
    answer = checked.why or f"{runs.whole(said).decode().strip()}, {took:.2f} s, {peak:.0f} MB"
    os.close(said)
    return checked.status == YES, answer


def run_all(dcdsim, checker):
    """Runs each in both modes, and prints what it took. The checker reads the texts back."""
    found = False
    print(f"  {'script':<42}{'mode':<9}{'MB':>7}{'text, MB':>10}{'s':>8}{'peak, MB':>10}  checker")
    for name, make in LARGEST.items():
        script = make()
        for mode in ("serial", "threads"):
            given, frame = runs.memory_file(script), runs.memory_file(len(script).to_bytes(4, "little"), script)
            ended, took, peak = measured(dcdsim, ("--mode", mode), given, frame)
            text = os.fstat(frame).st_size - 4 - len(script)
            is_taken, answer = answer_of(checker, frame)
            if ended.status != DONE or not is_taken:
                found, answer = True, f"{answer}  FOUND: {ended}"
            sizes = f"{len(script) / 1e6:>7.1f}{text / 1e6:>10.1f}{took:>8.2f}{peak:>10.1f}"
            print(f"  {name:<42}{mode:<9}{sizes}  {answer}", flush=True)
            os.close(given)
            os.close(frame)
    return found
