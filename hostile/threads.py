"""The threads that runs make: as many workers in each phase as passes have lines in it, of which one is the calling thread."""
import os
import re
import sys
import tempfile
import time

import generated
import runs
import workers

DONE, STRACE = 0, "/usr/bin/strace"
# So many loads of one word, while a command wants the same shard; and the seconds within which the command ends.
HOT, WITHIN = 60_000, 1.0
# A line of strace that tells what making a thread answered, which is the number of the thread.
MADE = re.compile(rb"clone3?\b.*= [1-9]\d*$")


def threads_made(dcdsim, words, script):
    """How a run under strace ended, and how many threads it made."""
    with tempfile.NamedTemporaryFile() as told:
        tracing = ("-f", "-qq", "-e", "trace=clone,clone3", "-e", "signal=none", "-o", told.name, dcdsim, *words)
        given, taken = runs.memory_file(script), runs.memory_file()
        ended = runs.ended(STRACE, tracing, given, taken, environment={**os.environ, "ASAN_OPTIONS": "detect_leaks=0"})
        os.close(given)
        os.close(taken)
        return ended, sum(bool(MADE.search(line)) for line in told.read().split(b"\n"))


def trials():
    """Of each trial its name, its words and the script that it runs, which is read or generated."""
    for name, script in workers.SCRIPTS.items():
        yield name, (), script, script
    yield "--gen 5", ("--gen", "5"), b"", generated.generated(5)


def hot_lane(dcdsim):
    """Runs a command beside one hot lane ten times. The run ends after the command, so it bounds what the command waited."""
    script, longest, places = workers.one_hot_lane(HOT), 0.0, []
    for _ in range(10):
        begun = time.monotonic()
        ended = runs.run(dcdsim, (), script)
        longest = max(longest, time.monotonic() - begun)
        entries = [line.split(b" ") for line in ended.written.split(b"\n") if line[:1].isdigit()]
        places += [at for at, words in enumerate(entries) if words[2:4] == [b"h1", b"cmd"]][-1:]
        if ended.status != DONE or len(entries) != HOT + 5:
            print(f"FOUND: one hot lane: the run ended so: {ended}", flush=True)
            return True
    if longest > WITHIN:
        print(f"FOUND: one hot lane: a run took {longest:.2f} s", flush=True)
    print(f"one hot lane: {HOT:,} loads of one word and a command at the same shard: {longest:.2f} s at most; the command is entry {min(places):,} to {max(places):,}", flush=True)
    return longest > WITHIN


def count_all(dcdsim):
    """Counts the threads of each trial in both modes, and prints what is wrong."""
    found = hot_lane(dcdsim)
    if not os.access(STRACE, os.X_OK):
        sys.exit(f"hostile/try: there is no {STRACE}")
    for name, words, given, script in trials():
        several = [passes for passes in workers.passes_by_phase(script) if passes > 1]
        ended, made = threads_made(dcdsim, words, given)
        alone, none = threads_made(dcdsim, (*words, "--mode", "serial"), given)
        wrong = [
            *(f"the run ended so: {it}" for it in (ended, alone) if it.status != DONE),
            *([f"{made} threads and {len(several)} times the calling one are not the {sum(several)} passes with lines"] if made + len(several) != sum(several) else []),
            *([f"{none} threads in serial mode"] if none else []),
        ]
        for it in wrong:
            print(f"FOUND: {name}: {it}", flush=True)
        found += bool(wrong)
        print(f"{name}: {len(several):,} phases of several passes, {sum(several):,} passes with lines in them, {made:,} threads made; in serial mode {none}", flush=True)
    return bool(found)
