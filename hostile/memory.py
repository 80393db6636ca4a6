"""Each request for memory of a run refused in turn: the run has to write nothing and end with status 4, or write what it writes with ample memory."""
import multiprocessing
import os
import subprocess
import sys
import tempfile
from collections import Counter

import checking
import releasing
import runs
import using
import workers

DONE, NO_MEMORY, WRITE_FAULT = 0, 4, 6
COUNT_FILE = 9

# In serial mode: a host gets a block and uses it; a region is used whole, given back and zeroed; blocks are taken by force; two hosts share a block.
CONVERSATIONS = {
    "one-block": checking.ONE_BLOCK.script,
    "scrubbing": releasing.CASES["scrubbing"].script,
    "asking-and-taking": releasing.CASES["asking-and-taking"].script,
    "shared-memory": using.CASES["shared-memory"].script,
}


def trials():
    """Of each trial its name, its words, its script, and whether it runs in threads."""
    for name, script in CONVERSATIONS.items():
        yield f"{name}, serial", ("--mode", "serial"), script, False
    for name, script in workers.SCRIPTS.items():
        yield f"{name}, threads", ("--mode", "threads"), script, True
    yield "--gen 5, serial", ("--mode", "serial", "--gen", "5"), b"", False
    yield "--gen 5, threads", ("--mode", "threads", "--gen", "5"), b"", True


def build(folder):
    """The library that refuses a request, out of refuse.c."""
    library = os.path.join(folder, "refuse.so")
    source = os.path.join(os.path.dirname(os.path.abspath(__file__)), "refuse.c")
    subprocess.run(["cc", "-O2", "-shared", "-fPIC", "-o", library, source, "-ldl", "-lpthread"], check=True)
    return library


def refused(dcdsim, library, words, script, number):
    """A run of which the request of this number is refused, how many it made, or None where it did not come to its end, and how many threads."""
    environment = {**os.environ, "LD_PRELOAD": library, "HOSTILE_REFUSE": str(number), "HOSTILE_COUNT": str(COUNT_FILE)}
    counted = runs.memory_file()
    ended = runs.run(dcdsim, words, script, environment=environment, more=[(counted, COUNT_FILE)])
    counts = runs.whole(counted)
    os.close(counted)
    made, threads = (int.from_bytes(it, sys.byteorder) for it in (counts[:8], counts[8:]))
    return ended, made if counts else None, threads


def kind_of(ended, text, in_threads):
    """What a run with a refused request came to; one that is none of these is wrong. All memory is taken before the first write."""
    if ended.status == NO_MEMORY and not ended.written:
        return "status 4 and nothing written"
    if ended.status == DONE and (ended.written == text or in_threads and workers.in_any_order(ended.written) == workers.in_any_order(text)):
        return "as with ample memory"
    if ended.status == WRITE_FAULT and not in_threads and text.startswith(ended.written):
        return "status 6 and a front written"
    return None


def refuse_some(task):
    """Tries every so many requests of a run, from one on, to the most that it was seen to make. It counts what they came to and the runs that had threads, and tells what is wrong."""
    dcdsim, library, words, script, in_threads, text, count, first, step = task
    kinds, wrong, threaded, number = Counter(), [], 0, first
    while number <= count:
        ended, made, threads = refused(dcdsim, library, words, script, number)
        kind = kind_of(ended, text, in_threads)
        threaded += threads > 0
        kinds[kind] += 1
        if kind is None:
            wrong.append((number, str(ended)))
        count = max(count, made or 0)
        number += step
    return kinds, wrong, threaded


def refuse_all(dcdsim, kept, jobs, only):
    """Refuses each request of each trial in turn, and prints what the runs came to."""
    found, tried = 0, 0
    with tempfile.TemporaryDirectory() as folder, multiprocessing.Pool(jobs) as pool:
        library = build(folder)
        for name, words, script, in_threads in trials():
            if only is not None and not name.startswith(only):
                continue
            ample, count, threads = refused(dcdsim, library, words, script, 0)
            if ample.status != DONE or not count or in_threads != (threads > 0):
                print(f"FOUND: {name}: with ample memory {ample}, {count} requests, {threads} threads", flush=True)
                found += 1
                continue
            kinds, wrong, threaded = Counter(), [], 0
            step = jobs * (1 if count < 1000 else 16)
            tasks = [(dcdsim, library, words, script, in_threads, ample.written, count, first, step) for first in range(1, step + 1)]
            for some, bad, had in pool.imap_unordered(refuse_some, tasks):
                kinds += some
                wrong += bad
                threaded += had
            for number, ended in sorted(wrong):
                print(f"FOUND: {name}: request {number} refused: {ended}", flush=True)
            tried += kinds.total()
            found += len(wrong)
            told = ", ".join(f"{number:,} {kind or 'wrong'}" for kind, number in kinds.items())
            print(f"{name}: {count:,} requests with ample memory; {kinds.total():,} runs, {threaded:,} of them with threads: {told}", flush=True)
    print(f"{tried:,} runs with a refused request; found: {found}", flush=True)
    return bool(found)
