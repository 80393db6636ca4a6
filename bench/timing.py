"""Runs programs and measures what they take, for bench/run and bench/beside."""
import mmap
import os
import subprocess
import sys
import tempfile
import time

# The words by which dcdsim does the lines of a script one after another.
SERIAL = ("--mode", "serial")

TOP = os.path.dirname(os.path.dirname(os.path.abspath(__file__)))


def program(name):
    """The path of a program that ./prove built: what is not proved is not timed."""
    path = os.path.join(TOP, "crates", name, "out", name)
    if not os.path.exists(path):
        sys.exit(f"there is no {path}: ./prove {name} makes it")
    return path


def timed(path, words, stdin, stdout, feed=lambda: None):
    """The time of one run in seconds, from its start to its end; once it has started it is fed."""
    files = [(os.POSIX_SPAWN_DUP2, stdin, 0), (os.POSIX_SPAWN_DUP2, stdout.fileno(), 1)]
    start = time.perf_counter()
    run = os.posix_spawn(path, [path, *words], os.environ, file_actions=files)
    feed()
    _, status = os.waitpid(run, 0)
    took = time.perf_counter() - start
    if status != 0:
        sys.exit(f"{path} ended with status {os.waitstatus_to_exitcode(status)}")
    return took


def once(path, source, stdout, words=()):
    """The time of one run whose script is in a file."""
    with open(source, "rb") as stdin:
        return timed(path, words, stdin.fileno(), stdout)


def piped(path, script, stdout, words=()):
    """The time of one run whose script comes through a pipe."""
    source, pipe = os.pipe()

    def feed():
        os.close(source)
        with open(pipe, "wb") as file:
            file.write(script)

    return timed(path, words, source, stdout, feed)


def memory_of(path, source, words=()):
    """Of one run the peak memory in millions of bytes, and how many pages it touched for the first time.

    /usr/bin/time starts the run, so that the figures are the program's and not those of this one. A run that it starts is not timed.
    """
    with tempfile.NamedTemporaryFile() as told, open(source, "rb") as stdin, open(os.devnull, "wb") as null:
        subprocess.run(["/usr/bin/time", "-f", "%M %R", "-o", told.name, path, *words], stdin=stdin, stdout=null, check=True)
        with open(told.name) as lines:
            peak, pages = map(int, lines.read().split())
            return peak * 1024 / 1e6, pages


def peak_of(path, source, words=()):
    """The peak memory of one run in millions of bytes."""
    return memory_of(path, source, words)[0]


def first_touch():
    """What it costs to touch a page for the first time, in microseconds: the least of several passes over fresh pages, without what a second pass takes."""
    size, best = 64 << 20, [float("inf")] * 2
    for _ in range(5):
        with mmap.mmap(-1, size, mmap.MAP_PRIVATE | mmap.MAP_ANONYMOUS) as memory:
            for turn in range(2):
                start = time.perf_counter()
                for at in range(0, size, mmap.PAGESIZE):
                    memory[at] = 1
                best[turn] = min(best[turn], time.perf_counter() - start)
    return (best[0] - best[1]) * 1e6 / (size // mmap.PAGESIZE)
