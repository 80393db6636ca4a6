"""Runs of the programs: what one is given and what it writes lie in memory, and no shell and no file of the disk comes between."""
import contextlib
import os
import signal

# A run that takes longer hangs, in seconds; hostile/try sets it.
patience = 20


class Ended:
    """How a run ended: its status, or None and why where a signal ended it or it hung; and what it wrote."""

    def __init__(self, status, why):
        self.status, self.why, self.written = status, why, b""

    def __str__(self):
        return self.why or f"status {self.status}, {len(self.written)} bytes"


def memory_file(*parts):
    """A file in memory with these bytes."""
    file = os.memfd_create("hostile")
    for part in parts:
        write_all(file, part)
    return file


def write_all(file, part):
    part = memoryview(part)
    while part:
        part = part[os.write(file, part):]


def whole(file):
    """All bytes of a file in memory."""
    os.lseek(file, 0, os.SEEK_SET)
    parts = []
    while part := os.read(file, 1 << 20):
        parts.append(part)
    return b"".join(parts)


def ended(path, words, given, taken, environment=None, more=()):
    """Starts a program that reads one file from its start and writes another from where it stands, and waits for its end."""
    os.lseek(given, 0, os.SEEK_SET)
    null = os.open(os.devnull, os.O_WRONLY)
    files = [(os.POSIX_SPAWN_DUP2, given, 0), (os.POSIX_SPAWN_DUP2, taken, 1), (os.POSIX_SPAWN_DUP2, null, 2)]
    files += [(os.POSIX_SPAWN_DUP2, file, number) for file, number in more]
    run = os.posix_spawn(path, [path, *words], os.environ if environment is None else environment, file_actions=files, setpgroup=0)
    os.close(null)
    hung = []

    def stop(*_):
        with contextlib.suppress(ProcessLookupError):    # it ended just now
            os.killpg(run, signal.SIGKILL)    # also what it started
            hung.append(True)

    before = signal.signal(signal.SIGALRM, stop)
    signal.setitimer(signal.ITIMER_REAL, patience)
    _, status = os.waitpid(run, 0)
    signal.setitimer(signal.ITIMER_REAL, 0)
    signal.signal(signal.SIGALRM, before)
    code = os.waitstatus_to_exitcode(status)
    why = f"hung for {patience} seconds" if hung else f"ended by signal {-code}" if code < 0 else None
    return Ended(None if why else code, why)


def run(path, words, script, **more):
    """What a program makes of a script."""
    given, taken = memory_file(script), memory_file()
    it = ended(path, words, given, taken, **more)
    it.written = whole(taken)
    os.close(given)
    os.close(taken)
    return it


def run_and_check(path, words, checker, script):
    """What a program makes of a script, and what the checker says of that: its frame is the script, and then what the program writes."""
    given, frame = memory_file(script), memory_file(len(script).to_bytes(4, "little"), script)
    it = ended(path, words, given, frame)
    said = memory_file()
    checked = ended(checker, (), frame, said)
    it.written, checked.written = whole(frame)[4 + len(script):], whole(said)
    for file in (given, frame, said):
        os.close(file)
    return it, checked
