"""A conversation: what a run is given, and the text that it has to print, side by side.

M is 1 MiB, B the first address of region 1 for host 0 and of region 0 for host 1, and C that of region 1 for host 1, where the device is
that of `two_regions`. T is a tag.
"""
import os
import sys

from dcds import *

M, B, C = MIB, 1 << 28, 2 << 28
T = bytes(range(1, 17))

# A host without extents and without records.
NOTHING = (0, 0, [])

# What a run without faults ends with, and the statuses of refused words and of a refused script.
DONE, USAGE, REFUSED = 0, 2, 3

# The words of runs: in serial mode, in both modes, and of a run without words, which is in threads mode.
SERIAL = (("--mode", "serial"),)
BOTH = SERIAL + (("--mode", "threads"),)
WITHOUT_WORDS = ((),)


def lines_of(script):
    """Each line of a script that is accepted: its bytes, and its pass, which is its actor byte, or None for a mark."""
    at = head_length(script)
    while script[at] != 0:
        kind, actor = script[at], script[at + 1]
        end = at + (4 + int.from_bytes(script[at + 2:at + 4], "little") if kind == 1 else {2: 10, 3: 18, 4: 3, 5: 1}[kind])
        yield script[at:end], None if kind == 5 else 0xFF if kind == 4 else actor
        at = end


def head_length(script):
    hosts, regions = script[8], script[9]
    return 16 + 40 * regions + 8 * hosts * regions


def is_alike(script):
    """Whether the text is the same in both modes: all lines are of one pass, or they are commands and turns and no phase has lines of two passes.

    In threads mode a load or a store may stand before a command of another pass that does not change its granules, marks or not.
    """
    passes = {its_pass for _, its_pass in lines_of(script)} - {None}
    accesses = any(line[0] in (2, 3) for line, _ in lines_of(script))
    return len(passes) <= 1 or not accesses and not any(needs_marks(script))


def needs_marks(script):
    """For each line of a script that is accepted whether a mark has to stand before it, so that no phase has lines of two passes."""
    last = None
    for _, its_pass in lines_of(script):
        yield None not in (last, its_pass) and its_pass != last
        last = its_pass


class Case:
    """The bytes of a script, or None; the words of each run; the exit status, the lines of the text, and the program, or None for dcdsim.
    The readable form of the script, where it is written here. Where a person wrote it, the bytes are made of it, and have to be these. The text is
    None where a readable form and its bytes are all there is.

    Where no words are given dcdsim runs it in both modes if it is refused or its text is the same in both, and else in serial mode.
    """

    def __init__(self, text, script=None, runs=None, status=DONE, program=None, readable=None):
        self.text, self.script, self.status, self.program, self.readable = text, script, status, program, readable
        self.runs = self.modes() if runs is None else runs

    def modes(self):
        """The words of each run, where none are given."""
        if self.program is not None or self.text is None:
            return ((),)
        return BOTH if self.status == REFUSED or is_alike(self.script) else SERIAL

    def write(self, path):
        if self.program is not None:
            with open(path + ".program", "w") as file:
                file.write(self.program + "\n")
        if self.readable is not None:
            with open(path + ".dcdt", "w", newline="") as file:
                file.write(self.readable)
        if self.script is not None:
            self.write_script(path)
        if self.runs != ((),):
            with open(path + ".words", "w") as file:
                file.write("\n".join("".join(word + "\n" for word in words) for words in self.runs))
        if self.status != DONE:
            with open(path + ".status", "w") as file:
                file.write(f"{self.status}\n")
        if self.text is not None:
            with open(path + ".txt", "w") as file:
                file.write("".join(line + "\n" for line in self.text))

    def write_script(self, path):
        if self.readable is None and os.path.exists(path + ".dcdt"):
            with open(path + ".dcds", "rb") as file:
                if file.read() != self.script:
                    sys.exit(f"{path}.dcds has other lines than those that are answered here")
            return
        with open(path + ".dcds", "wb") as file:
            file.write(self.script)


def refused(script, number, place):
    """A script that is refused for the fault with the number, so many bytes behind its start."""
    return Case([f"script refused: {number} at {place}"], script, status=REFUSED)


def played(*conversations):
    """The cases that these functions make, by their names."""
    return {it.__name__.replace("_", "-"): it() for it in conversations}


class Talk:
    """A script and its text, which grow line by line.

    The message tag of a command is the low byte of the number of its line.
    """

    def __init__(self, head):
        self.head = head
        self.lines = []
        self.marks = 0
        self.text = ["dcd 1"]

    def put(self, line, actor, answer):
        """A line, and its entry."""
        self.lines.append(line)
        self.text.append(f"{len(self.lines) - self.marks} {len(self.lines)} {actor} {answer}")

    def mark(self):
        """The end of a phase, which has no entry."""
        self.lines.append(mark())
        self.marks += 1

    def command(self, actor, name, request, answer, tag=None):
        """The answer is a return code, or the payload that comes with Success."""
        tag = (len(self.lines) + 1) % 256 if tag is None else tag
        code, payload = (answer, b"") if isinstance(answer, int) else (SUCCESS, answer)
        self.put(command(actor, request, tag), name, "cmd " + response(request, tag, code, payload).hex())

    def manager(self, request, answer):
        self.command(MANAGER, "fm", request, answer)

    def host(self, host, request, answer, lane=0, tag=None):
        self.command(host + 16 * lane, f"h{host}", request, answer, tag)

    def load(self, host, address, word, lane=0):
        self.put(load(host + 16 * lane, address), f"h{host}", f"ld {word:016x}")

    def store(self, host, address, word, lane=0):
        self.put(store(host + 16 * lane, address, word), f"h{host}", "st ok")

    def load_refused(self, host, address, fault):
        """Fault 1 is misaligned, 2 outside the regions, 3 not granted."""
        self.put(load(host, address), f"h{host}", f"ld refused {fault}")

    def store_refused(self, host, address, fault):
        self.put(store(host, address, 0), f"h{host}", f"st refused {fault}")

    def scrub(self, most, zeroed):
        self.put(scrub(most), "sz", f"sc {zeroed}")

    def end(self, *state, runs=None, **counts):
        """The whole conversation, with this state behind it."""
        self.put_state(*state, **counts)
        return Case(self.text, self.head + b"".join(self.lines) + b"\0", runs)

    def put_state(self, hosts, manager=(), missed=0, free=20, dirty=0):
        """The lines behind the entries; of each host its extents, their granules, and the records in its log; then the manager's records."""
        for host, (_, _, records) in enumerate(hosts):
            self.text += [f"rec h{host} {it.hex()}" for it in records]
        self.text += [f"rec fm {it.hex()}" for it in manager]
        for host, (extents, granules, records) in enumerate(hosts):
            self.text.append(f"host h{host} extents {extents} granules {granules} log {len(records)}")
        self.text.append(f"fm log {len(manager)} missed {missed}")
        self.text.append(f"granules free {free} dirty {dirty}")
        self.text.append(f"end {len(self.lines) - self.marks}")
