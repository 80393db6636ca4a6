"""A script read after docs/formats.md: its device and its lines, or the number and the place of its first fault."""
import struct

from model import Device, Region

MOST_BYTES, MOST_LINES, MOST_GRANULES = 16777216, 65536, 4096
MANAGER, SANITIZER = 0xFE, 0xFF
UNIT, END_OF_ADDRESSES = 1 << 28, 1 << 52
COMMAND, LOAD, STORE, SCRUB, MARK = range(1, 6)


class Refused(Exception):
    """The number and the place of the first fault."""

    def __init__(self, number, place):
        super().__init__(f"script refused: {number} at {place}")


class Bytes:
    """The bytes of a script, read field by field."""

    def __init__(self, script):
        self.script, self.at = script, 0

    def take(self, form):
        """The fields of this form; a field that lacks bytes is truncated."""
        size = struct.calcsize(form)
        if self.at + size > len(self.script):
            raise Refused(4, len(self.script))
        fields = struct.unpack_from(form, self.script, self.at)
        self.at += size
        return fields

    def number(self, form):
        return self.take("<" + form)[0]


def read(script):
    """The device, the lanes and the lines of a script. A line is its kind, its actor byte and what else it has."""
    if len(script) > MOST_BYTES:
        raise Refused(8, MOST_BYTES)
    it = Bytes(script)
    device, hosts, lanes = head_of(it)
    lines = []
    while True:
        at = it.at
        kind = it.number("B")
        if kind == 0:
            break
        if kind > MARK:
            raise Refused(5, at)
        if len(lines) == MOST_LINES:
            raise Refused(10, at)
        lines.append((kind, *line_of(it, kind, hosts, lanes)))
    if it.at < len(script):
        raise Refused(9, it.at)
    return device, lanes, lines


def head_of(it):
    """The device, its hosts and its lanes."""
    if it.take("<4s")[0] != b"DCDS":
        raise Refused(1, 0)
    version = it.number("H")
    if version not in (1, 2):
        raise Refused(2, 4)
    it.take("<2x")
    hosts, count = it.take("<B")[0], it.take("<B")[0]
    if not 1 <= hosts <= 16 or not 1 <= count <= 8:
        raise Refused(3, 8)
    lanes = 1
    if version == 2:
        lanes = it.number("B")
        if not 1 <= lanes <= 4:
            raise Refused(12, 10)
        it.take("<5x")
    else:
        it.take("<6x")
    fields = [[it.number(form) for form in "QQQQIB"] + list(it.take("<3x")) for _ in range(count)]
    bases = [[it.number("Q") for _ in range(count)] for _ in range(hosts)]
    if has_fault(fields, bases):
        raise Refused(3, 8)
    regions, first = [], 0
    for units, length, block, sizes, _, flags in fields:
        regions.append(Region(units, length, block, sizes, bool(flags & 1), bool(flags & 2), first))
        first += regions[-1].count
    return Device(hosts, regions, bases), hosts, lanes


def has_fault(fields, bases):
    """Whether a configuration is refused; all its faults have one place."""
    granules = 0
    for units, length, block, sizes, *_ in fields:
        if sizes == 0 or sizes & 63 or sizes >> 41 or block & (block - 1) or not block & sizes:
            return True
        if length == 0 or length % (1 << sizes.bit_length() - 1) or length > units * UNIT:
            return True
        granules += length // (sizes & -sizes)
    for row in bases:
        end = 0
        for base, (units, *_) in zip(row, fields):
            if base % UNIT or base + units * UNIT > END_OF_ADDRESSES or base < end:
                return True
            end = base + units * UNIT
    return granules > MOST_GRANULES


def line_of(it, kind, hosts, lanes):
    """The actor byte of a line, and what else it has."""
    if kind == MARK:
        return MARK,
    if kind == SCRUB:
        return SANITIZER, it.number("H")
    at = it.at
    actor = it.number("B")
    if not (actor == MANAGER and kind == COMMAND or actor & 15 < hosts and actor >> 4 < lanes):
        raise Refused(6, at)
    if kind == LOAD:
        return actor, it.number("Q")
    if kind == STORE:
        return actor, it.number("Q"), it.number("Q")
    return actor, *message_of(it, it.number("H"))


def message_of(it, size):
    """The message tag, the opcode and the payload of a message of so many bytes."""
    at = it.at
    message = it.take(f"<{size}s")[0]
    if size < 12 or message[0] & 15 or int.from_bytes(message[5:8], "little") & 0x1FFFFF != size - 12:
        raise Refused(7, at)
    return message[1], int.from_bytes(message[3:5], "little"), message[12:]
