"""Random scripts: a device and lines for it, from a seed. What a line asks for is mostly what the device has to give, by the model; the rest is wrong in
some way, or any number at all. A share of the scripts has bytes that were changed, cut out or put in."""
import random
import struct

import dcds
import reading
from dcds import FREE, MANAGER
from model import CODES, HOST_COMMANDS, MANAGER_COMMANDS, NO_TAG, Device, Region

UNIT = 1 << 28
EXTREMES = (0, 1, 7, 8, 63, 64, 65, 255, 65535, 65536, 2**31, 2**32 - 1, 2**32, 2**52 - 8, 2**52, 2**63, 2**64 - 8, 2**64 - 1)
OPCODES = (*HOST_COMMANDS, *MANAGER_COMMANDS, 0, 0x0102, 0x4804, 0x5300, 0x5609, 0xFFFF)

# Kinds of scripts: how many granules and lines, how likely a mark stands behind a line, how many tags there are, and what is asked how often.
EVEN = {"offer": 6, "respond": 6, "give_back": 4, "remove": 3, "access": 6, "scrub": 2, "clear": 3, "read": 3, "set_region": 1, "refer": 2, "odd": 1}
KINDS = (
    ("few granules", 5, (2, 12), (20, 120), 6, EVEN),
    ("shared", 4, (4, 24), (20, 150), 4, {**EVEN, "offer": 9, "refer": 5, "remove": 4, "access": 4}),
    ("accesses", 2, (4, 32), (20, 200), 4, {**EVEN, "access": 40}),
    ("full logs", 2, (8, 40), (80, 300), 6, {**EVEN, "offer": 12, "respond": 12, "clear": 1, "access": 1, "remove": 6}),
    ("many extents", 2, (150, 600), (20, 120), 8, {**EVEN, "offer": 8, "give_back": 8, "remove": 5, "scrub": 1}),
    ("many tags", 2, (100, 400), (80, 200), 80, {**EVEN, "offer": 20, "respond": 4, "give_back": 1, "access": 1, "clear": 2, "remove": 1}),
    ("anything", 1, (1, 4096), (20, 100), 8, {**EVEN, "odd": 40}),
)


class Draw(random.Random):
    """What is drawn from a seed."""

    def chance(self, share):
        return self.random() < share

    def below(self, count):
        return int(self.random() * count)

    def among(self, items):
        return items[int(self.random() * len(items))]

    def between(self, ends):
        return ends[0] + int(self.random() * (ends[1] - ends[0] + 1))

    def few(self, most):
        """A number from 1 on, mostly a small one."""
        return min(most, 1 + int(self.expovariate(0.7)))


class Script:
    """A script that grows line by line, with what a serial run of it replies to each."""

    def __init__(self, seed):
        self.draw = draw = Draw(seed)
        kinds = [it[1] for it in KINDS]
        self.kind, _, granules, lines, tags, asked = draw.choices(KINDS, kinds)[0]
        self.tags = [dcds.tag_of(draw.getrandbits(120) + 1) for _ in range(tags)]
        self.asks, self.weights = list(asked), list(asked.values())
        self.head, self.device, self.lanes = self.start(draw.between(granules))
        self.marks = draw.among((0, 0, 0.02, 0.1, 0.3))
        self.lines, self.replies = [], []
        for _ in range(draw.between(lines)):
            getattr(self, draw.choices(self.asks, self.weights)[0])()
            if draw.chance(self.marks):
                self.lines.append(dcds.mark())

    def bytes(self):
        return self.head + b"".join(self.lines) + b"\0"

    def start(self, granules):
        """The head of a script, and the device and its lanes."""
        draw = self.draw
        hosts, count = draw.among((1, 2, 2, 3, 4, 5, 8, 16)), draw.among((1, 1, 2, 2, 3, 4, 8))
        if self.kind == "many tags":
            hosts, count = draw.among((1, 1, 2)), 1
        parts, regions, first = [], [], 0
        for number in range(count):
            low = draw.among((6, 6, 12, 20, 20, 28, 40)) if granules < 64 else draw.among((6, 12, 20))
            powers = [low] + [low + it for it in (1, 2, 3) if low + it <= 40 and draw.chance(0.3)]
            sizes = sum(1 << it for it in powers)
            most = 1 << powers[-1]
            length = max(most, granules // count * (1 << low) // most * most)
            block = 1 << draw.among(powers)
            units = -(-length // UNIT) + draw.among((0, 0, 0, 1))
            sanitizes, shareable = draw.chance(0.7), draw.chance(0.4 if self.kind != "shared" else 0.8)
            parts.append(dcds.region(units, length, block, sizes, number, sanitizes, shareable))
            regions.append(Region(units, length, block, sizes, sanitizes, shareable, first))
            first += regions[-1].count
        rows = [self.row(regions) for _ in range(hosts)]
        lanes = draw.among((None, None, None, 1, 2, 3, 4))
        return dcds.head(hosts, parts, [it for row in rows for it in row], lanes), Device(hosts, regions, rows), lanes or 1

    def row(self, regions):
        """The bases of a host."""
        base, row = UNIT * self.draw.among((0, 0, 1, 16, 1000)), []
        for it in regions:
            row.append(base)
            base += it.units * UNIT + UNIT * self.draw.among((0, 0, 1))
        if self.draw.chance(0.05):    # as high as it may be
            row = [it + (1 << 52) - base for it in row] if base < 1 << 52 else row
        return row

    # ---- lines

    def host(self):
        return self.draw.below(len(self.device.hosts))

    def byte(self, host):
        """The actor byte of a host, in one of its lanes."""
        return host + 16 * self.draw.below(self.lanes)

    def ask(self, host, request):
        """A command of a host, or of the manager where it is None; at times it is spoilt."""
        draw = self.draw
        opcode, payload = request
        if draw.chance(0.03):
            opcode, payload = self.spoilt(opcode, payload)
        payload = payload[:65523]
        tag = draw.getrandbits(8)
        line = dcds.command(MANAGER if host is None else self.byte(host), (opcode, payload), tag)
        if draw.chance(0.05):    # what is ignored of a message is any bits
            line = bytearray(line)
            line[4] |= draw.getrandbits(4) << 4
            line[6] = draw.getrandbits(8)
            line[11] |= draw.getrandbits(3) << 5
            line[12:16] = draw.randbytes(4)
            line = bytes(line)
        device = self.device
        rule = device.manager_command(opcode, payload) if host is None else device.host_command(host, opcode, payload)
        self.put(line, "fm" if host is None else f"h{host}", (tag, opcode, rule))

    def put(self, line, actor, reply):
        self.lines.append(line)
        self.replies.append((len(self.lines), actor, reply))

    def spoilt(self, opcode, payload):
        draw = self.draw
        how = draw.below(6)
        if how == 0:
            return draw.among(OPCODES), payload
        if how == 1:
            return opcode, payload[:draw.below(len(payload) + 1)]
        if how == 2:
            return opcode, payload + draw.randbytes(draw.few(40))
        payload = bytearray(payload)
        if how == 3 and len(payload) >= 8:
            at = draw.below(len(payload) - 7)
            payload[at:at + 8] = struct.pack("<Q", draw.among(EXTREMES))
        elif how == 4 and len(payload) >= 4:
            at = draw.among((0, len(payload) - 4, 28 if len(payload) >= 32 else 0))
            payload[at:at + 4] = struct.pack("<I", draw.among(EXTREMES) & 0xFFFFFFFF)
        elif payload:
            payload[draw.below(len(payload))] = draw.getrandbits(8)
        return opcode, bytes(payload)

    # ---- what is asked

    def odd(self):
        """Any opcode with any payload."""
        draw = self.draw
        host = None if draw.chance(0.5) else self.host()
        opcode = draw.among(OPCODES) if draw.chance(0.9) else draw.getrandbits(16)
        sizes = {0x0100: 1, 0x0101: 6, 0x4800: 2, 0x4801: 8, 0x4802: 8, 0x4803: 8, 0x5601: 4, 0x5602: 16, 0x5603: 12, 0x5604: 32, 0x5605: 32, 0x5608: 8}
        size = sizes.get(opcode, 16) if draw.chance(0.7) else draw.below(80)
        payload = bytearray(draw.randbytes(size) if draw.chance(0.3) else bytes(draw.among((0, 0, 1, 2, 4, 255)) for _ in range(size)))
        if opcode in (0x5604, 0x5605) and draw.chance(0.8):
            payload[0:1], payload[1:2], payload[28:32] = bytes([self.host()]), b"\0", bytes(4)
        self.ask(host, (opcode, bytes(payload)))

    def access(self):
        draw = self.draw
        host = self.host()
        mine = self.device.hosts[host].accepted
        if mine and draw.chance(0.8):
            start, length, *_ = draw.among(mine)
            address = start + draw.among((0, 8, length - 8, 8 * draw.below(length // 8)))
        elif draw.chance(0.7):
            number = draw.below(len(self.device.regions))
            length = self.device.regions[number].length
            address = self.device.bases[host][number] + draw.among((0, 8 * draw.below(length // 8), length))
        else:
            address = draw.among(EXTREMES)
        if draw.chance(0.03):
            address += draw.below(8)
        address &= 2**64 - 1
        if draw.chance(0.5):
            value = draw.among((7, draw.getrandbits(64)))
            reply = self.device.store(host, address, value)
            self.put(dcds.store(self.byte(host), address, value), f"h{host}", f"st {told(reply)}")
        else:
            self.put(dcds.load(self.byte(host), address), f"h{host}", f"ld {told(self.device.load(host, address))}")

    def scrub(self):
        most = self.draw.among((0, 1, 2, 3, 16, 65535))
        self.put(dcds.scrub(most), "sz", f"sc {self.device.scrub(most)}")

    def tag(self, live=None):
        """A tag: none, one of the script's, or one that is live."""
        draw = self.draw
        if live and draw.chance(0.85):
            return draw.among(list(live))
        return NO_TAG if draw.chance(0.1) or not self.tags else draw.among(self.tags)

    def length(self, it):
        draw = self.draw
        if draw.chance(0.06):
            return draw.among((0, 1, it.block // 2, it.block + 1, *EXTREMES))
        return it.block * draw.among((1, 1, 1, 2, 3, draw.few(it.length // it.block), it.length // it.block))

    def block_list(self, host, number, count):
        """Extents of blocks of a region, mostly of free ones."""
        draw = self.draw
        it, base, states = self.device.regions[number], self.device.bases[host][number], self.device.states()
        size = it.block // it.granule
        blocks = range(it.length // it.block)
        free = [n for n in blocks if not any(states[it.first + n * size:it.first + (n + 1) * size])] if draw.chance(0.9) else list(blocks)
        chosen = draw.sample(free, min(count, len(free))) if free else [draw.among(blocks)]
        if draw.chance(0.5):
            chosen.sort()
        return [(base + n * it.block, it.block) for n in chosen]

    def mistaken(self, host, extents, share=0.12):
        """A list, at times with something wrong in it."""
        draw = self.draw
        if not draw.chance(share):
            return extents
        extents = [it[:2] for it in extents] or [(0, 0)]
        at = draw.below(len(extents))
        start, length = extents[at]
        how = draw.below(9)
        if how == 0:
            extents[at] = start, 0
        elif how == 1:
            extents[at] = start, length + draw.among((1, 64, length))
        elif how == 2:
            extents[at] = start + draw.among((1, 32, 64, length // 2)), length
        elif how == 3:
            extents[at] = draw.among(EXTREMES), draw.among((length, *EXTREMES))
        elif how == 4:
            extents.append(draw.among(extents))
        elif how == 5:
            extents[at] = start, length // 2
        elif how == 6:
            extents = extents * draw.among((2, 64 // len(extents) + 1, 100))
        elif how == 7:
            del extents[at]
        else:
            number = draw.below(len(self.device.regions))
            extents.insert(at, (self.device.bases[host][number], self.device.regions[number].block))
        return [(it[0] & 2**64 - 1, it[1] & 2**64 - 1) for it in extents[:1600]]

    def offer(self):
        draw, device = self.draw, self.device
        host, number = self.host(), draw.below(len(device.regions))
        it = device.regions[number]
        policy = draw.choices((0, 1, 2, 3, draw.below(256)), (25, 20, 40, 35 if it.shareable else 2, 2))[0]
        live = [tag for tag, entry in device.tags.items() if entry[0] == number]
        if policy == 3 and draw.chance(0.6) and live:    # one that the host has not
            theirs = device.hosts[host].tags()
            live = [tag for tag in live if tag not in theirs] or live
        if it.shareable:
            tag = self.tag(live if policy == 3 else ())
        else:
            tag = self.tag() if draw.chance(0.3) else NO_TAG
        if self.kind == "many tags" and policy < 3 and draw.chance(0.9):
            return self.ask(None, dcds.offer(host, FREE, number, it.block, self.tags.pop() if self.tags else NO_TAG))
        extents = ()
        if policy == 2 or draw.chance(0.03):
            most = draw.among((3, 3, 3, 8, 40, 64)) if self.kind != "many extents" else 70
            extents = self.mistaken(host, self.block_list(host, number, draw.few(most) if most <= 8 else draw.below(most) + 1))
            if draw.chance(0.02):
                extents = ()
        odd_host = draw.among((len(device.hosts), 255, 256, 65535)) if draw.chance(0.01) else host
        odd_region = draw.among((len(device.regions), 255)) if draw.chance(0.01) else number
        self.ask(None, dcds.offer(odd_host, policy, odd_region, self.length(it), tag, extents))

    def respond(self):
        draw = self.draw
        waiting = [number for number, it in enumerate(self.device.hosts) if it.offers]
        host = draw.among(waiting) if waiting and draw.chance(0.92) else self.host()
        offers = self.device.hosts[host].offers
        self.say_list(host, 0x4802, offers[0] if offers else [])

    def give_back(self):
        draw = self.draw
        holding = [number for number, it in enumerate(self.device.hosts) if it.accepted]
        host = draw.among(holding) if holding and draw.chance(0.92) else self.host()
        accepted = self.device.hosts[host].accepted
        if accepted and draw.chance(0.85):
            accepted = self.some_of(host, accepted)
        self.say_list(host, 0x4803, accepted)

    def some_of(self, host, accepted):
        """Some accepted extents; of a shared tag mostly all."""
        draw = self.draw
        chosen = [it for it in accepted if draw.chance(0.3)] or [draw.among(accepted)]
        if draw.chance(0.8):
            tags = {it[2] for it in chosen} - {NO_TAG}
            chosen = [it for it in accepted if it in chosen or it[2] in tags]
        return chosen

    def say_list(self, host, opcode, owners):
        """A response or a release with what is listed of these extents."""
        draw = self.draw
        extents, how = list(owners), draw.below(20)
        if how < 3 and extents:
            draw.shuffle(extents)
        elif how < 5:
            extents = [it for it in extents if draw.chance(0.5)]
        elif how < 9:
            extents = self.parts_of(host, extents)
        elif how == 9:
            extents = []
        elif how == 10 and self.device.hosts[host].extents():    # of another offer, or what is accepted
            extents = [draw.among(self.device.hosts[host].extents())]
        extents = self.mistaken(host, extents, 0.08)
        if draw.chance(0.12) and extents:    # in two messages
            at = draw.below(len(extents) + 1)
            self.ask(host, (opcode, dcds.listed(extents[:at], True)))
            extents = extents[at:]
        self.ask(host, (opcode, dcds.listed(extents, draw.chance(0.04))))

    def parts_of(self, host, extents):
        """Parts of extents that are made of blocks: every other block, or a block within."""
        draw, parts = self.draw, []
        for start, length, *_ in extents:
            number = self.device.region_at(host, start)
            block = self.device.regions[number].block
            blocks = length // block
            if blocks < 2:
                parts.append((start, length))
            elif draw.chance(0.5):
                parts += [(start + n * block, block) for n in range(draw.below(2), blocks, 2)]
            else:
                first = draw.below(blocks)
                parts.append((start + first * block, block * (1 + draw.below(blocks - first))))
        return parts[:200]

    def remove(self):
        draw, device = self.draw, self.device
        holding = [number for number, it in enumerate(device.hosts) if it.accepted]
        host = draw.among(holding) if holding and draw.chance(0.92) else self.host()
        accepted = device.hosts[host].accepted
        forced, clean, policy = draw.chance(0.6), draw.chance(0.2), draw.among((0, 1, 1))
        flags = policy | forced << 4 | clean << 5 | (draw.getrandbits(2) << 6 if draw.chance(0.05) else 0)
        if draw.chance(0.02):
            flags = draw.getrandbits(8)
        tags = [it[2] for it in accepted if it[2] != NO_TAG]
        extents, number = [], draw.below(len(device.regions))
        if accepted:
            extents = self.some_of(host, accepted)
            if draw.chance(0.9):
                number = device.region_at(host, extents[0][0])
                extents = [it for it in extents if device.region_at(host, it[0]) == number]
            if draw.chance(0.25):
                extents = self.parts_of(host, extents)
        if draw.chance(0.02):
            extents = []
        odd_host = len(device.hosts) if draw.chance(0.01) else host
        odd_region = len(device.regions) if draw.chance(0.01) else number
        self.ask(None, dcds.take(odd_host, flags, odd_region, self.tag(tags), self.mistaken(host, extents)))

    def clear(self):
        draw, device = self.draw, self.device
        host = None if draw.chance(0.3) else self.host()
        if host is not None and draw.chance(0.5):
            host = max(range(len(device.hosts)), key=lambda it: len(device.hosts[it].log.records))
        log = device.log if host is None else device.hosts[host].log
        if draw.chance(0.12):
            return self.ask(host, dcds.clear_all(draw.among((4, 4, 0, 5))))
        count = min(len(log.records), draw.among((1, 2, 10, 64, 128)))
        handles = [log.records[n] for n in range(count)]
        if draw.chance(0.15):
            handles.insert(draw.below(count + 1), draw.among((0, 1, 2, 65535, log.next, log.next - 1, log.records[-1] if log.records else 9)))
        self.ask(host, dcds.clear_events(handles[:255], draw.among((4, 4, 4, 4, 4, 4, 4, 0, 5))))

    def read(self):
        draw, device = self.draw, self.device
        host, first = self.host(), draw.among((0, 0, 0, 1, 5, 64, draw.among(EXTREMES))) & 0xFFFFFFFF
        count = draw.among((50, 1, 0, 2**32 - 1))
        number = draw.among((0, 0, 0, 1, len(device.regions), 255))
        how = draw.below(7)
        if how == 0:
            self.ask(None if draw.chance(0.4) else host, dcds.get_events(draw.among((4, 4, 4, 4, 0, 5, 255))))
        elif how == 1:
            self.ask(host, dcds.get_configuration(draw.among((8, 1, 0, 255)), number))
        elif how == 2:
            self.ask(host, dcds.get_extents(count, first))
        elif how == 3:
            self.ask(None, dcds.get_info())
        elif how == 4:
            self.ask(None, dcds.get_host_regions(draw.among((host, host, len(device.hosts), 65535)), draw.among((8, 1, 0)), number))
        elif how == 5:
            self.ask(None, dcds.get_host_extents(draw.among((host, host, host, len(device.hosts))), count, first))
        else:
            self.ask(None, dcds.list_tags(count, first))

    def set_region(self):
        draw, device = self.draw, self.device
        unused = [n for n, it in enumerate(device.regions) if not any(device.states()[it.first:it.first + it.count])]
        number = draw.among(unused) if unused and draw.chance(0.6) else draw.among((draw.below(len(device.regions)), len(device.regions)))
        it = device.regions[min(number, len(device.regions) - 1)]
        sizes = [1 << n for n in range(41) if it.sizes >> n & 1]
        block = draw.among(sizes) if draw.chance(0.9) else draw.among((it.block // 2, it.sizes, *EXTREMES))
        self.ask(None, dcds.set_region(number, block, it.sanitizes ^ draw.chance(0.06)))

    def refer(self):
        draw, device = self.draw, self.device
        if draw.chance(0.6):
            self.ask(None, dcds.add_reference(self.tag(device.tags)))
        else:
            self.ask(None, dcds.remove_reference(self.tag(sorted(device.referenced))))


def told(reply):
    """What is printed of a load or a store; a number is a fault."""
    return f"refused {reply}" if isinstance(reply, int) else reply


# ---- what a run of it has to print


class Expected:
    """What runs of a script have to come to: the line of a refused one, or what a serial run prints of each entry and of the state."""

    def __init__(self, script, refusal=None, replies=(), state=()):
        self.script, self.refusal, self.replies, self.state = script, refusal, replies, state

    def rules(self):
        """The rules that the commands break in a serial run."""
        return [it[2][2] for it in self.replies if isinstance(it[2], tuple)]


def random_script(seed):
    """The script of a seed, and what has to come of it."""
    it = Script(seed)
    script = it.bytes()
    if it.draw.chance(0.12):
        return played(changed(it.draw, script))
    return Expected(script, None, it.replies, it.device.state_lines(len(it.replies)))


def changed(draw, script):
    """A script in which some bytes are others, are missing, or are put in."""
    script = bytearray(script)
    for _ in range(draw.few(3)):
        at = draw.below(len(script)) if draw.chance(0.7) else draw.below(min(len(script), 200))
        how = draw.below(8)
        if how == 0:
            del script[at:]
        elif how == 1:
            del script[at:at + draw.few(40)]
        elif how == 2:
            script[at:at] = draw.randbytes(draw.few(40))
        elif how == 3:
            script += draw.randbytes(draw.few(20))
        elif script:
            script[at % len(script)] = draw.among((draw.getrandbits(8), 0, 1, 5, 6, 0xFE, 0xFF))
        if not script:
            break
    return bytes(script)


def played(script):
    """What has to come of any bytes."""
    try:
        device, _, lines = reading.read(script)
    except reading.Refused as refused:
        return Expected(script, str(refused))
    replies = []
    for number, (kind, actor, *what) in enumerate(lines, 1):
        host = actor & 15
        if kind == reading.COMMAND:
            tag, opcode, payload = what
            rule = device.manager_command(opcode, payload) if actor == MANAGER else device.host_command(host, opcode, payload)
            replies.append((number, "fm" if actor == MANAGER else f"h{host}", (tag, opcode, rule)))
        elif kind == reading.LOAD:
            replies.append((number, f"h{host}", f"ld {told(device.load(host, *what))}"))
        elif kind == reading.STORE:
            replies.append((number, f"h{host}", f"st {told(device.store(host, *what))}"))
        elif kind == reading.SCRUB:
            replies.append((number, "sz", f"sc {device.scrub(*what)}"))
    return Expected(script, None, replies, device.state_lines(len(replies)))


def first_difference(expected, text):
    """What a serial text has otherwise than it should, or None. Payloads and records are left to the checker."""
    if expected.refusal is not None:
        return None if text == expected.refusal + "\n" else "the line of the refusal"
    lines = text.split("\n")
    if lines[0] != "dcd 1" or lines[-1] != "":
        return "the first line or the end"
    if len(lines) < 2 + len(expected.replies) + len(expected.state) or lines[-1 - len(expected.state):-1] != expected.state:
        return "the state: it should be " + " / ".join(expected.state)
    for entry, (line, (number, actor, reply)) in enumerate(zip(lines[1:], expected.replies), 1):
        front = f"{entry} {number} {actor} "
        if isinstance(reply, str):
            if line != front + reply:
                return f"line {entry + 1}: it should be {front}{reply}"
            continue
        tag, opcode, rule = reply
        front += f"cmd 01{tag:02x}00{opcode & 255:02x}{opcode >> 8:02x}"
        code = CODES[rule]
        end = len(front)
        if not line.startswith(front) or line[end + 6:end + 14] != f"{code:02x}000000" or code and line[end:] != f"000000{code:02x}000000":
            return f"line {entry + 1}: it should be {front} and break {rule}"
    return None
