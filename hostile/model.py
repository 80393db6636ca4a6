"""What the device replies, step by step in the order of the lines, after docs/device.md and docs/formats.md: a model of its own.

It tells which rule a command breaks, so that a run can say which rules were reached; the texts of serial runs are compared with it. Nothing of it
is proved, and nothing of the device is read from it. An extent is a tuple of its start, its length, its tag and its sequence.
"""
import struct
from collections import deque

NO_TAG = bytes(16)
HOST_LOG, MANAGER_LOG = 64, 128
MOST_EXTENTS, MOST_TAGS, MOST_MISSED, LAST_HANDLE = 64, 32, 65535, 65535

# The rules in the order of docs/formats.md, each with the number of its code. Success breaks none.
CODES = {
    "Success": 0x00, "UnknownOpcode": 0x03, "WrongLength": 0x16, "NoSuchRegion": 0x02, "NoSuchHost": 0x02, "PastEnd": 0x02, "NoSuchLog": 0x02,
    "UnknownHandle": 0x0E, "OlderLeft": 0x0E, "NotOverflowed": 0x02, "TooManyListed": 0x1D, "ZeroLength": 0x1E, "OutsideRegion": 0x0F,
    "Unaligned": 0x1E, "NotOffered": 0x0F, "NotAccepted": 0x0F, "NotFree": 0x1E, "Overlap": 0x1E, "NotWhole": 0x1E, "TagIncomplete": 0x1E,
    "TooManyExtents": 0x1D, "NoSuchPolicy": 0x02, "EmptyList": 0x02, "NotShareable": 0x02, "ZeroTag": 0x02, "TagInUse": 0x02, "NoSuchTag": 0x02,
    "AlreadyShared": 0x02, "BadLength": 0x02, "TooFewFree": 0x1D, "TooManyTags": 0x1D, "LogFull": 0x05, "UnsupportedFlag": 0x03,
    "NotSupportedSize": 0x02, "SanitizeDiffers": 0x03, "RegionInUse": 0x05, "NoReference": 0x02,
}


class Broken(Exception):
    """The first rule that a command breaks."""

    def __init__(self, rule):
        super().__init__(rule)
        self.rule = rule


def refuse(rule, broken=True):
    if broken:
        raise Broken(rule)


class Region:
    """A region: its bytes, its granules and what it is."""

    def __init__(self, units, length, block, sizes, sanitizes, shareable, first):
        self.units, self.length, self.block, self.sizes = units, length, block, sizes
        self.sanitizes, self.shareable, self.first = sanitizes, shareable, first
        self.granule = sizes & -sizes
        self.count = length // self.granule


class Log:
    """The handles of the records in a log, the oldest first, the next handle, and how many records it missed."""

    def __init__(self, places):
        self.places, self.records, self.next, self.missed = places, deque(), 1, 0

    def room(self):
        return self.places - len(self.records)

    def put(self, count):
        for _ in range(count):
            if len(self.records) < self.places:
                self.records.append(self.next)
                self.next = self.next % LAST_HANDLE + 1
            else:
                self.missed = min(self.missed + 1, MOST_MISSED)

    def broken_by(self, handles):
        """The rule that a clear of these handles breaks, or None."""
        left = list(self.records)
        for place, handle in enumerate(handles):
            if place >= len(left) or left[place] != handle:
                return "OlderLeft" if handle in left[place:] else "UnknownHandle"
        return None


class Host:
    """What a host has: accepted extents, unanswered offers, held lists by their opcode, and its log."""

    def __init__(self):
        self.accepted, self.offers, self.held, self.log = [], [], {0x4802: [], 0x4803: []}, Log(HOST_LOG)

    def extents(self):
        return self.accepted + [it for offer in self.offers for it in offer]

    def tags(self):
        return {it[2] for it in self.extents()} - {NO_TAG}


def lies_in(owners, start, length):
    """The first extent in which a range lies, or None."""
    for it in owners:
        if it[0] <= start and start + length <= it[0] + it[1]:
            return it
    return None


def cut(owners, start, length):
    """The extents without this range, which lies in one of them."""
    for index, (first, size, tag, sequence) in enumerate(owners):
        if first <= start and start + length <= first + size:
            parts = [(first, start - first, tag, sequence), (start + length, first + size - start - length, tag, sequence)]
            return owners[:index] + [it for it in parts if it[1]] + owners[index + 1:]
    return owners


def numbers(form, payload, start, step):
    return [struct.unpack_from(form, payload, at) for at in range(start, len(payload), step)]


class Device:
    """A device; `bases` are the bases of the regions, host by host."""

    def __init__(self, hosts, regions, bases):
        self.regions, self.bases = regions, bases
        self.hosts = [Host() for _ in range(hosts)]
        self.log = Log(MANAGER_LOG)
        self.granules = sum(it.count for it in regions)
        self.region_of = [it for it in regions for _ in range(it.count)]
        self.holders = [0] * self.granules
        self.unclean = [False] * self.granules
        self.uses = [0] * self.granules
        self.words = {}
        self.tags = {}          # of each live shareable tag the region and the runs of its granules, in the order of opening
        self.referenced = set()
        self.kept = None

    # ---- places

    def region_at(self, host, start, length=1):
        """The number of the region in which a range of a host's addresses lies, or None."""
        for number, it in enumerate(self.regions):
            base = self.bases[host][number]
            if base <= start < base + it.length:
                return number if start + length <= base + it.length else None
        return None

    def run(self, host, start, length):
        """The granules of an extent that lies in a region."""
        number = self.region_at(host, start)
        it = self.regions[number]
        first = it.first + (start - self.bases[host][number]) // it.granule
        return range(first, first + length // it.granule)

    def address(self, host, number, granule):
        it = self.regions[number]
        return self.bases[host][number] + (granule - it.first) * it.granule

    # ---- states

    def use(self, run, change):
        """A granule of the run is used once more, or once less: held, offered or tagged."""
        for granule in run:
            self.uses[granule] += change
        self.kept = None

    def states(self):
        """Of each granule whether it is used, dirty or free: 2, 1, 0."""
        if self.kept is None:
            self.kept = [2 if used else int(dirty) for used, dirty in zip(self.uses, self.unclean)]
        return self.kept

    def is_live(self, tag):
        return tag in self.referenced or any(it[2] == tag for host in self.hosts for it in host.extents())

    def end_tags(self):
        for tag in [it for it in self.tags if not self.is_live(it)]:
            for run in self.tags.pop(tag)[1]:
                self.use(run, -1)
        self.kept = None

    def take(self, host, extent):
        run = self.run(host, *extent[:2])
        it = self.region_of[run[0]]
        for granule in run:
            self.holders[granule] |= 1 << host
            self.unclean[granule] |= it.sanitizes
        if not it.shareable:
            self.use(run, 1)

    def leave(self, host, extent, soils=False):
        run = self.run(host, *extent[:2])
        for granule in run:
            self.holders[granule] &= ~(1 << host)
            self.unclean[granule] |= soils
        if not self.region_of[run[0]].shareable:
            self.use(run, -1)
        self.hosts[host].accepted = cut(self.hosts[host].accepted, *extent[:2])

    def use_offer(self, host, offer, change):
        """An offer begins or ends."""
        for start, length, *_ in offer:
            run = self.run(host, start, length)
            if not self.region_of[run[0]].shareable:
                self.use(run, change)

    # ---- what is asked

    def load(self, host, address):
        """The word, or the number of the fault."""
        place = self.place(host, address)
        return place if isinstance(place, int) else f"{self.words.get(place, 0):016x}"

    def store(self, host, address, value):
        place = self.place(host, address)
        if not isinstance(place, int):
            self.words[place] = value
            return "ok"
        return place

    def place(self, host, address):
        """The granule and the word of an address, or the number of the fault."""
        if address % 8:
            return 1
        number = self.region_at(host, address)
        if number is None:
            return 2
        it = self.regions[number]
        offset = address - self.bases[host][number]
        granule = it.first + offset // it.granule
        return (granule, offset % it.granule) if self.holders[granule] >> host & 1 else 3

    def scrub(self, most):
        dirty = [granule for granule, state in enumerate(self.states()) if state == 1][:most]
        for granule in dirty:
            self.unclean[granule] = False
        zeroed = set(dirty)
        if self.words and dirty:
            self.words = {place: word for place, word in self.words.items() if place[0] not in zeroed}
        self.kept = None
        return len(dirty)

    def host_command(self, host, opcode, payload):
        """Does the command of a host; the answer is the name of the rule that it breaks, or Success."""
        mine = self.hosts[host]
        try:
            if opcode not in HOST_COMMANDS:
                raise Broken("UnknownOpcode")
            HOST_COMMANDS[opcode](self, host, payload)
        except Broken as broken:
            if opcode in mine.held:
                mine.held[opcode] = []
            return broken.rule
        return "Success"

    def manager_command(self, opcode, payload):
        """Does the command of the manager; the answer is as of `host_command`."""
        try:
            if opcode not in MANAGER_COMMANDS:
                raise Broken("UnknownOpcode")
            MANAGER_COMMANDS[opcode](self, payload)
        except Broken as broken:
            return broken.rule
        return "Success"

    # ---- commands of both

    def get_events(self, payload):
        refuse("WrongLength", len(payload) != 1)
        refuse("NoSuchLog", payload[0] >= 5)

    def clear_events(self, log, payload):
        refuse("WrongLength", len(payload) < 6 or len(payload) != 6 + 2 * payload[2])
        refuse("NoSuchLog", payload[0] >= 5)
        log = log if payload[0] == 4 else Log(HOST_LOG)
        if payload[1] & 1:
            refuse("NotOverflowed", log.missed == 0)
            log.records.clear()
            log.missed = 0
            return
        handles = [it for it, in numbers("<H", payload, 6, 2)]
        rule = log.broken_by(handles)
        refuse(rule, rule is not None)
        for _ in handles:
            log.records.popleft()

    # ---- commands of a host

    def get_configuration(self, payload):
        refuse("WrongLength", len(payload) != 2)
        refuse("NoSuchRegion", payload[1] >= len(self.regions))

    def get_extents(self, host, payload):
        refuse("WrongLength", len(payload) != 8)
        refuse("PastEnd", struct.unpack_from("<I", payload, 4)[0] > len(self.hosts[host].accepted))

    def listed(self, host, opcode, payload):
        """The whole list of a response or a release, or None where more of it is to come."""
        refuse("WrongLength", len(payload) < 8 or len(payload) != 8 + 24 * struct.unpack_from("<I", payload)[0])
        held = self.hosts[host].held
        whole = held[opcode] + [it[:2] for it in numbers("<QQQ", payload, 8, 24)]
        refuse("TooManyListed", len(whole) > MOST_EXTENTS)
        held[opcode] = whole if payload[4] & 1 else []
        return None if payload[4] & 1 else whole

    def try_list(self, host, whole, owners, missing, named=None, free=None):
        """Tries each extent of a list by all rules on lists, in order."""
        for index, (start, length) in enumerate(whole):
            refuse("ZeroLength", length == 0)
            number = self.region_at(host, start, length)
            refuse("OutsideRegion", number is None or named not in (None, number))
            it = self.regions[number]
            refuse("Unaligned", (start - self.bases[host][number]) % it.block != 0 or length % it.block != 0)
            if free is None:
                owner = lies_in(owners, start, length)
                refuse(missing, owner is None)
            else:
                refuse("NotFree", any(free[granule] for granule in self.run(host, start, length)))
            refuse("Overlap", any(start < other + size and other < start + length for other, size in whole[:index]))
            refuse("NotWhole", free is None and it.shareable and owner[:2] != (start, length))

    def whole_tags(self, host, whole, owners):
        """Tries whether each tag of a shareable region is listed whole."""
        of = [lies_in(owners, *it) for it in whole]
        for owner in of:
            if self.regions[self.region_at(host, owner[0])].shareable:
                refuse("TagIncomplete", sum(it[2] == owner[2] for it in of) < sum(it[2] == owner[2] for it in owners))

    def respond(self, host, payload):
        whole = self.listed(host, 0x4802, payload)
        if whole is None:
            return
        mine = self.hosts[host]
        oldest = mine.offers[0] if mine.offers else []
        self.try_list(host, whole, oldest, "NotOffered")
        self.whole_tags(host, whole, oldest)
        refuse("TooManyExtents", len(mine.accepted) + len(whole) + sum(map(len, mine.offers[1:])) > MOST_EXTENTS)
        if mine.offers:
            self.use_offer(host, mine.offers.pop(0), -1)
            for start, length in whole:
                owner = lies_in(oldest, start, length)
                mine.accepted.append((start, length, owner[2], owner[3]))
                self.take(host, (start, length))
            self.end_tags()
            self.log.put(max(1, len(whole)))

    def give_back(self, host, payload):
        whole = self.listed(host, 0x4803, payload)
        if whole is None:
            return
        mine = self.hosts[host]
        self.try_list(host, whole, mine.accepted, "NotAccepted")
        self.whole_tags(host, whole, mine.accepted)
        refuse("TooManyExtents", self.left_by(host, whole) > MOST_EXTENTS)
        for it in whole:
            self.leave(host, it)
        self.end_tags()
        self.log.put(len(whole))

    def left_by(self, host, whole):
        """How many extents, accepted and offered, the host has once these have left."""
        accepted = self.hosts[host].accepted
        for it in whole:
            accepted = cut(accepted, *it[:2])
        return len(accepted) + sum(map(len, self.hosts[host].offers))

    # ---- commands of the manager

    def get_info(self, payload):
        refuse("WrongLength", len(payload) != 0)

    def get_host_regions(self, payload):
        refuse("WrongLength", len(payload) != 4)
        refuse("NoSuchHost", payload[0] + 256 * payload[1] >= len(self.hosts))
        refuse("NoSuchRegion", payload[3] >= len(self.regions))

    def set_region(self, payload):
        refuse("WrongLength", len(payload) != 16)
        refuse("NoSuchRegion", payload[0] >= len(self.regions))
        it, block = self.regions[payload[0]], struct.unpack_from("<Q", payload, 4)[0]
        refuse("NotSupportedSize", block == 0 or block & (block - 1) != 0 or not block & it.sizes)
        refuse("SanitizeDiffers", bool(payload[12] & 1) != it.sanitizes)
        refuse("RegionInUse", any(self.states()[it.first:it.first + it.count]))
        refuse("LogFull", any(host.log.room() == 0 for host in self.hosts))
        it.block = block
        for host in self.hosts:
            host.log.put(1)

    def get_host_extents(self, payload):
        refuse("WrongLength", len(payload) != 12)
        host, _, _, first = struct.unpack("<HHII", payload)
        refuse("NoSuchHost", host >= len(self.hosts))
        refuse("PastEnd", first > len(self.hosts[host].accepted))

    def placed(self, payload):
        refuse("WrongLength", len(payload) < 32 or len(payload) != 32 + 40 * struct.unpack_from("<I", payload, 28)[0])
        host, choice, number, length = struct.unpack_from("<HBBQ", payload)
        refuse("NoSuchHost", host >= len(self.hosts))
        return host, choice, number, length, bytes(payload[12:28]), numbers("<QQ24x", payload, 32, 40)

    def offer(self, payload):
        host, policy, number, length, tag, listed = self.placed(payload)
        refuse("NoSuchPolicy", policy > 3)
        refuse("NoSuchRegion", number >= len(self.regions))
        it, mine = self.regions[number], self.hosts[host]
        refuse("NotShareable", policy == 3 and not it.shareable)
        refuse("ZeroTag", it.shareable and tag == NO_TAG)
        refuse("TagInUse", policy < 3 and tag != NO_TAG and self.is_live(tag))
        if policy == 3:
            refuse("NoSuchTag", tag not in self.tags or self.tags[tag][0] != number)
            refuse("AlreadyShared", tag in mine.tags())
            runs = self.tags[tag][1]
        elif policy == 2:
            runs = self.prescribed(host, number, listed)
        else:
            runs = self.chosen(number, length, policy)
        sequences = range(1, len(runs) + 1) if it.shareable else [0] * len(runs)
        new = [(self.address(host, number, run[0]), len(run) * it.granule, tag, sequence) for run, sequence in zip(runs, sequences)]
        refuse("TooManyExtents", len(mine.extents()) + len(new) > MOST_EXTENTS)
        refuse("TooManyTags", tag != NO_TAG and len(mine.tags() | {tag}) > MOST_TAGS)
        refuse("LogFull", mine.log.room() < len(new))
        mine.offers.append(new)
        self.use_offer(host, new, 1)
        if it.shareable and policy != 3:
            self.tags[tag] = number, runs
            for run in runs:
                self.use(run, 1)
        mine.log.put(len(new))

    def prescribed(self, host, number, listed):
        refuse("EmptyList", not listed)
        refuse("TooManyListed", len(listed) > MOST_EXTENTS)
        self.try_list(host, listed, [], None, number, self.states())
        return [self.run(host, *it) for it in listed]

    def chosen(self, number, length, policy):
        """The runs that Free (0) or Contiguous (1) choose."""
        it = self.regions[number]
        refuse("BadLength", length == 0 or length % it.block != 0)
        need, size, states = length // it.block, it.block // it.granule, self.states()
        free = [not any(states[at:at + size]) for at in range(it.first, it.first + it.count, size)]
        if policy == 0:
            lowest = [number for number, is_free in enumerate(free) if is_free][:need]
            refuse("TooFewFree", len(lowest) < need)
            runs = []
            for block in lowest:
                if runs and runs[-1][1] == block:
                    runs[-1][1] += 1
                else:
                    runs.append([block, block + 1])
        else:
            runs, begun = [], 0
            for block, is_free in enumerate(free):
                begun = begun if is_free else block + 1
                if block + 1 - begun == need:
                    runs = [[begun, block + 1]]
                    break
            refuse("TooFewFree", not runs)
        return [range(it.first + first * size, it.first + end * size) for first, end in runs]

    def remove(self, payload):
        host, flags, number, _, tag, listed = self.placed(payload)
        mine, forced = self.hosts[host], bool(flags & 16)
        refuse("UnsupportedFlag", flags & 32 and not forced)
        refuse("NoSuchPolicy", flags & 15 > 1)
        if flags & 1:
            refuse("NoSuchRegion", number >= len(self.regions))
            refuse("EmptyList", not listed)
            refuse("TooManyListed", len(listed) > MOST_EXTENTS)
            self.try_list(host, listed, mine.accepted, "NotAccepted", number)
            self.whole_tags(host, listed, mine.accepted)
        else:
            refuse("ZeroTag", tag == NO_TAG)
            listed = [it[:2] for it in mine.accepted if it[2] == tag]
            refuse("NoSuchTag", not listed)
        refuse("TooManyExtents", forced and self.left_by(host, listed) > MOST_EXTENTS)
        refuse("LogFull", mine.log.room() < len(listed))
        if forced:
            for it in listed:
                self.leave(host, it, bool(flags & 32))
            self.end_tags()
        mine.log.put(len(listed))

    def add_reference(self, payload):
        refuse("WrongLength", len(payload) != 16)
        refuse("NoSuchTag", bytes(payload) not in self.tags)
        self.referenced.add(bytes(payload))

    def remove_reference(self, payload):
        refuse("WrongLength", len(payload) != 16)
        refuse("NoReference", bytes(payload) not in self.referenced)
        self.referenced.remove(bytes(payload))
        self.end_tags()

    def list_tags(self, payload):
        refuse("WrongLength", len(payload) != 8)
        refuse("PastEnd", struct.unpack_from("<I", payload)[0] > len(self.tags))

    # ---- what is left

    def state_lines(self, entries):
        """The lines of the state, behind the records."""
        lines = []
        for number, it in enumerate(self.hosts):
            granules = sum(len(self.run(number, *extent[:2])) for extent in it.accepted)
            lines.append(f"host h{number} extents {len(it.accepted)} granules {granules} log {len(it.log.records)}")
        states = self.states()
        return lines + [f"fm log {len(self.log.records)} missed {self.log.missed}",
                        f"granules free {states.count(0)} dirty {states.count(1)}", f"end {entries}"]


HOST_COMMANDS = {
    0x0100: lambda device, host, payload: device.get_events(payload),
    0x0101: lambda device, host, payload: device.clear_events(device.hosts[host].log, payload),
    0x4800: lambda device, host, payload: device.get_configuration(payload),
    0x4801: Device.get_extents,
    0x4802: Device.respond,
    0x4803: Device.give_back,
}
MANAGER_COMMANDS = {
    0x0100: Device.get_events,
    0x0101: lambda device, payload: device.clear_events(device.log, payload),
    0x5600: Device.get_info,
    0x5601: Device.get_host_regions,
    0x5602: Device.set_region,
    0x5603: Device.get_host_extents,
    0x5604: Device.offer,
    0x5605: Device.remove,
    0x5606: Device.add_reference,
    0x5607: Device.remove_reference,
    0x5608: Device.list_tags,
}
