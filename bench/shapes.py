"""Scripts of many lines whose lists are near the limits of the device, for bench/run.

Each function takes how many lines or commands it is to have, so that a small one can be looked at, and answers a head and the lines. A device
here has 16 hosts, all with the same addresses, and up to 4,096 granules. Each command is answered with Success, but for those of refused_last, and no access is refused.
"""
import os
import sys

sys.dont_write_bytecode = True
sys.path.insert(0, os.path.join(os.path.dirname(os.path.dirname(os.path.abspath(__file__))), "crates", "conversations", "writing"))
from dcds import *

HOSTS = 16
MOST_LINES = 65536
MOST_BYTES = 16777216
GRANULES = 4096


def script(start, lines):
    """The bytes of a script."""
    whole = start + b"".join(lines) + b"\0"
    assert len(lines) <= MOST_LINES and len(whole) <= MOST_BYTES, (len(lines), len(whole))
    return whole


def device(regions):
    """The head of a device of 16 hosts; a region is its length and block in MiB and what else it is."""
    parts, bases, base = [], [], 0
    for number, (length, block, *rest) in enumerate(regions):
        units = -(-length // 256)
        shareable = "shareable" in rest
        parts.append(region(units, length * MIB, block * MIB, MIB | block * MIB, number, True, shareable))
        bases.append(base)
        base += units << 28
    return head(HOSTS, parts, bases * HOSTS)


def blocks(first, count, step=1, size=1):
    """Extents of a block each: so many, from a granule on, a step of granules apart."""
    return [((first + n * step) * MIB, size * MIB) for n in range(count)]


def tag_of(number):
    return (number + 1).to_bytes(16, "little")


def draws():
    """Numbers that look drawn: those of the generated script of docs/formats.md."""
    x = 5
    while True:
        x = (x * 6364136223846793005 + 1442695040888963407) % 2**64
        yield x


class Lines(list):
    """The lines of a script, with the records that each host's log has: the handle of the oldest, and how many."""

    def __init__(self):
        super().__init__()
        self.logs = [(1, 0)] * HOSTS

    def manager(self, request):
        self.append(command(MANAGER, request))

    def host(self, host, request):
        self.append(command(host, request))

    def told(self, host, request, records):
        """A command of the manager that puts so many records into the host's log."""
        self.manager(request)
        oldest, count = self.logs[host]
        self.logs[host] = oldest, count + records

    def clear(self, host):
        """The host clears its whole log."""
        oldest, count = self.logs[host]
        self.host(host, clear_events([1 + (oldest - 1 + n) % 65535 for n in range(count)]))
        self.logs[host] = oldest + count, 0


# Replies of about 2 KiB


def full_hosts():
    """Each host accepts 64 extents of a block; their logs are full."""
    lines = Lines()
    for host in range(HOSTS):
        extents = blocks(64 * host, 64)
        lines.told(host, offer(host, PRESCRIPTIVE, 0, extents=extents), 64)
        lines.host(host, respond(extents))
    return device([(GRANULES, 1)]), lines


def extent_pages(count):
    """4801h: the last 50 of 64 extents."""
    start, lines = full_hosts()
    for n in range(count - len(lines)):
        lines.host(n % HOSTS, get_extents(50, 14))
    return start, lines


def host_extent_pages(count):
    """5603h: the last 50 of 64 extents of a host."""
    start, lines = full_hosts()
    for n in range(count - len(lines)):
        lines.manager(get_host_extents(n % HOSTS, 50, 14))
    return start, lines


def log_pages(count):
    """0100h: 15 of 64 records."""
    start, lines = full_hosts()
    for n in range(count - len(lines)):
        lines.host(n % HOSTS, get_events())
    return start, lines


def full_tags():
    """Eight regions, and 512 tags in the last one: each host holds 32 of two extents; their logs are full."""
    lines = Lines()
    base = 7 << 28
    for host in range(HOSTS):
        for n in range(32):
            tag = tag_of(32 * host + n)
            extents = [(base + first, length) for first, length in blocks(64 * host + 2 * n, 2)]
            lines.told(host, offer(host, PRESCRIPTIVE, 7, tag=tag, extents=extents), 2)
            lines.host(host, respond(extents))
    return device([(256, 1)] * 7 + [(1024, 1, "shareable")]), lines


def tag_pages(count):
    """5608h: the last 84 of 512 tags."""
    start, lines = full_tags()
    for _ in range(count - len(lines)):
        lines.manager(list_tags(84, 428))
    return start, lines


# Loads and stores


def spread_accesses(count):
    """Stores and loads at drawn words of 16 hosts with 64 extents each, in eight regions."""
    lines = Lines()
    for host in range(HOSTS):
        for number in range(8):
            extents = [(first + (number << 29), length) for first, length in blocks(32 * host, 8, 4, 4)]
            lines.told(host, offer(host, PRESCRIPTIVE, number, extents=extents), 8)
            lines.host(host, respond(extents))
    x = draws()
    for n in range(count - len(lines)):
        host, draw = n % HOSTS, next(x) >> 20
        address = (draw % 8 << 29) + 32 * host * MIB + (draw >> 3) % (4 * MIB) * 8
        lines.append(load(host, address) if n // HOSTS % 2 else store(host, address, next(x)))
    return device([(512, 1)] * 8), lines


def crowded_accesses(count):
    """Stores to other words of one granule each, by falling addresses, and then loads of them."""
    lines = Lines()
    lines.told(0, offer(0, FREE, 0, MIB), 1)
    lines.host(0, respond([(0, MIB)]))
    half = (count - len(lines)) // 2
    for n in range(half):
        lines.append(store(0, MIB - 8 * (n + 1), n))
    for n in range(count - len(lines)):
        lines.append(load(0, MIB - 8 * (n * 4093 % half + 1)))
    return device([(GRANULES, 1)]), lines


# Offers, answers, releases, forced removals and scrubs: about as many as asked for, in whole rounds; lines that clear logs come on top


def use_up(lines, offered):
    """Each host accepts what it is offered, gives it back or loses it, and clears its log; then the sanitizer has a turn."""
    for host in range(HOSTS):
        extents = offered(host)
        lines.host(host, respond(extents))
        if host % 2:
            lines.host(host, give_back(extents))
        else:
            lines.told(host, take(host, LISTED | FORCED, extents=extents), 1)
        lines.clear(host)
    lines.append(scrub(GRANULES))


def whole_device(count, block=1):
    """The whole device in extents of 256 granules: each host gets one, and gives it back or loses it. A block has so many granules."""
    lines = Lines()
    for _ in range(count // (3 * HOSTS + 1)):
        for host in range(HOSTS):
            lines.told(host, offer(host, FREE, 0, 256 * MIB), 1)
        use_up(lines, lambda host: blocks(256 * host, 1, size=256))
    return device([(GRANULES, block)]), lines


def full_lists(count):
    """Each host has 63 extents all the time, and gets a 64th, which it gives back or loses."""
    lines = Lines()
    for host in range(HOSTS):
        extents = blocks(256 * host, 63, 4, 2)
        lines.told(host, offer(host, PRESCRIPTIVE, 0, extents=extents), 63)
        lines.host(host, respond(extents))
        lines.clear(host)
    for _ in range((count - 2 * HOSTS) // (3 * HOSTS + 1)):
        for host in range(HOSTS):
            lines.told(host, offer(host, PRESCRIPTIVE, 0, extents=blocks(256 * host + 254, 1)), 1)
        use_up(lines, lambda host: blocks(256 * host + 254, 1))
    return device([(GRANULES, 1)]), lines


def fragments(count):
    """Eight hosts hold every other block, so that the others get 64 extents for each 64 blocks of Free."""
    lines = Lines()
    for host in range(8):
        extents = blocks(512 * host, 64, 8, 4)
        lines.told(host, offer(host, PRESCRIPTIVE, 0, extents=extents), 64)
        lines.host(host, respond(extents))
    for _ in range((count - 16) // (3 * 8 + 1)):
        for host in range(8, HOSTS):
            lines.told(host, offer(host, FREE, 0, 256 * MIB, tag_of(host)), 64)
        for host in range(8, HOSTS):
            extents = blocks(512 * (host - 8) + 4, 64, 8, 4)[::-1]
            lines.host(host, respond(extents))
            lines.clear(host)
            if host % 2:
                lines.host(host, give_back(extents[::-1]))
            else:
                lines.told(host, take(host, BY_TAG | FORCED, tag=tag_of(host)), 64)
                lines.clear(host)
        lines.append(scrub(GRANULES))
    return device([(GRANULES, 4)]), lines


def cuts(count):
    """Each host gets one extent of 127 blocks, gives back 63 blocks out of it, and loses the 64 that are left by their tag."""
    lines = Lines()
    for _ in range(count // (4 * HOSTS + 1)):
        for host in range(HOSTS):
            lines.told(host, offer(host, CONTIGUOUS, 0, 254 * MIB, tag_of(host)), 1)
        for host in range(HOSTS):
            lines.host(host, respond(blocks(254 * host, 1, size=254)))
            lines.clear(host)
            lines.host(host, give_back(blocks(254 * host + 2, 63, 4, 2)))
            lines.told(host, take(host, BY_TAG | FORCED, tag=tag_of(host)), 64)
            lines.clear(host)
        lines.append(scrub(GRANULES))
    return device([(GRANULES, 2)]), lines


def shared_device(count):
    """All hosts share the whole device by one tag of 64 extents."""
    extents = blocks(0, 64, 64, 64)
    lines = Lines()
    for _ in range(count // (3 * HOSTS + 1)):
        for host in range(HOSTS):
            policy, listed = (SHARED, []) if host else (PRESCRIPTIVE, extents)
            lines.told(host, offer(host, policy, 0, tag=tag_of(0), extents=listed), 64)
            lines.host(host, respond(extents[::-1]))
            lines.clear(host)
        for host in range(HOSTS):
            if host % 2:
                lines.host(host, give_back(extents))
            else:
                lines.told(host, take(host, BY_TAG | FORCED, tag=tag_of(0)), 64)
                lines.clear(host)
        lines.append(scrub(GRANULES))
    return device([(GRANULES, 1, "shareable")]), lines


# Commands that change something, on devices that are full, or free in small parts only, or in large ones


def whole_in_parts(count):
    """Each host in turn is offered the whole device as one extent, answers with 64 parts of it, and gives these back; all is zeroed."""
    parts = blocks(0, 64, 64, 64)
    lines = Lines()
    for n in range(count // 5):
        host = n % HOSTS
        lines.told(host, offer(host, FREE, 0, GRANULES * MIB), 1)
        lines.host(host, respond(parts))
        lines.host(host, give_back(parts))
        lines.append(scrub(GRANULES))
        lines.clear(host)
    return device([(GRANULES, 1)]), lines


def declined(count):
    """Host 0 holds all granules but the last two; host 1 is offered one, and declines it."""
    lines = Lines()
    lines.told(0, offer(0, FREE, 0, (GRANULES - 2) * MIB), 1)
    lines.host(0, respond([(0, (GRANULES - 2) * MIB)]))
    lines.clear(0)
    for _ in range((count - len(lines)) // 3):
        lines.told(1, offer(1, FREE, 0, MIB), 1)
        lines.host(1, respond([]))
        lines.clear(1)
    return device([(GRANULES, 1)]), lines


def nothing_to_zero(count):
    """Scrubs of a device with nothing dirty."""
    return device([(GRANULES, 1)]), [scrub(GRANULES)] * count


def given_and_got(count, owned):
    """Each host has 64 granules, and gives them back in turn, and gets the same ones."""
    lines = Lines()
    for host in range(HOSTS):
        lines.told(host, offer(host, PRESCRIPTIVE, 0, extents=owned(host)), 64)
        lines.host(host, respond(owned(host)))
        lines.clear(host)
    for n in range((count - len(lines)) // 5):
        host = n % HOSTS
        lines.host(host, give_back(owned(host)))
        lines.append(scrub(GRANULES))
        lines.told(host, offer(host, PRESCRIPTIVE, 0, extents=owned(host)), 64)
        lines.host(host, respond(owned(host)))
        lines.clear(host)
    return device([(GRANULES, 1)]), lines


def every_second(count):
    """Each second granule of half of the device is held, and given back and got again."""
    return given_and_got(count, lambda host: blocks(128 * host, 64, 2))


def interleaved(count):
    """Granule g is host g mod 16's: neighbours are others'."""
    return given_and_got(count, lambda host: blocks(host, 64, HOSTS))


def eight_regions(count):
    """Each host in turn gets eight granules in each of eight regions, and gives back all 64 at once."""
    lines = Lines()
    for n in range(count // 19):
        host = n % HOSTS
        extents = [blocks((number << 8) + 16 * host, 8, 2) for number in range(8)]
        for number in range(8):
            lines.told(host, offer(host, PRESCRIPTIVE, number, extents=extents[number]), 8)
            lines.host(host, respond(extents[number]))
        lines.host(host, give_back([extent for each in extents for extent in each]))
        lines.append(scrub(GRANULES))
        lines.clear(host)
    return device([(256, 1)] * 8), lines


def large_blocks(count):
    """The same as whole_device by blocks of 64 granules."""
    return whole_device(count, 64)


def among_fragments(count):
    """Eight hosts hold each second granule of a quarter of the device; the others get 64 granules that lie together."""
    lines = Lines()
    for host in range(8):
        extents = blocks(128 * host, 64, 2)
        lines.told(host, offer(host, PRESCRIPTIVE, 0, extents=extents), 64)
        lines.host(host, respond(extents))
    for _ in range((count - len(lines)) // (4 * 8 + 1)):
        for host in range(8, HOSTS):
            lines.told(host, offer(host, CONTIGUOUS, 0, 64 * MIB), 1)
        for host in range(8, HOSTS):
            extents = blocks(1023 + 64 * (host - 8), 1, size=64)
            lines.host(host, respond(extents))
            lines.host(host, give_back(extents))
            lines.clear(host)
        lines.append(scrub(GRANULES))
    return device([(GRANULES, 1)]), lines


def lost_by_tag(count):
    """Each host in turn gets 64 granules with 16 tags, four to a tag, and loses them by force, tag by tag."""
    lines = Lines()
    for n in range(count // 50):
        host = n % HOSTS
        for number in range(16):
            extents = blocks(128 * host + 8 * number, 4, 2)
            lines.told(host, offer(host, PRESCRIPTIVE, 0, tag=tag_of(number), extents=extents), 4)
            lines.host(host, respond(extents))
        lines.clear(host)
        for number in range(16):
            lines.told(host, take(host, BY_TAG | FORCED, tag=tag_of(number)), 4)
        lines.append(scrub(GRANULES))
        lines.clear(host)
    return device([(GRANULES, 1)]), lines


def refused_last(count):
    """Host 0 holds 64 granules: what it gives back is refused for the last of 64 extents, which is not its own. Between it reads its empty log."""
    lines = Lines()
    extents = blocks(0, 64, 2)
    lines.told(0, offer(0, PRESCRIPTIVE, 0, extents=extents), 64)
    lines.host(0, respond(extents))
    lines.clear(0)
    wrong = [*extents[:63], (127 * MIB, MIB)]
    for _ in range((count - len(lines)) // 2):
        lines.host(0, give_back(wrong))
        lines.host(0, get_events())
    return device([(GRANULES, 1)]), lines


# Offers that wait, and lists in several messages


def put_waiting(lines, host):
    """The host is offered 32 granules, each in an offer of its own."""
    for n in range(32):
        lines.told(host, offer(host, PRESCRIPTIVE, 0, extents=blocks(128 * host + 4 * n, 1)), 1)


def waiting(count):
    """Each host in turn is offered 32 granules one by one, takes them in that order and gives all back at once."""
    lines = Lines()
    for n in range(count // 67):
        host = n % HOSTS
        put_waiting(lines, host)
        for extent in blocks(128 * host, 32, 4):
            lines.host(host, respond([extent]))
        lines.clear(host)
        lines.host(host, give_back(blocks(128 * host, 32, 4)))
        lines.append(scrub(GRANULES))
    return device([(GRANULES, 1)]), lines


def waiting_declined(count):
    """Each host in turn is offered 32 granules one by one, and declines them."""
    lines = Lines()
    for n in range(count // 65):
        host = n % HOSTS
        put_waiting(lines, host)
        for _ in range(32):
            lines.host(host, respond([]))
        lines.clear(host)
    return device([(GRANULES, 1)]), lines


def in_messages(count):
    """Each host in turn takes 64 granules in eight messages, and gives them back in eight."""
    lines = Lines()
    for n in range(count // 19):
        host = n % HOSTS
        lines.told(host, offer(host, FREE, 0, 64 * MIB), 1)
        for part in range(8):
            lines.host(host, respond(blocks(8 * part, 8), more=part < 7))
        for part in range(8):
            lines.host(host, give_back(blocks(8 * part, 8), more=part < 7))
        lines.clear(host)
        lines.append(scrub(GRANULES))
    return device([(GRANULES, 1)]), lines


# Tags that come and go


def many_tags(count):
    """Host 0 holds 60 granules by 30 tags, two to a tag. It is offered one by one more tag, takes it and gives it back; every 16th round all is zeroed."""
    lines = Lines()
    for number in range(30):
        extents = blocks(8 * number, 2, 4)
        lines.told(0, offer(0, PRESCRIPTIVE, 0, tag=tag_of(2 * number + 1), extents=extents), 2)
        lines.host(0, respond(extents))
    lines.clear(0)
    rounds = 0
    while len(lines) < count:
        # 31 tags in turn, which stand between, before and behind those that are held.
        extents = blocks(512 + 2 * (rounds % 16), 1)
        lines.told(0, offer(0, PRESCRIPTIVE, 0, tag=tag_of(2 * (rounds % 31)), extents=extents), 1)
        lines.host(0, respond(extents))
        lines.host(0, give_back(extents))
        rounds += 1
        if rounds % 16 == 0:
            lines.append(scrub(GRANULES))
            lines.clear(0)
    return device([(GRANULES, 1)]), lines


def tags_by_turns(count):
    """Each host in turn holds 62 granules by 31 tags, the two of a tag far apart, which come one by one, and gives every second back, and then the rest, at once."""
    lines = Lines()
    for n in range(count // 128):
        host = n % HOSTS
        extents = blocks(128 * host, 62, 2)
        for number, extent in enumerate(extents):
            lines.told(host, offer(host, PRESCRIPTIVE, 0, tag=tag_of(number % 31), extents=[extent]), 1)
            lines.host(host, respond([extent]))
        lines.clear(host)
        lines.host(host, give_back(extents[::2]))
        lines.host(host, give_back(extents[1::2]))
        lines.append(scrub(GRANULES))
    return device([(GRANULES, 1)]), lines


# Commands that read lists and logs


def reads(lines, count, pages):
    """So many commands that read, each kind in turn; the pages are the first index of extents and of tags."""
    extents, tags = pages
    for n in range(count):
        host, kind = n // 7 % HOSTS, n % 7
        if kind == 0:
            lines.host(host, get_configuration())
        elif kind == 1:
            lines.host(host, get_extents(50, extents))
        elif kind == 2:
            lines.host(host, get_events())
        else:
            lines.manager([get_info(), get_host_regions(host), get_host_extents(host, 50, extents), list_tags(84, tags)][kind - 3])


def short_reads(count):
    """Lists of one extent, empty logs, no tags."""
    lines = Lines()
    for host in range(HOSTS):
        lines.told(host, offer(host, FREE, 0, 256 * MIB), 1)
        lines.host(host, respond(blocks(256 * host, 1, size=256)))
        lines.clear(host)
    reads(lines, count, (0, 0))
    return device([(GRANULES, 1)]), lines


def long_reads(count):
    """Lists of 64 extents and of 512 tags, logs of 64 records, eight regions."""
    start, lines = full_tags()
    reads(lines, count, (14, 428))
    return start, lines


# Short replies


def get_configurations(count):
    """4800h of both hosts of a small device in turn, one region in each reply."""
    return two_regions(), [command(n % 2, get_configuration(8, 1)) for n in range(count)]


# A mix that is the same from its first round to its last


def mixed(count):
    """Commands and turns of the sanitizer in rounds of 200 lines: all hosts get, read, give back, lose and clear, and the manager reads."""
    lines = Lines()
    while len(lines) < count:
        for host in range(HOSTS):
            whole, first = [((254 * host) * MIB, 254 * MIB)], 254 * host
            lines.told(host, offer(host, CONTIGUOUS, 0, 254 * MIB, tag_of(host)), 1)
            lines.host(host, get_events())
            lines.host(host, respond(whole))
            lines.clear(host)
            lines.host(host, get_configuration())
            lines.told(host, take(host, LISTED, extents=blocks(first + 2, 7, 4, 2)), 7)
            lines.host(host, give_back(blocks(first + 2, 15, 4, 2)))
            lines.host(host, get_extents())
            lines.clear(host)
            lines.manager(get_host_extents(host))
            lines.told(host, take(host, BY_TAG | FORCED, tag=tag_of(host)), 16)
            lines.clear(host)
        lines.manager(get_info())
        lines.manager(get_host_regions(0))
        lines.manager(list_tags())
        lines.manager(get_events())
        lines.manager(clear_all())
        lines.manager(get_events())
        lines.append(scrub(GRANULES))
        lines.manager(get_info())
    del lines[count:]
    return device([(GRANULES, 2)]), lines


# All of them


def one_load(made, address):
    """The same lines, but one load in the middle, by host 0 of a word that it holds."""

    def with_load(count):
        start, lines = made(count)
        lines[len(lines) // 2] = load(0, address)
        return start, lines

    return with_load


# Of each kind: its name, what it is, how many lines or commands, and its shapes.
KINDS = [
    ("replies", "65,536 lines, replies of about 2 KiB", MOST_LINES, [
        ("4801h, 50 of 64 extents", extent_pages),
        ("5603h, 50 of 64 extents", host_extent_pages),
        ("0100h, 15 of 64 records", log_pages),
        ("5608h, 84 of 512 tags", tag_pages)]),
    ("accesses", "65,536 lines, loads and stores", MOST_LINES, [
        ("all hosts, eight regions", spread_accesses),
        ("words of one granule", crowded_accesses)]),
    ("changes", "about 15,000 offers, answers, releases, forced removals and scrubs, and lines that clear logs", 15000, [
        ("extents of 256 granules", whole_device),
        ("63 extents each, and one more", full_lists),
        ("64 fragments an offer", fragments),
        ("127 blocks cut into 64", cuts),
        ("64 extents that 16 hosts share", shared_device),
        ("all offered, answered in 64 parts", whole_in_parts)]),
    ("granules", "about 12,000 lines on devices that are free in small parts only, or in large ones", 12000, [
        ("each second granule", every_second),
        ("granules of 16 hosts in turn", interleaved),
        ("eight regions", eight_regions),
        ("blocks of 64 granules", large_blocks),
        ("contiguous ones among fragments", among_fragments),
        ("lost by tag, 4 of 64 at a time", lost_by_tag),
        ("refused for the last of 64 extents", refused_last)]),
    ("waiting", "about 12,000 lines of offers that wait, or of lists in several messages", 12000, [
        ("32 offers wait, each is taken", waiting),
        ("32 offers wait, each is declined", waiting_declined),
        ("64 extents in eight messages", in_messages)]),
    ("tags", "about 12,000 lines of a host that has many tags", 12000, [
        ("one more comes and goes beside 30", many_tags),
        ("62 of 31 tags come, and go at once", tags_by_turns)]),
    ("small", "48,003 lines that come to little", 48003, [
        ("one of the last two, declined", declined),
        ("scrubs with nothing dirty", nothing_to_zero)]),
    ("reads", "48,000 commands that read lists and logs", 48000, [
        ("lists of one, empty logs", short_reads),
        ("lists of 64, full logs, 512 tags", long_reads)]),
]


# What a driver of host 0 answers, with what the others do alone or with what it asks beside them


def read_and_cleared(lines, beside, answer=()):
    """What a driver asks behind a step that put a record into its log: the page, an answer to an offer, a clearing, and the empty page."""
    if beside:
        lines.host(0, get_events())
        for request in answer:
            lines.host(0, request)
        lines.clear(0)
        lines.host(0, get_events())


def refused_offers(count, beside):
    """Offers of a block, each of which a driver without room refuses."""
    lines = Lines()
    for number in range(count):
        lines.told(0, offer(0, PRESCRIPTIVE, 0, extents=blocks(number % GRANULES, 1)), 1)
        read_and_cleared(lines, beside, [respond([])])
    return device([(GRANULES, 1)]), lines


def taken_offers(count, beside):
    """Offers of a block, each of which a driver takes; then the block is removed by force and scrubbed."""
    lines = Lines()
    for number in range(count):
        block = blocks(number % GRANULES, 1)
        lines.told(0, offer(0, PRESCRIPTIVE, 0, extents=block), 1)
        read_and_cleared(lines, beside, [respond(block)])
        lines.told(0, take(0, LISTED | FORCED, extents=block), 1)
        read_and_cleared(lines, beside)
        lines.append(scrub(GRANULES))
        if beside:
            lines.host(0, get_events())
    return device([(GRANULES, 1)]), lines


# What many lanes do at once. Marks part what has to stand in order, since lines of two lanes of one phase have none.


def shared_out(owned):
    """The head and the first lines: each host is offered its blocks, and accepts them."""
    lines = Lines()
    for host in range(HOSTS):
        lines.told(host, offer(host, PRESCRIPTIVE, 0, extents=owned(host)), 8)
    lines.append(mark())
    for host in range(HOSTS):
        lines.host(host, respond(owned(host)))
    lines.append(mark())
    return device([(GRANULES, 1)]), lines


def accesses_of_all(count, owned):
    """Stores and loads of all hosts in turn, at drawn words of their blocks."""
    start, lines = shared_out(owned)
    x = draws()
    for n in range(count - len(lines)):
        host, draw = n % HOSTS, next(x) >> 20
        address = owned(host)[draw % 8][0] + (draw >> 3) % (MIB // 8) * 8
        lines.append(load(host, address) if n // HOSTS % 2 else store(host, address, draw))
    return start, lines


def accesses_apart(count):
    """Each host has blocks of a shard of its own: block b is in shard b mod 16."""
    return accesses_of_all(count, lambda host: blocks(host, 8, 16))


def accesses_together(count):
    """All have blocks of shard 0."""
    return accesses_of_all(count, lambda host: blocks(128 * host, 8, 16))


def commands_of_all(count):
    """Commands of 16 hosts and of the manager, and scrubs that find nothing dirty, in turn."""
    start, lines = shared_out(lambda host: blocks(8 * host, 8))
    for n in range(count - len(lines)):
        actor = n % (HOSTS + 2)
        if actor < HOSTS:
            lines.host(actor, get_extents(50, 0) if n % 2 else get_configuration())
        elif actor == HOSTS:
            lines.manager(get_info())
        else:
            lines.append(scrub(GRANULES))
    return start, lines


def marks(count):
    """A mark behind every load, by 16 hosts in turn."""
    start, lines = shared_out(lambda host: blocks(host, 8, 16))
    for n in range((count - len(lines)) // 2):
        lines.append(load(n % HOSTS, (n % HOSTS) * MIB))
        lines.append(mark())
    return start, lines


# What the modes are timed on.
MODES = [
    ("loads and stores, 16 hosts, each in its shard", accesses_apart),
    ("loads and stores, 16 hosts, all in one shard", accesses_together),
    ("commands of all hosts and the manager, scrubs", commands_of_all),
    ("a mark behind each of 32,751 loads", marks),
]


def mixed_lines(count):
    """Commands of all kinds, scrubs, loads and stores, by all hosts and the manager."""
    start, lines = mixed(count // 2)
    x = draws()
    for n in range(count - len(lines)):
        draw = next(x) >> 20
        lines.append(load(n % HOSTS, draw % GRANULES * MIB) if n // HOSTS % 2 else store(n % HOSTS, draw % GRANULES * MIB, draw))
    return start, lines


# What texts are timed on.
TEXTS = [
    ("loads and stores", accesses_apart),
    ("commands of all hosts and the manager, scrubs", commands_of_all),
    ("commands of all kinds, loads and stores", mixed_lines),
]


# Several devices behind a tunnel, and the script of each as one device's


def chassis(count, each):
    """A fabric of so many devices of 16 hosts, each with so many lines: offers through the tunnel, and what its hosts do; and the script of each alone."""
    import tunnelling

    def there(number, line):
        """A line of the device: a command of the manager as a message through the tunnel, all else as a local line."""
        if line[:2] == bytes([1, MANAGER]):
            return tunnelling.outer(tunnelling.message(tunnelling.through(number, line[4:]), 0))
        return tunnelling.local(number, line)

    whole, alone = [], []
    for number in range(count):
        start, lines = shared_out(lambda host: blocks(host, 8, 16))
        lines = [line for line in lines if line != mark()]
        x = draws()
        for n in range(each - len(lines)):
            host, draw = n % HOSTS, next(x) >> 20
            address = (host + 16 * (draw % 8)) * MIB + (draw >> 3) % (MIB // 8) * 8
            lines.append(load(host, address) if n // HOSTS % 2 else store(host, address, draw))
        alone.append(script(start, lines))
        whole.append([there(number, line) for line in lines])
    return tunnelling.fabric([start] * count, [lines[n] for n in range(each) for lines in whole]), alone


# What a planner makes a list for


def taken_and_given(lines, turns):
    """Each host in turn gets a block of the empty region 0 and gives it back; it is zeroed, and the host clears its log."""
    for turn in range(turns):
        host = turn % HOSTS
        lines.told(host, offer(host, FREE, 0, MIB), 1)
        lines.host(host, respond(blocks(0, 1)))
        lines.host(host, give_back(blocks(0, 1)))
        lines.append(scrub(1))
        lines.clear(host)


def granted(lines, host, regions):
    """The host accepts 16 extents of four blocks in each of these regions, every other one of them first, and clears its log."""
    for number in regions:
        first = 512 * number + 8 * (host // 2)
        for start in (first, first + 4):
            extents = blocks(start, 8, 64, 4)
            lines.told(host, offer(host, PRESCRIPTIVE, number, extents=extents), 8)
            lines.host(host, respond(extents))
    lines.clear(host)


def exchanged(count, kept):
    """A script and demands. Behind the script all 4,096 granules of eight regions are held: hosts with even numbers have 64 blocks in each of the regions with
    even numbers, the others in the others. Each is to keep so many of the 64, and to have the others of them in each of the regions where it has none.
    """
    import planning

    lines = Lines()
    taken_and_given(lines, (count - 17 * HOSTS) // 5)
    for host in range(HOSTS):
        granted(lines, host, range(host % 2, 8, 2))
    demands = [(host, number, kept if number % 2 == host % 2 else 64 - kept) for host in range(HOSTS) for number in range(8)]
    return device([(512, 1)] * 8), lines, planning.asked(*demands)


# What a planner is timed on: how many of its 64 blocks a host keeps in a region.
PLANS = [
    ("all holdings exchanged, one extent each", 0),
    ("half of each holding, eight extents each", 32),
]
