"""A driver that stands in for a host: what the others do, and what it asks and is told behind each of their steps.

The driver's entries have the line 0 and the message tag 0. `told` are the records that a step of the others puts into the host's log; behind them the
driver reads pages of 15, answers, and clears them.
"""
from talk import *

PAGE = 15
NO_SUCH_HOST = 7


class Driven(Talk):
    """A conversation with a driver of one host, by the words of its program."""

    def __init__(self, head, host, most):
        super().__init__(head)
        self.driven, self.words, self.entries = host, (str(host), str(most)), 0

    def put(self, line, actor, answer):
        self.lines.append(line)
        self.entries += 1
        self.text.append(f"{self.entries} {len(self.lines)} {actor} {answer}")

    def passed_over(self, line):
        """A line of the host itself, or a mark."""
        self.lines.append(line)

    def asks(self, request, answer=SUCCESS):
        """A command of the driver, with a return code or the payload that comes with Success."""
        code, payload = (answer, b"") if isinstance(answer, int) else (SUCCESS, answer)
        self.entries += 1
        self.text.append(f"{self.entries} 0 h{self.driven} cmd " + response(request, 0, code, payload).hex())

    def reads(self, records=(), left=False):
        self.asks(get_events(), events(list(records), left=left))

    def clears(self, first, count):
        self.asks(clear_events(range(first, first + count)))

    def rests(self):
        """The page without a record, behind which the others go on."""
        self.reads()

    def finish(self, table, hosts, manager=(), free=20, dirty=0):
        """The end, with the driver's table."""
        case = self.end(hosts, manager, free=free, dirty=dirty)
        text = case.text[:-1] + [f"end {self.entries}"] + [f"ext {start} {length}" for start, length in table]
        return Case(text, case.script, [self.words], program="host_driver")


def driven():
    """Two offers, of which the second is too large for what the host takes, and a removal by force."""
    talk = Driven(two_regions(), 0, 4 * M)
    talk.manager(offer(0, PRESCRIPTIVE, 0, extents=[(0, M), (2 * M, M)]), SUCCESS)
    talk.reads([record(1, ADD, 0, (0, M), 62, more=True), record(2, ADD, 0, (2 * M, M), 62)])
    talk.asks(respond([(0, M), (2 * M, M)]))
    talk.clears(1, 2)
    talk.rests()
    talk.manager(offer(0, PRESCRIPTIVE, 0, extents=[(4 * M, 3 * M)]), SUCCESS)
    talk.reads([record(3, ADD, 0, (4 * M, 3 * M), 61)])
    talk.asks(respond([]))
    talk.clears(3, 1)
    talk.rests()
    talk.manager(take(0, LISTED | FORCED, extents=[(0, M)]), SUCCESS)
    talk.reads([record(4, FORCED_RELEASE, 0, (0, M), 63)])
    talk.clears(4, 1)
    talk.rests()
    told = [
        record(1, RESPONSE, 0, (0, M), 62, more=True),
        record(2, RESPONSE, 0, (2 * M, M), 62),
        record(3, RESPONSE, 0, (0, 0), 62),
    ]
    return talk.finish([(2 * M, M)], [(1, 1, []), NOTHING], told, free=18, dirty=1)


def driven_without_room():
    """An offer of two blocks to a host that takes one."""
    talk = Driven(two_regions(), 0, M)
    talk.manager(offer(0, PRESCRIPTIVE, 0, extents=[(0, M), (2 * M, M)]), SUCCESS)
    talk.reads([record(1, ADD, 0, (0, M), 62, more=True), record(2, ADD, 0, (2 * M, M), 62)])
    talk.asks(respond([]))
    talk.clears(1, 2)
    talk.rests()
    return talk.finish([], [NOTHING, NOTHING], [record(1, RESPONSE, 0, (0, 0), 64)])


def driven_by_tag():
    """A host gives back what it is asked for and loses the extents of a tag; its own lines and a mark are passed over."""
    talk = Driven(two_regions(lanes=1), 0, 16 * M)
    talk.passed_over(command(0, get_extents()))
    talk.manager(offer(0, PRESCRIPTIVE, 0, tag=T, extents=[(0, 4 * M), (8 * M, 2 * M)]), SUCCESS)
    talk.reads([record(1, ADD, 0, (0, 4 * M, T), 62, tags=31, more=True), record(2, ADD, 0, (8 * M, 2 * M, T), 62, tags=31)])
    talk.asks(respond([(0, 4 * M), (8 * M, 2 * M)]))
    talk.clears(1, 2)
    talk.rests()
    talk.manager(offer(0, PRESCRIPTIVE, 0, extents=[(5 * M, M)]), SUCCESS)
    talk.reads([record(3, ADD, 0, (5 * M, M), 61, tags=31)])
    talk.asks(respond([(5 * M, M)]))
    talk.clears(3, 1)
    talk.rests()
    talk.passed_over(b"\5")
    talk.manager(take(0, LISTED, extents=[(M, M), (9 * M, M)]), SUCCESS)
    talk.reads([record(4, RELEASE, 0, (M, M, T), 61, tags=31, more=True), record(5, RELEASE, 0, (9 * M, M, T), 61, tags=31)])
    talk.asks(give_back([(M, M), (9 * M, M)]))
    talk.clears(4, 2)
    talk.rests()
    talk.manager(take(0, BY_TAG | FORCED, tag=T), SUCCESS)
    talk.reads([
        record(6, FORCED_RELEASE, 0, (0, M, T), 63, more=True),
        record(7, FORCED_RELEASE, 0, (2 * M, 2 * M, T), 63, more=True),
        record(8, FORCED_RELEASE, 0, (8 * M, M, T), 63),
    ])
    talk.clears(6, 3)
    talk.rests()
    talk.scrub(10, 6)
    talk.rests()
    told = [
        record(1, RESPONSE, 0, (0, 4 * M, T), 62, tags=31, more=True),
        record(2, RESPONSE, 0, (8 * M, 2 * M, T), 62, tags=31),
        record(3, RESPONSE, 0, (5 * M, M), 61, tags=31),
        record(4, RELEASED, 0, (M, M, T), 60, tags=31, more=True),
        record(5, RELEASED, 0, (9 * M, M, T), 60, tags=31),
    ]
    return talk.finish([(5 * M, M)], [(1, 1, []), NOTHING], told, free=19)


def driven_to_the_limit():
    """Offers whose records fill several pages, until the host has 64 extents; then a release that would leave 65 is refused."""
    talk = Driven(one_region(), 0, 128 * M)
    told, handle, has = [], 1, 0
    for count in (20, 43, 1):
        blocks = [(2 * (has + i) * M, M) for i in range(count)] if count > 1 else [(125 * M, 3 * M)]
        talk.manager(offer(0, PRESCRIPTIVE, 0, extents=blocks), SUCCESS)
        left = 64 - has - count
        added = [record(handle + i, ADD, 0, it, left, more=i + 1 < count) for i, it in enumerate(blocks)]
        for at in range(0, count, PAGE):
            page = added[at:at + PAGE]
            talk.reads(page, left=at + PAGE < count)
            if at + PAGE >= count:
                talk.asks(respond(blocks))
            talk.clears(handle + at, len(page))
        talk.rests()
        told += [record(handle + i, RESPONSE, 0, it, left, more=i + 1 < count) for i, it in enumerate(blocks)]
        handle, has = handle + count, has + count
    talk.manager(take(0, LISTED, extents=[(126 * M, M)]), SUCCESS)
    talk.reads([record(65, RELEASE, 0, (126 * M, M), 0)])
    talk.asks(give_back([(126 * M, M)]), RESOURCES_EXHAUSTED)
    talk.clears(65, 1)
    talk.rests()
    table = [(2 * i * M, M) for i in range(63)] + [(125 * M, 3 * M)]
    return talk.finish(table, [(64, 66, [])], told, free=62)


# Sixteen hosts, each with a region of 192 blocks at an address of its own.
HOSTS = 16


def one_of_sixteen(host):
    """All that may befall a host, while the others have offers that nobody answers: two extents under a tag, an offer that is too large and one that fits, a
    request that is met, a removal of the tag, offers over several pages up to 64 extents, and a request that is refused."""
    talk = Driven(head(HOSTS, [region(1, 192 * M, M, M, 0)], [other << 28 for other in range(HOSTS)]), host, 66 * M)
    base, told, log = host << 28, [], {other: [] for other in range(HOSTS)}

    def offers(handle, blocks, has, tag=NO_TAG, tags=32, taken=True):
        """An offer of the manager's, which the driver takes, or refuses since it is too large."""
        talk.manager(offer(host, PRESCRIPTIVE, 0, tag=tag, extents=blocks), SUCCESS)
        count = len(blocks)
        of = [(it + (tag,), 64 - has - count, tags, i + 1 < count) for i, it in enumerate(blocks)]
        added = [record(handle + i, ADD, host, it, left, tags, more) for i, (it, left, tags, more) in enumerate(of)]
        for at in range(0, count, PAGE):
            page = added[at:at + PAGE]
            talk.reads(page, left=at + PAGE < count)
            if at + PAGE >= count:
                talk.asks(respond(blocks if taken else []))
            talk.clears(handle + at, len(page))
        talk.rests()
        if not taken:
            of = [((0, 0), 64 - has, tags, False)]
        return of

    def tells(first, kind, of):
        told.extend(record(first + i, kind, host, it, left, tags, more) for i, (it, left, tags, more) in enumerate(of))

    tells(1, RESPONSE, offers(1, [(base, 4 * M), (base + 8 * M, 2 * M)], 0, T, 31))
    tells(3, RESPONSE, offers(3, [(base + 32 * M, 61 * M)], 2, tags=31, taken=False))
    tells(4, RESPONSE, offers(4, [(base + 20 * M, M)], 2, tags=31))
    for other in range(HOSTS):
        if other != host:
            block = (other << 28) + (176 + other) * M
            talk.manager(offer(other, PRESCRIPTIVE, 0, extents=[(block, M)]), SUCCESS)
            talk.rests()
            log[other].append(record(1, ADD, other, (block, M), 63))
    given = [(base + M, M), (base + 9 * M, M)]
    talk.manager(take(host, LISTED, extents=given), SUCCESS)
    talk.reads([record(5 + i, RELEASE, host, it + (T,), 61, 31, i == 0) for i, it in enumerate(given)])
    talk.asks(give_back(given))
    talk.clears(5, 2)
    talk.rests()
    tells(5, RELEASED, [(it + (T,), 60, 31, i == 0) for i, it in enumerate(given)])
    talk.manager(take(host, BY_TAG | FORCED, tag=T), SUCCESS)
    lost = [(base, M, T), (base + 2 * M, 2 * M, T), (base + 8 * M, M, T)]
    talk.reads([record(7 + i, FORCED_RELEASE, host, it, 63, more=i < 2) for i, it in enumerate(lost)])
    talk.clears(7, 3)
    talk.rests()
    talk.scrub(10, 6)
    talk.rests()
    talk.manager(clear_all(), INVALID_INPUT)
    talk.rests()
    singles = [(base + (32 + 2 * i) * M, M) for i in range(62)]
    last = [(base + 160 * M, 3 * M)]
    tells(7, RESPONSE, offers(10, singles[:20], 1))
    tells(27, RESPONSE, offers(30, singles[20:], 21))
    tells(69, RESPONSE, offers(72, last, 63))
    middle = (base + 161 * M, M)
    talk.manager(take(host, LISTED, extents=[middle]), SUCCESS)
    talk.reads([record(73, RELEASE, host, middle, 0)])
    talk.asks(give_back([middle]), RESOURCES_EXHAUSTED)
    talk.clears(73, 1)
    talk.rests()
    hosts = [(64, 66, []) if other == host else (0, 0, log[other]) for other in range(HOSTS)]
    return talk.finish([(base + 20 * M, M)] + singles + last, hosts, told, free=192 - 66 - 15)


def refuses(*words):
    return Case(["usage: host_driver"], runs=[words], status=USAGE, program="host_driver")


CASES = {
    **played(driven, driven_without_room, driven_by_tag, driven_to_the_limit),
    **{f"driven-host-{host}": one_of_sixteen(host) for host in range(HOSTS)},
    "driven-no-such-host": Case([], two_regions() + b"\0", [("2", "0")], NO_SUCH_HOST, program="host_driver"),
    "driven-refused": Case(["script refused: 1 at 0"], b"DCDX", [("0", "0")], REFUSED, program="host_driver"),
    "driver-words-of-three-digits": refuses("000", "0"),
    "driver-words-of-19-digits": refuses("0", "0000000000000000000"),
    "driver-words-of-one": refuses("0"),
}
