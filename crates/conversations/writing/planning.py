"""Plans: a frame is the number of bytes of a script in four bytes, the script, and demands in JSON; the text has the acts that lead from what the script
leaves to what is demanded, and the state behind them.

Each act and each count is worked out by hand from docs/planner.md and docs/device.md; `hostile/plans.py` is a model that has to come to the same.
"""
import json
import struct

from talk import *
from using import one_block

SHORT, NO_DEMANDS, NO_PLAN = 7, 9, 10
PLANNER = "pool_planner"
EMPTY = b'{"demands":[],"dead":[]}'


def frame(script, rest):
    return struct.pack("<I", len(script)) + script + rest


def asked(*demands, dead=()):
    """The demands, each a host, a region and blocks, as JSON."""
    members = [{"host": host, "region": number, "blocks": blocks} for host, number, blocks in demands]
    return json.dumps({"demands": members, "dead": list(dead)}, separators=(",", ":")).encode()


def by_host(host, request):
    return f"h{host} {message(request)}"


def by_manager(request):
    return f"fm {message(request)}"


def message(request):
    """The request as a message with the tag 0, in digits."""
    return command(MANAGER, request)[4:].hex()


def forced_out(host, number, *extents):
    return by_manager(take(host, LISTED | FORCED, number, extents=extents))


def offered(host, number, length):
    return by_manager(offer(host, FREE, number, length))


def taken(host, *extents):
    return by_host(host, respond(extents))


def given(host, *extents):
    return by_host(host, give_back(extents))


def state(hosts, manager, free, dirty, entries, missed=0):
    """The state: of each host its extents, their granules and the records in its log; the records in the manager's log."""
    return ([f"host h{number} extents {extents} granules {granules} log {log}" for number, (extents, granules, log) in enumerate(hosts)]
            + [f"fm log {manager} missed {missed}", f"granules free {free} dirty {dirty}", f"end {entries}"])


def planned(script, rest, acts, *of, **counts):
    return Case([*acts, *state(*of, **counts)], frame(script, rest), program=PLANNER)


def script_of(talk):
    """The bytes of a talk whose state nobody looks at."""
    return talk.head + b"".join(talk.lines) + b"\0"


def no_demands(fault, rest, script=None):
    return Case([f"demands refused: {fault}"], frame(ONE_BLOCK if script is None else script, rest), status=NO_DEMANDS, program=PLANNER)


def no_plan(fault, rest, script=None):
    return Case([f"plan refused: {fault}"], frame(ONE_BLOCK if script is None else script, rest), status=NO_PLAN, program=PLANNER)


def short(number, need, have, rest, script=None):
    return Case([f"short {number} need {need} have {have}"], frame(ONE_BLOCK if script is None else script, rest), status=NO_PLAN, program=PLANNER)


# Host 0 has the block at 2M, and its record and that of its response are in the logs; five entries.
ONE_BLOCK = one_block().script
HAS_BLOCK = [(1, 1, 1), (0, 0, 0)]


# ---- plans

def moves():
    """Host 0 gives its block back, it is zeroed, and host 1 is offered two blocks, the lowest, and takes them."""
    acts = [given(0, (2 * M, M)), "sz 1", offered(1, 0, 2 * M), taken(1, (B, 2 * M))]
    return planned(ONE_BLOCK, asked((0, 0, 0), (1, 0, 2)), acts, [(0, 0, 1), (1, 2, 1)], 3, 18, 0, 9)


def all_of_it():
    """What the host gives back can be gained at once: sixteen blocks."""
    acts = [given(0, (2 * M, M)), "sz 1", offered(1, 0, 16 * M), taken(1, (B, 16 * M))]
    return planned(ONE_BLOCK, asked((0, 0, 0), (1, 0, 16)), acts, [(0, 0, 1), (1, 16, 1)], 3, 4, 0, 9)


def order_of_demands():
    """A demand that rises stands before one that falls: what falls comes first all the same."""
    acts = [given(0, (2 * M, M)), "sz 1", offered(1, 0, 2 * M), taken(1, (B, 2 * M))]
    return planned(ONE_BLOCK, asked((1, 0, 2), (0, 0, 0)), acts, [(0, 0, 1), (1, 2, 1)], 3, 18, 0, 9)


def round_the_hole():
    """The free blocks lie round those that are held: two extents are offered and taken."""
    acts = [offered(1, 0, 4 * M), taken(1, (B, 2 * M), (B + 3 * M, 2 * M))]
    return planned(ONE_BLOCK, asked((1, 0, 4)), acts, [(1, 1, 1), (2, 4, 2)], 3, 15, 0, 7)


def dead_holder():
    """Host 0 is dead: its log is cleared, its block is forced out, which puts a record into its log, and zeroed."""
    acts = [by_host(0, clear_events([1])), forced_out(0, 0, (2 * M, M)), "sz 1", offered(1, 0, 3 * M), taken(1, (B, 3 * M))]
    return planned(ONE_BLOCK, asked((1, 0, 3), dead=[0]), acts, [(0, 0, 1), (1, 3, 1)], 2, 17, 0, 10)


def several_extents():
    """Host 0 with three extents of 2, 3 and 1 blocks in the order 6M, 0, 12M, which it accepted one after another."""
    talk = Talk(two_regions())
    for place, blocks in ((6, 2), (0, 3), (12, 1)):
        talk.manager(offer(0, PRESCRIPTIVE, 0, extents=[(place * M, blocks * M)]), SUCCESS)
        talk.host(0, respond([(place * M, blocks * M)]), SUCCESS)
    return script_of(talk)


def last_first():
    """Two of six blocks go: the last extent whole, and one block at the end of the one before it."""
    acts = [given(0, (12 * M, M), (2 * M, M)), "sz 2"]
    return planned(several_extents(), asked((0, 0, 4)), acts, [(2, 4, 3), (0, 0, 0)], 5, 16, 0, 8)


def unclean():
    """In a region that does not sanitize nothing is dirty, so that no turn of the sanitizer is needed."""
    talk = Talk(two_regions(sanitizes=False))
    talk.manager(offer(0, FREE, 0, 2 * M), SUCCESS)
    talk.host(0, respond([(0, 2 * M)]), SUCCESS)
    acts = [given(0, (M, M)), offered(1, 0, 15 * M), taken(1, (B + M, 15 * M))]
    return planned(script_of(talk), asked((0, 0, 1), (1, 0, 15)), acts, [(1, 1, 1), (1, 15, 1)], 3, 4, 0, 5)


# ---- nothing to do

def as_it_is():
    """Each demand is what the host has."""
    return planned(ONE_BLOCK, asked((0, 0, 1), (1, 0, 0)), [], HAS_BLOCK, 1, 19, 0, 5)


def nothing_asked():
    """Nothing is asked of a device that did nothing."""
    return planned(two_regions() + b"\0", EMPTY, [], [(0, 0, 0), (0, 0, 0)], 0, 20, 0, 0)


def dirty_before():
    """What the script left dirty is zeroed, though nothing is demanded."""
    talk = Talk(two_regions())
    talk.manager(offer(0, FREE, 0, 3 * M), SUCCESS)
    talk.host(0, respond([(0, 3 * M)]), SUCCESS)
    talk.host(0, give_back([(M, 2 * M)]), SUCCESS)
    return planned(script_of(talk), EMPTY, ["sz 2"], [(1, 1, 1), (0, 0, 0)], 2, 19, 0, 4)


def dead_with_nothing():
    """A dead host that has nothing lets nothing go."""
    return planned(ONE_BLOCK, asked(dead=[1]), [], HAS_BLOCK, 1, 19, 0, 5)


def marks_and_accesses():
    """Marks make no entry; loads and stores do, and change nothing."""
    talk = Talk(two_regions())
    talk.manager(offer(0, FREE, 0, M), SUCCESS)
    talk.mark()
    talk.host(0, respond([(0, M)]), SUCCESS)
    talk.store(0, 8, 5)
    talk.mark()
    talk.load(0, 8, 5)
    talk.load_refused(1, B, 3)
    acts = [offered(0, 0, 2 * M), taken(0, (M, 2 * M))]
    return planned(script_of(talk), asked((0, 0, 3)), acts, [(2, 3, 2), (0, 0, 0)], 2, 17, 0, 7)


# ---- several hosts and regions

def pool():
    """Three hosts; region 0 of 8 blocks of 1 MiB, region 1 of 4 blocks of 2 MiB with granules of 1 MiB, region 2 of 4 blocks that hosts can share, region 3 of
    4 blocks that does not sanitize. The regions of host h begin at (4 h + r) * 256 MiB.

    Host 0 has 0+3M in region 0, and 4M in region 1; host 1 has 3M+2M in region 0 and an extent of the shared tag T; host 2 has 5M+1M in region 0, 1M in region 3 and
    the tag T too, and two unanswered offers.
    """
    regions = [region(1, 8 * M, M, M, 0), region(1, 8 * M, 2 * M, M | 2 * M, 1), region(1, 4 * M, M, M, 2, shareable=True), region(1, 4 * M, M, M, 3, sanitizes=False)]
    talk = Talk(head(3, regions, [at(host, number) for host in range(3) for number in range(4)]))

    def gets(host, number, start, length):
        talk.manager(offer(host, PRESCRIPTIVE, number, extents=[(at(host, number) + start, length)]), SUCCESS)
        talk.host(host, respond([(at(host, number) + start, length)]), SUCCESS)

    gets(0, 0, 0, 3 * M)
    gets(0, 1, 0, 4 * M)
    gets(1, 0, 3 * M, 2 * M)
    gets(2, 0, 5 * M, M)
    gets(2, 3, 0, M)
    talk.manager(offer(1, CONTIGUOUS, 2, M, T), SUCCESS)
    talk.host(1, respond([(at(1, 2), M)]), SUCCESS)
    talk.manager(offer(2, SHARED, 2, tag=T), SUCCESS)
    talk.host(2, respond([(at(2, 2), M)]), SUCCESS)
    talk.manager(offer(2, FREE, 0, M), SUCCESS)
    talk.manager(offer(2, FREE, 3, 2 * M), SUCCESS)
    talk.host(1, clear_events([1]), SUCCESS)
    return script_of(talk)


def at(host, number):
    return (4 * host + number) << 28


# What the pool's script leaves: 17 entries; the manager's log has seven records. Host 0 has two records, host 1 one, with the handle 2, and host 2 five.
# Free are 7M+1M of region 0, two blocks of region 1, three of region 2 and one of region 3: 1 + 4 + 3 + 1 granules.

# Host 2, dead, clears its five records, refuses its two offers, and loses an extent in each of the regions 0, 2 and 3.
HOST_2_LETS_GO = [
    by_host(2, clear_events([1, 2, 3, 4, 5])),
    by_host(2, respond([])),
    by_host(2, respond([])),
    forced_out(2, 0, (at(2, 0) + 5 * M, M)),
    forced_out(2, 2, (at(2, 2), M, T, 1)),
    forced_out(2, 3, (at(2, 3), M)),
]


def pool_rearranged():
    """Host 2 is dead; host 0 gives back a block of region 0 and gains one of region 1; host 1 gains two of region 0 and one of region 3.

    Host 2 clears its five records, refuses its two offers, and loses an extent in each of the regions 0, 2 and 3; T lives on at host 1. Dirty are then
    granule 5 and granule 2 of region 0. Free are then 2M, 5M, 6M and 7M of region 0, of which host 1 gets the lowest two.
    """
    acts = [
        *HOST_2_LETS_GO,
        given(0, (at(0, 0) + 2 * M, M)),
        "sz 2",
        offered(0, 1, 2 * M),
        taken(0, (at(0, 1) + 4 * M, 2 * M)),
        offered(1, 0, 2 * M),
        taken(1, (at(1, 0) + 2 * M, M), (at(1, 0) + 5 * M, M)),
        offered(1, 3, M),
        taken(1, (at(1, 3), M)),
    ]
    rest = asked((0, 0, 2), (0, 1, 3), (1, 0, 4), (1, 3, 1), dead=[2])
    return planned(pool(), rest, acts, [(3, 8, 3), (5, 6, 4), (0, 0, 3)], 14, 10, 0, 31)


def pool_of_two_dead():
    """Hosts 2 and 0 are dead, in this order. The regions of a dead host come in rising order, those that it has nothing in are left out."""
    acts = [
        *HOST_2_LETS_GO,
        by_host(0, clear_events([1, 2])),
        forced_out(0, 0, (at(0, 0), 3 * M)),
        forced_out(0, 1, (at(0, 1), 4 * M)),
        "sz 8",
    ]
    return planned(pool(), asked(dead=[2, 0]), acts, [(0, 0, 2), (2, 3, 1), (0, 0, 3)], 9, 21, 0, 27)


def pool_of_all_dead():
    """All are dead: T ends with the last of its holders, and its granule is zeroed too."""
    acts = [
        by_host(0, clear_events([1, 2])),
        forced_out(0, 0, (at(0, 0), 3 * M)),
        forced_out(0, 1, (at(0, 1), 4 * M)),
        by_host(1, clear_events([2])),
        forced_out(1, 0, (at(1, 0) + 3 * M, 2 * M)),
        forced_out(1, 2, (at(1, 2), M, T, 1)),
        *HOST_2_LETS_GO,
        "sz 11",
    ]
    return planned(pool(), asked(dead=[0, 1, 2]), acts, [(0, 0, 2), (0, 0, 2), (0, 0, 3)], 9, 24, 0, 30)


def pool_in_blocks():
    """Demands are in the region's present blocks: 2 MiB in region 1. Host 0 has two blocks there and is to have one."""
    acts = [given(0, (at(0, 1) + 2 * M, 2 * M)), "sz 2", offered(1, 1, 6 * M), taken(1, (at(1, 1) + 2 * M, 6 * M))]
    return planned(pool(), asked((0, 1, 1), (1, 1, 3)), acts, [(2, 5, 2), (3, 9, 2), (3, 3, 5)], 9, 5, 0, 21)


# ---- faults of plans

def held_list(host, opcode):
    """Host 0 has two blocks, and the host has one extent in a list of which more is to come."""
    talk = Talk(two_regions())
    talk.manager(offer(0, FREE, 0, 2 * M), SUCCESS)
    talk.host(0, respond([(0, 2 * M)]), SUCCESS)
    talk.host(host, opcode([(host * B, M)], more=True), SUCCESS)
    return script_of(talk)


def unanswered(host, number=0, tag=NO_TAG):
    """Host 0 has two blocks, and the host an offer that it has not answered."""
    talk = Talk(two_regions())
    talk.manager(offer(0, FREE, 0, 2 * M), SUCCESS)
    talk.host(0, respond([(0, 2 * M)]), SUCCESS)
    talk.manager(offer(host, FREE, number, M, tag), SUCCESS)
    return script_of(talk)


def dead_with_an_offer():
    """An unanswered offer of a dead host is refused, and its block can be gained at once."""
    acts = [by_host(1, clear_events([1])), by_host(1, respond([])), offered(0, 0, 14 * M), taken(0, (2 * M, 14 * M))]
    return planned(unanswered(1), asked((0, 0, 16), dead=[1]), acts, [(2, 16, 2), (0, 0, 0)], 3, 4, 0, 7)


def others_are_open():
    """The offer of a host that is neither demanded nor dead stands in nobody's way."""
    acts = [offered(1, 0, 2 * M), taken(1, (B + 3 * M, 2 * M))]
    return planned(unanswered(0), asked((1, 0, 2)), acts, [(1, 2, 2), (1, 2, 1)], 2, 15, 0, 5)


def full_of_extents():
    """The one host has 64 extents, every second block, and an empty log."""
    talk = Talk(one_region())
    for first in (0, 32):
        blocks = [(2 * number * M, M) for number in range(first, first + 32)]
        talk.manager(offer(0, PRESCRIPTIVE, 0, extents=blocks), SUCCESS)
        talk.host(0, respond(blocks), SUCCESS)
    talk.host(0, clear_events(range(1, 65)), SUCCESS)
    return script_of(talk)


def full_log():
    """The log of host 0 is full of offers that it refused."""
    talk = Talk(two_regions())
    for _ in range(64):
        talk.manager(offer(0, FREE, 0, M), SUCCESS)
        talk.host(0, respond([]), SUCCESS)
    return script_of(talk)


def scattered():
    """Host 0 has 64 single blocks with holes between them, and host 1 none: what host 1 gains lies in as many extents."""
    talk = Talk(head(2, [region(1, 256 * M, M, M, 0)], [0, B]))
    for first in (0, 32):
        blocks = [(2 * number * M, M) for number in range(first, first + 32)]
        talk.manager(offer(0, PRESCRIPTIVE, 0, extents=blocks), SUCCESS)
        talk.host(0, respond(blocks), SUCCESS)
    return script_of(talk)


def scattered_64():
    """Host 1 gains 64 blocks in the holes and behind them: 64 extents, which are as many as it may have."""
    holes = [(B + (2 * number + 1) * M, M) for number in range(64)]
    acts = [offered(1, 0, 64 * M), taken(1, *holes)]
    return planned(scattered(), asked((1, 0, 64)), acts, [(64, 64, 64), (64, 64, 64)], 128, 128, 0, 6)


# ---- the JSON

def same(rest):
    """Demands of nothing, written otherwise."""
    return planned(ONE_BLOCK, rest, [], HAS_BLOCK, 1, 19, 0, 5)


def written(demand):
    """One demand of host 0, in these bytes; it is what the host has."""
    return b'{"demands":[' + demand + b'],"dead":[]}'


def blocks_written(digits):
    return written(b'{"host":0,"region":0,"blocks":' + digits + b"}")


def dead_written(items):
    return b'{"demands":[],"dead":' + items + b"}"


def nested(levels):
    """A member that is replaced has so many levels, with the object around it."""
    return b'{"dead":' + b"[" * (levels - 1) + b"]" * (levels - 1) + b',"demands":[],"dead":[]}'


TEXTS = {
    "spaces": same(b'\t{ "demands" : [ ] ,\r\n "dead" : [ ] }\n '),
    "escaped-key": same(b'{"d\\u0065ad":[],"demands":[{"h\\u006fst":0,"region":0,"blocks":1}]}'),
    "member-twice": same(b'{"dead":7,"demands":[],"dead":[]}'),
    "number-twice": same(written(b'{"blocks":1.5,"host":0,"region":0,"blocks":1}')),
    "127-levels": same(nested(127)),
}

NOT_JSON = {
    "nothing": b"",
    "no-utf-8": b'{"demands":[],"dead":[],"\xff":0}',
    "byte-order-mark": b"\xef\xbb\xbf" + EMPTY,
    "cut": EMPTY[:-1],
    "two-values": EMPTY + EMPTY,
    "leading-zero": blocks_written(b"01"),
    "too-great-and-replaced": written(b'{"host":0,"region":0,"blocks":1e400,"blocks":1}'),
    "half-a-pair": b'{"demands":[],"dead":[],"\\ud800":0}',
    "128-levels": nested(128),
}

BAD_SHAPE = {
    "list-of-it": b"[" + EMPTY + b"]",
    "without-dead": b'{"demands":[]}',
    "more-members": b'{"demands":[],"dead":[],"hosts":[]}',
    "demands-object": b'{"demands":{"host":0,"region":0,"blocks":1},"dead":[]}',
    "demand-list": written(b"[0,0,1]"),
    "demand-without-blocks": written(b'{"host":0,"region":0}'),
    "fraction": blocks_written(b"1.5"),
    "fraction-of-nothing": blocks_written(b"1.0"),
    "exponent": blocks_written(b"1e0"),
    "negative-nothing": blocks_written(b"-0"),
    "33-bits": blocks_written(b"4294967296"),
    "number-in-quotes": blocks_written(b'"1"'),
    "second-dead": dead_written(b"[1,[]]"),
}

ALL_BITS = (1 << 32) - 1


def misses(have, need):
    """An input of so many bytes, where so many are needed."""
    return Case([], struct.pack("<I", need - 4)[:have] + bytes(max(0, have - 4)), status=SHORT, program=PLANNER)


CASES = {
    **{f"plan-{name}": case for name, case in played(
        moves, all_of_it, order_of_demands, round_the_hole, dead_holder, last_first, unclean, as_it_is, nothing_asked, dirty_before,
        dead_with_nothing, marks_and_accesses, pool_rearranged, pool_of_two_dead, pool_of_all_dead, pool_in_blocks, dead_with_an_offer, others_are_open,
        scattered_64).items()},
    # the first fault: what is named
    "plan-no-host": no_plan(1, asked((0, 0, 1), (2, 0, 1))),
    "plan-no-host-of-9-bits": no_plan(1, asked((256, 0, 1))),
    "plan-no-region": no_plan(1, asked((0, 2, 1))),
    "plan-shared-region": no_plan(1, asked((0, 1, 1))),
    "plan-place-twice": no_plan(1, asked((0, 0, 1), (1, 0, 1), (0, 0, 1))),
    "plan-dead-and-demanded": no_plan(1, asked((0, 0, 1), (1, 0, 0), dead=[1])),
    "plan-dead-is-no-host": no_plan(2, asked((0, 0, 1), dead=[1, 2])),
    "plan-dead-twice": no_plan(2, asked(dead=[1, 1])),
    "plan-demand-before-dead": no_plan(1, asked((2, 0, 1), dead=[1, 1])),
    "plan-dead-before-open": no_plan(2, asked((0, 0, 1), dead=[1, 1]), unanswered(0)),
    # what is open
    "plan-open-response": no_plan(3, asked((1, 0, 1)), held_list(1, respond)),
    "plan-open-of-dead": no_plan(3, asked(dead=[0]), held_list(0, give_back)),
    "plan-open-and-as-it-is": no_plan(3, asked((0, 0, 2)), held_list(0, respond)),
    "plan-open-of-another": planned(held_list(0, give_back), asked((1, 0, 1)), [offered(1, 0, M), taken(1, (B + 2 * M, M))], [(1, 2, 1), (1, 1, 1)], 2, 17, 0, 5),
    "plan-offer-unanswered": no_plan(3, asked((1, 0, 1)), unanswered(1)),
    "plan-offer-of-another-region": no_plan(3, asked((1, 0, 0)), unanswered(1, 1, T)),
    "plan-open-before-short": no_plan(3, asked((1, 0, 17)), unanswered(1)),
    # what is short
    "plan-short": short(0, 17, 16, asked((0, 0, 0), (1, 0, 17))),
    "plan-short-of-32-bits": short(0, 2 * ALL_BITS - 1, 15, asked((0, 0, ALL_BITS), (1, 0, ALL_BITS))),
    "plan-short-in-the-lowest": short(1, 4, 2, asked((1, 3, 9), (1, 1, 4)), pool()),
    "plan-short-before-refused": short(0, 17, 16, asked((0, 0, 17)), full_log()),
    # what is refused
    "plan-too-many-extents": no_plan(5, asked((0, 0, 65)), full_of_extents()),
    "plan-log-full": no_plan(5, asked((0, 0, 1)), full_log()),
    "plan-log-full-of-dead": planned(full_log(), asked((1, 0, 1), dead=[0]), [by_host(0, clear_events(range(1, 65))), offered(1, 0, M), taken(1, (B, M))],
                                     [(0, 0, 0), (1, 1, 1)], 65, 19, 0, 131),
    # the demands as a text
    **{f"demands-{name}": case for name, case in TEXTS.items()},
    **{f"demands-no-json-{name}": no_demands(1, rest) for name, rest in NOT_JSON.items()},
    **{f"demands-shape-{name}": no_demands(2, rest) for name, rest in BAD_SHAPE.items()},
    # which is tried first
    "demands-before-plan": no_demands(2, b'{"demands":[{"host":9,"region":9,"blocks":1.5}],"dead":[]}'),
    "demands-behind-script": Case(["script refused: 1 at 0"], frame(b"DCDX", b"{"), status=REFUSED, program=PLANNER),
    "plan-no-script": Case(["script refused: 4 at 0"], frame(b"", EMPTY), status=REFUSED, program=PLANNER),
    "plan-nothing": misses(0, 4),
    "plan-script-short": misses(147, 148),
    "plan-words": Case(["usage: pool_planner"], runs=(("--help",), ("0", "1")), status=USAGE, program=PLANNER),
}
