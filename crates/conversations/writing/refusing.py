"""Commands and scripts that are refused, and scripts of one message or none."""
from talk import *


def refused_commands():
    """Commands of the other role, payloads of another length, and numbers that name nothing."""
    talk = Talk(two_regions())
    talk.host(0, get_info(), UNSUPPORTED)
    talk.manager(get_configuration(), UNSUPPORTED)
    talk.host(0, (0x4804, b""), UNSUPPORTED)
    talk.host(0, (0x4801, bytes(7)), INVALID_LENGTH)
    talk.host(0, (0x4801, bytes(9)), INVALID_LENGTH)
    talk.host(0, get_extents(10, 0), extent_list([], 0, 0))
    talk.host(0, get_extents(10, 1), INVALID_INPUT)
    talk.manager(offer(2, FREE, 0, M), INVALID_INPUT)
    talk.manager(offer(0, 4, 0, M), INVALID_INPUT)
    talk.manager(offer(0, FREE, 2, M), INVALID_INPUT)
    talk.manager(offer(0, FREE, 1, M), INVALID_INPUT)
    talk.manager(offer(0, FREE, 0, M + 1), INVALID_INPUT)
    talk.manager(add_reference(T), INVALID_INPUT)
    regions = region_part(B, 1, 16 * M, M, 0, 1) + region_part(C, 1, 4 * M, M, 1, 3)
    talk.manager(get_host_regions(1), bytes([1, 0, 2, 2]) + bytes(4) + regions + counts(64))
    talk.manager(get_host_regions(0, 1), bytes([0, 0, 2, 1]) + bytes(4) + region_part(0, 1, 16 * M, M, 0, 1) + counts(64))
    talk.host(0, (0x4800, bytes([8, 1, 0])), INVALID_LENGTH)
    talk.manager(take(0, BY_TAG, tag=T), INVALID_INPUT)
    talk.manager(remove_reference(T), INVALID_INPUT)
    talk.manager(get_info(), info(2, [M, M], 20, 20, 0))
    return talk.end([NOTHING, NOTHING])


def long_lists():
    """As many extents as a message can have, none of which has a length, and a count of extents that are not there."""
    talk = Talk(two_regions())
    talk.host(0, respond([(0, 0)] * 2729), RESOURCES_EXHAUSTED)
    talk.host(0, (0x4802, struct.pack("<II", 0xFFFFFFFF, 0)), INVALID_LENGTH)
    return talk.end([NOTHING, NOTHING])


def asks_for_regions(first, answer):
    """Host 0 asks for its regions from this one on, under the message tag 2Ah."""
    talk = Talk(two_regions())
    talk.host(0, get_configuration(8, first), answer, tag=0x2A)
    return talk.end([NOTHING, NOTHING])


def changed(place, new):
    """A script of 147 bytes, whose one message begins at 132, with other bytes at a place."""
    script = two_regions() + command(0, get_configuration(8, 1), 0x2A) + b"\0"
    return script[:place] + new + script[place + len(new):]


# The same script, cut within its message.
CUT = changed(0, b"")[:137]

# A message of 11 bytes, one less than a header.
SHORT = changed(130, bytes([11]))[:143] + b"\0"

# One region of 4,097 granules.
GRANULES = head(1, [region(17, 4097 * M, M, M, 0)], [0]) + b"\0"

# As many marks as a script may have lines, and one more.
MARKS = two_regions() + 65536 * b"\5"

# Region 1 as host 0 sees it.
REGION_1 = bytes([2, 1]) + bytes(6) + region_part(B, 1, 4 * M, M, 1, 1) + counts(64)

CASES = {
    **played(refused_commands, long_lists),
    "no-lines": Talk(two_regions()).end([NOTHING, NOTHING], runs=WITHOUT_WORDS + BOTH),
    "most-lines": Case(Talk(two_regions()).end([NOTHING, NOTHING]).text, MARKS + b"\0"),
    "get-configuration": asks_for_regions(1, REGION_1),
    "no-such-region": asks_for_regions(2, INVALID_INPUT),
    "script-magic": refused(changed(3, b"T"), 1, 0),
    "script-magic-first": refused(changed(0, b"E"), 1, 0),
    "script-version": refused(changed(4, b"\3"), 2, 4),
    "script-cut": refused(CUT, 4, len(CUT)),
    "script-kind": refused(changed(128, b"\6"), 5, 128),
    "script-actor": refused(changed(129, b"\2"), 6, 129),
    "script-behind-the-end": refused(two_regions() + b"\0\0", 9, 129),
    "script-lines": refused(MARKS + b"\5\0", 10, len(MARKS)),
    "script-lanes": refused(two_regions(lanes=5) + b"\0", 12, 10),
    "config-count": refused(changed(8, b"\0"), 3, 8),
    "config-base": refused(changed(96, b"\1"), 3, 8),
    "config-block": refused(changed(32, struct.pack("<Q", 2 * M)), 3, 8),
    "config-length": refused(changed(24, struct.pack("<Q", 16 * M + M // 2)), 3, 8),
    "config-overlap": refused(changed(104, struct.pack("<Q", 0)), 3, 8),
    "config-granules": refused(GRANULES, 3, 8),
    "message-short": refused(SHORT, 7, 132),
    "message-not-request": refused(changed(132, b"\1"), 7, 132),
    "message-length": refused(changed(137, b"\3"), 7, 132),
}
