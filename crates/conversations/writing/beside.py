"""Beside QEMU's device: the requests that end it, and the steps that it answers otherwise. docs/beside-qemu.md tells of both."""
from talk import *


def where_qemu_ends():
    """Three requests that end QEMU's device with a signal: an empty answer to no offer, an offer of no extent, a region that there is not."""
    talk = Talk(two_regions())
    talk.host(0, respond([]), SUCCESS)
    talk.manager(offer(0, PRESCRIPTIVE, 0, extents=[(0, M)]), SUCCESS)
    talk.host(0, respond([(0, M)]), SUCCESS)
    talk.host(0, respond([]), SUCCESS)
    talk.manager(offer(0, PRESCRIPTIVE, 0), INVALID_INPUT)
    talk.manager(set_region(2, M), INVALID_INPUT)
    talk.host(0, get_extents(), extent_list([(0, M)], 1, 1))
    return talk.end([(1, 1, [record(1, ADD, 0, (0, M), 63)]), NOTHING], [record(1, RESPONSE, 0, (0, M), 63)], free=19)


def unlike_qemu():
    """Steps that QEMU's device answers otherwise, in the order of the table."""
    lower, upper = (0, 4 * M), (4 * M, 4 * M)
    talk = Talk(one_region())
    talk.manager(offer(0, PRESCRIPTIVE, 0, extents=[lower, upper]), SUCCESS)
    talk.host(0, get_extents(), extent_list([], 0, 0))
    opcode, whole = respond([lower])
    talk.host(0, (opcode, whole + b"\0"), INVALID_LENGTH)
    talk.host(0, respond([(16 * M, M), (1, M)]), INVALID_ADDRESS)
    talk.host(0, respond([(0, 0)]), INVALID_EXTENT_LIST)
    talk.host(0, respond([lower], more=True), SUCCESS)
    talk.host(0, get_extents(), extent_list([], 0, 0))
    talk.host(0, respond([upper]), SUCCESS)
    talk.host(0, get_extents(), extent_list([lower, upper], 2, 1))
    talk.host(0, give_back([]), SUCCESS)
    talk.host(0, give_back([(0, 8 * M)]), INVALID_ADDRESS)
    talk.host(0, give_back([(2 * M, 0)]), INVALID_EXTENT_LIST)
    talk.host(0, give_back([(M, M)]), SUCCESS)
    talk.host(0, get_extents(), extent_list([(0, M), (2 * M, 2 * M), upper], 3, 2))
    talk.manager(take(0, LISTED | FORCED, extents=[(2 * M, 2 * M)]), SUCCESS)
    added = [record(1, ADD, 0, lower, 62, more=True), record(2, ADD, 0, upper, 62)]
    talk.host(0, get_events(), events(added + [record(3, FORCED_RELEASE, 0, (2 * M, 2 * M), 62)]))
    talk.host(0, clear_events([9]), INVALID_HANDLE)
    talk.host(0, clear_events([2]), INVALID_HANDLE)
    talk.host(0, clear_all(), INVALID_INPUT)
    talk.host(0, clear_events([1, 2, 3]), SUCCESS)
    talk.host(0, clear_events([4]), INVALID_HANDLE)
    told = [
        record(1, RESPONSE, 0, lower, 62, more=True),
        record(2, RESPONSE, 0, upper, 62),
        record(3, RELEASED, 0, (M, M), 61),
    ]
    talk.manager(get_events(), events(told))
    return talk.end([(2, 5, [])], told, free=120, dirty=3)


CASES = played(where_qemu_ends, unlike_qemu)
