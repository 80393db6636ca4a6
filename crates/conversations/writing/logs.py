"""Event logs."""
from talk import *


def full_logs():
    """A full log of a host stops the manager; a full log of the manager counts what it misses."""
    blocks = [(2 * n * M, M) for n in range(64)]
    talk = Talk(one_region())
    talk.manager(offer(0, PRESCRIPTIVE, 0, extents=blocks), SUCCESS)
    talk.host(0, respond(blocks), SUCCESS)
    talk.host(0, give_back(blocks), SUCCESS)
    talk.manager(offer(0, PRESCRIPTIVE, 0, extents=[(M, M)]), RETRY_REQUIRED)
    talk.host(0, clear_events(range(1, 65)), SUCCESS)
    talk.manager(offer(0, PRESCRIPTIVE, 0, extents=[(M, M), (3 * M, M)]), SUCCESS)
    talk.host(0, respond([(M, M), (3 * M, M)]), SUCCESS)
    told = [record(n + 1, RESPONSE, 0, blocks[n], 0, more=True) for n in range(15)]
    talk.manager(get_events(), events(told, missed=2, left=True))
    talk.manager(clear_events([1]), SUCCESS)
    talk.host(0, give_back([(M, M)]), SUCCESS)
    talk.manager(clear_all(), SUCCESS)
    talk.manager(get_events(), events([]))
    talk.manager(clear_all(), INVALID_INPUT)
    talk.host(0, give_back([(3 * M, M)]), SUCCESS)
    log = [record(65, ADD, 0, (M, M), 62, more=True), record(66, ADD, 0, (3 * M, M), 62)]
    return talk.end([(0, 0, log)], [record(130, RELEASED, 0, (3 * M, M), 64)], free=62, dirty=66)


def log_nearly_full():
    """An offer whose records do not fit reserves nothing, and succeeds once as many records are cleared."""
    talk = Talk(one_region())
    for _ in range(63):
        talk.manager(offer(0, PRESCRIPTIVE, 0, extents=[(0, M)]), SUCCESS)
        talk.host(0, respond([]), SUCCESS)
    two = offer(0, PRESCRIPTIVE, 0, extents=[(0, M), (2 * M, M)])
    talk.manager(two, RETRY_REQUIRED)
    talk.manager(get_info(), info(1, [M], 128, 128, 0))
    talk.host(0, clear_events([1]), SUCCESS)
    talk.manager(two, SUCCESS)
    talk.manager(offer(0, PRESCRIPTIVE, 0, extents=[(4 * M, M)]), RETRY_REQUIRED)
    talk.host(0, clear_events([2]), SUCCESS)
    talk.manager(offer(0, PRESCRIPTIVE, 0, extents=[(4 * M, M)]), SUCCESS)
    in_vain = [record(handle, ADD, 0, (0, M), 63) for handle in range(3, 64)]
    talk.host(0, get_events(), events(in_vain[:15], left=True))
    last = [record(64, ADD, 0, (0, M), 62, more=True), record(65, ADD, 0, (2 * M, M), 62), record(66, ADD, 0, (4 * M, M), 61)]
    told = [record(handle, RESPONSE, 0, (0, 0), 64) for handle in range(1, 64)]
    return talk.end([(0, 0, in_vain + last)], told, free=125)


def clearing():
    """Records are cleared oldest first, and a refusal changes nothing."""
    talk = Talk(two_regions())
    talk.manager(offer(0, FREE, 0, M), SUCCESS)
    talk.manager(offer(0, FREE, 0, M), SUCCESS)
    talk.manager(offer(0, FREE, 0, M), SUCCESS)
    talk.host(0, clear_events([1, 3]), INVALID_HANDLE)
    talk.host(0, clear_events([1, 1]), INVALID_HANDLE)
    talk.host(0, clear_events([4]), INVALID_HANDLE)
    talk.host(0, clear_all(), INVALID_INPUT)
    talk.host(0, get_events(5), INVALID_INPUT)
    talk.host(0, get_events(0), events([]))
    talk.host(0, clear_events([1, 2]), SUCCESS)
    third = record(3, ADD, 0, (2 * M, M), 61)
    talk.host(0, get_events(), events([third]))
    return talk.end([(0, 0, [third]), NOTHING], free=17)


CASES = played(full_logs, log_nearly_full, clearing)
