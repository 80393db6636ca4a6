"""What the manager offers, and what hosts accept of it."""
from talk import *


def policies():
    """Which blocks the policies of an offer choose, and three refusals."""
    talk = Talk(two_regions())
    talk.manager(offer(0, PRESCRIPTIVE, 0, extents=[(2 * M, M)]), SUCCESS)
    talk.manager(offer(0, CONTIGUOUS, 0, 3 * M), SUCCESS)
    talk.manager(offer(0, FREE, 0, 3 * M), SUCCESS)
    talk.manager(offer(0, CONTIGUOUS, 0, 10 * M), RESOURCES_EXHAUSTED)
    talk.manager(offer(0, PRESCRIPTIVE, 0, extents=[(7 * M, 2 * M), (8 * M, M)]), INVALID_EXTENT_LIST)
    talk.manager(offer(0, PRESCRIPTIVE, 0, extents=[(7 * M, M), (6 * M, M)]), INVALID_EXTENT_LIST)
    talk.manager(offer(0, PRESCRIPTIVE, 0, extents=[(15 * M, 2 * M)]), INVALID_ADDRESS)
    talk.host(0, respond([]), SUCCESS)
    talk.manager(offer(0, FREE, 0, M), SUCCESS)
    offered = [
        record(1, ADD, 0, (2 * M, M), 63),
        record(2, ADD, 0, (3 * M, 3 * M), 62),
        record(3, ADD, 0, (0, 2 * M), 60, more=True),
        record(4, ADD, 0, (6 * M, M), 60),
        record(5, ADD, 0, (2 * M, M), 60),
    ]
    return talk.end([(0, 0, offered), NOTHING], [record(1, RESPONSE, 0, (0, 0), 61)], free=13)


def answers():
    """Offers answered whole, in part and not at all, and answers where nothing is offered."""
    talk = Talk(two_regions())
    talk.manager(offer(0, PRESCRIPTIVE, 0, extents=[(0, M)]), SUCCESS)
    talk.host(0, respond([(0, M)]), SUCCESS)
    talk.manager(offer(0, PRESCRIPTIVE, 0, extents=[(4 * M, 3 * M), (9 * M, M)]), SUCCESS)
    talk.host(0, respond([(6 * M, M), (4 * M, M)]), SUCCESS)
    talk.manager(offer(0, PRESCRIPTIVE, 0, extents=[(5 * M, M)]), SUCCESS)
    talk.host(0, respond([]), SUCCESS)
    talk.host(0, respond([]), SUCCESS)
    talk.host(0, respond([(5 * M, M)]), INVALID_ADDRESS)
    talk.host(0, get_extents(), extent_list([(0, M), (6 * M, M), (4 * M, M)], 3, 2))
    talk.manager(get_info(), info(2, [M, M], 20, 17, 0))
    talk.host(0, clear_events([1, 2, 3, 4]), SUCCESS)
    told = [
        record(1, RESPONSE, 0, (0, M), 63),
        record(2, RESPONSE, 0, (6 * M, M), 61, more=True),
        record(3, RESPONSE, 0, (4 * M, M), 61),
        record(4, RESPONSE, 0, (0, 0), 61),
    ]
    return talk.end([(3, 3, []), NOTHING], told, free=17)


def parts():
    """A response in several messages: a refusal lets the held list go, and the offer stays."""
    talk = Talk(two_regions())
    talk.manager(offer(0, PRESCRIPTIVE, 0, extents=[(0, 3 * M)]), SUCCESS)
    talk.host(0, respond([(0, 2 * M)], more=True), SUCCESS)
    talk.host(0, respond([(M, M)]), INVALID_EXTENT_LIST)
    talk.host(0, respond([(0, 2 * M)]), SUCCESS)
    talk.host(0, get_extents(), extent_list([(0, 2 * M)], 1, 1))
    return talk.end([(1, 2, [record(1, ADD, 0, (0, 3 * M), 63)]), NOTHING], [record(1, RESPONSE, 0, (0, 2 * M), 63)], free=18)


def two_offers():
    """Offers are answered oldest first."""
    talk = Talk(two_regions())
    talk.manager(offer(0, PRESCRIPTIVE, 0, extents=[(0, M)]), SUCCESS)
    talk.manager(offer(0, PRESCRIPTIVE, 0, extents=[(5 * M, M)]), SUCCESS)
    talk.host(0, respond([(5 * M, M)]), INVALID_ADDRESS)
    talk.host(0, respond([(0, M)]), SUCCESS)
    talk.host(0, respond([]), SUCCESS)
    offered = [record(1, ADD, 0, (0, M), 63), record(2, ADD, 0, (5 * M, M), 62)]
    return talk.end([(1, 1, offered), NOTHING], [record(1, RESPONSE, 0, (0, M), 62), record(2, RESPONSE, 0, (0, 0), 63)], free=19)


def given_up():
    """What an answer does not accept is free again, and counts no more among the 64 extents that a host may have."""
    talk = Talk(one_region())
    talk.manager(offer(0, PRESCRIPTIVE, 0, extents=[(0, 3 * M)]), SUCCESS)
    talk.host(0, respond([(M, M)]), SUCCESS)
    talk.manager(get_info(), info(1, [M], 128, 127, 0))
    for _ in range(63):
        talk.manager(offer(0, FREE, 0, M), SUCCESS)
    talk.manager(offer(0, FREE, 0, M), RESOURCES_EXHAUSTED)
    lowest = [0] + list(range(2, 64))
    log = [record(1, ADD, 0, (0, 3 * M), 63)] + [record(n + 2, ADD, 0, (lowest[n] * M, M), 62 - n) for n in range(63)]
    return talk.end([(1, 1, log)], [record(1, RESPONSE, 0, (M, M), 63)], free=64)


def most_extents():
    """A held list with its end, and a host's extents with those of later offers, are at most 64."""
    blocks = [(n * M, M) for n in range(64)]
    talk = Talk(one_region())
    talk.host(0, respond([(0, 0)] * 40, more=True), SUCCESS)
    talk.host(0, respond([(0, 0)] * 25, more=True), RESOURCES_EXHAUSTED)
    talk.host(0, respond([]), SUCCESS)
    talk.manager(offer(0, PRESCRIPTIVE, 0, extents=[(0, 70 * M)]), SUCCESS)
    talk.manager(offer(0, PRESCRIPTIVE, 0, extents=[(100 * M, M)]), SUCCESS)
    talk.host(0, respond(blocks), RESOURCES_EXHAUSTED)
    talk.host(0, respond(blocks[:63]), SUCCESS)
    talk.host(0, respond([(100 * M, M)]), SUCCESS)
    log = [record(1, ADD, 0, (0, 70 * M), 63), record(2, ADD, 0, (100 * M, M), 62)]
    told = [record(n + 1, RESPONSE, 0, blocks[n], 0, more=n < 62) for n in range(63)] + [record(64, RESPONSE, 0, (100 * M, M), 0)]
    return talk.end([(64, 64, log)], told, free=64)


def most_tags():
    """A host has at most 32 tags, and extents without a tag beside them."""
    talk = Talk(one_region())
    for n in range(32):
        talk.manager(offer(0, FREE, 0, M, tag=tag_of(n + 1)), SUCCESS)
    talk.manager(offer(0, FREE, 0, M, tag=tag_of(33)), RESOURCES_EXHAUSTED)
    talk.manager(offer(0, FREE, 0, M), SUCCESS)
    log = [record(n + 1, ADD, 0, (n * M, M, tag_of(n + 1)), 63 - n, 31 - n) for n in range(32)]
    return talk.end([(0, 0, log + [record(33, ADD, 0, (32 * M, M), 31, 0)])], free=95)


def shared_lists():
    """A shared tag of two extents: it is answered and given back whole or not at all."""
    first, second = (B, 2 * M, T, 1), (B + 3 * M, M, T, 2)
    talk = Talk(two_regions())
    talk.manager(offer(0, PRESCRIPTIVE, 1, tag=T, extents=[first[:2], second[:2]]), SUCCESS)
    talk.host(0, respond([(B, M)]), INVALID_EXTENT_LIST)
    talk.host(0, respond([first]), INVALID_EXTENT_LIST)
    talk.host(0, respond([second, first]), SUCCESS)
    talk.host(0, get_extents(), extent_list([second, first], 2, 1))
    talk.manager(offer(0, SHARED, 1, tag=T), INVALID_INPUT)
    talk.manager(offer(1, SHARED, 0, tag=T), INVALID_INPUT)
    talk.manager(offer(1, SHARED, 1, tag=T), SUCCESS)
    talk.manager(list_tags(), tag_list([(T, 1, 2, False)], 1))
    talk.host(1, respond([]), SUCCESS)
    talk.host(0, give_back([(B, M)]), INVALID_EXTENT_LIST)
    talk.host(0, give_back([first]), INVALID_EXTENT_LIST)
    talk.host(0, give_back([second, first]), SUCCESS)
    talk.manager(list_tags(), tag_list([], 0))
    talk.manager(offer(1, SHARED, 1, tag=T), INVALID_INPUT)
    of_0 = [record(1, ADD, 0, first, 62, 31, more=True), record(2, ADD, 0, second, 62, 31)]
    of_1 = [record(1, ADD, 1, (C, 2 * M, T, 1), 62, 31, more=True), record(2, ADD, 1, (C + 3 * M, M, T, 2), 62, 31)]
    told = [
        record(1, RESPONSE, 0, second, 62, 31, more=True),
        record(2, RESPONSE, 0, first, 62, 31),
        record(3, RESPONSE, 1, (0, 0), 64, 32),
        record(4, RELEASED, 0, second, 64, 32, more=True),
        record(5, RELEASED, 0, first, 64, 32),
    ]
    return talk.end([(0, 0, of_0), (0, 0, of_1)], told, free=17, dirty=3)


def block_sizes():
    """A region's blocks are set to another supported size while none of it is in use."""
    talk = Talk(one_region(sizes=3 * M))
    talk.manager(set_region(0, 2 * M), SUCCESS)
    talk.manager(offer(0, FREE, 0, M), INVALID_INPUT)
    talk.manager(offer(0, PRESCRIPTIVE, 0, extents=[(0, M)]), INVALID_EXTENT_LIST)
    talk.manager(offer(0, PRESCRIPTIVE, 0, extents=[(M, 2 * M)]), INVALID_EXTENT_LIST)
    talk.manager(offer(0, FREE, 0, 2 * M), SUCCESS)
    talk.manager(set_region(0, M), RETRY_REQUIRED)
    talk.manager(set_region(0, M, sanitizes=False), UNSUPPORTED)
    talk.manager(set_region(0, 4 * M), INVALID_INPUT)
    talk.manager(set_region(1, M), INVALID_INPUT)
    talk.host(0, respond([(0, M)]), INVALID_EXTENT_LIST)
    talk.host(0, respond([]), SUCCESS)
    talk.manager(set_region(0, M), SUCCESS)
    talk.host(0, get_configuration(), bytes([1, 1]) + bytes(6) + region_part(0, 1, 128 * M, M, 0, 1) + counts(64))
    talk.manager(offer(0, FREE, 0, M), SUCCESS)
    log = [
        record(1, REGION_UPDATED, 0, (0, 0), 64),
        record(2, ADD, 0, (0, 2 * M), 63),
        record(3, REGION_UPDATED, 0, (0, 0), 64),
        record(4, ADD, 0, (0, M), 63),
    ]
    return talk.end([(0, 0, log)], [record(1, RESPONSE, 0, (0, 0), 64)], free=127)


CASES = played(policies, answers, parts, two_offers, given_up, most_extents, most_tags, shared_lists, block_sizes)
