"""What hosts give back, what the manager takes, and what is zeroed."""
from talk import *


def giving_back():
    """Two of four blocks are given back out of one extent, and what is left of it."""
    talk = Talk(two_regions())
    talk.manager(offer(0, PRESCRIPTIVE, 0, extents=[(0, 4 * M)]), SUCCESS)
    added = record(1, ADD, 0, (0, 4 * M), 63)
    talk.host(0, get_events(), events([added]))
    talk.host(0, respond([(0, 4 * M)]), SUCCESS)
    talk.host(0, give_back([(M, M), (3 * M, M)]), SUCCESS)
    told = [
        record(1, RESPONSE, 0, (0, 4 * M), 63),
        record(2, RELEASED, 0, (M, M), 62, more=True),
        record(3, RELEASED, 0, (3 * M, M), 62),
    ]
    talk.manager(get_events(), events(told))
    talk.host(0, give_back([(0, 2 * M)]), INVALID_ADDRESS)
    talk.load_refused(0, M, 3)
    left = [(0, M), (2 * M, M)]
    talk.host(0, get_extents(10), extent_list(left, 2, 2))
    talk.manager(get_host_extents(0, 5, 1), host_extent_list(0, 1, left[1:], 2, 2))
    return talk.end([(2, 2, [added]), NOTHING], told, free=16, dirty=2)


def giving_back_more():
    """A release in several messages: the held list speaks with the last message, and a refusal lets it go."""
    talk = Talk(two_regions())
    talk.manager(offer(0, PRESCRIPTIVE, 0, extents=[(0, 4 * M)]), SUCCESS)
    talk.host(0, respond([(0, 4 * M)]), SUCCESS)
    talk.host(0, give_back([(0, 2 * M)], more=True), SUCCESS)
    talk.host(0, give_back([(M, M)]), INVALID_EXTENT_LIST)
    talk.host(0, give_back([(0, 2 * M)], more=True), SUCCESS)
    talk.load(0, 0, 0)
    talk.host(0, give_back([(2 * M, M)]), SUCCESS)
    talk.load_refused(0, 0, 3)
    talk.host(0, give_back([(0, 0)] * 40, more=True), SUCCESS)
    talk.host(0, give_back([(0, 0)] * 25, more=True), RESOURCES_EXHAUSTED)
    talk.host(0, give_back([]), SUCCESS)
    talk.host(0, get_extents(), extent_list([(3 * M, M)], 1, 2))
    told = [
        record(1, RESPONSE, 0, (0, 4 * M), 63),
        record(2, RELEASED, 0, (0, 2 * M), 63, more=True),
        record(3, RELEASED, 0, (2 * M, M), 63),
    ]
    return talk.end([(1, 1, [record(1, ADD, 0, (0, 4 * M), 63)]), NOTHING], told, free=16, dirty=3)


def parts_of_a_tag():
    """Parts that leave and parts that remain have the tag of the extent that they are of."""
    talk = Talk(two_regions())
    talk.manager(offer(0, PRESCRIPTIVE, 0, tag=T, extents=[(0, 6 * M), (8 * M, 2 * M)]), SUCCESS)
    talk.host(0, respond([(0, 6 * M)]), SUCCESS)
    talk.host(0, get_extents(), extent_list([(0, 6 * M, T)], 1, 1))
    talk.host(0, give_back([(M, 2 * M)]), SUCCESS)
    talk.host(0, get_extents(), extent_list([(0, M, T), (3 * M, 3 * M, T)], 2, 2))
    talk.manager(take(0, LISTED | FORCED, extents=[(5 * M, M)]), SUCCESS)
    talk.host(0, get_extents(), extent_list([(0, M, T), (3 * M, 2 * M, T)], 2, 3))
    log = [
        record(1, ADD, 0, (0, 6 * M, T), 62, 31, more=True),
        record(2, ADD, 0, (8 * M, 2 * M, T), 62, 31),
        record(3, FORCED_RELEASE, 0, (5 * M, M, T), 62, 31),
    ]
    told = [record(1, RESPONSE, 0, (0, 6 * M, T), 63, 31), record(2, RELEASED, 0, (M, 2 * M, T), 62, 31)]
    return talk.end([(2, 3, log), NOTHING], told, free=14, dirty=3)


def asking_and_taking():
    """The manager asks for a block and takes others by force, from a list and by tag."""
    talk = Talk(two_regions())
    talk.manager(offer(0, PRESCRIPTIVE, 0, extents=[(0, 2 * M)]), SUCCESS)
    talk.host(0, respond([(0, 2 * M)]), SUCCESS)
    talk.manager(take(0, LISTED, extents=[(0, M)]), SUCCESS)
    asked = [record(1, ADD, 0, (0, 2 * M), 63), record(2, RELEASE, 0, (0, M), 63)]
    talk.host(0, get_events(), events(asked))
    talk.load(0, 0, 0)
    talk.host(0, give_back([(0, M)]), SUCCESS)
    talk.load(0, M, 0)
    talk.manager(take(0, LISTED | FORCED, extents=[(M, M)]), SUCCESS)
    talk.load_refused(0, M, 3)
    talk.manager(take(0, BY_TAG | FORCED, tag=T), INVALID_INPUT)
    talk.manager(take(0, BY_TAG | FORCED), INVALID_INPUT)
    talk.manager(take(0, LISTED | FORCED), INVALID_INPUT)
    talk.manager(offer(0, PRESCRIPTIVE, 0, tag=T, extents=[(4 * M, M), (6 * M, M)]), SUCCESS)
    talk.host(0, respond([(6 * M, M), (4 * M, M)]), SUCCESS)
    talk.manager(take(0, BY_TAG | FORCED, tag=T), SUCCESS)
    talk.manager(get_host_extents(0, 5), host_extent_list(0, 0, [], 0, 5))
    talk.host(0, clear_events([1, 2]), SUCCESS)
    talk.manager(clear_events([1, 2]), SUCCESS)
    lost = [
        record(3, FORCED_RELEASE, 0, (M, M), 64),
        record(4, ADD, 0, (4 * M, M, T), 62, 31, more=True),
        record(5, ADD, 0, (6 * M, M, T), 62, 31),
        record(6, FORCED_RELEASE, 0, (6 * M, M, T), 64, more=True),
        record(7, FORCED_RELEASE, 0, (4 * M, M, T), 64),
    ]
    told = [record(3, RESPONSE, 0, (6 * M, M, T), 62, 31, more=True), record(4, RESPONSE, 0, (4 * M, M, T), 62, 31)]
    return talk.end([(0, 0, lost), NOTHING], told, free=16, dirty=4)


def taking_clean():
    """In regions that do not sanitize, what a host stored is seen by the next one, unless its removal cleans."""
    talk = Talk(two_regions(sanitizes=False))
    talk.manager(offer(0, PRESCRIPTIVE, 0, extents=[(0, 2 * M)]), SUCCESS)
    talk.host(0, respond([(0, 2 * M)]), SUCCESS)
    talk.store(0, 0, 7)
    talk.store(0, M, 8)
    talk.host(0, give_back([(0, M)]), SUCCESS)
    talk.manager(take(0, LISTED | CLEAN, extents=[(M, M)]), UNSUPPORTED)
    talk.manager(take(0, LISTED | FORCED | CLEAN, extents=[(M, M)]), SUCCESS)
    talk.manager(offer(1, FREE, 0, 16 * M), RESOURCES_EXHAUSTED)
    talk.manager(get_info(), info(2, [M, M], 20, 19, 1))
    talk.scrub(1, 1)
    talk.manager(offer(1, FREE, 0, 16 * M), SUCCESS)
    talk.host(1, respond([(B, 16 * M)]), SUCCESS)
    talk.load(1, B, 7)
    talk.load(1, B + M, 0)
    of_0 = [record(1, ADD, 0, (0, 2 * M), 63), record(2, FORCED_RELEASE, 0, (M, M), 64)]
    told = [
        record(1, RESPONSE, 0, (0, 2 * M), 63),
        record(2, RELEASED, 0, (0, M), 63),
        record(3, RESPONSE, 1, (B, 16 * M), 63),
    ]
    return talk.end([(0, 0, of_0), (1, 16, [record(1, ADD, 1, (B, 16 * M), 63)])], told, free=4)


def taking_clean_shared():
    """A shared block that is taken clean from one host keeps its words until the last host has left it."""
    at_0, at_1 = (B, M, T, 1), (C, M, T, 1)
    talk = Talk(two_regions(sanitizes=False))
    talk.manager(offer(0, CONTIGUOUS, 1, M, tag=T), SUCCESS)
    talk.host(0, respond([at_0]), SUCCESS)
    talk.manager(offer(1, SHARED, 1, tag=T), SUCCESS)
    talk.host(1, respond([at_1]), SUCCESS)
    talk.store(0, B, 9)
    talk.manager(take(0, BY_TAG | FORCED | CLEAN, tag=T), SUCCESS)
    talk.load_refused(0, B, 3)
    talk.manager(get_info(), info(2, [M, M], 20, 19, 0))
    talk.load(1, C, 9)
    talk.host(1, give_back([at_1]), SUCCESS)
    talk.manager(get_info(), info(2, [M, M], 20, 19, 1))
    talk.scrub(4, 1)
    told = [
        record(1, RESPONSE, 0, at_0, 63, 31),
        record(2, RESPONSE, 1, at_1, 63, 31),
        record(3, RELEASED, 1, at_1, 64, 32),
    ]
    of_0 = [record(1, ADD, 0, at_0, 63, 31), record(2, FORCED_RELEASE, 0, at_0, 64, 32)]
    return talk.end([(0, 0, of_0), (0, 0, [record(1, ADD, 1, at_1, 63, 31)])], told)


def scrubbing():
    """A region that was used whole is offered again once it is zeroed."""
    talk = Talk(two_regions())
    talk.manager(offer(0, FREE, 0, 16 * M), SUCCESS)
    talk.host(0, respond([(0, 16 * M)]), SUCCESS)
    talk.store(0, 0, 7)
    talk.host(0, give_back([(0, 16 * M)]), SUCCESS)
    talk.manager(offer(1, FREE, 0, 16 * M), RESOURCES_EXHAUSTED)
    talk.scrub(16, 16)
    talk.manager(offer(1, FREE, 0, 16 * M), SUCCESS)
    talk.host(1, respond([(B, 16 * M)]), SUCCESS)
    talk.load(1, B, 0)
    told = [
        record(1, RESPONSE, 0, (0, 16 * M), 63),
        record(2, RELEASED, 0, (0, 16 * M), 64),
        record(3, RESPONSE, 1, (B, 16 * M), 63),
    ]
    of_0, of_1 = [record(1, ADD, 0, (0, 16 * M), 63)], [record(1, ADD, 1, (B, 16 * M), 63)]
    return talk.end([(0, 0, of_0), (1, 16, of_1)], told, free=4)


def scrubbing_in_turns():
    """A turn takes the lowest dirty granules of the whole device."""
    upper, shared = (14 * M, 2 * M), (B, 2 * M, T, 1)
    talk = Talk(two_regions())
    talk.manager(offer(0, PRESCRIPTIVE, 0, extents=[upper]), SUCCESS)
    talk.host(0, respond([upper]), SUCCESS)
    talk.manager(offer(0, CONTIGUOUS, 1, 2 * M, tag=T), SUCCESS)
    talk.host(0, respond([shared]), SUCCESS)
    talk.host(0, give_back([upper, shared]), SUCCESS)
    talk.manager(get_info(), info(2, [M, M], 20, 16, 4))
    talk.scrub(3, 3)
    talk.manager(get_info(), info(2, [M, M], 20, 19, 1))
    talk.manager(offer(0, CONTIGUOUS, 1, 4 * M, tag=T), RESOURCES_EXHAUSTED)
    talk.scrub(3, 1)
    talk.scrub(3, 0)
    told = [
        record(1, RESPONSE, 0, upper, 63),
        record(2, RESPONSE, 0, shared, 62, 31),
        record(3, RELEASED, 0, upper, 64, more=True),
        record(4, RELEASED, 0, shared, 64),
    ]
    return talk.end([(0, 0, [record(1, ADD, 0, upper, 63), record(2, ADD, 0, shared, 62, 31)]), NOTHING], told)


CASES = played(giving_back, giving_back_more, parts_of_a_tag, asking_and_taking, taking_clean, taking_clean_shared, scrubbing,
               scrubbing_in_turns)
