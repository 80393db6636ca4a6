"""Getting, using and losing memory."""
from talk import *


def memory():
    """A host gets two blocks, uses one, gives one back, and loses the other."""
    talk = Talk(two_regions())
    talk.manager(offer(0, PRESCRIPTIVE, 0, extents=[(2 * M, 2 * M)]), SUCCESS)
    talk.host(0, respond([(2 * M, 2 * M)]), SUCCESS)
    talk.store(0, 2 * M, 7)
    talk.load(0, 2 * M, 7)
    talk.host(0, give_back([(3 * M, M)]), SUCCESS)
    talk.load_refused(0, 3 * M, 3)
    talk.manager(take(0, LISTED | FORCED, extents=[(2 * M, M)]), SUCCESS)
    talk.load_refused(0, 2 * M, 3)
    talk.scrub(16, 2)
    talk.host(0, clear_events([1, 2]), SUCCESS)
    talk.manager(clear_events([1, 2]), SUCCESS)
    return talk.end([NOTHING, NOTHING])


def one_block():
    """A host gets a block, and loads, stores and loads a word of it."""
    talk = Talk(two_regions())
    talk.manager(offer(0, PRESCRIPTIVE, 0, extents=[(2 * M, M)]), SUCCESS)
    talk.host(0, respond([(2 * M, M)]), SUCCESS)
    talk.load(0, 2 * M, 0)
    talk.store(0, 2 * M, 7)
    talk.load(0, 2 * M, 7)
    log = [record(1, ADD, 0, (2 * M, M), 63)]
    return talk.end([(1, 1, log), NOTHING], [record(1, RESPONSE, 0, (2 * M, M), 63)], free=19)


def two_hosts():
    """Two hosts get a block each, use it at the same time, and clear their logs."""
    talk = Talk(two_regions())
    talk.manager(offer(0, FREE, 0, M), SUCCESS)
    talk.manager(offer(1, FREE, 0, M), SUCCESS)
    talk.mark()
    talk.host(0, respond([(0, M)]), SUCCESS)
    talk.host(1, respond([(B + M, M)]), SUCCESS)
    talk.mark()
    talk.store(0, 0, 7)
    talk.load(0, 0, 7)
    talk.store(1, B + M, 8)
    talk.load(1, B + M, 8)
    talk.host(0, clear_events([1]), SUCCESS)
    talk.host(1, clear_events([1]), SUCCESS)
    talk.manager(clear_events([1, 2]), SUCCESS)
    return talk.end([(1, 1, []), (1, 1, [])], free=18)


def refused_accesses():
    """The three reasons for which a load or a store is refused, in their order."""
    talk = Talk(two_regions())
    talk.manager(offer(0, FREE, 0, 8 * M), SUCCESS)
    talk.load_refused(0, 0, 3)
    talk.host(0, respond([(0, 8 * M)]), SUCCESS)
    talk.load(0, 0, 0)
    talk.load(0, 8 * M - 8, 0)
    talk.load_refused(0, 8 * M, 3)
    talk.load_refused(0, 16 * M, 2)
    talk.load_refused(0, 16 * M + 1, 1)
    talk.load_refused(0, 1, 1)
    talk.load_refused(0, 8 * M + 4, 1)
    talk.store_refused(0, 4, 1)
    talk.store_refused(0, B - 8, 2)
    talk.store_refused(0, B, 3)
    talk.load_refused(1, 0, 2)
    talk.load_refused(1, B, 3)
    talk.store_refused(1, B, 3)
    log = [record(1, ADD, 0, (0, 8 * M), 63)]
    return talk.end([(1, 8, log), NOTHING], [record(1, RESPONSE, 0, (0, 8 * M), 63)], free=12)


def stored_words():
    """A word is zero until it is stored, and no other word changes; a region ends behind its last word."""
    talk = Talk(two_regions())
    talk.manager(offer(0, FREE, 0, 16 * M), SUCCESS)
    talk.host(0, respond([(0, 16 * M)]), SUCCESS)
    talk.load(0, 2 * M, 0)
    talk.store(0, 2 * M, 7)
    talk.load(0, 2 * M, 7)
    talk.load(0, 2 * M + 8, 0)
    talk.load(0, 16 * M - 8, 0)
    talk.load_refused(0, 16 * M, 2)
    talk.load_refused(0, 1, 1)
    return talk.end([(1, 16, [record(1, ADD, 0, (0, 16 * M), 63)]), NOTHING], [record(1, RESPONSE, 0, (0, 16 * M), 63)], free=4)


def one_host_alone():
    """A block is offered to one host alone: not while it is offered to another, held, or not zeroed yet."""
    talk = Talk(two_regions())
    of_0, of_1 = offer(0, PRESCRIPTIVE, 0, extents=[(0, M)]), offer(1, PRESCRIPTIVE, 0, extents=[(B, M)])
    talk.manager(of_0, SUCCESS)
    talk.manager(of_1, INVALID_EXTENT_LIST)
    talk.host(0, respond([(0, M)]), SUCCESS)
    talk.manager(of_1, INVALID_EXTENT_LIST)
    talk.host(0, give_back([(0, M)]), SUCCESS)
    talk.manager(of_1, INVALID_EXTENT_LIST)
    talk.scrub(1, 1)
    talk.manager(of_1, SUCCESS)
    talk.manager(of_0, INVALID_EXTENT_LIST)
    told = [record(1, RESPONSE, 0, (0, M), 63), record(2, RELEASED, 0, (0, M), 64)]
    return talk.end([(0, 0, [record(1, ADD, 0, (0, M), 63)]), (0, 0, [record(1, ADD, 1, (B, M), 63)])], told, free=19)


def four_hosts():
    """Four hosts with three extents of 4 GiB each, every one under a tag of its own, which use, give back and lose some."""
    size, granules = 4 * GIB, 16
    at = [((n * size), size, tag_of(n + 1)) for n in range(12)]
    talk = Talk(head(4, [region(256, 64 * GIB, GIB // 4, GIB // 4, number) for number in range(2)], [0, 64 * GIB] * 4))
    for n, (start, length, tag) in enumerate(at):
        talk.manager(offer(n // 3, CONTIGUOUS, 0, size, tag=tag), SUCCESS)
        talk.host(n // 3, respond([(start, length)]), SUCCESS)
    for host in range(4):
        for word in range(5):
            talk.store(host, at[3 * host][0] + 8 * word, word)
            talk.load(host, at[3 * host][0] + 8 * word, word)
    for host in range(4):
        talk.host(host, give_back([at[3 * host]]), SUCCESS)
    talk.host(0, give_back([at[1]]), SUCCESS)
    talk.manager(take(3, BY_TAG | FORCED, tag=at[10][2]), SUCCESS)
    added = [record(n % 3 + 1, ADD, n // 3, at[n], 63 - n % 3, 31 - n % 3) for n in range(12)]
    told = [record(n + 1, RESPONSE, n // 3, at[n], 63 - n % 3, 31 - n % 3) for n in range(12)]
    told += [record(13 + host, RELEASED, host, at[3 * host], 62, 30) for host in range(4)]
    told += [record(17, RELEASED, 0, at[1], 63, 31)]
    hosts = [
        (1, granules, added[:3]),
        (2, 2 * granules, added[3:6]),
        (2, 2 * granules, added[6:9]),
        (1, granules, added[9:] + [record(4, FORCED_RELEASE, 3, at[10], 63, 31)]),
    ]
    return talk.end(hosts, told, free=512 - 12 * granules, dirty=6 * granules)


def with_lanes():
    """Two hosts of two lanes each, which hold two blocks and one."""
    talk = Talk(two_regions(lanes=2))
    talk.manager(offer(0, FREE, 0, 2 * M), SUCCESS)
    talk.manager(offer(1, FREE, 0, M), SUCCESS)
    talk.mark()
    talk.host(0, respond([(0, 2 * M)]), SUCCESS, lane=1)
    talk.host(1, respond([(B + 2 * M, M)]), SUCCESS)
    talk.mark()
    return talk


def lanes():
    """A script of version 2: each host has two lanes, marks end phases and have no entry, and all lanes use one memory."""
    talk = with_lanes()
    talk.store(0, 0, 1)
    talk.store(0, 8, 2, lane=1)
    talk.load(0, 8, 2)
    talk.load(0, 0, 1, lane=1)
    talk.store(1, B + 2 * M, 3, lane=1)
    talk.load(1, B + 2 * M, 3)
    told = [record(1, RESPONSE, 0, (0, 2 * M), 63), record(2, RESPONSE, 1, (B + 2 * M, M), 63)]
    hosts = [(1, 2, [record(1, ADD, 0, (0, 2 * M), 63)]), (1, 1, [record(1, ADD, 1, (B + 2 * M, M), 63)])]
    return talk.end(hosts, told, free=17)


def shared_memory():
    """Two hosts use one block, and a reference keeps it while no host has it."""
    talk = Talk(two_regions())
    talk.manager(offer(0, CONTIGUOUS, 1, M, tag=T), SUCCESS)
    talk.host(0, respond([(B, M)]), SUCCESS)
    talk.manager(offer(1, SHARED, 1, tag=T), SUCCESS)
    talk.host(1, respond([(C, M)]), SUCCESS)
    talk.store(0, B, 9)
    talk.load(1, C, 9)
    talk.manager(add_reference(T), SUCCESS)
    talk.manager(list_tags(5), tag_list([(T, 3, 0, True)], 1))
    talk.host(0, give_back([(B, M)]), SUCCESS)
    talk.host(1, give_back([(C, M)]), SUCCESS)
    talk.load_refused(1, C, 3)
    talk.manager(offer(1, SHARED, 1, tag=T), SUCCESS)
    talk.host(1, respond([(C, M)]), SUCCESS)
    talk.load(1, C, 9)
    talk.host(1, give_back([(C, M)]), SUCCESS)
    talk.manager(get_info(), info(2, [M, M], 20, 19, 0))
    talk.manager(remove_reference(T), SUCCESS)
    talk.manager(get_info(), info(2, [M, M], 20, 19, 1))
    talk.manager(remove_reference(T), INVALID_INPUT)
    talk.scrub(1, 1)
    at_0, at_1 = (B, M, T, 1), (C, M, T, 1)
    told = [
        record(1, RESPONSE, 0, at_0, 63, 31),
        record(2, RESPONSE, 1, at_1, 63, 31),
        record(3, RELEASED, 0, at_0, 64, 32),
        record(4, RELEASED, 1, at_1, 64, 32),
        record(5, RESPONSE, 1, at_1, 63, 31),
        record(6, RELEASED, 1, at_1, 64, 32),
    ]
    of_1 = [record(1, ADD, 1, at_1, 63, 31), record(2, ADD, 1, at_1, 63, 31)]
    return talk.end([(0, 0, [record(1, ADD, 0, at_0, 63, 31)]), (0, 0, of_1)], told)


def first():
    """Two hosts share a block: what one stores the other loads."""
    tag = bytes.fromhex("00112233445566778899aabbccddeeff")
    talk = Talk(head(2, [region(1, 4 * M, M, M, 0, shareable=True)], [0, 0]))
    talk.command(MANAGER, "fm", offer(0, CONTIGUOUS, 0, M, tag=tag), SUCCESS, tag=0)
    talk.host(0, respond([(0, M)]), SUCCESS, tag=0)
    talk.command(MANAGER, "fm", offer(1, SHARED, 0, tag=tag), SUCCESS, tag=0)
    talk.host(1, respond([(0, M)]), SUCCESS, tag=0)
    talk.store(0, 8, 7)
    talk.load(1, 8, 7)
    block = (0, M, tag, 1)
    told = [record(1, RESPONSE, 0, block, 63, 31), record(2, RESPONSE, 1, block, 63, 31)]
    logs = [(1, 1, [record(1, ADD, host, block, 63, 31)]) for host in (0, 1)]
    return talk.end(logs, told, free=3)


CASES = played(first, memory, one_block, two_hosts, refused_accesses, stored_words, one_host_alone, four_hosts, lanes, shared_memory)
