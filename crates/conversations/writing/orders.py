"""The order of the rules: each refused request breaks two rules, and the code is that of the earlier one. And which bits of flags are read."""
from talk import *

# A list of more extents than may be listed, none of which has a length or lies in a region.
LONG = [(1 << 40, 0)] * 65


def orders_of_hosts():
    """Of 0101h, 4801h, 4802h and 4803h."""
    talk = Talk(two_regions())
    talk.host(0, (0x4804, bytes(9)), UNSUPPORTED)
    talk.host(0, (0x4801, struct.pack("<IIB", 1, 1, 0)), INVALID_LENGTH)
    talk.host(0, clear_events([1], log=5), INVALID_INPUT)
    opcode, all_of_4 = clear_all()
    talk.host(0, (opcode, all_of_4[:2] + b"\1" + all_of_4[3:] + b"\7\0"), INVALID_INPUT)
    talk.manager(offer(0, PRESCRIPTIVE, 0, extents=[(0, 2 * M)]), SUCCESS)
    for listing in (respond, give_back):
        talk.host(0, listing(LONG), RESOURCES_EXHAUSTED)
        talk.host(0, listing(LONG, more=True), RESOURCES_EXHAUSTED)
        talk.host(0, listing([(64 * M, 0)]), INVALID_EXTENT_LIST)
        talk.host(0, listing([(64 * M + 1, M)]), INVALID_ADDRESS)
        talk.host(0, listing([(8 * M + 1, M)]), INVALID_EXTENT_LIST)
        talk.host(0, listing([(0, 2 * M), (M, 2 * M)]), INVALID_ADDRESS)
        talk.host(0, listing([(8 * M, M), (0, 0)]), INVALID_ADDRESS)
        talk.host(0, listing([(0, 0), (8 * M, M)]), INVALID_EXTENT_LIST)
        if listing is respond:
            talk.host(0, respond([(0, 2 * M)]), SUCCESS)
    told = [record(1, RESPONSE, 0, (0, 2 * M), 63)]
    return talk.end([(1, 2, [record(1, ADD, 0, (0, 2 * M), 63)]), NOTHING], told, free=18)


def orders_of_the_manager():
    """Of 5602h, 5604h and 5605h."""
    talk = Talk(two_regions())
    talk.manager((0x5604, bytes([9]) + bytes(30)), INVALID_LENGTH)
    talk.manager(set_region(0, 2 * M, sanitizes=False), INVALID_INPUT)
    talk.manager(offer(0, PRESCRIPTIVE, 0, tag=T, extents=[(0, 2 * M)]), SUCCESS)
    talk.host(0, respond([(0, 2 * M)]), SUCCESS)
    talk.manager(set_region(0, M, sanitizes=False), UNSUPPORTED)
    talk.manager(offer(0, FREE, 0, 64 * M, tag=T), INVALID_INPUT)
    talk.manager(offer(0, FREE, 0, 64 * M + 1), INVALID_INPUT)
    talk.manager(offer(0, PRESCRIPTIVE, 0, tag=T, extents=LONG), INVALID_INPUT)
    talk.manager(offer(0, PRESCRIPTIVE, 0, extents=LONG), RESOURCES_EXHAUSTED)
    talk.manager(offer(0, PRESCRIPTIVE, 0, extents=[(64 * M, 0)]), INVALID_EXTENT_LIST)
    talk.manager(offer(0, PRESCRIPTIVE, 0, extents=[(64 * M + 1, M)]), INVALID_ADDRESS)
    talk.manager(offer(0, PRESCRIPTIVE, 0, extents=[(0, M), (64 * M, M)]), INVALID_EXTENT_LIST)
    talk.manager(offer(0, PRESCRIPTIVE, 0, extents=[(64 * M, M), (0, M)]), INVALID_ADDRESS)
    talk.manager(take(2, LISTED | CLEAN), INVALID_INPUT)
    talk.manager(take(0, 2 | CLEAN), UNSUPPORTED)
    talk.manager(take(0, LISTED, 2, extents=LONG), INVALID_INPUT)
    talk.manager(take(0, LISTED, 0, extents=LONG), RESOURCES_EXHAUSTED)
    talk.manager(take(0, LISTED, 0, extents=[(64 * M, 0)]), INVALID_EXTENT_LIST)
    talk.manager(take(0, LISTED, 0, extents=[(64 * M + 1, M)]), INVALID_ADDRESS)
    talk.manager(take(0, LISTED, 0, extents=[(8 * M + 1, M)]), INVALID_EXTENT_LIST)
    talk.manager(take(0, LISTED, 0, extents=[(0, 2 * M), (M, 2 * M)]), INVALID_ADDRESS)
    whole = (0, 2 * M, T)
    told = [record(1, RESPONSE, 0, whole, 63, 31)]
    return talk.end([(1, 2, [record(1, ADD, 0, whole, 63, 31)]), NOTHING], told, free=18)


def flags():
    """Bits of flags that are read, and others that are not."""
    talk = Talk(two_regions())
    talk.manager(offer(0, PRESCRIPTIVE, 0, extents=[(0, 4 * M)]), SUCCESS)
    opcode, listed_all = respond([(0, 4 * M)])
    talk.host(0, (opcode, listed_all[:4] + b"\xfe\xff\xff\xff" + listed_all[8:]), SUCCESS)
    talk.manager(take(0, LISTED | CLEAN, extents=[(0, M)]), UNSUPPORTED)
    talk.manager(take(0, LISTED | 0xC0, extents=[(0, M)]), SUCCESS)
    talk.host(0, get_extents(), extent_list([(0, 4 * M)], 1, 1))
    talk.manager(take(0, LISTED | FORCED | CLEAN, extents=[(0, M)]), SUCCESS)
    talk.manager(take(0, LISTED | FORCED | 0xC0, extents=[(M, M)]), SUCCESS)
    opcode, listed_last = give_back([(2 * M, 2 * M)])
    talk.host(0, (opcode, listed_last[:4] + b"\xfe\xff\xff\xff" + listed_last[8:]), SUCCESS)
    log = [
        record(1, ADD, 0, (0, 4 * M), 63),
        record(2, RELEASE, 0, (0, M), 63),
        record(3, FORCED_RELEASE, 0, (0, M), 63),
        record(4, FORCED_RELEASE, 0, (M, M), 63),
    ]
    talk.host(0, get_events(), events(log))
    opcode, cleared = clear_events([1, 2, 3, 4])
    talk.host(0, (opcode, cleared[:1] + b"\xfe" + cleared[2:3] + b"\xff\xff\xff" + cleared[6:]), SUCCESS)
    told = [record(1, RESPONSE, 0, (0, 4 * M), 63), record(2, RELEASED, 0, (2 * M, 2 * M), 64)]
    return talk.end([NOTHING, NOTHING], told, free=16, dirty=4)


CASES = played(orders_of_hosts, orders_of_the_manager, flags)
