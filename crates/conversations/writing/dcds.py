"""The bytes of scripts, of requests and of replies, a function for each layout of docs/formats.md.

`make` beside it and `bench/run` make their scripts with it. All numbers are little-endian, and reserved bytes are 0. An extent is a pair of
its start and its length, or an `extent` where it has a tag or a sequence.
"""
import struct

MIB = 1 << 20
GIB = 1 << 30
NO_TAG = bytes(16)
MANAGER = 0xFE

# The return codes.
SUCCESS, INVALID_INPUT, UNSUPPORTED, RETRY_REQUIRED = 0x0000, 0x0002, 0x0003, 0x0005
INVALID_HANDLE, INVALID_ADDRESS, INVALID_LENGTH = 0x000E, 0x000F, 0x0016
RESOURCES_EXHAUSTED, INVALID_EXTENT_LIST = 0x001D, 0x001E

# The policies of an offer, and the flags of a request to release.
FREE, CONTIGUOUS, PRESCRIPTIVE, SHARED = 0, 1, 2, 3
BY_TAG, LISTED, FORCED, CLEAN = 0, 1, 16, 32

# The kinds of records.
ADD, RELEASE, FORCED_RELEASE, REGION_UPDATED, RESPONSE, RELEASED = range(6)


def tag_of(number):
    """A tag of its own for each number from 1 on."""
    return number.to_bytes(16, "little")


# The head of a script


def region(units, length, block, sizes, handle, sanitizes=True, shareable=False):
    """A region: decode units of 256 MiB, length and block in bytes, a bit for each supported block size."""
    return struct.pack("<QQQQIB", units, length, block, sizes, handle, sanitizes + 2 * shareable) + bytes(3)


def head(hosts, regions, bases, lanes=None):
    """The head of a script, with the bases host by host. With a number of lanes it has version 2, else version 1."""
    version, lanes = (1, 0) if lanes is None else (2, lanes)
    return (b"DCDS" + struct.pack("<HHBBB", version, 0, hosts, len(regions), lanes) + bytes(5)
            + b"".join(regions) + b"".join(struct.pack("<Q", base) for base in bases))


def two_regions(sanitizes=True, lanes=None):
    """Two hosts; region 0 of 16 MiB, and region 1 of 4 MiB that hosts can share, both with blocks of 1 MiB."""
    regions = [region(1, 16 * MIB, MIB, MIB, 0, sanitizes), region(1, 4 * MIB, MIB, MIB, 1, sanitizes, shareable=True)]
    return head(2, regions, [0, 1 << 28, 1 << 28, 2 << 28], lanes)


def one_region(sizes=MIB):
    """One host and one region of 128 MiB with blocks of 1 MiB."""
    return head(1, [region(1, 128 * MIB, MIB, sizes, 0)], [0])


# The lines of a script, which ends with the byte 0


def command(actor, request, message_tag=0):
    """A command; a request is its opcode and its payload."""
    opcode, payload = request
    message = struct.pack("<BBBH", 0, message_tag, 0, opcode) + len(payload).to_bytes(3, "little") + bytes(4) + payload
    return struct.pack("<BBH", 1, actor, len(message)) + message


def load(host, address):
    return struct.pack("<BBQ", 2, host, address)


def store(host, address, word):
    return struct.pack("<BBQQ", 3, host, address, word)


def scrub(most):
    return struct.pack("<BH", 4, most)


def mark():
    """The end of a phase. The lanes of a host are told in the actor byte: host + 16 * lane."""
    return b"\5"


# Requests of hosts and of the Fabric Manager


def get_events(log=4):
    return 0x0100, bytes([log])


def clear_events(handles, log=4):
    return 0x0101, bytes([log, 0, len(handles)]) + bytes(3) + b"".join(struct.pack("<H", handle) for handle in handles)


def clear_all(log=4):
    return 0x0101, bytes([log, 1, 0]) + bytes(3)


# Requests of hosts


def get_configuration(count=8, first=0):
    return 0x4800, bytes([count, first])


def get_extents(count=50, first=0):
    return 0x4801, struct.pack("<II", count, first)


def respond(extents, more=False):
    """Add Dynamic Capacity Response."""
    return 0x4802, listed(extents, more)


def give_back(extents, more=False):
    """Release Dynamic Capacity."""
    return 0x4803, listed(extents, more)


def listed(extents, more):
    return struct.pack("<IB", len(extents), more) + bytes(3) + b"".join(struct.pack("<QQ", *it[:2]) + bytes(8) for it in extents)


# Requests of the Fabric Manager


def get_info():
    return 0x5600, b""


def get_host_regions(host, count=8, first=0):
    return 0x5601, struct.pack("<HBB", host, count, first)


def set_region(number, block, sanitizes=True):
    return 0x5602, struct.pack("<B3xQB3x", number, block, sanitizes)


def get_host_extents(host, count=50, first=0):
    return 0x5603, struct.pack("<H2xII", host, count, first)


def offer(host, policy, number, length=0, tag=NO_TAG, extents=()):
    """Initiate Dynamic Capacity Add, in the region of that number."""
    return 0x5604, struct.pack("<HBBQ", host, policy, number, length) + tag + counted(extents)


def take(host, flags, number=0, tag=NO_TAG, extents=()):
    """Initiate Dynamic Capacity Release."""
    return 0x5605, struct.pack("<HBBQ", host, flags, number, 0) + tag + counted(extents)


def counted(extents):
    return struct.pack("<I", len(extents)) + b"".join(extent(*it) for it in extents)


def add_reference(tag):
    return 0x5606, tag


def remove_reference(tag):
    return 0x5607, tag


def list_tags(count=84, first=0):
    return 0x5608, struct.pack("<II", first, count)


# Replies: the whole message, and the payloads that come with Success


def response(request, message_tag, code=SUCCESS, payload=b""):
    return (struct.pack("<BBBH", 1, message_tag, 0, request[0]) + len(payload).to_bytes(3, "little")
            + struct.pack("<HH", code, 0) + payload)


def extent(start, length, tag=NO_TAG, sequence=0):
    return struct.pack("<QQ", start, length) + tag + struct.pack("<H6x", sequence)


def record(handle, kind, host, of, extents, tags=32, more=False, number=0):
    """An event record of an extent; the host may have so many more extents and tags, and the region has that number."""
    return (bytes.fromhex("ca95afa7f18340188c2f95268e101a2a") + struct.pack("<B3xH26x", 128, handle)
            + struct.pack("<BBHBB2x", kind, 3, host, number, more) + extent(*of) + bytes(24) + struct.pack("<II", extents, tags))


def events(records, missed=0, left=False):
    """The reply to Get Event Records: so many were missed, and there are more in the log or not."""
    return struct.pack("<BxHQQH10x", (missed > 0) + 2 * left, missed, 0, 0, len(records)) + b"".join(records)


def region_part(base, units, length, block, handle, flags):
    """A region in the replies to 4800h and 5601h."""
    return struct.pack("<QQQQIB3x", base, units, length, block, handle, flags)


def counts(extents, tags=32):
    """How many extents and tags a host may have, and how many more it may have now."""
    return struct.pack("<IIII", 64, extents, 32, tags)


def extent_list(extents, total, generation):
    """The reply to Get Dynamic Capacity Extent List."""
    return struct.pack("<III4x", len(extents), total, generation) + b"".join(extent(*it) for it in extents)


def info(hosts, sizes, granules, free, dirty):
    """The reply to Get DCD Info, with the supported block sizes of each region."""
    return (struct.pack("<BBHH2xIII4x", hosts, len(sizes), 15, 3, granules, free, dirty)
            + b"".join(struct.pack("<Q", it) for it in sizes))


def host_extent_list(host, first, extents, total, generation):
    """The reply to Get DC Region Extent Lists."""
    return struct.pack("<H2xIIII4x", host, first, len(extents), total, generation) + b"".join(extent(*it) for it in extents)


def tag_list(tags, total, first=0):
    """The reply to List Tags; a tag comes with the hosts that hold it, those that are offered it, and whether it is referenced."""
    return struct.pack("<III4x", first, len(tags), total) + b"".join(tag + struct.pack("<HHB3x", *it) for tag, *it in tags)
