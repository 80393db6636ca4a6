"""A device, its hosts and its Fabric Manager."""
import ctypes
import struct
from ctypes import byref, c_uint64
from types import TracebackType
from typing import Any, Callable, Iterable, List, Optional, Sequence, Tuple, Type, Union

from . import library as lib
from .values import (NO_TAG, AccessRefused, BadHead, Change, DcdError, Extent, HostState, Kind, LiveTag, MemoryState, OfferedExtent, Policy, Record,
                     Refused, Region, Run, Step)

_LISTED = struct.Struct("<QQ8x")
_EXTENT = struct.Struct("<QQ16sH6x")
_REGION = struct.Struct("<QQQQLB3x")
_DYNAMIC_LOG, _MORE, _FORCED, _CLEAN = 4, 1, 0x10, 0x20


def _bits(mask: int) -> Tuple[int, ...]:
    return tuple(host for host in range(16) if mask >> host & 1)


def _logs(mask: int) -> Tuple[Union[int, str], ...]:
    return _bits(mask) + (("manager",) if mask >> 16 & 1 else ())


def _extent(data: bytes, at: int) -> Extent:
    return Extent(*_EXTENT.unpack_from(data, at))


def record_of(data: bytes) -> Record:
    """The event record that these 128 bytes are (docs/formats.md)."""
    extents, tags = struct.unpack_from("<LL", data, 120)
    handle, = struct.unpack_from("<H", data, 20)
    host, region, more = struct.unpack_from("<HBB", data, 50)
    return Record(handle, Kind(data[48]), host, region, bool(more & 1), _extent(data, 56), extents, tags)


class _Actor:
    """Whoever sends commands: a host, or the Fabric Manager."""

    def __init__(self, device: "Device", number: int) -> None:
        self.device, self.number = device, number

    def command(self, opcode: int, payload: bytes = b"") -> bytes:
        """Sends a command and answers the payload of its response. Where it is refused, Refused says why."""
        message = struct.pack("<BBBHL3x", 0, 0, 0, opcode, len(payload)) + payload
        refused = self.device.refusal(self.number, message)
        response = self.device.send(self.number, message)
        if refused is not None:
            raise refused
        return response[12:]

    def get_event_records(self, log: int = _DYNAMIC_LOG) -> List[Record]:
        """0100h: the first records of the log, at most 15; they stay there."""
        data = self.command(0x0100, bytes([log]))
        count, = struct.unpack_from("<H", data, 20)
        return [record_of(data[at:at + lib.RECORD]) for at in range(32, 32 + lib.RECORD * count, lib.RECORD)]

    def clear_event_records(self, handles: Sequence[int] = (), log: int = _DYNAMIC_LOG, everything: bool = False) -> None:
        """0101h: clears the records of these handles, or after an overflow all."""
        self.command(0x0101, struct.pack(f"<BBB3x{len(handles)}H", log, everything, len(handles), *handles))

    def records(self) -> List[Record]:
        """All records of the log, without a message."""
        return [record_of(it) for it in self.record_bytes()]

    def record_bytes(self) -> List[bytes]:
        """The same as their 128 bytes."""
        data = self.device._bytes_of("dcd_records", self.number)
        return [data[at:at + lib.RECORD] for at in range(0, len(data), lib.RECORD)]


class Host(_Actor):
    """A host: its commands, its loads and stores, and what it holds."""

    def get_dynamic_capacity_configuration(self, first: int = 0, count: int = 8) -> List[Tuple[int, Region]]:
        """4800h: its regions, each with its base."""
        data = self.command(0x4800, bytes([count, first]))
        found = []
        for at in range(8, 8 + 40 * data[1], 40):
            base, units, length, block, handle, flags = _REGION.unpack_from(data, at)
            found.append((base, Region(units, length, block, 0, handle, bool(flags & 1))))
        return found

    def get_dynamic_capacity_extent_list(self, first: int = 0, count: int = 50) -> List[Extent]:
        """4801h: a page of its accepted extents."""
        data = self.command(0x4801, struct.pack("<LL", count, first))
        return [_extent(data, at) for at in range(16, len(data), 40)]

    def add_dynamic_capacity_response(self, extents: Iterable[Extent] = (), more: bool = False) -> None:
        """4802h: accepts these extents of the oldest offer; with `more` the list goes on."""
        self._list(0x4802, extents, more)

    def release_dynamic_capacity(self, extents: Iterable[Extent], more: bool = False) -> None:
        """4803h: gives these extents back."""
        self._list(0x4803, extents, more)

    def _list(self, opcode: int, extents: Iterable[Extent], more: bool) -> None:
        listed = b"".join(_LISTED.pack(it.dpa, it.length) for it in extents)
        self.command(opcode, struct.pack("<LB3x", len(listed) // _LISTED.size, _MORE if more else 0) + listed)

    def accept(self) -> List[Extent]:
        """Accepts the whole of the oldest offer, and answers its extents."""
        extents = [Extent(it.dpa, it.length, it.tag, it.sequence) for it in self.offers() if it.offer == 0]
        self.add_dynamic_capacity_response(extents)
        return extents

    def load(self, dpa: int) -> int:
        return self.device._load(self.number, dpa)

    def store(self, dpa: int, word: int) -> None:
        self.device._store(self.number, dpa, word)

    def state(self) -> HostState:
        told = lib.CHostState(size=ctypes.sizeof(lib.CHostState))
        self.device._done(self.device._call("dcd_host", self.number, byref(told)))
        return HostState(told.extents, told.granules, told.records, told.bytes, told.offers, told.missed)

    def extents(self) -> List[Extent]:
        """Its accepted extents, all of them, without a message."""
        return [Extent(it.dpa, it.length, bytes(it.tag), it.sequence) for it in self.device._items("dcd_extents", lib.CExtent, self.number)]

    def offers(self) -> List[OfferedExtent]:
        """The extents of its waiting offers, without a message."""
        told = self.device._items("dcd_offers", lib.CExtent, self.number)
        return [OfferedExtent(it.dpa, it.length, bytes(it.tag), it.sequence, it.offer) for it in told]


class FabricManager(_Actor):
    """The Fabric Manager: it gives capacity to hosts and takes it back."""

    def get_dcd_info(self) -> MemoryState:
        """5600h: how many granules there are, free and dirty."""
        data = self.command(0x5600)
        hosts, regions, granules, free, dirty = struct.unpack_from("<BB6xLLL", data)
        now = self.device.state()
        return MemoryState(granules, free, dirty, now.bytes, now.records, now.missed, hosts, regions)

    def get_host_dc_region_configuration(self, host: int, first: int = 0, count: int = 8) -> List[Tuple[int, Region]]:
        """5601h: the regions of a host, each with its base."""
        data = self.command(0x5601, struct.pack("<HBB", host, count, first))
        found = []
        for at in range(8, 8 + 40 * data[3], 40):
            base, units, length, block, handle, flags = _REGION.unpack_from(data, at)
            found.append((base, Region(units, length, block, 0, handle, bool(flags & 1), bool(flags & 2))))
        return found

    def set_dc_region_configuration(self, region: int, block: int, sanitize: bool = True) -> None:
        """5602h: sets the block size of a region of which no granule is in use."""
        self.command(0x5602, struct.pack("<B3xQB3x", region, block, sanitize))

    def get_dc_region_extent_lists(self, host: int, first: int = 0, count: int = 50) -> List[Extent]:
        """5603h: a page of a host's accepted extents."""
        data = self.command(0x5603, struct.pack("<H2xLL", host, count, first))
        return [_extent(data, at) for at in range(24, len(data), 40)]

    def initiate_dynamic_capacity_add(self, host: int, region: int, length: int = 0, policy: Policy = Policy.FREE, tag: bytes = NO_TAG,
                                      extents: Iterable[Extent] = ()) -> None:
        """5604h: offers capacity to a host: `length` bytes, or with Policy.PRESCRIPTIVE these extents."""
        self._change(0x5604, host, int(policy), region, length, tag, extents)

    def initiate_dynamic_capacity_release(self, host: int, region: int = 0, extents: Iterable[Extent] = (), tag: Optional[bytes] = None,
                                          forced: bool = False, clean: bool = False) -> None:
        """5605h: asks a host to give back these extents, or what it has under the tag; `forced` takes it."""
        flags = (1 if tag is None else 0) | (_FORCED if forced else 0) | (_CLEAN if clean else 0)
        self._change(0x5605, host, flags, region, 0, tag or NO_TAG, extents)

    def _change(self, opcode: int, host: int, flags: int, region: int, length: int, tag: bytes, extents: Iterable[Extent]) -> None:
        listed = b"".join(_EXTENT.pack(it.dpa, it.length, it.tag, it.sequence) for it in extents)
        self.command(opcode, struct.pack("<HBBQ16sL", host, flags, region, length, tag, len(listed) // _EXTENT.size) + listed)

    def dynamic_capacity_add_reference(self, tag: bytes) -> None:
        """5606h: the tag stays live while the manager refers to it."""
        self.command(0x5606, tag)

    def dynamic_capacity_remove_reference(self, tag: bytes) -> None:
        """5607h."""
        self.command(0x5607, tag)

    def dynamic_capacity_list_tags(self, first: int = 0, count: int = 84) -> List[LiveTag]:
        """5608h: a page of the live tags."""
        data = self.command(0x5608, struct.pack("<LL", first, count))
        parts = [struct.unpack_from("<16sHHB", data, at) for at in range(16, len(data), 24)]
        return [LiveTag(tag, _bits(holders), _bits(offered), bool(flags & 1)) for tag, holders, offered, flags in parts]


class Device:
    """A Dynamic Capacity Device of some hosts and regions: `with Device(2, [Region(1, 1 << 28, 1 << 20)]) as device`.

    `bases` has the base of each region for each host; without it the regions of each host stand one behind another from 0 on.
    """

    def __init__(self, hosts: int, regions: Sequence[Region], bases: Optional[Sequence[Sequence[int]]] = None, path: Optional[str] = None) -> None:
        self._begin(path)
        told = (lib.CRegion * max(1, len(regions)))()
        for it, region in zip(told, regions):
            it.decode_units, it.length, it.block, it.sizes = region.decode_units, region.length, region.block, region.sizes or region.block
            it.handle, it.flags = region.handle, (lib.SANITIZES if region.sanitizes else 0) | (lib.SHAREABLE if region.shareable else 0)
        if bases is None:
            before = [sum(it.decode_units for it in regions[:r]) << 28 for r in range(len(regions))]
            bases = [before] * hosts
        flat = [base for row in bases for base in row]
        numbers = (c_uint64 * max(1, len(flat)))(*flat)
        self._open(lambda fault: self._call("dcd_open_with", hosts, told, len(regions), numbers, len(flat), fault))

    @classmethod
    def from_head(cls, head: bytes, path: Optional[str] = None) -> "Device":
        """The device of the head that a script begins with (docs/formats.md)."""
        device = cls.__new__(cls)
        device._begin(path)
        device._open(lambda fault: device._call("dcd_open", head, len(head), fault))
        return device

    def _begin(self, path: Optional[str]) -> None:
        self._library, self._handle = lib.load(path), lib.Handle()

    def _open(self, call: Callable[[Any], int]) -> None:
        fault = lib.CHeadFault()
        status = call(byref(fault))
        if status == lib.BAD_HEAD:
            name, text = lib.text_of(self._library.dcd_fault_name, fault.number), lib.text_of(self._library.dcd_fault_text, byref(fault))
            raise BadHead(status, self._name(status), name, fault, text)
        self._done(status)
        self.hosts = tuple(Host(self, number) for number in range(self.state().hosts))
        self.manager = FabricManager(self, lib.MANAGER)

    def __enter__(self) -> "Device":
        return self

    def __exit__(self, kind: Optional[Type[BaseException]], error: Optional[BaseException], trace: Optional[TracebackType]) -> None:
        self.close()

    def close(self) -> None:
        """Frees the device. It may be closed again."""
        if self._handle.is_open:
            self._done(self._call("dcd_close"))

    def __del__(self) -> None:
        if hasattr(self, "_handle"):
            self.close()

    def send(self, actor: int, message: bytes) -> bytes:
        """Sends a message as it is, and answers the response as it is."""
        room, length = ctypes.create_string_buffer(lib.MOST_RESPONSE), c_uint64()
        self._done(self._call("dcd_send", actor, message, len(message), room, lib.MOST_RESPONSE, byref(length)))
        return room.raw[:length.value]

    def scrub(self, most: int = 65535) -> int:
        """Lets the sanitizer zero at most so many granules, and answers how many it zeroed."""
        zeroed = c_uint64()
        self._done(self._call("dcd_scrub", most, byref(zeroed)))
        return zeroed.value

    def step(self) -> Step:
        """What the last command, access or scrub changed."""
        told = lib.CStep(size=ctypes.sizeof(lib.CStep))
        runs = (lib.CRun * 64)()
        status = self._call("dcd_changes", runs, 64, byref(told))
        if status == lib.NO_ROOM:
            runs = (lib.CRun * told.runs)()
            status = self._call("dcd_changes", runs, told.runs, byref(told))
        self._done(status)
        found = [Run(Change(it.kind), None if it.kind == Change.ZEROED else it.host, it.dpa, it.length, it.media, it.first_granule, it.granules, it.region)
                 for it in runs[:told.runs]]
        return Step(tuple(found), _logs(told.logs), _logs(told.full))

    def state(self) -> MemoryState:
        told = lib.CMemoryState(size=ctypes.sizeof(lib.CMemoryState))
        self._done(self._call("dcd_memory", byref(told)))
        return MemoryState(told.granules, told.free, told.dirty, told.bytes, told.records, told.missed, told.hosts, told.regions)

    def regions(self) -> List[Region]:
        """The regions with their block sizes of now."""
        return [Region(it.decode_units, it.length, it.block, it.sizes, it.handle, bool(it.flags & lib.SANITIZES), bool(it.flags & lib.SHAREABLE))
                for it in self._items("dcd_regions", lib.CRegion)]

    def bases(self) -> List[List[int]]:
        """The base of each region for each host."""
        numbers, count = list(self._items("dcd_bases", c_uint64)), self.state().regions
        return [[int(base) for base in numbers[at:at + count]] for at in range(0, len(numbers), count)]

    def tags(self) -> List[LiveTag]:
        """The live tags, all of them, without a message."""
        return [LiveTag(bytes(it.tag), _bits(it.holders), _bits(it.offered), bool(it.referenced)) for it in self._items("dcd_tags", lib.CTag)]

    def refusal(self, actor: int, message: bytes) -> Optional[Refused]:
        """Why the message would be refused now, or nothing."""
        told = lib.CRefusal(size=ctypes.sizeof(lib.CRefusal))
        self._done(self._call("dcd_refusal", actor, message, len(message), byref(told)))
        if told.rule == 0:
            return None
        code, rule = lib.text_of(self._library.dcd_code_name, told.code), lib.text_of(self._library.dcd_rule_name, told.rule)
        text = lib.text_of(self._library.dcd_refusal_text, byref(self._handle), actor, message, len(message))
        return Refused(told.code, code, rule, tuple(told.values[:told.value_count]), text)

    def _load(self, host: int, dpa: int) -> int:
        word = c_uint64()
        self._done(self._call("dcd_load", host, dpa, byref(word)))
        return word.value

    def _store(self, host: int, dpa: int, word: int) -> None:
        self._done(self._call("dcd_store", host, dpa, word))

    def _call(self, name: str, *arguments: Any) -> int:
        return int(getattr(self._library, name)(byref(self._handle), *arguments))

    def _name(self, status: int) -> str:
        return lib.text_of(self._library.dcd_status_name, status)

    def _done(self, status: int) -> None:
        if lib.MISALIGNED <= status <= lib.NOT_GRANTED:
            raise AccessRefused(status, self._name(status))
        if status == lib.NO_MEMORY:
            raise MemoryError("the device wants memory")
        if status != lib.OK:
            raise DcdError(status, self._name(status))

    def _items(self, name: str, kind: Any, *arguments: Any) -> Any:
        """A list that a call puts: it is asked how long it is, and then for it."""
        count = c_uint64()
        status = self._call(name, *arguments, (kind * 1)(), 0, byref(count))
        if status not in (lib.OK, lib.NO_ROOM):
            self._done(status)
        items = (kind * max(1, count.value))()
        self._done(self._call(name, *arguments, items, count.value, byref(count)))
        return items[:count.value]

    def _bytes_of(self, name: str, *arguments: Any) -> bytes:
        count = c_uint64()
        status = self._call(name, *arguments, ctypes.create_string_buffer(1), 0, byref(count))
        if status not in (lib.OK, lib.NO_ROOM):
            self._done(status)
        room = ctypes.create_string_buffer(max(1, count.value))
        self._done(self._call(name, *arguments, room, count.value, byref(count)))
        return room.raw[:count.value]
