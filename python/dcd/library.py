"""The library for C, by ctypes: its structs, its calls and its statuses (include/dcd.h)."""
import ctypes
import ctypes.util
import os
from ctypes import POINTER, Structure, c_bool, c_char_p, c_size_t, c_uint8, c_uint16, c_uint32, c_uint64, c_void_p
from typing import Callable, List, Optional, Tuple

OK, NO_MEMORY, BAD_HEAD, NO_ROOM, MISALIGNED, NOT_GRANTED = 0, 1, 4, 9, 10, 12
MANAGER, MOST_RESPONSE, RECORD = 0xFE, 2060, 128
SANITIZES, SHAREABLE = 1, 2


class Handle(Structure):
    _fields_ = [("is_open", c_bool), ("at", c_void_p)]


class CRegion(Structure):
    _fields_ = [("decode_units", c_uint64), ("length", c_uint64), ("block", c_uint64), ("sizes", c_uint64), ("handle", c_uint32), ("flags", c_uint32)]


class CHeadFault(Structure):
    _fields_ = [("place", c_uint64), ("number", c_uint32), ("cause", c_uint32), ("host", c_uint8), ("region", c_uint8), ("reserved", c_uint8 * 6)]


class CRun(Structure):
    _fields_ = [("dpa", c_uint64), ("length", c_uint64), ("media", c_uint64), ("first_granule", c_uint32), ("granules", c_uint32),
                ("kind", c_uint8), ("host", c_uint8), ("region", c_uint8), ("reserved", c_uint8 * 5)]


class CStep(Structure):
    _fields_ = [("size", c_uint32), ("logs", c_uint32), ("full", c_uint32), ("reserved", c_uint32), ("runs", c_uint64)]


class CHostState(Structure):
    _fields_ = [("size", c_uint32), ("extents", c_uint32), ("granules", c_uint32), ("records", c_uint32), ("bytes", c_uint64), ("offers", c_uint64),
                ("missed", c_uint16), ("reserved", c_uint16 * 3)]


class CMemoryState(Structure):
    _fields_ = [("size", c_uint32), ("granules", c_uint32), ("free", c_uint32), ("dirty", c_uint32), ("bytes", c_uint64), ("records", c_uint32),
                ("missed", c_uint16), ("hosts", c_uint8), ("regions", c_uint8)]


class CExtent(Structure):
    _fields_ = [("dpa", c_uint64), ("length", c_uint64), ("tag", c_uint8 * 16), ("sequence", c_uint16), ("offer", c_uint16), ("reserved", c_uint32)]


class CTag(Structure):
    _fields_ = [("tag", c_uint8 * 16), ("holders", c_uint16), ("offered", c_uint16), ("referenced", c_uint8), ("reserved", c_uint8 * 3)]


class CRefusal(Structure):
    _fields_ = [("size", c_uint32), ("rule", c_uint16), ("code", c_uint16), ("values", c_uint64 * 3), ("value_count", c_uint32), ("reserved", c_uint32)]


_HANDLE, _NUMBER, _TEXT = POINTER(Handle), POINTER(c_uint64), [c_char_p, c_size_t, POINTER(c_uint64)]
_CALLS = {
    "dcd_version": [],
    "dcd_open": [_HANDLE, c_char_p, c_size_t, POINTER(CHeadFault)],
    "dcd_open_with": [_HANDLE, c_uint8, POINTER(CRegion), c_size_t, _NUMBER, c_size_t, POINTER(CHeadFault)],
    "dcd_close": [_HANDLE],
    "dcd_send": [_HANDLE, c_uint8, c_char_p, c_size_t, c_char_p, c_size_t, _NUMBER],
    "dcd_load": [_HANDLE, c_uint8, c_uint64, _NUMBER],
    "dcd_store": [_HANDLE, c_uint8, c_uint64, c_uint64],
    "dcd_scrub": [_HANDLE, c_uint16, _NUMBER],
    "dcd_changes": [_HANDLE, POINTER(CRun), c_size_t, POINTER(CStep)],
    "dcd_host": [_HANDLE, c_uint8, POINTER(CHostState)],
    "dcd_memory": [_HANDLE, POINTER(CMemoryState)],
    "dcd_extents": [_HANDLE, c_uint8, POINTER(CExtent), c_size_t, _NUMBER],
    "dcd_offers": [_HANDLE, c_uint8, POINTER(CExtent), c_size_t, _NUMBER],
    "dcd_tags": [_HANDLE, POINTER(CTag), c_size_t, _NUMBER],
    "dcd_records": [_HANDLE, c_uint8, c_char_p, c_size_t, _NUMBER],
    "dcd_regions": [_HANDLE, POINTER(CRegion), c_size_t, _NUMBER],
    "dcd_bases": [_HANDLE, _NUMBER, c_size_t, _NUMBER],
    "dcd_refusal": [_HANDLE, c_uint8, c_char_p, c_size_t, POINTER(CRefusal)],
    "dcd_refusal_text": [_HANDLE, c_uint8, c_char_p, c_size_t, *_TEXT],
    "dcd_status_name": [c_uint32, *_TEXT],
    "dcd_code_name": [c_uint16, *_TEXT],
    "dcd_rule_name": [c_uint16, *_TEXT],
    "dcd_fault_name": [c_uint32, *_TEXT],
    "dcd_fault_text": [POINTER(CHeadFault), *_TEXT],
}


def places() -> List[str]:
    """Where the shared object is looked for: DCD_LIBRARY, the system's folders, and the build beside this package."""
    here = os.path.dirname(os.path.abspath(__file__))
    beside = os.path.join(here, "..", "..", "embed", "out", "libdcd.so")
    named = [os.environ.get("DCD_LIBRARY"), ctypes.util.find_library("dcd"), beside]
    return [it for it in named if it]


def load(path: Optional[str] = None) -> ctypes.CDLL:
    """The library at the path, or the first that is found, with the types of its calls."""
    fault: Optional[OSError] = None
    for place in [path] if path else places():
        try:
            library = ctypes.CDLL(place)
        except OSError as error:
            fault = fault or error
            continue
        for name, types in _CALLS.items():
            call = getattr(library, name)
            call.argtypes, call.restype = types, c_uint32
        if library.dcd_version() >> 16 != 1:
            raise OSError(f"{place} is of another major version")
        return library
    raise OSError("libdcd.so is not found: set DCD_LIBRARY to its path") from fault


def text_of(call: Callable[..., int], *arguments: object) -> str:
    """What a call that puts text says, or nothing where it has none."""
    room, length = ctypes.create_string_buffer(160), c_uint64()
    return room.value.decode() if call(*arguments, room, len(room), ctypes.byref(length)) == OK else ""


def version_of(library: ctypes.CDLL) -> Tuple[int, int, int]:
    number = library.dcd_version()
    return number >> 16, number >> 8 & 255, number & 255
