"""What is asked of a device and answered by it, as values."""
import enum
from dataclasses import dataclass
from typing import Tuple

from .library import CHeadFault

NO_TAG = bytes(16)


@dataclass(frozen=True)
class Region:
    """A region: lengths in bytes, `decode_units` in units of 256 MiB, `sizes` a bit for each block size."""
    decode_units: int
    length: int
    block: int
    sizes: int = 0
    handle: int = 0
    sanitizes: bool = True
    shareable: bool = False


@dataclass(frozen=True)
class Extent:
    """A range of a host's addresses, in bytes, with its tag and its place among the extents of a shared one."""
    dpa: int
    length: int
    tag: bytes = NO_TAG
    sequence: int = 0


@dataclass(frozen=True)
class OfferedExtent(Extent):
    """An extent of an offer that waits; the oldest offer is 0."""
    offer: int = 0


@dataclass(frozen=True)
class LiveTag:
    """A live tag of a shareable region: the hosts that hold it, those that are offered it, whether the manager has a reference."""
    tag: bytes
    holders: Tuple[int, ...]
    offered: Tuple[int, ...]
    referenced: bool


class Kind(enum.IntEnum):
    """What a record says (CXL 3.1, 8.2.9.2.1.6)."""
    ADD_CAPACITY = 0
    RELEASE_CAPACITY = 1
    FORCED_CAPACITY_RELEASE = 2
    REGION_CONFIGURATION_UPDATED = 3
    ADD_CAPACITY_RESPONSE = 4
    CAPACITY_RELEASED = 5


@dataclass(frozen=True)
class Record:
    """An event record."""
    handle: int
    kind: Kind
    host: int
    region: int
    more: bool
    extent: Extent
    extents_available: int
    tags_available: int


class Change(enum.IntEnum):
    GAINED = 1
    LOST = 2
    ZEROED = 3


@dataclass(frozen=True)
class Run:
    """Granules that a host gained or lost, or that are zeroed, where `host` is None and `dpa` is 0."""
    change: Change
    host: "int | None"
    dpa: int
    length: int
    media: int
    first_granule: int
    granules: int
    region: int


@dataclass(frozen=True)
class Step:
    """What the last step changed: runs in their order, and the logs that grew or were full; the manager's is 'manager'."""
    runs: Tuple[Run, ...]
    logs: Tuple["int | str", ...]
    full: Tuple["int | str", ...]


@dataclass(frozen=True)
class HostState:
    extents: int
    granules: int
    records: int
    bytes: int
    offers: int
    missed: int


@dataclass(frozen=True)
class MemoryState:
    granules: int
    free: int
    dirty: int
    bytes: int
    records: int
    missed: int
    hosts: int
    regions: int


class Policy(enum.IntEnum):
    """How 5604h chooses what it offers."""
    FREE = 0
    CONTIGUOUS = 1
    PRESCRIPTIVE = 2
    ENABLE_SHARED_ACCESS = 3


class DcdError(Exception):
    """A call did not do what was asked: `status` is its number, `name` its name."""

    def __init__(self, status: int, name: str, text: str = "") -> None:
        super().__init__(f"{name}: {text}" if text else name)
        self.status, self.name = status, name


class BadHead(DcdError):
    """The head or the configuration is refused: `fault` names the fault and `number` is its number, `place` how many bytes stand
    before it; of a configuration `cause` is the number of its fault, about `host` and `region`."""

    def __init__(self, status: int, name: str, fault: str, told: CHeadFault, text: str) -> None:
        super().__init__(status, name, text or fault)
        self.fault, self.number, self.place = fault, int(told.number), int(told.place)
        self.cause, self.host, self.region = int(told.cause), int(told.host), int(told.region)


class AccessRefused(DcdError):
    """A load or a store is refused."""


class Refused(Exception):
    """The device refused a command. The message is the sentence of the rule that the command broke; `rule` is the name of the rule,
    `values` has its values, and `code` is the return code."""

    def __init__(self, code: int, code_name: str, rule: str, values: Tuple[int, ...], text: str) -> None:
        super().__init__(text or rule)
        self.code, self.code_name, self.rule, self.values = code, code_name, rule, values
