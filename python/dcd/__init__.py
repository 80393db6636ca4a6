"""A Dynamic Capacity Device of CXL 3.1, proved against its contracts, over the C library libdcd.

    from dcd import Device, Region
    with Device(2, [Region(decode_units=1, length=1 << 28, block=1 << 20)]) as device:
        host = device.hosts[0]
        device.manager.initiate_dynamic_capacity_add(0, region=0, length=4 << 20)
        print(host.offers())
        extents = host.accept()
        print(device.step().runs)
        host.store(extents[0].dpa, 42)
        print(host.load(extents[0].dpa))
"""
from .device import Device, FabricManager, Host, record_of
from .values import (NO_TAG, AccessRefused, BadHead, Change, DcdError, Extent, HostState, Kind, LiveTag, MemoryState, OfferedExtent, Policy, Record,
                     Refused, Region, Run, Step)

__all__ = ["NO_TAG", "AccessRefused", "BadHead", "Change", "DcdError", "Device", "Extent", "FabricManager", "Host", "HostState", "Kind", "LiveTag",
           "MemoryState", "OfferedExtent", "Policy", "Record", "Refused", "Region", "Run", "Step", "record_of"]
