"""Plays a script on the device of the package dcd and maps as it says, as play.c does: play.py < SCRIPT."""
import sys

from dcd import AccessRefused, BadHead, Change, Device

MANAGER, COMMAND, LOAD, STORE, SCRUB = 0xFE, 1, 2, 3, 4


def number(data, start, count):
    return int.from_bytes(data[start:start + count], "little")


class Maps:
    """Which granules are mapped to which host."""

    def __init__(self, device):
        self.device, self.regions, self.bases, self.mapped = device, device.regions(), device.bases(), set()

    def apply(self):
        """Maps and unmaps what the last step says."""
        for run in self.device.step().runs:
            if run.change == Change.ZEROED:
                continue
            gained = run.change == Change.GAINED
            print(f"h{run.host} {'+' if gained else '-'}{run.dpa:x}+{run.length:x}", file=sys.stderr)
            granules = {(run.host, g) for g in range(run.first_granule, run.first_granule + run.granules)}
            self.mapped = self.mapped | granules if gained else self.mapped - granules

    def has(self, host, dpa):
        first = 0
        for base, region in zip(self.bases[host], self.regions):
            size = region.sizes & -region.sizes
            if base <= dpa < base + region.length:
                return (host, first + (dpa - base) // size) in self.mapped
            first += region.length // size
        return False


def access(maps, device, kind, host, dpa, word):
    """What is printed of a load or a store; the player stops where it is granted and not mapped, or mapped and not granted."""
    name = "ld" if kind == LOAD else "st"
    try:
        answer = f"{device.hosts[host].load(dpa):016x}" if kind == LOAD else device.hosts[host].store(dpa, word) or "ok"
    except AccessRefused as error:
        if error.name == "DCD_NOT_GRANTED" and maps.has(host, dpa):
            sys.exit("play: mapped and not granted")
        return f"{name} refused {error.status - 9}"
    if not maps.has(host, dpa):
        sys.exit("play: granted and not mapped")
    return f"{name} {answer}"


def play(script):
    try:
        device = Device.from_head(script)
    except BadHead as fault:
        return print(f"script refused: {fault.number} at {fault.place}") or 3
    print("dcd 1")
    at, line, entry, maps = 16 + 40 * script[9] + 8 * script[8] * script[9], 0, 0, Maps(device)
    while script[at] != 0:
        kind, actor, line, entry = script[at], script[at + 1] if script[at] != 5 else 0, line + 1, entry + (script[at] != 5)
        who = "fm" if actor == MANAGER else f"h{actor % 16}"
        if kind == COMMAND:
            message = script[at + 4:at + 4 + number(script, at + 2, 2)]
            print(entry, line, who, "cmd", device.send(actor if who == "fm" else actor % 16, message).hex())
            at += 4 + len(message)
        elif kind in (LOAD, STORE):
            print(entry, line, who, access(maps, device, kind, actor % 16, number(script, at + 2, 8), number(script, at + 10, 8)))
            at += 10 if kind == LOAD else 18
        elif kind == SCRUB:
            print(entry, line, "sz", "sc", device.scrub(number(script, at + 1, 2)))
            at += 3
        else:
            at += 1
            continue
        maps.apply()
    for who, actor in [(f"h{it.number}", it) for it in device.hosts] + [("fm", device.manager)]:
        for record in actor.record_bytes():
            print("rec", who, record.hex())
    for host in device.hosts:
        has = host.state()
        print(f"host h{host.number} extents {has.extents} granules {has.granules} log {has.records}")
    has = device.state()
    print(f"fm log {has.records} missed {has.missed}\ngranules free {has.free} dirty {has.dirty}\nend {entry}")
    return 0


if __name__ == "__main__":
    sys.exit(play(sys.stdin.buffer.read()))
