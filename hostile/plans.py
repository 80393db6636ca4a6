"""What `pool_planner` prints, after docs/planner.md: a model of its own, over that of the device; its conversations and random frames beside it."""
import copy
import json
import os
import re
import struct
import time
from collections import Counter

import runs
from model import NO_TAG
from random_runs import SCRIPTS
from reading import COMMAND, LOAD, MANAGER, MARK, SCRUB, STORE, Refused, read
from scripts import Draw, Script

MOST_INPUT, MOST_LEVELS = 33554432, 127
DONE, NO_SCRIPT, SHORT, LONG, NO_DEMANDS, NO_PLAN = 0, 3, 7, 8, 9, 10
NOT_JSON, BAD_SHAPE = 1, 2
BAD_DEMAND, BAD_DEAD, OPEN, SHORT_OF, REFUSED = range(1, 6)


class Fault(Exception):
    """The status of a run that is not done, and what it prints."""

    def __init__(self, status, *lines):
        super().__init__(status)
        self.status, self.lines = status, lines


# ---- the demands

class NotWhole:
    """A number that is no whole number from 0."""


def whole(digits):
    return NotWhole() if digits.startswith("-") or int(digits) >= 1 << 64 and finite(digits) else int(digits)


def broken(digits):
    finite(digits)
    return NotWhole()


def finite(digits):
    if float(digits) in (float("inf"), float("-inf")):
        raise ValueError(digits)
    return True


def no_constant(name):
    raise ValueError(name)


def value_of(text):
    """The value of a JSON text; a member that comes twice has its last value."""
    levels = 0
    for piece in re.finditer(r'"(?:[^"\\]|\\.)*"|[\[{]|[\]}]', text):
        levels += {"[": 1, "{": 1, "]": -1, "}": -1}.get(piece.group(), 0)
        if levels > MOST_LEVELS:
            raise ValueError("too deep")
    if re.search(r"\\u[dD][89abAB]..(?!\\u[dD][c-fC-F])", text):
        raise ValueError("half a pair")
    return json.loads(text, parse_int=whole, parse_float=broken, parse_constant=no_constant)


def numbers_of(value, keys):
    if not isinstance(value, dict) or sorted(value) != sorted(keys):
        raise Fault(NO_DEMANDS, f"demands refused: {BAD_SHAPE}")
    return tuple(number_of(value[key]) for key in keys)


def number_of(value):
    if isinstance(value, bool) or not isinstance(value, int) or not value < 1 << 32:
        raise Fault(NO_DEMANDS, f"demands refused: {BAD_SHAPE}")
    return value


def demands_of(rest):
    """The demands, each a host, a region and blocks, and the dead hosts."""
    try:
        value = value_of(rest.decode("utf-8"))
    except ValueError:
        raise Fault(NO_DEMANDS, f"demands refused: {NOT_JSON}")
    if not isinstance(value, dict) or sorted(value) != ["dead", "demands"] or not all(isinstance(it, list) for it in value.values()):
        raise Fault(NO_DEMANDS, f"demands refused: {BAD_SHAPE}")
    return [numbers_of(it, ("host", "region", "blocks")) for it in value["demands"]], [number_of(it) for it in value["dead"]]


# ---- the list

def in_region(device, host, number):
    return [it for it in device.hosts[host].accepted if device.region_at(host, it[0]) == number]


def held(device, host, number):
    return sum(it[1] for it in in_region(device, host, number)) // device.regions[number].block


def free_blocks(device, number):
    it, states = device.regions[number], device.states()
    size = it.block // it.granule
    return sum(not any(states[at:at + size]) for at in range(it.first, it.first + it.count, size))


def listed(extents):
    return struct.pack("<IB3x", len(extents), 0) + b"".join(struct.pack("<QQ8x", *it[:2]) for it in extents)


def placed(host, choice, number, length, extents):
    return (struct.pack("<HBBQ", host, choice, number, length) + NO_TAG + struct.pack("<I", len(extents))
            + b"".join(struct.pack("<QQ", *it[:2]) + it[2] + struct.pack("<H6x", it[3]) for it in extents))


def of_dead(device, host):
    """All that a dead host lets go."""
    mine = device.hosts[host]
    if mine.log.records:
        yield host, 0x0101, bytes([4, 0, len(mine.log.records), 0, 0, 0]) + b"".join(struct.pack("<H", it) for it in mine.log.records)
    for _ in mine.offers:
        yield host, 0x4802, listed([])
    for number in range(len(device.regions)):
        extents = in_region(device, host, number)
        if extents:
            yield MANAGER, 0x5605, placed(host, 0x11, number, 0, extents)


def of_loser(device, host, number, blocks):
    """What a host gives back that has too much."""
    over = (held(device, host, number) - blocks) * device.regions[number].block
    given = []
    for start, length, *_ in reversed(in_region(device, host, number)):
        if over <= 0:
            break
        part = min(over, length)
        given.append((start + length - part, part))
        over -= part
    if given:
        yield host, 0x4803, listed(given)


def do(device, act):
    """Does an act, and answers the rule that it breaks, or Success."""
    actor, what, payload = act
    if what == SCRUB:
        device.scrub(payload)
        return "Success"
    return device.manager_command(what, payload) if actor == MANAGER else device.host_command(actor, what, payload)


def plan(device, demands, dead):
    """The list of acts; they are done on the device."""
    hosts, regions = len(device.hosts), device.regions
    for at, (host, number, _) in enumerate(demands):
        if (host >= hosts or number >= len(regions) or regions[number].shareable or host in dead
                or any(it[:2] == (host, number) for it in demands[:at])):
            raise Fault(NO_PLAN, f"plan refused: {BAD_DEMAND}")
    for at, host in enumerate(dead):
        if host >= hosts or host in dead[:at]:
            raise Fault(NO_PLAN, f"plan refused: {BAD_DEAD}")
    demanded = {it[0] for it in demands}
    for host, it in enumerate(device.hosts):
        if any(it.held.values()) and host in demanded | set(dead) or it.offers and host in demanded:
            raise Fault(NO_PLAN, f"plan refused: {OPEN}")
    gains = [(host, number, blocks - held(device, host, number)) for host, number, blocks in demands]
    acts = [act for host in dead for act in of_dead(device, host)] + [act for it in demands for act in of_loser(device, *it)]
    for act in acts:
        if do(device, act) != "Success":
            raise Fault(NO_PLAN, f"plan refused: {REFUSED}")
    dirty = device.states().count(1)
    if dirty:
        acts.append(("sz", SCRUB, dirty))
        do(device, acts[-1])
    for number in range(len(regions)):
        need, have = sum(max(0, it[2]) for it in gains if it[1] == number), free_blocks(device, number)
        if need > have:
            raise Fault(NO_PLAN, f"short {number} need {need} have {have}")
    for host, number, blocks in gains:
        if blocks <= 0:
            continue
        for make in (lambda: (MANAGER, 0x5604, placed(host, 0, number, blocks * regions[number].block, [])),
                     lambda: (host, 0x4802, listed(device.hosts[host].offers[0]))):
            act = make()
            if do(device, act) != "Success":
                raise Fault(NO_PLAN, f"plan refused: {REFUSED}")
            acts.append(act)
    return acts


# ---- the run

def run_line(device, line):
    kind, actor, *rest = line
    if kind == COMMAND:
        do(device, (actor if actor == MANAGER else actor & 15, rest[1], rest[2]))
    elif kind == STORE:
        device.store(actor & 15, *rest)
    elif kind == LOAD:
        device.load(actor & 15, *rest)
    elif kind == SCRUB:
        device.scrub(*rest)


def act_line(act):
    actor, what, payload = act
    if what == SCRUB:
        return f"sz {payload}"
    message = bytes(3) + struct.pack("<H", what) + len(payload).to_bytes(3, "little") + bytes(4) + payload
    return f"{'fm' if actor == MANAGER else f'h{actor}'} {message.hex()}"


def printed(frame):
    if len(frame) > MOST_INPUT:
        raise Fault(LONG)
    count = struct.unpack_from("<I", frame)[0] if len(frame) >= 4 else 0
    if len(frame) < 4 + count:
        raise Fault(SHORT)
    script, rest = frame[4:4 + count], frame[4 + count:]
    try:
        device, _, lines = read(script)
    except Refused as refused:
        raise Fault(NO_SCRIPT, str(refused))
    for line in lines:
        run_line(device, line)
    demands, dead = demands_of(rest)
    acts = plan(copy.deepcopy(device), demands, dead)
    for act in acts:
        do(device, act)
    entries = sum(line[0] != MARK for line in lines)
    return [act_line(act) for act in acts] + device.state_lines(entries + len(acts))


def run(frame):
    """The status, and the text that is printed."""
    try:
        status, lines = DONE, printed(frame)
    except Fault as fault:
        status, lines = fault.status, fault.lines
    return status, "".join(line + "\n" for line in lines)


# ---- conversations


def content(path, otherwise):
    if not os.path.exists(path):
        return otherwise
    with open(path, "rb") as file:
        return file.read()


def others_in(folder):
    """The conversations of the folder with the planner that are otherwise than the model says. Those with words read nothing."""
    others = []
    for name in sorted(it[:-8] for it in os.listdir(folder) if it.endswith(".program")):
        path = os.path.join(folder, name)
        if content(path + ".program", b"") != b"pool_planner\n" or os.path.exists(path + ".words"):
            continue
        if run(content(path + ".dcds", b"")) != (int(content(path + ".status", b"0")), content(path + ".txt", b"").decode()):
            others.append(name)
    return others


# ---- random frames

def demands_for(draw, device):
    """Demands for what the hosts of a device hold: mostly such as can be met."""
    count, regions = len(device.hosts), [number for number, it in enumerate(device.regions) if not it.shareable]
    closed = [not any(it.held.values()) for it in device.hosts]
    dead = [host for host in range(count) if draw.chance(0.25) and (closed[host] or draw.chance(0.1))]
    demands = []
    for host in range(count):
        at_rest = closed[host] and not device.hosts[host].offers
        if host in dead or not at_rest and not draw.chance(0.05):
            continue
        for number in (it for it in regions if draw.chance(0.6)):
            has, free = held(device, host, number), free_blocks(device, number)
            demands.append((host, number, max(0, has + draw.among((0, 0, 1, 2, free // 2, free, free + 1, -1, -2, -has, -has // 2)))))
    draw.shuffle(demands)
    draw.shuffle(dead)
    if demands and draw.chance(0.03):
        demands.append(demands[0])
    if draw.chance(0.03):
        dead.append(count)
    return demands, dead


def drawn_frame(seed):
    """The frame of a random script and demands for what it leaves."""
    it = Script(seed)
    script = it.head + b"".join(it.lines) + b"\0"
    device, _, lines = read(script)
    for line in lines:
        run_line(device, line)
    demands, dead = demands_for(Draw(seed), device)
    members = [dict(zip(("host", "region", "blocks"), it)) for it in demands]
    return struct.pack("<I", len(script)) + script + json.dumps({"demands": members, "dead": dead}).encode()


def kind_of(status, text):
    """The fault of the plan for a frame, or its status."""
    if status != NO_PLAN:
        return f"status {status}"
    return "short" if text.startswith("short") else text.strip()


def try_plans(planner, kept, conversations, seconds, seed):
    """Compares the conversations with the model, and tries random frames for so many seconds; whether something was found."""
    found = [f"conversation {name}" for name in others_in(conversations)]
    number, kinds, end = seed * SCRIPTS, Counter(), time.monotonic() + seconds
    while time.monotonic() < end:
        frame = drawn_frame(number)
        status, text = run(frame)
        ended = runs.run(planner, (), frame)
        if (ended.status, ended.written) != (status, text.encode()):
            found.append(f"frame {number}: {ended} in place of status {status}, {len(text)} bytes")
            with open(os.path.join(kept, f"{number}.frame"), "wb") as file:
                file.write(frame)
        kinds[kind_of(status, text)] += 1
        number += 1
    for it in found:
        print(f"FOUND: {it}")
    print(f"seed {seed}, {seconds:.0f} seconds, {number - seed * SCRIPTS:,} frames: " + ", ".join(f"{kind} {count:,}" for kind, count in sorted(kinds.items())))
    return bool(found)
