"""Several devices behind a tunnel: what each is sent, what it answers, and which fabrics are refused.

The lines of a fabric are numbered over all devices. The message tag of a message to the tunnel is the low byte of the number of its line, and that of
the message within it is one more.
"""
from talk import *

TUNNEL = 0x5300


def message(request, tag, category=0, length=None):
    """A request as a message."""
    opcode, payload = request
    length = len(payload) if length is None else length
    return struct.pack("<BBBH", category, tag, 0, opcode) + length.to_bytes(3, "little") + bytes(4) + payload


def through(device, inner):
    """A message to the tunnel around the message for a device."""
    return TUNNEL, struct.pack("<H2x", device) + inner


def local(device, line):
    return struct.pack("<BB", 1, device) + line


def outer(bytes_of_message):
    return struct.pack("<BH", 2, len(bytes_of_message)) + bytes_of_message


def told(script):
    """A device's script, and its length before it."""
    return struct.pack("<I", len(script)) + script


def opening(count, version=1):
    """What stands before the devices."""
    return b"DCDF" + struct.pack("<HBB", version, count, 0)


def fabric(heads, lines, end=b"\0"):
    return opening(len(heads)) + b"".join(told(head + b"\0") for head in heads) + b"".join(lines) + end


class Behind(Talk):
    """One of the devices: its text grows as those of the others do not."""

    def __init__(self, chassis, number, head):
        super().__init__(head)
        self.chassis, self.number = chassis, number

    def put(self, line, actor, answer):
        self.chassis.lines.append(local(self.number, line))
        self.enter(actor, answer)

    def enter(self, actor, answer):
        """An entry of the line that came last."""
        self.lines.append(None)
        self.text.append(f"{len(self.lines)} {len(self.chassis.lines)} {actor} {answer}")

    def manager(self, request, answer):
        """A command that reaches the device through the tunnel; the answer is a return code, or the payload that comes with Success."""
        code, payload = (answer, b"") if isinstance(answer, int) else (SUCCESS, answer)
        number = len(self.chassis.lines) + 1
        tag, inner_tag = number % 256, (number + 1) % 256
        its_response = response(request, inner_tag, code, payload)
        self.chassis.lines.append(outer(message(through(self.number, message(request, inner_tag)), tag)))
        self.chassis.replies.append(f"t {number} " + response((TUNNEL,), tag, SUCCESS, struct.pack("<H2x", self.number) + its_response).hex())
        self.enter("fm", "cmd " + its_response.hex())


class Chassis:
    """Devices behind a tunnel, and the lines that go to them."""

    def __init__(self, *heads):
        self.lines, self.replies = [], []
        self.devices = [Behind(self, number, head) for number, head in enumerate(heads)]

    def __getitem__(self, number):
        return self.devices[number]

    def refuses(self, bytes_of_message, code):
        """A message to the tunnel that reaches no device."""
        self.lines.append(outer(bytes_of_message))
        tag, opcode = bytes_of_message[1], int.from_bytes(bytes_of_message[3:5], "little")
        self.replies.append(f"t {len(self.lines)} " + response((opcode,), tag, code).hex())

    def finish(self):
        text = list(self.replies)
        for device in self.devices:
            text += [f"device {device.number}"] + device.text
        return Case(text, fabric([it.head for it in self.devices], self.lines), program="tunnel_fabric")


def one_message_reaches_the_second_device():
    chassis = Chassis(two_regions(), two_regions())
    chassis[1].manager(get_info(), info(2, [M, M], 20, 20, 0))
    for device in chassis.devices:
        device.put_state([NOTHING, NOTHING])
    return chassis.finish()


def one_message_reaches_no_device():
    chassis = Chassis(two_regions(), two_regions())
    chassis.refuses(message(through(2, message(get_info(), 2)), 1), INVALID_INPUT)
    for device in chassis.devices:
        device.put_state([NOTHING, NOTHING])
    return chassis.finish()


def rules_of_the_tunnel():
    """Each rule in turn; of two that are broken, the first."""
    chassis = Chassis(two_regions(), two_regions())
    inner = message(get_info(), 9)
    chassis.refuses(message((0x5301, through(0, inner)[1]), 1), UNSUPPORTED)
    chassis.refuses(message((0x5301, b""), 2), UNSUPPORTED)
    chassis.refuses(message((TUNNEL, b""), 3), INVALID_LENGTH)
    chassis.refuses(message((TUNNEL, bytes([9, 0, 0])), 4), INVALID_LENGTH)
    chassis.refuses(message(through(2, inner), 5), INVALID_INPUT)
    chassis.refuses(message(through(256, inner), 6), INVALID_INPUT)
    chassis.refuses(message(through(1, b""), 7), INVALID_INPUT)
    chassis.refuses(message(through(1, inner[:11]), 8), INVALID_INPUT)
    chassis.refuses(message(through(1, message(get_info(), 9, category=1)), 9), INVALID_INPUT)
    chassis.refuses(message(through(1, message(get_info(), 9, length=1)), 10), INVALID_INPUT)
    chassis.refuses(message(through(1, inner + b"\0"), 11), INVALID_INPUT)
    for device in chassis.devices:
        device.put_state([NOTHING, NOTHING])
    return chassis.finish()


def refused_by_a_device():
    """What a device refuses is answered Success by the tunnel, around the device's own response; a tunnel within the tunnel is unknown to it."""
    chassis = Chassis(two_regions(), two_regions())
    chassis[0].manager((0x4800, bytes(2)), UNSUPPORTED)
    chassis[0].manager(through(1, message(get_info(), 9)), UNSUPPORTED)
    chassis[0].manager((0x5600, b"\0"), INVALID_LENGTH)
    chassis[1].manager(offer(2, PRESCRIPTIVE, 0, extents=[(0, M)]), INVALID_INPUT)
    for device in chassis.devices:
        device.put_state([NOTHING, NOTHING])
    return chassis.finish()


def plays(device, word):
    """A host is offered a block, takes it, and stores and loads a word."""
    device.manager(offer(0, PRESCRIPTIVE, 0, extents=[(0, M)]), SUCCESS)
    device.host(0, respond([(0, M)]), SUCCESS)
    device.store(0, 8, word)
    device.load(0, 8, word)
    device.load_refused(1, B, 3)


def has_played(device):
    device.put_state(
        [(1, 1, [record(1, ADD, 0, (0, M), 63)]), NOTHING],
        [record(1, RESPONSE, 0, (0, M), 63)], free=19)


def two_devices_with_one_script():
    """The same lines to both, one after another: what goes to one is nothing to the other."""
    chassis = Chassis(two_regions(), two_regions())
    plays(chassis[0], 5)
    plays(chassis[1], 7)
    for device in chassis.devices:
        has_played(device)
    return chassis.finish()


def two_devices_by_turns():
    """A block of one device is not granted on the other, and a scrub is of one device."""
    chassis = Chassis(two_regions(), two_regions())
    first, second = chassis[0], chassis[1]
    first.manager(offer(0, PRESCRIPTIVE, 0, extents=[(0, M)]), SUCCESS)
    second.load_refused(0, 8, 3)
    first.host(0, respond([(0, M)]), SUCCESS)
    second.host(0, respond([(0, M)]), INVALID_ADDRESS)
    first.store(0, 8, 5)
    second.store_refused(0, 8, 3)
    second.scrub(9, 0)
    first.load(0, 8, 5)
    has_played(first)
    second.put_state([NOTHING, NOTHING])
    return chassis.finish()


def eight_devices():
    chassis = Chassis(*[two_regions() if number % 2 == 0 else one_region() for number in range(8)])
    for number in (7, 0, 6, 1, 5, 2, 4, 3):
        chassis[number].manager(get_info(), info(2, [M, M], 20, 20, 0) if number % 2 == 0 else info(1, [M], 128, 128, 0))
    for device in chassis.devices:
        device.put_state([NOTHING, NOTHING] if device.number % 2 == 0 else [NOTHING], free=20 if device.number % 2 == 0 else 128)
    return chassis.finish()


def no_lines():
    chassis = Chassis(one_region())
    chassis[0].put_state([NOTHING], free=128)
    return chassis.finish()


# Fabrics that are refused: the fault's number and how many bytes stand before it.

HEAD = two_regions()
BARE = told(HEAD + b"\0")
# where the first line begins behind two devices
LINES = 8 + 2 * len(BARE)
# where the script of the second device begins
SECOND = 8 + len(BARE) + 4


def refused_fabric(bytes_of_fabric, number, place):
    return Case([f"fabric refused: {number} at {place}"], bytes_of_fabric, status=REFUSED, program="tunnel_fabric")


def of_two(*lines, end=b"\0"):
    return fabric([HEAD, HEAD], lines, end)


def refusals():
    magic = b"DCDS" + of_two()[4:]
    cut = of_two(local(0, load(0, 8)), end=b"")
    lanes = opening(2) + BARE + told(two_regions(lanes=2) + b"\0")
    lines = opening(2) + BARE + told(HEAD + mark() + b"\0") + b"\0"
    broken = opening(2) + BARE + told(HEAD[:4] + b"\3" + HEAD[5:] + b"\0") + b"\0"
    full = [local(0, load(0, 8))] * 65536
    return {
        "magic": refused_fabric(magic, 1, 0),
        "version": refused_fabric(opening(2, version=2) + of_two()[8:], 2, 4),
        "no-device": refused_fabric(opening(0) + b"\0", 3, 6),
        "nine-devices": refused_fabric(opening(9) + 9 * BARE + b"\0", 3, 6),
        "cut": refused_fabric(cut, 4, len(cut)),
        "cut-script": refused_fabric(opening(1) + BARE[:-1], 4, 8 + len(BARE) - 1),
        "script": refused_fabric(broken, 5, SECOND),
        "script-lines": refused_fabric(lines, 6, SECOND),
        "script-lanes": refused_fabric(lanes + b"\0", 6, SECOND),
        "kind": refused_fabric(of_two(b"\3"), 7, LINES),
        "inner-mark": refused_fabric(of_two(local(1, mark())), 7, LINES + 2),
        "inner-end": refused_fabric(of_two(local(1, b"\0")), 7, LINES + 2),
        "device": refused_fabric(of_two(local(2, load(0, 8))), 8, LINES + 1),
        "host": refused_fabric(of_two(local(1, load(2, 8))), 8, LINES + 3),
        "manager": refused_fabric(of_two(local(1, command(MANAGER, get_info()))), 8, LINES + 3),
        "message": refused_fabric(of_two(outer(message(get_info(), 1)[:11])), 9, LINES + 3),
        "inner-message": refused_fabric(of_two(local(1, struct.pack("<BBH", 1, 0, 11) + bytes(11))), 9, LINES + 6),
        "behind-the-end": refused_fabric(of_two() + b"\0", 10, LINES + 1),
        "lines": refused_fabric(of_two(*full, local(0, load(0, 8))), 12, LINES + 65536 * 12),
    }


def words():
    return Case(["usage: tunnel_fabric"], runs=(("1",),), status=USAGE, program="tunnel_fabric")


CASES = {"tunnel-" + name: case for name, case in played(
    one_message_reaches_the_second_device, one_message_reaches_no_device, rules_of_the_tunnel, refused_by_a_device, two_devices_with_one_script,
    two_devices_by_turns, eight_devices, no_lines).items()}
CASES |= {"fabric-" + name: case for name, case in refusals().items()}
CASES["fabric-words"] = words()
