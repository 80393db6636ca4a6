"""Scripts whose phases several passes have lines in. What a pass is told does not hang on when the others do their lines, nor does the state at the end."""
from dcds import *
from talk import lines_of

HOSTS, LANES = 4, 4


def device(lanes=None):
    """Four hosts with one region of 16 blocks of 1 MiB, of which each gets four."""
    return head(HOSTS, [region(1, 16 * MIB, MIB, MIB, 0)], [0] * HOSTS, lanes)


def block(host):
    return 4 * host * MIB, 4 * MIB


def shared_out():
    """Each host is offered its blocks, and all take them at once."""
    offers = [command(MANAGER, offer(host, PRESCRIPTIVE, 0, extents=[block(host)])) for host in range(HOSTS)]
    return [*offers, mark(), *(command(host, respond([block(host)])) for host in range(HOSTS)), mark()]


def words(host, lane, count):
    """A lane stores words in blocks of its host, and loads each."""
    start = block(host)[0] + lane * MIB
    return [line for n in range(count) for line in (store(host + 16 * lane, start + 8 * n, n), load(host + 16 * lane, start + 8 * n))]


def hosts_at_once():
    """The hosts use their blocks, ask for what they have and clear their logs; they give all back at once, and it is zeroed."""
    lines = shared_out()
    for _ in range(3):
        for host in range(HOSTS):
            lines += [*words(host, 0, 4), command(host, get_extents())]
        lines.append(mark())
    lines += [command(host, clear_events([1])) for host in range(HOSTS)] + [mark()]
    lines += [command(host, give_back([block(host)])) for host in range(HOSTS)] + [mark(), scrub(16)]
    return device() + b"".join(lines) + b"\0"


def lanes_at_once():
    """Four lanes of each host use words of their own."""
    lines = shared_out()
    for _ in range(3):
        lines += [line for host in range(HOSTS) for lane in range(LANES) for line in words(host, lane, 2)] + [mark()]
    return device(LANES) + b"".join(lines) + b"\0"


def all_at_once():
    """The manager asks and the sanitizer finds nothing dirty while the hosts load and store."""
    lines = shared_out()
    for _ in range(3):
        for host in range(HOSTS):
            lines += [*words(host, 0, 4), command(MANAGER, get_host_extents(host)), scrub(1)]
        lines.append(mark())
    return device() + b"".join(lines) + b"\0"


def one_hot_lane(loads):
    """Host 0 loads one word again and again while host 1 gives back a block whose granule is of the same shard."""
    own, other = (0, MIB), (16 * MIB, MIB)
    lines = [command(MANAGER, offer(host, PRESCRIPTIVE, 0, extents=[it])) for host, it in enumerate((own, other))] + [mark()]
    lines += [command(host, respond([it])) for host, it in enumerate((own, other))] + [mark()]
    hot = [load(0, 0)] * loads
    lines += hot[:loads // 10] + [command(1, give_back([other]))] + hot[loads // 10:]
    return head(2, [region(1, 32 * MIB, MIB, MIB, 0)], [0] * 2) + b"".join(lines) + b"\0"


SCRIPTS = {"hosts at once": hosts_at_once(), "lanes at once": lanes_at_once(), "all at once": all_at_once()}


def passes_by_phase(script):
    """How many passes have lines in each phase."""
    phases = [set()]
    for _, its_pass in lines_of(script):
        if its_pass is None:
            phases.append(set())
        else:
            phases[-1].add(its_pass)
    return [len(passes) for passes in phases]


def in_any_order(text):
    """A text but for the order of its entries and of the manager's records, which hang on when each pass did its lines."""
    entries, rest = [], []
    for line in text.split(b"\n"):
        number, _, entry = line.partition(b" ")
        if number.isdigit():
            entries.append(entry)
        else:
            rest.append(b"rec fm" if line.startswith(b"rec fm ") else line)
    return sorted(entries), rest
