#!/usr/bin/env python3
"""The generated script of a seed, by the rules of docs/formats.md alone: ./generated.py SEED writes its bytes to standard output.

A run of them prints the entries that `dcdsim --gen SEED` leaves out, and then the same state. `./generated.py SEED hash` prints how many bytes
there are and their hash (FNV-1a of 64 bits), which crates/bytes_tests/src/generated.rt has of seed 5.
"""
import sys

sys.dont_write_bytecode = True
from dcds import *

BLOCK = 1 << 28
HOSTS, ROUNDS, BLOCKS = 4, 256, 8


def draws(seed):
    """Each draw: the state, moved on."""
    x = seed
    while True:
        x = (x * 6364136223846793005 + 1442695040888963407) % 2**64
        yield x


def generated(seed):
    """The bytes of the script."""
    drawn = draws(seed)
    parts = [head(HOSTS, [region(256, 64 * GIB, BLOCK, BLOCK, 0)], [0] * HOSTS)]
    for k in range(ROUNDS):
        extents = [((64 * h + 8 * (k % 8)) * BLOCK, BLOCKS * BLOCK) for h in range(HOSTS)]
        parts += [command(MANAGER, offer(h, PRESCRIPTIVE, 0, extents=[extents[h]])) for h in range(HOSTS)]
        parts.append(mark())
        for h in range(HOSTS):
            parts += [command(h, respond([extents[h]])), command(h, clear_events([k + 1]))]
            for _ in range(16):
                address, value = extents[h][0] + 8 * (next(drawn) % 2**28), next(drawn)
                parts += [store(h, address, value), load(h, address)]
        parts.append(mark())
        if k < ROUNDS - 1:
            parts += [command(h, give_back([extents[h]])) for h in range(HOSTS)]
            parts += [mark(), scrub(32), mark()]
    return b"".join(parts) + b"\0"


def hash_of(data):
    """FNV-1a of 64 bits."""
    value = 0xCBF29CE484222325
    for byte in data:
        value = (value ^ byte) * 0x100000001B3 % 2**64
    return value


if __name__ == "__main__":
    if len(sys.argv) not in (2, 3) or not sys.argv[1].isdigit():
        sys.exit("usage: generated.py SEED [hash]")
    script = generated(int(sys.argv[1]))
    if sys.argv[2:] == ["hash"]:
        print(len(script), f"{hash_of(script):016X}")
    else:
        sys.stdout.buffer.write(script)
