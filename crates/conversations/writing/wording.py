"""Words of the command line."""
from talk import *

HOSTS, ROUNDS, BLOCKS, GRANULES = 4, 256, 8, 256
LINES, MARKS, PLACES = 38137, 1022, 128

# What is left of the generated script, whatever its seed: each host has its extent of the last round and has cleared its log. In each round
# the manager's log was to take a record of each answer, and in each but the last one of each release; all but the first did not fit.
SUMMARY = [
    "dcd 1",
    *(f"host h{host} extents 1 granules {BLOCKS} log 0" for host in range(HOSTS)),
    f"fm log {PLACES} missed {HOSTS * ROUNDS + HOSTS * (ROUNDS - 1) - PLACES}",
    f"granules free {GRANULES - HOSTS * BLOCKS} dirty 0",
    f"end {LINES - MARKS}",
]


def generates(*runs):
    return Case(SUMMARY, runs=[run.split(" ") for run in runs])


def refuses(*runs):
    return Case(["usage: dcdsim [--mode serial|threads] [--gen N]"], runs=[run.split(" ") for run in runs], status=USAGE)


CASES = {
    "generated": generates("--gen 5", "--mode serial --gen 5", "--gen 5 --mode threads"),
    "generated-by-one-word": generates("--gen=5", "--gen=5 --mode=serial", "--mode=threads --gen=5"),
    "generated-by-18-digits": generates("--mode=serial --gen 000000000000000005", "--gen=000000000000000005 --mode threads"),
    "words-of-19-digits": refuses("--gen 0000000000000000005", "--mode serial --gen=0000000000000000005"),
    "words-of-two-seeds": refuses("--gen 1 --gen 1", "--gen=1 --mode=serial --gen=1"),
    "words-of-two-modes": refuses("--mode serial --mode threads", "--mode=serial --mode=serial", "--mode=serial --gen 1 --mode serial"),
    "words-of-an-unknown-mode": refuses("--mode fast", "--mode=fast", "--mode=Serial --gen 1", "--gen 1 --mode thread"),
    "words-of-another-kind": refuses("serial", "--threads", "--mode serial fast", "--gen 1 1"),
    "words-without-a-mode": refuses("--mode", "--mode=", "--mode --gen 1", "--gen 1 --mode", "--mode =serial"),
    "words-without-a-seed": refuses("--gen", "--gen=", "--gen --mode serial", "--mode serial --gen"),
    "words-without-a-number": refuses("--gen 5a", "--gen=-5", "--mode=serial --gen=5a"),
}
