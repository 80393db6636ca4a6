"""Texts that people write: those that say scripts, those that are refused, and what is printed for a script.

The bytes of a script are made by the functions of dcds, and what is told of a fault is that of docs/text.md. A stroke stands in a text where its
fault is told, and is no part of it.
"""
from talk import *

HEAD = ["script 1", "region 0 length 16M block 1M sizes 1M decode 256M sanitize", "host 0 bases 0"]
TWO_REGIONS = [
    "script 1",
    "region 0 length 16M block 1M sizes 1M decode 256M sanitize",
    "region 1 length 4M block 1M sizes 1M decode 256M handle 1 sanitize shareable",
    "host 0 bases 0 256M",
    "host 1 bases 256M 512M",
]
LANES = ["script 2 lanes 2", *HEAD[1:]]
# As many words as a message of a host has room for extents, and one more.
MOST_EXTENTS = (65535 - 12 - 8) // 24


def one_host(sizes=MIB, length=16 * MIB, lanes=None):
    """The head that HEAD and LANES say."""
    return head(1, [region(1, length, MIB, sizes, 0)], [0], lanes)


def text_case(lines, *script, start=None):
    """A text, and the script that it says: its head, its lines."""
    return Case(None, (one_host() if start is None else start) + b"".join(script) + b"\0", readable=spelled(lines))


def spelled(lines):
    return "".join(line + "\n" for line in lines)


def wrong(cause, lines, name=None):
    """A text whose fault is told at the stroke, as one of this name, or at the end of its last line."""
    marked = [(number, line.index("|") + 1) for number, line in enumerate(lines, 1) if "|" in line]
    line, column = marked[0] if marked else (len(lines) + 1, 1)
    words = ("to-script",) if name is None else ("to-script", name)
    called = "text" if name in (None, "-") else name
    text = spelled(it.replace("|", "") for it in lines)
    return Case([f"{called}:{line}:{column}: {cause}"], runs=(words,), status=REFUSED, program="dcdtext", readable=text)


def at_line(number, line, cause):
    """The head with another line."""
    lines = [*HEAD, "h0 load 0"]
    lines[number - 1] = line
    return wrong(cause, lines)


def behind(*lines, cause):
    """The head, and lines behind it."""
    return wrong(cause, [*HEAD, *lines])


def printed(lines, *script, start=None):
    """A script, and the one text that is printed for it."""
    return Case(lines, (one_host() if start is None else start) + b"".join(script) + b"\0", runs=(("to-text",),), program="dcdtext")


def refuses(*runs):
    return Case(["usage: dcdtext to-script [NAME] | to-text | explain"], runs=runs, status=USAGE, program="dcdtext")


# ---- texts that say scripts

FIRST = [
    "# Host 0 gets a block, uses it and loses it by force.",
    *TWO_REGIONS,
    "",
    "fm initiate-dc-add h0 region 0 prescriptive 2M+1M mtag 1   # line 1 of the script",
    "h0 add-dc-response 2M+1M mtag 2",
    "h0 store 2M 7",
    "h0 load 2M",
    "fm initiate-dc-release h0 region 0 prescriptive forced 2M+1M",
    "h0 load 2M                                                  # refused: not granted",
    "scrub 16",
]
SHARED_TAG = T.hex()
WORKED = {
    "text-first": text_case(
        FIRST,
        command(MANAGER, offer(0, PRESCRIPTIVE, 0, extents=[(2 * M, M)]), 1),
        command(0, respond([(2 * M, M)]), 2),
        store(0, 2 * M, 7),
        load(0, 2 * M),
        command(MANAGER, take(0, LISTED | FORCED, extents=[(2 * M, M)])),
        load(0, 2 * M),
        scrub(16),
        start=two_regions(),
    ),
    "text-query": text_case([*TWO_REGIONS, "h0 get-dc-configuration first 1 count 8 mtag 42"], command(0, get_configuration(8, 1), 42), start=two_regions()),
    "text-two-parts": text_case(
        [*HEAD, "fm initiate-dc-add h0 region 0 prescriptive 0+3M", "h0 add-dc-response more 0+2M", "h0 add-dc-response 1M+1M", "h0 add-dc-response 0+3M"],
        command(MANAGER, offer(0, PRESCRIPTIVE, 0, extents=[(0, 3 * M)])),
        command(0, respond([(0, 2 * M)], more=True)),
        command(0, respond([(M, M)])),
        command(0, respond([(0, 3 * M)])),
    ),
    "text-cut": text_case(
        [*HEAD, "fm initiate-dc-add h0 region 0 prescriptive 0+3M", "h0 add-dc-response 0+3M", "h0 release-dc 1M+1M", "h0 get-dc-extent-list count 10"],
        command(MANAGER, offer(0, PRESCRIPTIVE, 0, extents=[(0, 3 * M)])),
        command(0, respond([(0, 3 * M)])),
        command(0, give_back([(M, M)])),
        command(0, get_extents(10)),
    ),
    "text-shared-tag": text_case(
        [
            *TWO_REGIONS,
            f"fm initiate-dc-add h0 region 1 contiguous length 1M tag {SHARED_TAG}",
            "h0 add-dc-response 256M+1M",
            f"fm initiate-dc-add h1 region 1 enable-shared-access tag {SHARED_TAG}",
            "h1 add-dc-response 512M+1M",
            "h0 store 256M 9",
            "h1 load 512M",
            f"fm dc-add-reference {SHARED_TAG}",
            "h0 release-dc 256M+1M",
            "h1 release-dc 512M+1M",
            f"fm dc-remove-reference {SHARED_TAG}",
        ],
        command(MANAGER, offer(0, CONTIGUOUS, 1, M, T)),
        command(0, respond([(B, M)])),
        command(MANAGER, offer(1, SHARED, 1, 0, T)),
        command(1, respond([(C, M)])),
        store(0, B, 9),
        load(1, C),
        command(MANAGER, add_reference(T)),
        command(0, give_back([(B, M)])),
        command(1, give_back([(C, M)])),
        command(MANAGER, remove_reference(T)),
        start=two_regions(),
    ),
    "text-block-size": text_case(
        [
            "script 1",
            "region 0 length 128M block 1M sizes 1M,2M decode 256M sanitize",
            "host 0 bases 0",
            "fm set-dc-region-configuration region 0 block 2M sanitize",
            "fm initiate-dc-add h0 region 0 free length 1M",
            "fm initiate-dc-add h0 region 0 free length 2M",
            "fm set-dc-region-configuration region 0 block 1M",
        ],
        command(MANAGER, set_region(0, 2 * M)),
        command(MANAGER, offer(0, FREE, 0, M)),
        command(MANAGER, offer(0, FREE, 0, 2 * M)),
        command(MANAGER, set_region(0, M, sanitizes=False)),
        start=one_host(3 * M, 128 * M),
    ),
    "text-lanes": text_case(
        [
            *LANES,
            "fm initiate-dc-add h0 region 0 prescriptive 0+2M",
            "mark",
            "h0.0 add-dc-response 0+2M",
            "mark",
            "h0.0 store 0 5",
            "h0.1 store 0 6",
            "mark",
            "h0.1 load 0",
        ],
        command(MANAGER, offer(0, PRESCRIPTIVE, 0, extents=[(0, 2 * M)])),
        mark(),
        command(0, respond([(0, 2 * M)])),
        mark(),
        store(0, 0, 5),
        store(16, 0, 6),
        mark(),
        load(16, 0),
        start=one_host(lanes=2),
    ),
    "text-bytes": text_case(
        [
            *HEAD,
            "command h0 00 00 00 01 48 07 00 00 00 00 00 00 00 00 00 00 00 00 00",
            "command h0 00 00 00 00 56 00 00 00 00 00 00 00",
        ],
        command(0, (0x4801, bytes(7))),
        command(0, get_info()),
    ),
    "text-forms": text_case(
        [
            "\tscript\t1  # the version",
            "region 0 length 0x1000000 block 100000h sizes 1024K decode 10000000h sanitize",
            "host 0 bases 0x0",
            " # nothing",
            "h0 store 200000h 0xffffffffffffffff#all ones",
            "h0 store 0x2M 1023P\r",
            "",
            "h0 load 2097152",
            "command h0 000500 0048 020000 0000 0000 0802",
        ],
        store(0, 2 * M, 2**64 - 1),
        store(0, 2 * M, 1023 << 50),
        load(0, 2 * M),
        command(0, get_configuration(8, 2), 5),
    ),
    "text-no-lines": text_case(HEAD),
}

# ---- texts that are refused

NUMBER, KEYWORD = "out of form for a number", "expected `{}`".format
AT_END = [*HEAD[:2], "host 0 bases 1"]
FAULTS = {
    # a word that is missing, or another than the grammar has there
    "text-empty": wrong(KEYWORD("script"), []),
    "text-no-regions": wrong(KEYWORD("region"), [HEAD[0]]),
    "text-no-hosts": wrong(KEYWORD("host"), [*HEAD[:2], "|h0 load 0"]),
    "text-keyword": at_line(2, "region 0 |size 16M block 1M sizes 1M decode 256M", KEYWORD("length")),
    "text-keyword-missing": at_line(2, "region 0 length 16M block 1M sizes 1M|", KEYWORD("decode")),
    "text-order": at_line(2, "region 0 length 16M block 1M sizes 1M decode 256M shareable |sanitize", "expected the end of the line"),
    "text-version": at_line(1, "script |3", "expected version 1 or 2"),
    "text-number-missing": behind("h0 load|", cause="expected a number"),
    "text-number-missing-before-a-comment": behind("h0 load  |# where?", cause="expected a number"),
    "text-number-missing-before-a-return": behind("h0 load|\r", cause="expected a number"),
    "text-end": behind("h0 load 0 |0", cause="expected the end of the line"),
    "text-bases": at_line(3, "host 0 bases 0 |256M", "expected the end of the line"),
    "text-tag-missing": behind("fm dc-add-reference|", cause="expected a tag of 32 hexadecimal digits"),
    "text-host": behind("fm get-dc-region-extent-lists |0 count 1", cause="expected `h` and the number of a host"),
    "text-actor": behind("command |sz 00", cause="expected a host or `fm`"),
    "text-line": behind("|laod h0 0", cause="expected `mark`, `scrub`, `command`, a host or `fm`"),
    "text-command-of-a-host": behind("h0 |get-dcd-info", cause="expected `load`, `store` or a command of a host"),
    "text-command-of-the-manager": behind("fm |load 0", cause="expected a command of the Fabric Manager"),
    "text-add-policy": behind("fm initiate-dc-add h0 region 0 |best length 1M", cause="expected a policy of an add"),
    "text-release-policy": behind("fm initiate-dc-release h0 region 0 |free", cause="expected a policy of a release"),
    "text-bytes-missing": behind("command h0|", cause="expected pairs of hexadecimal digits"),
    "text-not-ascii": behind("h0 |l\u00f6ad 0  # \u00f6", cause="expected `load`, `store` or a command of a host"),
    "text-upper-case": behind("h0 |LOAD 0", cause="expected `load`, `store` or a command of a host"),
    # out of form
    "text-number": behind("h0 load |2m", cause=NUMBER),
    "text-number-with-a-sign": behind("h0 store 0 |-1", cause=NUMBER),
    "text-decode": at_line(2, "region 0 length 16M block 1M sizes 1M decode |100M", "out of form for a multiple of 256M"),
    "text-sizes": at_line(2, "region 0 length 16M block 1M sizes |1M,3M decode 256M", "out of form for powers of 2 with commas between them"),
    "text-extent": behind("h0 release-dc 0+1M |1M", cause="out of form for START+LENGTH"),
    "text-tag": behind("fm dc-remove-reference |0102", cause="out of form for a tag of 32 hexadecimal digits"),
    "text-bytes": behind("command h0 00 |0", cause="out of form for pairs of hexadecimal digits"),
    "text-no-lanes": at_line(1, "script 2 lanes |0", "out of form for 1 to 4 lanes"),
    # above its field
    "text-lanes-above": at_line(1, "script 2 lanes |5", "a number above 4"),
    "text-mtag-above": behind("fm get-dcd-info mtag |256", cause="a number above 255"),
    "text-word-above": behind("h0 store 0 |0x10000000000000000", cause="a number above 18446744073709551615"),
    "text-host-above": behind("fm get-dc-region-extent-lists |h65536 count 1", cause="a number above 65535"),
    # a host or a lane that the script does not have
    "text-no-such-host": behind("|h1 load 0", cause="no such host or lane"),
    "text-no-such-lane": wrong("no such host or lane", [*LANES, "h0.1 load 0", "|h0.2 load 0"]),
    # out of turn
    "text-region-out-of-turn": at_line(2, "region |1 length 16M block 1M sizes 1M decode 256M", "out of turn, the next number is 0"),
    "text-host-out-of-turn": wrong("out of turn, the next number is 1", [*HEAD, "host |2 bases 0"]),
    # the configuration, at the first word behind the hosts
    "text-config": wrong("the configuration is refused for the base of host 0, region 0", [*AT_END, "# behind the hosts", " |h0 load 0"]),
    "text-config-at-the-end": wrong("the configuration is refused for the base of host 0, region 0", AT_END),
    "text-config-length": wrong("the configuration is refused for the length of region 0", [HEAD[0], HEAD[1].replace("16M", "0x1080000"), HEAD[2]]),
    "text-config-block": wrong("the configuration is refused for the block sizes of region 0", [HEAD[0], HEAD[1].replace("block 1M", "block 2M"), HEAD[2]]),
    "text-config-granules": wrong("the configuration is refused for granules above 4096, 4097", [HEAD[0], HEAD[1].replace("16M", "0x1001M").replace("256M", "0x110000000"), HEAD[2]]),
    "text-config-overlap": wrong(
        "the configuration is refused for the base below the end of the region before it of host 0, region 1", [*TWO_REGIONS[:3], "host 0 bases 0 0"]
    ),
    # messages
    "text-message-short": behind("command h0 |00", cause="a message of fewer than 12 bytes, 1"),
    "text-message-not-request": behind("command h0 |01 00 00 00 48 02 00 00 00 00 00 00 08 00", cause="no request but category 1"),
    "text-message-length": behind("command h0 |00 00 00 00 48 03 00 00 00 00 00 00 08 00", cause="a header for 3 bytes of payload before 2"),
    "text-message-long": behind("h0 release-dc" + " 0+1" * MOST_EXTENTS + " |0+1", cause="more than a message has room for"),
    "text-lines": behind(*["mark"] * 65536, "|mark", cause="line 65537 of the script"),
    # the first of several
    "text-first-line": behind("h0 load |x", "h9 load 0", cause=NUMBER),
    "text-first-word": behind("|h9 load x y", cause="no such host or lane"),
    "text-word-before-config": wrong("expected `mark`, `scrub`, `command`, a host or `fm`", [*AT_END, "|hots 1 bases 0"]),
    # names
    "text-named": wrong(NUMBER, [*HEAD, "h0 load |x"], name="my.dcdt"),
    "text-named-by-a-line": wrong(NUMBER, [*HEAD, "h0 load |x"], name="-"),
}

# ---- the one text of a script

PRINTED = {
    "text-of-a-query": printed([*TWO_REGIONS, "h0 get-dc-configuration first 1 count 8 mtag 42"], command(0, get_configuration(8, 1), 42), start=two_regions()),
    "text-of-lanes": printed(
        [*LANES, "h0.0 load 0", "h0.1 load 0x18", "mark", "scrub 16"], load(0, 0), load(16, 24), mark(), scrub(16), start=one_host(lanes=2)
    ),
    "text-of-numbers": printed(
        [*HEAD, "h0 store 9 0xa", "h0 store 1K 1023K", "h0 store 1M 1023P", "h0 store 0x100400 1G", "h0 store 1T 0xffffffffffffffff"],
        store(0, 9, 10),
        store(0, 1 << 10, 1023 << 10),
        store(0, 1 << 20, 1023 << 50),
        store(0, (1 << 20) + (1 << 10), 1 << 30),
        store(0, 1 << 40, 2**64 - 1),
    ),
    "text-of-commands": printed(
        [
            *HEAD,
            "h0 get-event-records log 4",
            "h0 clear-event-records log 4 handles 1 2",
            "fm clear-event-records log 4 all",
            "h0 get-dc-extent-list count 10",
            "h0 add-dc-response more 2M+1M 5M+1M",
            "h0 add-dc-response",
            "h0 release-dc 2M+1M",
            "fm get-dcd-info",
            "fm get-host-dc-region-configuration h7 count 8",
            "fm set-dc-region-configuration region 0 block 2M sanitize",
            "fm get-dc-region-extent-lists h0 count 50",
            f"fm initiate-dc-add h0 region 0 free length 3M tag {SHARED_TAG}",
            "fm initiate-dc-add h0 region 0 policy 4 length 3M",
            "fm initiate-dc-release h0 region 0 prescriptive forced sanitize 2M+1M",
            f"fm initiate-dc-release h0 region 0 tag-based tag {SHARED_TAG}",
            "fm initiate-dc-release h0 region 0 flags 0x2",
            f"fm dc-add-reference {SHARED_TAG}",
            f"fm dc-remove-reference {SHARED_TAG}",
            "fm dc-list-tags count 84",
        ],
        command(0, get_events()),
        command(0, clear_events([1, 2])),
        command(MANAGER, clear_all()),
        command(0, get_extents(10)),
        command(0, respond([(2 * M, M), (5 * M, M)], more=True)),
        command(0, respond([])),
        command(0, give_back([(2 * M, M)])),
        command(MANAGER, get_info()),
        command(MANAGER, get_host_regions(7)),
        command(MANAGER, set_region(0, 2 * M)),
        command(MANAGER, get_host_extents(0)),
        command(MANAGER, offer(0, FREE, 0, 3 * M, T)),
        command(MANAGER, offer(0, 4, 0, 3 * M)),
        command(MANAGER, take(0, LISTED | FORCED | CLEAN, extents=[(2 * M, M)])),
        command(MANAGER, take(0, BY_TAG, tag=T)),
        command(MANAGER, take(0, 2)),
        command(MANAGER, add_reference(T)),
        command(MANAGER, remove_reference(T)),
        command(MANAGER, list_tags()),
    ),
    # an opcode that is none, a payload that is too short, a reserved bit, a listed extent with a tag of its own, a command of the other role
    "text-of-bytes": printed(
        [
            *HEAD,
            "command h0 00 00 00 04 48 00 00 00 00 00 00 00",
            "command h0 00 00 00 01 48 07 00 00 00 00 00 00 00 00 00 00 00 00 00",
            "command h0 00 00 00 01 01 06 00 00 00 00 00 00 04 02 00 00 00 00",
            "command fm 00 00 00 04 56 48 00 00 00 00 00 00 00 00 02 00"
            + " 00" * 24
            + " 01 00 00 00"
            + " 00" * 8
            + " 00 00 10"
            + " 00" * 5
            + "".join(f" {it:02x}" for it in T)
            + " 00" * 8,
            "command h0 00 00 00 00 56 00 00 00 00 00 00 00",
        ],
        command(0, (0x4804, b"")),
        command(0, (0x4801, bytes(7))),
        command(0, (0x0101, bytes([4, 2, 0, 0, 0, 0]))),
        command(MANAGER, offer(0, PRESCRIPTIVE, 0, extents=[(0, M, T)])),
        command(0, get_info()),
    ),
    "text-of-no-script": Case(["script refused: 1 at 0"], b"DCDX", runs=(("to-text",),), status=REFUSED, program="dcdtext"),
    "text-of-nothing": Case(["script refused: 4 at 0"], b"", runs=(("to-text",),), status=REFUSED, program="dcdtext"),
}

CASES = {
    **WORKED,
    **FAULTS,
    **PRINTED,
    "text-words": refuses((), ("to-scripts",), ("to-text", "NAME"), ("explain", "NAME"), ("to-script", "A", "B")),
}
