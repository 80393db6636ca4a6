"""Explanations of printed texts, as docs/text.md says them, and frames that are refused. A frame is as journal_check takes it."""
from checking import MEMORY, frame, spelled
from talk import *
from using import CASES as USING

FIRST = USING["first"]
TAG = "00112233445566778899aabbccddeeff"


def explained(case, lines):
    """The text of a conversation, and its explanation."""
    return Case(lines, frame(case.script, spelled(case.text)), runs=(("explain",),), program="dcdtext")


def refused_frame(line, input):
    """An input that is not explained, and the line that says why."""
    return Case([line], input, runs=(("explain",),), status=REFUSED, program="dcdtext")


def changed(case, number, line):
    """The text of a conversation with another line of this number."""
    lines = list(case.text)
    lines[number - 1] = line
    return frame(case.script, spelled(lines))


BLOCK = f"extent 0+1M tag {TAG} sequence 1; room for 63 extents, 31 tags"
STOPPED = "stopped at line {}: no run of this script prints it".format
CASES = {
    "explained-first": explained(
        FIRST,
        [
            f"1  fm initiate-dc-add h0 region 0 contiguous length 1M tag {TAG}",
            "    Success",
            "2  h0 add-dc-response 0+1M",
            "    Success",
            f"3  fm initiate-dc-add h1 region 0 enable-shared-access tag {TAG}",
            "    Success",
            "4  h1 add-dc-response 0+1M",
            "    Success",
            "5  h0 store 8 7",
            "    stored",
            "6  h1 load 8",
            "    word 7",
            "In the logs:",
            f"    h0: record 1: Add Capacity, host 0, {BLOCK}",
            f"    h1: record 1: Add Capacity, host 1, {BLOCK}",
            f"    fm: record 1: Add Capacity Response, host 0, {BLOCK}",
            f"    fm: record 2: Add Capacity Response, host 1, {BLOCK}",
            "At the end:",
            "    h0: extents 1, granules 1, records in its log 1",
            "    h1: extents 1, granules 1, records in its log 1",
            "    fm: records in its log 2, missed 0",
            "    granules: free 3, dirty 0",
        ],
    ),
    "explained-memory": explained(
        MEMORY,
        [
            "1  fm initiate-dc-add h0 region 0 prescriptive 2M+2M mtag 1",
            "    Success",
            "2  h0 add-dc-response 2M+2M mtag 2",
            "    Success",
            "3  h0 store 2M 7",
            "    stored",
            "4  h0 load 2M",
            "    word 7",
            "5  h0 release-dc 3M+1M mtag 5",
            "    Success",
            "6  h0 load 3M",
            "    refused: the host does not hold the address",
            "7  fm initiate-dc-release h0 region 0 prescriptive forced 2M+1M mtag 7",
            "    Success",
            "8  h0 load 2M",
            "    refused: the host does not hold the address",
            "9  scrub 16",
            "    granules zeroed 2",
            "10  h0 clear-event-records log 4 handles 1 2 mtag 10",
            "    Success",
            "11  fm clear-event-records log 4 handles 1 2 mtag 11",
            "    Success",
            "In the logs:",
            "At the end:",
            "    h0: extents 0, granules 0, records in its log 0",
            "    h1: extents 0, granules 0, records in its log 0",
            "    fm: records in its log 0, missed 0",
            "    granules: free 20, dirty 0",
        ],
    ),
    "explained-until-a-word": refused_frame(STOPPED(7), changed(FIRST, 7, "6 6 h1 ld 0000000000000008")),
    "explained-until-the-end": refused_frame(STOPPED(16), changed(FIRST, 16, "end 7")),
    "explained-no-text": refused_frame(STOPPED(1), frame(FIRST.script, b"")),
    "explained-cut": refused_frame(f"frame refused: it needs {4 + len(FIRST.script)} bytes and has {3 + len(FIRST.script)}", frame(FIRST.script, b"")[:-1]),
    "explained-nothing": refused_frame("frame refused: it needs 4 bytes and has 0", b""),
    "explained-no-script": refused_frame("script refused: 1 at 0", frame(b"DCDX", b"")),
}
