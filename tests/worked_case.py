"""The worked case of docs/FORMATS.md, sections 6 and 7: bytes and expected lines are read from the document itself.

Only how a feed is altered is written here, under the words in which the document's table names the alteration.
"""
import os
import re
import struct

from statement_tools import ROOT, demand


def section(text, number):
    return text.split(f"\n## {number}. ")[1].split("\n## ")[0]


def blocks(text):
    return [block.strip("\n").split("\n") for block in text.split("```")[1::2]]


def dump_bytes(lines):
    """The bytes of a dump: an offset, pairs, and perhaps a remark after three blanks."""
    pairs = (line.split("  ", 1)[1].split("   ")[0] for line in lines)
    return bytes.fromhex(" ".join(pairs))


def record(kind, n, m, *words):
    return struct.pack(f"<BHH{len(words)}I", kind, n, m, *(word % 2**32 for word in words))


def market(price, target, thirty):
    return [price] + 14 * [0] + [target] + 14 * [0] + [7, 0, 0, 0, 0, thirty]


def opening(hour):
    return record(3, 0, 0, hour)


def clearing(price=300, target=100, thirty=100):
    return record(4, 15, 1, *market(price, target, thirty))


def interval(seconds=3_600, price=400, target=100, thirty=90):
    return record(5, 15, 1, seconds, *market(price, target, thirty))


def closing(gross=50, station=0, exports=0):
    return record(6, 0, 1, 9, gross, station, exports)


ENROLMENTS = struct.pack("<BHHIHHII", 1, 0, 0, 7, 0, 1, 1_000, 10) + record(2, 0, 0, 9)
TWO_MORE_HOURS = b"".join([
    opening(6), clearing(0, 120, 120), interval(300, 650, 120, 100), interval(3_300, 0, 120, 100), closing(),
    opening(7), clearing(0, 120, 100), interval(1_200, 10, 120, 101), interval(2_400, 0, 120, 100), closing(60, 4, 6)])


def altered(feed, curves):
    """By the document's words: the feeds of each alteration, each with its curve book file."""
    start = ENROLMENTS + opening(5)
    parts = b"".join(interval(seconds) for seconds in (3_300, 301, 300))
    fourteen = struct.pack("<16H", 14, 4, *14 * [0])[:30] + curves[32:]
    return {
        "an empty feed, or the feed cut after 341 bytes": [(b"", curves), (feed[:341], curves)],
        "the feed cut after 342 to 361 bytes": [(feed[:length], curves) for length in range(342, 362)],
        "byte 30 (kind of the third record) is 8": [(feed[:30] + b"\x08" + feed[31:], curves)],
        "byte 40 (n of the clearing) is 0": [(feed[:40] + b"\x00" + feed[41:], curves)],
        "the clearing with SP1 2,501, before the case's own":
            [(start + clearing(2_501) + clearing() + interval() + closing(), curves)],
        "the clearing with thirty 201": [(start + clearing(thirty=201) + interval() + closing(), curves)],
        "the clearing left out": [(start + interval() + closing(), curves)],
        "the interval left out": [(start + clearing() + closing(), curves)],
        "three intervals as the case's, of 3,300, 301 and 300 seconds":
            [(start + clearing() + parts + closing(), curves)],
        "the closing a second time at the end": [(feed + closing(), curves)],
        "hour 5 opened again at the end": [(feed + opening(5), curves)],
        "curves.bin without its last byte, or empty": [(feed, curves[:-1]), (feed, b"")],
        "curves.bin without its last (empty) curve, so of 14 curves": [(feed, fourteen)],
    }


def worked_cases():
    """Name, feed, curve book file and expected standard output of every case."""
    with open(os.path.join(ROOT, "docs", "FORMATS.md"), encoding="utf-8") as file:
        text = file.read()
    dumps = blocks(section(text, 6))
    curves, feed = dump_bytes(dumps[0]), b"".join(map(dump_bytes, dumps[1:-1]))
    lines, more_lines = dumps[-1], blocks(section(text, 7))[0]
    made = ENROLMENTS + opening(5) + clearing() + interval() + closing()
    demand(made == feed, "FORMATS.md, section 6: the dump is not the case that its words describe")
    cases = [("the case", feed, curves, lines), ("two more hours", feed + TWO_MORE_HOURS, curves, lines + more_lines)]

    rows = re.findall(r"^\| (.*) \| (none|`.*`) \|$", section(text, 7), re.MULTILINE)
    alterations = altered(feed, curves)
    demand({name for name, _ in rows} == set(alterations), "FORMATS.md, section 7: its table and this list differ")
    for name, column in rows:
        expected = []
        for line in re.findall(r"`(.*?)`", column):
            expected += lines if line == ".." else [line]
        cases += [(name, *pair, expected) for pair in alterations[name]]
    return [(name, feed, curves, "".join(line + "\n" for line in expected).encode())
            for name, feed, curves, expected in cases]
