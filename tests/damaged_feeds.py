#!/usr/bin/env python3
"""Small feeds, whole and damaged, and what a reader has to say of each.

    tests/damaged_feeds.py stdin     the set: for each feed its length (u32, lowest byte first) and its bytes
    tests/damaged_feeds.py stdout    a line for each feed: how many records are whole, then `end`, or the
                                     number and the offset of the refusal
    tests/damaged_feeds.py count     how many feeds, and how many end in which way

Both are worked out from the tables of docs/FORMATS.md, sections 1 and 2, and from nothing else.
"""
import collections
import struct
import sys

# kind: sizes n allowed, sizes m allowed, length of a record
TABLE = {
    1: (range(0, 1), range(0, 1), lambda n, m: 21),
    2: (range(0, 1), range(0, 1), lambda n, m: 9),
    3: (range(0, 1), range(0, 1), lambda n, m: 9),
    4: (range(1, 33), range(0, 129), lambda n, m: 5 + 8 * n + 24 * m),
    5: (range(1, 33), range(0, 129), lambda n, m: 9 + 8 * n + 24 * m),
    6: (range(0, 1), range(0, 257), lambda n, m: 5 + 16 * m),
    7: (range(0, 1), range(0, 1), lambda n, m: 5),
}
HEADER = 5
ENDS_N = (0, 1, 2, 31, 32, 33, 256, 65535)
ENDS_M = (0, 1, 127, 128, 129, 255, 256, 257, 65535)


def verdict(feed):
    """How many records are whole, and the refusal after them as (number, offset), or None at the end."""
    at = whole = 0
    while at < len(feed):
        left = len(feed) - at
        if left < HEADER:
            return whole, (1, at)
        kind, n, m = struct.unpack_from("<BHH", feed, at)
        if kind not in TABLE:
            return whole, (2, at)
        some_n, some_m, length = TABLE[kind]
        if n not in some_n or m not in some_m:
            return whole, (3, at)
        if left < length(n, m):
            return whole, (1, at)
        at += length(n, m)
        whole += 1
    return whole, None


def header(kind, n, m):
    return struct.pack("<BHH", kind, n, m)


class Maker:
    """Records with bodies of any bytes, by a generator of its own: the set must never change by itself."""

    def __init__(self):
        self.state = 1

    def below(self, limit):
        self.state = (self.state * 6364136223846793005 + 1442695040888963407) % 2**64
        return (self.state >> 33) % limit

    def one_of(self, things):
        return things[self.below(len(things))]

    def bytes(self, count):
        return bytes(self.below(256) for _ in range(count))

    def record(self, kind, n, m):
        return header(kind, n, m) + self.bytes(TABLE[kind][2](n, m) - HEADER)

    def small(self, kind=None):
        """A record with short lists."""
        kind = kind or self.one_of(list(TABLE))
        some_n, some_m, _ = TABLE[kind]
        return self.record(kind, self.one_of(some_n[:4]), self.one_of(some_m[:4]))

    def smalls(self, count):
        return b"".join(self.small() for _ in range(count))


def cut_records(make):
    """Each kind's record, cut after each byte of its header and after some of its body, first or after others."""
    for kind, (some_n, some_m, _) in TABLE.items():
        record = make.record(kind, some_n[-1] and 2, some_m[-1] and 3)
        long = len(record)
        for before in (b"", make.smalls(2)):
            for cut in sorted({*range(HEADER + 1), HEADER + 1, HEADER + 3, long // 2, long - 4, long - 1, long}):
                yield before + record[:cut]


def sizes(make):
    """Each kind with sizes at the ends of what is allowed and past them: header alone, whole, one byte short."""
    for kind, (some_n, some_m, length) in TABLE.items():
        for n in ENDS_N:
            for m in ENDS_M:
                yield header(kind, n, m)
                if n not in some_n or m not in some_m:
                    yield header(kind, n, m) + make.bytes(24)
                elif length(n, m) <= 1000 or n in (1, 32) and m in (128, 256) or kind == 6:
                    record = make.record(kind, n, m)
                    yield record
                    yield record[:-1]


def kinds(make):
    """Each byte as a kind, with sizes that some kind may have, and with sizes that none may."""
    for kind in range(256):
        yield header(kind, 0, 0) + make.bytes(30)
        yield make.small() + header(kind, 1, 1) + make.bytes(44)
        yield header(kind, 0, 300)


def lone_bytes():
    """Feeds of fewer bytes than a header has, also with bytes that are no kind."""
    for count in range(HEADER):
        for byte in (0, 1, 7, 8, 255):
            yield bytes([byte]) * count


def many(make):
    """Records after records, and then the end, bytes that are left over, or a refusal."""
    for count in (1, 2, 3, 7, 20):
        feed = make.smalls(count)
        yield feed
        for extra in (b"\0", b"\7\0", b"\7\0\0\0", b"\xff" * 4, bytes(5), bytes(40)):
            yield feed + extra
        for refused in (header(8, 0, 0), header(4, 33, 0), header(6, 1, 0), header(5, 32, 129), make.small(1)[:-1]):
            yield feed + refused
            yield feed + refused + make.smalls(2)
    yield header(7, 0, 0) * 40
    yield header(6, 0, 0) * 40
    yield header(7, 0, 0) * 40 + header(7, 0, 1) + header(7, 0, 0)


def altered(make):
    """Records after records, with a byte changed, put in or taken out."""
    for _ in range(250):
        feed = bytearray(make.smalls(1 + make.below(8)))
        for _ in range(1 + make.below(2)):
            at = make.below(len(feed))
            way = make.below(3)
            if way == 0:
                feed[at] = make.one_of((0, 1, 5, 6, 7, 8, 33, 255))
            elif way == 1:
                feed.insert(at, make.below(9))
            elif len(feed) > 1:
                del feed[at]
        yield bytes(feed)


def cases():
    make = Maker()
    yield b""
    yield from lone_bytes()
    yield from cut_records(make)
    yield from sizes(make)
    yield from kinds(make)
    yield from many(make)
    yield from altered(make)


def line(feed):
    whole, refusal = verdict(feed)
    return f"{whole} end" if refusal is None else f"{whole} {refusal[0]} {refusal[1]}"


def framed(feed):
    return struct.pack("<I", len(feed)) + feed


def part(name):
    """The bytes of one of the two files."""
    if name == "stdin":
        return b"".join(map(framed, cases()))
    return "".join(line(feed) + "\n" for feed in cases()).encode()


def main():
    asked = sys.argv[1] if len(sys.argv) == 2 else ""
    if asked in ("stdin", "stdout"):
        sys.stdout.buffer.write(part(asked))
    elif asked == "count":
        ways = collections.Counter(str(refusal[0]) if refusal else "end" for _, refusal in map(verdict, cases()))
        print(sum(ways.values()), dict(sorted(ways.items())))
    else:
        sys.exit(__doc__)


if __name__ == "__main__":
    main()
