"""Cases for Yampeak, made from fixed seeds and answered by rules.py.

    python3 reference/cases.py > FILE

Every run prints the same lines. README.md tells the line format.
"""

import os
import random
import sys

sys.path.insert(0, os.path.dirname(os.path.abspath(__file__)))

import rules
from rules import Line, Rows

POWERS = [1, 2, 4, 8, 16, 32, 64, 128, 256, 512, 1024, 2048, 4096]
TOP32 = 4294967295


# ---------------------------------------------------------------- small helpers


def pick(rng, things):
    """One of a list of things."""
    return things[rng.randrange(len(things))]


def mix(rng, things):
    """The same things in another order."""
    left = list(things)
    out = []
    while left:
        out.append(left.pop(rng.randrange(len(left))))
    return out


def hex_of(data):
    return data.hex().upper() if len(data) > 0 else "-"


def words(*values):
    """The bytes of two-byte numbers."""
    out = bytearray()
    for v in values:
        out.append(v % 256)
        out.append(v // 256)
    return bytes(out)


def rows_record(rows):
    """A record of kind 1 whose fields may be anything."""
    out = words(2 + 8 * len(rows), 1)
    for row in rows:
        out += words(*row)
    return out


def line_record(line):
    """A record of kind 2 whose fields may be anything."""
    return words(10, 2) + words(*line)


class Files:
    """A list of files without doubles, in the order of adding."""

    def __init__(self):
        self.all = []
        self.seen = set()

    def add(self, data):
        data = bytes(data)
        if data not in self.seen:
            self.seen.add(data)
            self.all.append(data)

    def add_sheets(self, sheets):
        self.add(rules.file_of(sheets))


# ---------------------------------------------------------------- random sheets


def small_or_edge(rng, low, high):
    """A number from low to high: an end, small, near the top, a power of two, or any."""
    way = rng.randrange(6)
    if way == 0:
        return low
    if way == 1:
        return high
    if way == 2:
        return low + rng.randrange(min(8, high - low + 1))
    if way == 3:
        return high - rng.randrange(min(8, high - low + 1))
    if way == 4:
        p = pick(rng, POWERS)
        return p if low <= p <= high else low
    return low + rng.randrange(high - low + 1)


def wild_rows(rng, count):
    """Rows with fields from the whole range."""
    rows = {}
    while len(rows) < count:
        t = pick(rng, POWERS)
        d = small_or_edge(rng, 1, t)
        c = small_or_edge(rng, 1, 4096)
        n = small_or_edge(rng, 1, 16)
        rows[(d, t, c)] = n
    return Rows([(t, d, c, rows[(d, t, c)]) for d, t, c in sorted(rows)])


def wild_line(rng):
    q = pick(rng, POWERS)
    return Line(small_or_edge(rng, 1, 4096), small_or_edge(rng, 0, 4096), q, small_or_edge(rng, 0, q))


def wild_sheet(rng, most_rows):
    if rng.randrange(2) == 0:
        return wild_rows(rng, 1 + rng.randrange(most_rows))
    return wild_line(rng)


def light_rows(rng, count):
    """Rows with long periods and little work."""
    rows = {}
    while len(rows) < count:
        t = pick(rng, POWERS[5:])
        d = t - rng.randrange(1 + t // 2)
        c = 1 + rng.randrange(1 + t // 64)
        n = 1 + rng.randrange(2)
        rows[(d, t, c)] = n
    return Rows([(t, d, c, rows[(d, t, c)]) for d, t, c in sorted(rows)])


def light_line(rng):
    """A line with little work."""
    q = pick(rng, POWERS[3:])
    d = 64 + rng.randrange(4096 - 64 + 1)
    return Line(d, rng.randrange(1 + d // 16), q, rng.randrange(1 + q // 8))


def light_sheet(rng):
    if rng.randrange(2) == 0:
        return light_rows(rng, 1 + rng.randrange(3))
    return light_line(rng)


# ---------------------------------------------------------------- valid files


def valid_files(files):
    # Every field of both kinds at its ends.
    for t in POWERS:
        files.add_sheets([Rows([(t, 1, 1, 1)])])
        files.add_sheets([Rows([(t, t, t, 1)])])
        files.add_sheets([Rows([(t, t, 4096, 16)])])
    for q in POWERS:
        files.add_sheets([Line(1, 0, q, 0)])
        files.add_sheets([Line(1, 0, q, q)])
        files.add_sheets([Line(1, 1, q, q)])
        files.add_sheets([Line(4096, 4096, q, q - 1)])
    for n in range(1, 17):
        files.add_sheets([Rows([(16, 16, 1, n)])])
        files.add_sheets([Rows([(4096, n, 1, 16)])])
    for rows in ([(1, 1, 4096 - 7 + i, 16) for i in range(8)],
                 [(4096, 4089 + i, 4096, 16) for i in range(8)],
                 [(8, 1 + i, 1, 1) for i in range(8)]):
        files.add_sheets([Rows(rows)])
    files.add_sheets([Line(1, 4096, 1, 1)] * 8)
    files.add_sheets([Line(4096, 0, 4096, 0)] * 8)
    files.add_sheets([Rows([(1, 1, 4096 - 7 + i, 16) for i in range(8)])] * 8)

    for data in always_asked():
        files.add(data)

    rng = random.Random(101)
    # One to eight records of both kinds, any fields.
    for count in range(1, 9):
        for turn in range(9):
            files.add_sheets([wild_sheet(rng, 3) for _ in range(count)])
    # Each row count, beside other records.
    for count in range(1, 9):
        for turn in range(3):
            files.add_sheets([wild_rows(rng, count)])
        files.add_sheets([wild_line(rng), wild_rows(rng, count)])
        files.add_sheets([wild_rows(rng, count), wild_line(rng)])
    # A few large ones.
    for turn in range(2):
        files.add_sheets([wild_rows(rng, 8) for _ in range(8)])
    # Little work, so that most of them are admitted.
    for count in range(1, 9):
        for turn in range(9):
            files.add_sheets([light_sheet(rng) for _ in range(count)])


# ---------------------------------------------------------------- the edge of admission


def slacks(sheets):
    """The slack at each length from 1 to 8,192; the item at 0 is not used."""
    out = [0]
    for length in range(1, 8193):
        total = 0
        for sheet in sheets:
            total += sheet.bound(length)
        out.append(length - total)
    return out


def most_budget(slack, t, d):
    """The greatest C of a row (t, d, C, 1) that fits beside what has this slack."""
    best = None
    for length in range(d, 8193):
        fit = slack[length] // ((length - d) // t + 1)
        if best is None or fit < best:
            best = fit
    return best


def most_burst(slack, d, q, r):
    """The greatest b of a line (d, b, q, r) that fits beside what has this slack."""
    best = None
    for length in range(d, 8193):
        fit = slack[length] - r * (length - d) // q
        if best is None or fit < best:
            best = fit
    return best


def edge_files(files):
    lengths = [1, 2, 3, 5, 17, 100, 1023, 1024, 2047, 2048, 2049, 4094, 4095, 4096,
               4097, 4098, 4099, 5000, 6143, 6144, 6145, 8189, 8190, 8191, 8192]
    full_sheets = [
        Rows([(1, 1, 1, 1)]),
        Rows([(2, 1, 1, 1), (2, 2, 1, 1)]),
        Line(1, 1, 1, 1),
        Line(1, 1, 4096, 4096),
    ]
    # Sheets that take every tick.
    for full in full_sheets:
        files.add_sheets([full])
        files.add_sheets([Line(4096, 0, 1, 0), full])
        files.add_sheets([full, Line(4096, 0, 4096, 1)])
        files.add_sheets([full, full])
    files.add_sheets([Rows([(8, d, 1, 1)]) for d in range(1, 9)])
    files.add_sheets([Rows([(8, d, 1, 1)]) for d in range(8, 0, -1)])
    files.add_sheets([Rows([(8, d, 1, 1)]) for d in (1, 2, 3, 4, 4, 6, 7, 8)])
    # One unit too many, first at a chosen length.
    for length in lengths:
        for full in full_sheets:
            if length <= 4096:
                files.add_sheets([full, Line(length, 1, 1, 0)])
                files.add_sheets([Rows([(4096, length, 1, 1)]), full])
            else:
                files.add_sheets([full, Line(length - 4096, 0, 4096, 1)])
        if length <= 4096:
            # One row or one line alone: a slack of 1, of 0, and an excess of 1.
            for c in (length - 1, length, length + 1):
                if 1 <= c <= 4096:
                    files.add_sheets([Rows([(4096, length, c, 1)])])
                    files.add_sheets([Line(length, c, 1, 0)])
                    files.add_sheets([Line(length, c, 1, 1)])
        else:
            # A line that takes every tick from its deadline on, with a slack of 1, 0.
            for short in (1, 0):
                for d in (2, 64, 4095, 4096):
                    files.add_sheets([Line(d, d - short, 1, 1), Line(length - 4096, 0, 4096, 1)])
                    files.add_sheets([Line(length - 4096, 0, 4096, 1), Line(d, d - short, 2, 2)])
    # Full at 4,096 and one too many at 8,192 or just below.
    for d in (4093, 4094, 4095, 4096):
        row = Rows([(4096, d, d, 1)])
        for r in range(0, 5):
            files.add_sheets([row, Line(d, 0, 4096, r)])
            files.add_sheets([Line(4096, 0, 4096, r), row])
    # Gains of 4,096 and 4,097 and around, with no excess up to 8,192.
    for d in (3072, 4095, 4096):
        for b in (0, 1, 1000):
            for q, r in ((4096, 0), (4096, 1), (4096, 2), (2048, 1), (1024, 1)):
                files.add_sheets([Line(d, b, 1, 1), Line(4096, 0, q, r)])
    for d in (4000, 4096):
        for r in (4094, 4095, 4096):
            files.add_sheets([Line(d, 0, 4096, r), Line(d, 0, 4096, 1)])
            files.add_sheets([Line(d, 0, 4096, r), Line(d, 0, 4096, 4096 - r)])
            files.add_sheets([Line(d, 0, 4096, r), Line(d, 0, 4096, 4097 - r)])
            files.add_sheets([Line(d, 0, 4096, r), Rows([(4096, d, 1, 1)])])
            files.add_sheets([Line(d, 0, 4096, r), Rows([(4096, d, 2, 1)])])
            files.add_sheets([Line(d, 0, 4096, r), Rows([(2048, 2048, 1, 1)])])
    for count in range(2, 9):
        # Together 4,096, 4,096 + count and less.
        part = 4096 // count
        files.add_sheets([Line(4096, 0, 4096, part)] * count)
        files.add_sheets([Line(4096, 0, 4096, part + 1)] * count)
        rest = 4096 - part * (count - 1)
        files.add_sheets([Line(4096, 0, 4096, part)] * (count - 1) + [Line(4096, 0, 4096, rest)])
        files.add_sheets([Line(4096, 0, 4096, part)] * (count - 1) + [Line(4096, 0, 4096, rest + 1)])
        files.add_sheets([Line(4096, 0, 4096, rest + 1)] + [Line(4096, 0, 4096, part)] * (count - 1))
    # Two lines that meet L exactly at 8,192, and their neighbours.
    for b, d in ((0, 4096), (1, 4096), (0, 4095), (1, 4095), (2, 4096)):
        files.add_sheets([Line(4096, 0, 1, 1), Line(d, b, 1, 1)])
        files.add_sheets([Line(d, b, 4, 4), Line(4096, 0, 2, 2)])
    for q, r in ((4, 3), (8, 7), (8, 5), (2, 1), (4096, 2049), (4096, 2048), (4096, 4095)):
        files.add_sheets([Line(4096, 0, q, r)] * 2)
        files.add_sheets([Line(4096, 0, q, r)] * 3)
    # Copies at the edge.
    for c, n in ((1, 16), (2, 16), (16, 16), (255, 16), (256, 16), (257, 15), (273, 15), (274, 15)):
        d = min(4096, c * n)
        for e in (d - 1, d):
            t = 4096
            files.add_sheets([Rows([(t, e, c, n)])])
            files.add_sheets([Rows([(t, e, c, n)]), Line(4096, 0, 4096, 4096 - min(4096, c * n))])

    # Random binders, filled up to a slack of 0 somewhere and then by 1 more.
    rng = random.Random(202)
    for turn in range(60):
        base = [light_sheet(rng) for _ in range(1 + rng.randrange(3))]
        if turn % 3 == 1:
            base.append(Line(4096 - rng.randrange(1000), 0, 1, 1))
        if turn % 3 == 2:
            q = pick(rng, POWERS[2:])
            base.append(Line(4096, rng.randrange(200), q, q - rng.randrange(1 + q // 4)))
            base.append(Line(4096 - rng.randrange(300), 0, 8, 1 + rng.randrange(5)))
        base = mix(rng, base)
        slack = slacks(base)
        if min(slack[1:]) < 0:
            files.add_sheets(base)
            continue
        at = rng.randrange(len(base) + 1)
        t = pick(rng, POWERS[6:])
        d = t - rng.randrange(t // 2)
        c = most_budget(slack, t, d)
        for value in (c, c + 1):
            if 1 <= value <= 4096:
                files.add_sheets(base[:at] + [Rows([(t, d, value, 1)])] + base[at:])
        q = pick(rng, POWERS[3:])
        r = rng.randrange(1 + q // 4)
        d = 2048 + rng.randrange(2049)
        b = most_burst(slack, d, q, r)
        for value in (b, b + 1):
            if 0 <= value <= 4096:
                files.add_sheets(base[:at] + [Line(d, value, q, r)] + base[at:])


# ---------------------------------------------------------------- damaged files

ROW = (8, 4, 2, 1)
LINE = (4, 3, 2, 1)


def filler(count):
    """This many good small records, of both kinds in turn."""
    out = b""
    for i in range(count):
        out += rows_record([(4096, 100 + i, 1, 1)]) if i % 2 == 0 else line_record((200 + i, 1, 4096, 1))
    return out


def good_rows(count):
    return [(64, 8 + i, 1 + i, 1 + i) for i in range(count)]


def changed(fields, j, value):
    """The fields with field j replaced."""
    out = list(fields)
    out[j] = value
    return tuple(out)


def damaged_structure(files):
    files.add(b"")
    # Single and few bytes.
    for data in (b"\x00", b"\x01", b"\x0a", b"\xff", b"\x0a\x00", b"\x00\x00", b"\x00\x00\x01",
                 b"\x0a\x00\x01", b"\xff\xff\xff"):
        files.add(data)
    # Every length beside both kinds and a wrong one, with enough bytes behind it and with too few.
    for kind in (1, 2, 3):
        for length in list(range(0, 29)) + [33, 34, 35, 65, 66, 67, 73, 74, 75, 82]:
            if kind == 3 and length > 12:
                continue
            body = line_record(LINE)[4:] if kind == 2 else b""
            if kind != 2:
                for row in good_rows(10):
                    body += words(*row)
            body = body + bytes(max(0, length - 2 - len(body)))
            whole = words(length, kind) + body[:max(0, length - 2)]
            files.add(whole)
            if length <= 28:
                files.add(filler(1) + whole)
                files.add(whole + line_record(LINE))
            if len(whole) > 4 and (length <= 18 or length % 8 == 2):
                files.add(whole[:-1])
    # Lengths whose high byte counts.
    for kind in (1, 2, 0):
        files.add(words(266, kind) + words(*ROW) + bytes(256))
        files.add(words(266, kind) + words(*ROW) + bytes(255))
        for length in (256, 266, 522, 2560, 32768, 32778, 65535, 65534):
            files.add(words(length, kind) + words(*ROW))
            files.add(filler(2) + words(length, kind) + words(*LINE))
    # Four bytes alone.
    for length in (0, 1, 2, 3, 10):
        for kind in (0, 1, 2, 3, 256, 65535):
            files.add(words(length, kind))
            files.add(filler(2) + words(length, kind))
            if kind in (1, 3):
                files.add(filler(7) + words(length, kind))
    # Unknown kinds, first and later.
    for kind in (0, 3, 4, 127, 128, 255, 256, 257, 258, 512, 513, 32768, 32769, 65281, 65535):
        record = words(10, kind) + words(*ROW)
        files.add(record)
        files.add(filler(1) + record)
        files.add(record + filler(1))
    for kind in (0, 3, 257, 65535):
        for before in (2, 5, 7):
            files.add(filler(before) + words(10, kind) + words(*LINE))
    # Good sheets named as the other kind.
    for before in (0, 1, 7):
        files.add(filler(before) + words(10, 2) + words(*ROW))
        files.add(filler(before) + words(10, 1) + words(*LINE))
        files.add(filler(before) + words(18, 2) + words(*ROW) + words(*ROW))
    # Bytes after the records.
    for count in range(1, 9):
        for extra in range(1, 6):
            files.add(filler(count) + bytes(extra))
            files.add(filler(count) + b"\x0a\x00\x01\x00\x08"[:extra])
    for extra in (b"\xff", b"\xff\xff\xff\xff", b"\x00\x00\x01\x00", bytes(12), b"\x0a\x00\x03\x00" + bytes(8)):
        files.add(filler(8) + extra)
    for count in (8, 9, 10, 17):
        files.add(filler(count))
        files.add(line_record(LINE) * count)
        files.add(rows_record([ROW]) * count)
    # Nine records with an earlier fault, and a fault in the ninth.
    files.add(rows_record([(3, 1, 1, 1)]) + filler(8))
    files.add(filler(7) + rows_record([(4, 5, 1, 1)]) + b"\x00")
    files.add(filler(7) + words(10, 9) + words(*ROW) + b"\x00")
    files.add(filler(7) + words(11, 1) + words(*ROW) + b"\x00")
    files.add(filler(8) + line_record((0, 0, 0, 0)))
    files.add(filler(8) + words(10, 7) + words(*ROW))
    # Large files with a byte more and a byte less.
    large = largest_file()
    files.add(large)
    files.add(large + b"\x00")
    files.add(large[:-1])


ROW_BAD = [
    (0, [0, 3, 5, 6, 7, 12, 24, 100, 255, 257, 1023, 4095, 4097, 6144, 8191, 8192, 16384, 32768, 65535]),
    (1, [0, 9, 10, 16, 255, 256, 260, 4097, 32768, 65535]),
    (2, [0, 4097, 4098, 8192, 32768, 32769, 65535]),
    (3, [0, 17, 18, 32, 255, 256, 257, 272, 4096, 32768, 65535]),
]
LINE_BAD = [
    (0, [0, 4097, 4098, 8192, 32768, 32772, 65535]),
    (1, [4097, 4098, 8192, 32768, 65535]),
    (2, [0, 3, 5, 6, 7, 258, 4095, 4097, 8192, 32768, 65535]),
    (3, [3, 4, 256, 257, 4097, 32768, 65535]),
]


def damaged_fields(files):
    # Every wrong value in a file of one record, and as a second record.
    for j, values in ROW_BAD:
        for value in values:
            files.add(rows_record([changed(ROW, j, value)]))
            files.add(line_record(LINE) + rows_record([(4, 2, 1, 1), changed(ROW, j, value)]))
    for j, values in LINE_BAD:
        for value in values:
            files.add(line_record(changed(LINE, j, value)))
            files.add(rows_record([ROW]) + line_record(changed(LINE, j, value)))
    # D just above T and r just above q, for each power of two.
    for p in POWERS:
        files.add(rows_record([(p, p + 1, 1, 1)]))
        files.add(line_record((1, 0, p, p + 1)))
        files.add(rows_record([(p - 1 if p not in (1, 2) else 0, 1, 1, 1)]))
        files.add(rows_record([(p + 1 if p > 1 else 3, 1, 1, 1)]))
        files.add(line_record((1, 0, p + 1 if p > 1 else 3, 0)))
    # Each field at each kind of place.
    for before in (0, 1, 4, 7):
        for count, i in ((1, 0), (2, 0), (2, 1), (3, 2), (8, 0), (8, 3), (8, 7)):
            for j, values in ROW_BAD:
                rows = good_rows(count)
                bad = values[0] if (before + i) % 2 == 0 else values[-1]
                rows[i] = changed(rows[i], j, bad)
                files.add(filler(before) + rows_record(rows) + (filler(1) if before in (0, 1) else b""))
        for j, values in LINE_BAD:
            for bad in (values[0], values[-1]):
                files.add(filler(before) + line_record(changed(LINE, j, bad)))
                if before < 7:
                    files.add(filler(before) + line_record(changed(LINE, j, bad)) + filler(1))
    # Two wrong fields: the first in file order is told.
    for j in range(4):
        for k in range(j + 1, 4):
            files.add(rows_record([changed(changed(ROW, j, 65535), k, 65535)]))
            files.add(rows_record([changed(changed(ROW, j, 0), k, 0)]))
            files.add(line_record(changed(changed(LINE, j, 65535), k, 65535)))
            files.add(rows_record([changed(ROW, k, 0), changed(ROW, j, 0)]))
            files.add(line_record(changed(LINE, k, 65535)) + line_record(changed(LINE, j, 65535)))
    # A wrong field and a later fault of the file.
    for later in (b"\x00", words(10, 5) + words(*ROW), words(12, 1) + words(*ROW), words(9, 2) + bytes(8)):
        files.add(rows_record([changed(ROW, 3, 17)]) + later)
        files.add(line_record(changed(LINE, 3, 3)) + later)
        files.add(rows_record([ROW, ROW]) + later)
        files.add(filler(1) + later)


def damaged_order(files):
    base = (64, 16, 8, 2)
    others = [
        (64, 16, 8, 2),      # the same
        (64, 16, 8, 3),      # the same but for n
        (64, 16, 8, 1),
        (64, 16, 7, 2),      # less by C
        (64, 16, 7, 16),
        (64, 16, 1, 2),
        (32, 16, 8, 2),      # less by T
        (32, 16, 4096, 16),
        (16, 16, 4096, 2),
        (64, 15, 8, 2),      # less by D
        (4096, 15, 4096, 16),
        (4096, 1, 4096, 2),
        (64, 16, 9, 1),      # and these come after
        (128, 16, 1, 1),
        (32, 17, 1, 1),
        (4096, 256, 1, 1),
        (256, 256, 1, 1),
    ]
    for other in others:
        files.add(rows_record([base, other]))
        files.add(rows_record([(1, 1, 1, 1), base, other]))
        files.add(filler(1) + rows_record([base, other]))
        files.add(rows_record([base, other]) + line_record(LINE))
        files.add(filler(7) + rows_record([(64, 1 + i, 1, 1) for i in range(6)] + [base, other]))
    # Each row of eight that is equal to or less than the one before.
    for i in range(1, 8):
        for how in range(4):
            rows = [(64, 10 + 2 * k, 5, 1) for k in range(8)]
            t, d, c, n = rows[i - 1]
            rows[i] = [(t, d, c, 2), (t, d, c - 1, n), (t // 2, d, 4096, n), (4096, d - 1, 4096, n)][how]
            files.add(rows_record(rows))
            if i in (1, 4, 7):
                files.add(filler(2) + rows_record(rows))
    # The numbers are compared as numbers, not as bytes.
    for a, b in (((512, 256, 1, 1), (512, 255, 1, 1)), ((512, 255, 1, 1), (512, 256, 1, 1)),
                 ((512, 3, 255, 1), (512, 3, 256, 1)), ((512, 3, 256, 1), (512, 3, 255, 1)),
                 ((128, 3, 1, 1), (256, 3, 1, 1)), ((256, 3, 1, 1), (128, 3, 1, 1))):
        files.add(rows_record([a, b]))
    # Order faults beside field faults: a row's fields come before its order.
    for j in range(4):
        files.add(rows_record([base, changed(base, j, 0)]))
        files.add(rows_record([base, base, changed(base, j, 0)]))
        files.add(rows_record([base, changed(base, j, 65535), base]))
        files.add(rows_record([changed(base, j, 0), base]))
    # The order holds inside one record only.
    files.add(rows_record([base]) + rows_record([base]))
    files.add(rows_record([base]) + rows_record([(1, 1, 1, 1)]))


def small_files():
    return [
        rows_record([ROW]),
        line_record(LINE),
        rows_record([(4, 2, 1, 1), (16, 4, 2, 1)]) + line_record((300, 3, 512, 10)),
        line_record((4096, 4096, 4096, 0)) + rows_record([(4096, 4096, 1, 16)]) + line_record((1, 0, 1, 0)),
    ]


def damaged_cuts(files):
    for data in small_files():
        for size in range(len(data)):
            files.add(data[:size])
    # The eighth record cut at each byte.
    data = filler(8)
    for size in range(len(filler(7)), len(data) + 1):
        files.add(data[:size])
    # The first bytes missing.
    data = small_files()[2]
    for first in range(1, 13):
        files.add(data[first:])


def damaged_bytes(files):
    rng = random.Random(303)
    for data in small_files():
        for at in range(len(data)):
            old = data[at]
            for new in (0, 255, old ^ 1, (old + 1) % 256, old ^ 128, old ^ 16, rng.randrange(256)):
                files.add(data[:at] + bytes([new]) + data[at + 1:])
            files.add(data[:at] + data[at + 1:])
            files.add(data[:at] + b"\x00" + data[at:])
    # One byte of a random valid file.
    for turn in range(120):
        sheets = [wild_sheet(rng, 3) for _ in range(1 + rng.randrange(4))]
        data = rules.file_of(sheets)
        at = rng.randrange(len(data))
        files.add(data[:at] + bytes([rng.randrange(256)]) + data[at + 1:])
    # Bytes without any plan, and short words without any plan.
    for turn in range(30):
        files.add(bytes(rng.randrange(256) for _ in range(1 + rng.randrange(24))))
        files.add(words(10, 1 + rng.randrange(2)) + words(*[rng.randrange(20) for _ in range(4)]))


# ---------------------------------------------------------------- questions and writing


def near_lengths(sheet):
    """Lengths at which the sheet's bound may change."""
    out = []
    if sheet.kind == 1:
        for t, d, c, n in sheet.rows:
            out += [d - 1, d, d + 1, d + t - 1, d + t, d + 4096 * t - 1, d + 4096 * t]
    else:
        d, b, q, r = sheet.fields()
        out += [d - 1, d, d + 1, d + q - 1, d + q, d + 2 * q + 1, d + q // max(1, r)]
    return out


def always_asked():
    """Files that are asked at every fixed length: the greatest sheets and small ones."""
    return [
        rules.file_of([Rows([(1, 1, 4096 - 7 + i, 16) for i in range(8)])]),
        rules.file_of([Line(1, 4096, 1, 1)]),
        rules.file_of([Line(1, 4096, 4096, 4095)]),
        rules.file_of([Rows([ROW]), Line(*LINE)]),
        rules.file_of([Rows([(4096, 4096, 4096, 16)]), Line(4096, 4096, 4096, 4096), Line(4096, 0, 1, 1)]),
    ]


def largest_file():
    """Eight records of eight rows: 544 bytes."""
    return rules.file_of([Rows([(4096, 4089 + i, 4096, 16) for i in range(8)])] * 8)


def ask_cases(accepted):
    rng = random.Random(404)
    fixed = [0, 1, 2, 4095, 4096, 4097, 8191, 8192, 8193, 65535, 65536, 2147483647, 2147483648,
             TOP32 - 4096, TOP32 - 1, TOP32]
    chosen = [data for data in accepted if len(data) <= 100]
    chosen = mix(rng, chosen)[:190]
    large = [data for data in accepted if len(data) > 100]
    chosen += mix(rng, large)[:20]
    lines = []
    for data in always_asked():
        sheets, _ = rules.read(data)
        for length in fixed:
            for k in range(len(sheets) + 1):
                lines.append((data, k, length))
    for data in chosen:
        sheets, _ = rules.read(data)
        count = len(sheets)
        for turn in range(5 if len(data) <= 100 else 3):
            k = rng.randrange(count)
            way = rng.randrange(4)
            if way == 0:
                length = pick(rng, fixed)
            elif way == 1:
                length = rng.randrange(TOP32 + 1)
            else:
                length = pick(rng, near_lengths(sheets[k]))
            lines.append((data, k, length))
        k = pick(rng, [count, count + 1, 7, 8, 9, 255, 256, 65536, 2147483648, TOP32])
        lines.append((data, k, pick(rng, fixed)))
    for data, k, length in lines:
        sheets, _ = rules.read(data)
        b = rules.bound_of(sheets, k, length)
        g = rules.gain_of(sheets, k)
        print("ask", hex_of(data), k, length, b, g)


def write_cases(accepted):
    rng = random.Random(505)
    chosen = mix(rng, [data for data in accepted if len(data) <= 100])[:60]
    chosen += mix(rng, [data for data in accepted if len(data) > 100])[:9]
    chosen.append(largest_file())
    for data in chosen:
        size = len(data)
        sizes = [0, size - 1, size, size + 1, rng.randrange(size), size + rng.randrange(100)]
        for s in sorted(set(sizes)):
            sheets, _ = rules.read(data)
            buffer = bytearray(b"\xaa" * s)
            number, value = rules.write(sheets, buffer)
            # What the rules promise of the buffer.
            if number == 0:
                assert bytes(buffer) == data + b"\xaa" * (s - size)
            else:
                assert bytes(buffer) == b"\xaa" * s
            print("write", hex_of(data), s, number, value)


# ---------------------------------------------------------------- task lists


def eight_keys():
    """Eight tasks that need eight rows."""
    return [(8191, 4096, 4096), (8191, 4095, 4096), (16, 16, 3), (16, 16, 5), (31, 1, 1), (4095, 17, 9),
            (1, 1, 1), (2, 2, 2)]


def rows_tasks(rng, keys, count):
    """Random tasks that round to the given (T, D, C)."""
    out = []
    for _ in range(count):
        t, d, c = pick(rng, keys)
        real_t = t + rng.randrange(t)
        real_d = min(real_t, d + rng.randrange(d))
        real_c = c - rng.randrange(max(1, c // 2))
        out.append((real_t, real_d, real_c))
    return out


def random_keys(rng, count):
    keys = []
    while len(keys) < count:
        t = pick(rng, POWERS)
        d = pick(rng, [p for p in POWERS if p <= t])
        key = (t, d, pick(rng, POWERS))
        if key not in keys:
            keys.append(key)
    return keys


def task_lists():
    rng = random.Random(606)
    lists = [[], [(10, 7, 3), (12, 5, 4)]]
    good = (10, 7, 3)

    # One task: each field at and around its ends, around powers of two.
    edges = [0, 1, 2, 3, 4, 5, 7, 8, 9, 4094, 4095, 4096, 4097, 8190, 8191, 8192, 8193, 16384, 32767, 32768, 65535]
    for v in edges:
        lists.append([(v, 1, 1)])
        lists.append([(8191, v, 1)])
        lists.append([(8191, 1, v)])
        lists.append([(v, v, v)])
        lists.append([(v, v + 1 if v < 65535 else v, 1)])
        if v > 0:
            lists.append([(v, v - 1, 1)])
    for p in POWERS:
        for v in (p - 1, p, p + 1):
            if v >= 1:
                lists.append([(v, v, v)])
                lists.append([(8191, v, v)])
                lists.append([(2 * v - 1, v, 4096)])

    # Lists that are too long or just not, also with faults inside.
    for count in (63, 64, 65, 66, 70):
        keys = random_keys(rng, 4)
        lists.append([keys[i % 4] for i in range(count)])
        lists.append([keys[i % 4] for i in range(count - 1)] + [(0, 0, 0)])
    lists.append([(0, 0, 0)] + [good] * 64)
    lists.append([good] * 65)
    lists.append([good] * 64)
    lists.append([(0, 0, 0)] * 70)
    lists.append([(8192, 1, 1)] + [good] * 63)

    # A wrong task at each of some places, each field.
    wrong = [(0, 1, 1), (8192, 1, 1), (65535, 1, 1), (8, 0, 1), (8, 9, 1), (8, 65535, 1), (8, 4, 0), (8, 4, 4097),
             (8, 4, 65535), (0, 0, 0), (8192, 8192, 4097), (8191, 8192, 1)]
    for bad in wrong:
        for before in (0, 1, 5, 15):
            lists.append([good] * before + [bad])
            lists.append([good] * before + [bad] + [good])
        lists.append([good, bad, (0, 0, 0), good])
    for bad in wrong[:6]:
        lists.append([pick(rng, eight_keys()) for _ in range(63)] + [bad])

    # A wrong task after one that finds no room: 18 is told.
    for bad in wrong:
        lists.append([good] * 17 + [bad])
        lists.append(eight_keys() + [(64, 64, 64), bad])
        lists.append(eight_keys() + [(64, 64, 64), good, bad, good])

    # The ninth row at each of some places.
    for gap in (0, 1, 2, 5, 10, 20, 40, 55):
        keys = eight_keys()
        again = [keys[i % 8] for i in range(gap)]
        lists.append(keys + again)
        lists.append(keys + again + [(64, 64, 64)])
        lists.append(mix(rng, keys + again) + [(64, 64, 64)])
        if gap < 40:
            lists.append(keys + again + [(64, 64, 64), (65, 65, 60), (128, 128, 128), keys[0]])
        # The new row differs from an old one in one field only.
        for near in ((8191, 2047, 4096), (4095, 4095, 4096), (8191, 4095, 2048), (16, 16, 9), (32, 16, 3)):
            if gap in (0, 5):
                lists.append(keys + again + [near])
    # The seventeenth copy at each of some places.
    for between in (0, 1, 3, 7, 15, 16):
        copies = [(16 + i % 16, 16, 3 + i % 2) for i in range(16)]
        others = [(1 + i % 8191, 1, 1) for i in range(between)] if between <= 7 else [(2, 2, 2)] * between
        lists.append(copies + others)
        lists.append(copies + others + [(31, 31, 4)])
        lists.append(others + copies + [(31, 31, 4)])
        lists.append(mix(rng, copies + others) + [(20, 20, 3), (20, 20, 4), (2, 2, 2)])
        lists.append(copies[:15] + others + [(31, 31, 4)])
    # Both causes of 19; the earlier one is told.
    lists.append(eight_keys() + [(1, 1, 1)] * 16 + [(64, 64, 64)])
    lists.append(eight_keys() + [(1, 1, 1)] * 15 + [(64, 64, 64)] + [(1, 1, 1)])
    lists.append(eight_keys() + [(1, 1, 1)] * 14 + [(64, 64, 64)] + [(1, 1, 1)] * 3)
    # Four rows of sixteen copies: all 64 tasks find room.
    lists.append([eight_keys()[i % 4] for i in range(64)])
    lists.append([eight_keys()[i // 16] for i in range(64)])
    lists.append([eight_keys()[i // 16] for i in range(63)] + [eight_keys()[0]])
    lists.append([eight_keys()[i % 8] for i in range(64)])

    # Random lists from few rows: many copies, now and then too many rows or copies.
    for turn in range(170):
        keys = random_keys(rng, 1 + rng.randrange(9))
        lists.append(rows_tasks(rng, keys, 1 + rng.randrange(24)))
    for turn in range(40):
        keys = random_keys(rng, 3 + rng.randrange(7))
        lists.append(rows_tasks(rng, keys, 25 + rng.randrange(40)))
    # The same D or the same D and T, so that the order goes on to T and C.
    for turn in range(40):
        d = pick(rng, POWERS[:8])
        ts = [p for p in POWERS if p >= d][:3]
        keys = [(pick(rng, ts), d, pick(rng, POWERS)) for _ in range(6)]
        lists.append(rows_tasks(rng, keys, 4 + rng.randrange(12)))
    # Random lists from the whole range and a little beyond.
    for turn in range(100):
        one = []
        for _ in range(1 + rng.randrange(10)):
            t = small_or_edge(rng, 1, 8191)
            one.append((t, small_or_edge(rng, 1, t), small_or_edge(rng, 1, 4096)))
        if turn % 4 == 0:
            at = rng.randrange(len(one))
            one[at] = changed(one[at], rng.randrange(3), pick(rng, [0, 4097, 8192, 65535]))
        lists.append(one)
    return lists


def make_cases():
    seen = set()
    for tasks in task_lists():
        if tuple(tasks) in seen:
            continue
        seen.add(tuple(tasks))
        line = ["make", len(tasks)]
        for task in tasks:
            line += task
        number, value = rules.from_tasks(tasks)
        line.append(number)
        if number == 0:
            line.append(len(value))
            for row in value:
                line += row
        else:
            line.append(value)
        print(*line)


# ---------------------------------------------------------------- all of it


def main():
    files = Files()
    valid_files(files)
    edge_files(files)
    damaged_structure(files)
    damaged_fields(files)
    damaged_order(files)
    damaged_cuts(files)
    damaged_bytes(files)
    accepted = []
    for data in files.all:
        sheets, fault = rules.read(data)
        if sheets is not None:
            accepted.append(data)
        print("read", hex_of(data), *fault)
        print("boot", hex_of(data), rules.boot(data))
    ask_cases(accepted)
    write_cases(accepted)
    make_cases()


if __name__ == "__main__":
    # The same line ends on every system.
    sys.stdout.reconfigure(newline="\n")
    main()
