"""Cases for the program `sit`, made from fixed seeds and answered by sit.py.

    python3 reference/sit_cases.py > FILE

Every run prints the same lines. README.md tells the line format.
"""

import os
import random
import sys

sys.path.insert(0, os.path.dirname(os.path.abspath(__file__)))

import rules
from cases import LINE, ROW, changed, filler, hex_of, largest_file, line_record, rows_record, words
from histories import USUAL, KINDS, Run, admitted_binder, crowd, far_dues, happens, pick
from rules import Line, Rows
from sit import MOST_BYTES, sit

# Admitted: one component, and three.
ONE = rows_record([ROW])
THREE = rows_record([(8, 4, 2, 1)]) + line_record((16, 1, 8, 1)) + rows_record([(16, 6, 1, 1), (32, 8, 2, 1)])

# Some good lines: jobs arrive, run, are held, finished and cut.
GOOD = b"a 0 8\nt\nt\na 0 4\nt\nf 0\nt\nt\nt\na 1 9\nf 7\nt\n"


# ---------------------------------------------------------------- files


def faulty_files():
    """Files with each fault, at several places."""
    yield b""
    for data in (b"\x00", b"\x0a\x00\x01", words(10, 1), words(12, 1) + words(*ROW), words(65535, 2)):
        yield data
        yield filler(1) + data
        yield filler(7) + data
    for kind in (0, 3, 258, 65535):
        yield words(10, kind) + words(*ROW)
        yield filler(3) + words(10, kind) + words(*ROW)
    for length in (0, 1, 2, 9, 11, 17):
        yield words(length, 1) + bytes(20)
        yield filler(2) + words(length, 2) + bytes(20)
    yield words(74, 1) + bytes(72)
    for j in range(4):
        yield rows_record([changed(ROW, j, 65535)])
        yield rows_record([ROW, changed((16, 8, 1, 1), j, 0)])
        yield line_record(changed(LINE, j, 65535))
        yield filler(7) + line_record(changed(LINE, j, 65535))
    yield rows_record([ROW, ROW])
    yield THREE + rows_record([(64, 16, 8, 2), (32, 16, 8, 2)])
    yield filler(8) + b"\x00"
    yield filler(9)
    yield largest_file() + b"\x00"


def refused_files():
    """Accepted files whose binder is refused."""
    full, steep = Rows([(1, 1, 1, 1)]), Line(4096, 0, 4, 3)
    yield rows_record([(4, 4, 5, 1)])
    yield rows_record([(4096, 1, 1, 1)]) * 2
    yield rules.file_of([steep, steep])
    yield rules.file_of([Line(4096, 0, 4096, 4096), Line(4096, 0, 4096, 1)])
    yield line_record((1, 2, 1, 0))
    yield rules.file_of([full, full])
    yield largest_file()
    for length in (1, 2, 17, 4096):
        yield rules.file_of([full, Line(length, 1, 1, 0)])
    for length in (4097, 5000, 8191, 8192):
        yield rules.file_of([full, Line(length - 4096, 0, 4096, 1)])


def accepted_files():
    yield ONE
    yield line_record(LINE)
    yield THREE
    yield filler(8)
    yield rows_record([(1, 1, 1, 1)])
    yield line_record((1, 0, 1, 0))


# ---------------------------------------------------------------- lines of another form

EMPTY = [b"", b" ", b"  ", b"\t", b"\r", b"\x00", b"\x0b", b"\x0c", b"\xff", b"\xef\xbb\xbft"]
TICKS = [
    b"t ", b" t", b"t  ", b"\tt", b"t\t", b"t\r", b"\rt", b"T", b"tt", b"t t", b"t 0", b"t 1", b"t\x00", b"t\x0b", b"t.",
    b"s", b"u", b"tick", b"t;",
]
ARRIVES = [
    b"a", b"a ", b"a  ", b"a   ", b"a 0", b"a 0 ", b"a 0 8 ", b"a  0 8", b"a 0  8", b" a 0 8", b"a 0 8 1", b"a 0 8 t",
    b"a 0 8\r", b"a 0 8\t", b"a\t0\t8", b"a 0\t8", b"a\t0 8", b"A 0 8", b"a -0 8", b"a 0 -8", b"a +0 8", b"a 0 +8",
    b"a 0 0x8", b"a 0 8.0", b"a 0 8.", b"a 0,8", b"a 0, 8", b"a: 0 8", b"a0 8", b"a0 0 8", b"a 08", b"aa 0 8", b"b 0 8",
    b"` 0 8", b"a 1234567890 8", b"a 0 1234567890", b"a 0 0000000001", b"a 0000000000 8", b"a 0 00000000000000000008",
    b"a / 8", b"a 0 :", b"a : 8", b"a 0 /", b"a a 8", b"a 0 t", b"a 0 8\x00", b"a\xa00 8", b"a 0 \xb2", b"a 0 8_0",
    b"a 0 8\x85", b"a 0 1e1", b"arrive 0 8", b"0 8", b"a 4294967296 8", b"a 0 4294967304",
]
FINISHES = [
    b"f", b"f ", b"f  0", b"f 0 ", b"f 0  ", b"f 0 0", b" f 0", b"F 0", b"f -0", b"f -1", b"f +0", b"f 0\r", b"f\t0", b"f0",
    b"f 0000000000", b"f 1000000000", b"f 9999999999", b"f 18446744073709551616", b"f x", b"f 0x0", b"f /", b"f :",
    b"f 0:", b"f /0", b"e 0", b"g 0", b"ff 0", b"f \xb2", b"f \xd9\xa0", b"finish 0", b"f 0;", b"0", b"f 0 t",
]
OTHERS = [b"0", b"1 2", b"#", b"# t", b"job 0", b"admitted", b"-", b"x 1", b"z", b"q", b"\xe2\x84\xae"]


def unreadable_inputs():
    """Each such line alone, behind good ones, and last without a line end."""
    for line in EMPTY + TICKS + ARRIVES + FINISHES + OTHERS:
        yield line + b"\n"
        yield GOOD + line + b"\nt\nt\n"
        if line != b"":
            yield b"t\na 0 8\n" + line
    # One line too many, and none too few.
    for text in (b"\n", b"\n\n", b"t\n\n", b"t\n\nt\n", b"\nt\n", b"\nt", b"t\nt\n\n\n", b"t\r\n", b"a 0 8\r\nt\r\n",
                 b"a 0\n8\n", b"a\n0 8\n", b"f\n0\n", b"t \nt\n", b"t\n t\n", b"t\n\r\n", b"t\n ", b"t\n\x00"):
        yield text


# ---------------------------------------------------------------- lines that are read

READABLE = [
    b"", b"t", b"t\n", b"t\nt", b"a 0 8", b"a 0 8\n", b"f 0", b"f 0\n", GOOD, GOOD[:-1],
    b"a 000000000 000000008\nt\nf 000000000\nt\n",
    b"a 00 08\na 0 0000004\nt\nf 01\nf 00\nf 002\n",
    b"a 0 1\na 0 01\na 0 001\nt\nt\n",
    b"a 0 0\na 0 1\na 0 4096\na 0 4097\na 0 00\na 0 000004097\nt\n",
    b"a 999999999 999999999\na 0 999999999\na 999999999 8\nf 999999999\n",
    b"a 1 8\na 2 8\na 3 8\na 7 8\na 8 8\na 9 8\na 255 8\na 256 8\na 65536 8\nt\n",
    b"f 0\nf 1\na 0 3\nf 1\nf 0\nf 0\nf 95\nf 96\nf 97\n",
    b"a 0 2\nt\nt\nf 0\nt\nf 0\na 0 2\nt\nt\nt\nf 1\n",
    b"a 0 8\n" + b"t\n" * 12 + b"f 0\n",
    b"t\n" * 200,
    b"a 0 4\n" * 100 + b"t\n" * 8 + b"a 0 4\na 0 0\na 9 4\nf 95\nf 96\n",
    b"a 0 4096\n" * 3 + b"t\n" * 600 + b"f 0\nf 1\nf 2\n",
]


def line_text(rng, call):
    """A line that makes the call; numbers have some zeros in front."""
    def digits(value):
        plain = "%d" % min(value, 999999999)
        return "0" * rng.randrange(10 - len(plain)) + plain if happens(rng, 15) else plain
    if call[0] == "arrive":
        return "a %s %s\n" % (digits(call[1]), digits(call[2]))
    if call[0] == "finish":
        return "f %s\n" % digits(call[1])
    return "t\n"


def random_input(rng, make, calls):
    """A random binder's file and an input."""
    binder = admitted_binder(rng, pick(rng, KINDS))
    run = Run(binder)
    make(rng, run, calls)
    text = "".join(line_text(rng, call) for call, _, _ in run.events)
    return rules.file_of(binder.sheets), text.encode("ascii")


def damaged(rng, text):
    """The text with one byte more, less or changed."""
    at = rng.randrange(len(text))
    byte = bytes([pick(rng, [0, 9, 10, 10, 13, 32, 32, 43, 45, 48, 57, 58, 65, 97, 102, 116, 255, rng.randrange(256)])])
    way = rng.randrange(3)
    if way == 0:
        return text[:at] + text[at + 1:]
    return text[:at] + byte + text[at + (way == 1):]


def random_inputs():
    rng = random.Random(1111)
    for turn in range(96):
        yield random_input(rng, USUAL[turn % len(USUAL)], 20 + rng.randrange(50))
    for turn in range(80):
        file, text = random_input(rng, USUAL[turn % len(USUAL)], 20 + rng.randrange(40))
        yield file, damaged(rng, text)
    for turn in range(3):
        yield random_input(rng, crowd, 30)
    yield random_input(rng, far_dues, 20)


# ---------------------------------------------------------------- sizes


def up_to(size, line, rest=b""):
    """So many bytes: the line again and again, then as much of the rest as there is room for."""
    text = line * (size // len(line))
    return (text + rest)[:size]


def long_inputs():
    good, refused = THREE, rows_record([(4, 4, 5, 1)])
    over = MOST_BYTES + 1
    yield bytes(over), b"t\n"
    yield (good * 2000)[:over], b""
    yield good, up_to(over, b"t\n", b"t")
    yield b"", up_to(over, b"x")
    yield refused, up_to(over, b"a 0 8\n", b"t\nt\nt\n")
    yield bytes(over), up_to(over, b"\n")
    yield filler(8) + bytes(MOST_BYTES - len(filler(8))), b"t\n"
    yield words(MOST_BYTES - 2, 1) + bytes(MOST_BYTES - 4), b""
    yield good, up_to(MOST_BYTES, b"x")
    yield good, up_to(MOST_BYTES, b"\n")
    yield good, b"a 0 8\n" + up_to(MOST_BYTES - 6, b"f 000000000\n", b"t\nt\nt\nt\nt\nt\n")
    yield good, b"t\nt\n" + up_to(MOST_BYTES - 4, b"a 000000003 000000001\n", b"x" * 30)


# ---------------------------------------------------------------- all of it


def inputs():
    for n, file in enumerate(faulty_files()):
        yield file, (b"", GOOD, b"x\n", b"\n")[n % 4]
    for n, file in enumerate(refused_files()):
        yield file, (b"", GOOD, b"x\n", b"\n")[n % 4]
        yield file, GOOD
    for n, text in enumerate(unreadable_inputs()):
        yield (ONE, THREE)[n % 2], text
    for text in READABLE:
        for file in accepted_files():
            yield file, text
    yield from random_inputs()
    yield from long_inputs()


def main():
    for file, text in inputs():
        print("sit", hex_of(file), hex_of(text), hex_of(sit(file, text)))


if __name__ == "__main__":
    # The same line ends on every system.
    sys.stdout.reconfigure(newline="\n")
    main()
