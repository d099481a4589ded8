#!/usr/bin/env python3
"""Works out, from document 01 alone, what the lister must print.

  tests/listing.py             writes crates/lister/stdin and stdout, crates/listings/stdin and stdout
  tests/listing.py log OCTETS  a log of at least so many octets of mixed frames, on standard output
  tests/listing.py list        the listing of the log on standard input

Messages are taken apart by `messages.py`; the quantities are document 01's table in exact whole numbers and fractions.
"""
import random
import sys
from fractions import Fraction
from pathlib import Path

from messages import POINT, SHAPES, VELOCITIES, octets, read


def at_least(fraction):
    return -(-fraction.numerator // fraction.denominator)


def with_sign(negative, size):
    return -max(size, 1) if negative else size


def latitude(fields):
    return with_sign(fields["south"], at_least(Fraction(fields["latitude"] * 90 * 10**9, 2**23)))


def longitude(fields):
    return at_least(Fraction(fields["longitude"] * 360 * 10**9, 2**24))


def radius(code):
    return int(10000 * (Fraction(11, 10) ** code - 1))


def height(code):
    return int(45000 * (Fraction(41, 40) ** code - 1))


def unsure(code):
    return "-" if code == 255 else 1000 * code


def sure(code):
    return code or "-"


SAID = {
    "uncertainty": radius, "major": radius, "minor": radius, "height": height, "inner": lambda n: 5000 * n, "offset": lambda n: 2000 * n,
    "included": lambda n: 2000 * (n + 1), "orientation": lambda n: 1000 * n, "bearing": lambda n: 1000 * n, "speed": lambda n: 1000 * n,
    "unsure": unsure, "unsure up": unsure, "confidence": sure,
}


def quantities(layouts, kind, fields, points):
    """In layout order; a sign is its number's."""
    if layouts is SHAPES and kind == 5:
        return [len(points)] + [said for point in points for said in (latitude(point), longitude(point))]
    said = []
    for name, _ in layouts[kind]:
        if name == "latitude":
            said.append(latitude(fields))
        elif name == "longitude":
            said.append(longitude(fields))
        elif name == "altitude":
            said.append(with_sign(fields["depth"], 1000 * fields["altitude"]))
        elif name == "vertical":
            said.append(with_sign(fields["down"], 1000 * fields["vertical"]))
        elif name in SAID:
            said.append(SAID[name](fields[name]))
    return said


def line(kind, message):
    layouts = VELOCITIES if kind else SHAPES
    answer, record = read(layouts, message)
    if answer:
        return str(answer)
    return " ".join(map(str, [0, record[0]] + quantities(layouts, *record)))


def listing(log):
    lines, at, number = [], 0, 0
    while at < len(log):
        head = log[at:at + 4]
        size = int.from_bytes(head[:2], "big")
        if len(head) < 4 or not 2 <= size <= 93 or head[2] != 1 or head[3] > 1 or at + 2 + size > len(log):
            lines.append("%d - 11" % (number + 1))
            break
        number += 1
        lines.append("%d %d %s" % (number, head[3], line(head[3], log[at + 4:at + 2 + size])))
        at += 2 + size
    lines.append("end %d" % number)
    return "".join(text + "\n" for text in lines)


def frame(kind, message):
    return (len(message) + 2).to_bytes(2, "big") + bytes([1, kind]) + message


LOW = {"orientation": 180, "offset": 180, "included": 180, "bearing": 360, "confidence": 101}


def message(random, layouts, kind, choose):
    """A message that is read; `choose(limit)` picks each number."""
    if layouts is SHAPES and kind == 5:
        count = 3 + choose(13)
        return octets(format(5, "04b") + format(count, "04b") + "".join(format(choose(1 << width), "0%db" % width) for _ in range(count) for _, width in POINT))
    bits = format(kind, "04b")
    for name, width in layouts[kind]:
        bits += format(random.getrandbits(width) if name == "spare" else choose(LOW.get(name, 1 << width)), "0%db" % width)
    return octets(bits)


KINDS = [(0, SHAPES, kind) for kind in (0, 1, 3, 5, 8, 9, 10)] + [(1, VELOCITIES, kind) for kind in range(4)]


def anything(random):
    which, layouts, kind = random.choice(KINDS)
    made = message(random, layouts, kind, random.choice([random.randrange, lambda n: random.choice([0, 1 % n, n - 1])]))
    if random.random() < 0.1:
        made = bytearray(made)
        made[random.randrange(len(made))] ^= 1 << random.randrange(8)
        made = bytes(made[:random.choice([len(made), len(made), len(made) - 1])])
    return frame(which, made)


EXAMPLE = bytes.fromhex("00090100004000 00C00000 000401001040 0006010101 2C005A".replace(" ", ""))


def every():
    """Every type with least and greatest codes, every refusal of both kinds, L = 2, and then enough to fill buffers."""
    maker = random.Random(23032)
    log = EXAMPLE
    for which, layouts, kind in KINDS:
        for choose in (lambda n: 0, lambda n: 1 % n, lambda n: n - 1, lambda n: n // 2):
            log += frame(which, message(maker, layouts, kind, choose))
    for count in range(3, 16):
        log += frame(0, message(maker, SHAPES, 5, lambda n: count - 3 if n == 13 else maker.randrange(n)))
    for wrong in ("", "20", "50", "5f", "00", "4f0000", "30" + "00" * 8 + "b400", "30" + "00" * 9 + "65", "a0" + "00" * 9 + "b40000", "a0" + "00" * 10 + "b400",
                  "90" + "00" * 10 + "ff0000", "10" + "00" * 8, "5" + "2" + "00" * 12, "53" + "00" * 17, "f0" + "00" * 6):
        log += frame(0, bytes.fromhex(wrong))
    for wrong in ("", "40", "00", "01680000", "0168000000", "1168000000", "f0000000", "3000000000000", "30000000000000"):
        log += frame(1, bytes.fromhex(wrong if len(wrong) % 2 == 0 else wrong + "0"))
    log += frame(0, bytes([0] * 91)) + frame(1, bytes([255] * 91))
    while len(log) < 70000:
        log += anything(maker)
    return log


def broken():
    """Short logs, each broken in one way, or not at all."""
    one = frame(0, bytes.fromhex("00400000c00000"))
    yield b""
    yield EXAMPLE
    yield frame(0, b"")
    yield frame(1, b"")
    for tail in ("0000", "0001", "005e", "ffff", "00000100", "00010100", "005e0100", "ffff0100", "00090000", "00090200", "00090102", "000901ff", "00", "0009", "000901", "00090100", "0009010000400000c000"):
        yield bytes.fromhex(tail)
        yield one + bytes.fromhex(tail)
    yield one + bytes.fromhex("000900") + one
    yield one + frame(2, b"") + one
    yield frame(0, bytes(91)) + bytes.fromhex("005e0100") + bytes(92)


def main(words):
    if words[:1] == ["log"]:
        maker = random.Random(3)
        size = 0
        while size < int(words[1]):
            piece = b"".join(anything(maker) for _ in range(1000))
            size += len(piece)
            sys.stdout.buffer.write(piece)
        return
    if words[:1] == ["list"]:
        sys.stdout.write(listing(sys.stdin.buffer.read()))
        return
    crates = Path(__file__).resolve().parent.parent / "crates"
    log = every()
    (crates / "lister/stdin").write_bytes(log)
    (crates / "lister/stdout").write_text(listing(log))
    logs = list(broken())
    (crates / "listings/stdin").write_bytes(b"".join(len(log).to_bytes(2, "big") + log for log in logs))
    (crates / "listings/stdout").write_text("".join(listing(log) for log in logs))


if __name__ == "__main__":
    main(sys.argv[1:])
