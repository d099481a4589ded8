#!/usr/bin/env python3
"""Works out, from document 01, what the program `coder` must print for the lines on standard input.

  python3 tests/coding.py < crates/coder/stdin | diff - crates/coder/stdout     nothing: the stored output is that

A quantity's code is looked for in document 01's sets: every code near it is tried, in whole numbers, and exactly one has it. A code's
quantity is looked for in the same sets. Only what a line is, and which are unreadable, is taken from docs/DECISIONS.md, "The coder's lines".
"""
import re
import sys

NINETY, HALF_TURN = 90 * 10**9, 180 * 10**9
SIGNED_64, SIGNED_32, UNSIGNED_32 = (-2**63, 2**63 - 1), (-2**31, 2**31 - 1), (0, 2**32 - 1)


class Refused(Exception):
    """With document 01's number."""


def unless(right, number):
    if not right:
        raise Refused(number)


# ---- document 01's sets: whether a code has a quantity, or a size


def has_latitude(n, size):
    return n * NINETY <= 2**23 * size < (n + 1) * NINETY or (n == 2**23 - 1 and size == NINETY)


def has_longitude(n, x):
    return n == -2**23 if x == HALF_TURN else n * 2 * HALF_TURN <= 2**24 * x < (n + 1) * 2 * HALF_TURN


def has_step(unit, last=None):
    return lambda n, r: unit * n <= r and (r < unit * (n + 1) or n == last)


def has_included(n, a):
    return 2000 * n < a <= 2000 * (n + 1)


def has_speed(last):
    return lambda n, h: (1000 * n - 500 <= h or n == 0) and (h < 1000 * n + 500 or n == last)


def radius(k):
    return 10000 * (11**k - 10**k) // 10**k


def height(k):
    return 45000 * (41**k - 40**k) // 40**k


# ---- the one code that has a quantity, the least that covers one, the least quantity that a code has


def near(n, low, high):
    n = min(max(n, low), high)
    return range(max(low, n - 2), min(high, n + 2) + 1)


def only(found):
    (one,) = found
    return one


def code_latitude(x):
    unless(abs(x) <= NINETY, 7)
    return int(x < 0), only(n for n in near(2**23 * abs(x) // NINETY, 0, 2**23 - 1) if has_latitude(n, abs(x)))


def code_longitude(x):
    unless(abs(x) <= HALF_TURN, 7)
    return (only(n for n in {*near(2**23 * x // HALF_TURN, -2**23, 2**23 - 1), -2**23} if has_longitude(n, x)),)


def code_by(has, unit, last, in_range=lambda a: True):
    def code(a):
        unless(in_range(a), 7)
        return (only(n for n in near(a // unit, 0, last) if has(n, a)),)
    return code


def code_signed(has, last):
    return lambda a: (int(a < 0), *code_by(has, 1000, last)(abs(a)))


def code_covering(covers, last):
    def code(r):
        unless(r <= covers(last), 8)
        return (min(k for k in range(last + 1) if r <= covers(k)),)
    return code


def code_confidence(c):
    unless(1 <= c <= 100, 7)
    return (c,)


def with_sign(s, size):
    """Below zero the least size is 1."""
    return -max(size, 1) if s else size


def report_latitude(s, n):
    unless(s in (0, 1) and 0 <= n < 2**23, 7)
    return with_sign(s, min(x for x in near(n * NINETY // 2**23, 0, NINETY) if has_latitude(n, x)))


def report_longitude(n):
    unless(-2**23 <= n < 2**23, 7)
    return min(x for x in near(n * HALF_TURN // 2**23, -HALF_TURN, HALF_TURN - 1) if has_longitude(n, x))


def report_signed(last):
    def report(s, n):
        unless(s in (0, 1) and 0 <= n <= last, 7)
        return with_sign(s, 1000 * n)
    return report


def report_by(quantity, last, above=7):
    """A number below zero is no code; one above the last may have a number of its own."""
    def report(n):
        unless(0 <= n, 7)
        unless(n <= last, above)
        return quantity(n)
    return report


BITS_8, BITS_15, BITS_16 = 2**8 - 1, 2**15 - 1, 2**16 - 1
FIELDS = {
    "latitude": (SIGNED_64, code_latitude, report_latitude),
    "longitude": (SIGNED_64, code_longitude, report_longitude),
    "uncertainty": (UNSIGNED_32, code_covering(radius, 127), report_by(radius, 127)),
    "altitude-uncertainty": (UNSIGNED_32, code_covering(height, 127), report_by(height, 127)),
    "altitude": (SIGNED_32, code_signed(has_step(1000, BITS_15), BITS_15), report_signed(BITS_15)),
    "inner-radius": (UNSIGNED_32, code_by(has_step(5000, BITS_16), 5000, BITS_16), report_by(lambda n: 5000 * n, BITS_16)),
    "offset": (UNSIGNED_32, code_by(has_step(2000), 2000, 179, lambda a: a < 360000), report_by(lambda n: 2000 * n, 179, 5)),
    "included": (UNSIGNED_32, code_by(has_included, 2000, 179, lambda a: 0 < a <= 360000), report_by(lambda n: 2000 * (n + 1), 179, 5)),
    "orientation": (UNSIGNED_32, code_by(has_step(1000), 1000, 179, lambda a: a < 180000), report_by(lambda n: 1000 * n, 179, 5)),
    "bearing": (UNSIGNED_32, code_by(has_step(1000), 1000, 359, lambda a: a < 360000), report_by(lambda n: 1000 * n, 359, 5)),
    "horizontal-speed": (UNSIGNED_32, code_by(has_speed(BITS_16), 1000, BITS_16), report_by(lambda n: 1000 * n, BITS_16)),
    "vertical-speed": (SIGNED_32, code_signed(has_speed(BITS_8), BITS_8), report_signed(BITS_8)),
    "uncertainty-speed": (UNSIGNED_32, code_covering(lambda n: 1000 * n, 254), report_by(lambda n: None if n == 255 else 1000 * n, 255)),
    "confidence": (UNSIGNED_32, code_confidence, report_by(lambda n: n or None, 100, 6)),
}
TWO_NUMBERS = ("latitude", "altitude", "vertical-speed")
MISSING = {"uncertainty-speed": (255,), "confidence": (0,)}


# ---- lines


def number(text):
    return int(text) if re.fullmatch(rb"-?[0-9]+", text) else None


def coded(name, texts):
    (low, high), code, _ = FIELDS[name]
    if len(texts) != 1:
        return None
    if texts[0] == b"-" and name in MISSING:
        return MISSING[name]
    quantity = number(texts[0])
    return code(quantity) if quantity is not None and low <= quantity <= high else None


def reported(name, texts):
    numbers = [number(text) for text in texts]
    if len(numbers) != (2 if name in TWO_NUMBERS else 1) or None in numbers:
        return None
    quantity = FIELDS[name][2](*numbers)
    return ("-" if quantity is None else quantity,)


def answered(line):
    verb, *rest = line.split(b" ")
    name = rest[0].decode("latin-1") if rest else ""
    answer = {b"code": coded, b"report": reported}.get(verb)
    if len(line) > 4096 or not answer or name not in FIELDS:
        return "-"
    try:
        found = answer(name, rest[1:])
    except Refused as refusal:
        return str(refusal)
    return "-" if found is None else " ".join(map(str, (0, *found)))


def main():
    lines = sys.stdin.buffer.read().split(b"\n")
    if not lines[-1]:
        lines.pop()
    for count, line in enumerate(lines, 1):
        print(count, answered(line))
    print("end", len(lines))


if __name__ == "__main__":
    main()
