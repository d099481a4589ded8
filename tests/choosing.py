#!/usr/bin/env python3
"""Works out, from document 01 alone, what the program `chooser` must print; `trials.py` takes its requests and answers from here.

  tests/choosing.py          writes stdin and stdout of crates/chooser
  tests/choosing.py input    the cases, on standard output
  tests/choosing.py output   what must be printed for the cases on standard input

For each listed type the codes that may stand in each field are found by document 01's sets, in whole numbers. Any choice of
them is a message that holds the request, so the best of a type takes the least of each; the best of all is the least by
semi-major, semi-minor, altitude uncertainty and octets. Each message is read again (`messages.py`) and held against the
request by the sets once more.
"""
import random
import re
import sys
from pathlib import Path

from messages import SHAPES, octets, put_together, read

KINDS = (0, 1, 3, 8, 9)
ALL = sum(1 << kind for kind in KINDS)
NINETY, HALF_TURN = 90 * 10**9, 180 * 10**9
CODES = range(128)

# ---- document 01's sets


def latitude_set(south, n, x):
    if (x < 0) != bool(south):
        return False
    # 90 degrees belongs to the last code
    return n * NINETY <= 2**23 * abs(x) < (n + 1) * NINETY or (n == 2**23 - 1 and abs(x) == NINETY)


def longitude_set(n, x):
    if x == HALF_TURN:
        return n == -2**23
    return n * 2 * HALF_TURN <= 2**24 * x < (n + 1) * 2 * HALF_TURN


def altitude_set(depth, n, a):
    return (a < 0) == bool(depth) and 1000 * n <= abs(a) and (abs(a) < 1000 * (n + 1) or n == 32767)


def radius_covers(k, r):
    return r * 10**k <= 10000 * (11**k - 10**k)


def height_covers(k, r):
    return r * 40**k <= 45000 * (41**k - 40**k)


def orientation_set(n, a):
    return 1000 * n <= a < 1000 * (n + 1)


def near(n, low, high):
    return range(max(low, n - 2), min(high, n + 2) + 1)


def latitude_codes(x):
    return [(s, n) for s in (0, 1) for n in near(2**23 * abs(x) // NINETY, 0, 2**23 - 1) if latitude_set(s, n, x)]


def longitude_codes(x):
    return [n for n in {*near(2**23 * x // HALF_TURN, -2**23, 2**23 - 1), -2**23} if longitude_set(n, x)]


def altitude_codes(a):
    return [(d, n) for d in (0, 1) for n in near(min(abs(a) // 1000, 32767), 0, 32767) if altitude_set(d, n, a)]


# ---- requests: latitude, longitude, altitude, semi-major, semi-minor, orientation, altitude uncertainty, confidence

SIGNED_64, SIGNED_32, UNSIGNED_32 = (-2**63, 2**63 - 1), (-2**31, 2**31 - 1), (0, 2**32 - 1)
WIDTHS = [SIGNED_64, SIGNED_64, SIGNED_32] + [UNSIGNED_32] * 5
UNREADABLE = object()


def number(field, low, high):
    if not re.fullmatch(rb"-?[0-9]+", field):
        return UNREADABLE
    n = int(field)
    return n if low <= n <= high else UNREADABLE


def request_of(line):
    """The eight quantities, None where absent, or UNREADABLE."""
    fields = line.split(b" ")
    if len(line) > 4096 or len(fields) != 8:
        return UNREADABLE
    request = [None if field == b"-" else number(field, *width) for field, width in zip(fields, WIDTHS)]
    if UNREADABLE in request or request[0] is None or request[1] is None:
        return UNREADABLE
    absent = tuple(quantity is None for quantity in request[3:6])
    return request if absent in ((True,) * 3, (False,) * 3, (False, True, True)) else UNREADABLE


def list_of(line):
    n = number(line, 0, 2**16 - 1) if len(line) <= 4096 else UNREADABLE
    return 0 if n is UNREADABLE else n


def refused(request):
    """7 or 8, whatever the list."""
    latitude, longitude, _, major, minor, orientation, height, confidence = request
    if abs(latitude) > NINETY or abs(longitude) > HALF_TURN:
        return 7
    if minor is not None and (minor > major or orientation >= 180000):
        return 7
    if confidence is not None and not 1 <= confidence <= 100:
        return 7
    if any(axis is not None and not radius_covers(127, axis) for axis in (major, minor)):
        return 8
    if height is not None and not height_covers(127, height):
        return 8
    return 0


def holding(kind, request):
    """For each field of the type the codes that hold the request, or None where no message of the type does."""
    latitude, longitude, altitude, major, minor, orientation, height, confidence = request
    names = {name for name, _ in SHAPES[kind]}
    if ("altitude" in names) != (altitude is not None) or ("height" in names) != (height is not None):
        return None
    if bool(names & {"uncertainty", "major"}) != (major is not None):
        return None
    if "confidence" not in names and confidence is not None:
        return None
    sets = {"position": [(s, n, m) for s, n in latitude_codes(latitude) for m in longitude_codes(longitude)]}
    if "altitude" in names:
        sets["altitude"] = altitude_codes(altitude)
    if "uncertainty" in names:
        sets["uncertainty"] = [k for k in CODES if radius_covers(k, major)]
    if "major" in names:
        sets["major"] = [k for k in CODES if radius_covers(k, major)]
        sets["minor"] = [k for k in CODES if radius_covers(k, major if minor is None else minor)]
        sets["orientation"] = [0] if orientation is None else [n for n in range(180) if orientation_set(n, orientation)]
    if "height" in names:
        sets["height"] = [k for k in CODES if height_covers(k, height)]
    if "confidence" in names:
        sets["confidence"] = [confidence or 0]
    return sets if all(sets.values()) else None


def message(kind, sets):
    assert len(sets["position"]) == 1 and len(sets.get("altitude", [0])) == 1
    fields = {name: codes[0] for name, codes in sets.items()}
    fields["south"], fields["latitude"], fields["longitude"] = fields["position"]
    if "altitude" in fields:
        fields["depth"], fields["altitude"] = fields["altitude"]
    return octets(format(kind, "04b") + put_together(SHAPES[kind], fields))


def rank(written):
    answer, (kind, fields, _) = read(SHAPES, written)
    assert answer == 0
    major = fields.get("uncertainty", fields.get("major", 0))
    return major, fields.get("minor", major), fields.get("height", 0), len(written)


def holds(request, written):
    """By the sets, on the codes that are read from the message."""
    answer, (kind, fields, _) = read(SHAPES, written)
    sets = holding(kind, request)
    return answer == 0 and sets is not None and all([
        (fields["south"], fields["latitude"], fields["longitude"]) in sets["position"],
        "altitude" not in sets or (fields["depth"], fields["altitude"]) in sets["altitude"],
        all(fields[name] in sets[name] for name in ("uncertainty", "major", "minor", "orientation", "height", "confidence") if name in sets),
    ])


def choose(request, listed, room):
    """The answer, and on 0 the message."""
    answer = refused(request)
    if answer:
        return answer, b""
    found = [(kind, holding(kind, request)) for kind in KINDS if listed >> kind & 1]
    held = [message(kind, sets) for kind, sets in found if sets]
    if not held:
        return 9, b""
    best = min(held, key=rank)
    assert holds(request, best) and sum(rank(other) == rank(best) for other in held) == 1
    return (0, best) if len(best) <= room else (10, b"")


# ---- what is printed


def lines_of(text):
    lines = text.split(b"\n")
    return lines if lines[-1] else lines[:-1]


def chooser_output(text):
    lines = lines_of(text)
    listed = list_of(lines[0]) if lines else 0
    said = []
    for count, line in enumerate(lines[1:], 1):
        request = request_of(line)
        if request is UNREADABLE:
            said.append("%d -" % count)
        else:
            answer, best = choose(request, listed, 14)
            said.append(" ".join([str(count), str(answer)] + ["%02X" % octet for octet in best]))
    return said + ["end %d" % max(len(lines) - 1, 0)]


# ---- the cases


def line_of(*quantities):
    return b" ".join(b"-" if quantity is None else b"%d" % quantity for quantity in quantities)


POINT = (45 * 10**9, -90 * 10**9)
RADII = [10000 * (11**k - 10**k) // 10**k for k in CODES]
HEIGHTS = [45000 * (41**k - 40**k) // 40**k for k in CODES]
NONE, CIRCLE, ELLIPSE = (None,) * 3, (57274, None, None), (57274, 51159, 30000)
# the axes have one code, or are equal
SAME_CODE, SAME_AXES = (57274, 51160, 30000), (57274, 57274, 179999)


def kinds_of_request(areas):
    return [(altitude,) + area + (height, confidence) for area in areas for altitude in (None, 0, -1500) for height in (None, 0, 2279)
            for confidence in (None, 68)]


def boundaries():
    """Quantities on both sides of every limit, each in an otherwise plain request."""
    for x in (0, 1, -1, 10728, 10729, -10728, -10729, 89999989272, 89999989271, NINETY, -NINETY, NINETY + 1, -NINETY - 1, 2**63 - 1, -2**63):
        yield line_of(x, 0, None, *NONE, None, None)
    for x in (0, 1, -1, 21457, 21458, -21457, -21458, -21459, HALF_TURN, -HALF_TURN, HALF_TURN - 1, HALF_TURN + 1, -HALF_TURN - 1, 2**63 - 1, -2**63):
        yield line_of(0, x, None, *NONE, None, None)
    for a in (0, 1, -1, 999, 1000, -999, -1000, 32766999, 32767000, 32768000, -32766999, -32767000, -32768000, 2**31 - 1, -2**31):
        yield line_of(*POINT, a, *NONE, None, None)
    for k in CODES:
        for r in (RADII[k], RADII[k] + 1):
            yield line_of(*POINT, None, r, None, None, None, None)
            yield line_of(*POINT, None, max(r, RADII[126]), r, 1000 * k, None, 1 + k % 100)
        for h in (HEIGHTS[k], HEIGHTS[k] + 1):
            yield line_of(*POINT, 1000 * k, 5000, None, None, h, None)
    for k in range(127):
        yield line_of(*POINT, None, RADII[k + 1], RADII[k] + k % 2, 0, None, None)
    for a in (0, 999, 1000, 1999, 89999, 90000, 178999, 179000, 179999, 180000, 180001, 359999, 2**32 - 1):
        yield line_of(*POINT, None, 2000, 1000, a, None, None)
    for c in (0, 1, 2, 99, 100, 101, 127, 128, 255, 256, 257, 2**32 - 1):
        yield line_of(*POINT, None, *ELLIPSE, None, c)
        yield line_of(*POINT, None, *NONE, None, c)


def orders():
    """7 before 8 before 9."""
    large, high = RADII[127] + 1, HEIGHTS[127] + 1
    for area in (NONE, CIRCLE, (large, None, None), (large, large, 0), (large, 5, 180000), (5, 6, 0), (51160, 57274, 0), (2**32 - 1, None, None)):
        for height in (None, 5, high, 2**32 - 1):
            for confidence in (None, 0, 50, 101):
                yield line_of(*POINT, None if confidence == 50 else 7, *area, height, confidence)
    yield line_of(NINETY + 1, 0, None, large, None, None, high, None)
    yield line_of(0, HALF_TURN + 1, None, *NONE, high, 50)


def strange():
    """Lines that can't be read, and some that look so."""
    plain = [b"45000000000", b"-90000000000", b"100000", b"57274", b"51160", b"30000", b"2279", b"68"]
    fields = [b"", b"-", b"--", b"--1", b"-1-", b"+1", b"1.0", b"1e3", b"0x1", b"x", b"1x", b"\t1", b"1\r", b"1,0", b"\x00", b"\xff", b"-0", b"00", b"0012",
              b"-1", b"2147483647", b"2147483648", b"-2147483648", b"-2147483649", b"4294967295", b"4294967296", b"9223372036854775807",
              b"9223372036854775808", b"-9223372036854775808", b"-9223372036854775809", b"18446744073709551615", b"18446744073709551616",
              b"18446744073709551661", b"99999999999999999999999999"]
    for place in range(8):
        for field in fields:
            yield b" ".join(plain[:place] + [field] + plain[place + 1:])
    line = b" ".join(plain)
    yield from [b"", b" ", b"       ", b"-", b"- - - - - - - -", line + b" ", b" " + line, line + b" -", line + b" 1", line.replace(b" ", b"  ", 1),
                line.replace(b" ", b"\t", 1), line.replace(b" ", b"\t"), line + b"\r", b" ".join(plain[:7]), b" ".join(plain[1:])]
    for mask in range(8):
        yield b" ".join(plain[:3] + [b"-" if mask >> place & 1 else plain[3 + place] for place in range(3)] + plain[6:])
    for size in (4095, 4096, 4097, 5000, 70000):
        yield line.replace(b"4", b"0" * (size - len(line)) + b"4", 1)
        yield b"x" * size


def random_requests(count, seed):
    draw = random.Random(seed)

    def size(most):
        return draw.randrange(1 << draw.randrange(1, most.bit_length() + 1)) % (most + 1)

    for _ in range(count):
        latitude, longitude = draw.randint(-NINETY, NINETY), draw.randint(-HALF_TURN, HALF_TURN)
        major, minor = sorted((size(RADII[127]), size(RADII[127])), reverse=True)
        area = draw.choice((NONE, (major, None, None), (major, minor, draw.randrange(180000)), (major, minor, draw.randrange(180000))))
        altitude = draw.choice((None, draw.choice((-1, 1)) * size(2**31 - 1)))
        height = None if altitude is None else draw.choice((None, size(HEIGHTS[127]), size(HEIGHTS[127])))
        yield line_of(latitude, longitude, altitude, *area, height, draw.choice((None, None, draw.randint(1, 100))))


def chooser_input():
    lines = [b"%d" % ALL]
    for position in (POINT, (0, 0), (-1, -1), (-NINETY, HALF_TURN)):
        lines += [line_of(*position, *request) for request in kinds_of_request((NONE, CIRCLE, ELLIPSE))]
    lines += [*boundaries(), *orders(), *strange(), *random_requests(200, 1)]
    # the last line has no newline
    return b"\n".join(lines)


def choices_input():
    cases = []
    for subset in range(32):
        listed = sum(1 << kind for bit, kind in enumerate(KINDS) if subset >> bit & 1)
        for count, request in enumerate(kinds_of_request((NONE, CIRCLE, ELLIPSE, SAME_CODE, SAME_AXES))):
            if request[0] != 0 and request[4] != 0:
                # bits of other shapes mean nothing
                others = (2**16 - 1 - ALL) * (count % 3 == 0)
                cases.append((b"%d" % (listed + others), 16, line_of(*POINT, *request)))
    best = [(None,) + NONE + (None, None), (None,) + CIRCLE + (None, None), (None,) + ELLIPSE + (None, 68), (-1500,) + NONE + (None, None),
            (-1500,) + ELLIPSE + (2279, 68), (None,) + SAME_CODE + (None, None), (None,) + ELLIPSE + (None, None)]
    for request in best:
        cases += [(b"%d" % ALL, room, line_of(*POINT, *request)) for room in range(17)]
    for room in (0, 6, 7):
        cases += [(b"%d" % ALL, room, line) for line in (line_of(NINETY + 1, 0, None, *NONE, None, None), line_of(*POINT, None, 2**32 - 1, None, None, None, None),
                                                         line_of(*POINT, 0, *CIRCLE, None, None), b"- - - - - - - -")]
        cases.append((b"0", room, line_of(*POINT, None, *NONE, None, None)))
    for listed in (b"", b"-", b"-0", b"-1", b"+1", b"x", b"1x", b"01", b"1", b"2", b"65535", b"65536", b"65537", b"131071", b"4294967295", b"4294967296",
                   b"4294967297", b"18446744073709551616", b"18446744073709551617"):
        cases += [(listed, 14, line_of(*POINT, None, *area, None, None)) for area in (NONE, CIRCLE)]
    cases += [(b"%d" % draw, 14, line) for draw, line in zip(random.Random(2).choices(range(2**16), k=150), random_requests(150, 3))]
    return b"".join(b"%s %d %s\n" % case for case in cases)


def main(words):
    if not words:
        here = Path(__file__).resolve().parent.parent / "crates" / "chooser"
        text = chooser_input()
        (here / "stdin").write_bytes(text)
        (here / "stdout").write_text("".join(line + "\n" for line in chooser_output(text)))
    elif words[0] == "input":
        sys.stdout.buffer.write(chooser_input())
    else:
        sys.stdout.write("".join(line + "\n" for line in chooser_output(sys.stdin.buffer.read())))


if __name__ == "__main__":
    main(sys.argv[1:])
