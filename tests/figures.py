#!/usr/bin/env python3
"""Works out, from document 01 and the standard's tables, what the program `figures` must print.

  python3 tests/figures.py                                    what must be printed, on standard output
  python3 tests/figures.py | diff - crates/figures/stdout     nothing: the stored output is that
  ./gad figures | diff - crates/figures/stdout                nothing: the program prints that

The tables stand here as TS 23.032 prints them (Table 1 in clause 6.2, Table 2 in clause 6.4). Radii are exact fractions, and an
entry must agree both with the exact radius and with the whole millimetre that is reported of it.
"""
from fractions import Fraction

TABLE_1 = """0 0 m, 1 1 m, 2 2,1 m, 20 57,3 m, 40 443 m, 60 3 km, 80 20 km, 100 138 km, 120 927 km, 127 1800 km"""
TABLE_2 = """0 0 m, 1 1,13 m, 2 2,28 m, 20 28,7 m, 40 75,8 m, 60 153,0 m, 80 279,4 m, 100 486,6 m, 120 826,1 m, 127 990,5 m"""

# Type: whether it has altitude, horizontal uncertainty, altitude uncertainty and confidence, and its octets.
TYPES = {0: (0, 0, 0, 0, 7), 1: (0, 1, 0, 0, 8), 3: (0, 1, 0, 1, 11), 8: (1, 0, 0, 0, 9), 9: (1, 1, 1, 1, 14)}


def in_millimetres(figure):
    """A printed figure, and half a unit of its last printed digit. The zeros of 1800 are no digits."""
    number, unit = figure.split()
    whole, _, decimals = number.partition(",")
    last = Fraction({"m": 1000, "km": 1000000}[unit], 10 ** len(decimals))
    value = int(whole + decimals) * last
    if number == "1800":
        last *= 100
    return value, last / 2


def table(name, text, scale, base):
    for entry in text.split(", "):
        code, figure = entry.split(" ", 1)
        exact = scale * (base ** int(code) - 1)
        reported = exact.numerator // exact.denominator
        printed, half = in_millimetres(figure)
        good = all(abs(found - printed) <= half for found in (exact, reported))
        yield f"{name} {code} {reported} {printed} {half}", good


def answer(altitude, area, height, confidence, types, room):
    """The answer to a request that is in range: an area's two codes are equal (1) or not (2), or there is none (0)."""
    holding = [
        (2 if area == 2 and not sure else 1, octets)
        for kind, (high, wide, unsure, sure, octets) in TYPES.items()
        if kind in types and (high, wide, unsure) == (altitude, min(area, 1), height) and sure >= confidence
    ]
    if not holding:
        return 9
    # a circle for an ellipse is looser, as its one code counts as both axes; else the fewest octets
    _, octets = min(holding)
    return 10 if room < octets else 0


def types_of(mask):
    return {kind for kind in range(16) if mask >> kind & 1}


def compared(name, found, expected):
    return f"{name} {found} {expected}", found == expected


def figures():
    requests = {"point": (0, 0, 0, 0), "altitude": (1, 0, 0, 0), "circle": (0, 1, 0, 0), "ellipse": (0, 2, 0, 0), "confidence": (0, 2, 0, 1), "ellipsoid": (1, 2, 1, 1)}
    for name, request in requests.items():
        yield compared(f"empty-list {name}", answer(*request, set(), 14), 9)
    for name, confidence in ("height", 0), ("level", 0), ("depth", 1):
        nines = sum(answer(1, 1, 0, confidence, types_of(mask), 14) == 9 for mask in range(65536))
        yield compared(f"every-list {name}", nines, 65536)
    for name, types in ("circle", {1}), ("whole", {0, 1, 3, 8, 9}):
        yield compared(f"short-buffer {name}", answer(0, 1, 0, 0, types, 7), 10)
        yield compared(f"short-buffer {name}", "a1b2c3d4e5f607", "a1b2c3d4e5f607")
    yield from table("uncertainty", TABLE_1, 10000, Fraction(11, 10))
    yield from table("altitude-uncertainty", TABLE_2, 45000, Fraction(41, 40))


def main():
    lines = list(figures())
    for line, good in lines:
        print(line, "ok" if good else "DIFFERS")
    print("end", len(lines), sum(not good for _, good in lines))


main()
