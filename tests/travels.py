"""Quantities from document 01 alone: what coding and reporting a record give, and cases of both for `trials.py`.

A quantity's code is looked for among the codes by document 01's sets, in whole numbers, and must be the only one (`choosing.py`
has the sets of coordinates, altitudes and radii); messages are put together by `messages.py`, and what a code reports is
`listing.py`'s. Each reported quantity is coded once more and must give the code that it came from.
"""
import random
from fractions import Fraction

from choosing import HALF_TURN, NINETY, altitude_codes, height_covers, latitude_codes, longitude_codes, near, radius_covers
from listing import SAID, at_least, height, latitude, longitude, radius, with_sign
from messages import SHAPES, TYPES, VELOCITIES

SIGNED_64, SIGNED_32, UNSIGNED_32, UNSIGNED_8 = (-2**63, 2**63 - 1), (-2**31, 2**31 - 1), (0, 2**32 - 1), (0, 255)
MISSING = None

# ---- the fields of a line: what it is called in messages.py, its width, whether it may be missing

SHAPE_FIELDS = [("type", UNSIGNED_32), ("count", UNSIGNED_8), ("latitude", SIGNED_64), ("longitude", SIGNED_64), ("altitude", SIGNED_32),
                ("uncertainty", UNSIGNED_32), ("major", UNSIGNED_32), ("minor", UNSIGNED_32), ("orientation", UNSIGNED_32),
                ("height", UNSIGNED_32), ("confidence", UNSIGNED_32), ("inner", UNSIGNED_32), ("offset", UNSIGNED_32), ("included", UNSIGNED_32)]
VELOCITY_FIELDS = [("type", UNSIGNED_32), ("bearing", UNSIGNED_32), ("speed", UNSIGNED_32), ("vertical", SIGNED_32), ("unsure", UNSIGNED_32),
                   ("unsure up", UNSIGNED_32)]
MAY_BE_MISSING = ("confidence", "unsure", "unsure up")
LAST_CODE = {"inner": 2**16 - 1, "offset": 179, "included": 179, "orientation": 179, "bearing": 359, "speed": 2**16 - 1, "vertical": 255}

# ---- codes: a dictionary of the names of messages.py, or the refusal 7 or 8


class Refused(Exception):
    pass


def in_range(holds):
    if not holds:
        raise Refused(7)


def covered(holds):
    if not holds:
        raise Refused(8)


def only(codes):
    assert len(codes) == 1, codes
    return codes[0]


def in_steps(name, size, holds, guess):
    last = LAST_CODE[name]
    return only([n for n in near(min(guess, last), 0, last) if holds(n, last, size)])


def floor_step(step, ends):
    """A set of 1000N <= a < 1000(N+1), at that step; with `ends` the last code has all that is greater too."""
    return lambda n, last, a: step * n <= a and (a < step * (n + 1) or (ends and n == last))


def speed_step(n, last, h):
    return (0 <= h < 500 if n == 0 else 1000 * n - 500 <= h < 1000 * n + 500) or (n == last and h >= 1000 * n + 500)


def latitude_code(x):
    in_range(abs(x) <= NINETY)
    south, n = only(latitude_codes(x))
    return {"south": south, "latitude": n}


def longitude_code(x):
    in_range(abs(x) <= HALF_TURN)
    return {"longitude": only(longitude_codes(x))}


def altitude_code(a):
    depth, n = only(altitude_codes(a))
    return {"depth": depth, "altitude": n}


def least_cover(covers, r):
    covered(covers(127, r))
    return next(k for k in range(128) if covers(k, r))


def angle_code(name, step, limit):
    def code(a):
        in_range(a < limit)
        return {name: in_steps(name, a, floor_step(step, False), a // step)}
    return code


def included_code(a):
    in_range(0 < a <= 360000)
    return {"included": in_steps("included", a, lambda n, last, q: 2000 * n < q <= 2000 * (n + 1), a // 2000)}


def vertical_code(v):
    return {"down": int(v < 0), "vertical": in_steps("vertical", abs(v), speed_step, abs(v) // 1000)}


def confidence_code(c):
    in_range(c is MISSING or 1 <= c <= 100)
    return {"confidence": 0 if c is MISSING else c}


def unsure_code(name):
    def code(s):
        if s is MISSING:
            return {name: 255}
        covered(s <= 254000)
        return {name: next(n for n in range(255) if s <= 1000 * n)}
    return code


CODE = {
    "latitude": latitude_code, "longitude": longitude_code, "altitude": altitude_code,
    "uncertainty": lambda r: {"uncertainty": least_cover(radius_covers, r)},
    "major": lambda r: {"major": least_cover(radius_covers, r)},
    "minor": lambda r: {"minor": least_cover(radius_covers, r)},
    "height": lambda r: {"height": least_cover(height_covers, r)},
    "inner": lambda r: {"inner": in_steps("inner", r, floor_step(5000, True), r // 5000)},
    "orientation": angle_code("orientation", 1000, 180000), "offset": angle_code("offset", 2000, 360000),
    "bearing": angle_code("bearing", 1000, 360000), "included": included_code, "confidence": confidence_code,
    "speed": lambda h: {"speed": in_steps("speed", h, speed_step, h // 1000)}, "vertical": vertical_code,
    "unsure": unsure_code("unsure"), "unsure up": unsure_code("unsure up"),
}


def unused_value(name):
    """What stands for a quantity that a type has no field for."""
    return MISSING if name == "confidence" else 0


def coded(layouts, kind, given, count, points):
    """The answer and, on 0, the codes of the fields and of the points."""
    polygon = layouts is SHAPES and kind == 5
    if not polygon and kind not in layouts:
        return 2, None, None
    if polygon and not 3 <= count <= 15:
        return 4, None, None
    used = set() if polygon else {name for name, _ in layouts[kind]}
    codes, point_codes, refusals = {}, [], set()
    if not polygon and count or any(given[name] != unused_value(name) for name in given if name not in used):
        refusals.add(7)
    if {"major", "minor"} <= used and given["minor"] > given["major"]:
        refusals.add(7)
    for name in used & set(given):
        try:
            codes.update(CODE[name](given[name]))
        except Refused as refused:
            refusals.add(refused.args[0])
    n = count if polygon else 0
    if any(point != (0, 0) for point in points[n:]):
        refusals.add(7)
    for x, y in points[:n]:
        try:
            point_codes.append({**latitude_code(x), **longitude_code(y)})
        except Refused as refused:
            refusals.add(refused.args[0])
    return (min(refusals), None, None) if refusals else (0, codes, point_codes)


def reported(name, codes):
    if name == "latitude":
        return latitude(codes)
    if name == "longitude":
        return longitude(codes)
    if name == "altitude":
        return with_sign(codes["depth"], 1000 * codes["altitude"])
    if name == "vertical":
        return with_sign(codes["down"], 1000 * codes["vertical"])
    said = SAID[name](codes[name])
    return MISSING if said == "-" else said


# ---- lines

def said(quantity):
    return "-" if quantity is MISSING else str(quantity)


# ---- the cases

NAMES = [name for name, _ in SHAPE_FIELDS[2:]]
MOTION_NAMES = [name for name, _ in VELOCITY_FIELDS[1:]]
LEAST_64, MOST_64, LEAST_32, MOST_32, MOST = -2**63, 2**63 - 1, -2**31, 2**31 - 1, 2**32 - 1


def shape(kind, count=0, points=(), **given):
    words = [kind, count] + [said(given.get(name, unused_value(name))) for name in NAMES] + [x for point in points for x in point]
    return "shape " + " ".join(map(str, words))


def velocity(kind, **given):
    return "velocity " + " ".join([str(kind)] + [said(given.get(name.replace(" ", "_"), 0)) for name in MOTION_NAMES])


def around(*middles):
    return sorted({middle + step for middle in middles for step in (-1, 0, 1)})


LATITUDE_ENDS = [at_least(Fraction(n * NINETY, 2**23)) for n in (0, 1, 2, 255, 65536, 4194304, 8388606, 8388607)]
LONGITUDE_ENDS = [at_least(Fraction(n * 2 * HALF_TURN, 2**24)) for n in (-2**23, 1 - 2**23, -2**22, -65537, -2, -1, 0, 1, 2, 65536, 2**22, 2**23 - 1)]
ENDS = {
    "latitude": sorted({s * x for x in around(*LATITUDE_ENDS, NINETY) for s in (-1, 1)} | {LEAST_64, LEAST_64 + 1, MOST_64, LEAST_64 - 1, MOST_64 + 1, 2**64, -HALF_TURN}),
    "longitude": sorted({*around(*LONGITUDE_ENDS, HALF_TURN, -HALF_TURN), LEAST_64, LEAST_64 + 1, MOST_64, LEAST_64 - 1, MOST_64 + 1, 2**64, 2 * HALF_TURN}),
    "altitude": sorted({s * x for x in around(0, 1000, 2000, 32766000, 32767000, 32768000) for s in (-1, 1)}
                       | {LEAST_32, LEAST_32 + 1, MOST_32, LEAST_32 - 1, MOST_32 + 1, 2**32}),
    "uncertainty": sorted({max(0, r) for k in (0, 1, 2, 19, 20, 63, 64, 126, 127) for r in around(radius(k))} | {MOST - 1, MOST, MOST + 1, 2**64}),
    "height": sorted({max(0, r) for k in (0, 1, 2, 3, 20, 63, 64, 126, 127) for r in around(height(k))} | {MOST - 1, MOST, MOST + 1}),
    "orientation": [-1] + around(1, 1000, 2000, 179000, 180000) + [360000, MOST, MOST + 1],
    "offset": [-1] + around(1, 2000, 4000, 180000, 358000, 360000) + [MOST, MOST + 1],
    "included": [-1] + around(1, 2000, 4000, 180000, 358000, 360000) + [MOST, MOST + 1],
    "confidence": [MISSING, -1, 0, 1, 2, 68, 99, 100, 101, 102, 127, 128, 255, 256, 257, 356, MOST, MOST + 1],
    "inner": [-1] + around(1, 5000, 10000, 327670000, 327675000, 327680000) + [MOST - 1, MOST, MOST + 1],
}
ENDS["minor"] = ENDS["major"] = ENDS["uncertainty"]
SPEED_ENDS = around(1, 500, 1000, 1500, 2000, 2500) + [2999]
MOTION_ENDS = {
    "bearing": [-1] + around(1, 1000, 2000, 255000, 256000, 359000, 360000) + [MOST, MOST + 1],
    "speed": [-1] + SPEED_ENDS + around(65533500, 65534500, 65535000, 65535500, 65536000) + [MOST - 500, MOST - 499, MOST - 1, MOST, MOST + 1],
    "vertical": sorted({s * x for x in SPEED_ENDS + around(253500, 254500, 255000, 255500, 256000) for s in (-1, 1)}
                       | {LEAST_32, LEAST_32 + 1, LEAST_32 + 500, MOST_32, MOST_32 - 500, MOST_32 - 499, LEAST_32 - 1, MOST_32 + 1}),
    "unsure": [MISSING, -1] + around(1, 1000, 2000, 127000, 253000, 254000, 255000) + [256000, MOST - 1, MOST, MOST + 1],
}
MOTION_ENDS["unsure up"] = MOTION_ENDS["unsure"]
# a few of them, for types after the first that has them
FEW = {"latitude": [NINETY, NINETY + 1, -NINETY, -NINETY - 1, -1, 10728, 10729, -10729, LEAST_64], "longitude": [HALF_TURN, HALF_TURN + 1, -HALF_TURN, -HALF_TURN - 1, -1, -21457, -21458, LEAST_64],
       "altitude": [0, -1, -1000, 999, 1000, 32768000, -32768000, LEAST_32, MOST_32, MOST_32 + 1], "orientation": [0, 999, 1000, 179999, 180000, MOST],
       "confidence": [MISSING, 0, 1, 100, 101, 256, MOST], "bearing": [0, 999, 1000, 359999, 360000, MOST], "speed": [0, 499, 500, 65535500, MOST],
       "vertical": [0, -1, -499, -500, 499, 500, -255500, LEAST_32, MOST_32], "unsure": [MISSING, 0, 1, 1000, 1001, 254000, 254001, MOST]}
FEW["uncertainty"] = FEW["major"] = FEW["minor"] = [0, 1, 1000, 1001, radius(20), radius(20) + 1, radius(127), radius(127) + 1, MOST]
GOOD = {"latitude": 45 * 10**9, "longitude": -90 * 10**9, "altitude": -1500, "uncertainty": 57274, "major": 57275, "minor": 51159, "orientation": 30000,
        "height": 2279, "confidence": 68, "inner": 12345, "offset": 2000, "included": 2001}
GOOD_MOVE = {"bearing": 300000, "speed": 90000, "vertical": -1600, "unsure": 1001, "unsure up": 254000}


def used_of(layouts, kind):
    return [] if layouts is SHAPES and kind == 5 else [name for name, _ in layouts[kind]]


def good_of(kind):
    used = used_of(SHAPES, kind)
    return {name: n for name, n in GOOD.items() if name in used}


def some_points(pick, count):
    return [(pick.randint(-NINETY, NINETY), pick.randint(-HALF_TURN, HALF_TURN)) for _ in range(count)]


def field_cases():
    seen = set()
    for kind in TYPES:
        good = good_of(kind)
        base = dict(count=3, points=[(1, 1), (2, 2), (3, 3)]) if kind == 5 else {}
        yield shape(kind, **base, **good)
        # every quantity at zero: a value, or out of range
        yield shape(kind, **base)
        for name in NAMES:
            if name in good:
                for n in FEW[name] if name in seen else ENDS[name]:
                    # the semi-major is at least the semi-minor, so that the minor's own ends are met
                    room = {"major": max(good["major"], min(n, MOST))} if name == "minor" else {"minor": 0} if name == "major" else {}
                    yield shape(kind, **base, **{**good, **room, name: n})
                seen.add(name)
            else:
                for n in (1, -1) if name in ("latitude", "longitude", "altitude") else (1, 0, MOST) if name == "confidence" else (1, MOST):
                    yield shape(kind, **base, **{**good, name: n})
        if kind != 5:
            for count in (1, 3, 15, 16, 255):
                yield shape(kind, count=count, **good)
            yield shape(kind, count=3, points=[(0, 0)] * 3, **good)
            for points in ([(0, 0)], [(0, 0)] * 15, [(1, 0)], [(0, 1)], [(0, 0)] * 14 + [(0, -1)], [(0, 0)] * 14 + [(-1, 0)]):
                yield shape(kind, points=points, **good)


def axes_cases():
    for kind in (3, 9):
        good = good_of(kind)
        for major, minor in ((0, 0), (0, 1), (1, 0), (57274, 57274), (57274, 51160), (51160, 57274), (57274, 57275), (57275, 57274), (57274, 51159), (1000, 1001),
                             (radius(127), radius(127)), (radius(127), radius(127) + 1), (radius(127) + 1, radius(127)), (radius(127) + 1, radius(127) + 1), (MOST, MOST),
                             (MOST - 1, MOST), (MOST, 0), (0, MOST), (radius(126) + 1, radius(127))):
            yield shape(kind, **{**good, "major": major, "minor": minor})


OUTSIDE = [(NINETY + 1, 0), (-NINETY - 1, 0), (0, HALF_TURN + 1), (0, -HALF_TURN - 1)]
AT_ENDS = [(NINETY, HALF_TURN), (-NINETY, -HALF_TURN), (-1, -1), (10728, -21457), (-10729, -21458)]


def polygon_cases(pick):
    for count in list(range(17)) + [17, 127, 128, 255, 256]:
        n = min(count, 15)
        points = some_points(pick, n)
        yield shape(5, count=count, points=points)
        if 0 < n:
            # a point less than the count, which is then at 0 north 0 east
            yield shape(5, count=count, points=points[:-1])
        if n < 15:
            yield shape(5, count=count, points=points + [(0, 0)])
            yield shape(5, count=count, points=points + [(1, 0)])
            yield shape(5, count=count, points=points + [(0, 0)] * (14 - n) + [(0, -1)])
            # out of range after the last one
            yield shape(5, count=count, points=points + [(NINETY + 1, HALF_TURN + 1)])
        for at in range(n) if count in (3, 15) else [n - 1] if 3 < count < 15 else ():
            yield shape(5, count=count, points=points[:at] + [pick.choice(OUTSIDE)] + points[at + 1:])
            yield shape(5, count=count, points=points[:at] + [pick.choice(AT_ENDS)] + points[at + 1:])
    for point in OUTSIDE + AT_ENDS:
        yield shape(5, count=3, points=[point] * 3)
        yield shape(5, count=4, points=[(1, 2), (3, 4), (5, 6), point])
    yield shape(5, count=15, points=some_points(pick, 16))
    yield shape(5, count=15, points=[(LEAST_64, LEAST_64)] * 15)
    yield shape(5, count=15, points=[(LEAST_64 - 1, 0)] * 15)
    yield shape(5, count=15, points=[(0, 0)] * 14 + [(0, MOST_64 + 1)])
    yield shape(5, count=3, points=[(MOST_64, 0), (0, MOST_64), (0, 0)])
    ends = [(x, y) for x, y in zip(ENDS["latitude"], ENDS["longitude"]) if abs(x) <= NINETY and abs(y) <= HALF_TURN]
    for at in range(0, len(ends), 5):
        yield shape(5, count=len(ends[at:at + 5]), points=ends[at:at + 5])


def order_cases():
    """2, then 4, then 7, then 8."""
    too_large = {"uncertainty": MOST, "major": MOST, "minor": MOST, "height": MOST}
    for kind in (2, 4, 6, 7, 11, 12, 13, 14, 15, 16, 127, 128, 255, 256, 257, 259, 261, 65536, MOST, MOST + 1, -1):
        yield shape(kind)
        yield shape(kind, count=2, **GOOD)
        yield shape(kind, **{**GOOD, **too_large, "latitude": NINETY + 1})
    for count in (2, 16):
        yield shape(5, count=count, latitude=NINETY + 1)
        yield shape(5, count=count, points=[(NINETY + 1, 0)], **too_large)
        yield shape(5, count=count, confidence=0)
    yield shape(5, count=3, **too_large)
    yield shape(5, count=3, points=[(NINETY + 1, 0)] * 3, **too_large)
    for kind in TYPES:
        good = good_of(kind)
        for name, n in too_large.items():
            if name not in good:
                continue
            large = {**good, name: n, **({"major": n} if name == "minor" else {})}
            yield shape(kind, **large)
            for other, wrong in (("latitude", NINETY + 1), ("longitude", -HALF_TURN - 1), ("orientation", 180000), ("confidence", 0), ("confidence", 101),
                                 ("offset", 360000), ("included", 0), ("included", 360001), ("minor", MOST), ("height", MOST), ("altitude", 1), ("inner", 1)):
                yield shape(kind, **{**large, other: wrong})
            yield shape(kind, count=1, **large)
            yield shape(kind, points=[(0, 1)], **large)


def velocity_cases():
    seen = set()
    for kind in range(4):
        used = used_of(VELOCITIES, kind)
        good = {name: n for name, n in GOOD_MOVE.items() if name in used}
        of = lambda changed: velocity(kind, **{name.replace(" ", "_"): n for name, n in {**good, **changed}.items()})
        yield of({})
        yield velocity(kind)
        for name in MOTION_NAMES:
            ends = FEW[name] if name in seen else MOTION_ENDS[name]
            for n in ends if name in used else (1, -1, MOST_32) if name == "vertical" else (1, MISSING, 254001):
                yield of({name: n})
            seen.update({name} & set(used))
        for unsure in (MISSING, 0, 254000, 254001):
            for up in (MISSING, 0, 254000, 254001):
                for bearing in (0, 360000):
                    yield of({"bearing": bearing, "unsure": unsure, "unsure up": up})
    for kind in (4, 5, 7, 8, 15, 16, 127, 128, 255, 256, 257, 258, 259, 65536, MOST, MOST + 1, -1):
        yield velocity(kind)
        yield velocity(kind, bearing=360000, vertical=1, unsure=254001, unsure_up=MISSING)


def random_cases(pick):
    near_end = lambda name: pick.choice([n for n in ENDS[name] if n is MISSING or n >= 0 or name in ("latitude", "longitude", "altitude")])
    whole = {"latitude": (-NINETY, NINETY), "longitude": (-HALF_TURN, HALF_TURN), "altitude": (-40000000, 40000000), "uncertainty": (0, radius(127)),
             "height": (0, height(127)), "orientation": (0, 179999), "confidence": (1, 100), "inner": (0, 330000000), "offset": (0, 359999), "included": (1, 360000)}
    for _ in range(160):
        kind = pick.choice(TYPES)
        given = {}
        for name in good_of(kind):
            given[name] = near_end(name) if pick.random() < 0.03 else pick.randint(*whole["uncertainty" if name in ("major", "minor") else name])
            if name in ("uncertainty", "major", "minor") and pick.random() < 0.7:
                given[name] = int(radius(pick.randrange(128)) * pick.random())
        if "major" in given and pick.random() < 0.9:
            given["major"], given["minor"] = max(given["major"], given["minor"]), min(given["major"], given["minor"])
        if "confidence" in given and pick.random() < 0.3:
            given["confidence"] = MISSING
        count = pick.randint(3, 15) if kind == 5 else 0
        yield shape(kind, count=count, points=some_points(pick, count), **given)
    for _ in range(60):
        kind = pick.randrange(4)
        used = used_of(VELOCITIES, kind)
        given = {"bearing": pick.randrange(360000), "speed": pick.randrange(70000000), "vertical": pick.randint(-260000, 260000), "unsure": pick.randrange(254001),
                 "unsure up": pick.choice((MISSING, pick.randrange(254001)))}
        yield velocity(kind, **{name.replace(" ", "_"): n for name, n in given.items() if name in used})


ODD = ("", "+1", "1x", "--1", "1.0", "-0", "00")


def unreadable_cases():
    """Lines that can't be read, beside some that can though they look odd."""
    point, move = shape(0, **good_of(0)), velocity(3, bearing=1, speed=2, vertical=3, unsure=4, unsure_up=5)
    yield from ("", " ", "-", "shape", "velocity", "shape ", "velocity ", "shape -", "Shape" + point[5:], "shapes" + point[5:], "velocity" + point[5:], "shape" + move[8:],
                " " + point, point + " ", point + " 0", point + " 0 0", point + " 0 -", point + "  0", point.rsplit(" ", 1)[0], point.replace(" ", "  ", 1),
                point + " 0" * 30, point + " 0" * 31, point + " 0" * 32, move + " ", move + " 0", move.rsplit(" ", 1)[0], move + "\r", point + "\t")
    for line, count in ((point, 15), (shape(5, count=3, points=[(1, 2)] * 3), 21), (move, 7)):
        words = line.split(" ")
        for at in range(1, count):
            for odd in ("-", ODD[at % len(ODD)]):
                yield " ".join(words[:at] + [odd] + words[at + 1:])
    # 4096 octets are held, and one more is too many
    for length in (4095, 4096, 4097, 9000):
        yield point.replace("45000000000", "0" * (length - len(point)) + "45000000000")


def cases():
    pick = random.Random(23032)
    lines = [*field_cases(), *axes_cases(), *polygon_cases(pick), *order_cases(), *velocity_cases(), *random_cases(pick), *unreadable_cases()]
    return "".join(line + "\n" for line in lines)
