#!/usr/bin/env python3
"""Works out, from document 01 alone, what the program `trials` must print: writes crates/trials/stdin and stdout.

The messages, records, quantities and requests are those of `messages.py`, `travels.py`, `choosing.py` and the lines of crates/coder/stdin; so is
what each gives. Here they are numbers in the library's arrays (include/gad.h), with points outside their field, arrays that are too short
and rooms that are too small beside them.
"""
import random
from pathlib import Path

import choosing
import coding
import messages
import travels
from messages import MOVES, ORDER, POINT, SHAPES, VELOCITIES
from travels import MOTION_NAMES, SHAPE_FIELDS, VELOCITY_FIELDS

MISSING, BEFORE, HERE = -2**63, 170, Path(__file__).resolve().parent.parent / "crates"
CODES = ["south", "latitude", "longitude", "depth", "altitude", "uncertainty", "major", "minor", "orientation", "height", "inner", "offset",
         "included", "confidence"]
QUANTITIES = [name for name in CODES if name not in ("south", "depth")]
NOWHERE = {name: 0 for name, _ in POINT}


def in_32_bits(numbers):
    return [n % 2**32 for n in numbers]


def signed_32(n):
    return n - 2**32 if n >> 31 else n


# ---- arrays of records and of quantities


def codes_of(layouts, kind, fields, count, points):
    if layouts is VELOCITIES:
        return [kind] + [fields.get(name, 0) for name in MOVES]
    padded = points + [NOWHERE] * (15 - len(points))
    return in_32_bits([kind, count] + [fields.get(name, 0) for name in CODES] + [point[name] for point in padded for name, _ in POINT])


def record_of(layouts, codes):
    if layouts is VELOCITIES:
        return codes[0], dict(zip(MOVES, codes[1:7])), 0, []
    fields = dict(zip(CODES, codes[2:16]), longitude=signed_32(codes[4]))
    points = [{"south": s, "latitude": n, "longitude": signed_32(m)} for s, n, m in zip(codes[16:61:3], codes[17:61:3], codes[18:61:3])]
    return codes[0], fields, codes[1], points


def quantities_of(layouts, kind, given, count, points):
    present = lambda name: MISSING if given[name] is None else given[name]
    if layouts is VELOCITIES:
        return [kind] + [present(name) for name in MOTION_NAMES]
    padded = list(points) + [(0, 0)] * (15 - len(points))
    return [kind, count] + [present(name) for name in QUANTITIES] + [x for point in padded for x in point]


# ---- the calls: the answer, and on 0 what is put


def read(layouts, octets):
    answer, record = messages.read(layouts, bytes(octets))
    if answer:
        return answer, []
    kind, fields, points = record
    return 0, codes_of(layouts, kind, fields, len(points), points)


def write(layouts, codes):
    if len(codes) < (61 if layouts is SHAPES else 7):
        return 3, []
    kind, fields, count, points = record_of(layouts, codes)
    answer, message = messages.write(layouts, ORDER if layouts is SHAPES else MOVES, kind, fields, count, points, 128)
    return answer, list(message)


def report(layouts, codes):
    answer, _ = write(layouts, codes)
    if answer:
        return answer, []
    kind, fields, count, points = record_of(layouts, codes)
    used = {name for name, _ in layouts.get(kind, [])}
    names = QUANTITIES if layouts is SHAPES else MOTION_NAMES
    given = {name: travels.reported(name, fields) if name in used else travels.unused_value(name) for name in names}
    return 0, quantities_of(layouts, kind, given, count, [(travels.latitude(p), travels.longitude(p)) for p in points[:count]])


def code(layouts, quantities):
    if len(quantities) < (44 if layouts is SHAPES else 6):
        return 3, []
    names = QUANTITIES if layouts is SHAPES else MOTION_NAMES
    kind, count, first = (quantities[0], quantities[1], 2) if layouts is SHAPES else (quantities[0], 0, 1)
    given = dict(zip(names, quantities[first:]))
    width = dict(SHAPE_FIELDS if layouts is SHAPES else VELOCITY_FIELDS)
    held = True
    for name in names:
        if given[name] == MISSING and name in travels.MAY_BE_MISSING:
            given[name] = None
        else:
            held = held and width[name][0] <= given[name] <= width[name][1]
    points = list(zip(quantities[14:44:2], quantities[15:44:2]))
    if not held:
        # another number than 2 and 4 only when every quantity arrives
        given = {name: travels.unused_value(name) for name in names}
    answer, codes, point_codes = travels.coded(layouts, kind, given, count, points)
    if answer in (2, 4) or held:
        return (answer, []) if answer else (0, codes_of(layouts, kind, codes, count, point_codes))
    return 7, []


def choose(numbers):
    listed, request = numbers[0], [None if n == MISSING else n for n in numbers[1:]]
    if len(request) < 8:
        return 3, []
    request = choosing.request_of(choosing.line_of(*request[:8]))
    if request is choosing.UNREADABLE:
        return 7, []
    answer, best = choosing.choose(request, listed, 14)
    return answer, list(best)


def code_one(numbers):
    field, quantity = numbers
    names = list(coding.FIELDS)
    if field >= len(names):
        return 2, []
    text = b"-" if quantity == MISSING else b"%d" % quantity
    try:
        found = coding.coded(names[field], [text])
    except coding.Refused as refusal:
        return int(str(refusal)), []
    return (7, []) if found is None else (0, in_32_bits(found))


def report_one(numbers):
    field, *given = numbers
    names = list(coding.FIELDS)
    if field >= len(names):
        return 2, []
    takes = 2 if names[field] in coding.TWO_NUMBERS else 1
    if len(given) < takes:
        return 3, []
    given = [signed_32(n) for n in given] if names[field] == "longitude" else given
    try:
        quantity = coding.FIELDS[names[field]][2](*given[:takes])
    except coding.Refused as refusal:
        return int(str(refusal)), []
    return 0, [MISSING if quantity is None else quantity]


CALLS = {"choose": choose, "code": code_one, "report": report_one}
for call in (read, write, report, code):
    for what, layouts in (("shape", SHAPES), ("velocity", VELOCITIES)):
        CALLS[call.__name__ + "-" + what] = lambda numbers, call=call, layouts=layouts: call(layouts, numbers)


def answered(verb, room, numbers):
    answer, put = CALLS[verb](numbers)
    if not answer and len(put) > room:
        answer = 10
    if answer:
        return [-answer] + [BEFORE] * room
    return [len(put)] + put + [BEFORE] * (room - len(put))


# ---- the cases

ROOM = {"read-shape": 61, "write-shape": 92, "report-shape": 44, "code-shape": 61, "read-velocity": 7, "write-velocity": 8, "report-velocity": 6,
        "code-velocity": 7, "choose": 15, "code": 3, "report": 2}


def message_cases():
    for line in messages.cases(random.Random(23032)):
        verb, *words = line.split(" ")
        what = verb.split("-")[-1]
        if not verb.startswith("put-"):
            octets = [] if words == ["-"] else list(bytes.fromhex(words[0]))
            yield "read-" + what, ROOM["read-" + what], octets
        else:
            room, kind, *numbers = map(int, words)
            layouts, order = (SHAPES, ORDER) if what == "shape" else (VELOCITIES, MOVES)
            codes = codes_of(layouts, kind, dict(zip(order, numbers)), numbers[-1], [])
            yield "write-" + what, room, codes
            yield "report-" + what, ROOM["report-" + what], codes


def quantity_cases():
    for line in travels.cases().split("\n"):
        name, *words = line.split(" ")
        if name not in ("shape", "velocity") or len(line) > 4096:
            continue
        layouts, fields = (SHAPES, SHAPE_FIELDS) if name == "shape" else (VELOCITIES, VELOCITY_FIELDS)
        numbers = [MISSING if word == "-" else coding.number(word.encode()) for word in words]
        rest = numbers[len(fields):]
        if len(numbers) < len(fields) or None in numbers or not all(-2**63 <= n < 2**63 for n in numbers) or len(rest) % 2 or len(rest) > 30:
            continue
        given = dict(zip((called for called, _ in fields), numbers))
        points = list(zip(rest[::2], rest[1::2]))
        quantities = quantities_of(layouts, given["type"], given, given.get("count", 0), points)
        yield "code-" + name, ROOM["code-" + name], quantities
        answer, codes = code(layouts, quantities)
        if not answer:
            yield "report-" + name, ROOM["report-" + name], codes


def point_cases(pick):
    """Each number of each point of a polygon outside its field, and not zero after the last point."""
    for count in (3, 4, 15):
        points = [{"south": pick.randrange(2), "latitude": pick.randrange(2**23), "longitude": pick.randrange(-2**23, 2**23)} for _ in range(count)]
        good = codes_of(SHAPES, 5, {}, count, points)
        for at in range(16, 61):
            for n in {0: (2, 255, 2**32 - 1), 1: (2**23, 2**32 - 1), 2: (2**23, 2**32 - 2**23 - 1)}[(at - 16) % 3] + (1,):
                codes = good[:at] + [n] + good[at + 1:]
                yield "write-shape", ROOM["write-shape"], codes
                yield "report-shape", ROOM["report-shape"], codes


def room_cases(pick):
    """Arrays that are given and too short, and arrays that are filled and too short."""
    codes = codes_of(SHAPES, 3, {"major": 20, "minor": 19, "confidence": 68}, 0, [])
    polygon = codes_of(SHAPES, 5, {}, 3, [{"south": 1, "latitude": n, "longitude": -n} for n in (1, 2, 3)])
    wrong = codes_of(SHAPES, 3, {"orientation": 180}, 0, [])
    for given in (codes, polygon, wrong, [2] + codes[1:]):
        for n in (0, 1, 16, 60, 61, 62):
            yield "write-shape", 92, (given + [7])[:n]
            yield "report-shape", 44, (given + [7])[:n]
        for room in (0, 1, 10, 11, 12, 18, 19, 20, 43, 44, 45):
            yield "write-shape", room, given
            yield "report-shape", room, given
        answer, quantities = report(SHAPES, given)
        for n in (0, 1, 14, 43, 44, 45) if not answer else ():
            yield "code-shape", 61, (quantities + [7])[:n]
        for room in (0, 1, 60, 61, 62) if not answer else ():
            yield "code-shape", room, quantities
        answer, octets = write(SHAPES, given)
        for room in (0, 1, 60, 61, 62) if not answer else ():
            yield "read-shape", room, octets
    for given in ([3, 300, 90, 1, 2, 255, 4], [3, 360, 90, 1, 2, 255, 4], [4] + [0] * 6):
        for n in (0, 1, 6, 7, 8):
            yield "write-velocity", 8, (given + [7])[:n]
            yield "report-velocity", 6, (given + [7])[:n]
        for room in range(9):
            yield "write-velocity", room, given
            yield "report-velocity", room, given
        answer, quantities = report(VELOCITIES, given)
        for n in (0, 1, 5, 6, 7) if not answer else ():
            yield "code-velocity", 7, (quantities + [7])[:n]
        for room in range(9) if not answer else ():
            yield "code-velocity", room, quantities
            yield "read-velocity", room, write(VELOCITIES, given)[1]


def choice_cases():
    for line in choosing.choices_input().split(b"\n")[:-1]:
        listed, room, *words = line.split(b" ")
        listed = choosing.number(listed, 0, 2**16 - 1)
        if listed is not choosing.UNREADABLE:
            request = [MISSING if word == b"-" else int(word) for word in words]
            yield "choose", int(room), [listed] + request
    for line in [*choosing.boundaries(), *choosing.orders(), *choosing.strange()]:
        words = line.split(b" ") if len(line) <= 4096 else [b"x"]
        request = [MISSING if word == b"-" else coding.number(word) for word in words]
        if None not in request and all(-2**63 <= n < 2**63 for n in request) and len(request) <= 8:
            yield "choose", 15, [choosing.ALL] + request


def single_cases():
    names = list(coding.FIELDS)
    for line in (HERE / "coder" / "stdin").read_bytes().split(b"\n"):
        verb, *words = line.split(b" ")
        name = words[0].decode("latin-1") if words else ""
        numbers = [MISSING if word == b"-" else coding.number(word) for word in words[1:]] if len(line) <= 4096 else [None]
        if name not in names or None in numbers:
            continue
        if verb == b"code" and len(numbers) == 1 and -2**63 <= numbers[0] < 2**63:
            yield "code", 3, [names.index(name)] + numbers
        if verb == b"report" and all(-2**31 <= n < 2**32 for n in numbers) and (name == "longitude" or all(n >= 0 for n in numbers)):
            yield "report", 2, [names.index(name)] + in_32_bits(numbers)
    for field in (*range(14), 14, 15, 255):
        for room in range(3):
            yield "code", room, [field, 90]
            yield "report", room, [field, 1, 90]
        yield "code", 3, [field, MISSING]
        yield "report", 2, [field]
        yield "report", 2, [field, 1]


def cases():
    pick = random.Random(23032)
    seen = {}
    for verb, room, numbers in [*message_cases(), *quantity_cases(), *point_cases(pick), *room_cases(pick), *choice_cases(), *single_cases()]:
        line = " ".join([verb, str(room)] + ["-" if n == MISSING else str(n) for n in numbers])
        if line not in seen:
            seen[line] = answered(verb, room, numbers)
    return seen.items()


def main():
    made = cases()
    (HERE / "trials" / "stdin").write_text("".join(line + "\n" for line, _ in made))
    (HERE / "trials" / "stdout").write_text(
        "".join("%d %s\n" % (i, " ".join(map(str, said))) for i, (_, said) in enumerate(made, 1)) + "end %d\n" % len(made))


if __name__ == "__main__":
    main()
