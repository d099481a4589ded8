"""Messages and records from document 01 alone: what reading and writing give, and cases of both for `trials.py`.

Nothing here is taken from the coder: messages are put together and taken apart as strings of bits, octet by octet in
the order of document 01, "Octet layouts"; the answers follow its "Refusal numbers".
"""
TYPES = (0, 1, 3, 5, 8, 9, 10)
START = [("spare", 4), ("south", 1), ("latitude", 23), ("longitude", 24)]
# after the four bits of the type
SHAPES = {
    0: START,
    1: START + [("spare", 1), ("uncertainty", 7)],
    3: START + [("spare", 1), ("major", 7), ("spare", 1), ("minor", 7), ("orientation", 8), ("spare", 1), ("confidence", 7)],
    8: START + [("depth", 1), ("altitude", 15)],
    9: START + [("depth", 1), ("altitude", 15), ("spare", 1), ("major", 7), ("spare", 1), ("minor", 7), ("orientation", 8),
                ("spare", 1), ("height", 7), ("spare", 1), ("confidence", 7)],
    10: START + [("inner", 16), ("spare", 1), ("uncertainty", 7), ("offset", 8), ("included", 8), ("spare", 1), ("confidence", 7)],
}
VELOCITIES = {
    0: [("spare", 3), ("bearing", 9), ("speed", 16)],
    1: [("spare", 2), ("down", 1), ("bearing", 9), ("speed", 16), ("vertical", 8)],
    2: [("spare", 3), ("bearing", 9), ("speed", 16), ("unsure", 8)],
    3: [("spare", 2), ("down", 1), ("bearing", 9), ("speed", 16), ("vertical", 8), ("unsure", 8), ("unsure up", 8)],
}
ORDER = ["south", "latitude", "longitude", "depth", "altitude", "uncertainty", "major", "minor", "orientation", "height",
         "confidence", "inner", "offset", "included"]
MOVES = ["bearing", "speed", "down", "vertical", "unsure", "unsure up"]
POINT = [("south", 1), ("latitude", 23), ("longitude", 24)]


def signed(n):
    return n - (1 << 24) if n >> 23 else n


def taken_apart(elements, bits):
    fields = {}
    for name, width in elements:
        part, bits = bits[:width], bits[width:]
        if name != "spare":
            fields[name] = signed(int(part, 2)) if name == "longitude" else int(part, 2)
    assert not bits
    return fields


def put_together(elements, fields):
    return "".join(format(0 if name == "spare" else fields[name] % (1 << width), "0%db" % width) for name, width in elements)


def octets(bits):
    assert len(bits) % 8 == 0
    return bytes(int(bits[i:i + 8], 2) for i in range(0, len(bits), 8))


def length_of(elements):
    return (4 + sum(width for _, width in elements)) // 8


def too_large(fields):
    if any(fields.get(name, 0) >= 180 for name in ("orientation", "offset", "included")) or fields.get("bearing", 0) >= 360:
        return 5
    return 6 if fields.get("confidence", 0) >= 101 else 0


def read(layouts, message):
    """The answer, and on 0 the type, the fields and the points."""
    if not message:
        return 1, None
    kind = message[0] >> 4
    bits = "".join(format(octet, "08b") for octet in message)
    if layouts is SHAPES and kind == 5:
        count = message[0] & 15
        if count < 3:
            return 4, None
        if len(message) != 1 + 6 * count:
            return 3, None
        return 0, (5, {}, [taken_apart(POINT, bits[8 + 48 * i:56 + 48 * i]) for i in range(count)])
    if kind not in layouts:
        return 2, None
    elements = layouts[kind]
    if len(message) != length_of(elements):
        return 3, None
    fields = taken_apart(elements, bits[4:])
    answer = too_large(fields)
    return (answer, None) if answer else (0, (kind, fields, []))


def in_field(name, width, n):
    return -(1 << 23) <= n < 1 << 23 if name == "longitude" else 0 <= n < 1 << width


def write(layouts, order, kind, fields, count, points, room):
    """The answer, and on 0 the message. `fields` has a number for every name of `order`."""
    listed = kind in TYPES if layouts is SHAPES else kind in layouts
    if not listed:
        return 2, b""
    polygon = layouts is SHAPES and kind == 5
    if polygon and not 3 <= count <= 15:
        return 4, b""
    elements = [] if polygon else layouts[kind]
    used = {name for name, _ in elements}
    answer = too_large({name: fields[name] for name in used if name != "spare"})
    if answer:
        return answer, b""
    if any(fields[name] for name in order if name not in used):
        return 7, b""
    if not all(in_field(name, width, fields[name]) for name, width in elements if name != "spare"):
        return 7, b""
    if not polygon and count:
        return 7, b""
    n = count if polygon else 0
    if any(point[name] for point in points[n:] for name, _ in POINT):
        return 7, b""
    if not all(in_field(name, width, point[name]) for point in points[:n] for name, width in POINT):
        return 7, b""
    bits = format(kind, "04b")
    bits += format(count, "04b") + "".join(put_together(POINT, point) for point in points[:n]) if polygon else put_together(elements, fields)
    message = octets(bits)
    return (10, b"") if len(message) > room else (0, message)


def hexed(message):
    return message.hex() or "-"


# ---- the cases

def put_shape(room, kind, count=0, **fields):
    return "put-shape " + " ".join(map(str, [room, kind] + [fields.get(name, 0) for name in ORDER] + [count]))


def put_velocity(room, kind, *numbers):
    return "put-velocity " + " ".join(map(str, (room, kind) + numbers))


def cases(pick):
    lines = ["shape -", "velocity -"]
    some = lambda n: bytes(pick.randrange(256) for _ in range(n))
    # every type number, at every length near its own, spare bits set and not
    for kind in range(16):
        own = length_of(SHAPES[kind]) if kind in SHAPES else 7
        for n in sorted({1, own - 1, own, own + 1}):
            for first in (kind << 4, kind << 4 | 15):
                body = bytearray(bytes([first]) + some(n - 1))
                for at in ((9,) if kind == 3 else (11,) if kind == 9 else (10, 11) if kind == 10 else ()):
                    if at < n:
                        body[at] %= 180
                if kind in (3, 9, 10) and n == own:
                    body[-1] = pick.randrange(101) | pick.choice((0, 128))
                lines.append("shape " + hexed(bytes(body)))
    for kind in range(16):
        own = length_of(VELOCITIES[kind]) if kind in VELOCITIES else 4
        for n in sorted({1, own - 1, own, own + 1}):
            for low in (0, 2, 12, 14):
                lines.append("velocity " + hexed(bytes([kind << 4 | low]) + some(n - 1)))
    # polygons: every count, its length and one octet and one point more and less
    for count in range(16):
        for n in (1, 6 * count - 5, 6 * count, 1 + 6 * count, 2 + 6 * count, 7 + 6 * count):
            if n > 0:
                lines.append("shape " + hexed(bytes([0x50 | count]) + some(n - 1)))
    # ends of every code, and 5 before 6
    start = bytes.fromhex("FFFFFF800000")
    zero = bytes(6)
    for body in (zero, start, bytes.fromhex("7FFFFF7FFFFF"), bytes.fromhex("800000FFFFFF")):
        lines += ["shape " + hexed(b"\x00" + body), "shape " + hexed(b"\x10" + body + b"\x7f"), "shape " + hexed(b"\x1f" + body + b"\xff"),
                  "shape " + hexed(b"\x80" + body + b"\xff\xff"), "shape " + hexed(b"\x80" + body + b"\x80\x00")]
    for angle in (0, 179, 180, 255):
        for sure in (0, 100, 101, 127, 128, 228, 229, 255):
            lines.append("shape " + hexed(b"\x30" + zero + bytes([127, 255, angle, sure])))
            lines.append("shape " + hexed(b"\x90" + zero + bytes([0, 1, 2, 3, angle, 200, sure])))
            lines.append("shape " + hexed(b"\xa0" + start + bytes([255, 255, 128, angle, 179, sure])))
            lines.append("shape " + hexed(b"\xa0" + start + bytes([0, 0, 127, 0, angle, sure])))
    for first, second in ((0, 0), (1, 0x67), (1, 0x68), (1, 0xFF), (3, 0x2C), (2, 0x2C), (15, 0x67)):
        for kind, rest in ((0, "FFFF"), (1, "0000FF"), (2, "800100"), (3, "7FFF80FFFE")):
            lines.append("velocity " + hexed(bytes([kind << 4 | first, second]) + bytes.fromhex(rest)))
    # records: each used field at and past its ends, each unused field not zero, each room
    ends = {"south": (0, 1), "latitude": (0, 8388607, 8388608), "longitude": (0, -8388608, 8388607, -8388609, 8388608), "depth": (0, 1),
            "altitude": (0, 32767, 32768), "uncertainty": (0, 127, 128, 255), "major": (0, 127, 128), "minor": (0, 127, 128),
            "orientation": (0, 179, 180, 255), "height": (0, 127, 128), "confidence": (0, 100, 101, 255), "inner": (0, 65535),
            "offset": (0, 179, 180), "included": (0, 179, 180, 255)}
    for kind in (2, 4, 6, 7, 11, 15):
        lines.append(put_shape(20, kind))
    for kind in TYPES:
        for name, numbers in ends.items():
            for n in numbers:
                lines.append(put_shape(32, kind, 3 if kind == 5 else 0, **{name: n}))
        for room in (0, 6, 7, 8, 9, 10, 11, 12, 13, 14, 18, 19):
            lines.append(put_shape(room, kind, 3) if kind == 5 else put_shape(room, kind, south=1))
        lines.append(put_shape(20, kind, 1))
        lines.append(put_shape(20, kind, orientation=180, confidence=101, latitude=8388608))
        lines.append(put_shape(20, kind, confidence=101, latitude=8388608))
        lines.append(put_shape(20, kind, offset=180, included=180, confidence=127))
    for count in (0, 1, 2, 3, 14, 15, 16, 17, 255):
        for room in (6 * count % 96, 1 + 6 * count % 96, 100):
            lines.append(put_shape(room, 5, count))
    for kind in (0, 1, 2, 3, 4, 15):
        for numbers in ((0, 0, 0, 0, 0, 0), (359, 65535, 0, 0, 0, 0), (360, 0, 0, 0, 0, 0), (65535, 1, 1, 1, 1, 1), (1, 2, 1, 0, 0, 0),
                        (1, 2, 0, 255, 0, 0), (1, 2, 0, 0, 255, 0), (1, 2, 0, 0, 0, 255), (256, 3, 1, 4, 5, 6), (300, 90, 1, 200, 0, 0)):
            for room in (3, 4, 5, 6, 7, 9):
                lines.append(put_velocity(room, kind, *numbers))
    return lines
