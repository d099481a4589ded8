#include "some.h"

#include "../include/gad.h"
#include "coder.h"

// ---- Messages ----

#define START {4, 4, SPARE}, {8, 1, SIGN}, {9, 23, LATITUDE_BITS}, {32, 24, LONGITUDE_BITS}
#define MOVING {7, 9, BEARING_BITS}, {16, 16, SIXTEEN}

const struct field shape_fields[16][16] = {
    [POINT] = {START},
    [CIRCLE] = {START, {56, 1, SPARE}, {57, 7, SEVEN}},
    [ELLIPSE] = {START, {56, 1, SPARE}, {57, 7, SEVEN}, {64, 1, SPARE}, {65, 7, SEVEN}, {72, 8, ANGLE}, {80, 1, SPARE}, {81, 7, CONFIDENCE_BITS}},
    [ALTITUDE] = {START, {56, 1, SIGN}, {57, 15, ALTITUDE_BITS}},
    [ELLIPSOID] = {START, {56, 1, SIGN}, {57, 15, ALTITUDE_BITS}, {72, 1, SPARE}, {73, 7, SEVEN}, {80, 1, SPARE}, {81, 7, SEVEN}, {88, 8, ANGLE},
        {96, 1, SPARE}, {97, 7, SEVEN}, {104, 1, SPARE}, {105, 7, CONFIDENCE_BITS}},
    [ARC] = {START, {56, 16, SIXTEEN}, {72, 1, SPARE}, {73, 7, SEVEN}, {80, 8, ANGLE}, {88, 8, ANGLE}, {96, 1, SPARE}, {97, 7, CONFIDENCE_BITS}},
};
const uint8_t shape_octets[16] = {[POINT] = 7, [CIRCLE] = 8, [ELLIPSE] = 11, [ALTITUDE] = 9, [ELLIPSOID] = 14, [ARC] = 13};

const struct field velocity_fields[4][16] = {
    {{4, 3, SPARE}, MOVING},
    {{4, 2, SPARE}, {6, 1, SIGN}, MOVING, {32, 8, EIGHT}},
    {{4, 3, SPARE}, MOVING, {32, 8, EIGHT}},
    {{4, 2, SPARE}, {6, 1, SIGN}, MOVING, {32, 8, EIGHT}, {40, 8, EIGHT}, {48, 8, EIGHT}},
};
const uint8_t velocity_octets[4] = {4, 5, 5, 7};

void put_bits(uint8_t *message, uint32_t first, uint32_t width, uint32_t code)
{
    for (uint32_t i = 0; i < width; i++) {
        uint32_t bit = first + i;
        uint8_t mask = (uint8_t)(128 >> (bit & 7));
        if (code >> (width - 1 - i) & 1)
            message[bit >> 3] |= mask;
        else
            message[bit >> 3] &= (uint8_t)~mask;
    }
}

static uint32_t some_code(enum what what, uint32_t width)
{
    static const uint32_t angles[] = {0, 1, 89, 90, 178, 179, 180, 181, 255};
    static const uint32_t confidences[] = {0, 1, 50, 99, 100, 101, 102, 127};
    static const uint32_t bearings[] = {0, 1, 255, 256, 257, 358, 359, 360, 361, 510, 511};
    uint32_t most = (uint32_t)((UINT64_C(1) << width) - 1);
    if (what == SPARE)
        return one_in(2) ? 0 : (uint32_t)chance() & most;
    if (what == SIGN)
        return below(2);
    if (one_in(8)) {
        uint32_t half = most / 2;
        uint32_t ends[] = {0, 1, 2, half - 1, half, half + 1, half + 2, most - 2, most - 1, most};
        switch (what) {
        case ANGLE:
            return PICK(angles);
        case CONFIDENCE_BITS:
            return PICK(confidences);
        case BEARING_BITS:
            return PICK(bearings);
        default:
            return PICK(ends);
        }
    }
    if (one_in(32)) // a small number, or one of few digits
        return below(1200) & most;
    uint32_t usual = what == ANGLE ? 180 : what == CONFIDENCE_BITS ? 101 : what == BEARING_BITS ? 360 : 0;
    return usual && !one_in(64) ? below(usual) : (uint32_t)chance() & most;
}

void fill_fields(uint8_t *message, const struct field *field)
{
    for (; field->width != 0; field++)
        put_bits(message, field->first, field->width, some_code(field->what, field->width));
}

void fill_octets(uint8_t *message, size_t length)
{
    for (size_t i = 0; i < length; i++)
        message[i] = (uint8_t)chance();
}

static size_t some_polygon(uint8_t *message)
{
    uint32_t count = one_in(16) ? below(3) : 3 + below(13);
    message[0] = (uint8_t)(0x50 | count);
    for (uint32_t i = 0; i < count; i++) {
        put_bits(message, 8 + 48 * i, 1, below(2));
        put_bits(message, 9 + 48 * i, 23, some_code(LATITUDE_BITS, 23));
        put_bits(message, 32 + 48 * i, 24, some_code(LONGITUDE_BITS, 24));
    }
    return 1 + 6 * count;
}

size_t some_shape(uint8_t *message)
{
    static const uint8_t types[] = {POINT, CIRCLE, CIRCLE, ELLIPSE, ELLIPSE, POLYGON, ALTITUDE, ELLIPSOID, ELLIPSOID, ARC, ARC};
    uint32_t type = PICK(types);
    if (type == POLYGON)
        return some_polygon(message);
    put_bits(message, 0, 4, type);
    fill_fields(message, shape_fields[type]);
    return shape_octets[type];
}

size_t some_velocity(uint8_t *message)
{
    uint32_t type = below(4);
    put_bits(message, 0, 4, type);
    fill_fields(message, velocity_fields[type]);
    return velocity_octets[type];
}

size_t damage(uint8_t *message, size_t length)
{
    switch (below(8)) {
    case 0: // cut
        return length == 0 ? 0 : below((uint32_t)length);
    case 1: // one octet less or more
        return one_in(2) && length > 0 ? length - 1 : length < LONGEST_MESSAGE ? length + 1 : length;
    case 2: // longer
        return length + below((uint32_t)(LONGEST_MESSAGE + 1 - length));
    case 3: // a flipped bit
        if (length > 0)
            message[below((uint32_t)length)] ^= (uint8_t)(1 << below(8));
        return length;
    case 4: // another type
        put_bits(message, 0, 4, below(16));
        return length;
    case 5: // another polygon count
        message[0] = (uint8_t)(0x50 | below(16));
        return length;
    case 6: // anything
        fill_octets(message, LONGEST_MESSAGE);
        return below(LONGEST_MESSAGE + 1);
    default: // a few octets of anything
        fill_octets(message, LONGEST_MESSAGE);
        return below(20);
    }
}

// ---- Quantities at and around the boundaries of their codes ----

static int64_t around(int64_t x)
{
    static const int steps[] = {-1, 0, 0, 1};
    return x + PICK(steps);
}

static int64_t signed_at_random(int64_t x)
{
    return one_in(2) ? -x : x;
}

// A coordinate of either sign: at an end, out of range, anywhere up to the most, or about where a code starts.
static int64_t some_coordinate(int64_t end, int64_t beyond, int64_t most, int64_t (*start)(uint32_t code))
{
    if (one_in(60))
        return one_in(8) ? INT64_MIN : signed_at_random(beyond);
    if (one_in(6))
        return signed_at_random(end);
    uint32_t code = one_in(8) ? below(8) : one_in(8) ? 8388607 - below(8) : (uint32_t)chance() & 8388607;
    if (one_in(3))
        return signed_at_random((int64_t)(chance() % (uint64_t)(most + 1)));
    return signed_at_random(around(start(code)));
}

static int64_t north(uint32_t code)
{
    return latitude_of(0, code);
}

static int64_t east(uint32_t code)
{
    return longitude_of((int32_t)code);
}

static int64_t some_latitude(void)
{
    static const int64_t ends[] = {0, 1, 2, 10727, 10728, 10729, 21457, 21458, 89999989270, 89999989271, 89999989272, 90000000000};
    static const int64_t beyond[] = {90000000001, 90000000002, 180000000000, 8589934592, INT64_MAX};
    return some_coordinate(PICK(ends), PICK(beyond), NINETY_DEGREES, north);
}

static int64_t some_longitude(void)
{
    static const int64_t ends[] = {0, 1, 2, 21456, 21457, 21458, 21459, 42915, 179999978542, 179999978543, 179999999999, 180000000000};
    static const int64_t beyond[] = {180000000001, 180000000002, 360000000000, 17179869184, INT64_MAX};
    return some_coordinate(PICK(ends), PICK(beyond), HALF_TURN, east);
}

static int64_t some_altitude(void)
{
    static const int64_t ends[] = {0, 1, 999, 1000, 1001, 32766999, 32767000, 32767999, 32768000, 2147483646, 2147483647};
    if (one_in(4))
        return one_in(16) ? INT32_MIN : signed_at_random(PICK(ends));
    if (one_in(4))
        return signed_at_random(chance() >> 33);
    return signed_at_random(around(1000 * (int64_t)(1 + below(32768))));
}

static int64_t some_entry(const uint32_t table[128])
{
    if (one_in(64))
        return one_in(2) ? (int64_t)table[127] + 1 + below(3) : (int64_t)(table[127] + (chance() >> 32) % (UINT32_MAX - table[127] + UINT64_C(1)));
    if (one_in(4))
        return below(table[127] + 1);
    uint32_t entry = table[one_in(8) ? 127 - below(3) : below(128)];
    return entry == 0 ? below(3) : (int64_t)entry - 1 + below(3);
}

static int64_t some_angle(uint32_t step, uint32_t whole)
{
    if (one_in(64)) {
        uint32_t beyond[] = {whole, whole + 1, 2 * whole, UINT32_MAX};
        return PICK(beyond);
    }
    if (one_in(4))
        return below(whole);
    int64_t a = around((int64_t)step * below(whole / step + 1));
    return a < 0 ? 0 : one_in(2) && a >= whole ? whole - 1 : a;
}

static int64_t some_speed(int64_t most)
{
    static const int64_t ends[] = {0, 1, 499, 500, 501, 1499, 1500};
    if (one_in(8))
        return PICK(ends);
    if (one_in(16))
        return most - below(1200);
    if (one_in(8))
        return (int64_t)((chance() >> 32) % ((uint64_t)most + 1));
    int64_t h = 500 * (int64_t)below(one_in(2) ? 600 : 131080);
    h = around(h);
    return h < 0 ? 0 : h > most ? most : h;
}

static int64_t some_confidence(void)
{
    static const int64_t odd[] = {0, 1, 2, 99, 100, 101, 127, 128, 255, 256, 257, 356, 65536, 4294967295};
    return one_in(16) ? PICK(odd) : 1 + below(100);
}

int64_t some_quantity(uint32_t field)
{
    switch (field) {
    case GAD_FIELD_LATITUDE:
        return some_latitude();
    case GAD_FIELD_LONGITUDE:
        return some_longitude();
    case GAD_FIELD_UNCERTAINTY:
        return some_entry(radius_table);
    case GAD_FIELD_ALTITUDE_UNCERTAINTY:
        return some_entry(height_table);
    case GAD_FIELD_ALTITUDE:
        return some_altitude();
    case GAD_FIELD_INNER_RADIUS:
        return one_in(8) ? (int64_t)(chance() >> 32) : around(5000 * (int64_t)(1 + below(65540)));
    case GAD_FIELD_OFFSET:
    case GAD_FIELD_INCLUDED:
        return some_angle(2000, 360000);
    case GAD_FIELD_ORIENTATION:
        return some_angle(1000, 180000);
    case GAD_FIELD_BEARING:
        return some_angle(1000, 360000);
    case GAD_FIELD_HORIZONTAL_SPEED:
        return some_speed(UINT32_MAX);
    case GAD_FIELD_VERTICAL_SPEED:
        return one_in(100) ? INT32_MIN : signed_at_random(some_speed(INT32_MAX));
    case GAD_FIELD_UNCERTAINTY_SPEED:
        return one_in(8) ? around(254000) : one_in(8) ? (int64_t)(chance() >> 32) : around(1000 * (int64_t)(1 + below(260)));
    default:
        return some_confidence();
    }
}

const int64_t last_codes[GAD_FIELDS] = {8388607, 8388607, 127, 127, 32767, 65535, 179, 179, 179, 359, 65535, 255, 255, 100};

int64_t some_code_number(uint32_t field)
{
    int64_t limit = last_codes[field];
    if (one_in(8)) {
        int64_t odd[] = {0, 1, limit - 1, limit, limit + 1, limit + 2, 2 * limit + 1, 255, 256, 65535, 65536, 16777215, 16777216, 4294967295,
            4294967296, INT64_MAX, -1, -limit, -limit - 1, -limit - 2, -2147483648, INT64_MIN};
        return PICK(odd);
    }
    int64_t code = (int64_t)(chance() % (uint64_t)(limit + 1));
    return field == GAD_FIELD_LONGITUDE && one_in(2) ? -1 - code : code;
}

// ---- Requests ----

// A semi-major and a semi-minor, most of the time in this order, often close together.
static void some_axes(int64_t *major, int64_t *minor)
{
    *major = some_entry(radius_table);
    *minor = some_entry(radius_table);
    if (one_in(4) && *major > 0)
        *minor = *major - below(3);
    if (*minor < 0)
        *minor = 0;
    if (*minor > *major && !one_in(40)) {
        int64_t swap = *minor;
        *minor = *major;
        *major = swap;
    }
}

enum { COORDINATES_GIVEN = 3, ALTITUDE_GIVEN = 4, CIRCLE_GIVEN = 8, ELLIPSE_GIVEN = 56, VERTICAL_GIVEN = 64, CONFIDENCE_GIVEN = 128 };

static uint32_t some_form(void)
{
    if (one_in(50))
        return (uint32_t)chance() & 255;
    static const uint32_t horizontal[] = {0, CIRCLE_GIVEN, ELLIPSE_GIVEN, ELLIPSE_GIVEN, ELLIPSE_GIVEN, CIRCLE_GIVEN};
    uint32_t form = COORDINATES_GIVEN | PICK(horizontal);
    int high = one_in(3);
    if (high)
        form |= ALTITUDE_GIVEN;
    if (high ? !one_in(4) : one_in(10))
        form |= VERTICAL_GIVEN;
    if (one_in(3))
        form |= CONFIDENCE_GIVEN;
    return form;
}

struct wanted some_request(void)
{
    struct wanted wanted = {.given = some_form()};
    wanted.value[0] = some_latitude();
    wanted.value[1] = some_longitude();
    wanted.value[2] = some_altitude();
    some_axes(&wanted.value[3], &wanted.value[4]);
    wanted.value[5] = some_angle(1000, 180000);
    wanted.value[6] = some_entry(height_table);
    wanted.value[7] = some_confidence();
    return wanted;
}

void put_request(uint32_t given, const int64_t value[REQUEST_FIELDS], int64_t elements[REQUEST_FIELDS])
{
    for (uint32_t i = 0; i < REQUEST_FIELDS; i++)
        elements[i] = given >> i & 1 ? value[i] : GAD_MISSING;
}
