#include "coder.h"

#include <string.h>

// ---- The two radius tables, exact ----

enum { LIMBS = 24 }; // 45000·41^127 has 697 bits

static void multiply(uint32_t number[LIMBS], uint32_t factor)
{
    uint64_t carry = 0;
    for (int i = 0; i < LIMBS; i++) {
        carry += (uint64_t)number[i] * factor;
        number[i] = (uint32_t)carry;
        carry >>= 32;
    }
}

static void divide(uint32_t number[LIMBS], uint32_t divisor)
{
    uint64_t rest = 0;
    for (int i = LIMBS - 1; i >= 0; i--) {
        rest = rest << 32 | number[i];
        number[i] = (uint32_t)(rest / divisor);
        rest %= divisor;
    }
}

// table[K] = whole part of scale·((over/under)^K - 1). The whole part of a whole part divided again is that of the whole division.
static void fill_table(uint32_t table[128], uint32_t scale, uint32_t over, uint32_t under)
{
    uint32_t product[LIMBS] = {scale};
    for (int k = 0; k < 128; k++) {
        uint32_t quotient[LIMBS];
        memcpy(quotient, product, sizeof quotient);
        for (int i = 0; i < k; i++)
            divide(quotient, under);
        table[k] = quotient[0] - scale;
        multiply(product, over);
    }
}

uint32_t radius_table[128];
uint32_t height_table[128];

void prepare_tables(void)
{
    fill_table(radius_table, 10000, 11, 10);
    fill_table(height_table, 45000, 41, 40);
}

// The least K with r <= table[K], for an r that the last entry covers. Seven halvings, no branch.
static inline uint32_t least_covering(const uint32_t table[128], uint32_t r)
{
    uint32_t k = 0;
    k += (uint32_t)(table[k + 63] < r) << 6;
    k += (uint32_t)(table[k + 31] < r) << 5;
    k += (uint32_t)(table[k + 15] < r) << 4;
    k += (uint32_t)(table[k + 7] < r) << 3;
    k += (uint32_t)(table[k + 3] < r) << 2;
    k += (uint32_t)(table[k + 1] < r) << 1;
    k += table[k] < r;
    return k;
}

// ---- Codes of quantities known to lie in their ranges ----

static inline int latitude_in_range(int64_t x)
{
    return -NINETY_DEGREES <= x && x <= NINETY_DEGREES;
}

static inline int longitude_in_range(int64_t x)
{
    return -HALF_TURN <= x && x <= HALF_TURN;
}

static inline uint32_t latitude_code(int64_t x)
{
    uint64_t size = (uint64_t)(x < 0 ? -x : x);
    uint32_t code = (uint32_t)((size << 23) / (uint64_t)NINETY_DEGREES);
    return code - (code >> 23); // 90 degrees belongs to the last code
}

static inline int32_t longitude_code(int64_t x)
{
    // Half a turn is added so that the number cut is never negative, and 2^23 taken off again.
    uint64_t east = (uint64_t)(x + HALF_TURN);
    uint32_t code = (uint32_t)((east << 24) / (uint64_t)WHOLE_TURN);
    return (int32_t)(code & 0xFFFFFF) - 8388608; // +180 is the meridian of -180
}

static inline uint32_t thousands(uint32_t size, uint32_t most)
{
    uint32_t code = size / 1000;
    return code < most ? code : most;
}

static inline uint32_t nearest_thousands(uint32_t size, uint32_t most)
{
    uint32_t code = (uint32_t)(((uint64_t)size + 500) / 1000);
    return code < most ? code : most;
}

static inline uint32_t magnitude(int32_t x)
{
    return x < 0 ? 0u - (uint32_t)x : (uint32_t)x;
}

static inline uint32_t inner_radius_code(uint32_t r)
{
    uint32_t code = r / 5000;
    return code < 65535 ? code : 65535;
}

static inline uint32_t uncertainty_speed_code(struct optional s)
{
    return s.given ? (s.value + 999) / 1000 : 255;
}

static inline uint32_t confidence_code(struct optional c)
{
    return c.given ? c.value : 0;
}

static inline int confidence_in_range(struct optional c)
{
    return !c.given || (1 <= c.value && c.value <= 100);
}

// ---- Single codes ----

enum answer code_latitude(int64_t x, uint32_t *south, uint32_t *code)
{
    if (!latitude_in_range(x))
        return OUT_OF_RANGE;
    *south = x < 0;
    *code = latitude_code(x);
    return DONE;
}

enum answer code_longitude(int64_t x, int32_t *code)
{
    if (!longitude_in_range(x))
        return OUT_OF_RANGE;
    *code = longitude_code(x);
    return DONE;
}

static inline enum answer code_entry(const uint32_t table[128], uint32_t r, uint32_t *code)
{
    if (r > table[127])
        return TOO_UNCERTAIN;
    *code = least_covering(table, r);
    return DONE;
}

enum answer code_uncertainty(uint32_t r, uint32_t *code)
{
    return code_entry(radius_table, r, code);
}

enum answer code_altitude_uncertainty(uint32_t h, uint32_t *code)
{
    return code_entry(height_table, h, code);
}

enum answer code_altitude(int32_t a, uint32_t *depth, uint32_t *code)
{
    *depth = a < 0;
    *code = thousands(magnitude(a), 32767);
    return DONE;
}

enum answer code_inner_radius(uint32_t r, uint32_t *code)
{
    *code = inner_radius_code(r);
    return DONE;
}

static inline enum answer code_angle(uint32_t a, uint32_t end, uint32_t step, uint32_t *code)
{
    if (a >= end)
        return OUT_OF_RANGE;
    *code = a / step;
    return DONE;
}

enum answer code_offset(uint32_t a, uint32_t *code)
{
    return code_angle(a, 360000, 2000, code);
}

enum answer code_included(uint32_t a, uint32_t *code)
{
    if (a == 0 || a > 360000)
        return OUT_OF_RANGE;
    *code = (a - 1) / 2000;
    return DONE;
}

enum answer code_orientation(uint32_t a, uint32_t *code)
{
    return code_angle(a, 180000, 1000, code);
}

enum answer code_bearing(uint32_t a, uint32_t *code)
{
    return code_angle(a, 360000, 1000, code);
}

enum answer code_horizontal_speed(uint32_t h, uint32_t *code)
{
    *code = nearest_thousands(h, 65535);
    return DONE;
}

enum answer code_vertical_speed(int32_t v, uint32_t *down, uint32_t *code)
{
    *down = v < 0;
    *code = nearest_thousands(magnitude(v), 255);
    return DONE;
}

enum answer code_uncertainty_speed(struct optional s, uint32_t *code)
{
    if (s.given && s.value > 254000)
        return TOO_UNCERTAIN;
    *code = uncertainty_speed_code(s);
    return DONE;
}

enum answer code_confidence(struct optional c, uint32_t *code)
{
    if (!confidence_in_range(c))
        return OUT_OF_RANGE;
    *code = confidence_code(c);
    return DONE;
}

// ---- Single reports ----

static inline int within(int64_t code, int64_t most)
{
    return 0 <= code && code <= most;
}

enum answer report_latitude(int64_t south, int64_t code, int64_t *x)
{
    if (!within(south, 1) || !within(code, 8388607))
        return OUT_OF_RANGE;
    *x = latitude_of((uint32_t)south, (uint32_t)code);
    return DONE;
}

enum answer report_longitude(int64_t code, int64_t *x)
{
    if (code < -8388608 || code > 8388607)
        return OUT_OF_RANGE;
    *x = longitude_of((int32_t)code);
    return DONE;
}

static inline enum answer report_entry(const uint32_t table[128], int64_t code, uint32_t *r)
{
    if (!within(code, 127))
        return OUT_OF_RANGE;
    *r = table[code];
    return DONE;
}

enum answer report_uncertainty(int64_t code, uint32_t *r)
{
    return report_entry(radius_table, code, r);
}

enum answer report_altitude_uncertainty(int64_t code, uint32_t *h)
{
    return report_entry(height_table, code, h);
}

enum answer report_altitude(int64_t depth, int64_t code, int32_t *a)
{
    if (!within(depth, 1) || !within(code, 32767))
        return OUT_OF_RANGE;
    *a = altitude_of((uint32_t)depth, (uint32_t)code);
    return DONE;
}

// Sixteen bits of steps.
static inline enum answer report_steps(int64_t code, uint32_t step, uint32_t *size)
{
    if (!within(code, 65535))
        return OUT_OF_RANGE;
    *size = (uint32_t)code * step;
    return DONE;
}

enum answer report_inner_radius(int64_t code, uint32_t *r)
{
    return report_steps(code, 5000, r);
}

enum answer report_horizontal_speed(int64_t code, uint32_t *h)
{
    return report_steps(code, 1000, h);
}

// The angle where step number `code` starts. A code too large is 5; one below zero is no code at all, 7.
static inline enum answer report_angle(int64_t code, int64_t most, uint32_t step, uint32_t *a)
{
    if (code > most)
        return ANGLE_CODE;
    if (code < 0)
        return OUT_OF_RANGE;
    *a = (uint32_t)code * step;
    return DONE;
}

enum answer report_offset(int64_t code, uint32_t *a)
{
    return report_angle(code, 179, 2000, a);
}

enum answer report_included(int64_t code, uint32_t *a)
{
    enum answer answer = report_angle(code, 179, 2000, a);
    if (answer == DONE)
        *a += 2000; // the end of the step
    return answer;
}

enum answer report_orientation(int64_t code, uint32_t *a)
{
    return report_angle(code, 179, 1000, a);
}

enum answer report_bearing(int64_t code, uint32_t *a)
{
    return report_angle(code, 359, 1000, a);
}

enum answer report_vertical_speed(int64_t down, int64_t code, int32_t *v)
{
    if (!within(down, 1) || !within(code, 255))
        return OUT_OF_RANGE;
    *v = vertical_speed_of((uint32_t)down, (uint32_t)code);
    return DONE;
}

enum answer report_uncertainty_speed(int64_t code, struct optional *s)
{
    if (!within(code, 255))
        return OUT_OF_RANGE;
    s->given = code != 255;
    s->value = code != 255 ? (uint32_t)code * 1000 : 0;
    return DONE;
}

enum answer report_confidence(int64_t code, struct optional *c)
{
    if (code > 100)
        return CONFIDENCE_CODE;
    if (code < 0)
        return OUT_OF_RANGE;
    c->given = code != 0;
    c->value = (uint32_t)code;
    return DONE;
}

// ---- Octets to record ----

static const uint8_t shape_length[16] = {
    [POINT] = 7, [CIRCLE] = 8, [ELLIPSE] = 11, [POLYGON] = 1, [ALTITUDE] = 9, [ELLIPSOID] = 14, [ARC] = 13,
};
static const uint8_t velocity_length[16] = {4, 5, 5, 7};

static inline uint32_t two_octets(const uint8_t *at)
{
    return (uint32_t)at[0] << 8 | at[1];
}

static inline void read_coordinates(const uint8_t *at, struct coordinates *point)
{
    point->south = at[0] >> 7;
    point->latitude = (uint32_t)(at[0] & 127) << 16 | two_octets(at + 1);
    uint32_t bits = (uint32_t)at[3] << 16 | two_octets(at + 4);
    point->longitude = (int32_t)(bits ^ 0x800000) - 0x800000;
}

static inline enum answer read_polygon(const uint8_t *message, size_t length, struct shape *shape)
{
    uint32_t count = message[0] & 15;
    if (count < 3)
        return POINT_COUNT;
    if (length != 1 + 6 * count)
        return WRONG_LENGTH;
    shape->type = POLYGON;
    shape->count = count;
    for (uint32_t i = 0; i < count; i++)
        read_coordinates(message + 1 + 6 * i, &shape->points[i]);
    return DONE;
}

static inline void read_axes(const uint8_t *at, struct shape *shape)
{
    shape->semi_major = at[0] & 127;
    shape->semi_minor = at[1] & 127;
    shape->orientation = at[2];
}

// The refusal of a message's angle codes and confidence code, in this order.
static inline enum answer check_octets(uint8_t angle, uint8_t other_angle, uint8_t confidence)
{
    if (angle >= 180 || other_angle >= 180)
        return ANGLE_CODE;
    return (confidence & 127) > 100 ? CONFIDENCE_CODE : DONE;
}

// What stands in a message after its one point. A refusal comes before anything is taken.
static inline enum answer read_fields(const uint8_t *message, uint32_t type, struct shape *shape)
{
    enum answer answer;
    switch (type) {
    case CIRCLE:
        shape->uncertainty = message[7] & 127;
        break;
    case ELLIPSE:
        answer = check_octets(message[9], 0, message[10]);
        if (answer != DONE)
            return answer;
        read_axes(message + 7, shape);
        shape->confidence = message[10] & 127;
        break;
    case ELLIPSOID:
        answer = check_octets(message[11], 0, message[13]);
        if (answer != DONE)
            return answer;
        read_axes(message + 9, shape);
        shape->altitude_uncertainty = message[12] & 127;
        shape->confidence = message[13] & 127;
        // fall through
    case ALTITUDE:
        shape->depth = message[7] >> 7;
        shape->altitude = two_octets(message + 7) & 32767;
        break;
    case ARC:
        answer = check_octets(message[10], message[11], message[12]);
        if (answer != DONE)
            return answer;
        shape->inner_radius = two_octets(message + 7);
        shape->uncertainty = message[9] & 127;
        shape->offset = message[10];
        shape->included = message[11];
        shape->confidence = message[12] & 127;
        break;
    }
    return DONE;
}

// The type of a message, of those that have a length.
static inline enum answer read_type(const uint8_t *message, size_t length, const uint8_t lengths[16], uint32_t *type)
{
    if (length == 0)
        return NO_OCTETS;
    *type = message[0] >> 4;
    return lengths[*type] == 0 ? UNKNOWN_TYPE : DONE;
}

enum answer read_shape(const uint8_t *message, size_t length, struct shape *shape)
{
    memset(shape, 0, sizeof *shape);
    shape->type = NOTHING;
    uint32_t type;
    enum answer answer = read_type(message, length, shape_length, &type);
    if (answer != DONE)
        return answer;
    if (type == POLYGON)
        return read_polygon(message, length, shape);
    if (length != shape_length[type])
        return WRONG_LENGTH;
    answer = read_fields(message, type, shape);
    if (answer != DONE)
        return answer;
    shape->type = type;
    read_coordinates(message + 1, &shape->centre);
    return DONE;
}

enum answer read_velocity(const uint8_t *message, size_t length, struct velocity *velocity)
{
    memset(velocity, 0, sizeof *velocity);
    velocity->type = NOTHING;
    uint32_t type;
    enum answer answer = read_type(message, length, velocity_length, &type);
    if (answer != DONE)
        return answer;
    if (length != velocity_length[type])
        return WRONG_LENGTH;
    uint32_t bearing = two_octets(message) & 511;
    if (bearing >= 360)
        return ANGLE_CODE;
    velocity->type = type;
    velocity->bearing = bearing;
    velocity->horizontal_speed = two_octets(message + 2);
    if (type & 1) {
        velocity->down = message[0] >> 1 & 1;
        velocity->vertical_speed = message[4];
    }
    if (type == HORIZONTAL_UNCERTAIN)
        velocity->horizontal_uncertainty = message[4];
    if (type == HORIZONTAL_VERTICAL_UNCERTAIN) {
        velocity->horizontal_uncertainty = message[5];
        velocity->vertical_uncertainty = message[6];
    }
    return DONE;
}

// ---- Record to octets ----

// What a type uses, one bit for each field or group of fields that always go together.
enum {
    CENTRE_USED = 1,
    ALTITUDE_USED = 2,
    UNCERTAINTY_USED = 4,
    AXES_USED = 8, // semi-major, semi-minor, orientation
    ALTITUDE_UNCERTAINTY_USED = 16,
    SECTOR_USED = 32, // inner radius, offset, included
    CONFIDENCE_USED = 64,
    POINTS_USED = 128,
};

static const uint8_t fields_used[16] = {
    [POINT] = CENTRE_USED,
    [CIRCLE] = CENTRE_USED | UNCERTAINTY_USED,
    [ELLIPSE] = CENTRE_USED | AXES_USED | CONFIDENCE_USED,
    [POLYGON] = POINTS_USED,
    [ALTITUDE] = CENTRE_USED | ALTITUDE_USED,
    [ELLIPSOID] = CENTRE_USED | ALTITUDE_USED | AXES_USED | ALTITUDE_UNCERTAINTY_USED | CONFIDENCE_USED,
    [ARC] = CENTRE_USED | UNCERTAINTY_USED | SECTOR_USED | CONFIDENCE_USED,
};

static int coordinates_fit(const struct coordinates *point)
{
    return point->south <= 1 && point->latitude <= 8388607 && point->longitude >= -8388608 && point->longitude <= 8388607;
}

static int coordinates_zero(const struct coordinates *point)
{
    return (point->south | point->latitude | (uint32_t)point->longitude) == 0;
}

// Whether a field holds at most `most`, or zero where the type doesn't use it.
static inline int fits(uint32_t code, uint32_t used, uint32_t most)
{
    return code <= (used ? most : 0);
}

// The first refusal of a record among 2, 4, 5, 6, 7.
static enum answer check_shape(const struct shape *shape)
{
    if (shape->type > 15 || shape_length[shape->type] == 0)
        return UNKNOWN_TYPE;
    uint32_t used = fields_used[shape->type];
    if ((used & POINTS_USED) && (shape->count < 3 || shape->count > MOST_POINTS))
        return POINT_COUNT;
    if ((used & AXES_USED) && shape->orientation >= 180)
        return ANGLE_CODE;
    if ((used & SECTOR_USED) && (shape->offset >= 180 || shape->included >= 180))
        return ANGLE_CODE;
    if ((used & CONFIDENCE_USED) && shape->confidence >= 101)
        return CONFIDENCE_CODE;
    if (!fits(shape->count, used & POINTS_USED, MOST_POINTS) || !fits(shape->depth, used & ALTITUDE_USED, 1)
        || !fits(shape->altitude, used & ALTITUDE_USED, 32767) || !fits(shape->uncertainty, used & UNCERTAINTY_USED, 127)
        || !fits(shape->semi_major, used & AXES_USED, 127) || !fits(shape->semi_minor, used & AXES_USED, 127)
        || !fits(shape->orientation, used & AXES_USED, 179)
        || !fits(shape->altitude_uncertainty, used & ALTITUDE_UNCERTAINTY_USED, 127)
        || !fits(shape->inner_radius, used & SECTOR_USED, 65535) || !fits(shape->offset, used & SECTOR_USED, 179)
        || !fits(shape->included, used & SECTOR_USED, 179) || !fits(shape->confidence, used & CONFIDENCE_USED, 100))
        return OUT_OF_RANGE;
    if (!(used & CENTRE_USED ? coordinates_fit(&shape->centre) : coordinates_zero(&shape->centre)))
        return OUT_OF_RANGE;
    for (uint32_t i = 0; i < MOST_POINTS; i++)
        if (!(i < shape->count ? coordinates_fit(&shape->points[i]) : coordinates_zero(&shape->points[i])))
            return OUT_OF_RANGE;
    return DONE;
}

static inline void write_two(uint8_t *at, uint32_t number)
{
    at[0] = (uint8_t)(number >> 8);
    at[1] = (uint8_t)number;
}

static inline void write_coordinates(uint8_t *at, const struct coordinates *point)
{
    at[0] = (uint8_t)(point->south << 7 | point->latitude >> 16);
    write_two(at + 1, point->latitude);
    at[3] = (uint8_t)((uint32_t)point->longitude >> 16);
    write_two(at + 4, (uint32_t)point->longitude);
}

static inline void write_axes(uint8_t *at, uint32_t semi_major, uint32_t semi_minor, uint32_t orientation)
{
    at[0] = (uint8_t)semi_major;
    at[1] = (uint8_t)semi_minor;
    at[2] = (uint8_t)orientation;
}

// What stands in a message after its one point.
static inline void write_fields(uint8_t *buffer, uint32_t type, const struct shape *shape)
{
    switch (type) {
    case CIRCLE:
        buffer[7] = (uint8_t)shape->uncertainty;
        break;
    case ELLIPSE:
        write_axes(buffer + 7, shape->semi_major, shape->semi_minor, shape->orientation);
        buffer[10] = (uint8_t)shape->confidence;
        break;
    case ELLIPSOID:
        write_axes(buffer + 9, shape->semi_major, shape->semi_minor, shape->orientation);
        buffer[12] = (uint8_t)shape->altitude_uncertainty;
        buffer[13] = (uint8_t)shape->confidence;
        // fall through
    case ALTITUDE:
        write_two(buffer + 7, shape->depth << 15 | shape->altitude);
        break;
    case ARC:
        write_two(buffer + 7, shape->inner_radius);
        buffer[9] = (uint8_t)shape->uncertainty;
        buffer[10] = (uint8_t)shape->offset;
        buffer[11] = (uint8_t)shape->included;
        buffer[12] = (uint8_t)shape->confidence;
        break;
    }
}

enum answer write_shape(const struct shape *shape, uint8_t *buffer, size_t room, size_t *length)
{
    *length = 0;
    enum answer answer = check_shape(shape);
    if (answer != DONE)
        return answer;
    uint32_t type = shape->type;
    size_t octets = shape_length[type] + 6 * (size_t)shape->count;
    if (room < octets)
        return SHORT_BUFFER;
    *length = octets;
    buffer[0] = (uint8_t)(type << 4 | shape->count);
    if (type == POLYGON) {
        for (uint32_t i = 0; i < shape->count; i++)
            write_coordinates(buffer + 1 + 6 * i, &shape->points[i]);
        return DONE;
    }
    write_coordinates(buffer + 1, &shape->centre);
    write_fields(buffer, type, shape);
    return DONE;
}

// The first refusal of a record among 2, 5, 7.
static enum answer check_velocity(const struct velocity *velocity)
{
    uint32_t type = velocity->type;
    if (type > 3)
        return UNKNOWN_TYPE;
    if (velocity->bearing >= 360)
        return ANGLE_CODE;
    if (velocity->horizontal_speed > 65535 || !fits(velocity->down, type & 1, 1) || !fits(velocity->vertical_speed, type & 1, 255)
        || !fits(velocity->horizontal_uncertainty, type & 2, 255) || !fits(velocity->vertical_uncertainty, type == 3, 255))
        return OUT_OF_RANGE;
    return DONE;
}

enum answer write_velocity(const struct velocity *velocity, uint8_t *buffer, size_t room, size_t *length)
{
    *length = 0;
    enum answer answer = check_velocity(velocity);
    if (answer != DONE)
        return answer;
    uint32_t type = velocity->type;
    if (room < velocity_length[type])
        return SHORT_BUFFER;
    *length = velocity_length[type];
    write_two(buffer, type << 12 | velocity->down << 9 | velocity->bearing);
    write_two(buffer + 2, velocity->horizontal_speed);
    if (type & 1)
        buffer[4] = (uint8_t)velocity->vertical_speed;
    if (type == HORIZONTAL_UNCERTAIN)
        buffer[4] = (uint8_t)velocity->horizontal_uncertainty;
    if (type == HORIZONTAL_VERTICAL_UNCERTAIN) {
        buffer[5] = (uint8_t)velocity->horizontal_uncertainty;
        buffer[6] = (uint8_t)velocity->vertical_uncertainty;
    }
    return DONE;
}

// ---- Record to quantities ----

static inline struct place place_of(const struct coordinates *point)
{
    return (struct place){latitude_of(point->south, point->latitude), longitude_of(point->longitude)};
}

enum answer report_shape(const struct shape *shape, struct shape_quantities *quantities)
{
    memset(quantities, 0, sizeof *quantities);
    quantities->type = NOTHING;
    enum answer answer = check_shape(shape);
    if (answer != DONE)
        return answer;
    uint32_t used = fields_used[shape->type];
    quantities->type = shape->type;
    quantities->count = shape->count;
    if (used & CENTRE_USED)
        quantities->centre = place_of(&shape->centre);
    if (used & ALTITUDE_USED)
        quantities->altitude = altitude_of(shape->depth, shape->altitude);
    if (used & UNCERTAINTY_USED)
        quantities->uncertainty = radius_table[shape->uncertainty];
    if (used & AXES_USED) {
        quantities->semi_major = radius_table[shape->semi_major];
        quantities->semi_minor = radius_table[shape->semi_minor];
        quantities->orientation = shape->orientation * 1000;
    }
    if (used & ALTITUDE_UNCERTAINTY_USED)
        quantities->altitude_uncertainty = height_table[shape->altitude_uncertainty];
    if (used & SECTOR_USED) {
        quantities->inner_radius = shape->inner_radius * 5000;
        quantities->offset = shape->offset * 2000;
        quantities->included = shape->included * 2000 + 2000;
    }
    if (used & CONFIDENCE_USED)
        quantities->confidence = (struct optional){shape->confidence != 0, shape->confidence};
    for (uint32_t i = 0; i < shape->count; i++)
        quantities->points[i] = place_of(&shape->points[i]);
    return DONE;
}

static inline struct optional speed_of(uint32_t code)
{
    return code == 255 ? (struct optional){0, 0} : (struct optional){1, code * 1000};
}

enum answer report_velocity(const struct velocity *velocity, struct velocity_quantities *quantities)
{
    memset(quantities, 0, sizeof *quantities);
    quantities->type = NOTHING;
    enum answer answer = check_velocity(velocity);
    if (answer != DONE)
        return answer;
    uint32_t type = velocity->type;
    quantities->type = type;
    quantities->bearing = velocity->bearing * 1000;
    quantities->horizontal_speed = velocity->horizontal_speed * 1000;
    if (type & 1)
        quantities->vertical_speed = vertical_speed_of(velocity->down, velocity->vertical_speed);
    if (type & 2)
        quantities->horizontal_uncertainty = speed_of(velocity->horizontal_uncertainty);
    if (type == HORIZONTAL_VERTICAL_UNCERTAIN)
        quantities->vertical_uncertainty = speed_of(velocity->vertical_uncertainty);
    return DONE;
}

// ---- Quantities to the record of their own type ----

static int place_in_range(const struct place *place)
{
    return latitude_in_range(place->latitude) && longitude_in_range(place->longitude);
}

static int place_zero(const struct place *place)
{
    return place->latitude == 0 && place->longitude == 0;
}

static inline struct coordinates coordinates_of(const struct place *place)
{
    return (struct coordinates){place->latitude < 0, latitude_code(place->latitude), longitude_code(place->longitude)};
}

static int shape_quantities_in_range(const struct shape_quantities *q, uint32_t used)
{
    if (used & CENTRE_USED ? !place_in_range(&q->centre) : !place_zero(&q->centre))
        return 0;
    if (!(used & POINTS_USED) && q->count != 0)
        return 0;
    for (uint32_t i = 0; i < MOST_POINTS; i++)
        if (i < q->count ? !place_in_range(&q->points[i]) : !place_zero(&q->points[i]))
            return 0;
    if (!(used & ALTITUDE_USED) && q->altitude != 0)
        return 0;
    if (!(used & UNCERTAINTY_USED) && q->uncertainty != 0)
        return 0;
    if (used & AXES_USED ? q->semi_minor > q->semi_major || q->orientation >= 180000
                         : (q->semi_major | q->semi_minor | q->orientation) != 0)
        return 0;
    if (!(used & ALTITUDE_UNCERTAINTY_USED) && q->altitude_uncertainty != 0)
        return 0;
    if (used & SECTOR_USED ? q->offset >= 360000 || q->included == 0 || q->included > 360000
                           : (q->inner_radius | q->offset | q->included) != 0)
        return 0;
    if (used & CONFIDENCE_USED ? !confidence_in_range(q->confidence) : (q->confidence.given | q->confidence.value) != 0)
        return 0;
    return 1;
}

enum answer code_shape(const struct shape_quantities *q, struct shape *shape)
{
    memset(shape, 0, sizeof *shape);
    shape->type = NOTHING;
    if (q->type > 15 || shape_length[q->type] == 0)
        return UNKNOWN_TYPE;
    uint32_t used = fields_used[q->type];
    if ((used & POINTS_USED) && (q->count < 3 || q->count > MOST_POINTS))
        return POINT_COUNT;
    if (!shape_quantities_in_range(q, used))
        return OUT_OF_RANGE;
    // What the type doesn't use is zero by now, so it is never above a table.
    if (q->uncertainty > radius_table[127] || q->semi_major > radius_table[127] || q->altitude_uncertainty > height_table[127])
        return TOO_UNCERTAIN;
    shape->type = q->type;
    shape->count = q->count;
    if (used & CENTRE_USED)
        shape->centre = coordinates_of(&q->centre);
    code_altitude(q->altitude, &shape->depth, &shape->altitude);
    shape->uncertainty = least_covering(radius_table, q->uncertainty);
    shape->semi_major = least_covering(radius_table, q->semi_major);
    shape->semi_minor = least_covering(radius_table, q->semi_minor);
    shape->orientation = q->orientation / 1000;
    shape->altitude_uncertainty = least_covering(height_table, q->altitude_uncertainty);
    shape->inner_radius = inner_radius_code(q->inner_radius);
    shape->offset = q->offset / 2000;
    if (used & SECTOR_USED)
        shape->included = (q->included - 1) / 2000;
    shape->confidence = confidence_code(q->confidence);
    for (uint32_t i = 0; i < q->count; i++)
        shape->points[i] = coordinates_of(&q->points[i]);
    return DONE;
}

enum answer code_velocity(const struct velocity_quantities *q, struct velocity *velocity)
{
    memset(velocity, 0, sizeof *velocity);
    velocity->type = NOTHING;
    uint32_t type = q->type;
    if (type > 3)
        return UNKNOWN_TYPE;
    if (q->bearing >= 360000 || (!(type & 1) && q->vertical_speed != 0)
        || (!(type & 2) && (q->horizontal_uncertainty.given | q->horizontal_uncertainty.value) != 0)
        || (type != 3 && (q->vertical_uncertainty.given | q->vertical_uncertainty.value) != 0))
        return OUT_OF_RANGE;
    if ((q->horizontal_uncertainty.given && q->horizontal_uncertainty.value > 254000)
        || (q->vertical_uncertainty.given && q->vertical_uncertainty.value > 254000))
        return TOO_UNCERTAIN;
    velocity->type = type;
    velocity->bearing = q->bearing / 1000;
    velocity->horizontal_speed = nearest_thousands(q->horizontal_speed, 65535);
    code_vertical_speed(q->vertical_speed, &velocity->down, &velocity->vertical_speed);
    if (type & 2)
        velocity->horizontal_uncertainty = uncertainty_speed_code(q->horizontal_uncertainty);
    if (type == 3)
        velocity->vertical_uncertainty = uncertainty_speed_code(q->vertical_uncertainty);
    return DONE;
}

// ---- The choice of shape ----

// Which type is best, or NOTHING. What a request has leaves at most two types that can hold it, and two only for a horizontal
// uncertainty alone: a circle and an ellipse. Their semi-major codes are equal; the ellipse wins if its semi-minor code is less,
// else the circle, being shorter.
static uint32_t best_type(const struct request *q, uint32_t list, uint32_t major, uint32_t minor)
{
    uint32_t best = NOTHING;
    if (q->horizontal == NOT_ASKED) {
        if (!q->altitude_uncertainty.given && !q->confidence.given)
            best = q->has_altitude ? ALTITUDE : POINT;
    } else if (q->has_altitude) {
        if (q->altitude_uncertainty.given)
            best = ELLIPSOID;
    } else if (!q->altitude_uncertainty.given) {
        int circle = (list >> CIRCLE & 1) && !q->confidence.given;
        int ellipse = list >> ELLIPSE & 1;
        best = circle && !(ellipse && minor < major) ? CIRCLE : ELLIPSE;
    }
    return best != NOTHING && (list >> best & 1) ? best : NOTHING;
}

static inline enum answer check_request(const struct request *q)
{
    if (!place_in_range(&q->centre) || !confidence_in_range(q->confidence))
        return OUT_OF_RANGE;
    if (q->horizontal == ASKED_ELLIPSE && (q->orientation >= 180000 || q->semi_minor > q->semi_major))
        return OUT_OF_RANGE;
    if ((q->horizontal != NOT_ASKED && q->semi_major > radius_table[127])
        || (q->altitude_uncertainty.given && q->altitude_uncertainty.value > height_table[127]))
        return TOO_UNCERTAIN;
    return DONE;
}

enum answer choose(const struct request *q, uint32_t list, uint8_t *buffer, size_t room, size_t *length)
{
    *length = 0;
    enum answer answer = check_request(q);
    if (answer != DONE)
        return answer;
    uint32_t major = 0, minor = 0, orientation = 0;
    if (q->horizontal != NOT_ASKED)
        major = minor = least_covering(radius_table, q->semi_major);
    if (q->horizontal == ASKED_ELLIPSE) {
        minor = least_covering(radius_table, q->semi_minor);
        orientation = q->orientation / 1000;
    }
    uint32_t type = best_type(q, list, major, minor);
    if (type == NOTHING)
        return NO_SHAPE;
    if (room < shape_length[type])
        return SHORT_BUFFER;
    *length = shape_length[type];
    struct coordinates centre = coordinates_of(&q->centre);
    buffer[0] = (uint8_t)(type << 4);
    write_coordinates(buffer + 1, &centre);
    if (type == CIRCLE) {
        buffer[7] = (uint8_t)major;
    } else if (type == ELLIPSE) {
        write_axes(buffer + 7, major, minor, orientation);
        buffer[10] = (uint8_t)confidence_code(q->confidence);
    } else if (type != POINT) {
        uint32_t depth, altitude;
        code_altitude(q->altitude, &depth, &altitude);
        write_two(buffer + 7, depth << 15 | altitude);
        if (type == ELLIPSOID) {
            write_axes(buffer + 9, major, minor, orientation);
            buffer[12] = (uint8_t)least_covering(height_table, q->altitude_uncertainty.value);
            buffer[13] = (uint8_t)confidence_code(q->confidence);
        }
    }
    return DONE;
}
