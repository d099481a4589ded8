// Calls every function of include/gad.h and checks what it answers and fills against values from document 01.
#include "samples.h"

#include <stdio.h>
#include <string.h>

static unsigned checks, failures;

static void check(int truth, const char *what, const char *about, int line)
{
    checks++;
    if (!truth) {
        failures++;
        fprintf(stderr, "tests.c:%d: %s: %s\n", line, about, what);
    }
}

#define CHECK(truth, about) check(truth, #truth, about, __LINE__)
#define COUNT(list) (sizeof(list) / sizeof((list)[0]))

enum { SPACE = 96, PATTERN = 0xA5 }; // elements of every array here, more than any layout has

static void fill(void *array, size_t octets)
{
    memset(array, PATTERN, octets);
}

// Whether the octets all still have the value that fill() gave them.
static int kept(const void *from, size_t octets)
{
    for (size_t i = 0; i < octets; i++)
        if (((const uint8_t *)from)[i] != PATTERN)
            return 0;
    return 1;
}

// What a call did with an array that fill() had filled: `answer` is what it should answer, and `expected` starts with what it should put.
static void check_filled(int64_t answered, int64_t answer, const void *array, size_t octets, const void *expected, size_t element, const char *about, int line)
{
    size_t put = answer > 0 ? (size_t)answer * element : 0;
    check(answered == answer, "the answer", about, line);
    if (put > 0)
        check(memcmp(array, expected, put) == 0, "what it put", about, line);
    check(kept((const uint8_t *)array + put, octets - put), "what stands after it", about, line);
}

// The call fills the array.
#define CHECK_FILLED(call, answer, array, expected, about) \
    (fill(array, sizeof array), check_filled(call, answer, array, sizeof array, expected, sizeof array[0], about, __LINE__))

// ---- The two kinds of message, by one description ----

struct kind {
    const struct sample *samples;
    size_t count, codes, quantities;
    int64_t (*read)(uint32_t *, size_t, const uint8_t *, size_t);
    int64_t (*write)(uint8_t *, size_t, const uint32_t *, size_t);
    int64_t (*report)(int64_t *, size_t, const uint32_t *, size_t);
    int64_t (*code)(uint32_t *, size_t, const int64_t *, size_t);
};

static const struct kind kinds[] = {
    {shapes, COUNT(shapes), GAD_SHAPE_CODES, GAD_SHAPE_QUANTITIES, gad_read_shape, gad_write_shape, gad_report_shape, gad_code_shape},
    {velocities, COUNT(velocities), GAD_VELOCITY_CODES, GAD_VELOCITY_QUANTITIES, gad_read_velocity, gad_write_velocity, gad_report_velocity,
        gad_code_velocity},
};

static void codes_of(const struct sample *sample, uint32_t codes[SPACE])
{
    memset(codes, 0, SPACE * sizeof codes[0]);
    for (size_t i = 0; i < sample->codes_named; i++)
        codes[sample->codes[i].element] = sample->codes[i].value;
}

static void quantities_of(const struct sample *sample, int64_t quantities[SPACE])
{
    memset(quantities, 0, SPACE * sizeof quantities[0]);
    for (size_t i = 0; i < sample->quantities_named; i++)
        quantities[sample->quantities[i].element] = sample->quantities[i].value;
}

// The answer of a call that fills `elements`, or finds too little room.
static int64_t filling(size_t elements, size_t room)
{
    return room < elements ? -GAD_BUFFER_TOO_SHORT : (int64_t)elements;
}

// Room exactly as much, one more, and one less, for each function; a given array one too long, and one too short.
static void check_read(const struct kind *kind, const struct sample *sample)
{
    uint32_t codes[SPACE], expected[SPACE];
    codes_of(sample, expected);
    for (size_t room = kind->codes - 1; room <= kind->codes + 1; room++)
        CHECK_FILLED(kind->read(codes, room, sample->octets, sample->length), filling(kind->codes, room), codes, expected, sample->name);
    for (size_t length = 1; length < sizeof sample->octets; length++)
        if (length != sample->length)
            CHECK(kind->read(codes, kind->codes, sample->octets, length) == -GAD_WRONG_LENGTH, sample->name);
}

static void check_write(const struct kind *kind, const struct sample *sample)
{
    uint8_t octets[SPACE];
    uint32_t codes[SPACE];
    codes_of(sample, codes);
    codes[kind->codes] = UINT32_MAX; // not looked at
    for (size_t room = 0; room <= sample->length + 1; room++)
        CHECK_FILLED(kind->write(octets, room, codes, kind->codes + 1), filling(sample->length, room), octets, sample->octets, sample->name);
    CHECK_FILLED(kind->write(octets, SPACE, codes, kind->codes - 1), -GAD_WRONG_LENGTH, octets, sample->octets, sample->name);
}

static void check_report(const struct kind *kind, const struct sample *sample)
{
    int64_t quantities[SPACE], expected[SPACE];
    uint32_t codes[SPACE];
    codes_of(sample, codes);
    quantities_of(sample, expected);
    for (size_t room = kind->quantities - 1; room <= kind->quantities + 1; room++)
        CHECK_FILLED(kind->report(quantities, room, codes, kind->codes + room % 2), filling(kind->quantities, room), quantities, expected, sample->name);
    CHECK(kind->report(quantities, SPACE, codes, kind->codes - 1) == -GAD_WRONG_LENGTH, sample->name);
}

static void check_code(const struct kind *kind, const struct sample *sample)
{
    int64_t quantities[SPACE];
    uint32_t codes[SPACE], expected[SPACE];
    codes_of(sample, expected);
    quantities_of(sample, quantities);
    for (size_t room = kind->codes - 1; room <= kind->codes + 1; room++)
        CHECK_FILLED(kind->code(codes, room, quantities, kind->quantities + room % 2), filling(kind->codes, room), codes, expected, sample->name);
    CHECK(kind->code(codes, SPACE, quantities, kind->quantities - 1) == -GAD_WRONG_LENGTH, sample->name);
}

// An empty array is null. What is given is looked at first, room last.
static void check_null(const struct kind *kind)
{
    const struct sample *sample = &kind->samples[0];
    uint32_t codes[SPACE];
    int64_t quantities[SPACE];
    uint8_t octets[SPACE];
    codes_of(sample, codes);
    quantities_of(sample, quantities);
    CHECK(kind->read(NULL, 0, NULL, 0) == -GAD_NO_OCTETS, "null");
    CHECK(kind->read(NULL, 0, sample->octets, sample->length) == -GAD_BUFFER_TOO_SHORT, "null");
    CHECK(kind->read(codes, SPACE, NULL, 0) == -GAD_NO_OCTETS, "null");
    CHECK(kind->write(NULL, 0, NULL, 0) == -GAD_WRONG_LENGTH, "null");
    CHECK(kind->write(NULL, 0, codes, kind->codes) == -GAD_BUFFER_TOO_SHORT, "null");
    CHECK(kind->write(octets, SPACE, NULL, 0) == -GAD_WRONG_LENGTH, "null");
    CHECK(kind->report(NULL, 0, NULL, 0) == -GAD_WRONG_LENGTH, "null");
    CHECK(kind->report(NULL, 0, codes, kind->codes) == -GAD_BUFFER_TOO_SHORT, "null");
    CHECK(kind->report(quantities, SPACE, NULL, 0) == -GAD_WRONG_LENGTH, "null");
    CHECK(kind->code(NULL, 0, NULL, 0) == -GAD_WRONG_LENGTH, "null");
    CHECK(kind->code(NULL, 0, quantities, kind->quantities) == -GAD_BUFFER_TOO_SHORT, "null");
    CHECK(kind->code(codes, SPACE, NULL, 0) == -GAD_WRONG_LENGTH, "null");
}

static void check_samples(void)
{
    for (size_t k = 0; k < COUNT(kinds); k++) {
        for (size_t i = 0; i < kinds[k].count; i++) {
            check_read(&kinds[k], &kinds[k].samples[i]);
            check_write(&kinds[k], &kinds[k].samples[i]);
            check_report(&kinds[k], &kinds[k].samples[i]);
            check_code(&kinds[k], &kinds[k].samples[i]);
        }
        check_null(&kinds[k]);
    }
}

// ---- Refusals, each where a later one would also apply ----

enum { SHAPE, VELOCITY, POINT = 0, CIRCLE, ELLIPSE, POLYGON, ALTITUDE, ELLIPSOID, ARC };

static void check_unreadable(void)
{
    static const struct {
        const char *name;
        int kind;
        size_t length;
        uint8_t octets[16];
        int64_t refusal;
    } messages[] = {
        {"no such shape, and short", SHAPE, 1, {0x20}, GAD_UNKNOWN_TYPE},
        {"a polygon of no points, and short", SHAPE, 1, {0x50}, GAD_POLYGON_COUNT},
        {"a polygon of fifteen points, and short", SHAPE, 1, {0x5F}, GAD_WRONG_LENGTH},
        {"the circle of document 01's log", SHAPE, 2, {0x10, 0x40}, GAD_WRONG_LENGTH},
        {"orientation 180, confidence 101", SHAPE, 11, {0x30, PLACE_OCTETS, 1, 1, 180, 101}, GAD_ANGLE_CODE},
        {"confidence 101", SHAPE, 11, {0x30, PLACE_OCTETS, 1, 1, 179, 101}, GAD_CONFIDENCE_TOO_LARGE},
        {"offset 180", SHAPE, 13, {0xA0, PLACE_OCTETS, 0, 0, 0, 180, 0, 101}, GAD_ANGLE_CODE},
        {"included 180", SHAPE, 13, {0xA0, PLACE_OCTETS, 0, 0, 0, 0, 180, 101}, GAD_ANGLE_CODE},
        {"no such velocity", VELOCITY, 1, {0x40}, GAD_UNKNOWN_TYPE},
        {"bearing 360, and short", VELOCITY, 3, {0x01, 0x68, 0}, GAD_WRONG_LENGTH},
        {"bearing 360", VELOCITY, 4, {0x01, 0x68, 0, 0}, GAD_ANGLE_CODE},
    };
    uint32_t codes[SPACE];
    fill(codes, sizeof codes);
    for (size_t i = 0; i < COUNT(messages); i++)
        CHECK(kinds[messages[i].kind].read(codes, 0, messages[i].octets, messages[i].length) == -messages[i].refusal, messages[i].name);
    CHECK(kept(codes, sizeof codes), "a refusal changes nothing");
}

// Spare bits are ignored: bits 4 to 1 of octet 1 and the high bit of a 7-bit octet.
static void check_spare_bits(void)
{
    static const uint8_t octets[] = {0x1F, PLACE_OCTETS, 0x94};
    uint32_t codes[SPACE], expected[SPACE];
    codes_of(&shapes[CIRCLE], expected);
    CHECK(gad_read_shape(codes, SPACE, octets, sizeof octets) == GAD_SHAPE_CODES, "spare bits");
    CHECK(memcmp(codes, expected, GAD_SHAPE_CODES * sizeof codes[0]) == 0, "spare bits");
}

static void check_unwritable(void)
{
    static const struct {
        const char *name;
        int kind, sample;
        struct code codes[3]; // changed; element 0 with value 0 changes nothing more
        int64_t refusal;
    } records[] = {
        {"type 2", SHAPE, ELLIPSE, {{GAD_CODE_TYPE, 2}, {GAD_CODE_ORIENTATION, 180}}, GAD_UNKNOWN_TYPE},
        {"two points", SHAPE, POLYGON, {{GAD_CODE_TYPE, 5}, {GAD_CODE_COUNT, 2}}, GAD_POLYGON_COUNT},
        {"sixteen points", SHAPE, POLYGON, {{GAD_CODE_TYPE, 5}, {GAD_CODE_COUNT, 16}}, GAD_POLYGON_COUNT},
        {"a point after the last", SHAPE, POLYGON, {{GAD_CODE_TYPE, 5}, {GAD_CODE_POINTS + 9, 1}}, GAD_OUT_OF_RANGE},
        {"orientation however large", SHAPE, ELLIPSE, {{GAD_CODE_TYPE, 3}, {GAD_CODE_ORIENTATION, UINT32_MAX}, {GAD_CODE_CONFIDENCE, 101}}, GAD_ANGLE_CODE},
        {"confidence however large", SHAPE, ELLIPSE, {{GAD_CODE_TYPE, 3}, {GAD_CODE_CONFIDENCE, UINT32_MAX}, {GAD_CODE_SEMI_MAJOR, 128}},
            GAD_CONFIDENCE_TOO_LARGE},
        {"semi-major 128", SHAPE, ELLIPSE, {{GAD_CODE_TYPE, 3}, {GAD_CODE_SEMI_MAJOR, 128}}, GAD_OUT_OF_RANGE},
        {"a point with an orientation", SHAPE, ALTITUDE, {{GAD_CODE_TYPE, 8}, {GAD_CODE_ORIENTATION, 200}}, GAD_OUT_OF_RANGE},
        {"south 2", SHAPE, CIRCLE, {{GAD_CODE_TYPE, 1}, {GAD_CODE_SOUTH, 2}}, GAD_OUT_OF_RANGE},
        {"longitude below its field", SHAPE, CIRCLE, {{GAD_CODE_TYPE, 1}, {GAD_CODE_LONGITUDE, (uint32_t)-8388609}}, GAD_OUT_OF_RANGE},
        {"velocity type 4", VELOCITY, 3, {{GAD_VELOCITY_CODE_TYPE, 4}, {GAD_VELOCITY_CODE_BEARING, 360}}, GAD_UNKNOWN_TYPE},
        {"bearing 360", VELOCITY, 3, {{GAD_VELOCITY_CODE_TYPE, 3}, {GAD_VELOCITY_CODE_BEARING, 360}, {GAD_VELOCITY_CODE_DOWN, 2}}, GAD_ANGLE_CODE},
        {"vertical speed 256", VELOCITY, 3, {{GAD_VELOCITY_CODE_TYPE, 3}, {GAD_VELOCITY_CODE_VERTICAL_SPEED, 256}}, GAD_OUT_OF_RANGE},
        {"an unused uncertainty of 255", VELOCITY, 1, {{GAD_VELOCITY_CODE_TYPE, 1}, {GAD_VELOCITY_CODE_UNCERTAINTY, 255}}, GAD_OUT_OF_RANGE},
    };
    uint32_t codes[SPACE];
    for (size_t i = 0; i < COUNT(records); i++) {
        const struct kind *kind = &kinds[records[i].kind];
        codes_of(&kind->samples[records[i].sample], codes);
        for (size_t j = 0; j < COUNT(records[i].codes); j++)
            if (records[i].codes[j].value != 0)
                codes[records[i].codes[j].element] = records[i].codes[j].value;
        CHECK(kind->write(NULL, 0, codes, kind->codes) == -records[i].refusal, records[i].name);
        CHECK(kind->report(NULL, 0, codes, kind->codes) == -records[i].refusal, records[i].name);
    }
}

static void check_uncodable(void)
{
    static const struct {
        const char *name;
        int kind, sample;
        struct quantity quantities[2];
        int64_t refusal;
    } records[] = {
        {"type 2", SHAPE, CIRCLE, {{GAD_TYPE, 2}, {GAD_LATITUDE, 90000000001}}, GAD_UNKNOWN_TYPE},
        {"type below zero", SHAPE, CIRCLE, {{GAD_TYPE, -1}, {GAD_LATITUDE, 90000000001}}, GAD_UNKNOWN_TYPE},
        {"sixteen points", SHAPE, POLYGON, {{GAD_COUNT, 16}, {GAD_ALTITUDE, INT64_MIN}}, GAD_POLYGON_COUNT},
        {"latitude beyond 90", SHAPE, CIRCLE, {{GAD_LATITUDE, 90000000001}, {GAD_UNCERTAINTY, UINT32_MAX}}, GAD_OUT_OF_RANGE},
        {"an uncertainty of 33 bits", SHAPE, CIRCLE, {{GAD_UNCERTAINTY, INT64_C(1) << 32}, {GAD_LATITUDE, 0}}, GAD_OUT_OF_RANGE},
        {"an uncertainty too large", SHAPE, CIRCLE, {{GAD_UNCERTAINTY, UINT32_MAX}, {GAD_LATITUDE, 0}}, GAD_UNCERTAINTY_TOO_LARGE},
        {"semi-minor above semi-major", SHAPE, ELLIPSE, {{GAD_SEMI_MAJOR, 51160}, {GAD_SEMI_MINOR, 57274}}, GAD_OUT_OF_RANGE},
        {"confidence 0", SHAPE, ELLIPSE, {{GAD_CONFIDENCE, 0}, {GAD_LATITUDE, 0}}, GAD_OUT_OF_RANGE},
        {"an unused altitude", SHAPE, ELLIPSE, {{GAD_ALTITUDE, 1}, {GAD_SEMI_MAJOR, UINT32_MAX}}, GAD_OUT_OF_RANGE},
        {"included 0", SHAPE, ARC, {{GAD_INCLUDED, 0}, {GAD_UNCERTAINTY, UINT32_MAX}}, GAD_OUT_OF_RANGE},
        {"velocity type 4", VELOCITY, 3, {{GAD_VELOCITY_TYPE, 4}, {GAD_VELOCITY_BEARING, 360000}}, GAD_UNKNOWN_TYPE},
        {"bearing 360 degrees", VELOCITY, 3, {{GAD_VELOCITY_BEARING, 360000}, {GAD_VELOCITY_UNCERTAINTY, 254001}}, GAD_OUT_OF_RANGE},
        {"uncertainty speed 254001", VELOCITY, 3, {{GAD_VELOCITY_UNCERTAINTY, 254001}, {GAD_VELOCITY_BEARING, 0}}, GAD_UNCERTAINTY_TOO_LARGE},
        {"an unused vertical speed", VELOCITY, 2, {{GAD_VELOCITY_VERTICAL_SPEED, 1}, {GAD_VELOCITY_UNCERTAINTY, 254001}}, GAD_OUT_OF_RANGE},
    };
    int64_t quantities[SPACE];
    for (size_t i = 0; i < COUNT(records); i++) {
        const struct kind *kind = &kinds[records[i].kind];
        quantities_of(&kind->samples[records[i].sample], quantities);
        for (size_t j = 0; j < COUNT(records[i].quantities); j++)
            quantities[records[i].quantities[j].element] = records[i].quantities[j].value;
        CHECK(kind->code(NULL, 0, quantities, kind->quantities) == -records[i].refusal, records[i].name);
    }
}

// ---- The choice of shape ----

#define ASKED_PLACE 45000000000, -90000000000
#define NO GAD_MISSING

static void check_choice(void)
{
    enum { CIRCLE_AND_ELLIPSE = 1 << 1 | 1 << 3, EVERY = 65535 };
    static const struct {
        const char *name;
        int64_t request[GAD_REQUEST];
        uint16_t list;
        size_t room;
        int64_t answer;
        uint8_t octets[14];
    } choices[] = {
        {"equal codes", {ASKED_PLACE, NO, 57274, 51160, 30000, NO, NO}, CIRCLE_AND_ELLIPSE, 8, 8, {0x10, PLACE_OCTETS, 0x14}},
        {"a tighter ellipse", {ASKED_PLACE, NO, 57274, 51159, 30000, NO, NO}, CIRCLE_AND_ELLIPSE, 12, 11, {0x30, PLACE_OCTETS, 0x14, 0x13, 0x1E, 0x00}},
        {"ten octets for an ellipse", {ASKED_PLACE, NO, 57274, 51159, 30000, NO, NO}, CIRCLE_AND_ELLIPSE, 10, -GAD_BUFFER_TOO_SHORT, {0}},
        {"seven octets for a circle", {ASKED_PLACE, NO, 57274, NO, NO, NO, NO}, EVERY, 7, -GAD_BUFFER_TOO_SHORT, {0}},
        {"a point", {ASKED_PLACE, NO, NO, NO, NO, NO, NO}, EVERY, 14, 7, {0x00, PLACE_OCTETS}},
        {"an ellipsoid", {ASKED_PLACE, -1000, 0, NO, NO, 1126, 67}, EVERY, 14, 14, {0x90, PLACE_OCTETS, 0x80, 0x01, 0, 0, 0, 2, 67}},
        {"the empty list", {ASKED_PLACE, NO, NO, NO, NO, NO, NO}, 0, 0, -GAD_NONE_HOLDS, {0}},
        {"altitude and circle alone", {ASKED_PLACE, 0, 1, NO, NO, NO, NO}, EVERY, 14, -GAD_NONE_HOLDS, {0}},
        {"too uncertain under the empty list", {ASKED_PLACE, NO, UINT32_MAX, NO, NO, NO, NO}, 0, 0, -GAD_UNCERTAINTY_TOO_LARGE, {0}},
        {"no latitude", {NO, 0, NO, UINT32_MAX, NO, NO, NO, NO}, 0, 0, -GAD_OUT_OF_RANGE, {0}},
        {"a semi-minor alone", {ASKED_PLACE, NO, NO, 1, NO, NO, NO}, EVERY, 14, -GAD_OUT_OF_RANGE, {0}},
        {"no orientation", {ASKED_PLACE, NO, 1, 1, NO, NO, NO}, EVERY, 14, -GAD_OUT_OF_RANGE, {0}},
        {"a radius of 33 bits", {ASKED_PLACE, NO, INT64_C(1) << 32, NO, NO, NO, NO}, EVERY, 14, -GAD_OUT_OF_RANGE, {0}},
    };
    for (size_t i = 0; i < COUNT(choices); i++) {
        uint8_t out[SPACE];
        CHECK_FILLED(gad_choose(out, choices[i].room, choices[i].request, GAD_REQUEST, choices[i].list), choices[i].answer, out, choices[i].octets,
            choices[i].name);
        CHECK(gad_choose(out, SPACE, choices[i].request, GAD_REQUEST - 1, choices[i].list) == -GAD_WRONG_LENGTH, choices[i].name);
    }
    CHECK(gad_choose(NULL, 0, choices[0].request, GAD_REQUEST, EVERY) == -GAD_BUFFER_TOO_SHORT, "null");
    CHECK(gad_choose(NULL, 0, NULL, 0, EVERY) == -GAD_WRONG_LENGTH, "null");
}

// ---- Single codes and quantities ----

// The answer to the same call without any room.
static int64_t without_room(int64_t answer)
{
    return answer > 0 ? -GAD_BUFFER_TOO_SHORT : answer;
}

static void check_code_of(uint8_t field, int64_t quantity, int64_t answer, uint32_t first, uint32_t second)
{
    char about[64];
    snprintf(about, sizeof about, "field %u, quantity %lld", (unsigned)field, (long long)quantity);
    uint32_t code[4], expected[] = {first, second};
    CHECK_FILLED(gad_code(code, 4, field, quantity), answer, code, expected, about);
    CHECK(gad_code(NULL, 0, field, quantity) == without_room(answer), about);
}

static void check_starred(void)
{
    static const struct {
        uint8_t field;
        int64_t quantity;
        uint32_t first, second; // S or D and N; or the code, and 0
    } figures[] = {
        {GAD_FIELD_LATITUDE, 10728, 0, 0}, {GAD_FIELD_LATITUDE, 10729, 0, 1}, {GAD_FIELD_LATITUDE, 90000000000, 0, 8388607},
        {GAD_FIELD_LATITUDE, 89999989272, 0, 8388607}, {GAD_FIELD_LATITUDE, 0, 0, 0}, {GAD_FIELD_LATITUDE, -1, 1, 0},
        {GAD_FIELD_LONGITUDE, -21457, (uint32_t)-1, 0}, {GAD_FIELD_LONGITUDE, -21458, (uint32_t)-2, 0},
        {GAD_FIELD_LONGITUDE, 180000000000, (uint32_t)-8388608, 0}, {GAD_FIELD_UNCERTAINTY, 57274, 20, 0}, {GAD_FIELD_UNCERTAINTY, 57275, 21, 0},
        {GAD_FIELD_UNCERTAINTY, 51159, 19, 0}, {GAD_FIELD_UNCERTAINTY, 51160, 20, 0}, {GAD_FIELD_UNCERTAINTY, 0, 0, 0},
        {GAD_FIELD_UNCERTAINTY, 1, 1, 0}, {GAD_FIELD_UNCERTAINTY, 1000, 1, 0}, {GAD_FIELD_UNCERTAINTY, 1001, 2, 0},
        {GAD_FIELD_ALTITUDE_UNCERTAINTY, 1125, 1, 0}, {GAD_FIELD_ALTITUDE_UNCERTAINTY, 1126, 2, 0}, {GAD_FIELD_ALTITUDE_UNCERTAINTY, 2278, 2, 0},
        {GAD_FIELD_ALTITUDE_UNCERTAINTY, 2279, 3, 0}, {GAD_FIELD_INCLUDED, 2000, 0, 0}, {GAD_FIELD_INCLUDED, 2001, 1, 0},
        {GAD_FIELD_OFFSET, 2000, 1, 0}, {GAD_FIELD_HORIZONTAL_SPEED, 499, 0, 0}, {GAD_FIELD_HORIZONTAL_SPEED, 500, 1, 0},
        // Not starred: the other fields, and ends of ranges.
        {GAD_FIELD_ALTITUDE, INT32_MIN, 1, 32767}, {GAD_FIELD_ALTITUDE, -1, 1, 0}, {GAD_FIELD_INNER_RADIUS, UINT32_MAX, 65535, 0},
        {GAD_FIELD_ORIENTATION, 179999, 179, 0}, {GAD_FIELD_BEARING, 359999, 359, 0}, {GAD_FIELD_HORIZONTAL_SPEED, UINT32_MAX, 65535, 0},
        {GAD_FIELD_VERTICAL_SPEED, -500, 1, 1}, {GAD_FIELD_UNCERTAINTY_SPEED, GAD_MISSING, 255, 0}, {GAD_FIELD_UNCERTAINTY_SPEED, 253001, 254, 0},
        {GAD_FIELD_CONFIDENCE, GAD_MISSING, 0, 0}, {GAD_FIELD_CONFIDENCE, 100, 100, 0},
    };
    for (size_t i = 0; i < COUNT(figures); i++) {
        uint8_t field = figures[i].field;
        int two = field == GAD_FIELD_LATITUDE || field == GAD_FIELD_ALTITUDE || field == GAD_FIELD_VERTICAL_SPEED;
        check_code_of(field, figures[i].quantity, 1 + two, figures[i].first, figures[i].second);
    }
}

static void check_uncodable_singles(void)
{
    static const struct {
        uint8_t field;
        int64_t quantity, refusal;
    } refusals[] = {
        {GAD_FIELDS, 0, GAD_UNKNOWN_TYPE}, {255, INT64_MIN, GAD_UNKNOWN_TYPE}, {GAD_FIELD_LATITUDE, 90000000001, GAD_OUT_OF_RANGE},
        {GAD_FIELD_LATITUDE, INT64_MIN, GAD_OUT_OF_RANGE}, {GAD_FIELD_LONGITUDE, -180000000001, GAD_OUT_OF_RANGE},
        {GAD_FIELD_UNCERTAINTY, -1, GAD_OUT_OF_RANGE}, {GAD_FIELD_UNCERTAINTY, UINT32_MAX, GAD_UNCERTAINTY_TOO_LARGE},
        {GAD_FIELD_ALTITUDE_UNCERTAINTY, 1000000, GAD_UNCERTAINTY_TOO_LARGE}, {GAD_FIELD_ALTITUDE, INT64_C(1) << 31, GAD_OUT_OF_RANGE},
        {GAD_FIELD_INNER_RADIUS, INT64_C(1) << 32, GAD_OUT_OF_RANGE}, {GAD_FIELD_OFFSET, 360000, GAD_OUT_OF_RANGE},
        {GAD_FIELD_INCLUDED, 0, GAD_OUT_OF_RANGE}, {GAD_FIELD_INCLUDED, 360001, GAD_OUT_OF_RANGE}, {GAD_FIELD_ORIENTATION, 180000, GAD_OUT_OF_RANGE},
        {GAD_FIELD_BEARING, 360000, GAD_OUT_OF_RANGE}, {GAD_FIELD_UNCERTAINTY_SPEED, 254001, GAD_UNCERTAINTY_TOO_LARGE},
        {GAD_FIELD_CONFIDENCE, 0, GAD_OUT_OF_RANGE}, {GAD_FIELD_CONFIDENCE, 101, GAD_OUT_OF_RANGE}, {GAD_FIELD_OFFSET, GAD_MISSING, GAD_OUT_OF_RANGE},
    };
    for (size_t i = 0; i < COUNT(refusals); i++)
        check_code_of(refusals[i].field, refusals[i].quantity, -refusals[i].refusal, 0, 0);
}

static void check_reports(void)
{
    static const struct {
        uint8_t field;
        size_t elements;
        uint32_t code[2];
        int64_t answer, quantity;
    } reports[] = {
        {GAD_FIELD_LATITUDE, 2, {1, 0}, 1, -1}, {GAD_FIELD_LATITUDE, 2, {0, 8388607}, 1, 89999989272}, {GAD_FIELD_LATITUDE, 2, {1, 1}, 1, -10729},
        {GAD_FIELD_LONGITUDE, 1, {(uint32_t)-8388608}, 1, -180000000000}, {GAD_FIELD_LONGITUDE, 1, {UINT32_MAX}, 1, -21457},
        {GAD_FIELD_UNCERTAINTY, 1, {20}, 1, 57274}, {GAD_FIELD_ALTITUDE_UNCERTAINTY, 1, {2}, 1, 2278}, {GAD_FIELD_ALTITUDE, 2, {1, 0}, 1, -1},
        {GAD_FIELD_ALTITUDE, 2, {0, 32767}, 1, 32767000}, {GAD_FIELD_INNER_RADIUS, 1, {65535}, 1, 327675000}, {GAD_FIELD_OFFSET, 1, {179}, 1, 358000},
        {GAD_FIELD_INCLUDED, 1, {179}, 1, 360000}, {GAD_FIELD_ORIENTATION, 1, {179}, 1, 179000}, {GAD_FIELD_BEARING, 1, {359}, 1, 359000},
        {GAD_FIELD_HORIZONTAL_SPEED, 1, {65535}, 1, 65535000}, {GAD_FIELD_VERTICAL_SPEED, 2, {1, 255}, 1, -255000},
        {GAD_FIELD_UNCERTAINTY_SPEED, 1, {255}, 1, GAD_MISSING}, {GAD_FIELD_UNCERTAINTY_SPEED, 1, {0}, 1, 0}, {GAD_FIELD_CONFIDENCE, 1, {0}, 1, GAD_MISSING},
        {GAD_FIELD_CONFIDENCE, 1, {100}, 1, 100}, {GAD_FIELDS, 0, {0}, -GAD_UNKNOWN_TYPE, 0}, {GAD_FIELD_LATITUDE, 1, {9, 0}, -GAD_WRONG_LENGTH, 0},
        {GAD_FIELD_BEARING, 0, {0}, -GAD_WRONG_LENGTH, 0}, {GAD_FIELD_BEARING, 1, {360}, -GAD_ANGLE_CODE, 0},
        {GAD_FIELD_OFFSET, 1, {UINT32_MAX}, -GAD_ANGLE_CODE, 0}, {GAD_FIELD_CONFIDENCE, 1, {101}, -GAD_CONFIDENCE_TOO_LARGE, 0},
        {GAD_FIELD_LATITUDE, 2, {2, 0}, -GAD_OUT_OF_RANGE, 0}, {GAD_FIELD_LATITUDE, 2, {0, 8388608}, -GAD_OUT_OF_RANGE, 0},
        {GAD_FIELD_LONGITUDE, 1, {8388608}, -GAD_OUT_OF_RANGE, 0}, {GAD_FIELD_UNCERTAINTY, 1, {128}, -GAD_OUT_OF_RANGE, 0},
        {GAD_FIELD_UNCERTAINTY_SPEED, 1, {256}, -GAD_OUT_OF_RANGE, 0},
    };
    for (size_t i = 0; i < COUNT(reports); i++) {
        char about[64];
        snprintf(about, sizeof about, "field %u, code %u %u", (unsigned)reports[i].field, (unsigned)reports[i].code[0], (unsigned)reports[i].code[1]);
        int64_t quantity[2];
        const uint32_t *code = reports[i].elements > 0 ? reports[i].code : NULL;
        CHECK_FILLED(gad_report(quantity, 2, reports[i].field, code, reports[i].elements), reports[i].answer, quantity, &reports[i].quantity, about);
        CHECK(gad_report(NULL, 0, reports[i].field, code, reports[i].elements) == without_room(reports[i].answer), about);
    }
}

int main(void)
{
    check_samples();
    check_unreadable();
    check_spare_bits();
    check_unwritable();
    check_uncodable();
    check_choice();
    check_starred();
    check_uncodable_singles();
    check_reports();
    printf("%u checks, %u failed\n", checks, failures);
    return failures == 0 ? 0 : 1;
}
