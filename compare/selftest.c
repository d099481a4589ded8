// Checks of the coder itself that no program's output shows: the tables against exact powers, the standard's tables, the trips
// octets - record - octets and record - quantities - record for every readable frame of standard input, buffers, and the order of refusals.
#include "coder.h"
#include "powers.h"

#include <stdio.h>
#include <stdlib.h>
#include <string.h>

static unsigned long checks, failures;

static void expect(int truth, const char *what)
{
    checks++;
    if (!truth && failures++ < 20)
        fprintf(stderr, "selftest: %s\n", what);
}

// ---- Tables ----

static struct rule rule;

static void check_table(const uint32_t table[128], uint32_t scale, uint32_t over, uint32_t under, enum answer (*code)(uint32_t, uint32_t *))
{
    memset(&rule, 0, sizeof rule);
    prepare_rule(&rule, scale, over, under);
    for (uint32_t k = 0; k < 128; k++) {
        expect(covers(&rule, k, table[k]), "an entry is covered");
        expect(!covers(&rule, k, table[k] + 1), "one more is not");
        for (uint32_t by = 0; by < 3; by++) {
            uint32_t r = table[k] + by - (table[k] > 0);
            uint32_t found = 999;
            enum answer answer = code(r, &found);
            if (!covers(&rule, 127, r))
                expect(answer == TOO_UNCERTAIN && found == 999, "too large is 8");
            else
                expect(answer == DONE && found < 128 && covers(&rule, found, r) && (found == 0 || !covers(&rule, found - 1, r)), "the least that covers");
        }
    }
}

// The standard's own entries: value and half a unit of its last digit, in millimetres.
static void check_printed(void)
{
    static const uint32_t radius[][3] = {{0, 0, 500}, {1, 1000, 500}, {2, 2100, 50}, {20, 57300, 50}, {40, 443000, 500}, {60, 3000000, 500000},
        {80, 20000000, 500000}, {100, 138000000, 500000}, {120, 927000000, 500000}};
    static const uint32_t height[][3] = {{0, 0, 500}, {1, 1130, 5}, {2, 2280, 5}, {20, 28700, 50}, {40, 75800, 50}, {60, 153000, 50}, {80, 279400, 50},
        {100, 486600, 50}, {120, 826100, 50}, {127, 990500, 50}};
    for (size_t i = 0; i < sizeof radius / sizeof radius[0]; i++)
        expect(labs((long)radius_table[radius[i][0]] - (long)radius[i][1]) <= (long)radius[i][2], "the standard's table 1");
    for (size_t i = 0; i < sizeof height / sizeof height[0]; i++)
        expect(labs((long)height_table[height[i][0]] - (long)height[i][1]) <= (long)height[i][2], "the standard's table 2");
}

// ---- Trips ----

// Octets with the spare bits of a readable message zero.
static void clear_spare(uint8_t *message, uint32_t kind)
{
    static const uint8_t sevens[16][4] = {[CIRCLE] = {7}, [ELLIPSE] = {7, 8, 10}, [ELLIPSOID] = {9, 10, 12, 13}, [ARC] = {9, 12}};
    uint32_t type = message[0] >> 4;
    if (kind == 1)
        message[0] &= type & 1 ? 0xF3 : 0xF1;
    else if (type != POLYGON)
        message[0] &= 0xF0;
    for (int i = 0; kind == 0 && i < 4; i++)
        if (sevens[type][i] != 0)
            message[sevens[type][i]] &= 127;
}

// What a writer left in a buffer of 0xA5: exactly `length` octets of `message`.
static int written(const uint8_t *buffer, const uint8_t *message, size_t length)
{
    for (size_t i = length; i < 100; i++)
        if (buffer[i] != 0xA5)
            return 0;
    return memcmp(buffer, message, length) == 0;
}

static enum answer write_record(uint32_t kind, const void *record, uint8_t *buffer, size_t room, size_t *length)
{
    return kind == 0 ? write_shape(record, buffer, room, length) : write_velocity(record, buffer, room, length);
}

// Writes the record of a message again, with too little room and with enough: the message with its spare bits zero comes out.
static void check_rewriting(const uint8_t *octets, size_t length, uint32_t kind, const void *record)
{
    uint8_t message[100] = {0}, buffer[100];
    size_t count = 99;
    memcpy(message, octets, length);
    clear_spare(message, kind);
    memset(buffer, 0xA5, sizeof buffer);
    enum answer answer = write_record(kind, record, buffer, length - 1, &count);
    expect(answer == SHORT_BUFFER && count == 0 && written(buffer, message, 0), "a short buffer is 10");
    answer = write_record(kind, record, buffer, sizeof buffer, &count);
    expect(answer == DONE && count == length && written(buffer, message, length), "written again");
}

static void check_shape_trip(const uint8_t *octets, size_t length)
{
    struct shape shape, again;
    if (read_shape(octets, length, &shape) != DONE) {
        struct shape nothing;
        memset(&nothing, 0, sizeof nothing);
        nothing.type = NOTHING;
        expect(memcmp(&shape, &nothing, sizeof shape) == 0, "a refused record is nothing");
        return;
    }
    check_rewriting(octets, length, 0, &shape);
    struct shape_quantities quantities;
    expect(report_shape(&shape, &quantities) == DONE, "reported");
    if (shape.semi_minor > shape.semi_major) {
        expect(code_shape(&quantities, &again) == (quantities.semi_minor > quantities.semi_major ? OUT_OF_RANGE : DONE), "axes turned round");
        return;
    }
    expect(code_shape(&quantities, &again) == DONE && memcmp(&shape, &again, sizeof shape) == 0, "reported and coded again");
}

static void check_velocity_trip(const uint8_t *octets, size_t length)
{
    struct velocity velocity, again;
    if (read_velocity(octets, length, &velocity) != DONE) {
        expect(velocity.type == NOTHING && velocity.bearing == 0 && velocity.horizontal_speed == 0, "a refused record is nothing");
        return;
    }
    check_rewriting(octets, length, 1, &velocity);
    struct velocity_quantities quantities;
    expect(report_velocity(&velocity, &quantities) == DONE, "reported");
    expect(code_velocity(&quantities, &again) == DONE && memcmp(&velocity, &again, sizeof velocity) == 0, "reported and coded again");
}

static void check_frames(void)
{
    uint8_t head[4], message[96];
    while (fread(head, 1, 4, stdin) == 4 && head[0] == 0 && head[1] >= 2 && head[1] <= 93 && head[2] == 1 && head[3] <= 1) {
        size_t length = head[1] - 2u;
        if (fread(message, 1, length, stdin) != length)
            break;
        if (head[3] == 0)
            check_shape_trip(message, length);
        else
            check_velocity_trip(message, length);
    }
}

// ---- Refusals of records and quantities ----

static enum answer written_as(struct shape shape)
{
    uint8_t buffer[100];
    size_t length;
    memset(buffer, 0xA5, sizeof buffer);
    enum answer answer = write_shape(&shape, buffer, 6, &length);
    expect(length == 0 && written(buffer, buffer, 0), "a refusal leaves the buffer");
    return answer;
}

static void check_shape_records(void)
{
    expect(written_as((struct shape){.type = NOTHING}) == 2, "nothing is 2");
    expect(written_as((struct shape){.type = 2}) == 2, "type 2");
    expect(written_as((struct shape){.type = 16, .count = 77}) == 2, "type 16");
    expect(written_as((struct shape){.type = 0}) == 10, "short");
    expect(written_as((struct shape){.type = 0, .orientation = 200}) == 7, "a point with orientation 200");
    expect(written_as((struct shape){.type = 0, .confidence = 200}) == 7, "a point with confidence 200");
    expect(written_as((struct shape){.type = 0, .count = 3}) == 7, "a point with a count");
    expect(written_as((struct shape){.type = 0, .points[14].south = 1}) == 7, "a point with points");
    expect(written_as((struct shape){.type = 3, .orientation = 180, .confidence = 101, .semi_major = 128}) == 5, "5 before 6 and 7");
    expect(written_as((struct shape){.type = 3, .orientation = 179, .confidence = 101, .semi_major = 128}) == 6, "6 before 7");
    expect(written_as((struct shape){.type = 3, .confidence = 100, .semi_major = 128}) == 7, "semi-major 128");
    expect(written_as((struct shape){.type = 3, .confidence = 4294967295}) == 6, "confidence however large");
    expect(written_as((struct shape){.type = 3, .offset = 180}) == 7, "an ellipse's offset");
    expect(written_as((struct shape){.type = 10, .included = 180, .confidence = 255}) == 5, "included 180");
    expect(written_as((struct shape){.type = 10, .offset = 4294967295}) == 5, "offset however large");
    expect(written_as((struct shape){.type = 10, .inner_radius = 65536}) == 7, "inner radius 65536");
    expect(written_as((struct shape){.type = 10, .orientation = 1}) == 7, "an arc's orientation");
    expect(written_as((struct shape){.type = 8, .altitude = 32768}) == 7, "altitude 32768");
    expect(written_as((struct shape){.type = 8, .depth = 2}) == 7, "depth 2");
    expect(written_as((struct shape){.type = 9, .altitude_uncertainty = 128}) == 7, "altitude uncertainty 128");
    expect(written_as((struct shape){.type = 9, .semi_minor = 127}) == 10, "a semi-minor above the semi-major is taken");
    expect(written_as((struct shape){.type = 5, .count = 2, .orientation = 200}) == 4, "count 2");
    expect(written_as((struct shape){.type = 5, .count = 16}) == 4, "count 16");
    expect(written_as((struct shape){.type = 5, .count = 3, .centre.latitude = 1}) == 7, "a polygon's centre");
    expect(written_as((struct shape){.type = 5, .count = 3, .points[3].longitude = 1}) == 7, "a point after the last");
    expect(written_as((struct shape){.type = 5, .count = 3, .points[2].longitude = -8388609}) == 7, "a longitude too low");
    expect(written_as((struct shape){.type = 5, .count = 3, .points[2].latitude = 8388608}) == 7, "a latitude too high");
    expect(written_as((struct shape){.type = 5, .count = 15, .points[14].longitude = -8388608}) == 10, "a good polygon");
}

static void check_velocity_records(void)
{
    uint8_t buffer[8];
    size_t length;
    expect(write_velocity(&(struct velocity){.type = 4, .bearing = 360}, buffer, 8, &length) == 2, "velocity 4");
    expect(write_velocity(&(struct velocity){.type = 0, .bearing = 360, .down = 1}, buffer, 8, &length) == 5, "bearing 360");
    expect(write_velocity(&(struct velocity){.type = 0, .down = 1}, buffer, 8, &length) == 7, "an unused direction");
    expect(write_velocity(&(struct velocity){.type = 1, .horizontal_uncertainty = 255}, buffer, 8, &length) == 7, "an unused uncertainty 255");
    expect(write_velocity(&(struct velocity){.type = 2, .vertical_uncertainty = 255}, buffer, 8, &length) == 7, "an unused uncertainty 255");
    expect(write_velocity(&(struct velocity){.type = 3, .vertical_speed = 256}, buffer, 8, &length) == 7, "vertical speed 256");
    expect(write_velocity(&(struct velocity){.type = 3}, buffer, 6, &length) == 10, "short");
}

static enum answer coded(struct shape_quantities quantities)
{
    struct shape shape;
    return code_shape(&quantities, &shape);
}

static void check_quantities(void)
{
    const uint32_t most = 4294967295;
    expect(coded((struct shape_quantities){.type = 4}) == 2, "type 4");
    expect(coded((struct shape_quantities){.type = 5, .count = 16, .altitude = 1}) == 4, "count 16");
    expect(coded((struct shape_quantities){.type = 0, .centre.latitude = INT64_MIN}) == 7, "the least latitude");
    expect(coded((struct shape_quantities){.type = 0, .centre.longitude = HALF_TURN + 1}) == 7, "longitude beyond");
    expect(coded((struct shape_quantities){.type = 0, .uncertainty = most}) == 7, "an unused uncertainty is 7, not 8");
    expect(coded((struct shape_quantities){.type = 1, .uncertainty = most}) == 8, "too uncertain");
    expect(coded((struct shape_quantities){.type = 1, .uncertainty = most, .centre.latitude = NINETY_DEGREES + 1}) == 7, "7 before 8");
    expect(coded((struct shape_quantities){.type = 3, .semi_major = 51160, .semi_minor = 57274}) == 7, "axes by quantity");
    expect(coded((struct shape_quantities){.type = 3, .confidence = {1, 0}}) == 7, "confidence 0 asked");
    expect(coded((struct shape_quantities){.type = 3, .orientation = 180000}) == 7, "orientation 180 degrees");
    expect(coded((struct shape_quantities){.type = 10, .included = 0}) == 7, "included 0");
    expect(coded((struct shape_quantities){.type = 10, .included = 360000, .inner_radius = most}) == 0, "included 360 degrees");
    expect(coded((struct shape_quantities){.type = 10, .included = 360001}) == 7, "included beyond");
    expect(coded((struct shape_quantities){.type = 10, .included = 1, .offset = 360000}) == 7, "offset 360 degrees");
    expect(coded((struct shape_quantities){.type = 9, .altitude = INT32_MIN, .altitude_uncertainty = most}) == 8, "altitude uncertainty");
    struct velocity velocity;
    struct velocity_quantities fast = {.type = 3, .horizontal_speed = most, .vertical_speed = INT32_MIN, .vertical_uncertainty = {1, 254000}};
    expect(code_velocity(&fast, &velocity) == 0 && velocity.horizontal_speed == 65535 && velocity.vertical_speed == 255 && velocity.down == 1
            && velocity.horizontal_uncertainty == 255 && velocity.vertical_uncertainty == 254,
        "the fastest");
    fast.vertical_uncertainty.value = 254001;
    expect(code_velocity(&fast, &velocity) == 8, "254001 is 8");
    fast.bearing = 360000;
    expect(code_velocity(&fast, &velocity) == 7, "7 before 8");
}

static void check_choice(void)
{
    uint8_t buffer[100], message[8] = {0x10, 0x40, 0, 0, 0xC0, 0, 0, 0x14};
    size_t length;
    struct request circle = {.centre = {45000000000, -90000000000}, .horizontal = ASKED_CIRCLE, .semi_major = 57274};
    memset(buffer, 0xA5, sizeof buffer);
    expect(choose(&circle, 10, buffer, 7, &length) == 10 && length == 0 && written(buffer, message, 0), "seven octets for a circle");
    expect(choose(&circle, 10, buffer, 8, &length) == 0 && length == 8 && written(buffer, message, 8), "eight are enough");
    struct request ellipse = circle;
    ellipse.horizontal = ASKED_ELLIPSE;
    ellipse.semi_minor = 51159;
    expect(choose(&ellipse, 10, buffer, 10, &length) == 10, "no looser message for want of room");
    expect(choose(&ellipse, 2, buffer, 10, &length) == 0 && length == 8, "a circle for an ellipse");
    for (uint32_t list = 0; list < 65536; list++) {
        struct request high = circle;
        high.has_altitude = 1;
        expect(choose(&high, list, buffer, 100, &length) == 9, "altitude and circle, no altitude uncertainty");
    }
}

int main(void)
{
    prepare_tables();
    check_table(radius_table, 10000, 11, 10, code_uncertainty);
    check_table(height_table, 45000, 41, 40, code_altitude_uncertainty);
    check_printed();
    check_shape_records();
    check_velocity_records();
    check_quantities();
    check_choice();
    check_frames();
    printf("selftest: %lu checks, %lu failed\n", checks, failures);
    return failures != 0;
}
