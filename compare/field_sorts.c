// Single codes and quantities, the radius tables and the steps of coordinates, alone and inside shapes and requests.
#include "coder.h"
#include "some.h"
#include "sorts.h"

static void code_single(uint32_t field, int64_t quantity, size_t room)
{
    struct call call = {.function = CODE, .room = room, .field = (uint8_t)field, .quantity = quantity};
    hold(&call, NULL);
}

static void report_single(uint32_t field, uint32_t first, uint32_t second, size_t code_elements, size_t room)
{
    const uint32_t code[4] = {first, second, 12345, 0};
    struct call call = {.function = REPORT, .given = code, .given_elements = code_elements, .room = room, .field = (uint8_t)field};
    hold(&call, NULL);
}

// ---- In order ----

// Every field number there can be, with the ends of all widths and ranges, in every room.
void single_quantities(void)
{
    static const int64_t ends[] = {0, 1, 100, 101, 127, 180000, 254000, 360000, 990484, 32767000, 65535499, 327675000, INT32_MAX, 1806627477, UINT32_MAX,
        NINETY_DEGREES, HALF_TURN, INT64_MAX};
    for (uint32_t field = 0; field < 256; field++)
        for (size_t i = 0; i < COUNT(ends); i++)
            for (int64_t by = -1; by <= 1; by++)
                for (size_t room = 0; room < 4; room++) {
                    int64_t quantity = (int64_t)((uint64_t)ends[i] + (uint64_t)by); // INT64_MAX + 1 is INT64_MIN
                    code_single(field, quantity, room);
                    code_single(field, (int64_t)(0 - (uint64_t)quantity), room);
                }
}

// Every code of a field of up to 16 bits, and some beyond; every field number with odd codes, elements and rooms.
void single_codes(void)
{
    static const uint32_t odd[] = {0, 1, 2, 100, 101, 127, 128, 179, 180, 255, 256, 359, 360, 511, 32767, 32768, 65535, 65536, 8388607, 8388608, 16777215,
        16777216, INT32_MAX, 2147483648, 4286578687, 4286578688, UINT32_MAX};
    for (uint32_t field = 0; field < GAD_FIELDS; field++)
        for (uint32_t code = 0; code < 66000; code++) {
            report_single(field, code & 1, code >> 1, 2, 1);
            report_single(field, code, code, 1 + (field == GAD_FIELD_LATITUDE), 1);
        }
    for (uint32_t field = 0; field < 256; field++)
        for (size_t i = 0; i < COUNT(odd); i++)
            for (size_t j = 0; j < COUNT(odd); j++) {
                report_single(field, odd[i], odd[j], 2, 1);
                report_single(field, odd[i], odd[j], j % 4, i % 3);
            }
}

// One quantity in a good shape of the type.
static void code_in_shape(uint32_t type, size_t element, int64_t quantity)
{
    uint32_t codes[GAD_SHAPE_CODES];
    int64_t quantities[GAD_SHAPE_QUANTITIES];
    base_shape(type, codes, quantities);
    if (element == GAD_SEMI_MAJOR)
        quantities[GAD_SEMI_MINOR] = 0;
    if (element == GAD_SEMI_MINOR)
        quantities[GAD_SEMI_MAJOR] = radius_table[127];
    quantities[element] = quantity;
    hold_whole(CODE_SHAPE, quantities, GAD_SHAPE_QUANTITIES, NULL);
}

static void ask_under_every_list(const int64_t request[GAD_REQUEST])
{
    struct call call = {.function = CHOOSE, .given = request, .given_elements = GAD_REQUEST, .room = 14};
    for (uint32_t subset = 0; subset < REQUEST_LISTS; subset++) {
        call.list = subset_of_types(subset);
        hold(&call, NULL);
    }
}

static void radius_everywhere(int64_t r)
{
    const int64_t none = GAD_MISSING, most = radius_table[127];
    const int64_t requests[][GAD_REQUEST] = {
        {1, 1, none, r, none, none, none, none},
        {1, 1, none, r, r, 0, none, none},
        {1, 1, none, most, r, 179999, none, 100},
        {1, 1, none, r, 0, 90000, none, none},
        {1, 1, -1, r, none, none, 0, 1},
        {1, 1, -1, most, r, 999, 0, none},
    };
    code_single(GAD_FIELD_UNCERTAINTY, r, 1);
    code_in_shape(CIRCLE, GAD_UNCERTAINTY, r);
    code_in_shape(ARC, GAD_UNCERTAINTY, r);
    code_in_shape(ELLIPSE, GAD_SEMI_MAJOR, r);
    code_in_shape(ELLIPSE, GAD_SEMI_MINOR, r);
    code_in_shape(ELLIPSOID, GAD_SEMI_MAJOR, r);
    code_in_shape(ELLIPSOID, GAD_SEMI_MINOR, r);
    for (size_t i = 0; i < COUNT(requests); i++)
        ask_under_every_list(requests[i]);
}

static void height_everywhere(int64_t h)
{
    code_single(GAD_FIELD_ALTITUDE_UNCERTAINTY, h, 1);
    code_in_shape(ELLIPSOID, GAD_ALTITUDE_UNCERTAINTY, h);
    ask_under_every_list((const int64_t[GAD_REQUEST]){-1, -1, 0, 0, GAD_MISSING, GAD_MISSING, h, GAD_MISSING});
}

// Each entry, one less and one more, and the ends of the widths.
void radius_tables(void)
{
    static const int64_t ends[] = {0, UINT32_MAX, INT64_C(1) << 32, -1, INT64_MIN};
    for (uint32_t k = 0; k < 128; k++)
        for (int64_t by = -1; by <= 1; by++) {
            radius_everywhere(radius_table[k] + by);
            height_everywhere(height_table[k] + by);
        }
    for (size_t i = 0; i < COUNT(ends); i++) {
        radius_everywhere(ends[i]);
        height_everywhere(ends[i]);
    }
}

static void coordinate_everywhere(int64_t latitude, int64_t longitude)
{
    const int64_t none = GAD_MISSING;
    code_single(GAD_FIELD_LATITUDE, latitude, 2);
    code_single(GAD_FIELD_LONGITUDE, longitude, 1);
    code_in_shape(POINT, GAD_LATITUDE, latitude);
    code_in_shape(POINT, GAD_LONGITUDE, longitude);
    code_in_shape(POLYGON, GAD_POINTS + 2 * below(7), latitude);
    code_in_shape(POLYGON, GAD_POINTS + 2 * below(7) + 1, longitude);
    ask_under_every_list((const int64_t[GAD_REQUEST]){latitude, longitude, none, none, none, none, none, none});
}

// Both sides of where the code N starts, and N reported.
static void around_step(uint32_t code)
{
    for (int64_t by = -1; by <= 1; by++) {
        coordinate_everywhere(latitude_of(0, code) + by, longitude_of((int32_t)code) + by);
        coordinate_everywhere(latitude_of(1, code) + by, longitude_of(-1 - (int32_t)code) + by);
    }
    for (uint32_t south = 0; south < 2; south++)
        report_single(GAD_FIELD_LATITUDE, south, code, 2, 1);
    report_single(GAD_FIELD_LONGITUDE, code, 0, 1, 1);
    report_single(GAD_FIELD_LONGITUDE, UINT32_MAX - code, 0, 1, 1);
}

// The first and the last codes, those around each power of two, the poles and the date line and one beyond, the ends of 64 bits.
void coordinate_steps(void)
{
    for (uint32_t code = 0; code < 64; code++) {
        around_step(code);
        around_step(8388607 - code);
    }
    for (uint32_t bit = 6; bit < 23; bit++)
        for (uint32_t by = 0; by < 3; by++)
            around_step((1u << bit) - 1 + by);
    for (int64_t by = -2; by <= 2; by++) {
        coordinate_everywhere(NINETY_DEGREES + by, HALF_TURN + by);
        coordinate_everywhere(by - NINETY_DEGREES, by - HALF_TURN);
        coordinate_everywhere(by, by);
        coordinate_everywhere(by + (by < 0 ? INT64_MAX : INT64_MIN + 2), by + (by < 0 ? INT64_MAX : INT64_MIN + 2));
    }
}

// ---- By chance ----

void singles_by_chance(void)
{
    uint32_t field = below(GAD_FIELDS);
    switch (below(4)) {
    case 0:
        report_single(field, below(2), (uint32_t)some_code_number(field), 2, 1);
        break;
    case 1:
        report_single(field, (uint32_t)some_code_number(field), below(2), 1 + below(2), below(2));
        break;
    case 2:
        code_single(field, one_in(8) ? (int64_t)(chance() >> below(64)) : GAD_MISSING + (int64_t)below(2), below(3));
        break;
    default:
        code_single(field, some_quantity(field), 2);
        break;
    }
}
