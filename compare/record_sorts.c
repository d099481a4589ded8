// Arrays of codes, quantities and requests, made from a good one by putting boundary values into its elements.
#include "coder.h"
#include "plain.h"
#include "some.h"
#include "sorts.h"

#include <string.h>

// ---- The elements and their boundaries ----

// A code element: the largest code that its field holds, and the bits that the field has in a message.
struct code_element {
    uint32_t last;
    uint32_t bits;
};

static const struct code_element shape_code_elements[GAD_CODE_POINTS] = {
    [GAD_CODE_TYPE] = {10, 4},
    [GAD_CODE_COUNT] = {15, 4},
    [GAD_CODE_SOUTH] = {1, 1},
    [GAD_CODE_LATITUDE] = {8388607, 23},
    [GAD_CODE_LONGITUDE] = {8388607, 24},
    [GAD_CODE_DEPTH] = {1, 1},
    [GAD_CODE_ALTITUDE] = {32767, 15},
    [GAD_CODE_UNCERTAINTY] = {127, 7},
    [GAD_CODE_SEMI_MAJOR] = {127, 7},
    [GAD_CODE_SEMI_MINOR] = {127, 7},
    [GAD_CODE_ORIENTATION] = {179, 8},
    [GAD_CODE_ALTITUDE_UNCERTAINTY] = {127, 7},
    [GAD_CODE_INNER_RADIUS] = {65535, 16},
    [GAD_CODE_OFFSET] = {179, 8},
    [GAD_CODE_INCLUDED] = {179, 8},
    [GAD_CODE_CONFIDENCE] = {100, 7},
};
static const struct code_element velocity_code_elements[GAD_VELOCITY_CODES] = {{3, 4}, {359, 9}, {65535, 16}, {1, 1}, {255, 8}, {255, 8}, {255, 8}};

static const struct code_element *shape_code_element(size_t element)
{
    return &shape_code_elements[element < GAD_CODE_POINTS ? element : GAD_CODE_SOUTH + (element - GAD_CODE_POINTS) % 3];
}

static const struct code_element *velocity_code_element(size_t element)
{
    return &velocity_code_elements[element];
}

// A quantity's range and the size of its first step.
struct quantity_element {
    int64_t least, most, step;
};

static const struct quantity_element latitude = {-NINETY_DEGREES, NINETY_DEGREES, 10729}, longitude = {-HALF_TURN, HALF_TURN, 21458},
                                  altitude = {INT32_MIN, INT32_MAX, 1000}, radius = {0, 1806627477, 1000}, height = {0, 990484, 1125},
                                  orientation = {0, 179999, 1000}, confidence = {1, 100, 1}, speed_uncertainty = {0, 254000, 1000};

static const struct quantity_element *shape_quantity_element(size_t element)
{
    static const struct quantity_element type = {0, 10, 1}, count = {3, 15, 1}, inner_radius = {0, 5000 * 65535, 5000}, offset = {0, 359999, 2000},
                                      included = {1, 360000, 2000};
    static const struct quantity_element *const elements[GAD_POINTS] = {&type, &count, &latitude, &longitude, &altitude, &radius, &radius, &radius,
        &orientation, &height, &inner_radius, &offset, &included, &confidence};
    return element < GAD_POINTS ? elements[element] : (element - GAD_POINTS) % 2 == 0 ? &latitude : &longitude;
}

static const struct quantity_element *velocity_quantity_element(size_t element)
{
    static const struct quantity_element type = {0, 3, 1}, bearing = {0, 359999, 1000}, horizontal = {0, 65535499, 500}, vertical = {-255499, 255499, 500};
    static const struct quantity_element *const elements[GAD_VELOCITY_QUANTITIES]
        = {&type, &bearing, &horizontal, &vertical, &speed_uncertainty, &speed_uncertainty};
    return elements[element];
}

static const struct quantity_element *request_element(size_t element)
{
    static const struct quantity_element *const elements[GAD_REQUEST]
        = {&latitude, &longitude, &altitude, &radius, &radius, &orientation, &height, &confidence};
    return elements[element];
}

enum { CODE_BOUNDARIES = 12, QUANTITY_BOUNDARIES = 20, MOST_BOUNDARIES = QUANTITY_BOUNDARIES };

// The lowest longitude and the one below it are at the end, in two's complement.
static size_t code_boundaries(const struct code_element *element, int64_t values[MOST_BOUNDARIES])
{
    int64_t end = INT64_C(1) << element->bits;
    const int64_t all[CODE_BOUNDARIES] = {0, 1, (int64_t)element->last - 1, element->last, (int64_t)element->last + 1, end - 1, end, INT32_MAX,
        INT64_C(1) << 31, UINT32_MAX, (uint32_t)-8388608, (uint32_t)-8388609};
    memcpy(values, all, sizeof all);
    return CODE_BOUNDARIES;
}

static size_t quantity_boundaries(const struct quantity_element *element, int64_t values[MOST_BOUNDARIES])
{
    const int64_t all[QUANTITY_BOUNDARIES] = {element->least - 1, element->least, element->least + 1, -element->step - 1, -element->step, -1, 0, 1, element->step - 1,
        element->step, element->step + 1, element->most - 1, element->most, element->most + 1, (int64_t)INT32_MIN - 1, (int64_t)INT32_MAX + 1, UINT32_MAX,
        (int64_t)UINT32_MAX + 1, INT64_MIN, INT64_MAX};
    memcpy(values, all, sizeof all);
    return QUANTITY_BOUNDARIES;
}

// ---- Good arrays to start from ----

static const uint8_t shape_types[] = {POINT, CIRCLE, ELLIPSE, POLYGON, ALTITUDE, ELLIPSOID, ARC};

// A shape that can be reported and coded again: no semi-minor above the semi-major. A polygon has seven points.
void base_shape(uint32_t type, uint32_t codes[GAD_SHAPE_CODES], int64_t quantities[GAD_SHAPE_QUANTITIES])
{
    uint32_t again[GAD_SHAPE_CODES];
    do {
        uint8_t message[LONGEST_MESSAGE] = {(uint8_t)(type << 4 | (type == POLYGON ? 7 : 0))};
        size_t octets = type == POLYGON ? 43 : shape_octets[type];
        fill_octets(message + 1, octets - 1);
        if (plain_read_shape(codes, GAD_SHAPE_CODES, message, octets) < 0)
            continue;
        plain_report_shape(quantities, GAD_SHAPE_QUANTITIES, codes, GAD_SHAPE_CODES);
        if (plain_code_shape(again, GAD_SHAPE_CODES, quantities, GAD_SHAPE_QUANTITIES) > 0)
            return;
    } while (1);
}

void base_velocity(uint32_t type, uint32_t codes[GAD_VELOCITY_CODES], int64_t quantities[GAD_VELOCITY_QUANTITIES])
{
    uint8_t message[8];
    do {
        put_bits(message, 0, 4, type);
        fill_fields(message, velocity_fields[type]);
    } while (plain_read_velocity(codes, GAD_VELOCITY_CODES, message, velocity_octets[type]) < 0);
    plain_report_velocity(quantities, GAD_VELOCITY_QUANTITIES, codes, GAD_VELOCITY_CODES);
}

// The forms of a request: a horizontal uncertainty of no, one or three elements, and each of the three others asked or not.
enum { FORMS = 24 };

static void base_request(uint32_t form, int64_t elements[GAD_REQUEST])
{
    static const int64_t asked[GAD_REQUEST] = {45000000000, -90000000000, -12345, 57274, 51159, 30000, 2279, 67};
    memcpy(elements, asked, sizeof asked);
    if (form % 3 == 0)
        elements[GAD_ASK_SEMI_MAJOR] = GAD_MISSING;
    if (form % 3 != 2)
        elements[GAD_ASK_SEMI_MINOR] = elements[GAD_ASK_ORIENTATION] = GAD_MISSING;
    if ((form / 3 & 1) == 0)
        elements[GAD_ASK_ALTITUDE] = GAD_MISSING;
    if ((form / 3 & 2) == 0)
        elements[GAD_ASK_ALTITUDE_UNCERTAINTY] = GAD_MISSING;
    if ((form / 3 & 4) == 0)
        elements[GAD_ASK_CONFIDENCE] = GAD_MISSING;
}

// ---- The five sorts of array ----

struct array {
    enum function functions[2]; // that are given such an array; FUNCTIONS for no second one
    size_t bases;
};

enum { SHAPE_CODES, VELOCITY_CODES, SHAPE_QUANTITIES, VELOCITY_QUANTITIES, REQUESTS, ARRAYS };

static const struct array arrays[ARRAYS] = {
    [SHAPE_CODES] = {{WRITE_SHAPE, REPORT_SHAPE}, sizeof shape_types},
    [VELOCITY_CODES] = {{WRITE_VELOCITY, REPORT_VELOCITY}, 4},
    [SHAPE_QUANTITIES] = {{CODE_SHAPE, FUNCTIONS}, sizeof shape_types},
    [VELOCITY_QUANTITIES] = {{CODE_VELOCITY, FUNCTIONS}, 4},
    [REQUESTS] = {{CHOOSE, FUNCTIONS}, FORMS},
};

static size_t elements_of(size_t array)
{
    return signatures[arrays[array].functions[0]].given_elements;
}

static size_t boundaries_of(size_t array, size_t element, int64_t values[MOST_BOUNDARIES])
{
    switch (array) {
    case SHAPE_CODES:
        return code_boundaries(shape_code_element(element), values);
    case VELOCITY_CODES:
        return code_boundaries(velocity_code_element(element), values);
    case SHAPE_QUANTITIES:
        return quantity_boundaries(shape_quantity_element(element), values);
    case VELOCITY_QUANTITIES:
        return quantity_boundaries(velocity_quantity_element(element), values);
    default:
        return quantity_boundaries(request_element(element), values);
    }
}

static void base_of(size_t array, size_t base, union filled *elements)
{
    uint32_t codes[GAD_SHAPE_CODES];
    int64_t quantities[GAD_SHAPE_QUANTITIES];
    memset(elements, 0xFF, sizeof *elements); // what stands after the layout doesn't matter
    if (array == REQUESTS) {
        base_request((uint32_t)base, elements->quantities);
        return;
    }
    if (array == SHAPE_CODES || array == SHAPE_QUANTITIES)
        base_shape(shape_types[base], codes, quantities);
    else
        base_velocity((uint32_t)base, codes, quantities);
    if (array == SHAPE_CODES || array == VELOCITY_CODES)
        memcpy(elements->codes, codes, elements_of(array) * sizeof codes[0]);
    else
        memcpy(elements->quantities, quantities, elements_of(array) * sizeof quantities[0]);
}

static void set_element(size_t array, union filled *elements, size_t element, int64_t value)
{
    if (array == SHAPE_CODES || array == VELOCITY_CODES)
        elements->codes[element] = (uint32_t)value;
    else
        elements->quantities[element] = value;
}

static void hold_array(size_t array, const union filled *elements)
{
    for (int i = 0; i < 2; i++) {
        enum function function = arrays[array].functions[i];
        if (function == FUNCTIONS)
            return;
        struct call call = {.function = function, .given = elements, .given_elements = elements_of(array), .room = signatures[function].filled_elements};
        if (function == CHOOSE) {
            call.list = some_list();
            call.room = one_in(4) ? below(16) : 14;
        }
        hold(&call, NULL);
    }
}

// ---- In order ----

void boundaries_alone(void)
{
    union filled elements;
    int64_t values[MOST_BOUNDARIES];
    for (size_t array = 0; array < ARRAYS; array++)
        for (size_t base = 0; base < arrays[array].bases; base++)
            for (size_t element = 0; element < elements_of(array); element++) {
                size_t count = boundaries_of(array, element, values);
                for (size_t i = 0; i < count; i++) {
                    base_of(array, base, &elements);
                    set_element(array, &elements, element, values[i]);
                    hold_array(array, &elements);
                }
            }
}

// Every number that a type's octet could say, and more, in the place of the type.
void type_numbers(void)
{
    union filled elements;
    for (size_t array = 0; array < REQUESTS; array++)
        for (size_t base = 0; base < arrays[array].bases; base++)
            for (int64_t type = 0; type < 300; type++) {
                base_of(array, base, &elements);
                set_element(array, &elements, 0, type);
                hold_array(array, &elements);
            }
}

// Both elements of a pair at every boundary, over one good array for each pair.
static void hold_pair(size_t array, size_t base, size_t element, size_t other)
{
    union filled elements;
    int64_t values[MOST_BOUNDARIES], others[MOST_BOUNDARIES];
    size_t count = boundaries_of(array, element, values), other_count = boundaries_of(array, other, others);
    base_of(array, base, &elements);
    for (size_t i = 0; i < count; i++)
        for (size_t j = 0; j < other_count; j++) {
            set_element(array, &elements, element, values[i]);
            set_element(array, &elements, other, others[j]);
            hold_array(array, &elements);
        }
}

void boundaries_in_pairs(void)
{
    for (size_t array = 0; array < ARRAYS; array++)
        for (size_t base = 0; base < arrays[array].bases; base++)
            for (size_t element = 0; element < elements_of(array); element++)
                for (size_t other = 0; other < element; other++)
                    hold_pair(array, base, element, other);
}

// Every count that an octet can say, with the points after the last zero, and then with each element of the points not zero by itself.
void polygon_counts(void)
{
    static const struct {
        size_t array, count, points, each;
    } ways[] = {{SHAPE_CODES, GAD_CODE_COUNT, GAD_CODE_POINTS, 3}, {SHAPE_QUANTITIES, GAD_COUNT, GAD_POINTS, 2}};
    for (size_t way = 0; way < COUNT(ways); way++)
        for (size_t count = 0; count < 256; count++) {
            union filled elements;
            base_of(ways[way].array, 3, &elements);
            set_element(ways[way].array, &elements, ways[way].count, (int64_t)count);
            size_t last = ways[way].points + ways[way].each * (count < MOST_POINTS ? count : MOST_POINTS);
            for (size_t element = ways[way].points; element < elements_of(ways[way].array); element++)
                set_element(ways[way].array, &elements, element, element < last);
            hold_array(ways[way].array, &elements);
            for (size_t element = ways[way].points; element < elements_of(ways[way].array); element++) {
                set_element(ways[way].array, &elements, element, 1);
                hold_array(ways[way].array, &elements);
                set_element(ways[way].array, &elements, element, element < last);
            }
        }
}

// Every number of given elements from none to three too many, with every room from none to three too much.
static void rooms_of(enum function function, const void *given, size_t full)
{
    struct call call = {.function = function, .given = given, .list = UINT16_MAX};
    for (call.given_elements = 0; call.given_elements <= full + 3; call.given_elements++)
        for (call.room = 0; call.room <= signatures[function].filled_elements + 3u; call.room++)
            hold(&call, NULL);
}

void every_room(void)
{
    union filled elements;
    uint8_t message[MOST_ELEMENTS] = {0};
    for (size_t array = 0; array < ARRAYS; array++)
        for (size_t base = 0; base < arrays[array].bases; base++)
            for (int i = 0; i < 2 && arrays[array].functions[i] != FUNCTIONS; i++) {
                base_of(array, base, &elements);
                rooms_of(arrays[array].functions[i], &elements, elements_of(array));
                set_element(array, &elements, 0, INT64_MAX); // no type and no latitude, so that 3 has to come first and 10 last
                rooms_of(arrays[array].functions[i], &elements, elements_of(array));
            }
    for (uint32_t first = 0; first < 256; first += 3) {
        message[0] = (uint8_t)first;
        rooms_of(READ_SHAPE, message, LONGEST_MESSAGE);
        rooms_of(READ_VELOCITY, message, 7);
    }
}

// ---- By chance ----

// A good array with some elements at a boundary or anything, and now and then too few or too many elements.
void records_by_chance(void)
{
    union filled elements;
    int64_t values[MOST_BOUNDARIES];
    size_t array = below(ARRAYS);
    base_of(array, below((uint32_t)arrays[array].bases), &elements);
    for (uint32_t changes = below(4); changes > 0; changes--) {
        size_t element = below((uint32_t)elements_of(array));
        size_t count = boundaries_of(array, element, values);
        set_element(array, &elements, element, one_in(3) ? (int64_t)(chance() >> below(64)) : values[below((uint32_t)count)]);
    }
    if (!one_in(8)) {
        hold_array(array, &elements);
        return;
    }
    enum function function = arrays[array].functions[0];
    struct call call = {.function = function, .given = &elements, .list = some_list()};
    call.given_elements = elements_of(array) - 2 + below(5);
    call.room = below(signatures[function].filled_elements + 4u);
    hold(&call, NULL);
}
