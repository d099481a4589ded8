// Frames on standard input, a line for each: number, kind, answer, and on 0 the type and the reported quantities.
#include "coder.h"
#include "stream.h"

static inline char *space_unsigned(char *at, uint32_t number)
{
    *at++ = ' ';
    return put_unsigned(at, number);
}

static inline char *space_signed(char *at, int64_t number)
{
    *at++ = ' ';
    return put_signed(at, number);
}

// code·1000, with its sign.
static inline char *space_thousands(char *at, uint32_t negative, uint32_t code)
{
    *at++ = ' ';
    if (code == 0) {
        if (negative)
            return put_text(at, "-1", 2);
        *at++ = '0';
        return at;
    }
    if (negative)
        *at++ = '-';
    return put_text(put_medium(at, code), "000", 3);
}

static inline char *space_missing(char *at)
{
    return put_text(at, " -", 2);
}

static inline char *space_confidence(char *at, uint32_t code)
{
    return code == 0 ? space_missing(at) : space_unsigned(at, code);
}

static inline char *space_uncertainty_speed(char *at, uint32_t code)
{
    return code == 255 ? space_missing(at) : space_thousands(at, 0, code);
}

static inline char *space_coordinates(char *at, const struct coordinates *point)
{
    at = space_signed(at, latitude_of(point->south, point->latitude));
    return space_signed(at, longitude_of(point->longitude));
}

static inline char *space_axes(char *at, const struct shape *shape)
{
    at = space_unsigned(at, radius_table[shape->semi_major]);
    at = space_unsigned(at, radius_table[shape->semi_minor]);
    return space_thousands(at, 0, shape->orientation);
}

static char *put_shape(char *at, const struct shape *shape)
{
    at = space_unsigned(at, shape->type);
    if (shape->type == POLYGON) {
        at = space_unsigned(at, shape->count);
        for (uint32_t i = 0; i < shape->count; i++)
            at = space_coordinates(at, &shape->points[i]);
        return at;
    }
    at = space_coordinates(at, &shape->centre);
    switch (shape->type) {
    case CIRCLE:
        return space_unsigned(at, radius_table[shape->uncertainty]);
    case ELLIPSE:
        return space_confidence(space_axes(at, shape), shape->confidence);
    case ALTITUDE:
        return space_thousands(at, shape->depth, shape->altitude);
    case ELLIPSOID:
        at = space_axes(space_thousands(at, shape->depth, shape->altitude), shape);
        at = space_unsigned(at, height_table[shape->altitude_uncertainty]);
        return space_confidence(at, shape->confidence);
    case ARC:
        at = space_thousands(at, 0, shape->inner_radius * 5);
        at = space_unsigned(at, radius_table[shape->uncertainty]);
        at = space_thousands(at, 0, shape->offset * 2);
        at = space_thousands(at, 0, shape->included * 2 + 2);
        return space_confidence(at, shape->confidence);
    default:
        return at;
    }
}

static char *put_velocity(char *at, const struct velocity *velocity)
{
    at = space_unsigned(at, velocity->type);
    at = space_thousands(at, 0, velocity->bearing);
    at = space_thousands(at, 0, velocity->horizontal_speed);
    if (velocity->type & 1)
        at = space_thousands(at, velocity->down, velocity->vertical_speed);
    if (velocity->type & 2)
        at = space_uncertainty_speed(at, velocity->horizontal_uncertainty);
    if (velocity->type == HORIZONTAL_VERTICAL_UNCERTAIN)
        at = space_uncertainty_speed(at, velocity->vertical_uncertainty);
    return at;
}

// Whether the input holds `count` octets more, reading as needed.
static inline int have(size_t count)
{
    while (input_end - input_start < count)
        if (!refill())
            return 0;
    return 1;
}

static char *put_frame(char *at, uint32_t kind, const uint8_t *message, size_t length)
{
    static struct shape shape;
    static struct velocity velocity;
    *at++ = ' ';
    *at++ = (char)('0' + kind);
    if (kind == 0) {
        enum answer answer = read_shape(message, length, &shape);
        at = space_unsigned(at, answer);
        return answer == DONE ? put_shape(at, &shape) : at;
    }
    enum answer answer = read_velocity(message, length, &velocity);
    at = space_unsigned(at, answer);
    return answer == DONE ? put_velocity(at, &velocity) : at;
}

int main(void)
{
    prepare_tables();
    uint64_t unbroken = 0;
    for (;;) {
        if (!have(1))
            break;
        char *at = put_unsigned(output_place(1024), unbroken + 1);
        size_t length = 0;
        int whole = have(2);
        if (whole) {
            length = (size_t)input[input_start] << 8 | input[input_start + 1];
            whole = 2 <= length && length <= 93 && have(2 + length);
        }
        const uint8_t *frame = input + input_start;
        if (!whole || frame[2] != 1 || frame[3] > 1) { // broken: 11
            output_end = put_text(at, " - 11\n", 6);
            break;
        }
        at = put_frame(at, frame[3], frame + 4, length - 2);
        *at++ = '\n';
        output_end = at;
        input_start += 2 + length;
        unbroken++;
    }
    put_end(unbroken);
    return 0;
}
