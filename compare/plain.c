#include "plain.h"

#include "coder.h"
#include "fields.h"

#include <string.h>

// The coder's records are the interface's elements in the same order, so an array of codes is taken as a record where it stands.
_Static_assert(sizeof(struct shape) == GAD_SHAPE_CODES * sizeof(uint32_t), "61 elements");
_Static_assert(offsetof(struct shape, centre.longitude) == GAD_CODE_LONGITUDE * sizeof(uint32_t), "the start");
_Static_assert(offsetof(struct shape, confidence) == GAD_CODE_CONFIDENCE * sizeof(uint32_t), "the fields");
_Static_assert(offsetof(struct shape, points) == GAD_CODE_POINTS * sizeof(uint32_t), "the points");
_Static_assert(sizeof(struct velocity) == GAD_VELOCITY_CODES * sizeof(uint32_t), "7 elements");
_Static_assert(offsetof(struct velocity, down) == GAD_VELOCITY_CODE_DOWN * sizeof(uint32_t), "the direction");

static int64_t refused(enum answer answer)
{
    return -(int64_t)answer;
}

// The end of a call that fills elements: a short array is refused last, and only an answer of 0 reaches the caller's elements.
static inline int64_t hand_back(enum answer answer, void *to, size_t room, const void *from, size_t elements, size_t octets)
{
    if (answer != DONE)
        return refused(answer);
    if (room < elements)
        return refused(SHORT_BUFFER);
    memcpy(to, from, octets);
    return (int64_t)elements;
}

// ---- Octets to codes and back ----

int64_t plain_read_shape(uint32_t *codes, size_t code_elements, const uint8_t *message, size_t octets)
{
    struct shape shape;
    enum answer answer = read_shape(message, octets, &shape);
    return hand_back(answer, codes, code_elements, &shape, GAD_SHAPE_CODES, sizeof shape);
}

int64_t plain_read_velocity(uint32_t *codes, size_t code_elements, const uint8_t *message, size_t octets)
{
    struct velocity velocity;
    enum answer answer = read_velocity(message, octets, &velocity);
    return hand_back(answer, codes, code_elements, &velocity, GAD_VELOCITY_CODES, sizeof velocity);
}

// One text for both records.
#define PLAIN_WRITE(record, elements)                                                                    \
    int64_t plain_write_##record(uint8_t *out, size_t room, const uint32_t *codes, size_t code_elements) \
    {                                                                                                 \
        if (code_elements < elements)                                                                       \
            return refused(WRONG_LENGTH);                                                             \
        size_t length;                                                                                \
        enum answer answer = write_##record((const struct record *)codes, out, room, &length);        \
        return answer == DONE ? (int64_t)length : refused(answer);                                    \
    }

PLAIN_WRITE(shape, GAD_SHAPE_CODES)
PLAIN_WRITE(velocity, GAD_VELOCITY_CODES)

// ---- Codes to quantities ----

static void put_shape_quantities(const struct shape_quantities *q, int64_t *elements)
{
    elements[GAD_TYPE] = q->type;
    elements[GAD_COUNT] = q->count;
    elements[GAD_LATITUDE] = q->centre.latitude;
    elements[GAD_LONGITUDE] = q->centre.longitude;
    elements[GAD_ALTITUDE] = q->altitude;
    elements[GAD_UNCERTAINTY] = q->uncertainty;
    elements[GAD_SEMI_MAJOR] = q->semi_major;
    elements[GAD_SEMI_MINOR] = q->semi_minor;
    elements[GAD_ORIENTATION] = q->orientation;
    elements[GAD_ALTITUDE_UNCERTAINTY] = q->altitude_uncertainty;
    elements[GAD_INNER_RADIUS] = q->inner_radius;
    elements[GAD_OFFSET] = q->offset;
    elements[GAD_INCLUDED] = q->included;
    elements[GAD_CONFIDENCE] = optional_element(q->confidence);
    memcpy(elements + GAD_POINTS, q->points, sizeof q->points);
}

_Static_assert(sizeof(struct place[MOST_POINTS]) == (GAD_SHAPE_QUANTITIES - GAD_POINTS) * sizeof(int64_t), "fifteen pairs");

int64_t plain_report_shape(int64_t *quantities, size_t quantity_elements, const uint32_t *codes, size_t code_elements)
{
    if (code_elements < GAD_SHAPE_CODES)
        return refused(WRONG_LENGTH);
    struct shape_quantities reported;
    enum answer answer = report_shape((const struct shape *)codes, &reported);
    if (answer != DONE)
        return refused(answer);
    if (quantity_elements < GAD_SHAPE_QUANTITIES)
        return refused(SHORT_BUFFER);
    put_shape_quantities(&reported, quantities);
    return GAD_SHAPE_QUANTITIES;
}

int64_t plain_report_velocity(int64_t *quantities, size_t quantity_elements, const uint32_t *codes, size_t code_elements)
{
    if (code_elements < GAD_VELOCITY_CODES)
        return refused(WRONG_LENGTH);
    struct velocity_quantities q;
    enum answer answer = report_velocity((const struct velocity *)codes, &q);
    int64_t elements[GAD_VELOCITY_QUANTITIES] = {q.type, q.bearing, q.horizontal_speed, q.vertical_speed};
    if (q.type == HORIZONTAL_UNCERTAIN || q.type == HORIZONTAL_VERTICAL_UNCERTAIN)
        elements[GAD_VELOCITY_UNCERTAINTY] = optional_element(q.horizontal_uncertainty);
    if (q.type == HORIZONTAL_VERTICAL_UNCERTAIN)
        elements[GAD_VELOCITY_VERTICAL_UNCERTAINTY] = optional_element(q.vertical_uncertainty);
    return hand_back(answer, quantities, quantity_elements, elements, GAD_VELOCITY_QUANTITIES, sizeof elements);
}

// ---- Quantities to codes ----

// A type or a count that 32 bits can't hold is as good as the largest that they can.
static inline uint32_t take_number(int64_t element)
{
    return element < 0 || element > UINT32_MAX ? UINT32_MAX : (uint32_t)element;
}

static void take_shape_quantities(const int64_t *elements, struct shape_quantities *q)
{
    int outside = 0;
    q->type = take_number(elements[GAD_TYPE]);
    q->count = take_number(elements[GAD_COUNT]);
    q->centre = (struct place){elements[GAD_LATITUDE], elements[GAD_LONGITUDE]};
    q->altitude = take_signed(elements[GAD_ALTITUDE], &outside);
    q->uncertainty = take_unsigned(elements[GAD_UNCERTAINTY], &outside);
    q->semi_major = take_unsigned(elements[GAD_SEMI_MAJOR], &outside);
    q->semi_minor = take_unsigned(elements[GAD_SEMI_MINOR], &outside);
    q->orientation = take_unsigned(elements[GAD_ORIENTATION], &outside);
    q->altitude_uncertainty = take_unsigned(elements[GAD_ALTITUDE_UNCERTAINTY], &outside);
    q->inner_radius = take_unsigned(elements[GAD_INNER_RADIUS], &outside);
    q->offset = take_unsigned(elements[GAD_OFFSET], &outside);
    q->included = take_unsigned(elements[GAD_INCLUDED], &outside);
    q->confidence = take_optional(elements[GAD_CONFIDENCE], &outside);
    memcpy(q->points, elements + GAD_POINTS, sizeof q->points);
    if (outside) // a latitude that no type takes: 7 in its place after 2 and 4
        q->centre.latitude = INT64_MAX;
}

int64_t plain_code_shape(uint32_t *codes, size_t code_elements, const int64_t *quantities, size_t quantity_elements)
{
    if (quantity_elements < GAD_SHAPE_QUANTITIES)
        return refused(WRONG_LENGTH);
    struct shape_quantities q;
    struct shape shape;
    take_shape_quantities(quantities, &q);
    enum answer answer = code_shape(&q, &shape);
    return hand_back(answer, codes, code_elements, &shape, GAD_SHAPE_CODES, sizeof shape);
}

// The coder wants an unused uncertainty speed missing; in the array it is 0.
static struct optional take_speed(int64_t element, int used, int *outside)
{
    if (used)
        return take_optional(element, outside);
    *outside |= element != 0;
    return (struct optional){0, 0};
}

int64_t plain_code_velocity(uint32_t *codes, size_t code_elements, const int64_t *quantities, size_t quantity_elements)
{
    if (quantity_elements < GAD_VELOCITY_QUANTITIES)
        return refused(WRONG_LENGTH);
    int outside = 0;
    uint32_t type = take_number(quantities[GAD_VELOCITY_TYPE]);
    int uncertain = type == HORIZONTAL_UNCERTAIN || type == HORIZONTAL_VERTICAL_UNCERTAIN;
    struct velocity_quantities q = {
        .type = type,
        .bearing = take_unsigned(quantities[GAD_VELOCITY_BEARING], &outside),
        .horizontal_speed = take_unsigned(quantities[GAD_VELOCITY_HORIZONTAL_SPEED], &outside),
        .vertical_speed = take_signed(quantities[GAD_VELOCITY_VERTICAL_SPEED], &outside),
        .horizontal_uncertainty = take_speed(quantities[GAD_VELOCITY_UNCERTAINTY], uncertain, &outside),
        .vertical_uncertainty
        = take_speed(quantities[GAD_VELOCITY_VERTICAL_UNCERTAINTY], type == HORIZONTAL_VERTICAL_UNCERTAIN, &outside),
    };
    if (outside)
        q.bearing = UINT32_MAX;
    struct velocity velocity;
    enum answer answer = code_velocity(&q, &velocity);
    return hand_back(answer, codes, code_elements, &velocity, GAD_VELOCITY_CODES, sizeof velocity);
}

// ---- The choice of shape ----

static enum answer take_request(const int64_t *elements, struct request *request)
{
    int outside = 0;
    struct optional major = take_optional(elements[GAD_ASK_SEMI_MAJOR], &outside);
    struct optional minor = take_optional(elements[GAD_ASK_SEMI_MINOR], &outside);
    struct optional orientation = take_optional(elements[GAD_ASK_ORIENTATION], &outside);
    *request = (struct request){
        .centre = {elements[GAD_ASK_LATITUDE], elements[GAD_ASK_LONGITUDE]},
        .has_altitude = elements[GAD_ASK_ALTITUDE] != GAD_MISSING,
        .horizontal = minor.given ? ASKED_ELLIPSE : major.given ? ASKED_CIRCLE : NOT_ASKED,
        .semi_major = major.value,
        .semi_minor = minor.value,
        .orientation = orientation.value,
        .altitude_uncertainty = take_optional(elements[GAD_ASK_ALTITUDE_UNCERTAINTY], &outside),
        .confidence = take_optional(elements[GAD_ASK_CONFIDENCE], &outside),
    };
    if (request->has_altitude)
        request->altitude = take_signed(elements[GAD_ASK_ALTITUDE], &outside);
    if (minor.given != orientation.given || (minor.given && !major.given))
        outside = 1;
    return outside ? OUT_OF_RANGE : DONE;
}

int64_t plain_choose(uint8_t *out, size_t room, const int64_t *request, size_t request_elements, uint16_t list)
{
    if (request_elements < GAD_REQUEST)
        return refused(WRONG_LENGTH);
    struct request asked;
    enum answer answer = take_request(request, &asked);
    size_t length = 0;
    if (answer == DONE)
        answer = choose(&asked, list, out, room, &length);
    return answer == DONE ? (int64_t)length : refused(answer);
}

// ---- Single codes and quantities ----

int64_t plain_code(uint32_t *code, size_t code_elements, uint8_t field, int64_t quantity)
{
    if (field >= GAD_FIELDS)
        return refused(UNKNOWN_TYPE);
    uint32_t elements[2] = {0};
    size_t count = field_elements(field);
    enum answer answer = code_field(field, quantity, elements);
    return hand_back(answer, code, code_elements, elements, count, count * sizeof(uint32_t));
}

static enum answer report_field(uint8_t field, const uint32_t *code, int64_t *quantity)
{
    enum answer answer;
    int32_t narrow = 0;
    uint32_t size = 0;
    struct optional optional = {0, 0};
    switch (field) {
    case GAD_FIELD_LATITUDE:
        return report_latitude(code[0], code[1], quantity);
    case GAD_FIELD_LONGITUDE:
        return report_longitude((int32_t)code[0], quantity);
    case GAD_FIELD_ALTITUDE:
    case GAD_FIELD_VERTICAL_SPEED:
        answer = (field == GAD_FIELD_ALTITUDE ? report_altitude : report_vertical_speed)(code[0], code[1], &narrow);
        *quantity = narrow;
        return answer;
    case GAD_FIELD_UNCERTAINTY_SPEED:
    case GAD_FIELD_CONFIDENCE:
        answer = (field == GAD_FIELD_CONFIDENCE ? report_confidence : report_uncertainty_speed)(code[0], &optional);
        *quantity = optional_element(optional);
        return answer;
    default:
        answer = simple_fields[field].report(code[0], &size);
        *quantity = size;
        return answer;
    }
}

int64_t plain_report(int64_t *quantity, size_t quantity_elements, uint8_t field, const uint32_t *code, size_t code_elements)
{
    if (field >= GAD_FIELDS)
        return refused(UNKNOWN_TYPE);
    if (code_elements < field_elements(field))
        return refused(WRONG_LENGTH);
    int64_t element = 0;
    enum answer answer = report_field(field, code, &element);
    return hand_back(answer, quantity, quantity_elements, &element, 1, sizeof element);
}
