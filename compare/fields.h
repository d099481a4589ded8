// Single codes and quantities by the numbers of their fields in include/gad.h. A quantity is an element of 64 bits, GAD_MISSING for none.
#ifndef COMPARE_FIELDS_H
#define COMPARE_FIELDS_H

#include "../include/gad.h"
#include "coder.h"

static const char *const field_names[GAD_FIELDS] = {
    "latitude", "longitude", "uncertainty", "altitude-uncertainty", "altitude", "inner-radius", "offset",
    "included", "orientation", "bearing", "horizontal-speed", "vertical-speed", "uncertainty-speed", "confidence",
};

// The numbers of a code: two where it has a sign, which is the first.
static inline size_t field_elements(uint8_t field)
{
    return field == GAD_FIELD_LATITUDE || field == GAD_FIELD_ALTITUDE || field == GAD_FIELD_VERTICAL_SPEED ? 2 : 1;
}

// Whether the quantity may be missing.
static inline int is_optional(uint8_t field)
{
    return field == GAD_FIELD_UNCERTAINTY_SPEED || field == GAD_FIELD_CONFIDENCE;
}

// The fields whose code is one number and whose quantity is unsigned and always given.
static const struct simple_field {
    enum answer (*code)(uint32_t quantity, uint32_t *code);
    enum answer (*report)(int64_t code, uint32_t *quantity);
} simple_fields[GAD_FIELDS] = {
    [GAD_FIELD_UNCERTAINTY] = {code_uncertainty, report_uncertainty},
    [GAD_FIELD_ALTITUDE_UNCERTAINTY] = {code_altitude_uncertainty, report_altitude_uncertainty},
    [GAD_FIELD_INNER_RADIUS] = {code_inner_radius, report_inner_radius},
    [GAD_FIELD_OFFSET] = {code_offset, report_offset},
    [GAD_FIELD_INCLUDED] = {code_included, report_included},
    [GAD_FIELD_ORIENTATION] = {code_orientation, report_orientation},
    [GAD_FIELD_BEARING] = {code_bearing, report_bearing},
    [GAD_FIELD_HORIZONTAL_SPEED] = {code_horizontal_speed, report_horizontal_speed},
};

// ---- Elements taken in the widths in which quantities arrive; `outside` is set by an element that its width can't hold ----

static inline uint32_t take_unsigned(int64_t element, int *outside)
{
    *outside |= element < 0 || element > UINT32_MAX;
    return (uint32_t)element;
}

static inline int32_t take_signed(int64_t element, int *outside)
{
    *outside |= element < INT32_MIN || element > INT32_MAX;
    return (int32_t)element;
}

static inline struct optional take_optional(int64_t element, int *outside)
{
    return element == GAD_MISSING ? (struct optional){0, 0} : (struct optional){1, take_unsigned(element, outside)};
}

static inline int64_t optional_element(struct optional optional)
{
    return optional.given ? (int64_t)optional.value : GAD_MISSING;
}

// ---- One code, one quantity ----

static inline enum answer code_longitude_element(int64_t quantity, uint32_t *element)
{
    int32_t code = 0;
    enum answer answer = code_longitude(quantity, &code);
    *element = (uint32_t)code;
    return answer;
}

static inline enum answer code_field(uint8_t field, int64_t quantity, uint32_t elements[2])
{
    int outside = 0;
    if (field == GAD_FIELD_LATITUDE)
        return code_latitude(quantity, &elements[0], &elements[1]);
    if (field == GAD_FIELD_LONGITUDE)
        return code_longitude_element(quantity, elements);
    if (field == GAD_FIELD_ALTITUDE || field == GAD_FIELD_VERTICAL_SPEED) {
        int32_t narrow = take_signed(quantity, &outside);
        if (outside)
            return OUT_OF_RANGE;
        return (field == GAD_FIELD_ALTITUDE ? code_altitude : code_vertical_speed)(narrow, &elements[0], &elements[1]);
    }
    if (is_optional(field)) {
        struct optional optional = take_optional(quantity, &outside);
        if (outside)
            return OUT_OF_RANGE;
        return (field == GAD_FIELD_CONFIDENCE ? code_confidence : code_uncertainty_speed)(optional, elements);
    }
    uint32_t size = take_unsigned(quantity, &outside);
    return outside ? OUT_OF_RANGE : simple_fields[field].code(size, elements);
}

#endif
