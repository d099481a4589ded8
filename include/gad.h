/*
 * Iachromel: Geographical Area Descriptions (3GPP TS 23.032), octets to quantities and back, in whole numbers.
 *
 * Link with libdesk.a (`bindings/library` builds it). Every function is proved to answer every call; what each of them says of the numbers in its
 * arrays is written in crates/library/specs/Promises.antt.
 *
 * ARRAYS. Each array is a pointer and, next to it, the number of its elements (octets for messages). A null pointer with length 0 is
 * an empty array; a null pointer with another length is undefined, as any pointer to less than its length is.
 *   - An array that is given and has fewer elements than its layout is refused with 3 before anything else; in gad_report after 2, since
 *     it is the field that says how many there are. What stands after the layout's last element is not looked at.
 *   - An array or buffer that is to be filled and has too little room is refused with 10 after everything else. What stands after the
 *     last element that is filled keeps its value.
 *   - A refusal changes no element and no octet.
 *   - An array that is filled may not overlap one that is given.
 *
 * ANSWERS. A function hands back how many elements or octets it put, or minus the number of its refusal:
 */
#ifndef GAD_H
#define GAD_H

#include <stddef.h>
#include <stdint.h>

#ifdef __cplusplus
extern "C" {
#endif

enum gad_refusal {
    GAD_NO_OCTETS = 1,             /* a message of no octets */
    GAD_UNKNOWN_TYPE = 2,          /* no such shape, velocity or field */
    GAD_WRONG_LENGTH = 3,          /* a message whose length is not its layout's; an array that is given and too short */
    GAD_POLYGON_COUNT = 4,         /* a polygon of fewer than 3 or more than 15 points */
    GAD_ANGLE_CODE = 5,            /* orientation, offset or included code 180 or more, bearing code 360 or more */
    GAD_CONFIDENCE_TOO_LARGE = 6,  /* confidence code 101 or more */
    GAD_OUT_OF_RANGE = 7,          /* a quantity outside its range or its width, a code outside its field */
    GAD_UNCERTAINTY_TOO_LARGE = 8, /* an uncertainty above what the largest code covers */
    GAD_NONE_HOLDS = 9,            /* no shape on the list holds the request */
    GAD_BUFFER_TOO_SHORT = 10      /* too little room for what is to be filled */
};

/*
 * CODES of a shape, 61 elements: the numbers of the message's fields. A field that the type doesn't have is 0, and so is each point after
 * the last. A longitude is its 32 bits in two's complement: (int32_t)codes[GAD_CODE_LONGITUDE] is -8388608 to 8388607.
 */
enum gad_shape_code {
    GAD_CODE_TYPE = 0,      /* 0 point, 1 circle, 3 ellipse, 5 polygon, 8 altitude, 9 altitude ellipsoid, 10 arc */
    GAD_CODE_COUNT = 1,     /* of a polygon's points, 3 to 15 */
    GAD_CODE_SOUTH = 2,     /* S, 1 for south */
    GAD_CODE_LATITUDE = 3,  /* N of 23 bits */
    GAD_CODE_LONGITUDE = 4, /* N of 24 bits with a sign */
    GAD_CODE_DEPTH = 5,     /* D, 1 for depth */
    GAD_CODE_ALTITUDE = 6,  /* N of 15 bits */
    GAD_CODE_UNCERTAINTY = 7, /* of a circle, or the arc's uncertainty radius, 0 to 127 */
    GAD_CODE_SEMI_MAJOR = 8,
    GAD_CODE_SEMI_MINOR = 9,
    GAD_CODE_ORIENTATION = 10, /* 0 to 179 */
    GAD_CODE_ALTITUDE_UNCERTAINTY = 11,
    GAD_CODE_INNER_RADIUS = 12, /* N of 16 bits */
    GAD_CODE_OFFSET = 13,       /* 0 to 179 */
    GAD_CODE_INCLUDED = 14,     /* 0 to 179 */
    GAD_CODE_CONFIDENCE = 15,   /* 0 to 100, 0 for none */
    GAD_CODE_POINTS = 16,       /* S, latitude, longitude of each of fifteen points: three elements a point */
    GAD_SHAPE_CODES = 61
};

/*
 * QUANTITIES of a shape, 44 elements. Nanodegrees for coordinates, millidegrees for other angles, millimetres for lengths. A quantity that
 * the type doesn't have is 0 (a confidence: missing), and so is each point after the last. A quantity arrives signed in 64 bits for
 * coordinates, signed in 32 for altitude, unsigned in 32 otherwise: one that its width can't hold is refused with 7.
 */
enum gad_shape_quantity {
    GAD_TYPE = 0,
    GAD_COUNT = 1,
    GAD_LATITUDE = 2,
    GAD_LONGITUDE = 3,
    GAD_ALTITUDE = 4,
    GAD_UNCERTAINTY = 5,
    GAD_SEMI_MAJOR = 6,
    GAD_SEMI_MINOR = 7,
    GAD_ORIENTATION = 8,
    GAD_ALTITUDE_UNCERTAINTY = 9,
    GAD_INNER_RADIUS = 10,
    GAD_OFFSET = 11,
    GAD_INCLUDED = 12,
    GAD_CONFIDENCE = 13, /* per cent, 1 to 100, or GAD_MISSING */
    GAD_POINTS = 14,     /* latitude and longitude of each of fifteen points: two elements a point */
    GAD_SHAPE_QUANTITIES = 44
};

/* The mark of a missing confidence or uncertainty speed, and of what a request doesn't ask. */
#define GAD_MISSING INT64_MIN

/* CODES of a velocity, 7 elements. A field that the type doesn't have is 0. */
enum gad_velocity_code {
    GAD_VELOCITY_CODE_TYPE = 0, /* 0 horizontal, 1 with vertical, 2 with uncertainty, 3 with both */
    GAD_VELOCITY_CODE_BEARING = 1, /* 0 to 359 */
    GAD_VELOCITY_CODE_HORIZONTAL_SPEED = 2, /* N of 16 bits */
    GAD_VELOCITY_CODE_DOWN = 3, /* D, 1 for down */
    GAD_VELOCITY_CODE_VERTICAL_SPEED = 4, /* N of 8 bits */
    GAD_VELOCITY_CODE_UNCERTAINTY = 5, /* 0 to 255, 255 for not given */
    GAD_VELOCITY_CODE_VERTICAL_UNCERTAINTY = 6,
    GAD_VELOCITY_CODES = 7
};

/* QUANTITIES of a velocity, 6 elements: millidegrees, metres per hour. One that the type doesn't have is 0. */
enum gad_velocity_quantity {
    GAD_VELOCITY_TYPE = 0,
    GAD_VELOCITY_BEARING = 1,
    GAD_VELOCITY_HORIZONTAL_SPEED = 2,
    GAD_VELOCITY_VERTICAL_SPEED = 3, /* signed in 32 bits, down below zero */
    GAD_VELOCITY_UNCERTAINTY = 4, /* or GAD_MISSING */
    GAD_VELOCITY_VERTICAL_UNCERTAINTY = 5,
    GAD_VELOCITY_QUANTITIES = 6
};

/*
 * A REQUEST for one point, 8 elements; GAD_MISSING for what is not asked. The coordinates are always asked. A circle has a semi-major alone;
 * an ellipse has all three of semi-major, semi-minor and orientation; other combinations are refused with 7.
 */
enum gad_request {
    GAD_ASK_LATITUDE = 0,
    GAD_ASK_LONGITUDE = 1,
    GAD_ASK_ALTITUDE = 2,
    GAD_ASK_SEMI_MAJOR = 3,
    GAD_ASK_SEMI_MINOR = 4,
    GAD_ASK_ORIENTATION = 5,
    GAD_ASK_ALTITUDE_UNCERTAINTY = 6,
    GAD_ASK_CONFIDENCE = 7,
    GAD_REQUEST = 8
};

/* THE FIELDS, for a single code or quantity. */
enum gad_field {
    GAD_FIELD_LATITUDE = 0,  /* code: S, N */
    GAD_FIELD_LONGITUDE = 1, /* code: N in 32 bits of two's complement */
    GAD_FIELD_UNCERTAINTY = 2,
    GAD_FIELD_ALTITUDE_UNCERTAINTY = 3,
    GAD_FIELD_ALTITUDE = 4, /* code: D, N */
    GAD_FIELD_INNER_RADIUS = 5,
    GAD_FIELD_OFFSET = 6,
    GAD_FIELD_INCLUDED = 7,
    GAD_FIELD_ORIENTATION = 8,
    GAD_FIELD_BEARING = 9,
    GAD_FIELD_HORIZONTAL_SPEED = 10,
    GAD_FIELD_VERTICAL_SPEED = 11, /* code: D, N */
    GAD_FIELD_UNCERTAINTY_SPEED = 12, /* quantity or GAD_MISSING */
    GAD_FIELD_CONFIDENCE = 13,        /* quantity or GAD_MISSING */
    GAD_FIELDS = 14
};

/* The longest message: a polygon of fifteen points. The choice writes at most 14 octets. */
enum { GAD_LONGEST_MESSAGE = 91 };

/* Octets to codes: 61 or 7, or minus 1, 2, 4, 3, 5, 6, 10, the first that applies. */
int64_t gad_read_shape(uint32_t *codes, size_t code_elements, const uint8_t *message, size_t octets);
int64_t gad_read_velocity(uint32_t *codes, size_t code_elements, const uint8_t *message, size_t octets);

/* Codes to octets: the message's length, or minus 3 (a short array), 2, 4, 5, 6, 7, 10. */
int64_t gad_write_shape(uint8_t *out, size_t room, const uint32_t *codes, size_t code_elements);
int64_t gad_write_velocity(uint8_t *out, size_t room, const uint32_t *codes, size_t code_elements);

/* Codes to reported quantities: 44 or 6, or minus 3 (a short array), 2, 4, 5, 6, 7, 10. */
int64_t gad_report_shape(int64_t *quantities, size_t quantity_elements, const uint32_t *codes, size_t code_elements);
int64_t gad_report_velocity(int64_t *quantities, size_t quantity_elements, const uint32_t *codes, size_t code_elements);

/* Quantities to the codes of their own type: 61 or 7, or minus 3 (a short array), 2, 4, 7, 8, 10. */
int64_t gad_code_shape(uint32_t *codes, size_t code_elements, const int64_t *quantities, size_t quantity_elements);
int64_t gad_code_velocity(uint32_t *codes, size_t code_elements, const int64_t *quantities, size_t quantity_elements);

/*
 * A request to the octets of the best message of the shapes on the receiver's list, bit t of which is shape t: its length, or minus 3 (a
 * short array), 7, 8, 9, 10.
 */
int64_t gad_choose(uint8_t *out, size_t room, const int64_t *request, size_t request_elements, uint16_t list);

/* One quantity to its code: 1 element, or 2 for S or D and N; or minus 2 (no such field), 7, 8, 10. */
int64_t gad_code(uint32_t *code, size_t code_elements, uint8_t field, int64_t quantity);

/* One code to the quantity that it reports: 1 element; or minus 2 (no such field), 3 (a short array), 5, 6, 7, 10. */
int64_t gad_report(int64_t *quantity, size_t quantity_elements, uint8_t field, const uint32_t *code, size_t code_elements);

#ifdef __cplusplus
}
#endif

#endif
