// A plain coder of Geographical Area Descriptions (TS 23.032), written from document 01 and the standard only.
// Whole numbers throughout: nanodegrees, millidegrees, millimetres, metres per hour.
// Call prepare_tables() once before anything else.
#ifndef COMPARE_CODER_H
#define COMPARE_CODER_H

#include <stddef.h>
#include <stdint.h>

enum answer {
    DONE = 0,
    NO_OCTETS = 1,
    UNKNOWN_TYPE = 2,
    WRONG_LENGTH = 3,
    POINT_COUNT = 4,
    ANGLE_CODE = 5,
    CONFIDENCE_CODE = 6,
    OUT_OF_RANGE = 7,
    TOO_UNCERTAIN = 8,
    NO_SHAPE = 9,
    SHORT_BUFFER = 10,
};

enum shape_type {
    POINT = 0,
    CIRCLE = 1,
    ELLIPSE = 3,
    POLYGON = 5,
    ALTITUDE = 8,
    ELLIPSOID = 9,
    ARC = 10,
    NOTHING = 255, // the type of a refused record
};

enum velocity_type {
    HORIZONTAL = 0,
    HORIZONTAL_VERTICAL = 1,
    HORIZONTAL_UNCERTAIN = 2,
    HORIZONTAL_VERTICAL_UNCERTAIN = 3,
};

enum {
    MOST_POINTS = 15,
    LONGEST_MESSAGE = 91,
};

#define NINETY_DEGREES INT64_C(90000000000)
#define HALF_TURN INT64_C(180000000000)
#define WHOLE_TURN INT64_C(360000000000)

// Codes as a message carries them. Fields are wide so that a record can hold, and be refused for, a code outside its field.
struct coordinates {
    uint32_t south;
    uint32_t latitude;
    int32_t longitude;
};

struct shape {
    uint32_t type;
    uint32_t count;
    struct coordinates centre;
    uint32_t depth;
    uint32_t altitude;
    uint32_t uncertainty; // the circle's, and the arc's uncertainty radius
    uint32_t semi_major;
    uint32_t semi_minor;
    uint32_t orientation;
    uint32_t altitude_uncertainty;
    uint32_t inner_radius;
    uint32_t offset;
    uint32_t included;
    uint32_t confidence;
    struct coordinates points[MOST_POINTS];
};

struct velocity {
    uint32_t type;
    uint32_t bearing;
    uint32_t horizontal_speed;
    uint32_t down;
    uint32_t vertical_speed;
    uint32_t horizontal_uncertainty;
    uint32_t vertical_uncertainty;
};

// Quantities. `given` is 0 for a missing one, and `value` is then 0.
struct optional {
    uint32_t given;
    uint32_t value;
};

struct place {
    int64_t latitude;
    int64_t longitude;
};

struct shape_quantities {
    uint32_t type;
    uint32_t count;
    struct place centre;
    int32_t altitude;
    uint32_t uncertainty;
    uint32_t semi_major;
    uint32_t semi_minor;
    uint32_t orientation;
    uint32_t altitude_uncertainty;
    uint32_t inner_radius;
    uint32_t offset;
    uint32_t included;
    struct optional confidence;
    struct place points[MOST_POINTS];
};

struct velocity_quantities {
    uint32_t type;
    uint32_t bearing;
    uint32_t horizontal_speed;
    int32_t vertical_speed;
    struct optional horizontal_uncertainty;
    struct optional vertical_uncertainty;
};

enum horizontal_request { NOT_ASKED, ASKED_CIRCLE, ASKED_ELLIPSE };

struct request {
    struct place centre;
    int has_altitude;
    int32_t altitude;
    enum horizontal_request horizontal;
    uint32_t semi_major; // the radius of a circle
    uint32_t semi_minor; // ellipse only
    uint32_t orientation; // ellipse only
    struct optional altitude_uncertainty;
    struct optional confidence;
};

// Whole parts of r(K) and h(K).
extern uint32_t radius_table[128];
extern uint32_t height_table[128];
void prepare_tables(void);

// Octets to record and back. A refused reading leaves a record of type NOTHING, all else zero.
// A refused writing leaves the buffer as it was and the length 0.
enum answer read_shape(const uint8_t *message, size_t length, struct shape *shape);
enum answer read_velocity(const uint8_t *message, size_t length, struct velocity *velocity);
enum answer write_shape(const struct shape *shape, uint8_t *buffer, size_t room, size_t *length);
enum answer write_velocity(const struct velocity *velocity, uint8_t *buffer, size_t room, size_t *length);

// Record to reported quantities (refused as its writing would be), and quantities to the record of their own type.
enum answer report_shape(const struct shape *shape, struct shape_quantities *quantities);
enum answer report_velocity(const struct velocity *velocity, struct velocity_quantities *quantities);
enum answer code_shape(const struct shape_quantities *quantities, struct shape *shape);
enum answer code_velocity(const struct velocity_quantities *quantities, struct velocity *velocity);

// The best message of a listed type that holds the request. Bit t of the list is shape t.
enum answer choose(const struct request *request, uint32_t list, uint8_t *buffer, size_t room, size_t *length);

// Single codes from quantities.
enum answer code_latitude(int64_t x, uint32_t *south, uint32_t *code);
enum answer code_longitude(int64_t x, int32_t *code);
enum answer code_uncertainty(uint32_t r, uint32_t *code);
enum answer code_altitude_uncertainty(uint32_t h, uint32_t *code);
enum answer code_altitude(int32_t a, uint32_t *depth, uint32_t *code);
enum answer code_inner_radius(uint32_t r, uint32_t *code);
enum answer code_offset(uint32_t a, uint32_t *code);
enum answer code_included(uint32_t a, uint32_t *code);
enum answer code_orientation(uint32_t a, uint32_t *code);
enum answer code_bearing(uint32_t a, uint32_t *code);
enum answer code_horizontal_speed(uint32_t h, uint32_t *code);
enum answer code_vertical_speed(int32_t v, uint32_t *down, uint32_t *code);
enum answer code_uncertainty_speed(struct optional s, uint32_t *code);
enum answer code_confidence(struct optional c, uint32_t *code);

// Single reported quantities from codes; any number may be given as a code.
enum answer report_latitude(int64_t south, int64_t code, int64_t *x);
enum answer report_longitude(int64_t code, int64_t *x);
enum answer report_uncertainty(int64_t code, uint32_t *r);
enum answer report_altitude_uncertainty(int64_t code, uint32_t *h);
enum answer report_altitude(int64_t depth, int64_t code, int32_t *a);
enum answer report_inner_radius(int64_t code, uint32_t *r);
enum answer report_offset(int64_t code, uint32_t *a);
enum answer report_included(int64_t code, uint32_t *a);
enum answer report_orientation(int64_t code, uint32_t *a);
enum answer report_bearing(int64_t code, uint32_t *a);
enum answer report_horizontal_speed(int64_t code, uint32_t *h);
enum answer report_vertical_speed(int64_t down, int64_t code, int32_t *v);
enum answer report_uncertainty_speed(int64_t code, struct optional *s);
enum answer report_confidence(int64_t code, struct optional *c);

// Reported quantities of codes known to lie in their fields.
static inline int64_t latitude_of(uint32_t south, uint32_t code)
{
    int64_t x = (int64_t)(((uint64_t)code * (uint64_t)NINETY_DEGREES + 8388607u) >> 23);
    return south ? (code == 0 ? -1 : -x) : x;
}

// The least whole X with N·360·10^9 <= 2^24·X; gcc shifts a negative number down, towards the lower whole one.
static inline int64_t longitude_of(int32_t code)
{
    return (code * WHOLE_TURN + 16777215) >> 24;
}

static inline int32_t altitude_of(uint32_t depth, uint32_t code)
{
    int32_t a = (int32_t)(code * 1000u);
    return depth ? (code == 0 ? -1 : -a) : a;
}

static inline int32_t vertical_speed_of(uint32_t down, uint32_t code)
{
    return altitude_of(down, code);
}

#endif
