// Messages worked out by hand from document 01, with their codes and reported quantities. Elements that are not named are 0.
#ifndef GAD_SAMPLES_H
#define GAD_SAMPLES_H

#include "../../include/gad.h"

struct code {
    int element;
    uint32_t value;
};

struct quantity {
    int element;
    int64_t value;
};

enum { MOST_NAMED = 12 };

struct sample {
    const char *name;
    size_t length;
    uint8_t octets[24]; // the longest sample and some more
    size_t codes_named;
    struct code codes[MOST_NAMED];
    size_t quantities_named;
    struct quantity quantities[MOST_NAMED];
};

// 45 degrees north, 90 west: both a quarter of their field.
#define PLACE_OCTETS 0x40, 0x00, 0x00, 0xC0, 0x00, 0x00
#define PLACE_CODES {GAD_CODE_LATITUDE, 4194304}, {GAD_CODE_LONGITUDE, (uint32_t)-4194304}
#define PLACE {GAD_LATITUDE, 45000000000}, {GAD_LONGITUDE, -90000000000}
#define NO_CONFIDENCE {GAD_CONFIDENCE, GAD_MISSING}

static const struct sample shapes[] = {
    {"point", 7, {0x00, PLACE_OCTETS}, 2, {PLACE_CODES}, 3, {PLACE, NO_CONFIDENCE}},
    {"circle", 8, {0x10, PLACE_OCTETS, 0x14}, 4, {{GAD_CODE_TYPE, 1}, PLACE_CODES, {GAD_CODE_UNCERTAINTY, 20}}, 5,
        {{GAD_TYPE, 1}, PLACE, {GAD_UNCERTAINTY, 57274}, NO_CONFIDENCE}},
    {"ellipse", 11, {0x30, PLACE_OCTETS, 0x14, 0x13, 0x1E, 0x00}, 6,
        {{GAD_CODE_TYPE, 3}, PLACE_CODES, {GAD_CODE_SEMI_MAJOR, 20}, {GAD_CODE_SEMI_MINOR, 19}, {GAD_CODE_ORIENTATION, 30}}, 7,
        {{GAD_TYPE, 3}, PLACE, {GAD_SEMI_MAJOR, 57274}, {GAD_SEMI_MINOR, 51159}, {GAD_ORIENTATION, 30000}, NO_CONFIDENCE}},
    // South 0 with longitude -1, and both last codes.
    {"polygon", 19, {0x53, PLACE_OCTETS, 0x80, 0x00, 0x00, 0xFF, 0xFF, 0xFF, 0x7F, 0xFF, 0xFF, 0x80, 0x00, 0x00}, 8,
        {{GAD_CODE_TYPE, 5}, {GAD_CODE_COUNT, 3}, {GAD_CODE_POINTS + 1, 4194304}, {GAD_CODE_POINTS + 2, (uint32_t)-4194304}, {GAD_CODE_POINTS + 3, 1},
            {GAD_CODE_POINTS + 5, UINT32_MAX}, {GAD_CODE_POINTS + 7, 8388607}, {GAD_CODE_POINTS + 8, (uint32_t)-8388608}},
        9,
        {{GAD_TYPE, 5}, {GAD_COUNT, 3}, NO_CONFIDENCE, {GAD_POINTS, 45000000000}, {GAD_POINTS + 1, -90000000000}, {GAD_POINTS + 2, -1},
            {GAD_POINTS + 3, -21457}, {GAD_POINTS + 4, 89999989272}, {GAD_POINTS + 5, -180000000000}}},
    {"altitude", 9, {0x80, PLACE_OCTETS, 0x83, 0xE8}, 5, {{GAD_CODE_TYPE, 8}, PLACE_CODES, {GAD_CODE_DEPTH, 1}, {GAD_CODE_ALTITUDE, 1000}}, 5,
        {{GAD_TYPE, 8}, PLACE, {GAD_ALTITUDE, -1000000}, NO_CONFIDENCE}},
    {"altitude ellipsoid", 14, {0x90, PLACE_OCTETS, 0x03, 0xE8, 0x14, 0x13, 0x1E, 0x02, 0x43}, 9,
        {{GAD_CODE_TYPE, 9}, PLACE_CODES, {GAD_CODE_ALTITUDE, 1000}, {GAD_CODE_SEMI_MAJOR, 20}, {GAD_CODE_SEMI_MINOR, 19}, {GAD_CODE_ORIENTATION, 30},
            {GAD_CODE_ALTITUDE_UNCERTAINTY, 2}, {GAD_CODE_CONFIDENCE, 67}},
        9,
        {{GAD_TYPE, 9}, PLACE, {GAD_ALTITUDE, 1000000}, {GAD_SEMI_MAJOR, 57274}, {GAD_SEMI_MINOR, 51159}, {GAD_ORIENTATION, 30000},
            {GAD_ALTITUDE_UNCERTAINTY, 2278}, {GAD_CONFIDENCE, 67}}},
    {"arc", 13, {0xA0, PLACE_OCTETS, 0x00, 0x02, 0x14, 0x01, 0x00, 0x64}, 7,
        {{GAD_CODE_TYPE, 10}, PLACE_CODES, {GAD_CODE_INNER_RADIUS, 2}, {GAD_CODE_UNCERTAINTY, 20}, {GAD_CODE_OFFSET, 1}, {GAD_CODE_CONFIDENCE, 100}}, 8,
        {{GAD_TYPE, 10}, PLACE, {GAD_INNER_RADIUS, 10000}, {GAD_UNCERTAINTY, 57274}, {GAD_OFFSET, 2000}, {GAD_INCLUDED, 2000}, {GAD_CONFIDENCE, 100}}},
};

#define COURSE_CODES {GAD_VELOCITY_CODE_BEARING, 300}, {GAD_VELOCITY_CODE_HORIZONTAL_SPEED, 90}
#define COURSE {GAD_VELOCITY_BEARING, 300000}, {GAD_VELOCITY_HORIZONTAL_SPEED, 90000}

static const struct sample velocities[] = {
    {"horizontal", 4, {0x01, 0x2C, 0x00, 0x5A}, 2, {COURSE_CODES}, 2, {COURSE}},
    {"with vertical", 5, {0x13, 0x2C, 0x00, 0x5A, 0x05}, 5,
        {{GAD_VELOCITY_CODE_TYPE, 1}, COURSE_CODES, {GAD_VELOCITY_CODE_DOWN, 1}, {GAD_VELOCITY_CODE_VERTICAL_SPEED, 5}}, 4,
        {{GAD_VELOCITY_TYPE, 1}, COURSE, {GAD_VELOCITY_VERTICAL_SPEED, -5000}}},
    {"with uncertainty", 5, {0x21, 0x2C, 0x00, 0x5A, 0x03}, 4, {{GAD_VELOCITY_CODE_TYPE, 2}, COURSE_CODES, {GAD_VELOCITY_CODE_UNCERTAINTY, 3}}, 4,
        {{GAD_VELOCITY_TYPE, 2}, COURSE, {GAD_VELOCITY_UNCERTAINTY, 3000}}},
    // Down 0, the largest uncertainty, and none.
    {"with both", 7, {0x33, 0x2C, 0x00, 0x5A, 0x00, 0xFE, 0xFF}, 6,
        {{GAD_VELOCITY_CODE_TYPE, 3}, COURSE_CODES, {GAD_VELOCITY_CODE_DOWN, 1}, {GAD_VELOCITY_CODE_UNCERTAINTY, 254},
            {GAD_VELOCITY_CODE_VERTICAL_UNCERTAINTY, 255}},
        6,
        {{GAD_VELOCITY_TYPE, 3}, COURSE, {GAD_VELOCITY_VERTICAL_SPEED, -1}, {GAD_VELOCITY_UNCERTAINTY, 254000},
            {GAD_VELOCITY_VERTICAL_UNCERTAINTY, GAD_MISSING}}},
};

#endif
