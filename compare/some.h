// Messages, quantities, codes and requests by chance, most of them usual, many at a boundary, a few wrong.
#ifndef COMPARE_SOME_H
#define COMPARE_SOME_H

#include "chance.h"

#include <stddef.h>
#include <stdint.h>

// ---- Messages ----

enum what { SPARE, SIGN, LATITUDE_BITS, LONGITUDE_BITS, SEVEN, ANGLE, CONFIDENCE_BITS, ALTITUDE_BITS, SIXTEEN, EIGHT, BEARING_BITS };

struct field {
    uint16_t first; // bit, 0 is the high bit of octet 1
    uint16_t width; // 0 ends the list
    enum what what;
};

// By type; a polygon has no fields here, and the length 0.
extern const struct field shape_fields[16][16];
extern const uint8_t shape_octets[16];
extern const struct field velocity_fields[4][16];
extern const uint8_t velocity_octets[4];

void put_bits(uint8_t *message, uint32_t first, uint32_t width, uint32_t code);
void fill_fields(uint8_t *message, const struct field *field);
void fill_octets(uint8_t *message, size_t length);

// Each gives the length. A message has at most LONGEST_MESSAGE octets, damaged ones too.
size_t some_shape(uint8_t *message);
size_t some_velocity(uint8_t *message);
size_t damage(uint8_t *message, size_t length);

// ---- Quantities and codes, by the numbers that include/gad.h gives the fields ----

int64_t some_quantity(uint32_t field);
int64_t some_code_number(uint32_t field); // a few are beyond the field
extern const int64_t last_codes[];

// ---- Requests ----

enum { REQUEST_FIELDS = 8 }; // latitude, longitude, altitude, semi-major, semi-minor, orientation, altitude uncertainty, confidence

struct wanted {
    uint32_t given; // bit i for value[i]
    int64_t value[REQUEST_FIELDS];
};

struct wanted some_request(void);
void put_request(uint32_t given, const int64_t value[REQUEST_FIELDS], int64_t elements[REQUEST_FIELDS]); // GAD_MISSING for what isn't given

#endif
