// The sorts of items. Those in order run once and whole; those by chance run one step at a time, as often as there is room for.
#ifndef COMPARE_SORTS_H
#define COMPARE_SORTS_H

#include "both.h"

// octet_sorts.c
void first_octets_and_lengths(void);
void valid_octets(void);
void spare_bits(void);
void damaged_octets(void);
void random_octets(void);
void trip(void);

// record_sorts.c: codes and quantities of shapes and velocities, and requests
void type_numbers(void);
void boundaries_alone(void);
void boundaries_in_pairs(void);
void polygon_counts(void);
void every_room(void);
void records_by_chance(void);

// field_sorts.c
void single_quantities(void);
void single_codes(void);
void radius_tables(void);
void coordinate_steps(void);
void singles_by_chance(void);

// request_sorts.c
void request_forms(void);
void requests_by_chance(void);

// What several sorts use.
enum { REQUEST_LISTS = 32 };
uint16_t subset_of_types(uint32_t subset); // a list of some of 0, 1, 3, 8, 9, by its number below REQUEST_LISTS
uint16_t some_list(void);
void base_shape(uint32_t type, uint32_t codes[GAD_SHAPE_CODES], int64_t quantities[GAD_SHAPE_QUANTITIES]);
void base_velocity(uint32_t type, uint32_t codes[GAD_VELOCITY_CODES], int64_t quantities[GAD_VELOCITY_QUANTITIES]);

#endif
