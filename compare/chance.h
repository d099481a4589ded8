// Numbers by chance from a seed, the same on every machine.
#ifndef COMPARE_CHANCE_H
#define COMPARE_CHANCE_H

#include <stdint.h>

void seed_with(uint64_t seed);
uint64_t chance(void);
uint32_t below(uint32_t limit);
int one_in(uint32_t n);

#define COUNT(list) (sizeof(list) / sizeof((list)[0]))
#define PICK(list) ((list)[below((uint32_t)COUNT(list))])

#endif
