// One call of the proved library and of the second coder, on copies of the same arrays, held against each other.
#ifndef COMPARE_BOTH_H
#define COMPARE_BOTH_H

#include "../include/gad.h"

enum function {
    READ_SHAPE,
    READ_VELOCITY,
    WRITE_SHAPE,
    WRITE_VELOCITY,
    REPORT_SHAPE,
    REPORT_VELOCITY,
    CODE_SHAPE,
    CODE_VELOCITY,
    CHOOSE,
    CODE,
    REPORT,
    FUNCTIONS,
};

// The elements (octets for messages) of the layouts, most for messages. CODE is given no array.
struct signature {
    const char *name;
    uint8_t given_octets; // of an element
    uint8_t given_elements;
    uint8_t filled_octets; // of an element
    uint8_t filled_elements;
};

extern const struct signature signatures[FUNCTIONS];

struct call {
    enum function function;
    const void *given;
    size_t given_elements;
    size_t room; // elements or octets of the array that is filled
    uint16_t list; // CHOOSE
    uint8_t field; // CODE and REPORT
    int64_t quantity; // CODE
};

enum { MOST_ELEMENTS = 128 }; // of an array that is given or filled

// Where the caller wants to go on with what was filled.
union filled {
    uint8_t octets[MOST_ELEMENTS];
    uint32_t codes[MOST_ELEMENTS];
    int64_t quantities[MOST_ELEMENTS];
};

void prepare_both(void);

// The library's answer; `filled`, unless null, has the elements it put.
int64_t hold(const struct call *call, union filled *filled);

// The usual call: all room, and what it fills.
int64_t hold_whole(enum function function, const void *given, size_t given_elements, union filled *filled);

extern uint64_t items_held, items_differing;
extern unsigned differences_to_show;

#endif
