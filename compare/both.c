#define _DEFAULT_SOURCE // mmap's MAP_ANONYMOUS
#include "both.h"

#include "coder.h"
#include "plain.h"

#include <inttypes.h>
#include <signal.h>
#include <stdio.h>
#include <stdlib.h>
#include <string.h>
#include <sys/mman.h>
#include <unistd.h>

const struct signature signatures[FUNCTIONS] = {
    [READ_SHAPE] = {"read_shape", 1, GAD_LONGEST_MESSAGE, 4, GAD_SHAPE_CODES},
    [READ_VELOCITY] = {"read_velocity", 1, 7, 4, GAD_VELOCITY_CODES},
    [WRITE_SHAPE] = {"write_shape", 4, GAD_SHAPE_CODES, 1, GAD_LONGEST_MESSAGE},
    [WRITE_VELOCITY] = {"write_velocity", 4, GAD_VELOCITY_CODES, 1, 7},
    [REPORT_SHAPE] = {"report_shape", 4, GAD_SHAPE_CODES, 8, GAD_SHAPE_QUANTITIES},
    [REPORT_VELOCITY] = {"report_velocity", 4, GAD_VELOCITY_CODES, 8, GAD_VELOCITY_QUANTITIES},
    [CODE_SHAPE] = {"code_shape", 8, GAD_SHAPE_QUANTITIES, 4, GAD_SHAPE_CODES},
    [CODE_VELOCITY] = {"code_velocity", 8, GAD_VELOCITY_QUANTITIES, 4, GAD_VELOCITY_CODES},
    [CHOOSE] = {"choose", 8, GAD_REQUEST, 1, 14},
    [CODE] = {"code", 1, 0, 4, 2},
    [REPORT] = {"report", 4, 2, 8, 1},
};

// ---- The functions of both sides, by one type ----

enum side { LIBRARY, SECOND, SIDES };

typedef int64_t caller(void *to, size_t room, const void *from, const struct call *call);

#define ARRAY_CALLER(side, name)                                                                 \
    static int64_t side##_##name##_call(void *to, size_t room, const void *from, const struct call *call) \
    {                                                                                            \
        return side##_##name(to, room, from, call->given_elements);                                 \
    }
#define CALLERS(side)                                                                            \
    ARRAY_CALLER(side, read_shape)                                                               \
    ARRAY_CALLER(side, read_velocity)                                                            \
    ARRAY_CALLER(side, write_shape)                                                              \
    ARRAY_CALLER(side, write_velocity)                                                           \
    ARRAY_CALLER(side, report_shape)                                                             \
    ARRAY_CALLER(side, report_velocity)                                                          \
    ARRAY_CALLER(side, code_shape)                                                               \
    ARRAY_CALLER(side, code_velocity)                                                            \
    static int64_t side##_choose_call(void *to, size_t room, const void *from, const struct call *call) \
    {                                                                                            \
        return side##_choose(to, room, from, call->given_elements, call->list);                     \
    }                                                                                            \
    static int64_t side##_code_call(void *to, size_t room, const void *from, const struct call *call) \
    {                                                                                            \
        (void)from;                                                                              \
        return side##_code(to, room, call->field, call->quantity);                               \
    }                                                                                            \
    static int64_t side##_report_call(void *to, size_t room, const void *from, const struct call *call) \
    {                                                                                            \
        return side##_report(to, room, call->field, from, call->given_elements);                    \
    }                                                                                            \
    static caller *const side##_callers[FUNCTIONS] = {                                           \
        side##_read_shape_call, side##_read_velocity_call, side##_write_shape_call, side##_write_velocity_call, \
        side##_report_shape_call, side##_report_velocity_call, side##_code_shape_call, side##_code_velocity_call, \
        side##_choose_call, side##_code_call, side##_report_call,                                \
    };

CALLERS(gad)
CALLERS(plain)

static caller *const *const callers[SIDES] = {gad_callers, plain_callers};
static const char *const side_names[SIDES] = {"library", "second"};

// ---- Arrays that end where memory ends, so that a look or a write past the end can't go unseen ----

enum { MARGIN = 64, PATTERN = 0xA5, MOST_OCTETS = MARGIN + 8 * MOST_ELEMENTS };

static uint8_t *given_end[SIDES], *filled_end[SIDES];
static uint8_t untouched[MOST_OCTETS];

static uint8_t *end_of_memory(void)
{
    size_t page = (size_t)sysconf(_SC_PAGESIZE);
    uint8_t *start = mmap(NULL, 2 * page, PROT_READ | PROT_WRITE, MAP_PRIVATE | MAP_ANONYMOUS, -1, 0);
    if (start == MAP_FAILED || mprotect(start + page, page, PROT_NONE) != 0) {
        perror("hold: memory");
        exit(2);
    }
    return start + page;
}

uint64_t items_held, items_differing;
unsigned differences_to_show;

// ---- A difference, for people to look at ----

static void show_elements(const char *name, const void *from, size_t elements, size_t octets)
{
    printf("    %s, %zu:", name, elements);
    for (size_t i = 0; i < elements; i++) {
        uint32_t code = 0;
        int64_t quantity = 0;
        const uint8_t *at = (const uint8_t *)from + i * octets;
        memcpy(&code, at, octets == 4 ? 4 : 0);
        memcpy(&quantity, at, octets == 8 ? 8 : 0);
        if (octets == 1)
            printf(" %02X", *at);
        else if (octets == 4)
            printf(" %" PRIu32, code);
        else if (quantity == GAD_MISSING)
            printf(" -");
        else
            printf(" %" PRId64, quantity);
    }
    printf("\n");
}

static void show_call(const struct call *call)
{
    const struct signature *s = &signatures[call->function];
    printf("  %s, room %zu", s->name, call->room);
    if (call->function == CHOOSE)
        printf(", list %u", call->list);
    if (call->function == CODE || call->function == REPORT)
        printf(", field %u", call->field);
    if (call->function == CODE)
        printf(", quantity %" PRId64, call->quantity);
    printf("\n");
    if (call->given_elements > 0)
        show_elements("given", call->given, call->given_elements, s->given_octets);
}

static void show_difference(const struct call *call, const int64_t answers[SIDES])
{
    size_t octets = signatures[call->function].filled_octets;
    show_call(call);
    for (int side = 0; side < SIDES; side++) {
        printf("    %s answers %" PRId64 "\n", side_names[side], answers[side]);
        show_elements("array to fill, after the call", filled_end[side] - call->room * octets, call->room, octets);
    }
    fflush(stdout);
}

static const struct call *now_called;
static enum side now_side;

// The process ends here, so that printing in a handler does no harm.
static void outside_an_array(int number)
{
    (void)number;
    printf("  the %s looked or wrote outside an array:\n", side_names[now_side]);
    show_call(now_called);
    fflush(stdout);
    _exit(1);
}

void prepare_both(void)
{
    prepare_tables();
    memset(untouched, PATTERN, sizeof untouched);
    for (int side = 0; side < SIDES; side++) {
        given_end[side] = end_of_memory();
        filled_end[side] = end_of_memory();
    }
    signal(SIGSEGV, outside_an_array);
    signal(SIGBUS, outside_an_array);
}

// ---- One item ----

static int64_t call_side(enum side side, const struct call *call, size_t given, size_t room)
{
    uint8_t *from = given_end[side] - given, *to = filled_end[side] - room;
    int null = items_held & 1; // an empty array is null every second time
    if (given > 0)
        memcpy(from, call->given, given);
    memset(to - MARGIN, PATTERN, MARGIN + room);
    now_called = call;
    now_side = side;
    return callers[side][call->function](room == 0 && null ? NULL : to, call->room, given == 0 && null ? NULL : from, call);
}

// Whether a side left alone what it may not change: the given array, what lies before the filled one, and all after the last element put.
static int kept(enum side side, const struct call *call, size_t given, size_t room, size_t put)
{
    return put <= room && memcmp(filled_end[side] - room - MARGIN, untouched, MARGIN) == 0
        && memcmp(filled_end[side] - room + put, untouched, room - put) == 0
        && (given == 0 || memcmp(given_end[side] - given, call->given, given) == 0);
}

int64_t hold(const struct call *call, union filled *filled)
{
    const struct signature *s = &signatures[call->function];
    size_t given = call->given_elements * s->given_octets, room = call->room * s->filled_octets;
    int64_t answers[SIDES];
    int same = 1;
    for (int side = 0; side < SIDES; side++) {
        answers[side] = call_side((enum side)side, call, given, room);
        size_t put = answers[side] > 0 ? (size_t)answers[side] * s->filled_octets : 0;
        same &= answers[side] != 0 && kept((enum side)side, call, given, room, put);
    }
    same &= answers[LIBRARY] == answers[SECOND] && memcmp(filled_end[LIBRARY] - room, filled_end[SECOND] - room, room) == 0;
    items_held++;
    if (!same) {
        items_differing++;
        if (differences_to_show > 0) {
            differences_to_show--;
            show_difference(call, answers);
        }
    }
    if (filled != NULL)
        memcpy(filled, filled_end[LIBRARY] - room, room);
    return answers[LIBRARY];
}

int64_t hold_whole(enum function function, const void *given, size_t given_elements, union filled *filled)
{
    struct call call = {.function = function, .given = given, .given_elements = given_elements, .room = signatures[function].filled_elements};
    return hold(&call, filled);
}
