// Nanoseconds a call of the proved library and of the second coder, side by side: race [REPEATS [SEED [NAME]]]; a NAME leaves out the others.
#define _POSIX_C_SOURCE 200809L // clock_gettime
#include "chance.h"
#include "coder.h"
#include "median.h"
#include "plain.h"
#include "some.h"

#include <math.h>
#include <stdio.h>
#include <stdlib.h>
#include <string.h>
#include <time.h>

// ---- Inputs, all made before anything is timed ----

// So many that a processor can't learn by heart which way each branch goes for which item: a network's messages don't come again in the
// same order.
enum { ITEMS = 16384, EVERY_TYPE = 1 << POINT | 1 << CIRCLE | 1 << ELLIPSE | 1 << ALTITUDE | 1 << ELLIPSOID };

struct message {
    size_t length;
    uint8_t octets[LONGEST_MESSAGE + 1];
};

static struct message shapes[ITEMS], velocities[ITEMS];
static uint32_t shape_codes[ITEMS][GAD_SHAPE_CODES], velocity_codes[ITEMS][GAD_VELOCITY_CODES], single_codes[ITEMS][2];
static int64_t shape_quantities[ITEMS][GAD_SHAPE_QUANTITIES], velocity_quantities[ITEMS][GAD_VELOCITY_QUANTITIES], requests[ITEMS][GAD_REQUEST];
static int64_t single_quantities[ITEMS], radii[ITEMS];
static uint8_t single_fields[ITEMS];

// Messages as the generator makes them, a few of them unreadable; records that can be read, reported and coded again.
static void prepare_shape(size_t i)
{
    uint32_t again[GAD_SHAPE_CODES];
    shapes[i].length = some_shape(shapes[i].octets);
    struct message message;
    do
        message.length = some_shape(message.octets);
    while (plain_read_shape(shape_codes[i], GAD_SHAPE_CODES, message.octets, message.length) < 0
        || plain_report_shape(shape_quantities[i], GAD_SHAPE_QUANTITIES, shape_codes[i], GAD_SHAPE_CODES) < 0
        || plain_code_shape(again, GAD_SHAPE_CODES, shape_quantities[i], GAD_SHAPE_QUANTITIES) < 0);
}

static void prepare_velocity(size_t i)
{
    velocities[i].length = some_velocity(velocities[i].octets);
    struct message message;
    do
        message.length = some_velocity(message.octets);
    while (plain_read_velocity(velocity_codes[i], GAD_VELOCITY_CODES, message.octets, message.length) < 0
        || plain_report_velocity(velocity_quantities[i], GAD_VELOCITY_QUANTITIES, velocity_codes[i], GAD_VELOCITY_CODES) < 0);
}

static void prepare_single(size_t i)
{
    uint8_t field = single_fields[i] = (uint8_t)below(GAD_FIELDS);
    single_quantities[i] = some_quantity(field);
    if (plain_code(single_codes[i], 2, field, single_quantities[i]) < 0)
        single_codes[i][0] = single_codes[i][1] = 0;
    radii[i] = below(one_in(2) ? radius_table[127] : radius_table[1 + below(127)]);
}

static void prepare_request(size_t i)
{
    struct wanted wanted = some_request();
    put_request(wanted.given, wanted.value, requests[i]);
}

static void prepare_inputs(void)
{
    for (size_t i = 0; i < ITEMS; i++) {
        prepare_shape(i);
        prepare_velocity(i);
        prepare_single(i);
        prepare_request(i);
    }
}

// ---- Works: one call for each item, the array to fill cleared before the call or not ----

// A coder of uncertainties by a logarithm in floating point, as others have it, but rounded up.
static int64_t logarithm_code(uint32_t *code, size_t code_elements, uint8_t field, int64_t radius)
{
    (void)field;
    if (code_elements < 1)
        return -GAD_BUFFER_TOO_SHORT;
    code[0] = (uint32_t)ceil(log1p((double)radius / 10000) / log(1.1));
    return 1;
}

typedef int64_t worker(int clear);

#define WORK(name, element, elements, answer)              \
    static int64_t name(int clear)                   \
    {                                                \
        static element out[elements];                      \
        int64_t sum = 0;                             \
        for (size_t i = 0; i < ITEMS; i++) {         \
            if (clear)                               \
                memset(out, 0, sizeof out);          \
            sum += answer;                           \
        }                                            \
        return sum;                                  \
    }

#define WORKS(side)                                                                                                                        \
    WORK(side##_reads_shapes, uint32_t, GAD_SHAPE_CODES, side##_read_shape(out, GAD_SHAPE_CODES, shapes[i].octets, shapes[i].length))       \
    WORK(side##_reads_velocities, uint32_t, GAD_VELOCITY_CODES,                                                                             \
        side##_read_velocity(out, GAD_VELOCITY_CODES, velocities[i].octets, velocities[i].length))                                          \
    WORK(side##_writes_shapes, uint8_t, GAD_LONGEST_MESSAGE, side##_write_shape(out, GAD_LONGEST_MESSAGE, shape_codes[i], GAD_SHAPE_CODES)) \
    WORK(side##_writes_velocities, uint8_t, 7, side##_write_velocity(out, 7, velocity_codes[i], GAD_VELOCITY_CODES))                        \
    WORK(side##_reports_shapes, int64_t, GAD_SHAPE_QUANTITIES,                                                                              \
        side##_report_shape(out, GAD_SHAPE_QUANTITIES, shape_codes[i], GAD_SHAPE_CODES))                                                    \
    WORK(side##_reports_velocities, int64_t, GAD_VELOCITY_QUANTITIES,                                                                       \
        side##_report_velocity(out, GAD_VELOCITY_QUANTITIES, velocity_codes[i], GAD_VELOCITY_CODES))                                        \
    WORK(side##_codes_shapes, uint32_t, GAD_SHAPE_CODES,                                                                                    \
        side##_code_shape(out, GAD_SHAPE_CODES, shape_quantities[i], GAD_SHAPE_QUANTITIES))                                                 \
    WORK(side##_codes_velocities, uint32_t, GAD_VELOCITY_CODES,                                                                             \
        side##_code_velocity(out, GAD_VELOCITY_CODES, velocity_quantities[i], GAD_VELOCITY_QUANTITIES))                                     \
    WORK(side##_chooses, uint8_t, 14, side##_choose(out, 14, requests[i], GAD_REQUEST, EVERY_TYPE))                                         \
    WORK(side##_codes_singles, uint32_t, 2, side##_code(out, 2, single_fields[i], single_quantities[i]))                                    \
    WORK(side##_reports_singles, int64_t, 1, side##_report(out, 1, single_fields[i], single_codes[i], 2))                                   \
    WORK(side##_codes_radii, uint32_t, 2, side##_code(out, 2, GAD_FIELD_UNCERTAINTY, radii[i]))

WORKS(gad)
WORKS(plain)
WORK(logarithm_codes_radii, uint32_t, 2, logarithm_code(out, 2, GAD_FIELD_UNCERTAINTY, radii[i]))

#define RACE(name, works) {name, {gad_##works, plain_##works}}

static const struct race {
    const char *name;
    worker *workers[2]; // the library's and the other's
} races[] = {
    RACE("read shapes", reads_shapes),
    RACE("read velocities", reads_velocities),
    RACE("write shapes", writes_shapes),
    RACE("write velocities", writes_velocities),
    RACE("report shapes", reports_shapes),
    RACE("report velocities", reports_velocities),
    RACE("code shapes", codes_shapes),
    RACE("code velocities", codes_velocities),
    RACE("choose", chooses),
    RACE("code single quantities", codes_singles),
    RACE("report single codes", reports_singles),
    RACE("code uncertainties", codes_radii),
    {"code uncertainties, logarithm", {gad_codes_radii, logarithm_codes_radii}},
};

// ---- Time ----

static double nanoseconds_now(void)
{
    struct timespec now;
    clock_gettime(CLOCK_PROCESS_CPUTIME_ID, &now);
    return (double)now.tv_sec * 1e9 + (double)now.tv_nsec;
}

static double nanoseconds_of(worker *work, int clear)
{
    static volatile int64_t sink;
    double start = nanoseconds_now();
    sink = work(clear);
    (void)sink;
    return nanoseconds_now() - start;
}

// Medians of both sides. In each repeat they take turns with all items, for about 20 ms each, so that what else the machine does hits both.
static void run_race(const struct race *race, int clear, size_t repeats, double medians[2])
{
    double times[2][MOST_REPEATS] = {{0}};
    size_t turns = 1 + (size_t)(2e7 / nanoseconds_of(race->workers[1], clear));
    for (size_t i = 0; i < repeats; i++)
        for (size_t turn = 0; turn < 2 * turns; turn++)
            times[turn % 2][i] += nanoseconds_of(race->workers[turn % 2], clear) / (double)(turns * ITEMS);
    for (int side = 0; side < 2; side++)
        medians[side] = median(times[side], repeats);
}

int main(int count, char **argument)
{
    size_t repeats = count > 1 ? strtoull(argument[1], NULL, 10) : 7;
    seed_with(count > 2 ? strtoull(argument[2], NULL, 10) : 1);
    if (repeats < 1 || repeats > MOST_REPEATS)
        repeats = 7;
    prepare_tables();
    prepare_inputs();
    printf("%d items of each kind; median of %zu repeats in turn; nanoseconds an item.\n", ITEMS, repeats);
    printf("One array is filled again and again: as the call before left it, and then cleared before each call.\n");
    printf("%-30s %24s   %24s\n", "", "as it was left", "cleared");
    printf("%-30s %8s %8s %6s   %8s %8s %6s\n", "", "library", "second", "ratio", "library", "second", "ratio");
    for (size_t i = 0; i < COUNT(races); i++) {
        double kept[2], cleared[2];
        if (count > 3 && strcmp(races[i].name, argument[3]) != 0)
            continue;
        if (races[i].workers[0](1) != races[i].workers[1](1))
            printf("%s: the answers differ\n", races[i].name);
        run_race(&races[i], 0, repeats, kept);
        run_race(&races[i], 1, repeats, cleared);
        printf("%-30s %8.1f %8.1f %6.2f   %8.1f %8.1f %6.2f\n", races[i].name, kept[0], kept[1], kept[0] / kept[1], cleared[0], cleared[1],
            cleared[0] / cleared[1]);
        fflush(stdout);
    }
    return 0;
}
