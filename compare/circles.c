// The uncertainty circles of libosmocore beside those of the proved library: circles [RADII [SEED]].
#include "../include/gad.h"
#include "chance.h"
#include "coder.h"

#include <errno.h>
#include <inttypes.h>
#include <osmocom/gsm/gad.h>
#include <stdio.h>
#include <stdlib.h>

enum { LONGEST_RADIUS = 1800000000 }; // millimetres

static uint64_t radii, smaller, larger, equal, refused;

static int library_code(uint32_t radius)
{
    const int64_t none = GAD_MISSING, request[GAD_REQUEST] = {45000000000, -90000000000, none, radius, none, none, none, none};
    uint8_t message[14];
    return gad_choose(message, sizeof message, request, GAD_REQUEST, 1 << CIRCLE) == 8 ? message[7] : -1;
}

static int osmocom_code(uint32_t radius)
{
    struct osmo_gad circle = {
        .type = GAD_TYPE_ELL_POINT_UNC_CIRCLE,
        .ell_point_unc_circle = {.lat = 45000000, .lon = -90000000, .unc = radius},
    };
    union gad_raw message;
    return osmo_gad_enc(&message, &circle) < 0 ? -1 : message.ell_point_unc_circle.unc;
}

static void compare(uint32_t radius)
{
    int ours = library_code(radius), theirs = osmocom_code(radius);
    uint32_t least = 0;
    if (code_uncertainty(radius, &least) != DONE)
        return;
    radii++;
    if (theirs < 0)
        refused++;
    else if ((uint32_t)theirs < least)
        smaller++;
    else if ((uint32_t)theirs > least)
        larger++;
    equal += theirs == ours;
}

int main(int count, char **argument)
{
    uint64_t by_chance = count > 1 ? strtoull(argument[1], NULL, 10) : 1000000;
    seed_with(count > 2 ? strtoull(argument[2], NULL, 10) : 1);
    prepare_tables();
    for (uint32_t k = 0; k < 128; k++)
        for (uint32_t by = 0; by < 3; by++)
            if (radius_table[k] + by > 0)
                compare(radius_table[k] + by - 1);
    for (uint64_t i = 0; i < by_chance; i++)
        compare(below(LONGEST_RADIUS + 1));
    printf("libosmocore's circles: %" PRIu64 " radii; %" PRIu64 " coded smaller than asked, %" PRIu64 " larger than the least covering code, %" PRIu64
           " refused, %" PRIu64 " equal to ours\n",
        radii, smaller, larger, refused, equal);
    return 0;
}
