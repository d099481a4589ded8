// The proved library against the second coder, sort by sort: hold [ITEMS [SEED]]. Ends with 0 only if nothing differs.
#include "chance.h"
#include "sorts.h"

#include <inttypes.h>
#include <stdio.h>
#include <stdlib.h>

struct sort {
    const char *name;
    void (*run)(void);
    uint32_t share; // of the items left for chance; 0 for a sort in order
};

static const struct sort sorts[] = {
    {"octets: every first octet with every length", first_octets_and_lengths, 0},
    {"arrays: every type number", type_numbers, 0},
    {"arrays: every boundary of every element, alone", boundaries_alone, 0},
    {"arrays: every boundary of every element, in pairs", boundaries_in_pairs, 0},
    {"arrays: every polygon count, points after the last", polygon_counts, 0},
    {"arrays: every number of elements with every room", every_room, 0},
    {"single quantities: every field number, ends, rooms", single_quantities, 0},
    {"single codes: every code up to 16 bits, every field number", single_codes, 0},
    {"both radius tables, each entry and its neighbours", radius_tables, 0},
    {"coordinates: both sides of code steps, poles, date line", coordinate_steps, 0},
    {"requests: every form, list and room", request_forms, 0},
    {"octets by chance: as they come", valid_octets, 3},
    {"octets by chance: every spare bit set", spare_bits, 1},
    {"octets by chance: damaged", damaged_octets, 3},
    {"octets by chance: random", random_octets, 2},
    {"arrays by chance", records_by_chance, 4},
    {"single codes and quantities by chance", singles_by_chance, 3},
    {"requests by chance", requests_by_chance, 4},
    {"trips: read, report, code, write", trip, 4},
};

static void run_sort(const struct sort *sort, uint64_t until)
{
    uint64_t held = items_held, differing = items_differing;
    differences_to_show = 3;
    do
        sort->run();
    while (sort->share != 0 && items_held < until);
    printf("%s: %" PRIu64 " compared, %" PRIu64 " differences\n", sort->name, items_held - held, items_differing - differing);
    fflush(stdout);
}

int main(int count, char **argument)
{
    uint64_t wanted = count > 1 ? strtoull(argument[1], NULL, 10) : 20000000;
    seed_with(count > 2 ? strtoull(argument[2], NULL, 10) : 1);
    prepare_both();
    uint32_t shares = 0;
    for (size_t i = 0; i < COUNT(sorts); i++)
        shares += sorts[i].share;
    uint64_t each = 0; // items for one share, once the sorts in order are done
    for (size_t i = 0; i < COUNT(sorts); i++) {
        if (sorts[i].share != 0 && each == 0)
            each = 1 + (wanted > items_held ? (wanted - items_held) / shares : 1000);
        run_sort(&sorts[i], items_held + each * sorts[i].share);
    }
    printf("compared %" PRIu64 ", differences %" PRIu64 "\n", items_held, items_differing);
    return items_differing == 0 ? 0 : 1;
}
