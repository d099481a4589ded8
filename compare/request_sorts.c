// Requests for the choice of shape, under all lists and rooms.
#include "coder.h"
#include "some.h"
#include "sorts.h"

uint16_t subset_of_types(uint32_t subset)
{
    static const uint8_t types[] = {POINT, CIRCLE, ELLIPSE, ALTITUDE, ELLIPSOID};
    uint32_t list = 0;
    for (size_t i = 0; i < COUNT(types); i++)
        list |= (subset >> i & 1) << types[i];
    return (uint16_t)list;
}

uint16_t some_list(void)
{
    return one_in(2) ? subset_of_types(below(REQUEST_LISTS)) : (uint16_t)chance();
}

// Every combination of missing elements, under every list, with every room.
void request_forms(void)
{
    static const int64_t asked[GAD_REQUEST] = {45000000000, -90000000000, 12345, 57274, 51159, 30000, 2279, 67};
    for (uint32_t given = 0; given < 1u << GAD_REQUEST; given++) {
        int64_t request[GAD_REQUEST];
        put_request(given, asked, request);
        struct call call = {.function = CHOOSE, .given = request, .given_elements = GAD_REQUEST};
        for (uint32_t subset = 0; subset < REQUEST_LISTS; subset++)
            for (call.room = 0; call.room < 16; call.room++) {
                call.list = subset_of_types(subset);
                hold(&call, NULL);
                call.list = (uint16_t)(call.list | 0xFCF4); // with every bit that means nothing
                hold(&call, NULL);
            }
    }
}

void requests_by_chance(void)
{
    struct wanted wanted = some_request();
    int64_t request[GAD_REQUEST];
    put_request(wanted.given, wanted.value, request);
    struct call call = {.function = CHOOSE, .given = request, .given_elements = GAD_REQUEST, .room = one_in(4) ? below(16) : 14, .list = some_list()};
    hold(&call, NULL);
}
