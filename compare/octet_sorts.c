// Octet strings to read, and trips from octets to quantities and back.
#include "coder.h"
#include "some.h"
#include "sorts.h"

#include <string.h>

struct message {
    enum function reader;
    uint8_t octets[MOST_ELEMENTS];
    size_t length;
};

static struct message some_message(void)
{
    struct message message = {.reader = one_in(4) ? READ_VELOCITY : READ_SHAPE};
    message.length = message.reader == READ_SHAPE ? some_shape(message.octets) : some_velocity(message.octets);
    return message;
}

static void read_message(const struct message *message)
{
    hold_whole(message->reader, message->octets, message->length, NULL);
}

void first_octets_and_lengths(void)
{
    struct message message;
    for (message.reader = READ_SHAPE; message.reader <= READ_VELOCITY; message.reader++)
        for (uint32_t first = 0; first < 256; first++)
            for (message.length = 0; message.length <= LONGEST_MESSAGE + 6; message.length++) {
                memset(message.octets, (int)below(101), sizeof message.octets);
                message.octets[0] = (uint8_t)first;
                read_message(&message);
            }
}

void valid_octets(void)
{
    struct message message = some_message();
    read_message(&message);
}

void spare_bits(void)
{
    struct message message = some_message();
    uint32_t type = message.octets[0] >> 4;
    const struct field *field = message.reader == READ_SHAPE ? shape_fields[type] : velocity_fields[type];
    for (; field->width != 0; field++)
        if (field->what == SPARE)
            put_bits(message.octets, field->first, field->width, UINT32_MAX);
    read_message(&message);
}

void damaged_octets(void)
{
    struct message message = some_message();
    message.length = damage(message.octets, message.length);
    read_message(&message);
}

void random_octets(void)
{
    struct message message = {.reader = one_in(2) ? READ_SHAPE : READ_VELOCITY};
    message.length = one_in(2) ? below(LONGEST_MESSAGE + 4) : below(16);
    fill_octets(message.octets, message.length);
    read_message(&message);
}

// Each call goes on with what the one before it filled.
void trip(void)
{
    static const enum function trips[][4] = {
        {READ_SHAPE, REPORT_SHAPE, CODE_SHAPE, WRITE_SHAPE},
        {READ_VELOCITY, REPORT_VELOCITY, CODE_VELOCITY, WRITE_VELOCITY},
    };
    struct message message = some_message();
    const enum function *functions = trips[message.reader == READ_VELOCITY];
    union filled filled[2];
    const void *given = message.octets;
    size_t elements = message.length;
    for (size_t i = 0; i < 4; i++) {
        int64_t answer = hold_whole(functions[i], given, elements, &filled[i % 2]);
        if (answer < 0)
            return;
        given = &filled[i % 2];
        elements = (size_t)answer;
    }
}
