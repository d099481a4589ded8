// Request lines and the receiver's list as text: what the quick chooser and the slow one both read.
#ifndef COMPARE_LINES_H
#define COMPARE_LINES_H

#include "coder.h"
#include "stream.h"

// The receiver's list: a decimal number below 65536, else the empty list.
static uint32_t parse_list(const uint8_t *line, size_t length)
{
    const uint8_t *at = line, *end = line + length;
    struct number number;
    uint32_t list;
    if (length > LONGEST_LINE || !take_number(&at, end, &number) || at != end || !fits_unsigned32(&number, &list) || list > 65535)
        return 0;
    return list;
}

// One field and the space before it (none before the first). 0 if there is none; `*given` is 0 for a lone minus sign.
static inline int take_field(const uint8_t **from, const uint8_t *end, int first, struct number *number, int *given)
{
    const uint8_t *at = *from;
    if (!first) {
        if (at == end || *at != ' ')
            return 0;
        at++;
    }
    if (at < end && *at == '-' && (at + 1 == end || at[1] == ' ')) {
        *given = 0;
        *from = at + 1;
        return 1;
    }
    *given = 1;
    *from = at;
    return take_number(from, end, number);
}

static inline int take_optional(const uint8_t **from, const uint8_t *end, struct optional *value)
{
    struct number number;
    int given;
    *value = (struct optional){0, 0};
    if (!take_field(from, end, 0, &number, &given))
        return 0;
    value->given = (uint32_t)given;
    return !given || fits_unsigned32(&number, &value->value);
}

// Eight fields: latitude, longitude, altitude, semi-major, semi-minor, orientation, altitude uncertainty, confidence.
static inline int parse_request(const uint8_t *line, size_t length, struct request *request)
{
    if (length > LONGEST_LINE)
        return 0;
    const uint8_t *at = line, *end = line + length;
    struct number number;
    int given;
    if (!take_field(&at, end, 1, &number, &given) || !given || !fits_signed64(&number, &request->centre.latitude))
        return 0;
    if (!take_field(&at, end, 0, &number, &given) || !given || !fits_signed64(&number, &request->centre.longitude))
        return 0;
    request->altitude = 0;
    if (!take_field(&at, end, 0, &number, &request->has_altitude)
        || (request->has_altitude && !fits_signed32(&number, &request->altitude)))
        return 0;
    struct optional major, minor, orientation;
    if (!take_optional(&at, end, &major) || !take_optional(&at, end, &minor) || !take_optional(&at, end, &orientation)
        || !take_optional(&at, end, &request->altitude_uncertainty) || !take_optional(&at, end, &request->confidence) || at != end)
        return 0;
    if (minor.given != orientation.given || (minor.given && !major.given))
        return 0;
    request->horizontal = minor.given ? ASKED_ELLIPSE : major.given ? ASKED_CIRCLE : NOT_ASKED;
    request->semi_major = major.value;
    request->semi_minor = minor.value;
    request->orientation = orientation.value;
    return 1;
}

// The line of one request: its number, then `-` or the answer and on 0 the octets.
static inline void put_choice(uint64_t number, int readable, enum answer answer, const uint8_t *message, size_t length)
{
    char *at = put_unsigned(output_place(128), number);
    *at++ = ' ';
    if (!readable) {
        *at++ = '-';
    } else {
        at = put_unsigned(at, answer);
        for (size_t i = 0; i < length; i++) {
            *at++ = ' ';
            at = put_octet(at, message[i]);
        }
    }
    *at++ = '\n';
    output_end = at;
}

// Answers every line of the input: the first is the receiver's list, the others are requests.
static inline void answer_requests(enum answer (*chooser)(const struct request *, uint32_t, uint8_t *, size_t, size_t *))
{
    const uint8_t *line;
    size_t length;
    uint32_t list = next_line(&line, &length) ? parse_list(line, length) : 0;
    uint64_t count = 0;
    while (next_line(&line, &length)) {
        struct request request;
        uint8_t message[16];
        size_t octets = 0;
        enum answer answer = DONE;
        int readable = parse_request(line, length, &request);
        if (readable)
            answer = chooser(&request, list, message, sizeof message, &octets);
        put_choice(++count, readable, answer, message, octets);
    }
    put_end(count);
}

#endif
