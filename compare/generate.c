// Test inputs from a seed: frames for the lister, requests for the chooser, lines for the coder. See usage() at the end.
#include "coder.h"
#include "fields.h"
#include "some.h"

#include <stdarg.h>
#include <stdio.h>
#include <stdlib.h>
#include <string.h>

// ---- Frames ----

static void put_frame(uint32_t kind, const uint8_t *message, size_t length)
{
    uint8_t head[4] = {0, (uint8_t)(length + 2), 1, (uint8_t)kind};
    fwrite(head, 1, sizeof head, stdout);
    fwrite(message, 1, length, stdout);
}

// A broken frame in one of many ways, then some octets that must not matter.
static void put_broken(void)
{
    uint8_t octets[128];
    static const uint32_t lengths[] = {0, 1, 94, 95, 255, 256, 258, 265, 349, 512, 65535};
    static const uint8_t versions[] = {0, 2, 3, 128, 129, 255}, kinds[] = {2, 3, 128, 129, 255};
    fill_octets(octets, sizeof octets);
    size_t count = sizeof octets;
    octets[0] = 0;
    octets[1] = (uint8_t)(2 + below(92));
    octets[2] = 1;
    octets[3] = (uint8_t)below(2);
    switch (below(7)) {
    case 0:
        count = 1;
        break;
    case 1:
        put_bits(octets, 0, 16, PICK(lengths));
        break;
    case 2:
        octets[2] = PICK(versions);
        break;
    case 3:
        octets[3] = PICK(kinds);
        break;
    case 4: // the input ends inside the frame
        count = 2 + below(octets[1]);
        break;
    case 5: // both: too short a rest, and a wrong octet that is there
        octets[2] = 7;
        count = 3;
        break;
    default: // a clean end
        return;
    }
    fwrite(octets, 1, count, stdout);
}

static void put_good_frames(void)
{
    static const uint8_t point[] = {0, 9, 1, 0, 0x00, 0x40, 0, 0, 0xC0, 0, 0};
    for (int i = 0; i < 3; i++)
        fwrite(point, 1, sizeof point, stdout);
}

// The octets that are there of a frame in which the input ends, by the number of the place where it does; 0 when there is no such place.
static size_t cut_frame(uint64_t place, uint8_t *octets)
{
    static const uint8_t lengths[] = {2, 3, 6, 9, 93};
    for (size_t i = 0; i < sizeof lengths; i++) {
        if (place <= lengths[i]) {
            octets[1] = lengths[i];
            return 1 + (size_t)place;
        }
        place -= lengths[i] + 1u;
    }
    return 0;
}

// Good frames, then one broken in way number `way`, then, unless the input ends in it, good frames that must not be listed.
// 0 when there is no such way.
static int broken_end(uint64_t way)
{
    static const uint32_t large[] = {257, 258, 265, 349, 350, 512, 32770, 65535};
    static uint8_t octets[65540];
    enum { VERSIONS = 256 + COUNT(large), KINDS = VERSIONS + 256, CUTS = KINDS + 256 };
    size_t count = 11;
    octets[1] = 9;
    octets[2] = 1;
    if (way < VERSIONS) { // a length outside 2..93, with all its octets there
        uint32_t length = way < 256 ? (uint32_t)way : large[way - 256];
        put_bits(octets, 0, 16, length);
        octets[3] = length % 2;
        count = 2 + length;
    } else if (way < KINDS) { // a version; 1 among them is right
        octets[2] = (uint8_t)(way - VERSIONS);
    } else if (way < CUTS) { // a kind; 0 and 1 among them are right
        octets[3] = (uint8_t)(way - KINDS);
    } else {
        count = cut_frame(way - CUTS, octets);
        if (count == 0)
            return 0;
    }
    put_good_frames();
    fwrite(octets, 1, count, stdout);
    if (way < CUTS)
        put_good_frames();
    return 1;
}

static void frames(uint64_t seed, uint64_t count)
{
    seed_with(seed);
    for (uint64_t i = 0; i < count; i++) {
        uint8_t message[LONGEST_MESSAGE + 8] = {0};
        uint32_t kind = one_in(4);
        size_t length = kind ? some_velocity(message) : some_shape(message);
        if (one_in(8))
            length = damage(message, length);
        if (one_in(64))
            kind ^= 1;
        put_frame(kind, message, length);
    }
    put_broken();
}

static void every_code(uint32_t kind, uint32_t type, const struct field *fields, size_t length)
{
    for (const struct field *field = fields; field->width != 0; field++) {
        if (field->width > 16)
            continue;
        for (uint32_t code = 0; code >> field->width == 0; code++) {
            uint8_t message[LONGEST_MESSAGE + 8] = {0};
            put_bits(message, 0, 4, type);
            fill_fields(message, fields);
            for (const struct field *other = fields; other->width != 0; other++)
                if (other->what == ANGLE || other->what == CONFIDENCE_BITS || other->what == BEARING_BITS)
                    put_bits(message, other->first, other->width, below(101));
            put_bits(message, field->first, field->width, code);
            put_frame(kind, message, length);
        }
    }
}

// Not by chance but in order: every first octet with every length, then every code of every field of up to 16 bits.
static void every(void)
{
    seed_with(0);
    for (uint32_t kind = 0; kind < 2; kind++)
        for (uint32_t first = 0; first < 256; first++)
            for (size_t length = 0; length <= LONGEST_MESSAGE; length++) {
                uint8_t message[LONGEST_MESSAGE + 8];
                memset(message, (int)below(101), sizeof message);
                message[0] = (uint8_t)first;
                put_frame(kind, message, length);
            }
    for (uint32_t type = 0; type < 16; type++)
        if (shape_octets[type] != 0)
            every_code(0, type, shape_fields[type], shape_octets[type]);
    for (uint32_t type = 0; type < 4; type++)
        every_code(1, type, velocity_fields[type], velocity_octets[type]);
}

// Points whose latitude and longitude codes go through `count` of the 2^24 values each.
static void coordinates(uint32_t first, uint64_t count)
{
    for (uint64_t i = 0; i < count; i++) {
        uint32_t latitude = (first + (uint32_t)i) & 0xFFFFFF;
        uint32_t longitude = (latitude * 7919u + 13) & 0xFFFFFF;
        uint8_t message[8] = {0};
        put_bits(message, 8, 24, latitude);
        put_bits(message, 32, 24, longitude);
        put_frame(0, message, 7);
    }
}

// The octets of frame `wanted` of standard input, in hexadecimal.
static void show(uint64_t wanted)
{
    for (uint64_t i = 1;; i++) {
        int high = getchar(), low = getchar();
        if (i == wanted)
            printf("%02X %02X", (unsigned)high & 255, (unsigned)low & 255);
        if (high == EOF || low == EOF)
            break;
        for (int left = high * 256 + low; left > 0; left--) {
            int octet = getchar();
            if (octet == EOF)
                break;
            if (i == wanted)
                printf(" %02X", (unsigned)octet);
        }
        if (i == wanted)
            break;
    }
    putchar('\n');
}

// ---- Text ----

static char text[16384];
static size_t text_length;

static void say(const char *format, ...)
{
    va_list list;
    va_start(list, format);
    int length = vsnprintf(text + text_length, sizeof text - text_length, format, list);
    va_end(list);
    if (length > 0)
        text_length += (size_t)length;
}

static void put_line(void)
{
    text[text_length++] = '\n';
    fwrite(text, 1, text_length, stdout);
    text_length = 0;
}

// Moves the text that starts at `from` to `to`.
static void move_rest(size_t from, size_t to)
{
    memmove(text + to, text + from, text_length - from);
    text_length = text_length - from + to;
}

// Puts zeros before the last number, to about the longest line allowed.
static void put_zeros(void)
{
    size_t last = text_length;
    while (last > 0 && text[last - 1] != ' ' && text[last - 1] != '-')
        last--;
    size_t wanted = 4094 + below(6);
    if (wanted > text_length && last < text_length) {
        size_t more = wanted - text_length;
        move_rest(last, last + more);
        memset(text + last, '0', more);
    }
}

// Puts another number in the place of one field.
static void replace_field(void)
{
    static const char *const numbers[] = {"9223372036854775807", "9223372036854775808", "-9223372036854775808", "-9223372036854775809",
        "18446744073709551615", "18446744073709551616", "2147483647", "2147483648", "-2147483648", "-2147483649", "4294967295", "4294967296",
        "-1", "-0", "00", "007", "+7", "--7", "1-", "1e3", "0x10", "1.0", "1,000", "", "-", "a", "99999999999999999999999999999999", " "};
    uint32_t fields = 1;
    for (size_t i = 0; i < text_length; i++)
        fields += text[i] == ' ';
    uint32_t chosen = below(fields);
    size_t from = 0;
    for (; chosen > 0; from++)
        chosen -= text[from] == ' ';
    size_t to = from;
    while (to < text_length && text[to] != ' ')
        to++;
    const char *number = PICK(numbers);
    move_rest(to, from + strlen(number));
    memcpy(text + from, number, strlen(number));
}

static void make_very_long(void)
{
    size_t wanted = 4090 + below(12000);
    memset(text + text_length, one_in(2) ? ' ' : '5', wanted - text_length);
    text_length = wanted;
}

// Spoils the text in one of many ways; most make it unreadable, a few (zeros put before a number) don't.
static void spoil(void)
{
    size_t at = text_length == 0 ? 0 : below((uint32_t)text_length);
    switch (below(12)) {
    case 0: // another octet
        text[at] = (char)chance();
        if (text[at] == '\n')
            text[at] = 'n';
        break;
    case 1: // an octet gone
        if (text_length > 0)
            move_rest(at + 1, at);
        break;
    case 2: // an octet doubled
        if (text_length > 0)
            move_rest(at, at + 1);
        break;
    case 3: // something after
        say("%s", (const char *[]){" ", " 0", " -", "\r", "\t", " x", "  "}[below(7)]);
        break;
    case 4: // something before
        move_rest(0, 1);
        text[0] = " 0-\tx"[below(5)];
        break;
    case 5: // nothing left
        text_length = one_in(2) ? 0 : at;
        break;
    case 6:
        if (one_in(8))
            put_zeros();
        break;
    case 7:
        if (one_in(8))
            make_very_long();
        break;
    default:
        replace_field();
        break;
    }
}

// ---- Requests ----

static void say_field(int given, int64_t value)
{
    if (text_length != 0)
        say(" ");
    if (given)
        say("%lld", (long long)value);
    else
        say("-");
}

static void say_request(void)
{
    struct wanted wanted = some_request();
    for (uint32_t i = 0; i < REQUEST_FIELDS; i++)
        say_field((int)(wanted.given >> i & 1), wanted.value[i]);
}

static void requests(const char *list, uint64_t seed, uint64_t count)
{
    seed_with(seed);
    printf("%s\n", list);
    for (uint64_t i = 0; i < count; i++) {
        say_request();
        if (one_in(40))
            spoil();
        put_line();
    }
}

// Around the entry i / 3 of a table: one less, the entry, one more.
static int64_t around_entry(const uint32_t table[128], uint64_t i)
{
    int64_t r = (int64_t)table[i / 3] - 1 + (int64_t)(i % 3);
    return r < 0 ? 0 : r;
}

// A circle, an ellipse of equal axes, a semi-minor, an ellipsoid.
static void say_radius(uint32_t way, int64_t r)
{
    if (way == 0)
        say("1 1 - %lld - - - -", (long long)r);
    else if (way == 1)
        say("1 1 - %lld %lld 0 - -", (long long)r, (long long)r);
    else if (way == 2)
        say("1 1 - %u %lld 179999 - 100", (unsigned)radius_table[127], (long long)r);
    else
        say("1 1 -1 %lld %lld 999 0 1", (long long)r, (long long)(r > 0 ? r - 1 : 0));
}

// Pairs of codes near each other, at both ends of each code; a semi-minor above the semi-major among them.
static void say_axes(uint32_t i)
{
    uint32_t k = 1 + i / 32, down = i / 4 % 8, j = k > down ? k - down : 0;
    int64_t major = i & 1 ? radius_table[k] : (int64_t)radius_table[k - 1] + 1;
    int64_t minor = i & 2 || j == 0 ? radius_table[j] : (int64_t)radius_table[j - 1] + 1;
    say("%lld %lld - %lld %lld 90000 - -", (long long)-NINETY_DEGREES, (long long)HALF_TURN, (long long)major, (long long)minor);
}

// Request i of the ordered ones; 0 when there is none.
static int request_in_order(uint64_t i)
{
    static const int64_t values[REQUEST_FIELDS] = {45000000000, -90000000000, 12345, 57274, 51159, 30000, 2279, 67};
    enum { FORMS = 256, RADII = 128 * 3 * 4, HEIGHTS = 128 * 3, ORIENTATIONS = 182 * 3, CONFIDENCES = 103, PAIRS = 127 * 8 * 4 };
    if (i < FORMS) { // every combination of missing fields
        for (uint32_t f = 0; f < REQUEST_FIELDS; f++)
            say_field((int)(i >> f & 1), values[f]);
        return 1;
    }
    if ((i -= FORMS) < RADII) {
        say_radius((uint32_t)(i / 3 % 4), around_entry(radius_table, i / 12 * 3 + i % 3));
        return 1;
    }
    if ((i -= RADII) < HEIGHTS) {
        say("-1 -1 0 0 - - %lld -", (long long)around_entry(height_table, i));
        return 1;
    }
    if ((i -= HEIGHTS) < ORIENTATIONS) { // around every degree
        int64_t a = 1000 * (int64_t)(i / 3) - 1 + (int64_t)(i % 3);
        say("-1 -1 - 5000 1 %lld - -", (long long)(a < 0 ? 0 : a));
        return 1;
    }
    if ((i -= ORIENTATIONS) < CONFIDENCES) {
        say("0 0 - 7 - - - %llu", (unsigned long long)i);
        return 1;
    }
    if ((i -= CONFIDENCES) < PAIRS) {
        say_axes((uint32_t)i);
        return 1;
    }
    return 0;
}

static void every_request(const char *list)
{
    printf("%s\n", list);
    for (uint64_t i = 0; request_in_order(i); i++)
        put_line();
}

// ---- Lines for the coder ----

static void some_line(void)
{
    uint8_t field = (uint8_t)below(GAD_FIELDS);
    if (one_in(2)) {
        say("code %s ", field_names[field]);
        if (is_optional(field) && one_in(16))
            say("-");
        else
            say("%lld", (long long)some_quantity(field));
        return;
    }
    say("report %s ", field_names[field]);
    if (field_elements(field) == 2) {
        static const int64_t odd[] = {2, 3, -1, 255, 256, 4294967296};
        say("%lld ", (long long)(one_in(50) ? PICK(odd) : below(2)));
    }
    if (one_in(200))
        say("-");
    else
        say("%lld", (long long)some_code_number(field));
}

static void lines(uint64_t seed, uint64_t count)
{
    static const char *const strange[] = {"code", "report", "code ", "report ", "code latitude", "report latitude", "report latitude 0", "report latitude 0 ",
        "code height 5", "code Latitude 5", "code altitude-uncertainty", "code altitude-uncertaint 5", "code altitudes 5", "code uncertainty-speed",
        "Code latitude 5", "codes latitude 5", "report longitude 0 5", "report confidence -", "report uncertainty-speed -", "code confidence --",
        "code altitude -", "code uncertainty -", "report altitude -", "report altitude - 5", "report altitude 0 -", "", " ", "-", "end 5", "code  latitude 5",
        "code latitude  5", "code\tlatitude 5", "code confidence -1", "code uncertainty-speed -0", "code confidence -0", "report latitude -0 -0"};
    seed_with(seed);
    for (uint64_t i = 0; i < count; i++) {
        if (one_in(200))
            say("%s", PICK(strange));
        else
            some_line();
        if (one_in(50))
            spoil();
        put_line();
    }
}

static void report_every_code(uint8_t field)
{
    int has_sign = field_elements(field) == 2;
    for (int64_t code = -2; code <= last_codes[field] + 200; code++)
        for (int sign = 0; sign <= has_sign; sign++) {
            say("report %s ", field_names[field]);
            if (has_sign)
                say("%d ", sign);
            say("%lld", (long long)code);
            put_line();
        }
}

static void code_every_boundary(uint8_t field)
{
    static const int64_t steps[GAD_FIELDS] = {0, 0, 0, 0, 1000, 5000, 2000, 2000, 1000, 1000, 500, 500, 1000, 1};
    for (int64_t code = 0; code <= 2 * last_codes[field] + 4; code++)
        for (int64_t by = -1; by <= 1; by++) {
            int64_t quantity = steps[field] * code + by;
            if (steps[field] == 0)
                quantity = (int64_t)(field == GAD_FIELD_UNCERTAINTY ? radius_table : height_table)[code < 128 ? code : 127] + by;
            say("code %s %lld", field_names[field], (long long)quantity);
            put_line();
            if (field_elements(field) == 2) {
                say("code %s %lld", field_names[field], (long long)-quantity);
                put_line();
            }
        }
}

// Every code of the fields up to 16 bits reported, with a few beyond, and quantities around every boundary coded.
static void every_line(void)
{
    for (uint8_t field = GAD_FIELD_UNCERTAINTY; field < GAD_FIELDS; field++)
        report_every_code(field);
    for (uint8_t field = GAD_FIELD_UNCERTAINTY; field < GAD_FIELDS; field++)
        code_every_boundary(field);
}

static int usage(void)
{
    fprintf(stderr,
        "generate frames SEED COUNT           frames by chance, the last one broken in most cases\n"
        "generate every                       frames in order: first octets, lengths, codes of fields up to 16 bits\n"
        "generate end WAY                     a few frames and a broken one, by the number of the way it is broken; 1 if there is none\n"
        "generate coordinates FIRST COUNT     points with successive coordinate codes (2^24 in all)\n"
        "generate requests LIST SEED COUNT    a list and requests by chance\n"
        "generate every-request LIST          a list and requests at every boundary\n"
        "generate lines SEED COUNT            code and report lines by chance\n"
        "generate every-line                  code and report lines in order\n"
        "generate show NUMBER <frames         one frame of the input in hexadecimal\n");
    return 2;
}

int main(int count, char **argument)
{
    static char buffer[65536];
    setvbuf(stdout, buffer, _IOFBF, sizeof buffer);
    prepare_tables();
    uint64_t number[5] = {0};
    for (int i = 2; i < count && i < 5; i++)
        number[i] = strtoull(argument[i], NULL, 10);
    const char *mode = count > 1 ? argument[1] : "";
    if (count == 4 && strcmp(mode, "frames") == 0)
        frames(number[2], number[3]);
    else if (count == 2 && strcmp(mode, "every") == 0)
        every();
    else if (count == 3 && strcmp(mode, "end") == 0) {
        if (!broken_end(number[2]))
            return 1;
    } else if (count == 4 && strcmp(mode, "coordinates") == 0)
        coordinates((uint32_t)number[2], number[3]);
    else if (count == 5 && strcmp(mode, "requests") == 0)
        requests(argument[2], number[3], number[4]);
    else if (count == 3 && strcmp(mode, "every-request") == 0)
        every_request(argument[2]);
    else if (count == 4 && strcmp(mode, "lines") == 0)
        lines(number[2], number[3]);
    else if (count == 2 && strcmp(mode, "every-line") == 0)
        every_line();
    else if (count == 3 && strcmp(mode, "show") == 0)
        show(number[2]);
    else
        return usage();
    return fflush(stdout) == 0 ? 0 : 1;
}
