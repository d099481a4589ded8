// Buffered input and output, and numbers as text, for the three programs. Each program includes this once.
#ifndef COMPARE_STREAM_H
#define COMPARE_STREAM_H

#include <errno.h>
#include <stdint.h>
#include <stdlib.h>
#include <string.h>
#include <unistd.h>

enum { BUFFER = 65536, LONGEST_LINE = 4096 };

// ---- Input ----

static uint8_t input[BUFFER];
static size_t input_start, input_end; // what is read and not yet taken
static int input_over;

// Moves what is left to the front and reads more; 0 when there is no more.
static int refill(void)
{
    if (input_over)
        return 0;
    if (input_start != 0) {
        memmove(input, input + input_start, input_end - input_start);
        input_end -= input_start;
        input_start = 0;
    }
    for (;;) {
        ssize_t got = read(0, input + input_end, BUFFER - input_end);
        if (got > 0) {
            input_end += (size_t)got;
            return 1;
        }
        if (got < 0 && errno == EINTR)
            continue;
        input_over = 1;
        return 0;
    }
}

// The next line without its newline; 0 at the end of the input. A line longer than LONGEST_LINE is given the length
// LONGEST_LINE + 1, and its octets may be gone. A last line needs no newline.
static inline int next_line(const uint8_t **line, size_t *length)
{
    size_t scanned = 0;
    int too_long = 0;
    for (;;) {
        uint8_t *from = input + input_start;
        size_t have = input_end - input_start;
        uint8_t *newline = memchr(from + scanned, '\n', have - scanned);
        if (newline) {
            *line = from;
            *length = too_long ? LONGEST_LINE + 1 : (size_t)(newline - from);
            input_start += (size_t)(newline - from) + 1;
            return 1;
        }
        scanned = have;
        if (have > LONGEST_LINE) {
            too_long = 1;
            input_start = input_end;
            scanned = 0;
        }
        if (!refill()) {
            if (!too_long && scanned == 0)
                return 0;
            *line = input + input_start;
            *length = too_long ? LONGEST_LINE + 1 : scanned;
            input_start = input_end;
            return 1;
        }
    }
}

// ---- Output ----

static char output[BUFFER];
static char *output_end = output;

static void flush(void)
{
    const char *from = output;
    while (from < output_end) {
        ssize_t put = write(1, from, (size_t)(output_end - from));
        if (put > 0)
            from += put;
        else if (put < 0 && errno != EINTR)
            exit(1);
    }
    output_end = output;
}

// A place for at least `room` octets of output; what is written there is kept by setting output_end.
static inline char *output_place(size_t room)
{
    if ((size_t)(output + BUFFER - output_end) < room)
        flush();
    return output_end;
}

static const char pairs[201] =
    "0001020304050607080910111213141516171819202122232425262728293031323334353637383940414243444546474849"
    "5051525354555657585960616263646566676869707172737475767778798081828384858687888990919293949596979899";

static inline char *put_two(char *at, uint32_t number)
{
    memcpy(at, pairs + 2 * number, 2);
    return at + 2;
}

static inline char *put_four(char *at, uint32_t number)
{
    uint32_t high = number / 100;
    put_two(at, high);
    put_two(at + 2, number - high * 100);
    return at + 4;
}

static inline char *put_eight(char *at, uint32_t number)
{
    uint32_t high = number / 10000;
    put_four(at, high);
    put_four(at + 4, number - high * 10000);
    return at + 8;
}

// A number below 10000, without leading zeros.
static inline char *put_short(char *at, uint32_t number)
{
    if (number >= 100) {
        uint32_t high = number / 100;
        if (high >= 10)
            at = put_two(at, high);
        else
            *at++ = (char)('0' + high);
        return put_two(at, number - high * 100);
    }
    if (number >= 10)
        return put_two(at, number);
    *at++ = (char)('0' + number);
    return at;
}

// A number below 10^8, without leading zeros.
static inline char *put_medium(char *at, uint32_t number)
{
    if (number < 10000)
        return put_short(at, number);
    uint32_t high = number / 10000;
    return put_four(put_short(at, high), number - high * 10000);
}

static inline char *put_unsigned(char *at, uint64_t number)
{
    if (number < 100000000)
        return put_medium(at, (uint32_t)number);
    uint64_t high = number / 100000000;
    uint32_t low = (uint32_t)(number - high * 100000000);
    if (high < 100000000) {
        at = put_medium(at, (uint32_t)high);
    } else {
        uint64_t top = high / 100000000;
        at = put_eight(put_medium(at, (uint32_t)top), (uint32_t)(high - top * 100000000));
    }
    return put_eight(at, low);
}

static inline char *put_signed(char *at, int64_t number)
{
    if (number < 0) {
        *at++ = '-';
        return put_unsigned(at, 0 - (uint64_t)number);
    }
    return put_unsigned(at, (uint64_t)number);
}

static inline char *put_octet(char *at, uint8_t octet)
{
    static const char digits[16] = "0123456789ABCDEF";
    at[0] = digits[octet >> 4];
    at[1] = digits[octet & 15];
    return at + 2;
}

static inline char *put_text(char *at, const char *text, size_t length)
{
    memcpy(at, text, length);
    return at + length;
}

// The last line.
static void put_end(uint64_t count)
{
    char *at = put_text(output_place(64), "end ", 4);
    at = put_unsigned(at, count);
    *at++ = '\n';
    output_end = at;
    flush();
}

// ---- Numbers in a line ----

// A decimal number with an optional minus sign, ended by a space or the end of the line. `huge` when its size is 2^64 or more.
struct number {
    uint64_t size;
    int negative;
    int huge;
};

// 0 when no number stands there; else `*from` is just after it.
static inline int take_number(const uint8_t **from, const uint8_t *end, struct number *number)
{
    const uint8_t *at = *from;
    number->negative = 0;
    number->huge = 0;
    if (at < end && *at == '-') {
        number->negative = 1;
        at++;
    }
    const uint8_t *first = at;
    uint64_t size = 0;
    for (; at < end && *at != ' '; at++) {
        uint32_t digit = (uint32_t)*at - '0';
        if (digit > 9)
            return 0;
        if (size >= UINT64_MAX / 10 && (size > UINT64_MAX / 10 || digit > UINT64_MAX % 10))
            number->huge = 1;
        size = size * 10 + digit;
    }
    if (at == first)
        return 0;
    number->size = size;
    *from = at;
    return 1;
}

static inline int fits_signed64(const struct number *number, int64_t *value)
{
    if (number->huge || number->size > (uint64_t)INT64_MAX + (uint64_t)number->negative)
        return 0;
    *value = number->negative ? (int64_t)(0 - number->size) : (int64_t)number->size;
    return 1;
}

static inline int fits_signed32(const struct number *number, int32_t *value)
{
    if (number->huge || number->size > (uint64_t)INT32_MAX + (uint64_t)number->negative)
        return 0;
    *value = (int32_t)(number->negative ? -(int64_t)number->size : (int64_t)number->size);
    return 1;
}

// Minus zero is zero.
static inline int fits_unsigned32(const struct number *number, uint32_t *value)
{
    if (number->huge || number->size > UINT32_MAX || (number->negative && number->size != 0))
        return 0;
    *value = (uint32_t)number->size;
    return 1;
}

#endif
