// Lines `code NAME QUANTITY` and `report NAME CODE..`; prints for each its number, the answer, and on 0 the code or the quantity.
#include "fields.h"
#include "stream.h"

static int take_word(const uint8_t **from, const uint8_t *end, const char *word)
{
    size_t length = strlen(word);
    if ((size_t)(end - *from) <= length || memcmp(*from, word, length) != 0 || (*from)[length] != ' ')
        return 0;
    *from += length + 1;
    return 1;
}

// What a line says: the field, and one number (the quantity, or the code), or two (the sign before the code).
struct asked {
    int report;
    uint8_t field;
    int missing;
    struct number first, second;
};

static int parse_line(const uint8_t *line, size_t length, struct asked *asked)
{
    if (length > LONGEST_LINE)
        return 0;
    const uint8_t *at = line, *end = line + length;
    if (take_word(&at, end, "report"))
        asked->report = 1;
    else if (take_word(&at, end, "code"))
        asked->report = 0;
    else
        return 0;
    uint8_t field = 0;
    while (field < GAD_FIELDS && !take_word(&at, end, field_names[field]))
        field++;
    if (field == GAD_FIELDS)
        return 0;
    asked->field = field;
    asked->missing = !asked->report && is_optional(field) && end - at == 1 && *at == '-';
    if (asked->missing)
        return 1;
    if (!take_number(&at, end, &asked->first))
        return 0;
    if (asked->report && field_elements(field) == 2) {
        if (at == end)
            return 0;
        at++; // the space that ended the first number
        if (!take_number(&at, end, &asked->second))
            return 0;
    }
    return at == end;
}

// Any number as a code: one too great for 64 bits is as good as the greatest.
static int64_t as_code(const struct number *number)
{
    uint64_t size = number->huge || number->size > INT64_MAX ? INT64_MAX : number->size;
    return number->negative ? -(int64_t)size : (int64_t)size;
}

// What is answered: with DONE one or two numbers, of which GAD_MISSING is a minus sign.
struct answered {
    enum answer answer;
    size_t count;
    int64_t numbers[2];
};

static struct answered report_line(const struct asked *asked)
{
    struct answered answered = {.count = 1};
    int64_t first = as_code(&asked->first), second = as_code(&asked->second), *quantity = answered.numbers;
    uint32_t size = 0;
    int32_t narrow = 0;
    struct optional optional = {0, 0};
    if (asked->field == GAD_FIELD_LATITUDE) {
        answered.answer = report_latitude(first, second, quantity);
    } else if (asked->field == GAD_FIELD_LONGITUDE) {
        answered.answer = report_longitude(first, quantity);
    } else if (field_elements(asked->field) == 2) {
        answered.answer = (asked->field == GAD_FIELD_ALTITUDE ? report_altitude : report_vertical_speed)(first, second, &narrow);
        *quantity = narrow;
    } else if (is_optional(asked->field)) {
        answered.answer = (asked->field == GAD_FIELD_CONFIDENCE ? report_confidence : report_uncertainty_speed)(first, &optional);
        *quantity = optional_element(optional);
    } else {
        answered.answer = simple_fields[asked->field].report(first, &size);
        *quantity = size;
    }
    return answered;
}

// The quantity as an element; 0 if it doesn't fit the width in which it arrives.
static int take_quantity(const struct asked *asked, int64_t *quantity)
{
    int32_t narrow = 0;
    uint32_t size = 0;
    int fits = 1;
    if (asked->field == GAD_FIELD_LATITUDE || asked->field == GAD_FIELD_LONGITUDE)
        return fits_signed64(&asked->first, quantity);
    if (asked->field == GAD_FIELD_ALTITUDE || asked->field == GAD_FIELD_VERTICAL_SPEED) {
        fits = fits_signed32(&asked->first, &narrow);
        *quantity = narrow;
    } else if (asked->missing) {
        *quantity = GAD_MISSING;
    } else {
        fits = fits_unsigned32(&asked->first, &size);
        *quantity = size;
    }
    return fits;
}

static struct answered code_line(const struct asked *asked, int64_t quantity)
{
    uint32_t elements[2] = {0};
    struct answered answered = {code_field(asked->field, quantity, elements), field_elements(asked->field), {0}};
    answered.numbers[0] = asked->field == GAD_FIELD_LONGITUDE ? (int32_t)elements[0] : (int64_t)elements[0];
    answered.numbers[1] = elements[1];
    return answered;
}

static char *put_answer(char *at, const uint8_t *line, size_t length)
{
    struct asked asked = {0};
    int64_t quantity = 0;
    if (!parse_line(line, length, &asked) || (!asked.report && !take_quantity(&asked, &quantity)))
        return put_text(at, " -", 2);
    struct answered answered = asked.report ? report_line(&asked) : code_line(&asked, quantity);
    *at++ = ' ';
    at = put_unsigned(at, answered.answer);
    for (size_t i = 0; answered.answer == DONE && i < answered.count; i++) {
        *at++ = ' ';
        if (answered.numbers[i] == GAD_MISSING)
            *at++ = '-';
        else
            at = put_signed(at, answered.numbers[i]);
    }
    return at;
}

int main(void)
{
    prepare_tables();
    const uint8_t *line;
    size_t length;
    uint64_t count = 0;
    while (next_line(&line, &length)) {
        char *at = put_unsigned(output_place(128), ++count);
        at = put_answer(at, line, length);
        *at++ = '\n';
        output_end = at;
    }
    put_end(count);
    return 0;
}
