// The second coder behind the interface of include/gad.h: the same arrays, answers and order of refusals.
// Call prepare_tables() of coder.h once before anything else.
#ifndef COMPARE_PLAIN_H
#define COMPARE_PLAIN_H

#include "../include/gad.h"

int64_t plain_read_shape(uint32_t *codes, size_t code_elements, const uint8_t *message, size_t octets);
int64_t plain_read_velocity(uint32_t *codes, size_t code_elements, const uint8_t *message, size_t octets);
int64_t plain_write_shape(uint8_t *out, size_t room, const uint32_t *codes, size_t code_elements);
int64_t plain_write_velocity(uint8_t *out, size_t room, const uint32_t *codes, size_t code_elements);
int64_t plain_report_shape(int64_t *quantities, size_t quantity_elements, const uint32_t *codes, size_t code_elements);
int64_t plain_report_velocity(int64_t *quantities, size_t quantity_elements, const uint32_t *codes, size_t code_elements);
int64_t plain_code_shape(uint32_t *codes, size_t code_elements, const int64_t *quantities, size_t quantity_elements);
int64_t plain_code_velocity(uint32_t *codes, size_t code_elements, const int64_t *quantities, size_t quantity_elements);
int64_t plain_choose(uint8_t *out, size_t room, const int64_t *request, size_t request_elements, uint16_t list);
int64_t plain_code(uint32_t *code, size_t code_elements, uint8_t field, int64_t quantity);
int64_t plain_report(int64_t *quantity, size_t quantity_elements, uint8_t field, const uint32_t *code, size_t code_elements);

#endif
