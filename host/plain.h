/*
 * The library's calls in plain C, with the same arguments and answers, for comparison with the
 * library's speed.
 */
#ifndef PLAIN_H
#define PLAIN_H

#include <stddef.h>
#include <stdint.h>

uint32_t plain_split(uint32_t kind, const uint8_t *record, size_t record_length, size_t payload, size_t part, uint8_t *out, size_t out_length,
                     size_t *length, size_t *parts);
uint32_t plain_list(const uint8_t *capture, size_t capture_length, uint8_t *out, size_t out_length, size_t *length);
size_t plain_list_length(const uint8_t *capture, size_t capture_length);

#endif
