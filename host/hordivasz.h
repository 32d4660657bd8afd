/*
 * The records of gym machines that Bluetooth's Fitness Machine Service 1.0 is about: splitting a
 * record into notifications, and listing a capture of notifications. The widths of the fields are
 * this reference's; the page on departures says where else it differs from the service's own text.
 *
 * Where it runs: on x86-64 with Linux only, as the Rattle kit does that proves and compiles it.
 * There is no build for a phone or a microcontroller. An app's team can link it into servers and
 * tests on x86-64, and use it there as the judge of its own code: what a call answers is proved of
 * its source, and the machine code is tested.
 *
 * Link with libhordivasz.a, a static, position-independent library that calls no other. The calls
 * allocate no memory, keep nothing between calls and may be made from several threads at once.
 * Compile with the headers of the library's own version: a later one may have larger sizes.
 *
 * What a host must not do: pass a null pointer, even with a length of 0 (pass the address of any
 * octet of yours); pass buffers or numbers that overlap, except buffers that are only read; pass
 * the same pointer as `length` and `parts`; change a buffer before the call returns; or give a
 * length above the buffer's own. The library cannot detect these, and promises nothing after them.
 * Any octets, kind, payload, part and number of octets may be passed.
 *
 * Copyright (c) 2026 the Hordivasz maintainers; see LICENSE.
 */
#ifndef HORDIVASZ_H
#define HORDIVASZ_H

#include <stddef.h>
#include <stdint.h>

#include "hordivasz_layout.h" /* kinds, masks, sizes and refusals */

#define HORDIVASZ_VERSION "1.0"
#define HORDIVASZ_VERSION_MAJOR 1
#define HORDIVASZ_VERSION_MINOR 0

#ifdef __cplusplus
extern "C" {
#endif

/*
 * Writes a part of a record for one notification.
 *
 * kind           the kind of machine: HORDIVASZ_TREADMILL to HORDIVASZ_INDOOR_BIKE
 * record         the record as one notification with More Data 0: flags, then the groups that they
 *                name in the ascending order of their bits, each number least octet first. Reserved
 *                bits and octets after its last group are ignored; so a group whose bit is
 *                forgotten is not refused, and the octets are taken for other fields
 * record_length  how many octets `record` has
 * payload        the most octets that a notification may have, HORDIVASZ_LEAST_PAYLOAD to
 *                HORDIVASZ_GREATEST_PAYLOAD: what the connection leaves for a value, not its MTU
 * part           which part, counted from 0
 * out            where the part goes; octets past it stay as they are
 * out_length     how many octets `out` has: as many as this part has are enough, and `payload`
 *                always is
 * length         how many octets the part has: written if 0 is returned, never read
 * parts          how many parts the record has at this payload, at most HORDIVASZ_MOST_PARTS:
 *                written if 0 is returned, never read
 *
 * Returns HORDIVASZ_DONE, 0, or one of the refusals 11, 12, 30, 31, 32, 13, 15 and 14, judged in
 * this order; 13 says that More Data is 1. On a refusal nothing behind any pointer is written.
 */
uint32_t hordivasz_split(uint32_t kind, const uint8_t *record, size_t record_length,
                         size_t payload, size_t part, uint8_t *out, size_t out_length,
                         size_t *length, size_t *parts);

/*
 * Lists a capture: a kind octet, then for each notification its length, two octets with the least
 * first, and its octets. The listing is lines of ASCII text `name=number`, each with a line feed at
 * its end, and no octet 0 after them. A record has `record=`, counted from 1, `kind=`, `groups=`
 * (the masks of its groups added up, in decimal), `direction=`, and a line for each field that is
 * present, the main group first, then in the order in which they are sent. What is wrong with a
 * capture or a notification is a line `refused=` with the refusal's number.
 *
 * Parts are joined into records, and nothing tells the call which groups a machine sends. So if a
 * notification is missing from the capture, a record can lack groups or mix those of two records,
 * and no line says so; parts at the end without their last part are not listed.
 *
 * capture         the capture, at most HORDIVASZ_LONGEST_CAPTURE octets; a longer one is listed as
 *                 `refused=36`
 * capture_length  how many octets it has
 * out             where the listing goes; octets past it stay as they are
 * out_length      how many octets `out` has
 * length          how many octets the listing has: written if 0 is returned, never read
 *
 * Returns HORDIVASZ_DONE, 0, or HORDIVASZ_OUTPUT_TOO_SHORT, 14. On 14 nothing behind any pointer is
 * written.
 */
uint32_t hordivasz_list(const uint8_t *capture, size_t capture_length, uint8_t *out,
                        size_t out_length, size_t *length);

/*
 * How many octets the listing of a capture has: the size of the buffer to pass to hordivasz_list.
 * It goes through the whole capture. It is 0 if there is neither a whole record nor a refusal; the
 * pointer must not be null even then.
 */
size_t hordivasz_list_length(const uint8_t *capture, size_t capture_length);

#ifdef __cplusplus
}
#endif

#endif
