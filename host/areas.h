/* Areas to pass to a call, each placed so that reading or writing one octet too many is noticed. */
#ifndef AREAS_H
#define AREAS_H

#include <stddef.h>
#include <stdint.h>

/* What an area is passed as: one of each at a time. */
enum use { INPUT, OUTPUT, LENGTH, PARTS, USES };

/*
 * Where an area is placed: its end or its beginning touches a fence, which is pages that may not be
 * accessed, and guard octets are on the other side. At a fence the processor itself stops the
 * program, so an access by the library is noticed too, although it was compiled with no checks.
 *
 * With HEAP, for AddressSanitizer, each area is instead a heap block of exactly its length. That
 * shows faults of this folder's own C and of its calls to the C library. Of the library under test
 * it would show only faults inside such calls, and the library makes none: its own accesses are
 * checked by the fences.
 */
enum side { FENCE_BEHIND, FENCE_BEFORE };
#ifdef HEAP
#define SIDES 1
#else
#define SIDES 2
#endif

struct area {
    uint8_t *octets;
    size_t length;
    size_t before; /* how many guard octets are before it */
    size_t behind; /* and how many are after it */
};

/* Whether the fences stop a read and a write: if they do not, they show nothing. */
int fences_hold(void);

/*
 * An area of `length` octets, each filled by its position; `octets` is null if there is no memory.
 */
struct area area(enum use use, enum side side, size_t length);

/* Whether the area begins with what was written, and all after that and around it is unchanged. */
int area_holds(const struct area *a, const uint8_t *written, size_t length);

/* Ends the use of an area. */
void area_done(struct area *a);

#endif
