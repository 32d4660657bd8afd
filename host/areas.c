/* Areas between fences, or on the heap: see areas.h. */
#define _DEFAULT_SOURCE
#include "areas.h"

#include <setjmp.h>
#include <signal.h>
#include <stdlib.h>
#include <string.h>
#include <sys/mman.h>

/* The fill differs from octet to octet, so that a copied octet is noticed. */
static uint8_t fill(size_t i)
{
    return (uint8_t)(i * 7 + 3);
}

#ifdef HEAP

struct area area(enum use use, enum side side, size_t length)
{
    struct area a = {malloc(length), length, 0, 0};
    size_t i;
    (void)use;
    (void)side;
    for (i = 0; a.octets != NULL && i < length; i++) {
        a.octets[i] = fill(i);
    }
    return a;
}

void area_done(struct area *a)
{
    free(a->octets);
    a->octets = NULL;
}

int fences_hold(void)
{
    return 1;
}

#else

/*
 * A fence is as wide as the largest page of a processor that runs this; the room between two fences
 * holds the longest listing and a guard.
 */
#define FENCE 65536
#define ROOM (16 * (size_t)FENCE)
#define GUARD 32

static uint8_t *rooms[USES];
static sigjmp_buf stopped;

/* The room of a use, between its two fences. */
static uint8_t *room_of(enum use use)
{
    if (rooms[use] == NULL) {
        uint8_t *all = mmap(NULL, ROOM + 2 * FENCE, PROT_NONE, MAP_PRIVATE | MAP_ANONYMOUS, -1, 0);
        if (all == MAP_FAILED || mprotect(all + FENCE, ROOM, PROT_READ | PROT_WRITE) != 0) {
            return NULL;
        }
        rooms[use] = all + FENCE;
    }
    return rooms[use];
}

struct area area(enum use use, enum side side, size_t length)
{
    struct area a = {room_of(use), length, 0, 0};
    size_t i;
    if (a.octets == NULL || ROOM - GUARD < length) {
        a.octets = NULL;
        return a;
    }
    if (side == FENCE_BEHIND) {
        a.octets += ROOM - length;
        a.before = GUARD;
    } else {
        a.behind = GUARD;
    }
    for (i = 0; i < a.before + length + a.behind; i++) {
        (a.octets - a.before)[i] = fill(i);
    }
    return a;
}

void area_done(struct area *a)
{
    a->octets = NULL;
}

static void stop(int signal)
{
    siglongjmp(stopped, signal);
}

/* Whether an access to an octet, a read or a write, is stopped. */
static int stops(volatile uint8_t *octet, int write)
{
    if (sigsetjmp(stopped, 1) != 0) {
        return 1;
    }
    if (write) {
        *octet = 0;
    } else {
        (void)*octet;
    }
    return 0;
}

int fences_hold(void)
{
    struct sigaction ours, before;
    int use, write, hold = 1;
    memset(&ours, 0, sizeof ours);
    ours.sa_handler = stop;
    sigaction(SIGSEGV, &ours, &before);
    for (use = 0; use < USES; use++) {
        for (write = 0; write < 2; write++) {
            struct area first = area((enum use)use, FENCE_BEFORE, 8), last = area((enum use)use, FENCE_BEHIND, 8);
            hold = hold && first.octets != NULL && stops(first.octets - 1, write) && stops(last.octets + 8, write);
        }
    }
    sigaction(SIGSEGV, &before, NULL);
    return hold;
}

#endif

int area_holds(const struct area *a, const uint8_t *written, size_t length)
{
    size_t i;
    for (i = 0; i < a->before + a->length + a->behind; i++) {
        uint8_t found = (a->octets - a->before)[i];
        int is_written = a->before <= i && i < a->before + length;
        if (found != (is_written ? written[i - a->before] : fill(i))) {
            return 0;
        }
    }
    return 1;
}
