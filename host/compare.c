/*
 * Checks the library against the cases on standard input, which `oracle` writes: each reply, each
 * number and every octet, in areas that show an access past their ends.
 */
#include <stdio.h>
#include <stdlib.h>
#include <string.h>

#include "areas.h"
#include "hordivasz.h"

/* A case of either call: what is passed in, and the expected result. */
struct split_case {
    size_t kind, payload, part, lent, record_length, refusal, parts, length;
    uint8_t *record, *piece;
};
struct list_case {
    size_t capture_length, lent, refusal, length;
    uint8_t *capture, *text;
};

static unsigned long cases;

static void differs(const char *what)
{
    printf("case %lu differs: %s\n", cases, what);
    exit(1);
}

static void same(const char *what, size_t expected, size_t found)
{
    if (expected != found) {
        printf("expected %lu, found %lu\n", (unsigned long)expected, (unsigned long)found);
        differs(what);
    }
}

/* The next octets of the input. */
static uint8_t *octets(size_t length)
{
    uint8_t *read = malloc(length + 1);
    if (read == NULL || fread(read, 1, length, stdin) != length) {
        differs("no memory, or the input ends early");
    }
    return read;
}

/* The next number of the input: eight octets, least first. */
static size_t number(void)
{
    uint8_t *read = octets(8);
    size_t n = 0;
    int i;
    for (i = 7; i >= 0; i--) {
        n = n * 256 + read[i];
    }
    free(read);
    return n;
}

/* An area to lend. */
static struct area lent(enum use use, enum side side, size_t length)
{
    struct area a = area(use, side, length);
    if (a.octets == NULL) {
        differs("no room");
    }
    return a;
}

/* An area with the input. */
static struct area handed(enum side side, const uint8_t *from, size_t length)
{
    struct area a = lent(INPUT, side, length);
    memcpy(a.octets, from, length);
    return a;
}

/* Checks what an area holds after a call, octet by octet. */
static void settle(const char *what, struct area *a, const uint8_t *written, size_t length)
{
    if (!area_holds(a, written, length)) {
        differs(what);
    }
    area_done(a);
}

/* Checks a number that the call must store if it is not refused, and leave unchanged if it is. */
static void settle_number(const char *what, struct area *a, size_t refusal, size_t expected)
{
    uint8_t written[sizeof expected];
    memcpy(written, &expected, sizeof expected);
    settle(what, a, written, refusal == 0 ? sizeof expected : 0);
}

static size_t *as_number(struct area *a)
{
    return (size_t *)(void *)a->octets;
}

static void try_split(const struct split_case *c, enum side side)
{
    struct area record = handed(side, c->record, c->record_length);
    struct area out = lent(OUTPUT, side, c->lent);
    struct area length = lent(LENGTH, side, sizeof(size_t));
    struct area parts = lent(PARTS, side, sizeof(size_t));
    uint32_t found = hordivasz_split((uint32_t)c->kind, record.octets, c->record_length, c->payload, c->part, out.octets, c->lent,
                                     as_number(&length), as_number(&parts));
    same("what split returns", c->refusal, found);
    settle("the record", &record, c->record, c->record_length);
    settle("the octets lent for a part", &out, c->piece, c->length);
    settle_number("the length of the part", &length, c->refusal, c->length);
    settle_number("the number of parts", &parts, c->refusal, c->parts);
}

static void split_case(void)
{
    struct split_case c;
    int side;
    c.kind = number();
    c.payload = number();
    c.part = number();
    c.lent = number();
    c.record_length = number();
    c.record = octets(c.record_length);
    c.refusal = number();
    c.parts = number();
    c.length = number();
    c.piece = octets(c.length);
    for (side = 0; side < SIDES; side++) {
        try_split(&c, (enum side)side);
    }
    free(c.record);
    free(c.piece);
}

static void try_list(const struct list_case *c, enum side side)
{
    struct area capture = handed(side, c->capture, c->capture_length);
    struct area out = lent(OUTPUT, side, c->lent);
    struct area length = lent(LENGTH, side, sizeof(size_t));
    uint32_t found = hordivasz_list(capture.octets, c->capture_length, out.octets, c->lent, as_number(&length));
    same("what list returns", c->refusal, found);
    same("the length foretold", c->length, hordivasz_list_length(capture.octets, c->capture_length));
    settle("the capture", &capture, c->capture, c->capture_length);
    settle("the octets lent for a listing", &out, c->text, c->refusal == 0 ? c->length : 0);
    settle_number("the length of the listing", &length, c->refusal, c->length);
}

static void list_case(void)
{
    struct list_case c;
    int side;
    c.capture_length = number();
    c.lent = number();
    c.refusal = number();
    c.length = number();
    c.capture = octets(c.capture_length);
    c.text = octets(c.length);
    for (side = 0; side < SIDES; side++) {
        try_list(&c, (enum side)side);
    }
    free(c.capture);
    free(c.text);
}

int main(void)
{
    size_t call;
    if (!fences_hold()) {
        differs("the fences stop nothing");
    }
    for (call = number(); call != 0; call = number()) {
        cases++;
        if (call == 1) {
            split_case();
        } else {
            list_case();
        }
    }
    printf("%lu cases agree\n", cases);
    return 0;
}
