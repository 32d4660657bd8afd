/*
 * repeat ours|plain list|split FILE TIMES: runs one operation that many times, by the library or in
 * plain C, and writes the result of the last.
 */
#include <stdio.h>
#include <stdlib.h>
#include <string.h>

#include "hordivasz.h"
#include "plain.h"

#define PAYLOAD 20
#define LONGEST_CAPTURE 65536
#define LONGEST_LISTING 1048576

struct calls {
    uint32_t (*split)(uint32_t kind, const uint8_t *record, size_t record_length, size_t payload, size_t part, uint8_t *out, size_t out_length,
                      size_t *length, size_t *parts);
    uint32_t (*list)(const uint8_t *capture, size_t capture_length, uint8_t *out, size_t out_length, size_t *length);
};

static uint8_t in[LONGEST_CAPTURE];
static uint8_t out[LONGEST_LISTING];

/* Lists the capture that is the input; returns the listing's length. */
static size_t listed(const struct calls *calls, size_t in_length)
{
    size_t length = 0;
    if (calls->list(in, in_length, out, sizeof out, &length) != HORDIVASZ_DONE) {
        exit(1);
    }
    return length;
}

/*
 * Puts all parts of a record one after the other; returns their length. The input is the kind, then
 * the record.
 */
static size_t split(const struct calls *calls, size_t in_length)
{
    size_t at = 0, part, parts = 1;
    for (part = 0; part < parts; part++) {
        size_t length = 0;
        if (calls->split(in[0], in + 1, in_length - 1, PAYLOAD, part, out + at, PAYLOAD, &length, &parts) != HORDIVASZ_DONE) {
            exit(1);
        }
        at += length;
    }
    return at;
}

int main(int argument_count, char **arguments)
{
    static const struct calls ours = {hordivasz_split, hordivasz_list}, plain = {plain_split, plain_list};
    const struct calls *calls;
    size_t (*work)(const struct calls *calls, size_t in_length);
    size_t in_length, length = 0;
    long times;
    FILE *file = argument_count == 5 ? fopen(arguments[3], "rb") : NULL;
    if (file == NULL) {
        return 2;
    }
    calls = strcmp(arguments[1], "ours") == 0 ? &ours : &plain;
    work = strcmp(arguments[2], "list") == 0 ? listed : split;
    in_length = fread(in, 1, sizeof in, file);
    fclose(file);
    for (times = atol(arguments[4]); times > 0; times--) {
        length = work(calls, in_length);
    }
    return fwrite(out, 1, length, stdout) != length;
}
