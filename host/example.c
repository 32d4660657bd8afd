/*
 * Splits a record of an indoor bike for notifications of 20 octets, and lists the notifications, as
 * an app that captured them would. It is C and C++.
 */
#include <stdio.h>
#include <stdlib.h>

#include "hordivasz.h"

#define PAYLOAD HORDIVASZ_LEAST_PAYLOAD

/* A buffer, and how many of its octets are written. */
struct octets {
    uint8_t *at;
    size_t length;
};

/* Appends a number, least octet first; a negative one in two's complement. */
static void put(struct octets *to, long number, size_t octets)
{
    size_t i;
    for (i = 0; i < octets; i++) {
        to->at[to->length] = (uint8_t)((unsigned long)number >> 8 * i & 0xff);
        to->length++;
    }
}

/*
 * Writes a record of an indoor bike with all groups, as one notification: flags, then the groups in
 * the order of their bits. More Data is 0, so the main group, the speed, is present.
 */
static void put_record(struct octets *to)
{
    put(to, HORDIVASZ_INDOOR_BIKE_ALL_GROUPS, HORDIVASZ_INDOOR_BIKE_FLAGS_OCTETS);
    put(to, 2500, HORDIVASZ_INDOOR_BIKE_SPEED_OCTETS);
    put(to, 2400, HORDIVASZ_INDOOR_BIKE_AVERAGE_SPEED_OCTETS);
    put(to, 180, HORDIVASZ_INDOOR_BIKE_CADENCE_OCTETS);
    put(to, 170, HORDIVASZ_INDOOR_BIKE_AVERAGE_CADENCE_OCTETS);
    put(to, 100000, HORDIVASZ_INDOOR_BIKE_DISTANCE_OCTETS);
    put(to, -10, HORDIVASZ_INDOOR_BIKE_RESISTANCE_OCTETS);
    put(to, 250, HORDIVASZ_INDOOR_BIKE_POWER_OCTETS);
    put(to, 240, HORDIVASZ_INDOOR_BIKE_AVERAGE_POWER_OCTETS);
    put(to, 300, HORDIVASZ_INDOOR_BIKE_TOTAL_ENERGY_OCTETS);
    put(to, 600, HORDIVASZ_INDOOR_BIKE_ENERGY_PER_HOUR_OCTETS);
    put(to, 10, HORDIVASZ_INDOOR_BIKE_ENERGY_PER_MINUTE_OCTETS);
    put(to, 140, HORDIVASZ_INDOOR_BIKE_HEART_RATE_OCTETS);
    put(to, 85, HORDIVASZ_INDOOR_BIKE_METABOLIC_EQUIVALENT_OCTETS);
    put(to, 3600, HORDIVASZ_INDOOR_BIKE_ELAPSED_OCTETS);
    put(to, 0, HORDIVASZ_INDOOR_BIKE_REMAINING_OCTETS);
}

/* Prints a part, and appends it to a capture: its length in two octets, and its octets. */
static void send_part(size_t number, size_t parts, const struct octets *part,
                      struct octets *capture)
{
    size_t i;
    printf("part %u of %u:", (unsigned)number, (unsigned)parts);
    put(capture, (long)part->length, 2);
    for (i = 0; i < part->length; i++) {
        printf(" %02X", (unsigned)part->at[i]);
        put(capture, part->at[i], 1);
    }
    printf("\n");
}

/* Prints the listing of a capture; returns 0, or 1 on a refusal. */
static int print_listing(const struct octets *capture)
{
    size_t length = 0;
    size_t lent = hordivasz_list_length(capture->at, capture->length);
    uint8_t *out = (uint8_t *)malloc(lent + 1);
    uint32_t refusal;
    if (out == NULL) {
        return 1;
    }
    refusal = hordivasz_list(capture->at, capture->length, out, lent, &length);
    if (refusal == HORDIVASZ_DONE) {
        fwrite(out, 1, length, stdout);
    }
    free(out);
    return refusal != HORDIVASZ_DONE;
}

int main(void)
{
    uint8_t whole[HORDIVASZ_INDOOR_BIKE_LONGEST], out[PAYLOAD];
    uint8_t captured[1 + HORDIVASZ_MOST_PARTS * (2 + PAYLOAD)];
    struct octets record = {whole, 0}, part = {out, 0}, capture = {captured, 0};
    size_t parts = 1;
    size_t i;
    put_record(&record);
    put(&capture, HORDIVASZ_INDOOR_BIKE, 1);
    for (i = 0; i < parts; i++) {
        uint32_t refusal = hordivasz_split(HORDIVASZ_INDOOR_BIKE, record.at, record.length, PAYLOAD,
                                           i, part.at, sizeof out, &part.length, &parts);
        if (refusal != HORDIVASZ_DONE) {
            fprintf(stderr, "refused: %u\n", (unsigned)refusal);
            return 1;
        }
        send_part(i, parts, &part, &capture);
    }
    return print_listing(&capture);
}
