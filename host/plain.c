/*
 * Splitting and listing as a C programmer would write them for speed, with nothing proved;
 * `compare` checks them against the same cases as the library.
 */
#include "plain.h"

#include <string.h>

#define LONGEST_CAPTURE 65536
#define LONGEST_NOTIFICATION 512
#define MOST_FIELDS 21

/* A field: the bit of its group, its width, and its name followed by `=`. */
struct field {
    uint8_t bit, octets, is_signed, name_length;
    const char *name;
};

/*
 * A kind: how many octets its flags have, its fields in wire order, how many octets each group has,
 * and the set of its optional groups.
 */
struct kind {
    size_t flags, field_count;
    const struct field *fields;
    uint8_t groups[16];
    uint32_t listed;
};

#define FIELD(bit, octets, is_signed, name) {bit, octets, is_signed, sizeof name, name "="}
#define U8(bit, name) FIELD(bit, 1, 0, name)
#define U16(bit, name) FIELD(bit, 2, 0, name)
#define U24(bit, name) FIELD(bit, 3, 0, name)
#define S16(bit, name) FIELD(bit, 2, 1, name)
#define COMMON(bit) \
    U16(bit, "total_energy"), U16(bit, "energy_per_hour"), U8(bit, "energy_per_minute"), U8((bit) + 1, "heart_rate"), \
    U8((bit) + 2, "metabolic_equivalent"), U16((bit) + 3, "elapsed"), U16((bit) + 4, "remaining")

static const struct field treadmill[] = {
    U16(0, "speed"), U16(1, "average_speed"), U24(2, "distance"), S16(3, "inclination"), S16(3, "ramp_angle"), U16(4, "positive_gain"),
    U16(4, "negative_gain"), U8(5, "pace"), U8(6, "average_pace"), COMMON(7), S16(12, "belt_force"), S16(12, "power_output")
};
static const struct field cross_trainer[] = {
    U16(0, "speed"), U16(1, "average_speed"), U24(2, "distance"), U16(3, "step_rate"), U16(3, "average_step_rate"), U16(4, "stride_count"),
    U16(5, "positive_gain"), U16(5, "negative_gain"), S16(6, "inclination"), S16(6, "ramp_angle"), S16(7, "resistance"), S16(8, "power"),
    S16(9, "average_power"), COMMON(10)
};
static const struct field step_climber[] = {
    U16(0, "floors"), U16(0, "steps"), U16(1, "step_rate"), U16(2, "average_step_rate"), U16(3, "positive_gain"), COMMON(4)
};
static const struct field stair_climber[] = {
    U16(0, "floors"), U16(1, "step_rate"), U16(2, "average_step_rate"), U16(3, "positive_gain"), U16(4, "stride_count"), COMMON(5)
};
static const struct field rower[] = {
    U8(0, "stroke_rate"), U16(0, "stroke_count"), U8(1, "average_stroke_rate"), U24(2, "distance"), U16(3, "pace"), U16(4, "average_pace"),
    S16(5, "power"), S16(6, "average_power"), S16(7, "resistance"), COMMON(8)
};
static const struct field indoor_bike[] = {
    U16(0, "speed"), U16(1, "average_speed"), U16(2, "cadence"), U16(3, "average_cadence"), U24(4, "distance"), S16(5, "resistance"),
    S16(6, "power"), S16(7, "average_power"), COMMON(8)
};

#define COUNT(fields) (sizeof(fields) / sizeof *(fields))

static const struct kind kinds[] = {
    {2, COUNT(treadmill), treadmill, {2, 2, 3, 4, 4, 1, 1, 5, 1, 1, 2, 2, 4}, 0x1ffe},
    {3, COUNT(cross_trainer), cross_trainer, {2, 2, 3, 4, 2, 4, 4, 2, 2, 2, 5, 1, 1, 2, 2}, 0x7ffe},
    {2, COUNT(step_climber), step_climber, {4, 2, 2, 2, 5, 1, 1, 2, 2}, 0x1fe},
    {2, COUNT(stair_climber), stair_climber, {2, 2, 2, 2, 2, 5, 1, 1, 2, 2}, 0x3fe},
    {2, COUNT(rower), rower, {3, 1, 3, 2, 2, 2, 2, 2, 5, 1, 1, 2, 2}, 0x1ffe},
    {2, COUNT(indoor_bike), indoor_bike, {2, 2, 2, 2, 3, 2, 2, 2, 5, 1, 1, 2, 2}, 0x1ffe}
};

static uint32_t number(const uint8_t *octets, size_t count)
{
    uint32_t n = octets[0];
    if (count > 1) {
        n |= (uint32_t)octets[1] << 8;
    }
    if (count > 2) {
        n |= (uint32_t)octets[2] << 16;
    }
    return n;
}

/* How many octets the groups of a set have; bit 0 is the main group. */
static size_t groups_length(const struct kind *k, uint32_t set)
{
    size_t length = 0;
    for (; set != 0; set &= set - 1) {
        length += k->groups[__builtin_ctz(set)];
    }
    return length;
}

/* The flags of a notification, and its groups with bit 0 for the main group; or 30, 31 or 32. */
static uint32_t heading(const struct kind *k, const uint8_t *octets, size_t length, uint32_t *flags, uint32_t *set)
{
    if (length > LONGEST_NOTIFICATION) {
        return 30;
    }
    if (length < k->flags) {
        return 31;
    }
    *flags = number(octets, k->flags);
    *set = (*flags & k->listed) | (~*flags & 1);
    return length < k->flags + groups_length(k, *set) ? 32 : 0;
}

/* The longest run of the lowest groups of a set that fits after the flags. */
static uint32_t run_of(const struct kind *k, uint32_t set, size_t payload)
{
    uint32_t run = 0;
    size_t length = k->flags;
    while (set != 0) {
        uint32_t lowest = set & (~set + 1);
        length += k->groups[__builtin_ctz(lowest)];
        if (length > payload) {
            break;
        }
        run |= lowest;
        set ^= lowest;
    }
    return run;
}

/*
 * A record has its groups in the order in which the parts send them, so a part is the flags, the
 * main group if it is the last part, and one contiguous piece of the record.
 */
static void put_part(const struct kind *k, uint32_t set, uint32_t direction, const uint8_t *record, size_t from, uint8_t *out)
{
    uint32_t flags = (set & k->listed) | (~set & 1) | direction << 15;
    size_t main_length = (set & 1) != 0 ? k->groups[0] : 0;
    size_t i;
    for (i = 0; i < k->flags; i++) {
        out[i] = (uint8_t)(flags >> (8 * i));
    }
    memcpy(out + k->flags, record + k->flags, main_length);
    memcpy(out + k->flags + main_length, record + from, groups_length(k, set & k->listed));
}

uint32_t plain_split(uint32_t kind, const uint8_t *record, size_t record_length, size_t payload, size_t part, uint8_t *out, size_t out_length,
                     size_t *length, size_t *parts)
{
    const struct kind *k = &kinds[(kind - 1) % 6];
    uint32_t flags, left, set = 0, chosen = 0, refusal;
    size_t count = 0, from, chosen_from = 0;
    if (kind < 1 || kind > 6) {
        return 11;
    }
    if (payload < 20 || payload > 512) {
        return 12;
    }
    refusal = heading(k, record, record_length, &flags, &left);
    if (refusal != 0 || (flags & 1) != 0) {
        return refusal != 0 ? refusal : 13;
    }
    for (from = k->flags + k->groups[0]; (set & 1) == 0; from += groups_length(k, set & k->listed)) {
        set = k->flags + groups_length(k, left) <= payload ? left : run_of(k, left & k->listed, payload);
        if (count == part) {
            chosen = set;
            chosen_from = from;
        }
        left &= ~set;
        count++;
    }
    if (part >= count) {
        return 15;
    }
    if (out_length < k->flags + groups_length(k, chosen)) {
        return 14;
    }
    put_part(k, chosen, kind == 2 ? flags >> 15 & 1 : 0, record, chosen_from, out);
    *length = k->flags + groups_length(k, chosen);
    *parts = count;
    return 0;
}

/* Writes a line at `out`, or only measures it if `out` is null; returns its length. */
static inline size_t put_line(uint8_t *out, const char *name, size_t name_length, uint32_t n, int negative)
{
    size_t length = name_length + (negative != 0) + 1;
    uint32_t rest = n;
    do {
        length++;
        rest /= 10;
    } while (rest != 0);
    if (out != NULL) {
        size_t at = length - 1;
        memcpy(out, name, name_length);
        out[at] = '\n';
        do {
            out[--at] = (uint8_t)('0' + n % 10);
            n /= 10;
        } while (n != 0);
        if (negative) {
            out[--at] = '-';
        }
    }
    return length;
}

#define LINE(out, name, n) put_line(out, name, sizeof name - 1, n, 0)

/* The next position in a text, or null if there is no text. */
static inline uint8_t *behind(uint8_t *out, size_t at)
{
    return out == NULL ? NULL : out + at;
}

static inline size_t put_record(uint8_t *out, uint32_t count, uint32_t kind, uint32_t set, uint32_t direction, const uint32_t *values)
{
    const struct kind *k = &kinds[kind - 1];
    size_t at = 0, i;
    at += LINE(out, "record=", count);
    at += LINE(behind(out, at), "kind=", kind);
    at += LINE(behind(out, at), "groups=", set & k->listed);
    at += LINE(behind(out, at), "direction=", direction);
    for (i = 0; i < k->field_count; i++) {
        const struct field *f = &k->fields[i];
        if ((set >> f->bit & 1) != 0) {
            int negative = f->is_signed && values[i] > 32767;
            at += put_line(behind(out, at), f->name, f->name_length, negative ? 65536 - values[i] : values[i], negative);
        }
    }
    return at;
}

/* The values of the groups that a notification names, which is long enough for them. */
static inline void read_values(const struct kind *k, uint32_t set, const uint8_t *octets, uint32_t *values)
{
    size_t at = k->flags, i;
    for (i = 0; i < k->field_count; i++) {
        const struct field *f = &k->fields[i];
        if ((set >> f->bit & 1) != 0) {
            values[i] = number(octets + at, f->octets);
            at += f->octets;
        }
    }
}

/* Writes the listing of a capture, or only measures it if `out` is null; returns its length. */
static inline size_t put_listing(const uint8_t *capture, size_t length, uint8_t *out)
{
    uint32_t kind, held = 0, count = 1;
    uint32_t values[MOST_FIELDS];
    size_t at = 0, i = 1;
    if (length > LONGEST_CAPTURE) {
        return LINE(out, "refused=", 36);
    }
    kind = length == 0 ? 0 : capture[0];
    if (kind < 1 || kind > 6) {
        return LINE(out, "refused=", 11);
    }
    while (i < length) {
        size_t size = length - i < 2 ? length : number(capture + i, 2);
        uint32_t flags, set, refusal;
        if (length - i < 2 + size) {
            return at + LINE(behind(out, at), "refused=", 37);
        }
        refusal = heading(&kinds[kind - 1], capture + i + 2, size, &flags, &set);
        if (refusal != 0) {
            held = 0;
            at += LINE(behind(out, at), "refused=", refusal);
        } else {
            read_values(&kinds[kind - 1], set, capture + i + 2, values);
            held = (held & set) != 0 ? set : held | set;
            if ((set & 1) != 0) {
                at += put_record(behind(out, at), count++, kind, held, kind == 2 ? flags >> 15 & 1 : 0, values);
                held = 0;
            }
        }
        i += 2 + size;
    }
    return at;
}

size_t plain_list_length(const uint8_t *capture, size_t capture_length)
{
    return put_listing(capture, capture_length, NULL);
}

/* On refusal 14 nothing may be written, so the listing is measured first. */
uint32_t plain_list(const uint8_t *capture, size_t capture_length, uint8_t *out, size_t out_length, size_t *length)
{
    size_t size = plain_list_length(capture, capture_length);
    if (out_length < size) {
        return 14;
    }
    put_listing(capture, capture_length, out);
    *length = size;
    return 0;
}
