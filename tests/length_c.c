/*
 * length_c.c - how much data for a wanted turn (document 02, item 12), as a C program asks for it: the
 * stored data lengths and the waits that belong to them, and a master and a device that are started
 * with a length and hold their hosts to it.
 */
#include "nengapiko.h"

#include <inttypes.h>
#include <stdio.h>
#include <stdlib.h>
#include <string.h>

#define UNTOUCHED UINT64_C(0xA5A55A5A0FF0F00F)

enum { PROFILE = 5, RETRIES = 3, LEFT_LENGTH = 0xA5 };
static const uint32_t left_wait = 0x0FF0F00F;

struct settings {
    uint16_t profile[PROFILE];
    uint8_t retries;
};

static const struct settings fsk = {{28, 2, 8, 33, 41}, RETRIES};
static const struct settings c8psk = {{32, 3, 14, 42, 56}, RETRIES};

static unsigned long passed;
static unsigned long failed;

static void check(bool holds, const char *claim, int line)
{
    if (holds) {
        passed++;
    } else {
        failed++;
        printf("%s:%d: fails: %s\n", __FILE__, line, claim);
    }
}

#define CHECK(condition) check(condition, #condition, __LINE__)

/* What is returned, and the length; it is left as it was by a refusal. */
static uint32_t length_for(struct settings s, uint32_t wait, uint8_t *length)
{
    const uint16_t *p = s.profile;
    *length = LEFT_LENGTH;
    return nengapiko_data_length(p[0], p[1], p[2], p[3], p[4], s.retries, wait, length);
}

static uint32_t wait_for(struct settings s, size_t length, bool bursting, uint32_t *wait)
{
    const uint16_t *p = s.profile;
    *wait = left_wait;
    return nengapiko_longest_wait(p[0], p[1], p[2], p[3], p[4], s.retries, length, bursting, wait);
}

/* Every data length up to 255 waits longer than so many ticks from this one on. */
static bool waits_longer(struct settings s, size_t length, uint32_t ticks)
{
    uint32_t wait;
    return length > 255 || (wait_for(s, length, false, &wait) == NENGAPIKO_REFUSAL_NONE && wait > ticks);
}

static bool is_within(struct settings s, size_t length, uint32_t ticks)
{
    uint32_t wait;
    return wait_for(s, length, false, &wait) == NENGAPIKO_REFUSAL_NONE && wait <= ticks;
}

/* A row: the refusal, or 0 and the length. */
static void row(struct settings s, uint32_t ticks, uint32_t refusal, uint32_t expected)
{
    uint8_t length;
    uint32_t wait;
    CHECK(length_for(s, ticks, &length) == refusal);
    if (refusal == NENGAPIKO_REFUSAL_NONE) {
        CHECK(length == expected);
        CHECK(is_within(s, length, ticks) && waits_longer(s, length + 1u, ticks));
        return;
    }
    CHECK(length == LEFT_LENGTH);
    if (refusal == NENGAPIKO_REFUSAL_WAIT_SHORT)
        CHECK(waits_longer(s, 2, ticks));
    else
        CHECK(wait_for(s, 2, false, &wait) == refusal && wait == left_wait);
}

/* The stored rows; how many of them are refused with 1, 2 and 26. */
static void rows(const char *path)
{
    char line[128], what[16];
    unsigned count = 0, refused[27] = {0};
    FILE *file = fopen(path, "r");
    if (file == NULL)
        abort();
    while (fgets(line, sizeof line, file) != NULL) {
        struct settings s;
        uint16_t *p = s.profile;
        uint32_t ticks, value;
        if (line[0] == '#')
            continue;
        if (sscanf(line,
                   "%" SCNu16 " %" SCNu16 " %" SCNu16 " %" SCNu16 " %" SCNu16 " %" SCNu8 " %" SCNu32
                   " %15s %" SCNu32,
                   &p[0], &p[1], &p[2], &p[3], &p[4], &s.retries, &ticks, what, &value) != 9)
            abort();
        if (strcmp(what, "refused") == 0) {
            row(s, ticks, value, 0);
            refused[value]++;
        } else {
            row(s, ticks, NENGAPIKO_REFUSAL_NONE, value);
        }
        count++;
    }
    fclose(file);
    CHECK(refused[1] > 0 && refused[2] > 0 && refused[26] > 0);
    printf("length_c: %u data lengths, %u, %u and %u of them refused with 1, 2 and 26\n", count,
           refused[1], refused[2], refused[26]);
}

/* Worked out by hand from the formula: FSK waits 355 and 5 a byte with R 3, C8PSK 432 and 5. */
static void worked_lengths(void)
{
    row(fsk, 0, 26, 0);
    row(fsk, 364, 26, 0);
    row(fsk, 365, 0, 2);
    row(fsk, 369, 0, 2);
    row(fsk, 370, 0, 3);
    row(fsk, 1629, 0, 254);
    row(fsk, 1630, 0, 255);
    row(fsk, UINT32_MAX, 0, 255);
    row(c8psk, 441, 26, 0);
    row(c8psk, 442, 0, 2);
    row(c8psk, 1706, 0, 254);
    row(c8psk, 1707, 0, 255);
}

/* A bursting device adds four frames, RT1 secondary and twice RT2. */
static void worked_waits(void)
{
    const struct settings few = {{28, 2, 8, 33, 41}, 2};
    const struct settings bad = {{28, 2, 8, 33, 42}, 2};
    const size_t outside[] = {0, 1, 256, SIZE_MAX};
    uint32_t wait;
    CHECK(wait_for(fsk, 2, false, &wait) == 0 && wait == 365);
    CHECK(wait_for(fsk, 2, true, &wait) == 0 && wait == 365 + 4 * 31 + 41 + 16);
    CHECK(wait_for(fsk, 255, false, &wait) == 0 && wait == 1630);
    CHECK(wait_for(fsk, 255, true, &wait) == 0 && wait == 1630 + 4 * 284 + 41 + 16);
    CHECK(wait_for(c8psk, 255, false, &wait) == 0 && wait == 1707);
    CHECK(wait_for(c8psk, 255, true, &wait) == 0 && wait == 1707 + 4 * 284 + 56 + 28);
    for (size_t i = 0; i < sizeof outside / sizeof *outside; i++) {
        CHECK(wait_for(fsk, outside[i], false, &wait) == NENGAPIKO_REFUSAL_DATA_LENGTH);
        CHECK(wait == left_wait);
        CHECK(wait_for(few, outside[i], true, &wait) == NENGAPIKO_REFUSAL_RETRIES);
        CHECK(wait_for(bad, outside[i], true, &wait) == NENGAPIKO_REFUSAL_PROFILE);
    }
}

/* ------------------------------------------------------------------------ starts and ticks */

struct party {
    uint64_t state[NENGAPIKO_SIZE_DEVICE]; /* a device's, which is the larger */
    uint64_t results[NENGAPIKO_SIZE_RESULTS];
    uint8_t frame[NENGAPIKO_SIZE_FRAME];
    uint8_t bytes[NENGAPIKO_SIZE_DATA];
    uint8_t contents[NENGAPIKO_SIZE_DATA];
};

static uint32_t start_master(struct party *p, uint16_t rt1_secondary, uint8_t retries, size_t limit)
{
    for (size_t i = 0; i < NENGAPIKO_SIZE_DEVICE; i++)
        p->state[i] = UNTOUCHED;
    return nengapiko_master_start(28, 2, 8, 33, rt1_secondary, true, retries, limit, p->state);
}

static uint32_t start_device(struct party *p, size_t preamble, uint64_t unique, size_t limit)
{
    for (size_t i = 0; i < NENGAPIKO_SIZE_DEVICE; i++)
        p->state[i] = UNTOUCHED;
    return nengapiko_device_start(28, 2, 8, 33, 41, preamble, 0, unique, limit, p->state);
}

static bool is_untouched(const struct party *p)
{
    for (size_t i = 0; i < NENGAPIKO_SIZE_DEVICE; i++)
        if (p->state[i] != UNTOUCHED)
            return false;
    return true;
}

static void starts(void)
{
    static struct party p;
    const size_t outside[] = {0, 1, 256, SIZE_MAX};
    const size_t inside[] = {2, 3, 254, 255};
    for (size_t i = 0; i < 4; i++) {
        CHECK(start_master(&p, 41, 3, outside[i]) == NENGAPIKO_REFUSAL_DATA_LENGTH && is_untouched(&p));
        CHECK(start_master(&p, 41, 2, outside[i]) == NENGAPIKO_REFUSAL_RETRIES && is_untouched(&p));
        CHECK(start_master(&p, 42, 2, outside[i]) == NENGAPIKO_REFUSAL_PROFILE && is_untouched(&p));
        CHECK(start_device(&p, 5, 2, outside[i]) == NENGAPIKO_REFUSAL_DATA_LENGTH && is_untouched(&p));
        CHECK(start_device(&p, 5, 0, outside[i]) == NENGAPIKO_REFUSAL_ADDRESS && is_untouched(&p));
        CHECK(start_device(&p, 4, 0, outside[i]) == NENGAPIKO_REFUSAL_PREAMBLE && is_untouched(&p));
        CHECK(start_master(&p, 41, 3, inside[i]) == NENGAPIKO_REFUSAL_NONE && !is_untouched(&p));
        CHECK(p.state[NENGAPIKO_SIZE_MASTER] == UNTOUCHED);
        CHECK(start_device(&p, 5, 2, inside[i]) == NENGAPIKO_REFUSAL_NONE && !is_untouched(&p));
    }
}

static const uint8_t zeros[256];

/* A silent tick of a master whose host asks with so much data, and one of a device whose host gives. */
static uint32_t asks(struct party *p, size_t count)
{
    return nengapiko_master_tick(p->state, p->frame, p->bytes, NENGAPIKO_HEARD_SILENCE, 0, true, 5, 7,
                                 true, 2, 3, zeros, count, p->results);
}

static uint32_t gives(struct party *p, size_t count)
{
    return nengapiko_device_tick(p->state, p->frame, p->bytes, p->contents, NENGAPIKO_HEARD_SILENCE, 0,
                                 NENGAPIKO_DEVICE_CALL_BURST_CONTENT, 3, zeros, count, p->results);
}

/* Each limit holds in the first tick, and in a later one: it is kept from tick to tick. */
static void limits(void)
{
    static struct party master, device;
    for (size_t limit = 2; limit <= 255; limit++) {
        CHECK(start_master(&master, 41, 3, limit) == NENGAPIKO_REFUSAL_NONE);
        CHECK(start_device(&device, 5, 2, limit) == NENGAPIKO_REFUSAL_NONE);
        for (size_t tick = 0; tick < 3; tick++) {
            CHECK(asks(&master, limit + 1) == NENGAPIKO_REFUSAL_DATA_LONG);
            CHECK(gives(&device, limit + 1) == NENGAPIKO_REFUSAL_DATA_LENGTH);
            CHECK(gives(&device, 1) == NENGAPIKO_REFUSAL_DATA_LENGTH);
            CHECK(gives(&device, limit) == NENGAPIKO_REFUSAL_NONE);
        }
        CHECK(asks(&master, limit) == NENGAPIKO_REFUSAL_NONE);
        CHECK(asks(&master, limit + 1) == NENGAPIKO_REFUSAL_DATA_LONG);
        CHECK(asks(&master, limit) == NENGAPIKO_REFUSAL_IN_HAND);
    }
}

int main(void)
{
    rows("tests/data/item-12/lengths.txt");
    worked_lengths();
    worked_waits();
    starts();
    limits();
    printf("length_c: %lu checks passed", passed);
    if (failed > 0)
        printf(", %lu failed", failed);
    printf("\n");
    return failed == 0 ? EXIT_SUCCESS : EXIT_FAILURE;
}
