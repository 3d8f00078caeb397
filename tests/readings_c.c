/*
 * readings_c.c - the latest readings table as a C program feeds it: one and the same frame told by a tick
 * reader, a master and a device and read by nengapiko_read, each into a table of its own, which must be
 * equal; what is refused, not entered or entered in the wrong order; and what each host is shown as its
 * bits of the second data byte.
 */
#include "nengapiko.h"

#include <stdio.h>
#include <stdlib.h>
#include <string.h>

enum { ROWS = 3, AREA = ROWS * NENGAPIKO_SIZE_DATA, FILL = 0xA5, PREAMBLE = 5, LIMIT = 255 };
enum { STO = 28, HOLD = 2, RT2 = 8, RT1_PRIMARY = 33, RT1_SECONDARY = 41, RETRIES = 3 };

struct table {
    struct nengapiko_reading rows[ROWS];
    uint8_t area[AREA];
};

struct told {
    uint64_t results[NENGAPIKO_SIZE_RESULTS];
    uint8_t bytes[NENGAPIKO_SIZE_DATA];
};

/* A frame of a device, and how many characters it has. */
struct frame {
    uint8_t characters[NENGAPIKO_SIZE_FRAME];
    size_t length;
};

static unsigned long passed;
static unsigned long failed;

static void check(bool holds, const char *claim, int line)
{
    if (holds) {
        passed++;
    } else {
        failed++;
        printf("%s:%d: fails: %s\n", __FILE__, line, claim);
    }
}

#define CHECK(condition) check(condition, #condition, __LINE__)

static void lend(struct table *t)
{
    memset(t, FILL, sizeof *t);
    nengapiko_readings_clear(t->rows, ROWS);
}

static bool equal(const struct table *a, const struct table *b)
{
    return memcmp(a, b, sizeof *a) == 0;
}

static uint32_t enter(struct table *t, uint64_t tick, const struct told *told)
{
    return nengapiko_readings_enter(t->rows, ROWS, t->area, AREA, tick, told->results, told->bytes);
}

static struct frame written(uint8_t type, bool primary, uint64_t address, uint8_t command,
                            const uint8_t *data, size_t count)
{
    struct frame f;
    if (nengapiko_write(PREAMBLE, type, true, primary, false, address, command, data, count,
                        f.characters, sizeof f.characters, 0, &f.length) != NENGAPIKO_REFUSAL_NONE)
        abort();
    return f;
}

/* ------------------------------------------------------------------------ who tells a frame */

/* A tick of a party that hears a character, or silence. */
typedef void ticks(void *party, uint8_t heard, uint8_t character, struct told *told);

static void reader_ticks(void *party, uint8_t heard, uint8_t character, struct told *told)
{
    nengapiko_reader_tick(party, told->bytes, heard, character, told->results);
}

static void master_ticks(void *party, uint8_t heard, uint8_t character, struct told *told)
{
    static uint8_t frame[NENGAPIKO_SIZE_FRAME];
    nengapiko_master_tick(party, frame, told->bytes, heard, character, false, PREAMBLE, 7, true, 0, 0,
                          NENGAPIKO_NO_BYTES, 0, told->results);
}

static void device_ticks(void *party, uint8_t heard, uint8_t character, struct told *told)
{
    static uint8_t frame[NENGAPIKO_SIZE_FRAME], content[NENGAPIKO_SIZE_DATA];
    nengapiko_device_tick(party, frame, told->bytes, content, heard, character,
                          NENGAPIKO_DEVICE_CALL_NOTHING, 0, NENGAPIKO_NO_BYTES, 0, told->results);
}

/* What a party tells at the end of a frame that begins after two silent ticks. */
static struct told heard(void *party, ticks *tick, const struct frame *f)
{
    struct told told;
    tick(party, NENGAPIKO_HEARD_SILENCE, 0, &told);
    tick(party, NENGAPIKO_HEARD_SILENCE, 0, &told);
    for (size_t i = 0; i < f->length; i++)
        tick(party, NENGAPIKO_HEARD_CHARACTER, f->characters[i], &told);
    return told;
}

static struct told heard_by_reader(const struct frame *f)
{
    uint64_t state[NENGAPIKO_SIZE_READER];
    nengapiko_reader_start(state);
    return heard(state, reader_ticks, f);
}

static struct told heard_by_master(const struct frame *f)
{
    uint64_t state[NENGAPIKO_SIZE_MASTER];
    if (nengapiko_master_start(STO, HOLD, RT2, RT1_PRIMARY, RT1_SECONDARY, true, RETRIES, LIMIT,
                               state) != NENGAPIKO_REFUSAL_NONE)
        abort();
    return heard(state, master_ticks, f);
}

static struct told heard_by_device(const struct frame *f)
{
    uint64_t state[NENGAPIKO_SIZE_DEVICE];
    if (nengapiko_device_start(STO, HOLD, RT2, RT1_PRIMARY, RT1_SECONDARY, PREAMBLE, 0, 1, LIMIT,
                               state) != NENGAPIKO_REFUSAL_NONE)
        abort();
    return heard(state, device_ticks, f);
}

/* What is looked at of a frame that nengapiko_read reads; every other word is any number. */
static struct told read_from(const struct frame *f)
{
    static const int of[][2] = {{NENGAPIKO_RESULT_TYPE, NENGAPIKO_FIELD_TYPE},
                                {NENGAPIKO_RESULT_LONG, NENGAPIKO_FIELD_LONG},
                                {NENGAPIKO_RESULT_PRIMARY, NENGAPIKO_FIELD_PRIMARY},
                                {NENGAPIKO_RESULT_ADDRESS, NENGAPIKO_FIELD_ADDRESS},
                                {NENGAPIKO_RESULT_COMMAND, NENGAPIKO_FIELD_COMMAND},
                                {NENGAPIKO_RESULT_COUNT, NENGAPIKO_FIELD_COUNT}};
    uint64_t fields[NENGAPIKO_SIZE_FIELDS];
    struct told told;
    memset(&told, FILL, sizeof told);
    if (nengapiko_read(f->characters, f->length, fields) != NENGAPIKO_REFUSAL_NONE)
        abort();
    told.results[NENGAPIKO_RESULT_EVENT] = NENGAPIKO_EVENT_WHOLE;
    for (size_t i = 0; i < sizeof of / sizeof *of; i++)
        told.results[of[i][0]] = fields[of[i][1]];
    memcpy(told.bytes, f->characters + fields[NENGAPIKO_FIELD_START], fields[NENGAPIKO_FIELD_COUNT]);
    return told;
}

/* ------------------------------------------------------------------------ the table */

static const uint8_t reading[] = {0x00, 0x48, 0x11, 0x22, 0x33};
static const uint8_t stored[] = {0x00, 0x08, 0x11, 0x22, 0x33};
static const uint8_t shorter[] = {0x00, 0x08, 0x44};

/* Whoever told the frame, the table is the same. */
static void told_by_each(void)
{
    const struct frame f = written(NENGAPIKO_TYPE_ACK, true, 0x2A, 3, reading, sizeof reading);
    const struct told by[] = {heard_by_reader(&f), heard_by_master(&f), heard_by_device(&f), read_from(&f)};
    struct table expected;
    memset(&expected, FILL, sizeof expected);
    memset(expected.rows, 0, sizeof expected.rows);
    expected.rows[0] = (struct nengapiko_reading){.address = 0x2A,
                                                  .tick = 99,
                                                  .command = 3,
                                                  .count = sizeof reading,
                                                  .primary = NENGAPIKO_OWN_BIT_CONFIGURATION_CHANGED};
    memcpy(expected.area, stored, sizeof stored);
    for (size_t i = 0; i < sizeof by / sizeof *by; i++) {
        struct table t;
        lend(&t);
        CHECK(enter(&t, 99, &by[i]) == NENGAPIKO_REFUSAL_NONE);
        CHECK(equal(&t, &expected));
    }
}

/* Superseded, entered again, and entered after a newer one. */
static void in_their_order(void)
{
    const struct frame first = written(NENGAPIKO_TYPE_ACK, true, 0x2A, 3, reading, sizeof reading);
    const struct frame second = written(NENGAPIKO_TYPE_BACK, false, 0x2A, 3, shorter, sizeof shorter);
    const struct told older = heard_by_reader(&first), newer = heard_by_reader(&second);
    struct table t, once;
    lend(&t);
    CHECK(enter(&t, 10, &older) == NENGAPIKO_REFUSAL_NONE);
    CHECK(enter(&t, 20, &newer) == NENGAPIKO_REFUSAL_NONE);
    CHECK(nengapiko_readings_find(t.rows, ROWS, 0x2A, 3) == 0);
    CHECK(nengapiko_readings_find(t.rows, ROWS, 0x2A, 4) == ROWS);
    CHECK(nengapiko_readings_find(t.rows, ROWS, 0, 0) == ROWS);
    CHECK(t.rows[0].tick == 20 && t.rows[0].count == sizeof shorter);
    CHECK(memcmp(t.area, shorter, sizeof shorter) == 0 && t.area[3] == 0x22 && t.area[4] == 0x33);
    once = t;
    CHECK(enter(&t, 20, &newer) == NENGAPIKO_REFUSAL_NONE && equal(&t, &once));
    CHECK(enter(&t, 10, &older) == NENGAPIKO_REFUSAL_NONE);
    CHECK(t.rows[0].tick == 10 && t.rows[0].count == sizeof reading);
}

/* What is refused or not entered leaves rows and area as they were. */
static void left_alone(void)
{
    const struct frame f = written(NENGAPIKO_TYPE_BACK, true, 7, 1, reading, sizeof reading);
    struct told told = heard_by_reader(&f), other = told;
    struct table t, before;
    lend(&t);
    for (uint8_t command = 0; command < ROWS; command++) {
        told.results[NENGAPIKO_RESULT_COMMAND] = command;
        CHECK(enter(&t, command, &told) == NENGAPIKO_REFUSAL_NONE);
    }
    before = t;
    told.results[NENGAPIKO_RESULT_COMMAND] = ROWS;
    CHECK(enter(&t, 50, &told) == NENGAPIKO_REFUSAL_TABLE_FULL && equal(&t, &before));
    other.results[NENGAPIKO_RESULT_EVENT] = NENGAPIKO_EVENT_DAMAGED;
    CHECK(enter(&t, 50, &other) == NENGAPIKO_REFUSAL_NONE && equal(&t, &before));
    CHECK(nengapiko_readings_enter(t.rows, ROWS, t.area, AREA - 1, 50, other.results, other.bytes) ==
          NENGAPIKO_REFUSAL_BUFFER_SHORT);
    CHECK(nengapiko_readings_enter(t.rows, ROWS, t.area, AREA - 1, 50, told.results, told.bytes) ==
          NENGAPIKO_REFUSAL_BUFFER_SHORT);
    CHECK(nengapiko_readings_enter(t.rows, 0, t.area, 0, 50, told.results, told.bytes) ==
          NENGAPIKO_REFUSAL_TABLE_FULL);
    CHECK(equal(&t, &before));
    nengapiko_readings_clear(t.rows, ROWS);
    CHECK(memcmp(t.area, before.area, sizeof t.area) == 0);
    CHECK(enter(&t, 60, &told) == NENGAPIKO_REFUSAL_NONE && t.rows[0].command == ROWS && t.rows[1].address == 0);
}

/* Whether the hosts of primary and secondary are shown these second data bytes in the first row. */
static bool shows(const struct table *t, uint8_t primary, uint8_t secondary)
{
    const uint8_t byte = t->area[t->rows[0].place + 1];
    return nengapiko_readings_status(byte, t->rows[0].primary) == primary &&
           nengapiko_readings_status(byte, t->rows[0].secondary) == secondary;
}

static uint32_t enter_bits(struct table *t, bool primary, uint8_t second)
{
    const uint8_t data[] = {0x00, second};
    const struct frame f = written(NENGAPIKO_TYPE_BACK, primary, 2, 3, data, sizeof data);
    const struct told told = heard_by_master(&f);
    return enter(t, 1, &told);
}

/* A frame to one master sets both its bits, to 1 or to 0, and none of the other's. */
static void each_its_own(void)
{
    struct table t;
    lend(&t);
    CHECK(enter_bits(&t, true, 0x50) == NENGAPIKO_REFUSAL_NONE && shows(&t, 0x50, 0x00));
    CHECK(enter_bits(&t, false, 0x4F) == NENGAPIKO_REFUSAL_NONE && shows(&t, 0x5F, 0x4F));
    CHECK(enter_bits(&t, true, 0x00) == NENGAPIKO_REFUSAL_NONE && shows(&t, 0x00, 0x40));
    nengapiko_readings_clear(t.rows, ROWS);
    CHECK(enter_bits(&t, false, 0x10) == NENGAPIKO_REFUSAL_NONE && shows(&t, 0x00, 0x10));
}

int main(void)
{
    told_by_each();
    in_their_order();
    left_alone();
    each_its_own();
    printf("readings_c: %lu checks passed", passed);
    if (failed > 0)
        printf(", %lu failed", failed);
    printf("\n");
    return failed == 0 ? EXIT_SUCCESS : EXIT_FAILURE;
}
