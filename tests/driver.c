/*
 * driver.c - docs/C.md's driver over the modem chip of libnengapiko_tests.a: a master behind the chip
 * and one without it hear the same line, with damage of each kind, and are asked the same. In each
 * tick both must leave the same results, words and buffers; what goes out must be what is sent, with
 * odd parity; request to send must be set just where something is, and the interrupts stay on. The
 * tick count, which wraps, must give the ticks.
 */
#include "nengapiko_tests.h"

#include <stdio.h>
#include <stdlib.h>
#include <string.h>

enum { TICKS = 900, NOISE_FROM = 700, ASKS_EVERY = 25, ACCESSES = 16 };

/* Byte 1: request to send, and both interrupts. */
enum { REQUEST_TO_SEND = 0x80, INTERRUPTS = 0x60 };

/* ------------------------------------------------------------------------ the chip */

/* Operations of a script, as crates/modem_c/specs/Script.antt says. */
enum {
    READ = 0x00,
    WRITE = 0x20,
    BEGINS_SILENT = 0x30,
    BEGINS = 0x40,
    ENDS = 0x50,
    CHARACTER_OUT = 0x60,
    COUNT_BYTE = 0x80
};

/* The accesses so far, and what each gave. */
static uint8_t script[TICKS * ACCESSES * 2];
static uint8_t given[TICKS * ACCESSES];
static size_t accesses;

/* One access more: the script is run again, and gives the last number. */
static uint8_t access_chip(unsigned operation, uint8_t value)
{
    if (accesses == sizeof given)
        abort();
    script[2 * accesses] = (uint8_t)operation;
    script[2 * accesses + 1] = value;
    accesses++;
    if (nengapiko_modem(script, 2 * accesses, given, accesses) != accesses)
        abort();
    return given[accesses - 1];
}

static uint8_t chip_read(uint8_t byte)
{
    return access_chip(READ + byte, 0);
}

static void chip_write(uint8_t byte, uint8_t value)
{
    if (access_chip(WRITE + byte, value) != NENGAPIKO_REFUSAL_NONE)
        abort();
}

/* line_heard and line_send, which tests/driver takes out of docs/C.md. */
#include "line.h"

/* The ninth bit of a character: odd parity. */
static uint8_t ninth_bit(uint8_t character)
{
    uint8_t bit = 1;
    for (unsigned i = 0; i < 8; i++)
        bit = (uint8_t)(bit ^ (character >> i & 1));
    return bit;
}

struct heard {
    uint8_t kind; /* an enum nengapiko_heard */
    uint8_t character;
};

/* A tick of the chip begins: nine bits, and for damage 2 and 3 a mark, under which the ninth is any. */
static void begin_tick(struct heard h)
{
    const uint8_t ninth = ninth_bit(h.character);
    switch (h.kind) {
    case NENGAPIKO_HEARD_SILENCE:
        access_chip(BEGINS_SILENT, 0);
        break;
    case NENGAPIKO_HEARD_CHARACTER:
        access_chip(BEGINS + ninth, h.character);
        break;
    case NENGAPIKO_HEARD_PARITY:
        access_chip(BEGINS + (ninth ^ 1u), h.character);
        break;
    default:
        access_chip(BEGINS + 2u * (h.kind - 2u) + h.character % 2, h.character);
    }
}

/* The interrupts are on, and the tick count is 0xFFFFFF00. */
static void start_chip(void)
{
    chip_write(1, INTERRUPTS);
    for (unsigned i = 0; i < 3; i++)
        access_chip(COUNT_BYTE, 0xFF);
    access_chip(COUNT_BYTE, 0x00);
}

static uint32_t tick_count(void)
{
    uint32_t count = 0;
    for (uint8_t byte = 4; byte < 8; byte++)
        count = count << 8 | chip_read(byte);
    return count;
}

/* ------------------------------------------------------------------------ the line */

/* Behind an STX: a silent tick, then the ACK of command 0 from polling address 0, without damage. */
static const struct heard answer[] = {{0, 0x00}, {1, 0xFF}, {1, 0xFF}, {1, 0xFF}, {1, 0xFF},
                                      {1, 0xFF}, {1, 0x06}, {1, 0x80}, {1, 0x00}, {1, 0x02},
                                      {1, 0x00}, {1, 0x00}, {1, 0x84}};
enum { ANSWER = sizeof answer / sizeof *answer, FIRST_DATA = 10 };

/* A number that is never 0, by xorshift. */
static uint32_t drawn(void)
{
    static uint32_t x = 5;
    x ^= x << 13;
    x ^= x >> 17;
    x ^= x << 5;
    return x;
}

/*
 * What the line carries in a tick in which the master sends this. The first data byte of each ACK is
 * whole, has damage 1 to 3 or is missing, by turns. From NOISE_FROM on there is noise.
 */
static struct heard carried(unsigned tick, uint64_t sends)
{
    static size_t at = ANSWER;
    static uint8_t kind = NENGAPIKO_HEARD_SILENCE;
    struct heard h = {NENGAPIKO_HEARD_SILENCE, 0};
    if (sends != 0) {
        at = 0;
        return (struct heard){NENGAPIKO_HEARD_CHARACTER, (uint8_t)sends};
    }
    if (tick >= NOISE_FROM)
        return (struct heard){(uint8_t)(drawn() % 5), (uint8_t)(drawn() >> 8)};
    if (at == ANSWER)
        return h;
    h = answer[at];
    if (at == FIRST_DATA)
        h.kind = kind = (uint8_t)((kind + 1) % 5);
    at++;
    return h;
}

/* ------------------------------------------------------------------------ the masters */

struct master {
    uint64_t state[NENGAPIKO_SIZE_MASTER];
    uint64_t results[NENGAPIKO_SIZE_RESULTS];
    uint8_t frame[NENGAPIKO_SIZE_FRAME];
    uint8_t data[NENGAPIKO_SIZE_DATA];
    uint32_t refusal;
};

static struct master behind, without;

/* What was seen: characters sent, answers, refusals, and damaged frames by the kind. */
static unsigned sent, answers, refusals, damaged[3];
static unsigned failed;

static void start(struct master *m)
{
    /* The FSK profile, a primary, 3 retries, any data. */
    if (nengapiko_master_start(28, 2, 8, 33, 41, true, 3, 255, m->state) != NENGAPIKO_REFUSAL_NONE)
        abort();
}

/* Command 0 of polling address 0, in some ticks. */
static void tick_master(struct master *m, unsigned tick, struct heard h)
{
    m->refusal = nengapiko_master_tick(m->state, m->frame, m->data, h.kind, h.character,
                                       tick % ASKS_EVERY == 0, 5, 7, false, 0, 0,
                                       NENGAPIKO_NO_BYTES, 0, m->results);
}

static bool same(void)
{
    return behind.refusal == without.refusal &&
           memcmp(behind.results, without.results, sizeof behind.results) == 0 &&
           memcmp(behind.state, without.state, sizeof behind.state) == 0 &&
           memcmp(behind.frame, without.frame, sizeof behind.frame) == 0 &&
           memcmp(behind.data, without.data, sizeof behind.data) == 0;
}

/* The tick ends: what goes out is the character with its ninth bit, or nothing. */
static bool goes_out(uint64_t what)
{
    const uint8_t character = access_chip(CHARACTER_OUT, 0);
    const uint8_t out = access_chip(ENDS, 0);
    if (what == 0)
        return out == 0;
    return character == (uint8_t)what && out == 1 + ninth_bit(character);
}

static void note(const uint64_t r[NENGAPIKO_SIZE_RESULTS])
{
    sent += r[NENGAPIKO_RESULT_SENT] != 0;
    answers += r[NENGAPIKO_RESULT_TOLD] == NENGAPIKO_MASTER_TOLD_ANSWERED;
    refusals += without.refusal != NENGAPIKO_REFUSAL_NONE;
    for (size_t i = 0; i < 3; i++)
        damaged[i] += r[NENGAPIKO_RESULT_PARITY + i] != 0;
}

static void check(bool holds, const char *claim, unsigned tick)
{
    if (holds)
        return;
    failed++;
    printf("tick %u: fails: %s\n", tick, claim);
}

/* A tick of both masters, with what the line carried in the tick before. */
static void tick_both(unsigned tick, uint32_t from, struct heard before)
{
    struct heard h;
    begin_tick(before);
    h.kind = line_heard(&h.character);
    tick_master(&behind, tick, h);
    line_send(behind.results[NENGAPIKO_RESULT_SENT]);
    const bool sends = behind.results[NENGAPIKO_RESULT_SENT] != 0;
    const uint8_t control = chip_read(1);
    const uint32_t to = tick_count();
    const bool out = goes_out(behind.results[NENGAPIKO_RESULT_SENT]);

    tick_master(&without, tick, before);
    note(without.results);
    check(same(), "the same results, words and buffers", tick);
    check(control == INTERRUPTS + (sends ? REQUEST_TO_SEND : 0), "control", tick);
    check(out, "what goes out", tick);
    check((uint32_t)(to - from) == tick, "the tick count", tick);
}

int main(void)
{
    struct heard before = {NENGAPIKO_HEARD_SILENCE, 0};
    start_chip();
    const uint32_t from = tick_count();
    start(&behind);
    start(&without);
    for (unsigned tick = 0; tick < TICKS; tick++) {
        tick_both(tick, from, before);
        before = carried(tick, without.results[NENGAPIKO_RESULT_SENT]);
    }
    check(answers > 0 && refusals > 0, "an answer and a refusal", TICKS);
    check(damaged[0] > 0 && damaged[1] > 0 && damaged[2] > 0, "damage of each kind", TICKS);
    printf("driver: %d ticks, %zu accesses, %u characters sent, %u answers, %u refusals, "
           "%u, %u and %u frames with damage 1 to 3, %u failed\n",
           TICKS, accesses, sent, answers, refusals, damaged[0], damaged[1], damaged[2], failed);
    return failed == 0 ? EXIT_SUCCESS : EXIT_FAILURE;
}
