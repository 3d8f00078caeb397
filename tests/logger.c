/*
 * logger.c - a small logger over nengapiko.h. A primary polls three transmitters, a handheld is the
 * secondary, and a monitor lists the frames on the pair; all of them run here, through an array of
 * characters that is the pair. Masters start out of step and begin together once, an answer is
 * shorted, a transmitter is unplugged and plugged in again, and one is told to burst and to stop. The
 * primary's host and the handheld's share a table of the newest readings, which is taken and cleared
 * twice.
 * What is printed is held against tests/data/logger/log.txt, whose README says where that is from.
 */
#include "nengapiko.h"

#include <inttypes.h>
#include <stdio.h>
#include <stdlib.h>
#include <string.h>

enum { TICKS = 2150, TRANSMITTERS = 3, PARTIES = 2 + TRANSMITTERS };

/* The FSK profile. */
enum { STO = 28, HOLD = 2, RT2 = 8, RT1_PRIMARY = 33, RT1_SECONDARY = 41 };
enum { RETRIES = 3, PREAMBLE = 5, REVISION = 7, LIMIT = 255 };

/* Commands: who are you, your reading, burst on (data 1) or off (data 0). Their data are this program's
 * own: an identity is the unique address alone, where the standard's command 0 has more, in another order. */
enum { IDENTITY = 0, READING = 3, BURST_CONTROL = 109 };
enum { STATUS_BYTES = 2, ADDRESS_BYTES = 5 };

/* ------------------------------------------------------------------------ the pair */

struct heard {
    uint8_t kind; /* an enum nengapiko_heard */
    uint8_t character;
};

/* What the pair carries in each tick. */
static struct heard pair[TICKS];

struct span {
    unsigned from, to;
};

/* The pair is shorted under an answer; transmitter 1 is unplugged. */
static const struct span shorted = {329, 331};
static const struct span unplugged = {640, 1250};
enum { UNPLUGGED = 1 };

static bool within(struct span s, unsigned tick)
{
    return s.from <= tick && tick < s.to;
}

/* Silence, the character of a lone sender, or the damage of joined characters. */
static struct heard joined(const uint64_t sent[PARTIES], unsigned tick)
{
    struct heard h = {NENGAPIKO_HEARD_SILENCE, 0};
    for (size_t i = 0; i < PARTIES; i++) {
        if (sent[i] == 0)
            continue;
        if (h.kind == NENGAPIKO_HEARD_SILENCE)
            h = (struct heard){NENGAPIKO_HEARD_CHARACTER, (uint8_t)sent[i]};
        else
            h = (struct heard){NENGAPIKO_HEARD_FRAMING, 0};
    }
    if (h.kind == NENGAPIKO_HEARD_CHARACTER && within(shorted, tick))
        h.kind = NENGAPIKO_HEARD_FRAMING;
    return h;
}

/* What the pair carried in the tick before. */
static struct heard before(unsigned tick)
{
    return tick == 0 ? (struct heard){NENGAPIKO_HEARD_SILENCE, 0} : pair[tick - 1];
}

/* ------------------------------------------------------------------------ the log */

static void log_head(unsigned tick, const char *who)
{
    printf("%4u %-13s ", tick, who);
}

static void log_bytes(const uint8_t *bytes, uint64_t count)
{
    for (uint64_t i = 0; i < count; i++)
        printf(" %02x", bytes[i]);
    printf("\n");
}

static const char *type_name(uint64_t type)
{
    return type == NENGAPIKO_TYPE_STX ? "STX" : type == NENGAPIKO_TYPE_ACK ? "ACK" : "BACK";
}

/* The frame of a tick: its type, master, burst flag, address, command and data. */
static void log_frame(const uint64_t r[NENGAPIKO_SIZE_RESULTS], const uint8_t *data)
{
    printf("%-4s %s%s %s %" PRIx64 " command %" PRIu64 ":", type_name(r[NENGAPIKO_RESULT_TYPE]),
           r[NENGAPIKO_RESULT_PRIMARY] ? "primary" : "secondary",
           r[NENGAPIKO_RESULT_BURST] ? " burst" : "", r[NENGAPIKO_RESULT_LONG] ? "unique" : "polling",
           r[NENGAPIKO_RESULT_ADDRESS], r[NENGAPIKO_RESULT_COMMAND]);
    log_bytes(data, r[NENGAPIKO_RESULT_COUNT]);
}

/* ------------------------------------------------------------------------ the table */

/* The newest readings, by transmitter and command; the hosts of both masters share them. */
enum { ROWS = 4 };
static struct nengapiko_reading rows[ROWS];
static uint8_t area[ROWS * NENGAPIKO_SIZE_DATA];

/* What a master's tick told, its host enters in that tick; the pair carried its end in the one before. */
static void enter(unsigned tick, const uint64_t r[NENGAPIKO_SIZE_RESULTS], const uint8_t *data)
{
    if (r[NENGAPIKO_RESULT_EVENT] == NENGAPIKO_EVENT_WHOLE &&
        nengapiko_readings_enter(rows, ROWS, area, sizeof area, tick - 1, r, data) != NENGAPIKO_REFUSAL_NONE)
        abort();
}

/* ------------------------------------------------------------------------ masters */

/* A request of a master's host. */
struct request {
    bool long_address;
    uint64_t address;
    uint8_t command;
    uint8_t data[1];
    size_t count;
};

struct master {
    const char *name;
    unsigned start; /* the tick in which it is switched on */
    bool primary;
    bool in_hand;
    size_t asked;    /* how many requests were taken */
    uint64_t unique; /* of the transmitter that told its identity last */
    uint64_t state[NENGAPIKO_SIZE_MASTER];
    uint8_t frame[NENGAPIKO_SIZE_FRAME];
    uint8_t data[NENGAPIKO_SIZE_DATA];
};

static struct master primary = {.name = "primary", .start = 8, .primary = true};
static struct master handheld = {.name = "handheld", .start = 0};

/* The unique addresses that the primary has learned, by polling address. */
static uint64_t known[TRANSMITTERS];

/* The primary asks each transmitter who it is, then for readings, by turns. */
static struct request poll(size_t asked)
{
    const size_t at = asked % TRANSMITTERS;
    if (known[at] == 0)
        return (struct request){.address = at, .command = IDENTITY};
    return (struct request){.long_address = true, .address = known[at], .command = READING};
}

/* The handheld asks transmitter 2 who it is, and in these ticks to burst and to stop. */
static const unsigned handheld_asks[] = {41, 1400, 1900};
enum { HANDHELD_REQUESTS = sizeof handheld_asks / sizeof *handheld_asks };

static struct request handheld_request(size_t asked)
{
    if (asked == 0)
        return (struct request){.address = 2, .command = IDENTITY};
    return (struct request){.long_address = true,
                            .address = handheld.unique,
                            .command = BURST_CONTROL,
                            .data = {asked == 1},
                            .count = 1};
}

static bool is_due(const struct master *m, unsigned tick)
{
    if (m->in_hand)
        return false;
    if (m->primary)
        return tick >= 41;
    return m->asked < HANDHELD_REQUESTS && tick >= handheld_asks[m->asked];
}

/* The unique address that an identity carries, most significant byte first. */
static uint64_t identity(const uint8_t *data)
{
    uint64_t address = 0;
    for (size_t i = 0; i < ADDRESS_BYTES; i++)
        address = address << 8 | data[STATUS_BYTES + i];
    return address;
}

static void answered(struct master *m, const uint64_t r[NENGAPIKO_SIZE_RESULTS])
{
    if (r[NENGAPIKO_RESULT_COMMAND] == IDENTITY &&
        r[NENGAPIKO_RESULT_COUNT] == STATUS_BYTES + ADDRESS_BYTES) {
        m->unique = identity(m->data);
        if (m->primary)
            known[r[NENGAPIKO_RESULT_ADDRESS]] = m->unique;
    }
    printf("answered by ");
    log_frame(r, m->data);
}

static void told(struct master *m, unsigned tick, const uint64_t r[NENGAPIKO_SIZE_RESULTS])
{
    const uint64_t what = r[NENGAPIKO_RESULT_TOLD];
    if (what == NENGAPIKO_MASTER_TOLD_NOTHING)
        return;
    m->in_hand = false;
    log_head(tick, m->name);
    if (what == NENGAPIKO_MASTER_TOLD_ANSWERED)
        answered(m, r);
    else if (what == NENGAPIKO_MASTER_TOLD_GIVEN_UP)
        printf("given up after %" PRIu64 " attempts\n", r[NENGAPIKO_RESULT_ATTEMPTS]);
    else
        printf("broadcast sent\n");
}

/* A burst is a reading too, whichever master it is for. */
static void hears(const struct master *m, unsigned tick, const uint64_t r[NENGAPIKO_SIZE_RESULTS])
{
    if (!m->primary || r[NENGAPIKO_RESULT_EVENT] != NENGAPIKO_EVENT_WHOLE ||
        r[NENGAPIKO_RESULT_TYPE] != NENGAPIKO_TYPE_BACK)
        return;
    log_head(tick, m->name);
    printf("hears ");
    log_frame(r, m->data);
}

/* What the tick's request came to. */
static void requested(struct master *m, unsigned tick, const struct request *q, uint32_t refusal)
{
    log_head(tick, m->name);
    if (refusal != NENGAPIKO_REFUSAL_NONE) {
        printf("refused with %" PRIu32 "\n", refusal);
        return;
    }
    m->in_hand = true;
    m->asked++;
    printf("asks command %u of %s %" PRIx64 "\n", q->command, q->long_address ? "unique" : "polling",
           q->address);
}

static void start_master(struct master *m)
{
    if (nengapiko_master_start(STO, HOLD, RT2, RT1_PRIMARY, RT1_SECONDARY, m->primary, RETRIES,
                               LIMIT, m->state) != NENGAPIKO_REFUSAL_NONE)
        abort();
}

/* A tick of a master: 0, or 256 and the character that it sends. */
static uint64_t master_tick(struct master *m, unsigned tick)
{
    uint64_t results[NENGAPIKO_SIZE_RESULTS];
    const struct heard h = before(tick);
    const bool asks = is_due(m, tick);
    const struct request q = m->primary ? poll(m->asked) : handheld_request(m->asked);
    if (tick < m->start)
        return 0;
    if (tick == m->start)
        start_master(m);
    const uint32_t refusal =
        nengapiko_master_tick(m->state, m->frame, m->data, h.kind, h.character, asks, PREAMBLE,
                              REVISION, q.long_address, q.address, q.command, q.data, q.count, results);
    told(m, tick, results);
    hears(m, tick, results);
    enter(tick, results, m->data);
    if (asks)
        requested(m, tick, &q, refusal);
    return results[NENGAPIKO_RESULT_SENT];
}

/* ------------------------------------------------------------------------ transmitters */

struct transmitter {
    uint8_t polling_address;
    uint64_t unique_address;
    unsigned answers_after; /* how many ticks its host takes */
    unsigned answers_at;    /* the tick of its answer, or 0 */
    uint8_t command;        /* of the request in hand */
    bool to_primary;        /* whether that is the primary's */
    bool burst_on;          /* that it wishes, of burst control */
    bool changed;           /* the handheld has changed it, which the primary does not know */
    uint64_t state[NENGAPIKO_SIZE_DEVICE];
    uint8_t frame[NENGAPIKO_SIZE_FRAME];
    uint8_t data[NENGAPIKO_SIZE_DATA];
    uint8_t content[NENGAPIKO_SIZE_DATA];
};

static struct transmitter transmitters[TRANSMITTERS] = {
    {.polling_address = 0, .unique_address = UINT64_C(0x2612345678), .answers_after = 0},
    {.polling_address = 1, .unique_address = UINT64_C(0x26000000A1), .answers_after = 3},
    {.polling_address = 2, .unique_address = 0x2A, .answers_after = 20},
};

/* A host's call: an enum nengapiko_device_call, with its command and data. */
struct call {
    uint8_t kind;
    uint8_t command;
    uint8_t data[STATUS_BYTES + ADDRESS_BYTES];
    size_t count;
};

/* The travel of the bearing in a tick, in hundredths of a millimetre. */
static unsigned travel(const struct transmitter *t, unsigned tick)
{
    return 1000 * (t->polling_address + 1u) + tick / 100;
}

/* The status of an answer: a fixed loop current, which is for all, and what is for the one that asked. */
enum { LOOP_FIXED = 0x08 };

static uint8_t status(const struct transmitter *t)
{
    return t->changed && t->to_primary ? LOOP_FIXED | NENGAPIKO_OWN_BIT_CONFIGURATION_CHANGED : LOOP_FIXED;
}

static void put_travel(struct call *c, const struct transmitter *t, unsigned tick)
{
    c->data[STATUS_BYTES] = (uint8_t)(travel(t, tick) >> 8);
    c->data[STATUS_BYTES + 1] = (uint8_t)travel(t, tick);
    c->count = STATUS_BYTES + 2;
}

/* The answer to the request in hand. */
static struct call answer(const struct transmitter *t, unsigned tick)
{
    struct call c = {.kind = NENGAPIKO_DEVICE_CALL_ANSWER, .data = {0, status(t)}, .count = STATUS_BYTES};
    if (t->command == IDENTITY) {
        for (size_t i = 0; i < ADDRESS_BYTES; i++)
            c.data[STATUS_BYTES + i] = (uint8_t)(t->unique_address >> 8 * (ADDRESS_BYTES - 1 - i));
        c.count += ADDRESS_BYTES;
    } else if (t->command == READING) {
        put_travel(&c, t, tick);
    } else if (t->command == BURST_CONTROL) {
        c.kind = t->burst_on ? NENGAPIKO_DEVICE_CALL_ANSWER_BURST_ON
                             : NENGAPIKO_DEVICE_CALL_ANSWER_BURST_OFF;
    }
    return c;
}

/* Its answer when that is due; else its reading as burst content, every hundred ticks, by turns with more
 * status available. */
static struct call host_call(struct transmitter *t, unsigned tick)
{
    struct call c = {.kind = NENGAPIKO_DEVICE_CALL_NOTHING, .command = READING};
    if (t->answers_at != 0 && tick == t->answers_at) {
        t->answers_at = 0;
        c = answer(t, tick);
        t->changed = t->changed || t->command == BURST_CONTROL;
        return c;
    }
    if (tick % 100 == 0) {
        c.kind = NENGAPIKO_DEVICE_CALL_BURST_CONTENT;
        c.data[1] = tick % 200 == 0 ? LOOP_FIXED | NENGAPIKO_OWN_BIT_MORE_STATUS : LOOP_FIXED;
        put_travel(&c, t, tick);
    }
    return c;
}

static void start_transmitter(struct transmitter *t)
{
    if (nengapiko_device_start(STO, HOLD, RT2, RT1_PRIMARY, RT1_SECONDARY, PREAMBLE,
                               t->polling_address, t->unique_address, LIMIT,
                               t->state) != NENGAPIKO_REFUSAL_NONE)
        abort();
}

/* A request was told: its host answers in a tick of its own choice. */
static void asked(struct transmitter *t, unsigned tick, const uint64_t r[NENGAPIKO_SIZE_RESULTS])
{
    t->command = (uint8_t)r[NENGAPIKO_RESULT_COMMAND];
    t->to_primary = r[NENGAPIKO_RESULT_PRIMARY] == 1;
    t->burst_on = r[NENGAPIKO_RESULT_COUNT] > 0 && t->data[0] == 1;
    t->answers_at = tick + 1 + t->answers_after;
}

/* A tick of a transmitter: 0, or 256 and the character that it sends. */
static uint64_t transmitter_tick(struct transmitter *t, unsigned tick)
{
    uint64_t results[NENGAPIKO_SIZE_RESULTS];
    char name[sizeof "transmitter 0"];
    const bool cut = t->polling_address == UNPLUGGED && within(unplugged, tick);
    const struct heard h = cut ? (struct heard){NENGAPIKO_HEARD_SILENCE, 0} : before(tick);
    const struct call c = host_call(t, tick);
    if (tick == 0)
        start_transmitter(t);
    const uint32_t refusal =
        nengapiko_device_tick(t->state, t->frame, t->data, t->content, h.kind, h.character, c.kind,
                              c.command, c.data, c.count, results);
    if (results[NENGAPIKO_RESULT_TOLD] == NENGAPIKO_DEVICE_TOLD_REQUEST)
        asked(t, tick, results);
    if (refusal != NENGAPIKO_REFUSAL_NONE) {
        snprintf(name, sizeof name, "transmitter %u", t->polling_address % 10u);
        log_head(tick, name);
        printf("refused with %" PRIu32 "\n", refusal);
    }
    return cut ? 0 : results[NENGAPIKO_RESULT_SENT];
}

/* ------------------------------------------------------------------------ the monitor */

/* Every frame on the pair, whole, damaged or broken. */
static void monitor_tick(unsigned tick)
{
    static uint64_t state[NENGAPIKO_SIZE_READER];
    static uint8_t data[NENGAPIKO_SIZE_DATA];
    uint64_t results[NENGAPIKO_SIZE_RESULTS];
    const struct heard h = before(tick);
    if (tick == 0)
        nengapiko_reader_start(state);
    nengapiko_reader_tick(state, data, h.kind, h.character, results);
    const uint64_t event = results[NENGAPIKO_RESULT_EVENT];
    if (event < NENGAPIKO_EVENT_BROKEN)
        return;
    log_head(tick, "pair");
    if (event == NENGAPIKO_EVENT_BROKEN) {
        printf("broken\n");
        return;
    }
    printf("%s", event == NENGAPIKO_EVENT_DAMAGED ? "damaged " : "");
    log_frame(results, data);
}

/* ------------------------------------------------------------------------ the analyst */

/* The table is taken in these ticks: the reading of each transmitter that is known, and all is cleared. */
static bool takes(unsigned tick)
{
    return tick == 1300 || tick == TICKS - 1;
}

static void take(unsigned tick)
{
    for (size_t t = 0; t < TRANSMITTERS; t++) {
        const size_t i = nengapiko_readings_find(rows, ROWS, known[t], READING);
        log_head(tick, "table");
        if (i == ROWS) {
            printf("no reading of unique %" PRIx64 "\n", known[t]);
            continue;
        }
        printf("row %zu, unique %" PRIx64 " command %u in tick %" PRIu64 ":", i, rows[i].address,
               rows[i].command, rows[i].tick);
        log_bytes(&area[rows[i].place], rows[i].count);
        log_head(tick, "table");
        printf("row %zu, status for the primary %02x, for the handheld %02x\n", i,
               nengapiko_readings_status(area[rows[i].place + 1], rows[i].primary),
               nengapiko_readings_status(area[rows[i].place + 1], rows[i].secondary));
    }
    nengapiko_readings_clear(rows, ROWS);
}

int main(void)
{
    nengapiko_readings_clear(rows, ROWS);
    for (unsigned tick = 0; tick < TICKS; tick++) {
        uint64_t sent[PARTIES];
        monitor_tick(tick);
        sent[0] = master_tick(&primary, tick);
        sent[1] = master_tick(&handheld, tick);
        for (size_t i = 0; i < TRANSMITTERS; i++)
            sent[2 + i] = transmitter_tick(&transmitters[i], tick);
        pair[tick] = joined(sent, tick);
        if (takes(tick))
            take(tick);
    }
    return EXIT_SUCCESS;
}
