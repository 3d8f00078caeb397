/*
 * plain_master.c - a master as one writes it in C from document 01, with document 02's items 1 and 6:
 * a struct that is changed in place. It proves nothing, and is measured against the archive's.
 */
#include "plain_master.h"

#include <string.h>

enum { STX = 2, ACK = 6, BACK = 1 };
enum { NOTHING, PASSED_OVER, BROKEN, WHOLE, DAMAGED };
enum { TOLD_NOTHING, ANSWERED, GIVEN_UP, BROADCAST_SENT };

/* ------------------------------------------------------------------------ the reader */

static void pass_over(struct plain_reader *r)
{
    r->place = PASSING;
    r->gap = false;
}

static int broken(struct plain_reader *r)
{
    pass_over(r);
    return BROKEN;
}

static int silence(struct plain_reader *r)
{
    const bool inside = r->place > IDLE;
    if (inside && !r->gap) {
        r->gap = true;
        return NOTHING;
    }
    r->place = IDLE;
    r->gap = false;
    return inside ? BROKEN : NOTHING;
}

static bool begins(struct plain_reader *r, uint8_t c)
{
    const uint8_t type = c & 7;
    if ((c & 0x18) != 0 || (type != STX && type != ACK && type != BACK))
        return false;
    memset(&r->frame, 0, sizeof r->frame);
    r->frame.type = type;
    r->frame.long_address = c >> 7;
    r->frame.expansion = c >> 5 & 3;
    r->exclusive_or = c;
    r->left = r->frame.long_address ? 5 : 1;
    r->place = ADDRESS;
    return true;
}

static void address(struct plain_reader *r, uint8_t c)
{
    if (r->left == (r->frame.long_address ? 5 : 1)) {
        r->frame.primary = c >> 7;
        r->frame.burst = c >> 6 & 1;
        r->frame.address = c & 0x3F;
    } else {
        r->frame.address = r->frame.address << 8 | c;
    }
    if (--r->left > 0)
        return;
    r->left = r->frame.expansion;
    r->place = r->left > 0 ? EXPANSION : COMMAND;
}

static int count(struct plain_reader *r, uint8_t c)
{
    if (r->frame.type != STX && c < 2)
        return broken(r);
    r->frame.count = r->left = c;
    r->place = c > 0 ? DATA : CHECK;
    return NOTHING;
}

static int ends(struct plain_reader *r)
{
    r->place = IDLE;
    r->frame.wrong_check = r->exclusive_or != 0;
    const struct plain_frame *f = &r->frame;
    return f->parity || f->overrun || f->framing || f->wrong_check || f->address_damaged ? DAMAGED : WHOLE;
}

static int character(struct plain_reader *r, uint8_t c)
{
    r->gap = false;
    r->exclusive_or ^= c;
    switch (r->place) {
    case PASSING:
        return PASSED_OVER;
    case IDLE:
    case ONE_PREAMBLE:
        if (c != 0xFF)
            return broken(r);
        r->place++;
        return NOTHING;
    case PREAMBLES:
        return c == 0xFF || begins(r, c) ? NOTHING : broken(r);
    case ADDRESS:
        address(r, c);
        return NOTHING;
    case EXPANSION:
        if (--r->left == 0)
            r->place = COMMAND;
        return NOTHING;
    case COMMAND:
        r->frame.command = c;
        r->place = COUNT;
        return NOTHING;
    case COUNT:
        return count(r, c);
    case DATA:
        r->data[r->frame.count - r->left] = c;
        if (--r->left == 0)
            r->place = CHECK;
        return NOTHING;
    default:
        return ends(r);
    }
}

static int damaged(struct plain_reader *r, unsigned heard, uint8_t c)
{
    if ((r->place >= IDLE && r->place <= PREAMBLES) || r->place == COUNT)
        return broken(r);
    if (r->place == ADDRESS || r->place == EXPANSION)
        r->frame.address_damaged = true;
    else if (heard == 2)
        r->frame.parity = true;
    else if (heard == 3)
        r->frame.overrun = true;
    else
        r->frame.framing = true;
    return character(r, c);
}

static int take(struct plain_reader *r, unsigned heard, uint8_t c)
{
    if (heard == 0 || heard > 4)
        return silence(r);
    return heard == 1 ? character(r, c) : damaged(r, heard, c);
}

/* ------------------------------------------------------------------------ the master */

static void set_timer(struct plain_master *m, uint32_t next, uint32_t quiet)
{
    m->next = next;
    m->window = 0;
    m->quiet = quiet;
}

static void timer_after_break(struct plain_master *m)
{
    if (m->burst)
        set_timer(m, 0, m->quiet_time);
    else
        set_timer(m, m->rt1, 0);
}

static bool is_broadcast(const struct plain_frame *f)
{
    return f->long_address && f->address == 0;
}

static bool seeks_tag(const struct plain_frame *f)
{
    return is_broadcast(f) && f->command == 11;
}

/* A broadcast is over, and another attempt fails, if one is awaited. */
static int ended_unanswered(struct plain_master *m)
{
    if (m->stage != AWAITING)
        return TOLD_NOTHING;
    m->stage = FREE;
    if (is_broadcast(&m->message))
        return BROADCAST_SENT;
    if (m->attempts > m->retries)
        return GIVEN_UP;
    m->stage = WAITING;
    return TOLD_NOTHING;
}

static void note_burst(struct plain_master *m, const struct plain_frame *f)
{
    const bool names_device = f->long_address && !seeks_tag(f);
    if (f->type == BACK || (f->type == ACK && f->burst)) {
        m->burst = true;
        if (f->type == BACK || names_device) {
            m->noted_long = f->long_address;
            m->noted = f->address;
        }
    } else if (f->type == ACK && names_device && m->noted_long && m->noted == f->address) {
        m->burst = false;
    }
}

static void timer_after(struct plain_master *m, const struct plain_frame *f)
{
    const bool own = f->primary == m->primary;
    if (m->burst)
        set_timer(m, f->type == BACK && !own, m->quiet_time);
    else if (f->type == ACK)
        set_timer(m, own ? m->rt2 : 1, 0);
    else
        set_timer(m, m->rt1, 0);
}

static bool answers(const struct plain_master *m, const struct plain_frame *f)
{
    return m->stage == AWAITING && f->type == ACK && f->primary == m->primary &&
           (!is_broadcast(&m->message) || seeks_tag(&m->message)) &&
           f->long_address == m->message.long_address && f->address == m->message.address &&
           f->command == m->message.command && m->reader.data[0] < 0x80;
}

static int whole(struct plain_master *m)
{
    const struct plain_frame *f = &m->reader.frame;
    note_burst(m, f);
    timer_after(m, f);
    if (!answers(m, f))
        return ended_unanswered(m);
    m->stage = FREE;
    return ANSWERED;
}

/* A silent tick that counts. */
static int count_tick(struct plain_master *m, int told)
{
    bool unused = false;
    if (m->stage == AWAITING && --m->awaits == 0) {
        told = ended_unanswered(m);
        unused = m->stage == FREE;
    }
    if (m->window > 0)
        m->window--;
    if (m->next > 0 && --m->next == 0) {
        m->window = m->hold;
        m->next = m->burst ? 0 : 2 * m->rt2;
    }
    if (m->quiet > 0 && --m->quiet == 0) {
        m->burst = false;
        m->window = m->hold;
        m->next = 2 * m->rt2;
    }
    if (unused)
        m->window = 0;
    return told;
}

static void hear(struct plain_master *m, unsigned heard, uint8_t c, struct plain_results *results)
{
    results->told = TOLD_NOTHING;
    results->event = NOTHING;
    if (m->deaf)
        return;
    const bool silent = heard == 0 || heard > 4;
    results->event = take(&m->reader, heard, c);
    if (!silent)
        set_timer(m, 0, 0);
    if (results->event == WHOLE) {
        results->told = whole(m);
    } else if (results->event != NOTHING) {
        timer_after_break(m);
        results->told = ended_unanswered(m);
    }
    if (silent && !m->reader.gap)
        results->told = count_tick(m, results->told);
    if (silent && results->event == BROKEN)
        results->told = count_tick(m, results->told);
    if (results->told == GIVEN_UP)
        results->attempts = m->attempts;
}

/* ------------------------------------------------------------------------ requests and sending */

static unsigned refusal(const struct plain_master *m, const struct plain_request *q)
{
    if (q->preamble < 5 || q->preamble > 20)
        return 3;
    if (q->address > (q->long_address ? (UINT64_C(1) << 38) - 1 : 63))
        return 4;
    if (q->command == 254 || (!q->long_address && q->command != 0))
        return 5;
    if (q->count > 255)
        return 6;
    return m->stage == FREE ? 0 : 7;
}

static void write_frame(struct plain_master *m, const struct plain_request *q)
{
    uint8_t *p = m->out;
    memset(p, 0xFF, q->preamble);
    p += q->preamble;
    uint8_t *const body = p;
    *p++ = q->long_address ? 0x80 | STX : STX;
    for (int shift = q->long_address ? 32 : 0; shift >= 0; shift -= 8)
        *p++ = (uint8_t)(q->address >> shift);
    body[1] |= m->primary ? 0x80 : 0;
    *p++ = q->command;
    *p++ = (uint8_t)q->count;
    if (q->count > 0)
        memcpy(p, q->data, q->count);
    p += q->count;
    uint8_t check = 0;
    for (const uint8_t *b = body; b < p; b++)
        check ^= *b;
    *p++ = check;
    m->length = (uint32_t)(p - m->out);
}

static unsigned ask(struct plain_master *m, const struct plain_request *q)
{
    const unsigned why = refusal(m, q);
    if (why != 0)
        return why;
    write_frame(m, q);
    m->message = (struct plain_frame){.type = STX, .long_address = q->long_address, .address = q->address, .command = q->command};
    m->attempts = 0;
    m->stage = WAITING;
    return 0;
}

static int send(struct plain_master *m)
{
    if (m->stage == WAITING && m->window > 0) {
        m->attempts++;
        m->sent = 0;
    } else if (m->stage != SENDING) {
        m->deaf = false;
        return -1;
    }
    m->deaf = true;
    pass_over(&m->reader);
    const uint8_t c = m->out[m->sent++];
    if (m->sent == m->length) {
        timer_after_break(m);
        m->stage = AWAITING;
        m->awaits = m->rt1;
    } else {
        set_timer(m, 0, 0);
        m->stage = SENDING;
    }
    return c;
}

void plain_start(struct plain_master *m, bool primary, uint32_t retries, uint8_t *out, uint8_t *data)
{
    memset(m, 0, sizeof *m);
    m->out = out;
    m->reader.data = data;
    m->hold = 2;
    m->rt2 = 8;
    m->rt1 = primary ? 33 : 41;
    m->quiet_time = primary ? 66 : 74;
    m->retries = retries;
    m->primary = primary;
    m->deaf = true;
    m->next = m->rt1;
}

/* Not inlined: a call a tick, as a program calls the archive's. */
__attribute__((noinline)) unsigned plain_tick(struct plain_master *m, unsigned heard, uint8_t c,
                                              const struct plain_request *request,
                                              struct plain_results *results)
{
    hear(m, heard, c, results);
    const unsigned why = request ? ask(m, request) : 0;
    results->sent = send(m);
    return why;
}

const struct plain_request *plain_called(uint8_t first)
{
    static const uint8_t tag[6];
    static const struct plain_request reading = {.preamble = 5, .long_address = true, .address = 2, .command = 3};
    static const struct plain_request find = {.preamble = 5, .long_address = true, .command = 11, .data = tag, .count = 6};
    return first % 32 == 1 ? &reading : first % 32 == 2 ? &find : NULL;
}

size_t plain_master_ticks(const uint8_t *recording, size_t size, uint8_t *events, size_t room)
{
    struct plain_master m;
    struct plain_results results;
    uint8_t out[284], data[255];
    plain_start(&m, true, 3, out, data);
    size_t ticks = 0;
    for (; ticks < size / 2 && ticks < room; ticks++) {
        const uint8_t first = recording[2 * ticks];
        plain_tick(&m, first / 32, recording[2 * ticks + 1], plain_called(first), &results);
        events[ticks] = (uint8_t)(results.sent >= 0 ? 4 : results.told);
    }
    return ticks;
}
