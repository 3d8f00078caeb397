/*
 * plain_words.c - the plain master with its state in 64-bit words that the caller lends, one for each
 * field, as nengapiko_master_tick has it: every content of the words is some state, and a tick leaves
 * the words of the state behind it. It shows what that asks of any master.
 */
#include "plain_master.h"

enum { WORDS = 38 };

static struct plain_frame frame_from(const uint64_t *w)
{
    return (struct plain_frame){
        .address = w[0],
        .type = (uint8_t)w[1],
        .expansion = (uint8_t)w[2],
        .command = (uint8_t)w[3],
        .count = (uint8_t)w[4],
        .long_address = w[5] == 1,
        .primary = w[6] == 1,
        .burst = w[7] == 1,
        .parity = w[8] == 1,
        .overrun = w[9] == 1,
        .framing = w[10] == 1,
        .wrong_check = w[11] == 1,
        .address_damaged = w[12] == 1,
    };
}

static void frame_to(const struct plain_frame *f, uint64_t *w)
{
    w[0] = f->address;
    w[1] = f->type;
    w[2] = f->expansion;
    w[3] = f->command;
    w[4] = f->count;
    w[5] = f->long_address;
    w[6] = f->primary;
    w[7] = f->burst;
    w[8] = f->parity;
    w[9] = f->overrun;
    w[10] = f->framing;
    w[11] = f->wrong_check;
    w[12] = f->address_damaged;
}

static struct plain_reader reader_from(const uint64_t *w, uint8_t *data)
{
    struct plain_reader r = {
        .frame = frame_from(w),
        .place = w[13] <= CHECK ? (enum plain_place)w[13] : PASSING,
        .left = (uint8_t)w[14],
        .exclusive_or = (uint8_t)w[15],
        .gap = w[16] == 1,
        .data = data,
    };
    if (r.place == DATA && r.left > r.frame.count)
        r.left = r.frame.count;
    return r;
}

static void reader_to(const struct plain_reader *r, uint64_t *w)
{
    frame_to(&r->frame, w);
    w[13] = r->place;
    w[14] = r->left;
    w[15] = r->exclusive_or;
    w[16] = r->gap;
}

static struct plain_master master_from(const uint64_t *w, uint8_t *out, uint8_t *data)
{
    return (struct plain_master){
        .hold = (uint32_t)w[0],
        .rt2 = (uint32_t)w[1],
        .rt1 = (uint32_t)w[2],
        .quiet_time = (uint32_t)w[3],
        .retries = (uint32_t)w[4],
        .next = (uint32_t)w[5],
        .window = (uint32_t)w[6],
        .quiet = (uint32_t)w[7],
        .primary = w[8] == 1,
        .deaf = w[9] == 1,
        .burst = w[10] == 1,
        .noted_long = w[11] == 1,
        .noted = w[12],
        .stage = w[13] <= AWAITING ? (enum plain_stage)w[13] : FREE,
        .awaits = (uint32_t)w[14],
        .attempts = (uint32_t)w[15],
        .length = w[16] <= 284 ? (uint32_t)w[16] : 284,
        .sent = w[17] < 284 ? (uint32_t)w[17] : 0,
        .message = {.type = 2, .long_address = w[18] == 1, .address = w[19], .command = (uint8_t)w[20]},
        .reader = reader_from(w + 21, data),
        .out = out,
    };
}

static void master_to(const struct plain_master *m, uint64_t *w)
{
    w[0] = m->hold;
    w[1] = m->rt2;
    w[2] = m->rt1;
    w[3] = m->quiet_time;
    w[4] = m->retries;
    w[5] = m->next;
    w[6] = m->window;
    w[7] = m->quiet;
    w[8] = m->primary;
    w[9] = m->deaf;
    w[10] = m->burst;
    w[11] = m->noted_long;
    w[12] = m->noted;
    w[13] = m->stage;
    w[14] = m->awaits;
    w[15] = m->attempts;
    w[16] = m->length;
    w[17] = m->sent;
    w[18] = m->message.long_address;
    w[19] = m->message.address;
    w[20] = m->message.command;
    reader_to(&m->reader, w + 21);
}

/* Not inlined: a call a tick, as a program calls the archive's. */
__attribute__((noinline)) static unsigned words_tick(uint64_t *words, uint8_t *out, uint8_t *data,
                                                     unsigned heard, uint8_t c,
                                                     const struct plain_request *request,
                                                     struct plain_results *results)
{
    struct plain_master m = master_from(words, out, data);
    const unsigned why = plain_tick(&m, heard, c, request, results);
    master_to(&m, words);
    return why;
}

size_t plain_words_ticks(const uint8_t *recording, size_t size, uint8_t *events, size_t room)
{
    struct plain_master m;
    struct plain_results results;
    uint64_t words[WORDS];
    uint8_t out[284], data[255];
    plain_start(&m, true, 3, out, data);
    master_to(&m, words);
    size_t ticks = 0;
    for (; ticks < size / 2 && ticks < room; ticks++) {
        const uint8_t first = recording[2 * ticks];
        words_tick(words, out, data, first / 32, recording[2 * ticks + 1], plain_called(first), &results);
        events[ticks] = (uint8_t)(results.sent >= 0 ? 4 : results.told);
    }
    return ticks;
}
