/* plain_master.h - a master of document 01 in plain C, to measure against. */
#ifndef PLAIN_MASTER_H
#define PLAIN_MASTER_H

#include <stdbool.h>
#include <stddef.h>
#include <stdint.h>

/* What the reader expects next. */
enum plain_place { PASSING, IDLE, ONE_PREAMBLE, PREAMBLES, ADDRESS, EXPANSION, COMMAND, COUNT, DATA, CHECK };

struct plain_frame {
    uint64_t address;
    uint8_t type, expansion, command, count;
    bool long_address, primary, burst;
    bool parity, overrun, framing, wrong_check, address_damaged;
};

struct plain_reader {
    struct plain_frame frame;
    enum plain_place place;
    uint8_t left; /* of address, expansion or data */
    uint8_t exclusive_or;
    bool gap; /* the tick before was silent, inside a frame, and passed over */
    uint8_t *data; /* 255 bytes that are lent */
};

enum plain_stage { FREE, WAITING, SENDING, AWAITING };

struct plain_master {
    uint32_t hold, rt2, rt1, quiet_time, retries;
    uint32_t next, window, quiet; /* silent ticks; 0 is a timer that does not run */
    bool primary, deaf, burst, noted_long;
    uint64_t noted;
    enum plain_stage stage;
    uint32_t awaits, attempts;
    struct plain_frame message;
    uint32_t length, sent;
    struct plain_reader reader;
    uint8_t *out; /* 284 bytes that are lent */
};

/* What a tick tells; the frame is in the master's reader. */
struct plain_results {
    int sent; /* a character, or -1 */
    int told; /* 0 nothing, 1 answered, 2 given up, 3 broadcast sent */
    int event; /* 0 nothing, 1 passed over, 2 broken, 3 whole, 4 damaged */
    uint32_t attempts;
};

struct plain_request {
    size_t preamble;
    bool long_address;
    uint64_t address;
    uint8_t command;
    const uint8_t *data;
    size_t count;
};

/* The host's calls in a recording, as tests/ticked.rs has them. */
const struct plain_request *plain_called(uint8_t first);

/* A master with FSK. */
void plain_start(struct plain_master *m, bool primary, uint32_t retries, uint8_t *out, uint8_t *data);

/* A tick; heard is 0 silence, 1 a character, 2 to 4 one with damage 1 to 3; request may be NULL. Returns its refusal, or 0. */
unsigned plain_tick(struct plain_master *m, unsigned heard, uint8_t character,
                    const struct plain_request *request, struct plain_results *results);

/* A primary with 3 retries over a recording, with the numbers of tests/ticked.rs. */
size_t plain_master_ticks(const uint8_t *recording, size_t size, uint8_t *events, size_t room);

/* The same with its state in words between the ticks (plain_words.c). */
size_t plain_words_ticks(const uint8_t *recording, size_t size, uint8_t *events, size_t room);

#endif
