/*
 * frame_c.c - the frame writer and reader as a C program calls them: every
 * refusal at its edges, and what each call leaves in the buffers it is lent.
 */
#include "nengapiko.h"

#include <stdio.h>
#include <stdlib.h>
#include <string.h>

#define POLLING_LARGEST UINT64_C(63)
#define UNIQUE_LARGEST ((UINT64_C(1) << 38) - 1)
#define UNTOUCHED UINT64_C(0xA5A55A5A0FF0F00F)

/* The writer's buffer lies between two guards that belong to nobody. */
enum { GUARD = 16, ROOM = 320, ARENA = GUARD + ROOM + GUARD };

struct frame {
    size_t preamble;
    uint8_t type;
    bool long_address;
    bool primary;
    bool burst;
    uint64_t address;
    uint8_t command;
    size_t count; /* how many bytes of data[] it carries */
};

static const uint8_t types[] = {NENGAPIKO_TYPE_STX, NENGAPIKO_TYPE_ACK, NENGAPIKO_TYPE_BACK};
enum { TYPES = sizeof types };

static const struct frame usual = {
    .preamble = 5, .type = NENGAPIKO_TYPE_STX, .primary = true, .address = 3, .command = 9, .count = 4};

static uint8_t data[1000];
static uint8_t arena[ARENA];
static unsigned long passed;
static unsigned long failed;

static void check(bool holds, const char *claim, int line)
{
    if (holds) {
        passed++;
    } else {
        failed++;
        printf("%s:%d: fails: %s\n", __FILE__, line, claim);
    }
}

#define CHECK(condition) check(condition, #condition, __LINE__)

static void fill_with_pattern(uint8_t *bytes, size_t size)
{
    for (size_t i = 0; i < size; i++)
        bytes[i] = (uint8_t)(i * 89 + 0x35);
}

static uint8_t exclusive_or(const uint8_t *bytes, size_t size)
{
    uint8_t sum = 0;
    for (size_t i = 0; i < size; i++)
        sum = (uint8_t)(sum ^ bytes[i]);
    return sum;
}

/* The frame as document 01 lists its bytes, with expansion bytes; returns how many they are. */
static size_t compose(struct frame f, size_t expansion, uint8_t *bytes)
{
    size_t n = 0;
    while (n < f.preamble)
        bytes[n++] = 0xFF;
    bytes[n++] = (uint8_t)((f.long_address ? 0x80 : 0) | (int)(expansion << 5) | f.type);
    const int flags = (f.primary ? 0x80 : 0) | (f.burst ? 0x40 : 0);
    if (f.long_address) {
        bytes[n++] = (uint8_t)(flags | (int)(f.address >> 32));
        for (int shift = 24; shift > 0; shift -= 8)
            bytes[n++] = (uint8_t)(f.address >> shift);
        bytes[n++] = (uint8_t)f.address;
    } else {
        bytes[n++] = (uint8_t)(flags | (int)f.address);
    }
    for (size_t i = 0; i < expansion; i++)
        bytes[n++] = (uint8_t)(0xE0 + i);
    bytes[n++] = f.command;
    bytes[n++] = (uint8_t)f.count;
    memcpy(bytes + n, data, f.count);
    n += f.count;
    bytes[n] = exclusive_or(bytes + f.preamble, n - f.preamble);
    return n + 1;
}

static size_t length_of(struct frame f)
{
    return f.preamble + (f.long_address ? 9 : 5) + f.count;
}

static uint32_t write_frame(struct frame f, size_t size, size_t place, size_t *end)
{
    return nengapiko_write(f.preamble, f.type, f.long_address, f.primary, f.burst, f.address,
                           f.command, data, f.count, arena + GUARD, size, place, end);
}

static void write_taken(struct frame f, size_t size, size_t place, int line)
{
    uint8_t expected[ARENA];
    fill_with_pattern(arena, ARENA);
    fill_with_pattern(expected, ARENA);
    const size_t first = GUARD + place;
    const size_t length = compose(f, 0, expected + first);
    const size_t behind = first + length;
    size_t end = (size_t)UNTOUCHED;
    check(write_frame(f, size, place, &end) == NENGAPIKO_REFUSAL_NONE, "the write is taken", line);
    check(end == place + length, "end is the place behind the check byte", line);
    check(memcmp(arena + first, expected + first, length) == 0, "the frame is written", line);
    check(memcmp(arena, expected, first) == 0 &&
              memcmp(arena + behind, expected + behind, ARENA - behind) == 0,
          "no byte outside the frame changed", line);
}

static void write_refused(uint32_t answer, struct frame f, size_t size, size_t place, int line)
{
    uint8_t expected[ARENA];
    fill_with_pattern(arena, ARENA);
    fill_with_pattern(expected, ARENA);
    size_t end = (size_t)UNTOUCHED;
    check(write_frame(f, size, place, &end) == answer, "the write is refused as expected", line);
    check(end == (size_t)UNTOUCHED, "a refused write leaves end", line);
    check(memcmp(arena, expected, ARENA) == 0, "a refused write leaves the buffer", line);
}

#define WRITE_TAKEN(frame, size, place) write_taken(frame, size, place, __LINE__)
#define WRITE_REFUSED(answer, frame, size, place) \
    write_refused(answer, frame, size, place, __LINE__)

/* What a read leaves, with a number on each side of the fields that is not theirs. */
struct reading {
    uint32_t answer;
    uint64_t before;
    uint64_t fields[NENGAPIKO_SIZE_FIELDS];
    uint64_t behind;
};

static struct reading read_bytes(const uint8_t *bytes, size_t size)
{
    struct reading r = {.before = UNTOUCHED, .behind = UNTOUCHED};
    for (size_t i = 0; i < NENGAPIKO_SIZE_FIELDS; i++)
        r.fields[i] = UNTOUCHED;
    r.answer = nengapiko_read(bytes, size, r.fields);
    return r;
}

static void read_taken(struct frame f, size_t expansion, const uint8_t *bytes, size_t size,
                       int line)
{
    const struct reading r = read_bytes(bytes, size);
    const size_t end = length_of(f) + expansion;
    const size_t start = end - 1 - f.count;
    check(r.answer == NENGAPIKO_REFUSAL_NONE, "the read is taken", line);
    check(r.fields[NENGAPIKO_FIELD_PREAMBLE] == f.preamble, "preamble", line);
    check(r.fields[NENGAPIKO_FIELD_TYPE] == f.type, "type", line);
    check(r.fields[NENGAPIKO_FIELD_LONG] == f.long_address, "long address", line);
    check(r.fields[NENGAPIKO_FIELD_PRIMARY] == f.primary, "master bit", line);
    check(r.fields[NENGAPIKO_FIELD_BURST] == f.burst, "burst flag", line);
    check(r.fields[NENGAPIKO_FIELD_ADDRESS] == f.address, "address", line);
    check(r.fields[NENGAPIKO_FIELD_EXPANSION] == expansion, "expansion bytes", line);
    check(r.fields[NENGAPIKO_FIELD_COMMAND] == f.command, "command", line);
    check(r.fields[NENGAPIKO_FIELD_START] == start, "start of the data", line);
    check(r.fields[NENGAPIKO_FIELD_COUNT] == f.count, "count", line);
    check(r.fields[NENGAPIKO_FIELD_END] == end, "end", line);
    check(r.before == UNTOUCHED && r.behind == UNTOUCHED, "a read fills the fields alone", line);
}

static void read_refused(uint32_t answer, const uint8_t *bytes, size_t size, int line)
{
    const struct reading r = read_bytes(bytes, size);
    bool untouched = r.before == UNTOUCHED && r.behind == UNTOUCHED;
    for (size_t i = 0; i < NENGAPIKO_SIZE_FIELDS; i++)
        untouched = untouched && r.fields[i] == UNTOUCHED;
    check(r.answer == answer, "the read is refused as expected", line);
    check(untouched, "a refused read leaves the fields", line);
}

#define READ_TAKEN(frame, expansion, bytes, size) \
    read_taken(frame, expansion, bytes, size, __LINE__)
#define READ_REFUSED(answer, bytes, size) read_refused(answer, bytes, size, __LINE__)

static void write_preambles(void)
{
    struct frame f = usual;
    for (f.preamble = 5; f.preamble <= 20; f.preamble++)
        WRITE_TAKEN(f, ROOM, 0);
    const size_t outside[] = {0, 1, 4, 21, 256 + 5, SIZE_MAX};
    for (size_t i = 0; i < sizeof outside / sizeof *outside; i++) {
        f.preamble = outside[i];
        WRITE_REFUSED(NENGAPIKO_REFUSAL_PREAMBLE, f, ROOM, 0);
    }
}

static void write_addresses(void)
{
    struct frame f = usual;
    for (f.address = 0; f.address <= POLLING_LARGEST; f.address++)
        WRITE_TAKEN(f, ROOM, 0);
    f.address = POLLING_LARGEST + 1;
    WRITE_REFUSED(NENGAPIKO_REFUSAL_ADDRESS, f, ROOM, 0);
    f.address = UINT64_C(1) << 32;
    WRITE_REFUSED(NENGAPIKO_REFUSAL_ADDRESS, f, ROOM, 0);
    f.address = UINT64_MAX;
    WRITE_REFUSED(NENGAPIKO_REFUSAL_ADDRESS, f, ROOM, 0);

    f.long_address = true;
    WRITE_REFUSED(NENGAPIKO_REFUSAL_ADDRESS, f, ROOM, 0);
    f.address = UNIQUE_LARGEST + 1;
    WRITE_REFUSED(NENGAPIKO_REFUSAL_ADDRESS, f, ROOM, 0);
    const uint64_t unique[] = {0, POLLING_LARGEST + 1, UINT64_C(0x1234567890), UNIQUE_LARGEST};
    for (size_t i = 0; i < sizeof unique / sizeof *unique; i++) {
        f.address = unique[i];
        WRITE_TAKEN(f, ROOM, 0);
    }
}

static void write_data_lengths(void)
{
    struct frame f = usual;
    for (size_t i = 0; i < TYPES; i++) {
        f.type = types[i];
        const size_t least = f.type == NENGAPIKO_TYPE_STX ? 0 : 2;
        for (f.count = 0; f.count < least; f.count++)
            WRITE_REFUSED(NENGAPIKO_REFUSAL_DATA_LENGTH, f, ROOM, 0);
        for (f.count = least; f.count <= 255; f.count++)
            WRITE_TAKEN(f, ROOM, 0);
        f.count = 256;
        WRITE_REFUSED(NENGAPIKO_REFUSAL_DATA_LONG, f, ROOM, 0);
        f.count = sizeof data;
        WRITE_REFUSED(NENGAPIKO_REFUSAL_DATA_LONG, f, ROOM, 0);
    }
}

static bool is_type(unsigned number)
{
    return number == NENGAPIKO_TYPE_STX || number == NENGAPIKO_TYPE_ACK || number == NENGAPIKO_TYPE_BACK;
}

static void write_types(void)
{
    struct frame f = usual;
    for (unsigned type = 0; type <= UINT8_MAX; type++) {
        f.type = (uint8_t)type;
        if (is_type(type))
            WRITE_TAKEN(f, ROOM, 0);
        else
            WRITE_REFUSED(NENGAPIKO_REFUSAL_NO_DELIMITER, f, ROOM, 0);
    }
}

static void write_places(void)
{
    struct frame f = usual;
    const size_t length = length_of(f);
    for (size_t place = 0; place <= 40; place++) {
        WRITE_TAKEN(f, place + length + 1, place);
        WRITE_TAKEN(f, place + length, place);
        WRITE_REFUSED(NENGAPIKO_REFUSAL_BUFFER_SHORT, f, place + length - 1, place);
    }
    const size_t sizes[] = {0, 1, length - 1, length, ROOM};
    for (size_t i = 0; i < sizeof sizes / sizeof *sizes; i++) {
        const size_t size = sizes[i];
        if (size > 0)
            WRITE_REFUSED(NENGAPIKO_REFUSAL_BUFFER_SHORT, f, size, size - 1);
        WRITE_REFUSED(NENGAPIKO_REFUSAL_BUFFER_SHORT, f, size, size);
        WRITE_REFUSED(NENGAPIKO_REFUSAL_BUFFER_SHORT, f, size, size + 1);
        WRITE_REFUSED(NENGAPIKO_REFUSAL_BUFFER_SHORT, f, size, SIZE_MAX - length + 1);
        WRITE_REFUSED(NENGAPIKO_REFUSAL_BUFFER_SHORT, f, size, SIZE_MAX);
    }
}

static void write_longest(void)
{
    const struct frame f = {20, NENGAPIKO_TYPE_ACK, true, true, true, UNIQUE_LARGEST, 0xFF, 255};
    CHECK(length_of(f) == NENGAPIKO_SIZE_FRAME);
    CHECK(NENGAPIKO_SIZE_FRAME == 284);
    WRITE_TAKEN(f, 284, 0);
    WRITE_TAKEN(f, 285, 1);
    WRITE_REFUSED(NENGAPIKO_REFUSAL_BUFFER_SHORT, f, 283, 0);
    WRITE_REFUSED(NENGAPIKO_REFUSAL_BUFFER_SHORT, f, 284, 1);
}

static uint32_t lowest_refusal(struct frame f, bool fits)
{
    if (f.preamble < 5 || f.preamble > 20)
        return NENGAPIKO_REFUSAL_PREAMBLE;
    if (f.address > POLLING_LARGEST)
        return NENGAPIKO_REFUSAL_ADDRESS;
    if (f.count > 255)
        return NENGAPIKO_REFUSAL_DATA_LONG;
    if (f.count < 2 && (f.type == NENGAPIKO_TYPE_ACK || f.type == NENGAPIKO_TYPE_BACK))
        return NENGAPIKO_REFUSAL_DATA_LENGTH;
    if (!is_type(f.type))
        return NENGAPIKO_REFUSAL_NO_DELIMITER;
    return fits ? NENGAPIKO_REFUSAL_NONE : NENGAPIKO_REFUSAL_BUFFER_SHORT;
}

/* All combinations of one right and one or two wrong values for each argument. */
static void write_lowest_refusal(void)
{
    const size_t counts[] = {1, 4, 256};
    const uint8_t numbers[] = {NENGAPIKO_TYPE_STX, NENGAPIKO_TYPE_ACK, NENGAPIKO_TYPE_BACK, 0};
    for (unsigned n = 0; n < 2 * 2 * 2 * 3 * 4; n++) {
        struct frame f = usual;
        f.preamble = n & 1 ? 4 : 5;
        f.address = n & 2 ? POLLING_LARGEST + 1 : POLLING_LARGEST;
        f.count = counts[n / 8 % 3];
        f.type = numbers[n / 24];
        const bool fits = n & 4;
        const size_t size = fits ? ROOM : 0;
        const uint32_t answer = lowest_refusal(f, fits);
        if (answer == NENGAPIKO_REFUSAL_NONE)
            WRITE_TAKEN(f, size, 0);
        else
            WRITE_REFUSED(answer, f, size, 0);
    }
}

/* bytes: a worked example of document 01, from delimiter to check byte, and its frame. */
static void worked_example(struct frame f, const uint8_t *bytes, size_t length, int line)
{
    uint8_t whole[ROOM] = {0xFF, 0xFF, 0xFF, 0xFF, 0xFF};
    memcpy(whole + 5, bytes, length);
    size_t end = 0;
    f.preamble = 5;
    check(write_frame(f, ROOM, 0, &end) == NENGAPIKO_REFUSAL_NONE, "the example is written", line);
    check(end == 5 + length, "the example's length", line);
    check(memcmp(arena + GUARD, whole, 5 + length) == 0, "the example's bytes", line);
    read_taken(f, 0, whole, 5 + length, line);
    f.preamble = 2;
    read_taken(f, 0, whole + 3, 2 + length, line);
    for (unsigned wrong = 1; wrong <= UINT8_MAX; wrong++) {
        whole[4 + length] = (uint8_t)(bytes[length - 1] ^ wrong);
        read_refused(NENGAPIKO_REFUSAL_UNSOUND, whole, 5 + length, line);
    }
}

static void worked_check_bytes(void)
{
    const uint8_t m1[] = {0x02, 0x80, 0x00, 0x00, 0x82};
    const uint8_t m2[] = {0x82, 0x80, 0x00, 0x00, 0x00, 0x02, 0x03, 0x00, 0x03};
    const uint8_t m3[] = {0x06, 0x80, 0x00, 0x02, 0x00, 0x00, 0x84};
    const struct frame f1 = {.type = NENGAPIKO_TYPE_STX, .primary = true};
    const struct frame f2 = {
        .type = NENGAPIKO_TYPE_STX, .long_address = true, .primary = true, .address = 2, .command = 3};
    const struct frame f3 = {.type = NENGAPIKO_TYPE_ACK, .primary = true, .count = 2};
    data[0] = data[1] = 0;
    worked_example(f1, m1, sizeof m1, __LINE__);
    worked_example(f2, m2, sizeof m2, __LINE__);
    worked_example(f3, m3, sizeof m3, __LINE__);
    fill_with_pattern(data, sizeof data);
}

/* What is written is read back, for each type, address form, flag and data length. */
static void round_trips(void)
{
    for (unsigned n = 0; n < TYPES * 8; n++) {
        struct frame f = {.type = types[n / 8], .primary = n & 1, .burst = n & 2};
        f.long_address = n & 4;
        for (f.count = 2; f.count <= 255; f.count++) {
            f.preamble = 5 + f.count % 16;
            f.command = (uint8_t)(f.count * 7);
            f.address = f.long_address ? UNIQUE_LARGEST - f.count * 7919 : f.count % 64;
            const size_t place = f.count % 32;
            size_t end = 0;
            CHECK(write_frame(f, ROOM, place, &end) == NENGAPIKO_REFUSAL_NONE);
            const uint8_t *bytes = arena + GUARD + place;
            READ_TAKEN(f, 0, bytes, end - place);
            CHECK(memcmp(bytes + length_of(f) - 1 - f.count, data, f.count) == 0);
        }
    }
}

static void read_preambles(void)
{
    uint8_t bytes[1024];
    memset(bytes, 0xFF, sizeof bytes);
    READ_REFUSED(NENGAPIKO_REFUSAL_FEW_PREAMBLES, bytes, 0);
    READ_REFUSED(NENGAPIKO_REFUSAL_FEW_PREAMBLES, bytes, 1);
    for (size_t size = 2; size <= sizeof bytes; size++)
        READ_REFUSED(NENGAPIKO_REFUSAL_ENDS_EARLY, bytes, size);

    struct frame f = usual;
    for (f.preamble = 0; f.preamble <= 600; f.preamble++) {
        const size_t size = compose(f, 0, bytes);
        if (f.preamble < 2)
            READ_REFUSED(NENGAPIKO_REFUSAL_FEW_PREAMBLES, bytes, size);
        else
            READ_TAKEN(f, 0, bytes, size);
    }
}

/* Each byte behind the preamble, with nothing behind it and with a frame's rest. */
static void read_delimiters(void)
{
    uint8_t bytes[ROOM];
    for (unsigned delimiter = 0; delimiter < UINT8_MAX; delimiter++) {
        const bool known = (delimiter & 0x18) == 0 && is_type(delimiter & 0x07);
        const size_t expansion = delimiter >> 5 & 3;
        struct frame f = usual;
        f.type = delimiter & 0x07;
        f.long_address = delimiter & 0x80;
        const size_t size = compose(f, expansion, bytes);
        bytes[f.preamble] = (uint8_t)delimiter;
        if (known) {
            READ_TAKEN(f, expansion, bytes, size);
            READ_REFUSED(NENGAPIKO_REFUSAL_ENDS_EARLY, bytes, f.preamble + 1);
        } else {
            READ_REFUSED(NENGAPIKO_REFUSAL_NO_DELIMITER, bytes, size);
            READ_REFUSED(NENGAPIKO_REFUSAL_NO_DELIMITER, bytes, f.preamble + 1);
        }
    }
}

/* Each address form, each number of expansion bytes, at each length up to the whole frame. */
static void read_early_ends(void)
{
    uint8_t bytes[ROOM];
    for (unsigned n = 0; n < TYPES * 8; n++) {
        struct frame f = usual;
        f.type = types[n / 8];
        f.long_address = n & 4;
        f.count = 20;
        const size_t expansion = n % 4;
        const size_t whole = compose(f, expansion, bytes);
        for (size_t size = 0; size < 2; size++)
            READ_REFUSED(NENGAPIKO_REFUSAL_FEW_PREAMBLES, bytes, size);
        for (size_t size = 2; size < whole; size++)
            READ_REFUSED(NENGAPIKO_REFUSAL_ENDS_EARLY, bytes, size);
        READ_TAKEN(f, expansion, bytes, whole);
    }
}

/* Counts at the edge, with a check byte that is right and one that is wrong. */
static void read_counts(void)
{
    uint8_t bytes[ROOM];
    const size_t counts[] = {0, 1, 2, 255};
    for (size_t i = 0; i < TYPES * 4; i++) {
        struct frame f = usual;
        f.type = types[i / 4];
        f.count = counts[i % 4];
        const size_t size = compose(f, 0, bytes);
        if (f.type != NENGAPIKO_TYPE_STX && f.count < 2)
            READ_REFUSED(NENGAPIKO_REFUSAL_UNSOUND, bytes, size);
        else
            READ_TAKEN(f, 0, bytes, size);
        READ_REFUSED(NENGAPIKO_REFUSAL_ENDS_EARLY, bytes, size - 1);
        bytes[size - 1] ^= 1;
        READ_REFUSED(NENGAPIKO_REFUSAL_UNSOUND, bytes, size);
    }
}

/* One bit turned in address, command, data or check byte makes the check byte wrong. */
static void read_damage(void)
{
    uint8_t bytes[ROOM];
    struct frame f = usual;
    f.long_address = true;
    const size_t size = compose(f, 0, bytes);
    const size_t count_at = size - 2 - f.count;
    for (size_t bit = 8 * (f.preamble + 1); bit < 8 * size; bit++) {
        if (bit / 8 == count_at)
            continue;
        bytes[bit / 8] ^= (uint8_t)(1 << bit % 8);
        READ_REFUSED(NENGAPIKO_REFUSAL_UNSOUND, bytes, size);
        bytes[bit / 8] ^= (uint8_t)(1 << bit % 8);
    }
    READ_TAKEN(f, 0, bytes, size);
}

static void read_lowest_refusal(void)
{
    const uint8_t few_and_no_delimiter[] = {0xFF, 0x00};
    const uint8_t few_and_ends[] = {0x02};
    const uint8_t no_delimiter_and_ends[] = {0xFF, 0xFF, 0x03};
    const uint8_t ack_without_data_ends[] = {0xFF, 0xFF, 0x06, 0x80, 0x00, 0x00};
    const uint8_t back_with_one_ends[] = {0xFF, 0xFF, 0x01, 0x80, 0x00, 0x01, 0x00};
    READ_REFUSED(NENGAPIKO_REFUSAL_FEW_PREAMBLES, few_and_no_delimiter,
                 sizeof few_and_no_delimiter);
    READ_REFUSED(NENGAPIKO_REFUSAL_FEW_PREAMBLES, few_and_ends, sizeof few_and_ends);
    READ_REFUSED(NENGAPIKO_REFUSAL_NO_DELIMITER, no_delimiter_and_ends,
                 sizeof no_delimiter_and_ends);
    READ_REFUSED(NENGAPIKO_REFUSAL_ENDS_EARLY, ack_without_data_ends,
                 sizeof ack_without_data_ends);
    READ_REFUSED(NENGAPIKO_REFUSAL_ENDS_EARLY, back_with_one_ends, sizeof back_with_one_ends);
}

/* Whether more bytes are wanted, as the header says it. */
static bool wants_more(uint32_t answer, const uint8_t *bytes, size_t size)
{
    return answer == NENGAPIKO_REFUSAL_ENDS_EARLY ||
           (answer == NENGAPIKO_REFUSAL_FEW_PREAMBLES && (size == 0 || (size == 1 && bytes[0] == 0xFF)));
}

/* A buffer that grows byte by byte: more are wanted up to some byte, and from it on the answer stays. */
static void read_growing(void)
{
    uint8_t bytes[ROOM];
    const uint64_t none[NENGAPIKO_SIZE_FIELDS] = {0};
    uint64_t last[NENGAPIKO_SIZE_FIELDS], fields[NENGAPIKO_SIZE_FIELDS];
    for (unsigned n = 0; n < 64 * TYPES; n++) {
        struct frame f = usual;
        f.preamble = n % 4;
        f.type = types[n / 64];
        f.long_address = n & 4;
        f.count = n & 8 ? 255 : n % 3;
        const size_t whole = compose(f, n % 4, bytes);
        bytes[whole - 1] ^= n & 16;
        bytes[n & 32 ? f.preamble : whole - 1] ^= n & 32;
        memset(bytes + whole, 0xFF, sizeof bytes - whole);
        uint32_t answer = NENGAPIKO_REFUSAL_FEW_PREAMBLES;
        for (size_t size = 0; size <= sizeof bytes; size++) {
            memcpy(fields, none, sizeof fields);
            const uint32_t now = nengapiko_read(bytes, size, fields);
            if (size > 0 && !wants_more(answer, bytes, size - 1))
                CHECK(now == answer && memcmp(fields, last, sizeof last) == 0);
            answer = now;
            memcpy(last, fields, sizeof last);
        }
        CHECK(!wants_more(answer, bytes, sizeof bytes));
    }
}

/* Bytes behind a frame are not looked at, and a second frame is found at the first one's end. */
static void read_trailing_bytes(void)
{
    uint8_t bytes[2 * ROOM];
    struct frame second = usual;
    second.long_address = true;
    second.address = UINT64_C(0x3FFFFFFFFF);
    second.type = NENGAPIKO_TYPE_BACK;
    const size_t size = compose(usual, 0, bytes);
    for (unsigned trailing = 0; trailing <= UINT8_MAX; trailing++) {
        memset(bytes + size, (int)trailing, 40);
        READ_TAKEN(usual, 0, bytes, size + 1);
        READ_TAKEN(usual, 0, bytes, size + 40);
    }
    const size_t second_size = compose(second, 0, bytes + size);
    READ_TAKEN(usual, 0, bytes, size + second_size);
    READ_TAKEN(second, 0, bytes + size, second_size);
}

/* Preamble and delimiter inside the data begin no frame. */
static void read_frame_in_data(void)
{
    const uint8_t inner[] = {0xFF, 0xFF, 0x06, 0x80, 0x00, 0x02, 0x00, 0x00, 0x84};
    uint8_t bytes[ROOM];
    struct frame f = usual;
    f.count = sizeof inner;
    memcpy(data, inner, sizeof inner);
    WRITE_TAKEN(f, ROOM, 0);
    const size_t size = compose(f, 0, bytes);
    READ_TAKEN(f, 0, bytes, size);
    READ_REFUSED(NENGAPIKO_REFUSAL_ENDS_EARLY, bytes, size - 1);
    fill_with_pattern(data, sizeof data);
}

/* Each refusal has a text of its own, and a number that is none has the text that says so. */
static void refusal_texts(void)
{
    const char *none = nengapiko_refusal_text(UINT32_MAX);
    unsigned texts = 0;
    for (uint32_t i = 0; i < 100; i++) {
        const char *text = nengapiko_refusal_text(i);
        CHECK(text[0] != '\0');
        if (strcmp(text, none) == 0)
            continue;
        texts++;
        for (uint32_t j = 0; j < i; j++)
            CHECK(strcmp(text, nengapiko_refusal_text(j)) != 0);
    }
    CHECK(texts == 22);
    CHECK(strcmp(nengapiko_refusal_text(16), none) == 0);
    CHECK(strcmp(nengapiko_refusal_text(NENGAPIKO_REFUSAL_IN_HAND), "a message is in hand") == 0);
}

int main(void)
{
    fill_with_pattern(data, sizeof data);
    write_preambles();
    write_addresses();
    write_data_lengths();
    write_types();
    write_places();
    write_longest();
    write_lowest_refusal();
    worked_check_bytes();
    round_trips();
    read_preambles();
    read_delimiters();
    read_early_ends();
    read_counts();
    read_damage();
    read_lowest_refusal();
    read_growing();
    read_trailing_bytes();
    read_frame_in_data();
    refusal_texts();
    printf("frame_c: %lu checks passed", passed);
    if (failed > 0)
        printf(", %lu failed", failed);
    printf("\n");
    return failed == 0 ? EXIT_SUCCESS : EXIT_FAILURE;
}
