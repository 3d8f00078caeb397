/*
 * nengapiko_join as a program in C calls it: both taps in one buffer, a longer buffer for the joined
 * recording, empty taps, and each refusal with what it leaves.
 */
#include <stdio.h>
#include <string.h>

#include "nengapiko.h"

enum { SIZE = 6, ROOM = 9, PATTERN = 0xA5, NO_TICK = 0xA5A5 };

static int checks, failures;

static void check(bool holds, const char *what)
{
    checks++;
    if (!holds) {
        failures++;
        printf("join_c: %s\n", what);
    }
}

/* One call, with what stands in the buffer and in the tick's place behind it. */
static void joins(const char *what, const uint8_t *first, size_t first_size, const uint8_t *second,
                  size_t second_size, size_t room, uint32_t answer, const uint8_t *joined, size_t tick)
{
    uint8_t out[ROOM], wanted[ROOM];
    size_t named = NO_TICK;
    memset(out, PATTERN, ROOM);
    memset(wanted, PATTERN, ROOM);
    if (answer == NENGAPIKO_REFUSAL_NONE)
        memcpy(wanted, joined, first_size);
    check(nengapiko_join(first, first_size, second, second_size, out, room, &named) == answer, what);
    check(memcmp(out, wanted, ROOM) == 0, what);
    check(named == tick, what);
}

int main(void)
{
    const uint8_t north[SIZE] = {0x20, 0x07, 0x00, 0x00, 0x60, 0x01};
    const uint8_t south[SIZE] = {0x40, 0x09, 0x20, 0x08, 0x40, 0x02};
    const uint8_t both[SIZE] = {0x20, 0x07, 0x20, 0x08, 0x40, 0x02};
    const uint8_t other[SIZE] = {0x00, 0x00, 0x00, 0x00, 0x20, 0x01};
    const uint8_t differs[SIZE] = {0x20, 0x07, 0x00, 0x00, 0x20, 0x02};
    const uint8_t bad[SIZE] = {0x20, 0x07, 0x00, 0x01, 0x60, 0x01};

    joins("joined", north, SIZE, south, SIZE, SIZE, NENGAPIKO_REFUSAL_NONE, both, NO_TICK);
    joins("more room", south, SIZE, north, SIZE, ROOM, NENGAPIKO_REFUSAL_NONE, both, NO_TICK);
    joins("one buffer", north, SIZE, north, SIZE, SIZE, NENGAPIKO_REFUSAL_NONE, north, NO_TICK);
    joins("no ticks", NENGAPIKO_NO_BYTES, 0, NENGAPIKO_NO_BYTES, 0, 0, NENGAPIKO_REFUSAL_NONE, both, NO_TICK);

    joins("21 of the first", bad, SIZE, south, SIZE - 2, 0, NENGAPIKO_REFUSAL_RECORDING, both, NO_TICK);
    joins("21 of the second", north, SIZE - 2, bad, SIZE, 0, NENGAPIKO_REFUSAL_RECORDING, both, NO_TICK);
    joins("21, odd", north, SIZE - 1, south, SIZE, SIZE, NENGAPIKO_REFUSAL_RECORDING, both, NO_TICK);
    joins("22", north, SIZE, south, SIZE - 2, 0, NENGAPIKO_REFUSAL_UNEQUAL, both, NO_TICK);
    joins("15", other, SIZE, differs, SIZE, SIZE - 1, NENGAPIKO_REFUSAL_BUFFER_SHORT, both, NO_TICK);
    joins("23", other, SIZE, differs, SIZE, SIZE, NENGAPIKO_REFUSAL_DIFFER, both, 2);

    printf("join_c: %d checks, %d failures\n", checks, failures);
    return failures == 0 ? 0 : 1;
}
