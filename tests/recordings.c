/*
 * recordings.c - the table of readings of a recording: a tick reader goes over its ticks, and each frame
 * that it tells is entered. A line for each row: the tick of the frame's last character, the device's
 * unique address, the command, the byte count and the data as stored, in hexadecimal.
 * docs/RECORDINGS.md runs it.
 */
#include "nengapiko.h"

#include <inttypes.h>
#include <stdio.h>

enum { ROWS = 32 };
static struct nengapiko_reading rows[ROWS];
static uint8_t area[ROWS * NENGAPIKO_SIZE_DATA];

/* Enters the frames of a recording; the number of the first refusal, or 0. */
static uint32_t enter_all(FILE *recording)
{
    uint64_t state[NENGAPIKO_SIZE_READER], results[NENGAPIKO_SIZE_RESULTS];
    uint8_t bytes[NENGAPIKO_SIZE_DATA], tick[2];
    nengapiko_readings_clear(rows, ROWS);
    nengapiko_reader_start(state);
    for (uint64_t n = 0; fread(tick, 1, sizeof tick, recording) == sizeof tick; n++) {
        nengapiko_reader_tick(state, bytes, tick[0] >> 5, tick[1], results);
        const uint32_t refused = nengapiko_readings_enter(rows, ROWS, area, sizeof area, n, results, bytes);
        if (refused != NENGAPIKO_REFUSAL_NONE)
            return refused;
    }
    return NENGAPIKO_REFUSAL_NONE;
}

int main(int count, char **arguments)
{
    FILE *recording = count == 2 ? fopen(arguments[1], "rb") : NULL;
    if (recording == NULL)
        return fprintf(stderr, "use: recordings FILE\n"), 1;
    const uint32_t refused = enter_all(recording);
    fclose(recording);
    if (refused != NENGAPIKO_REFUSAL_NONE)
        return fprintf(stderr, "recordings: refused with %" PRIu32 "\n", refused), 1;
    for (size_t i = 0; i < ROWS && rows[i].address != 0; i++) {
        printf("%" PRIu64 " %" PRIu64 " %u %u", rows[i].tick, rows[i].address, rows[i].command, rows[i].count);
        for (size_t n = 0; n < rows[i].count; n++)
            printf(" %02x", area[rows[i].place + n]);
        printf("\n");
    }
    return 0;
}
