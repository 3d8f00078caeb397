/*
 * nengapiko_tests.h - functions for tests and measurements. They are in libnengapiko_tests.a, which
 * tests/archives builds; no product links it. The rules of nengapiko.h on pointers hold here too.
 */
#ifndef NENGAPIKO_TESTS_H
#define NENGAPIKO_TESTS_H

#include "nengapiko.h"

#ifdef __cplusplus
extern "C" {
#endif

/*
 * The exclusive-or of x and of count bytes from start on; x where these would run past the end. The
 * first works it out by words, as nengapiko_read does, the second byte by byte; they give the same.
 */
uint8_t nengapiko_check_words(uint8_t x, const uint8_t *bytes, size_t size, size_t start,
                              size_t count) NENGAPIKO_NONNULL;
uint8_t nengapiko_check_bytes(uint8_t x, const uint8_t *bytes, size_t size, size_t start,
                              size_t count) NENGAPIKO_NONNULL;

/*
 * The modem chip over a script of accesses of two bytes each, encoded as
 * crates/modem_c/specs/Script.antt says, with a number for each.
 */
size_t nengapiko_modem(const uint8_t *NENGAPIKO_RESTRICT script, size_t size,
                       uint8_t *NENGAPIKO_RESTRICT events, size_t room) NENGAPIKO_NONNULL;

/*
 * Plays a script, as the program play does.
 *
 *   record        how many bytes a record has, 4 or 6; for another number 24 is printed
 *   script, size  the records
 *   out, room     what is printed, at the front of out, as much as there is room for
 *
 * Returns how many bytes were printed.
 */
size_t nengapiko_play(size_t record, const uint8_t *NENGAPIKO_RESTRICT script, size_t size,
                      uint8_t *NENGAPIKO_RESTRICT out, size_t room) NENGAPIKO_NONNULL;

/*
 * Turns a script into the other form, as the program convert does.
 *
 *   record        how many bytes a record has, 4 or 6
 *   script, size  the records
 *   out, room     the script with records of 6 or 4 bytes, at the front of out
 *   end           set to its length
 *
 * Returns 0, or the refusal, the first that applies of 24, 16, 25 and 15, which leaves out and end as
 * they were.
 */
uint32_t nengapiko_convert(size_t record, const uint8_t *NENGAPIKO_RESTRICT script, size_t size,
                           uint8_t *NENGAPIKO_RESTRICT out, size_t room,
                           size_t *NENGAPIKO_RESTRICT end) NENGAPIKO_NONNULL;

/*
 * Runs a link of a primary, a secondary and up to six devices over a list of ticks. The devices start
 * in tick 0, each master in the tick that is named for it.
 *
 *   sto .. rt1_secondary  the profile's five numbers
 *   retries               R
 *   limit                 the data limit of the link, 2 to 255; 255 where it has none of its own
 *   preambles, pollings, uniques
 *                         six numbers each, one for each slot: its device's preamble, polling and
 *                         unique address; a preamble of 0 is a slot without a device
 *   ticks, size           the list, encoded as crates/link_list/specs/Ticks.antt says
 *   events, room          for each tick how many send, plus 16 for a request of the primary that was
 *                         taken and 32 for one of the secondary, plus 64 if the primary sends and 128
 *                         if the secondary does
 *   refusal               set to 0, or where the start is refused to its number: 2, 3, 4 or 9
 *
 * Returns how many ticks these are; 0 where the start is refused.
 */
size_t nengapiko_run(uint16_t sto, uint16_t hold, uint16_t rt2, uint16_t rt1_primary,
                     uint16_t rt1_secondary, uint8_t retries, size_t limit,
                     const uint8_t *preambles, const uint8_t *pollings, const uint64_t *uniques,
                     uint64_t primary_start, uint64_t secondary_start,
                     const uint8_t *NENGAPIKO_RESTRICT ticks, size_t size,
                     uint8_t *NENGAPIKO_RESTRICT events, size_t room,
                     uint32_t *NENGAPIKO_RESTRICT refusal) NENGAPIKO_NONNULL;

/*
 * Writes a load, a script for the player (docs/LOAD.md).
 *
 *   seed          1 to 4,294,967,295
 *   count         how many records, the stop among them: 1 to 65,536
 *   buffer, room  the script goes to the front, four bytes a record; what is behind it, and all of
 *                 the buffer on a refusal, is left as it was
 *
 * Returns 0; or 18 for seed 0, no records or above 65,536; or 15 for a buffer too short: the first
 * of these that applies.
 */
uint32_t nengapiko_load(uint32_t seed, uint32_t count, uint8_t *buffer, size_t room) NENGAPIKO_NONNULL;

/*
 * nengapiko_readings_enter over flat numbers, seven to a row: address, command, tick, byte count, place of
 * the data, and the bits of the primary and of the secondary. Of a command, a byte count and bits the
 * lowest eight bits count. Numbers that are left over behind the last row are in none.
 *
 *   numbers, count   the table, and how many numbers there are
 *   area .. bytes    as for nengapiko_readings_enter
 *
 * Returns 0, 15 or 20.
 */
uint32_t nengapiko_readings_flat(uint64_t *NENGAPIKO_RESTRICT numbers, size_t count,
                                 uint8_t *NENGAPIKO_RESTRICT area, size_t size, uint64_t tick,
                                 const uint64_t *NENGAPIKO_RESTRICT results,
                                 const uint8_t *NENGAPIKO_RESTRICT bytes) NENGAPIKO_NONNULL;

#ifdef __cplusplus
}
#endif

#endif
