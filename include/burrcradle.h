/*
 * Burrcradle for a C host: from a depot recorder's samples to events, scores and a site table.
 * Link target/staticlib/libburrcradle.a, which `rt staticlib burrcradle` proves and writes.
 *
 * Seven settings, always in this order:
 *
 *     1 n             samples per cycle per channel: even, 8 to 512
 *     2 r             reference rms, in sample units: 1000 to 50000
 *     3 f             nominal frequency: 50 or 60
 *     4 sag           sag threshold, percent of r: 50 to 95
 *     5 interruption  interruption threshold: 1 to 20
 *     6 swell         swell threshold: 105 to 150
 *     7 hysteresis    0 to 5
 *
 * Samples are three channels interleaved, a, b, c, a, b, c. Each lies from -100000 to 100000 or is INT32_MIN, which
 * means "missing".
 *
 * An event is eleven numbers (BURR_EVENT): kind (1 sag, 2 interruption, 3 swell), start, end, seen (1 for the start plus 2
 * for the end), extreme, retained, shortfall, type, and the shortfalls of channels a, b and c, which add up to the seventh
 * number. The last five are 0 for kinds 2 and 3. The extreme is the smallest sum of a cycle's squares on one channel, for a
 * swell the largest; retained is its rms value in thousandths of r, to the nearest, halves upward. Thresholds and rows go by
 * the extreme and not by it: a sag below 90 percent may have retained 900.
 *
 * A sag with a score has one cell by each of two sets of borders: number of columns x row + column. Row 0 is the deepest, by
 * the extreme's rms value in percent of r, and column 0 the shortest, by h = end - start half-cycles. A set is told by its
 * number, and any number but these two is an unknown set:
 *
 *     0  UNIPEDE (BURR_UNIPEDE): cells 0 to 39
 *            rows     at most 10, 40, 70, 85 percent; above
 *            columns  h < 2 (one cycle); 5 h < f (0.1 s); h < f (0.5 s); h < 2 f (1 s); h < 6 f (3 s); h < 40 f (20 s);
 *                     h < 120 f (60 s); the rest
 *     1  IEC 61000-4-11 (BURR_IEC): cells 0 to 24
 *            rows     at most 10, 40, 70, 80 percent; above
 *            columns  h < 2 (one cycle); 5 h < 2 f (0.2 s); h < f (0.5 s); h < 10 f (5 s); the rest
 *
 * So a voltage on a border is in the deeper row, and a duration on one in the longer column.
 *
 * Half-cycle k covers the n samples of each channel from sample k x n / 2 on: one cycle, renewed each half cycle. With L
 * samples per channel there are 2 L / n - 1 of them, numbered from 0. Each is told in five numbers (BURR_HALF):
 *
 *     0       class: 1 healthy (known, and in no event), 2 disturbed (known, and in at least one), 3 unknown (any of its
 *             samples is missing, on any channel)
 *     1       the kinds of events it lies in: 1 for a sag plus 2 for an interruption plus 4 for a swell
 *     2 to 4  S of channels a, b and c: the sum of the channel's n squares; 0 where the half-cycle is unknown
 *
 * Look at the class first: an unknown half-cycle is 3, 0, 0, 0, 0, and these are not voltages of 0. Where the class is 2, an
 * S of 0 is one. The rms value in percent of r is 100 x sqrt(S / n) / r. It is for reading only. Thresholds go by S exactly:
 * a channel is below p percent exactly if 10000 x S < p x p x n x r x r.
 *
 * A site table is 60 numbers (BURR_TABLE), which the host keeps and lends:
 *
 *      0 to 6   the seven settings
 *      7        the set of borders
 *      8        total half-cycles
 *      9        healthy
 *     10        disturbed
 *     11        unknown
 *     12 to 51  forty cells (BURR_CELLS), of which set 1 uses the first 25
 *     52        unplaced sags
 *     53        sags
 *     54        interruptions
 *     55        swells
 *     56        shortfall
 *     57        shortfall of channel a
 *     58        shortfall of channel b
 *     59        shortfall of channel c
 *
 * A table is made for one set and keeps it. One with an unknown set is unsound, and so is one for set 1 if any of its cells
 * 25 to 39 is not 0. The last three numbers add up to the one before them; a table in which they don't is unsound. Sums are
 * whole numbers here: what only comes right by wrapping round at 2^64 does not add up.
 *
 * What is turned away has a number and a place:
 *
 *     1  a setting is outside its range                  the first such setting, 1 to 7
 *        the set is unknown (burr_fresh only)            8
 *     2  length not a multiple of 3                      0
 *     3  fewer than n samples per channel                0
 *     4  samples per channel not a multiple of n / 2     0
 *     5  more than 100000 half-cycles                    0
 *     6  a sample is out of range                        the first index in the run
 *     7  room below 11 x number of events (burr_list)    the number of events
 *        room below 5 x half-cycles (burr_halves)        the number of half-cycles
 *     8  more than 4000000 half-cycles in the table      how many more it takes
 *     9  the table is unsound                            0
 *
 * The rules (document 01) have refusal 7 for the list only. Here it is used for the room of burr_halves as well.
 *
 * Any numbers may be handed over, and any samples. The host answers for its pointers: none is null, each has the memory
 * that is said here, and nothing that a function writes overlaps anything else that it is handed. The functions keep
 * nothing and call nothing.
 */
#ifndef BURRCRADLE_H
#define BURRCRADLE_H

#include <stddef.h>
#include <stdint.h>

#define BURR_EVENT 11
#define BURR_HALF 5
#define BURR_TABLE 60
#define BURR_CELLS 40

/* The sets of borders, and how many cells each has: the cell's number where there is no score. */
#define BURR_UNIPEDE 0
#define BURR_UNIPEDE_CELLS 40
#define BURR_IEC 1
#define BURR_IEC_CELLS 25

#ifdef __cplusplus
extern "C" {
#endif

/*
 * Why an event has no score.
 * Handed over: the settings, the set and the event's eleven numbers.
 * Returned: 0 where it has a score; 6 settings bad or set unknown; 5 not an event; 4 not a sag; 1 only the start unseen, 2
 * only the end unseen, 3 both unseen. Where several apply, the first in this order. Among the numbers that are not an event
 * are those of any kind whose short_a, short_b and short_c don't add up to the shortfall. It is the same by either set.
 * Written: nothing.
 */
uint64_t burr_reason(uint64_t n, uint64_t r, uint64_t f, uint64_t sag, uint64_t interruption, uint64_t swell,
                     uint64_t hysteresis, uint64_t set, uint64_t kind, uint64_t start, uint64_t end, uint64_t seen,
                     uint64_t extreme, uint64_t retained, uint64_t shortfall, uint64_t type, uint64_t short_a,
                     uint64_t short_b, uint64_t short_c);

/*
 * The cell of an event, by a set of borders.
 * Handed over: the settings, the set and the event's eleven numbers.
 * Returned: the cell by that set; where the event has no score, whatever the reason, one above the set's last cell: 40 for
 * set 0, 25 for set 1. 40 also where the set is unknown.
 * Written: nothing.
 */
uint64_t burr_cell(uint64_t n, uint64_t r, uint64_t f, uint64_t sag, uint64_t interruption, uint64_t swell,
                   uint64_t hysteresis, uint64_t set, uint64_t kind, uint64_t start, uint64_t end, uint64_t seen,
                   uint64_t extreme, uint64_t retained, uint64_t shortfall, uint64_t type, uint64_t short_a,
                   uint64_t short_b, uint64_t short_c);

/*
 * The score of an event.
 * Handed over: the settings, the set, the event's eleven numbers, and two lent doubles.
 * Returned: the reason, as of burr_reason: 0 where the event has a score.
 * Written: where it returns 0, the severity and the energy in seconds; otherwise nothing.
 *
 * The severity is (1000 - retained) / (1000 - c), with c the curve's value for h half-cycles: 0 for h at most 2, else 500
 * while 5 h is at most 2 f, else 700 while h is at most f, else 800 while h is at most 20 f (10 seconds), and 900 after
 * that. Neither float depends on the set.
 */
uint64_t burr_score(uint64_t n, uint64_t r, uint64_t f, uint64_t sag, uint64_t interruption, uint64_t swell,
                    uint64_t hysteresis, uint64_t set, uint64_t kind, uint64_t start, uint64_t end, uint64_t seen,
                    uint64_t extreme, uint64_t retained, uint64_t shortfall, uint64_t type, uint64_t short_a,
                    uint64_t short_b, uint64_t short_c, double *severity, double *energy);

/*
 * The events of a recording, by start and then kind.
 * Handed over: the settings; samples_len samples; a lent run of events_len numbers; one lent number.
 * Returned: 0 where the recording is accepted, otherwise the number of the refusal, 1 to 7.
 * Written: where it returns 0, `answer` gets the number of events and `events` their numbers, eleven each, from the front;
 * those beyond the last event stay as they were. Otherwise `answer` gets the refusal's place, and nothing else is written.
 */
uint64_t burr_list(uint64_t n, uint64_t r, uint64_t f, uint64_t sag, uint64_t interruption, uint64_t swell,
                   uint64_t hysteresis, const int32_t *samples, size_t samples_len, uint64_t *events,
                   size_t events_len, uint64_t *answer);

/*
 * Each half-cycle of a recording, in order.
 * Handed over: the settings; samples_len samples; a lent run of halves_len numbers; one lent number.
 * Returned: 0 where the recording is accepted, otherwise the number of the refusal, 1 to 7.
 * Written: where it returns 0, `answer` gets the number of half-cycles and `halves` their numbers, five each, from the
 * front; those beyond the last half-cycle stay as they were. Otherwise `answer` gets the refusal's place, and nothing else
 * is written.
 *
 * The classes told are those that burr_add counts under the same settings, and a kind's number is in the second number of
 * half-cycle k exactly if burr_list lists an event of that kind with start <= k < end.
 */
uint64_t burr_halves(uint64_t n, uint64_t r, uint64_t f, uint64_t sag, uint64_t interruption, uint64_t swell,
                     uint64_t hysteresis, const int32_t *samples, size_t samples_len, uint64_t *halves,
                     size_t halves_len, uint64_t *answer);

/*
 * A fresh site table.
 * Handed over: the settings, the set, a lent table, one lent number.
 * Returned: 0 where the settings are good and the set is known, otherwise 1, the number of the refusal.
 * Written: where it returns 0, `table` gets the settings, the set and zeros, and `place` gets 0. Otherwise `table` gets
 * zeros only, for the set too, and `place` the refusal's place: a bad setting is told before an unknown set.
 */
uint64_t burr_fresh(uint64_t n, uint64_t r, uint64_t f, uint64_t sag, uint64_t interruption, uint64_t swell,
                    uint64_t hysteresis, uint64_t set, uint64_t table[BURR_TABLE], uint64_t *place);

/*
 * A recording added to a site table, under the table's own settings and set.
 * Handed over: a lent table, samples_len samples, one lent number.
 * Returned: 0 where the recording is accepted, otherwise the number of the refusal: 9, 2 to 6, or 8.
 * Written: where it returns 0, `table` is the grown table, and `place` gets 0. Otherwise `table` stays as it was, and
 * `place` gets the refusal's place.
 */
uint64_t burr_add(uint64_t table[BURR_TABLE], const int32_t *samples, size_t samples_len, uint64_t *place);

#ifdef __cplusplus
}
#endif

#endif
