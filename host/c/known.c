/*
 * Calls every function of burrcradle.h on the known answers and on what is turned away, prints each known answer's reason
 * and its cell by either set of borders, and exits with 1 where anything is not as the tables below have it. The numbers are
 * those of the rules; nothing here works out an answer from samples.
 */
#include "burrcradle.h"

#include <stdio.h>
#include <stdlib.h>
#include <string.h>

/* N 8, R 1000, f 50, thresholds 90, 10, 110, hysteresis 2; and the same with f 60. */
static const uint64_t settings[7] = {8, 1000, 50, 90, 10, 110, 2};
static const uint64_t sixty[7] = {8, 1000, 60, 90, 10, 110, 2};

/* 2^63: modulo 2^64, twice that is nothing. */
#define TOP_BIT 9223372036854775808u

/* The two sets are 0 and 1, and others are unknown, also where one of their bits, 32 or 63 alone would be 0 or 1. */
#define SETS 2
static const uint64_t unknown[] = {2, 3, 4294967296u, 4294967297u, TOP_BIT, TOP_BIT + 1, UINT64_MAX};

#define UNKNOWN (sizeof unknown / sizeof unknown[0])

/* One above the last cell of each set. */
#define UNPLACED {40, 25}
static const uint64_t not_scored[SETS] = UNPLACED;

#define SETTINGS(s) (s)[0], (s)[1], (s)[2], (s)[3], (s)[4], (s)[5], (s)[6]
#define EVENT(e) (e)[0], (e)[1], (e)[2], (e)[3], (e)[4], (e)[5], (e)[6], (e)[7], (e)[8], (e)[9], (e)[10]

/* A block is four samples of each channel. */
#define BLOCK 12
#define MOST_BLOCKS 8
#define MOST_EVENTS 2
#define MOST_HALVES (MOST_BLOCKS - 1)

/* The lent runs have room for one number more than two events, and for one more than seven half-cycles. */
#define ROOM (MOST_EVENTS * BURR_EVENT + 1)
#define HALVES_ROOM (MOST_HALVES * BURR_HALF + 1)

struct answer {
    uint64_t words[BURR_EVENT];
    uint64_t reason;
    /* By each set. */
    uint64_t cell[SETS];
    double severity, energy;
};

struct known {
    const char *name;
    size_t blocks;
    /* A value for each block on channel a, and one for b and c. */
    int32_t a[MOST_BLOCKS], bc[MOST_BLOCKS];
    /* The index of a missing sample, or -1. */
    long missing;
    size_t events;
    struct answer answers[MOST_EVENTS];
    /* The site table after it: total, healthy, disturbed, unknown; the cell of its sag by each set, 40 and 25 where none is
       placed; unplaced; sags, interruptions, swells; shortfall, and those of a, b and c. */
    uint64_t half[4], cell[SETS], unplaced, count[3], shortfall[4];
    /* Each half-cycle. A block of v has 4 v v as its sum of squares, and a half-cycle two blocks. */
    uint64_t halves[MOST_HALVES][BURR_HALF];
};

#define SAME(...) {__VA_ARGS__}, {__VA_ARGS__}
#define AROUND(v) 6, SAME(1000, 1000, v, v, 1000, 1000)
#define NONE UNPLACED, 0, {0, 0, 0}, {0, 0, 0, 0}
#define UNSCORED(why) why, UNPLACED, -1, -1

/* Half-cycles with S the same on all channels, and an unknown one. */
#define QUIET(s) {1, 0, s, s, s}
#define IN_SAG(s) {2, 1, s, s, s}
#define IN_SWELL(s) {2, 4, s, s, s}
#define GAP {3, 0, 0, 0, 0}
#define THOUSAND QUIET(8000000)

static const struct known known[] = {
    {"K1", AROUND(1000), -1, 0, {{{0}, UNSCORED(0)}}, {5, 5, 0, 0}, NONE,
     {THOUSAND, THOUSAND, THOUSAND, THOUSAND, THOUSAND}},
    {"K2", AROUND(500), -1, 1,
     {{{1, 1, 4, 3, 2000000, 500, 36000000, 0, 12000000, 12000000, 12000000}, 0, {17, 11}, 1, 0.045}},
     {5, 2, 3, 0}, {17, 11}, 0, {1, 0, 0}, {36000000, 12000000, 12000000, 12000000},
     {THOUSAND, IN_SAG(5000000), IN_SAG(2000000), IN_SAG(5000000), THOUSAND}},
    {"K3", 6, SAME(900, 900, 900, 900, 900, 900), -1, 0, {{{0}, UNSCORED(0)}}, {5, 5, 0, 0}, NONE,
     {QUIET(6480000), QUIET(6480000), QUIET(6480000), QUIET(6480000), QUIET(6480000)}},
    {"K4", AROUND(899), -1, 1,
     {{{1, 2, 3, 3, 6465608, 899, 4603176, 0, 1534392, 1534392, 1534392}, 0, {32, 20}, 0.101, 0.005}},
     {5, 4, 1, 0}, {32, 20}, 0, {1, 0, 0}, {4603176, 1534392, 1534392, 1534392},
     {THOUSAND, QUIET(7232804), IN_SAG(6465608), QUIET(7232804), THOUSAND}},
    {"K5", 7, SAME(1000, 899, 899, 919, 919, 920, 920), -1, 1,
     {{{1, 1, 5, 3, 6465608, 899, 4603176, 0, 1534392, 1534392, 1534392}, 0, {33, 21}, 0.202, 0.005}},
     {6, 2, 4, 0}, {33, 21}, 0, {1, 0, 0}, {4603176, 1534392, 1534392, 1534392},
     {QUIET(7232804), IN_SAG(6465608), IN_SAG(6611048), IN_SAG(6756488), IN_SAG(6763844), QUIET(6771200)}},
    {"K6", AROUND(0), -1, 2,
     {{{1, 1, 4, 3, 0, 0, 48000000, 0, 16000000, 16000000, 16000000}, 0, {1, 1}, 2, 0.06},
      {{2, 2, 3, 3, 0, 0, 0, 0, 0, 0, 0}, UNSCORED(4)}},
     {5, 2, 3, 0}, {1, 1}, 0, {1, 1, 0}, {48000000, 16000000, 16000000, 16000000},
     {THOUSAND, IN_SAG(4000000), {2, 3, 0, 0, 0}, IN_SAG(4000000), THOUSAND}},
    {"K7", 6, SAME(1000, 1000, 100, 101, 1000, 1000), -1, 1,
     {{{1, 1, 4, 3, 80804, 101, 47515176, 0, 15838392, 15838392, 15838392}, 0, {9, 6}, 1.798, 0.059}},
     {5, 2, 3, 0}, {9, 6}, 0, {1, 0, 0}, {47515176, 15838392, 15838392, 15838392},
     {THOUSAND, IN_SAG(4040000), IN_SAG(80804), IN_SAG(4040804), THOUSAND}},
    {"K8", 4, SAME(500, 500, 1000, 1000), -1, 1,
     {{{1, 0, 2, 2, 2000000, 500, 27000000, 0, 9000000, 9000000, 9000000}, UNSCORED(1)}},
     {3, 1, 2, 0}, UNPLACED, 1, {1, 0, 0}, {27000000, 9000000, 9000000, 9000000},
     {IN_SAG(2000000), IN_SAG(5000000), THOUSAND}},
    {"K9", 8, SAME(1000, 1000, 500, 500, 500, 500, 1000, 1000), 4 * BLOCK, 2,
     {{{1, 1, 3, 1, 2000000, 500, 27000000, 0, 9000000, 9000000, 9000000}, UNSCORED(2)},
      {{1, 5, 6, 2, 5000000, 791, 9000000, 0, 3000000, 3000000, 3000000}, UNSCORED(1)}},
     {7, 2, 3, 2}, UNPLACED, 2, {2, 0, 0}, {36000000, 12000000, 12000000, 12000000},
     {THOUSAND, IN_SAG(5000000), IN_SAG(2000000), GAP, GAP, IN_SAG(5000000), THOUSAND}},
    {"K10", AROUND(1200), -1, 1, {{{3, 1, 4, 3, 11520000, 1200, 0, 0, 0, 0, 0}, UNSCORED(4)}},
     {5, 2, 3, 0}, UNPLACED, 0, {0, 0, 1}, {0, 0, 0, 0},
     {THOUSAND, IN_SWELL(9760000), IN_SWELL(11520000), IN_SWELL(9760000), THOUSAND}},
    {"K11", 2, SAME(500, 500), -1, 1,
     {{{1, 0, 1, 0, 2000000, 500, 18000000, 0, 6000000, 6000000, 6000000}, UNSCORED(3)}},
     {1, 0, 1, 0}, UNPLACED, 1, {1, 0, 0}, {18000000, 6000000, 6000000, 6000000},
     {IN_SAG(2000000)}},
    {"K12", 6, {1000, 1000, 500, 500, 1000, 1000}, {1000, 1000, 1000, 1000, 1000, 1000}, -1, 1,
     {{{1, 1, 4, 3, 2000000, 500, 12000000, 4, 12000000, 0, 0}, 0, {17, 11}, 1, 0.015}},
     {5, 2, 3, 0}, {17, 11}, 0, {1, 0, 0}, {12000000, 12000000, 0, 0},
     {THOUSAND, {2, 1, 5000000, 8000000, 8000000}, {2, 1, 2000000, 8000000, 8000000},
      {2, 1, 5000000, 8000000, 8000000}, THOUSAND}},
    {"a at 700, b and c at 500", 6, {1000, 1000, 700, 700, 1000, 1000}, {1000, 1000, 500, 500, 1000, 1000}, -1, 1,
     {{{1, 1, 4, 3, 2000000, 500, 32160000, 4, 8160000, 12000000, 12000000}, 0, {17, 11}, 1, 0.04}},
     {5, 2, 3, 0}, {17, 11}, 0, {1, 0, 0}, {32160000, 8160000, 12000000, 12000000},
     {THOUSAND, {2, 1, 5960000, 5000000, 5000000}, {2, 1, 3920000, 2000000, 2000000},
      {2, 1, 5960000, 5000000, 5000000}, THOUSAND}},
};

#define CASES (sizeof known / sizeof known[0])

/* Events by their words alone. Sags at 899 on all channels, on both sides of the curve's last step: it stands at 800 while
   they last at most 20 f half-cycles, and at 900 after that. Then on both sides of a retained value's half, and each with
   the value that its extreme does not have. Then events whose last three words add up to the shortfall or don't. */
struct judged {
    const char *name;
    const uint64_t *settings;
    struct answer answer;
};

static const struct judged judged[] = {
    {"50 Hz, 1000 half-cycles", settings,
     {{1, 7, 1007, 3, 6465608, 899, 4603176000, 0, 1534392000, 1534392000, 1534392000}, 0, {37, 24}, 0.505, 5.753}},
    {"50 Hz, 1001 half-cycles", settings,
     {{1, 7, 1008, 3, 6465608, 899, 4607779176, 0, 1535926392, 1535926392, 1535926392}, 0, {37, 24}, 1.01, 5.759}},
    {"60 Hz, 1200 half-cycles", sixty,
     {{1, 7, 1207, 3, 6465608, 899, 5523811200, 0, 1841270400, 1841270400, 1841270400}, 0, {37, 24}, 0.505, 5.753}},
    {"60 Hz, 1201 half-cycles", sixty,
     {{1, 7, 1208, 3, 6465608, 899, 5528414376, 0, 1842804792, 1842804792, 1842804792}, 0, {37, 24}, 1.01, 5.758}},
    {"exactly 100.5", settings,
     {{1, 1, 4, 3, 80802, 101, 47515188, 0, 15838396, 15838396, 15838396}, 0, {9, 6}, 1.798, 0.059}},
    {"exactly 100.5, downward", settings,
     {{1, 1, 4, 3, 80802, 100, 47515188, 0, 15838396, 15838396, 15838396}, UNSCORED(5)}},
    {"a unit of S below 100.5", settings,
     {{1, 1, 4, 3, 80801, 100, 47515194, 0, 15838398, 15838398, 15838398}, 0, {9, 6}, 1.8, 0.059}},
    {"a unit of S below 100.5, upward", settings,
     {{1, 1, 4, 3, 80801, 101, 47515194, 0, 15838398, 15838398, 15838398}, UNSCORED(5)}},
    {"a unit of S below the sag threshold", settings,
     {{1, 1, 4, 3, 6479999, 900, 4560003, 0, 1520001, 1520001, 1520001}, 0, {33, 21}, 0.2, 0.005}},
    {"a unit of S below the sag threshold, downward", settings,
     {{1, 1, 4, 3, 6479999, 899, 4560003, 0, 1520001, 1520001, 1520001}, UNSCORED(5)}},
    {"all of K2's shortfall c's", settings,
     {{1, 1, 4, 3, 2000000, 500, 36000000, 0, 0, 0, 36000000}, 0, {17, 11}, 1, 0.045}},
    {"a sag's part a one too large", settings,
     {{1, 1, 4, 3, 2000000, 500, 36000000, 0, 12000001, 12000000, 12000000}, UNSCORED(5)}},
    {"a sag's part b one too small", settings,
     {{1, 1, 4, 3, 2000000, 500, 36000000, 0, 12000000, 11999999, 12000000}, UNSCORED(5)}},
    {"a sag's part c one too large", settings,
     {{1, 1, 4, 3, 2000000, 500, 36000000, 0, 12000000, 12000000, 12000001}, UNSCORED(5)}},
    {"an interruption with a part", settings, {{2, 2, 3, 3, 0, 0, 0, 0, 1, 0, 0}, UNSCORED(5)}},
    {"a swell with a part", settings, {{3, 1, 4, 3, 11520000, 1200, 0, 0, 0, 0, 1}, UNSCORED(5)}},
    {"a sag's parts that wrap round", settings,
     {{1, 1, 4, 3, 2000000, 500, 36000000, 0, TOP_BIT, TOP_BIT, 36000000}, UNSCORED(5)}},
    {"an interruption's parts that wrap round", settings, {{2, 2, 3, 3, 0, 0, 0, 0, TOP_BIT, TOP_BIT, 0}, UNSCORED(5)}},
    {"a swell's parts that wrap round", settings,
     {{3, 1, 4, 3, 11520000, 1200, 0, 0, UINT64_MAX, 0, 1}, UNSCORED(5)}},
};

#define JUDGED (sizeof judged / sizeof judged[0])

/* Sags on both sides of each border between rows. The recording is as K2's: a block at a level, then one with the same sum of
   squares or one unit more. The sag has h half-cycles, and the level is its retained value. */
struct deep {
    int32_t level, second[4];
    uint64_t h, extreme, cell[SETS];
};

#define FOUR(v) {v, v, v, v}

static const struct deep deep[] = {
    {100, FOUR(100), 3, 80000, {1, 1}},
    {100, {200, 1, 0, 0}, 3, 80001, {9, 6}},
    {400, FOUR(400), 3, 1280000, {9, 6}},
    {400, {800, 1, 0, 0}, 3, 1280001, {17, 11}},
    {700, FOUR(700), 3, 3920000, {17, 11}},
    {700, {1400, 1, 0, 0}, 3, 3920001, {25, 16}},
    {800, FOUR(800), 2, 5120000, {25, 16}},
    {800, {1600, 1, 0, 0}, 2, 5120001, {25, 21}},
    {850, FOUR(850), 1, 5780000, {24, 20}},
    {850, {1700, 1, 0, 0}, 1, 5780001, {32, 20}},
};

#define DEEP (sizeof deep / sizeof deep[0])

/* Sags of h half-cycles at 600, on both sides of each border between columns. */
struct lasting {
    const uint64_t *settings;
    uint64_t h, cell[SETS];
};

#define LONGEST 7200

static const struct lasting lasting[] = {
    {settings, 1, {16, 10}},    {settings, 2, {17, 11}},
    {settings, 9, {17, 11}},    {settings, 10, {18, 11}},
    {settings, 19, {18, 11}},   {settings, 20, {18, 12}},
    {settings, 49, {18, 12}},   {settings, 50, {19, 13}},
    {settings, 99, {19, 13}},   {settings, 100, {20, 13}},
    {settings, 299, {20, 13}},  {settings, 300, {21, 13}},
    {settings, 499, {21, 13}},  {settings, 500, {21, 14}},
    {settings, 1999, {21, 14}}, {settings, 2000, {22, 14}},
    {settings, 5999, {22, 14}}, {settings, 6000, {23, 14}},
    {sixty, 1, {16, 10}},       {sixty, 2, {17, 11}},
    {sixty, 11, {17, 11}},      {sixty, 12, {18, 11}},
    {sixty, 23, {18, 11}},      {sixty, 24, {18, 12}},
    {sixty, 59, {18, 12}},      {sixty, 60, {19, 13}},
    {sixty, 119, {19, 13}},     {sixty, 120, {20, 13}},
    {sixty, 359, {20, 13}},     {sixty, 360, {21, 13}},
    {sixty, 599, {21, 13}},     {sixty, 600, {21, 14}},
    {sixty, 2399, {21, 14}},    {sixty, 2400, {22, 14}},
    {sixty, 7199, {22, 14}},    {sixty, LONGEST, {23, 14}},
};

#define LASTING (sizeof lasting / sizeof lasting[0])

static int wrong = 0;

static void check(int good, const char *name, const char *what)
{
    if (!good) {
        fprintf(stderr, "%s: %s\n", name, what);
        wrong += 1;
    }
}

/* Whether all n numbers are v. */
static int all(const uint64_t *run, size_t n, uint64_t v)
{
    for (size_t i = 0; i < n; i++)
        if (run[i] != v)
            return 0;
    return 1;
}

static void fill(uint64_t *run, size_t n, uint64_t v)
{
    for (size_t i = 0; i < n; i++)
        run[i] = v;
}

/* The samples of a case; how many there are. */
static size_t samples_of(const struct known *k, int32_t *samples)
{
    for (size_t i = 0; i < BLOCK * k->blocks; i++)
        samples[i] = i % 3 == 0 ? k->a[i / BLOCK] : k->bc[i / BLOCK];
    if (k->missing >= 0)
        samples[k->missing] = INT32_MIN;
    return BLOCK * k->blocks;
}

/* What the three questions about one event gave; the floats are -1 where they were not written. */
struct told {
    uint64_t reason, cell, why;
    double severity, energy;
};

static struct told tell(const uint64_t *s, uint64_t set, const uint64_t *words)
{
    struct told t = {0, 0, 0, -1, -1};
    t.reason = burr_reason(SETTINGS(s), set, EVENT(words));
    t.cell = burr_cell(SETTINGS(s), set, EVENT(words));
    t.why = burr_score(SETTINGS(s), set, EVENT(words), &t.severity, &t.energy);
    return t;
}

static void check_told(const char *name, struct told t, uint64_t reason, uint64_t cell, double severity, double energy)
{
    check(t.reason == reason, name, "reason");
    check(t.cell == cell, name, "cell");
    check(t.why == reason, name, "score's reason");
    check(t.severity == severity, name, "severity");
    check(t.energy == energy, name, "energy");
}

/* An event without a score. */
static void unscored(const char *name, const uint64_t *s, uint64_t set, const uint64_t *words, uint64_t reason,
                     uint64_t cell)
{
    check_told(name, tell(s, set, words), reason, cell, -1, -1);
}

/* One event under settings s: by either set only the cell differs, and by an unknown one the reason is 6. */
static void ask(const char *name, const uint64_t *s, const struct answer *x)
{
    struct told t[SETS];
    for (uint64_t set = 0; set < SETS; set++) {
        t[set] = tell(s, set, x->words);
        check_told(name, t[set], x->reason, x->cell[set], x->severity, x->energy);
    }
    for (size_t i = 0; i < UNKNOWN; i++)
        unscored(name, s, unknown[i], x->words, 6, 40);
    printf("%s: reason %llu, cell %llu or %llu", name, (unsigned long long)t[0].reason, (unsigned long long)t[0].cell,
           (unsigned long long)t[1].cell);
    if (t[0].why == 0)
        printf(", severity %g, energy %g s", t[0].severity, t[0].energy);
    printf("\n");
}

/* The list, and each of its events. */
static void list(const struct known *k)
{
    int32_t samples[MOST_BLOCKS * BLOCK];
    size_t len = samples_of(k, samples);
    uint64_t events[ROOM], answer = 99;
    fill(events, ROOM, 9);
    check(burr_list(SETTINGS(settings), samples, len, events, ROOM, &answer) == 0, k->name, "list refused");
    check(answer == k->events, k->name, "number of events");
    for (size_t i = 0; i < k->events; i++) {
        check(memcmp(&events[BURR_EVENT * i], k->answers[i].words, sizeof k->answers[i].words) == 0, k->name, "words");
        ask(k->name, settings, &k->answers[i]);
    }
    check(all(&events[BURR_EVENT * k->events], ROOM - BURR_EVENT * k->events, 9), k->name, "beyond the last event");
    if (k->events == 0)
        printf("%s: no event\n", k->name);
}

/* The kinds of the listed events that have half-cycle k: 1 for a sag plus 2 for an interruption plus 4 for a swell. */
static uint64_t kinds_at(const uint64_t *events, size_t count, uint64_t k)
{
    uint64_t kinds = 0;
    for (const uint64_t *e = events; e < events + BURR_EVENT * count; e += BURR_EVENT)
        if (e[1] <= k && k < e[2])
            kinds += e[0] == 3 ? 4 : e[0];
    return kinds;
}

/* What is told of the half-cycles agrees with the other calls: their kinds with the list, their classes with the table. */
static void agree(const struct known *k, const int32_t *samples, size_t len, const uint64_t *halves)
{
    uint64_t events[ROOM] = {0}, table[BURR_TABLE], answer = 99, classes[3] = {0};
    burr_list(SETTINGS(settings), samples, len, events, ROOM, &answer);
    for (uint64_t i = 0; i < k->half[0]; i++) {
        const uint64_t *half = &halves[BURR_HALF * i];
        check(half[1] == kinds_at(events, k->events, i), k->name, "a half-cycle's kinds and the list");
        for (uint64_t which = 1; which <= 3; which++)
            classes[which - 1] += half[0] == which;
    }
    burr_fresh(SETTINGS(settings), BURR_UNIPEDE, table, &answer);
    burr_add(table, samples, len, &answer);
    check(memcmp(classes, &table[9], sizeof classes) == 0, k->name, "the half-cycles' classes and the table");
}

/* Each half-cycle, in a room just large enough and in one more than that. */
static void tell_halves(const struct known *k)
{
    int32_t samples[MOST_BLOCKS * BLOCK];
    size_t len = samples_of(k, samples), words = BURR_HALF * (k->blocks - 1);
    for (size_t room = words; room <= words + 1; room++) {
        uint64_t halves[HALVES_ROOM], answer = 99;
        fill(halves, HALVES_ROOM, 9);
        check(burr_halves(SETTINGS(settings), samples, len, halves, room, &answer) == 0, k->name, "halves refused");
        check(answer == k->blocks - 1, k->name, "number of half-cycles");
        check(memcmp(halves, k->halves, words * sizeof halves[0]) == 0, k->name, "half-cycles");
        check(all(&halves[words], HALVES_ROOM - words, 9), k->name, "beyond the last half-cycle");
        agree(k, samples, len, halves);
    }
}

/* The site table of a fresh site to which the case is added. The number beyond the table is nobody's to write. */
static void site(const struct known *k, uint64_t set)
{
    int32_t samples[MOST_BLOCKS * BLOCK];
    size_t len = samples_of(k, samples);
    uint64_t table[BURR_TABLE + 1], want[BURR_TABLE] = {0}, place = 99;
    fill(table, BURR_TABLE + 1, 9);
    check(burr_fresh(SETTINGS(settings), set, table, &place) == 0 && place == 0, k->name, "fresh");
    memcpy(want, settings, sizeof settings);
    want[7] = set;
    check(memcmp(table, want, sizeof want) == 0, k->name, "fresh table");
    place = 99;
    check(burr_add(table, samples, len, &place) == 0 && place == 0, k->name, "add");
    memcpy(&want[8], k->half, sizeof k->half);
    if (k->cell[set] != not_scored[set])
        want[12 + k->cell[set]] = 1;
    want[52] = k->unplaced;
    memcpy(&want[53], k->count, sizeof k->count);
    memcpy(&want[56], k->shortfall, sizeof k->shortfall);
    check(memcmp(table, want, sizeof want) == 0, k->name, "table");
    check(table[BURR_TABLE] == 9, k->name, "beyond the table");
}

/* A sag by its words and, where there are samples, as the only one of a fresh table: one cell of either set takes it. */
static void placed(const char *name, const uint64_t *s, const uint64_t *words, const int32_t *samples, size_t len,
                   const uint64_t cell[SETS])
{
    for (uint64_t set = 0; set < SETS; set++) {
        uint64_t table[BURR_TABLE], want[BURR_CELLS] = {0}, place = 99;
        check(burr_reason(SETTINGS(s), set, EVENT(words)) == 0, name, "reason");
        check(burr_cell(SETTINGS(s), set, EVENT(words)) == cell[set], name, "cell");
        if (len == 0)
            continue;
        want[cell[set]] = 1;
        burr_fresh(SETTINGS(s), set, table, &place);
        check(burr_add(table, samples, len, &place) == 0 && table[7] == set, name, "add");
        check(memcmp(&table[12], want, sizeof want) == 0, name, "table's cells");
    }
}

/* Both sides of each border. Sags of one and two half-cycles at 600 are placed by their words alone. */
static void borders(void)
{
    static int32_t samples[(LONGEST + 3) * BLOCK];
    char name[40];
    for (size_t i = 0; i < DEEP; i++) {
        const struct deep *d = &deep[i];
        uint64_t words[BURR_EVENT] = {1, 1, 1 + d->h, 3, d->extreme, (uint64_t)d->level};
        for (size_t at = 0; at < 6 * BLOCK; at++)
            samples[at] = at / BLOCK == 2 ? d->level : at / BLOCK == 3 ? d->second[at % BLOCK / 3] : 1000;
        snprintf(name, sizeof name, "extreme %llu", (unsigned long long)d->extreme);
        placed(name, settings, words, samples, 6 * BLOCK, d->cell);
    }
    for (size_t i = 0; i < LASTING; i++) {
        const struct lasting *l = &lasting[i];
        uint64_t words[BURR_EVENT] = {1, 1, 1 + l->h, 3, 2880000, 600};
        for (size_t at = 0; at < (l->h + 3) * BLOCK; at++)
            samples[at] = at / BLOCK < 2 || at / BLOCK > l->h ? 1000 : 600;
        snprintf(name, sizeof name, "%llu half-cycles, %llu Hz", (unsigned long long)l->h,
                 (unsigned long long)l->settings[2]);
        placed(name, l->settings, words, samples, l->h < 3 ? 0 : (l->h + 3) * BLOCK, l->cell);
    }
}

/* The half-cycles' refusal, with nothing written. */
static void halves_refused(const char *name, const uint64_t *s, const int32_t *samples, size_t len, size_t room,
                           uint64_t number, uint64_t place)
{
    uint64_t halves[HALVES_ROOM], answer = 99;
    fill(halves, HALVES_ROOM, 9);
    check(burr_halves(SETTINGS(s), samples, len, halves, room, &answer) == number, name, "halves' number");
    check(answer == place, name, "halves' place");
    check(all(halves, HALVES_ROOM, 9), name, "halves wrote");
}

/* A refusal of all calls that take samples, with all lent memory as it was; `number` 7 is here the list's alone. The samples
   are looked at before the half-cycles' room. */
static void refused(const char *name, const int32_t *samples, size_t len, size_t room, uint64_t number, uint64_t place)
{
    uint64_t events[ROOM], answer = 99;
    fill(events, ROOM, 9);
    check(burr_list(SETTINGS(settings), samples, len, events, room, &answer) == number, name, "list's number");
    check(answer == place, name, "list's place");
    check(all(events, ROOM, 9), name, "list wrote");
    if (number == 7)
        return;
    halves_refused(name, settings, samples, len, HALVES_ROOM, number, place);
    halves_refused(name, settings, samples, len, 0, number, place);
    for (uint64_t set = 0; set < SETS; set++) {
        uint64_t at = 99, table[BURR_TABLE], kept[BURR_TABLE];
        burr_fresh(SETTINGS(settings), set, table, &at);
        memcpy(kept, table, sizeof kept);
        at = 99;
        check(burr_add(table, samples, len, &at) == number, name, "add's number");
        check(at == place, name, "add's place");
        check(memcmp(table, kept, sizeof kept) == 0, name, "add wrote");
    }
}

/* Refusals 2 to 7, each where no earlier one applies. */
static void turned_away(void)
{
    int32_t samples[MOST_BLOCKS * BLOCK];
    size_t len = samples_of(&known[1], samples), long_len = 3 * 4 * 100002;
    int32_t *zeros = calloc(long_len, sizeof *zeros);
    if (zeros == NULL)
        exit(2);
    refused("length not a multiple of 3", samples, len - 1, ROOM, 2, 0);
    refused("no samples", samples, 0, ROOM, 3, 0);
    refused("seven samples a channel", samples, 21, ROOM, 3, 0);
    refused("nine samples a channel", samples, 27, ROOM, 4, 0);
    refused("100001 half-cycles", zeros, long_len, ROOM, 5, 0);
    refused("room 10", samples, len, 10, 7, 1);
    halves_refused("room for no half-cycle", settings, samples, len, 0, 7, 5);
    halves_refused("room one short of five half-cycles", settings, samples, len, 24, 7, 5);
    halves_refused("room one short of a half-cycle", settings, samples, 2 * BLOCK, 4, 7, 1);
    samples[20] = 100001;
    refused("a sample 100001", samples, len, ROOM, 6, 20);
    samples[19] = INT32_MIN + 1;
    refused("a sample beside missing", samples, len, ROOM, 6, 19);
    free(zeros);
}

/* K2 in a room for one event exactly: all of it is written, and nothing beyond. */
static void room_for_one(void)
{
    int32_t samples[MOST_BLOCKS * BLOCK];
    size_t len = samples_of(&known[1], samples);
    const struct answer *sag = &known[1].answers[0];
    uint64_t events[ROOM], answer = 99;
    fill(events, ROOM, 9);
    check(burr_list(SETTINGS(settings), samples, len, events, 11, &answer) == 0 && answer == 1, "room 11", "answer");
    check(memcmp(events, sag->words, sizeof sag->words) == 0, "room 11", "words");
    check(all(&events[11], ROOM - 11, 9), "room 11", "beyond the room");
}

/* The samples of K12 on one of the channels. */
static void low_channel(size_t channel, int32_t samples[6 * BLOCK])
{
    for (size_t i = 0; i < 6 * BLOCK; i++)
        samples[i] = i % 3 == channel && i / BLOCK / 2 == 1 ? 500 : 1000;
}

/* K12 on each channel in turn: it alone has a lower S, where the half-cycle has one block of 500 or two. */
static void halves_of_each_channel(void)
{
    static const uint64_t want[3][5][BURR_HALF] = {
        {THOUSAND, {2, 1, 5000000, 8000000, 8000000}, {2, 1, 2000000, 8000000, 8000000},
         {2, 1, 5000000, 8000000, 8000000}, THOUSAND},
        {THOUSAND, {2, 1, 8000000, 5000000, 8000000}, {2, 1, 8000000, 2000000, 8000000},
         {2, 1, 8000000, 5000000, 8000000}, THOUSAND},
        {THOUSAND, {2, 1, 8000000, 8000000, 5000000}, {2, 1, 8000000, 8000000, 2000000},
         {2, 1, 8000000, 8000000, 5000000}, THOUSAND},
    };
    for (size_t channel = 0; channel < 3; channel++) {
        int32_t samples[6 * BLOCK];
        uint64_t halves[HALVES_ROOM] = {0}, answer = 99;
        low_channel(channel, samples);
        check(burr_halves(SETTINGS(settings), samples, 6 * BLOCK, halves, HALVES_ROOM, &answer) == 0, "one channel",
              "halves refused");
        check(answer == 5 && memcmp(halves, want[channel], sizeof want[channel]) == 0, "one channel", "half-cycles");
    }
}

/* One half-cycle of the widest samples, of either sign: S is 8 x 10^10, more than 32 bits hold. */
static void widest(void)
{
    static const uint64_t want[BURR_HALF] = IN_SWELL(80000000000u);
    int32_t samples[2 * BLOCK];
    uint64_t halves[BURR_HALF] = {0}, answer = 99;
    for (size_t i = 0; i < 2 * BLOCK; i++)
        samples[i] = i % 2 == 0 ? 100000 : -100000;
    check(burr_halves(SETTINGS(settings), samples, 2 * BLOCK, halves, BURR_HALF, &answer) == 0, "widest", "halves refused");
    check(answer == 1 && memcmp(halves, want, sizeof want) == 0, "widest", "half-cycle");
}

/* K12 on each channel in turn: it alone has a shortfall, and the type is Ca, Cb or Cc. */
static void each_channel(void)
{
    static const uint64_t words[3][BURR_EVENT] = {
        {1, 1, 4, 3, 2000000, 500, 12000000, 4, 12000000, 0, 0},
        {1, 1, 4, 3, 2000000, 500, 12000000, 5, 0, 12000000, 0},
        {1, 1, 4, 3, 2000000, 500, 12000000, 6, 0, 0, 12000000},
    };
    for (size_t channel = 0; channel < 3; channel++) {
        int32_t samples[6 * BLOCK];
        uint64_t events[ROOM], answer = 99;
        low_channel(channel, samples);
        fill(events, ROOM, 9);
        check(burr_list(SETTINGS(settings), samples, 6 * BLOCK, events, ROOM, &answer) == 0, "one channel", "refused");
        check(answer == 1 && memcmp(events, words[channel], sizeof words[channel]) == 0, "one channel", "words");
        for (uint64_t set = 0; set < SETS; set++) {
            uint64_t table[BURR_TABLE], place = 99;
            burr_fresh(SETTINGS(settings), set, table, &place);
            check(burr_add(table, samples, 6 * BLOCK, &place) == 0, "one channel", "add");
            check(table[56] == 12000000, "one channel", "table's shortfall");
            check(memcmp(&table[57], &words[channel][8], 3 * sizeof table[0]) == 0, "one channel", "table's parts");
        }
    }
}

/* A table that is not made: refusal 1, and zeros all through. */
static void not_made(const char *name, const uint64_t *s, uint64_t set, uint64_t place)
{
    uint64_t table[BURR_TABLE + 1], at = 99;
    fill(table, BURR_TABLE + 1, 9);
    check(burr_fresh(SETTINGS(s), set, table, &at) == 1, name, "fresh's number");
    check(at == place, name, "fresh's place");
    check(all(table, BURR_TABLE, 0), name, "no table of zeros");
    check(table[BURR_TABLE] == 9, name, "beyond the table");
}

/* Refusal 1 at each setting in turn, the others good. It is told before an unknown set. */
static void bad_settings(void)
{
    static const uint64_t bad[7] = {9, 999, 55, 96, 0, 104, 6};
    const uint64_t *sag = known[1].answers[0].words;
    int32_t samples[MOST_BLOCKS * BLOCK];
    size_t len = samples_of(&known[1], samples);
    for (size_t i = 0; i < 7; i++) {
        uint64_t s[7], events[ROOM], answer = 99;
        memcpy(s, settings, sizeof s);
        s[i] = bad[i];
        fill(events, ROOM, 9);
        check(burr_list(SETTINGS(s), samples, len, events, ROOM, &answer) == 1, "bad setting", "list's number");
        check(answer == i + 1, "bad setting", "list's place");
        check(all(events, ROOM, 9), "bad setting", "list wrote");
        halves_refused("bad setting", s, samples, len, HALVES_ROOM, 1, i + 1);
        halves_refused("bad setting, no samples and no room", s, samples, 0, 0, 1, i + 1);
        for (uint64_t set = 0; set < SETS; set++) {
            not_made("bad setting", s, set, i + 1);
            unscored("bad setting", s, set, sag, 6, not_scored[set]);
        }
        for (size_t j = 0; j < UNKNOWN; j++) {
            not_made("bad setting, unknown set", s, unknown[j], i + 1);
            unscored("bad setting, unknown set", s, unknown[j], sag, 6, 40);
        }
    }
    for (size_t j = 0; j < UNKNOWN; j++)
        not_made("unknown set", settings, unknown[j], 8);
}

/* A table offered without samples: sound, where it is refused for having none, or unsound. */
static void offered(const char *name, const uint64_t table[BURR_TABLE], uint64_t number)
{
    static const int32_t samples[1] = {0};
    uint64_t lent[BURR_TABLE], place = 99;
    memcpy(lent, table, sizeof lent);
    check(burr_add(lent, samples, 0, &place) == number && place == 0, name, "answer");
    check(memcmp(lent, table, sizeof lent) == 0, name, "add wrote");
}

/* Refusals 8 and 9, with the table as it was. */
static void bad_tables(uint64_t set)
{
    int32_t samples[MOST_BLOCKS * BLOCK];
    size_t len = samples_of(&known[1], samples);
    uint64_t table[BURR_TABLE], kept[BURR_TABLE], place = 99;
    burr_fresh(SETTINGS(settings), set, table, &place);
    table[8] = table[9] = 3999996;
    memcpy(kept, table, sizeof kept);
    check(burr_add(table, samples, len, &place) == 8 && place == 4, "full table", "answer");
    check(memcmp(table, kept, sizeof kept) == 0, "full table", "add wrote");
    table[8] = table[9] = 3999995;
    check(burr_add(table, samples, len, &place) == 0 && table[8] == 4000000, "last five half-cycles", "answer");
    table[10] += 1;
    memcpy(kept, table, sizeof kept);
    place = 99;
    check(burr_add(table, samples, len, &place) == 9 && place == 0, "unsound table", "answer");
    check(memcmp(table, kept, sizeof kept) == 0, "unsound table", "add wrote");
    table[10] -= 1;
    for (size_t i = 0; i < UNKNOWN; i++) {
        table[7] = unknown[i];
        offered("table with an unknown set", table, 9);
    }
    fill(table, BURR_TABLE, UINT64_MAX);
    offered("largest table", table, 9);
    fill(table, BURR_TABLE, 0);
    table[7] = set;
    offered("zeros", table, 9);
}

/* A sag in each cell, counted among the sags or not. In a cell that the set does not have it is refused either way. */
static void cells_of_a_table(uint64_t set)
{
    uint64_t table[BURR_TABLE], place = 99;
    burr_fresh(SETTINGS(settings), set, table, &place);
    table[8] = table[10] = 5;
    for (uint64_t cell = 0; cell < BURR_CELLS; cell++) {
        table[12 + cell] = 1;
        offered("a sag in a cell, not counted", table, 9);
        table[53] = 1;
        offered("a sag in a cell", table, cell < not_scored[set] ? 3 : 9);
        table[12 + cell] = 0;
        offered("a sag in no cell", table, 9);
        table[53] = 0;
    }
    table[12] = table[12 + 24] = TOP_BIT;
    offered("cells that wrap round", table, 9);
    table[12] = table[12 + 24] = 0;
    table[12 + 25] = table[12 + 39] = TOP_BIT;
    offered("last cells that wrap round", table, 9);
}

/* K2 added twice to a table that has sags in all cells of its set, 1 + 2 + .. + 40 or 1 + 2 + .. + 25: the set stays, and
   nothing grows but what K2 adds to. */
static void every_cell(uint64_t set)
{
    static const uint64_t sags[SETS] = {820, 325};
    int32_t samples[MOST_BLOCKS * BLOCK];
    size_t len = samples_of(&known[1], samples);
    uint64_t table[BURR_TABLE], want[BURR_TABLE], place = 99;
    burr_fresh(SETTINGS(settings), set, table, &place);
    table[8] = table[10] = 1000;
    for (uint64_t cell = 0; cell < not_scored[set]; cell++)
        table[12 + cell] = 1 + cell;
    table[53] = sags[set];
    memcpy(want, table, sizeof want);
    check(burr_add(table, samples, len, &place) == 0, "every cell", "add");
    check(burr_add(table, samples, len, &place) == 0, "every cell", "second add");
    want[8] = 1010;
    want[9] = 4;
    want[10] = 1006;
    want[12 + known[1].cell[set]] += 2;
    want[53] += 2;
    want[56] = 72000000;
    want[57] = want[58] = want[59] = 24000000;
    check(memcmp(table, want, sizeof want) == 0, "every cell", "table");
}

/* A table with a shortfall and those of a, b and c. */
static void short_table(const char *name, const uint64_t *s, uint64_t total, const uint64_t shortfall[4], uint64_t number)
{
    for (uint64_t set = 0; set < SETS; set++) {
        uint64_t table[BURR_TABLE], place = 99;
        burr_fresh(SETTINGS(s), set, table, &place);
        table[8] = table[10] = total;
        memcpy(&table[56], shortfall, 4 * sizeof table[0]);
        offered(name, table, number);
    }
}

/* Shortfalls of a, b and c that add up to the whole or don't. Under the largest settings a full table's may be 15.36 x 10^18.
   Three that are each below 15 x 10^18 can be 2^64, which is 18446744073709551616, above it. */
static void short_tables(void)
{
    static const uint64_t most[7] = {512, 50000, 50, 90, 10, 110, 2};
    static const uint64_t split[4] = {120000000, 0, 0, 120000000};
    static const uint64_t above[4] = {120000001, 120000001, 0, 0};
    static const uint64_t a[4] = {36000000, 12000001, 12000000, 12000000};
    static const uint64_t b[4] = {36000000, 12000000, 11999999, 12000000};
    static const uint64_t c[4] = {36000000, 12000000, 12000000, 12000001};
    static const uint64_t whole[4] = {35999999, 12000000, 12000000, 12000000};
    static const uint64_t wraps[4] = {36000000, TOP_BIT, TOP_BIT, 36000000};
    static const uint64_t large[4] = {15000000000000000000u, 5000000000000000000u, 5000000000000000000u,
                                      5000000000000000000u};
    static const uint64_t below[4] = {15000000000000000000u, 12000000000000000000u, 12000000000000000000u,
                                      9446744073709551616u};
    short_table("all of the most shortfall c's", settings, 5, split, 3);
    short_table("one more than the most shortfall", settings, 5, above, 9);
    short_table("a's shortfall one too large", settings, 5, a, 9);
    short_table("b's shortfall one too small", settings, 5, b, 9);
    short_table("c's shortfall one too large", settings, 5, c, 9);
    short_table("the whole shortfall one too small", settings, 5, whole, 9);
    short_table("shortfalls that wrap round", settings, 5, wraps, 9);
    short_table("a large shortfall", most, 4000000, large, 3);
    short_table("shortfalls below a large one that wrap round", most, 4000000, below, 9);
}

/* The largest numbers: reason 5 under good settings and a set, 6 where settings or set are the largest too. */
static void largest(void)
{
    uint64_t most[BURR_EVENT];
    fill(most, BURR_EVENT, UINT64_MAX);
    for (uint64_t set = 0; set < SETS; set++) {
        unscored("largest event", settings, set, most, 5, not_scored[set]);
        unscored("largest settings and event", most, set, most, 6, not_scored[set]);
    }
    unscored("largest set and event", settings, UINT64_MAX, most, 6, 40);
    unscored("largest numbers", most, UINT64_MAX, most, 6, 40);
}

int main(void)
{
    check(BURR_UNIPEDE == 0 && BURR_UNIPEDE_CELLS == 40, "header", "set 0");
    check(BURR_IEC == 1 && BURR_IEC_CELLS == 25, "header", "set 1");
    check(BURR_HALF == 5, "header", "numbers of a half-cycle");
    for (size_t i = 0; i < CASES; i++) {
        list(&known[i]);
        tell_halves(&known[i]);
        for (uint64_t set = 0; set < SETS; set++)
            site(&known[i], set);
    }
    for (size_t i = 0; i < JUDGED; i++)
        ask(judged[i].name, judged[i].settings, &judged[i].answer);
    borders();
    turned_away();
    room_for_one();
    each_channel();
    halves_of_each_channel();
    widest();
    bad_settings();
    for (uint64_t set = 0; set < SETS; set++) {
        bad_tables(set);
        cells_of_a_table(set);
        every_cell(set);
    }
    short_tables();
    largest();
    if (wrong > 0)
        fprintf(stderr, "%d not as known\n", wrong);
    return wrong > 0;
}
