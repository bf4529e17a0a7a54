/* Both validators beside those of an earlier build: see bench/before. */
#define _GNU_SOURCE
#include <stdint.h>
#include <stdio.h>
#include <stdlib.h>
#include <string.h>
#include <time.h>
#include "moatbetony.h"
#include "old_moatbetony.h"

/* An opening of the earlier build without a charge: from 0.6.0 on it tells rate and charge account, before there is none. */
#if OLD_MOATBETONY_VERSION < 600
#define OLD_OPEN(open, ...) open(__VA_ARGS__)
#else
#define OLD_OPEN(open, ...) open(__VA_ARGS__, 0, 0)
#endif

#define HELD (MOATBETONY_CAPACITY - 1)
#define RUNS 401
enum { OLD_RECORD, RECORD, OLD_TAKE, TAKE, OLD_LIST, LIST, TAKE_LIST, ALL_PAIRS, TIMED };
/* Numbers one after the other, at random, and with shared low bits; then the first and the last of these with each number in both classes,
   arrivals and all others, which an earlier build may refuse: that is then not timed. */
enum { CONSECUTIVE, RANDOM, SHARED, TWICE, SHARED_TWICE, NUMBERS };
static const char *const names[] = {"consecutive", "random", "shared", "consecutive in both classes", "shared in both classes"};

static double times[TIMED][RUNS];
static uint8_t list[64 * HELD];
static uint8_t last[32];
static char page[1 << 20] __attribute__((aligned(4096))); /* each call hands its state back at another place */
static size_t place;
static uint64_t seed;

static double now(void)
{
    struct timespec t;
    clock_gettime(CLOCK_MONOTONIC, &t);
    return (double)t.tv_sec * 1e9 + (double)t.tv_nsec;
}

static uint64_t mixed(uint64_t k)
{
    uint64_t x = k * 0x9e3779b97f4a7c15u;
    x = (x ^ x >> 30) * 0xbf58476d1ce4e5b9u;
    x = (x ^ x >> 27) * 0x94d049bb133111ebu;
    return x ^ x >> 31;
}

static uint64_t below(uint64_t n) { return mixed(++seed) % n; }

static int is_twice(int numbers) { return numbers >= TWICE; }

static int is_shared(int numbers) { return numbers == SHARED || numbers == SHARED_TWICE; }

static uint64_t number(int numbers, uint64_t i)
{
    uint64_t n = is_twice(numbers) ? i / 2 : i;
    return is_shared(numbers) ? (n << 12) + 5 : numbers == RANDOM ? mixed(n) : n + 1;
}

static void put(uint8_t *bytes, uint64_t x)
{
    for (int i = 0; i < 8; i++)
        bytes[i] = (uint8_t)(x >> (56 - 8 * i));
}

static void record(uint8_t *b, int kind, int ledger, uint64_t n)
{
    memset(b, 0, 32);
    b[0] = (uint8_t)kind, b[1] = (uint8_t)ledger, b[3] = (uint8_t)below(56), b[5] = (uint8_t)below(56), b[24] = 1;
    put(b + 8, n), put(b + 16, 1 + below(1000));
}

static int compare(const void *a, const void *b)
{
    double x = *(const double *)a, y = *(const double *)b;
    return (x > y) - (x < y);
}

static double median(int what)
{
    qsort(times[what], RUNS, sizeof(double), compare);
    return times[what][RUNS / 2];
}

static void must(int passed)
{
    if (!passed)
        exit(1);
}

#define TIME(what, count, ...)                                                                                                             \
    do {                                                                                                                                   \
        double began = now();                                                                                                              \
        for (int j = 0; j < (count); j++) {                                                                                                \
            place = (place + 272) % 4096;                                                                                                  \
            __VA_ARGS__;                                                                                                                   \
        }                                                                                                                                  \
        times[what][run] = (now() - began) / (count);                                                                                      \
    } while (0)

static void print(const char *validator, int numbers, size_t records)
{
    double old = median(OLD_RECORD), value = median(RECORD), old_take = median(OLD_TAKE), in_place = median(TAKE);
    double old_list = median(OLD_LIST) / (double)records, by_list = median(LIST) / (double)records;
    double in_place_list = median(TAKE_LIST) / (double)records;
    if (is_twice(numbers))
        printf("%s, %s: record by value %.0f, in place %.0f; a list's record by value %.1f, in place %.1f\n", validator, names[numbers],
            value, in_place, by_list, in_place_list);
    else
        printf("%s, %s: record by value %.0f, %.0f (%.2f), in place %.0f, %.0f (%.2f); a list's record by value %.1f, %.1f (%.2f), in place %.1f\n",
            validator, names[numbers], old, value, value / old, old_take, in_place, in_place / old_take, old_list, by_list,
            by_list / old_list, in_place_list);
    if (is_shared(numbers)) {
        double pairs = median(ALL_PAIRS);
        printf("%s, %s: comparing all pairs %.0f, in place %.2f of it\n", validator, names[numbers], pairs, in_place / pairs);
    }
}

static int is_arrival(const moatbetony_held_t *record) { return record->head >> 56 == 3; }

/* Whether one of n records has the number of another one, and is of its class. */
__attribute__((noinline, aligned(64))) static int has_number(const moatbetony_held_t *records, uint64_t n, const moatbetony_held_t *other)
{
    for (uint64_t j = 0; j < n; j++)
        if (records[j].number == other->number && is_arrival(records + j) == is_arrival(other))
            return 1;
    return 0;
}

/* Whether no two of n records of a class share their number, by comparing all pairs. */
static int are_apart(const moatbetony_held_t *records, uint64_t n)
{
    for (uint64_t i = 0; i < n; i++)
        if (has_number(records, i, records + i))
            return 0;
    return 1;
}

/* Whether each arrival among n records has its sending among m of the other ledger, by comparing it with them in turn. */
static int are_sent(const moatbetony_held_t *records, uint64_t n, const moatbetony_held_t *others, uint64_t m, uint64_t other)
{
    for (uint64_t i = 0; i < n; i++) {
        if (records[i].head >> 56 != 3)
            continue;
        uint64_t head = (uint64_t)2 << 56 | other << 48 | records[i].head << 16 >> 16, j = 0;
        while (j < m && !(others[j].number == records[i].number && others[j].head == head && others[j].amount == records[i].amount))
            j++;
        if (j == m)
            return 0;
    }
    return 1;
}

static void home(const uint64_t *balances, int numbers)
{
    static moatbetony_home_t empty, full, lent;
    static old_moatbetony_home_t old_empty, old_full, old_lent;
    seed = (uint64_t)1 << 32;
    for (int i = 0; i < HELD; i++)
        record(list + 32 * i, !is_twice(numbers) ? 1 + (int)below(3) : i % 2 ? 3 : 1 + (int)below(2), 0, number(numbers, (uint64_t)i));
    record(last, 3, 0, number(numbers, HELD + 6));
    empty = moatbetony_home_open(balances, 56, 56, (uint64_t)56 << 40, 0, 0).state;
    old_empty = OLD_OPEN(old_moatbetony_home_open, balances, 56, 56, (uint64_t)56 << 40).state;
    full = moatbetony_home_check_list(empty, list, 32 * HELD).state;
    must(full.count == HELD);
    old_full = old_moatbetony_home_check_list(old_empty, list, 32 * HELD).state;
    lent = full, old_lent = old_full;
    for (int run = 0; run < RUNS; run++) {
        if (!is_twice(numbers)) {
            TIME(OLD_RECORD, 20, old_moatbetony_home_outcome_t *o = (void *)(page + place);
                 *o = old_moatbetony_home_check_record(old_full, last, 32); must((int)o->answer.passed));
            TIME(OLD_TAKE, 20, must((int)old_moatbetony_home_take(&old_lent, last, 32).passed); old_lent.pool = old_full.pool;
                 old_lent.count = old_full.count; old_lent.balances[last[5]] = old_full.balances[last[5]]);
        }
        TIME(RECORD, 20, moatbetony_home_outcome_t *o = (void *)(page + place); *o = moatbetony_home_check_record(full, last, 32);
             must((int)o->answer.passed));
        TIME(TAKE, 20, must((int)moatbetony_home_take(&lent, last, 32).passed); lent.pool = full.pool; lent.count = full.count;
             lent.balances[last[5]] = full.balances[last[5]]);
        if (!is_twice(numbers))
            TIME(OLD_LIST, 2, old_moatbetony_home_outcome_t *o = (void *)(page + place);
                 *o = old_moatbetony_home_check_list(old_empty, list, 32 * HELD); must((int)o->answer.passed));
        TIME(LIST, 2, moatbetony_home_outcome_t *o = (void *)(page + place); *o = moatbetony_home_check_list(empty, list, 32 * HELD);
             must((int)o->answer.passed));
        TIME(TAKE_LIST, 2, moatbetony_home_t *s = (void *)(page + place); *s = empty;
             must((int)moatbetony_home_take_list(s, list, 32 * HELD).passed));
        if (is_shared(numbers))
            TIME(ALL_PAIRS, 20, must(are_apart(lent.records, lent.count)));
    }
    print("home", numbers, HELD);
}

static void pair(const uint64_t *balances, int numbers)
{
    static moatbetony_pair_t empty, full, lent;
    static old_moatbetony_pair_t old_empty, old_full, old_lent;
    seed = (uint64_t)1 << 33;
    for (int i = 0; i < HELD; i++) { /* a home record, and its arrival or a far local under its number; or crossings both ways */
        uint8_t *b = list + 64 * i;
        record(b, is_twice(numbers) ? 2 : 1 + (int)below(2), is_twice(numbers) ? i % 2 : 0, number(numbers, (uint64_t)i));
        memcpy(b + 32, b, 32);
        b[32] = b[0] == 2 ? 3 : 1, b[33] = 1 - b[1];
    }
    record(last, 1, 0, number(numbers, HELD + 6));
    empty = moatbetony_pair_open(balances, 56, balances, 56, 0, 0).state;
    old_empty = OLD_OPEN(old_moatbetony_pair_open, balances, 56, balances, 56).state;
    full = moatbetony_pair_check_list(empty, list, sizeof list).state;
    must(full.counts[0] == HELD && full.counts[1] == HELD);
    old_full = old_moatbetony_pair_check_list(old_empty, list, sizeof list).state;
    lent = full, old_lent = old_full;
    for (int run = 0; run < RUNS; run++) {
        if (!is_twice(numbers)) {
            TIME(OLD_RECORD, 10, old_moatbetony_pair_outcome_t *o = (void *)(page + place);
                 *o = old_moatbetony_pair_check_record(old_full, last, 32); must((int)o->answer.passed));
            TIME(OLD_TAKE, 10, must((int)old_moatbetony_pair_take(&old_lent, last, 32).passed); old_lent.counts[0] = old_full.counts[0];
                 old_lent.balances[0][last[3]] = old_full.balances[0][last[3]];
                 old_lent.balances[0][last[5]] = old_full.balances[0][last[5]]);
        }
        TIME(RECORD, 10, moatbetony_pair_outcome_t *o = (void *)(page + place); *o = moatbetony_pair_check_record(full, last, 32);
             must((int)o->answer.passed));
        TIME(TAKE, 10, must((int)moatbetony_pair_take(&lent, last, 32).passed); lent.counts[0] = full.counts[0];
             lent.balances[0][last[3]] = full.balances[0][last[3]]; lent.balances[0][last[5]] = full.balances[0][last[5]]);
        if (!is_twice(numbers))
            TIME(OLD_LIST, 1, old_moatbetony_pair_outcome_t *o = (void *)(page + place);
                 *o = old_moatbetony_pair_check_list(old_empty, list, sizeof list); must((int)o->answer.passed));
        TIME(LIST, 1, moatbetony_pair_outcome_t *o = (void *)(page + place); *o = moatbetony_pair_check_list(empty, list, sizeof list);
             must((int)o->answer.passed));
        TIME(TAKE_LIST, 1, moatbetony_pair_t *s = (void *)(page + place); *s = empty;
             must((int)moatbetony_pair_take_list(s, list, sizeof list).passed));
        if (is_shared(numbers))
            TIME(ALL_PAIRS, 10, must(are_apart(lent.records[0], lent.counts[0]) && are_apart(lent.records[1], lent.counts[1]) &&
                 are_sent(lent.records[0], lent.counts[0], lent.records[1], lent.counts[1], 1) &&
                 are_sent(lent.records[1], lent.counts[1], lent.records[0], lent.counts[0], 0)));
    }
    print("pair", numbers, 2 * HELD);
}

int main(void)
{
    uint64_t balances[56];
    for (int i = 0; i < 56; i++)
        balances[i] = (uint64_t)1 << 40;
    for (int numbers = 0; numbers < NUMBERS; numbers++) {
        home(balances, numbers);
        pair(balances, numbers);
    }
    return 0;
}
