/* The calls in place beside the calls by value, from the same state and with the same bytes: the same answer, and every byte of the states
   the same. A refusal leaves every byte as it was, also where no bytes are handed in and where the state is damaged; a pass alters the
   state as the call by value does. The states run from empty to full tables, and each word of some of them is damaged in turn. A state in
   place ends at a page that nobody may touch, and what stands before it stays. The last line is 'N checks, 0 failed'. */
#ifndef _GNU_SOURCE
#define _GNU_SOURCE
#endif
#include <moatbetony.h>

#include <stdio.h>
#include <stdlib.h>
#include <string.h>
#include <sys/mman.h>

/* The name that 0.1.0 had for number 0. The header has it no more, under any meaning: else this does not compile. */
enum { MOATBETONY_PASSED = 1 };

enum { PAGE = 4096, MARK = 0x5a, RECORD = MOATBETONY_RECORD_SIZE };

static long checks, failed, passed, refused;

static void check(int holds, const char *what, const char *where)
{
    checks++;
    if (!holds) {
        failed++;
        printf("FAILED: %s, %s\n", what, where);
    }
}

/* ## States to lend */

/* Memory of so many bytes that ends where a page begins that nobody may touch, with a page of marks before it. */
static uint8_t *lent(size_t size)
{
    size_t room = (size + PAGE - 1) / PAGE * PAGE + PAGE;
    void *mapped = mmap(NULL, room + PAGE, PROT_READ | PROT_WRITE, MAP_PRIVATE | MAP_ANONYMOUS, -1, 0);
    uint8_t *start = (uint8_t *)mapped;
    if (mapped == MAP_FAILED || mprotect(start + room, PAGE, PROT_NONE) != 0) {
        printf("FAILED: no memory with a page after it that nobody may touch\n");
        exit(1);
    }
    memset(start, MARK, room);
    return start + room - size;
}

static int is_marked(const uint8_t *end)
{
    int i;
    for (i = 1; i <= PAGE; i++)
        if (end[-i] != MARK)
            return 0;
    return 1;
}

/* ## A call in place and its call by value */

static int same(moatbetony_answer_t a, moatbetony_answer_t b)
{
    return a.number == b.number && a.passed == b.passed && a.place == b.place;
}

static void tell(moatbetony_answer_t a, int is_as_it_was, const char *where)
{
    check(a.passed == (a.number == MOATBETONY_NO_REFUSAL ? 1u : 0u), "passed with number 0 and refused with another", where);
    check(a.passed || is_as_it_was, "a refusal leaves the state as it was", where);
    if (a.passed)
        passed++;
    else
        refused++;
}

#define BOTH_WAYS(validator)                                                                                                      \
    static moatbetony_answer_t validator##_both(                                                                                  \
        const moatbetony_##validator##_t *from, const uint8_t *bytes, size_t length, int is_list, const char *where)              \
    {                                                                                                                             \
        static moatbetony_##validator##_t *state;                                                                                 \
        static moatbetony_##validator##_outcome_t o;                                                                              \
        moatbetony_answer_t a;                                                                                                    \
        if (state == NULL)                                                                                                        \
            state = (moatbetony_##validator##_t *)(void *)lent(sizeof *state);                                                    \
        *state = *from;                                                                                                           \
        a = is_list ? moatbetony_##validator##_take_list(state, bytes, length)                                                    \
                    : moatbetony_##validator##_take(state, bytes, length);                                                        \
        o = is_list ? moatbetony_##validator##_check_list(*from, bytes, length)                                                   \
                    : moatbetony_##validator##_check_record(*from, bytes, length);                                                \
        check(same(a, o.answer), "the answer in place as by value", where);                                                       \
        check(memcmp(state, &o.state, sizeof *state) == 0, "the state in place as by value", where);                              \
        check(is_marked((const uint8_t *)state), "what stands before the state", where);                                          \
        tell(a, memcmp(state, from, sizeof *state) == 0, where);                                                                  \
        return a;                                                                                                                 \
    }                                                                                                                             \
                                                                                                                                  \
    /* One record and a list, these bytes and none. */                                                                            \
    static void validator##_all(const moatbetony_##validator##_t *from, const uint8_t *bytes, size_t length, const char *where)   \
    {                                                                                                                             \
        validator##_both(from, bytes, length, 0, where);                                                                          \
        validator##_both(from, bytes, length, 1, where);                                                                          \
        validator##_both(from, NULL, 0, 0, where);                                                                                \
        validator##_both(from, NULL, 0, 1, where);                                                                                \
    }                                                                                                                             \
                                                                                                                                  \
    /* Each word altered in turn, and put back. */                                                                                \
    static void validator##_damaged(const moatbetony_##validator##_t *good, const uint8_t *bytes, size_t length)                  \
    {                                                                                                                             \
        static moatbetony_##validator##_t from;                                                                                   \
        uint64_t word;                                                                                                            \
        size_t i;                                                                                                                 \
        for (i = 0; i < sizeof from / sizeof word; i++) {                                                                         \
            from = *good;                                                                                                         \
            memcpy(&word, (const uint8_t *)good + 8 * i, sizeof word);                                                            \
            word ^= UINT64_C(1) << i % 64;                                                                                        \
            memcpy((uint8_t *)&from + 8 * i, &word, sizeof word);                                                                 \
            validator##_both(&from, bytes, length, 0, #validator ", one word altered, a record");                                 \
            validator##_both(&from, bytes, length, 1, #validator ", one word altered, a list");                                   \
            word = i % 2 == 0 ? UINT64_MAX : 0;                                                                                   \
            memcpy((uint8_t *)&from + 8 * i, &word, sizeof word);                                                                 \
            validator##_both(&from, NULL, 0, (int)(i % 3 == 0), #validator ", one word of zeros or ones");                        \
        }                                                                                                                         \
    }

BOTH_WAYS(pair)
BOTH_WAYS(home)

/* ## Records */

static uint64_t seed = 88172645463325252u;

static uint64_t below(uint64_t n)
{
    seed ^= seed << 13;
    seed ^= seed >> 7;
    seed ^= seed << 17;
    return (seed >> 11) % n;
}

static void put_record(uint8_t *at, int kind, int ledger, unsigned sender, unsigned receiver, uint64_t number, uint64_t amount)
{
    int i;
    memset(at, 0, RECORD);
    at[0] = (uint8_t)kind;
    at[1] = (uint8_t)ledger;
    at[3] = (uint8_t)sender;
    at[5] = (uint8_t)receiver;
    for (i = 0; i < 8; i++) {
        at[8 + i] = (uint8_t)(number >> (56 - 8 * i));
        at[16 + i] = (uint8_t)(amount >> (56 - 8 * i));
    }
    at[24] = MOATBETONY_SIGNATURE_GOOD;
}

/* A record that mostly passes: of an open account, under a number not used before. Every so often a wrong one. */
static void put_any(uint8_t *at, int ledger, uint64_t number)
{
    int kind = (int)(1 + below(3));
    if (kind == MOATBETONY_ARRIVAL && below(4) != 0)
        kind = MOATBETONY_LOCAL;
    put_record(at, kind, ledger, (unsigned)below(3), (unsigned)below(3), below(12) == 0 ? number / 2 : number, 1 + below(40));
    if (below(12) == 0)
        at[below(RECORD)] ^= (uint8_t)(1u << below(8));
}

/* ## Runs from an opening to full tables */

static const uint64_t BALANCES[3] = {100000, 50000, 2000};
enum { RATE = 2500, CHARGE_ACCOUNT = 2 };

static void pair_run(void)
{
    static uint8_t list[6 * RECORD];
    static moatbetony_pair_t from;
    moatbetony_pair_outcome_t opened = moatbetony_pair_open(BALANCES, 3, BALANCES, 3, RATE, CHARGE_ACCOUNT);
    uint64_t number, i;
    check(opened.answer.passed == 1, "an opening", "pair");
    from = opened.state;
    memset(from.records, 0xaa, sizeof from.records); /* what stands beyond the counts */
    for (number = 1; from.counts[0] < MOATBETONY_CAPACITY || from.counts[1] < MOATBETONY_CAPACITY; number += 6) {
        for (i = 0; i < 6; i++)
            put_any(list + RECORD * i, (int)below(2), number + i);
        pair_all(&from, list, RECORD, "pair, a record of a run");
        pair_both(&from, list, RECORD * (2 + below(4)) + (below(8) == 0), 1, "pair, a list of a run");
        if (moatbetony_pair_take(&from, list, RECORD).passed && below(4) == 0) {
            put_record(list, MOATBETONY_SENDING, 0, 0, 1, number + 1000000, 7);
            put_record(list + RECORD, MOATBETONY_ARRIVAL, 1, 0, 1, number + 1000000, 7);
            if (pair_both(&from, list, 2 * RECORD, 1, "pair, a crossing").passed)
                check(moatbetony_pair_take_list(&from, list, 2 * RECORD).passed == 1, "a crossing passes again", "pair");
        }
        if (number % 606 == 1 && number < 1900)
            pair_damaged(&from, list + 2 * RECORD, 3 * RECORD);
    }
    pair_damaged(&from, list, RECORD);
    put_record(list, MOATBETONY_LOCAL, 0, 0, 0, 2000000, 1);
    check(pair_both(&from, list, RECORD, 0, "pair, full").number == MOATBETONY_REFUSED_FULL, "41", "pair");
    check(pair_both(&from, list, RECORD, 1, "pair, full").number == MOATBETONY_REFUSED_FULL, "41", "pair");
}

static void home_run(void)
{
    static uint8_t list[6 * RECORD];
    static moatbetony_home_t from;
    moatbetony_home_outcome_t opened = moatbetony_home_open(BALANCES, 3, 3, 90, RATE, CHARGE_ACCOUNT);
    uint64_t number, i;
    check(opened.answer.passed == 1, "an opening", "home");
    from = opened.state;
    memset(from.records, 0xaa, sizeof from.records);
    for (number = 1; from.count < MOATBETONY_CAPACITY; number += 6) {
        for (i = 0; i < 6; i++)
            put_any(list + RECORD * i, (int)(below(16) == 0), number + i);
        home_all(&from, list, RECORD, "home, a record of a run");
        home_both(&from, list, RECORD * (2 + below(4)) + (below(8) == 0), 1, "home, a list of a run");
        if (moatbetony_home_take(&from, list, RECORD).passed && number % 4 == 1)
            home_all(&from, list + RECORD, 5 * RECORD, "home, a list of a run");
        if (number % 606 == 1 && number < 1900)
            home_damaged(&from, list + 2 * RECORD, 3 * RECORD);
    }
    home_damaged(&from, list, RECORD);
    put_record(list, MOATBETONY_LOCAL, 0, 0, 0, 2000000, 1);
    check(home_both(&from, list, RECORD, 0, "home, full").number == MOATBETONY_REFUSED_FULL, "41", "home");
    check(home_both(&from, list, RECORD, 1, "home, full").number == MOATBETONY_REFUSED_FULL, "41", "home");
}

/* States that no opening gives: zeros, ones. */
static void no_states(void)
{
    static moatbetony_pair_t pair;
    static moatbetony_home_t home;
    uint8_t record[RECORD];
    put_record(record, MOATBETONY_LOCAL, 0, 0, 0, 1, 1);
    pair_all(&pair, record, RECORD, "pair, a state of zeros");
    home_all(&home, record, RECORD, "home, a state of zeros");
    memset(&pair, 0xff, sizeof pair);
    memset(&home, 0xff, sizeof home);
    pair_all(&pair, record, RECORD, "pair, a state of ones");
    home_all(&home, record, RECORD, "home, a state of ones");
}

int main(void)
{
    no_states();
    pair_run();
    home_run();
    check(passed > 1000 && refused > 1000, "both answers were looked at", "all calls");
    printf("%ld checks, %ld failed\n", checks, failed);
    return failed != 0;
}
