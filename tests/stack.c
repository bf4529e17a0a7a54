/* Measures the stack that each call needs: it runs in a thread whose stack was filled with one byte, and what is altered afterwards was
   used. Counted from the caller's frame down, so with the copies of arguments and result that the caller makes (most without
   optimisation, as this program is built). Full tables and all answers, so that every part of a call runs. Prints a line for each call,
   and fails where one needs more than the header says. */
#define _GNU_SOURCE
#include <moatbetony.h>

#include <pthread.h>
#include <stdio.h>
#include <stdlib.h>
#include <string.h>
#include <sys/mman.h>

enum { STACK = 1 << 20, FILL = 0xa5, RECORDS = MOATBETONY_CAPACITY, HALF = RECORDS / 2 };

/* What the calls are given, and where their results go; not on the stack. */
static moatbetony_pair_t pair, pair_half, pair_room, pair_to_send;
static moatbetony_home_t home, home_half, home_room, home_to_send;
static uint8_t pair_list[2 * HALF * 32], home_list[HALF * 32], one_arrival[32], one_sending[32], block[512], balances_block[512];
static uint64_t balances[MOATBETONY_MAX_ACCOUNTS];
static moatbetony_pair_outcome_t pair_outcome;
static moatbetony_pair_figures_t pair_figures;
static moatbetony_pair_places_t pair_places;
static moatbetony_home_outcome_t home_outcome;
static moatbetony_home_figures_t home_figures;
static moatbetony_home_places_t home_places;
static moatbetony_balance_t balance;
static moatbetony_record_t record;
static moatbetony_encoded_t encoded;
static moatbetony_charge_t charge;
static moatbetony_part_t part;
static moatbetony_count_t count;
static moatbetony_balances_t opening;
static moatbetony_digest_t digest;
static moatbetony_answer_t answer;
static uint32_t version;

static const char *frame; /* of the function that calls */

#define MEASURED(name, call)                            \
    static __attribute__((noinline)) void name(void)    \
    {                                                   \
        frame = (const char *)__builtin_frame_address(0); \
        call;                                           \
    }

MEASURED(m_version, version = moatbetony_version())
MEASURED(m_state_version, version = moatbetony_state_version())
MEASURED(m_pair_open, pair_outcome = moatbetony_pair_open(balances, 56, balances, 56, 50, 55))
MEASURED(m_pair_record, pair_outcome = moatbetony_pair_check_record(pair_room, one_arrival, 32))
MEASURED(m_pair_list, pair_outcome = moatbetony_pair_check_list(pair_half, pair_list, sizeof pair_list))
MEASURED(m_pair_figures, pair_figures = moatbetony_pair_figures(pair))
MEASURED(m_pair_balance, balance = moatbetony_pair_balance(pair, 1, 55))
MEASURED(m_pair_places, pair_places = moatbetony_pair_places_left(pair))
MEASURED(m_pair_take, answer = moatbetony_pair_take(&pair_room, one_arrival, 32))
MEASURED(m_pair_sending, pair_outcome = moatbetony_pair_check_record(pair_to_send, one_sending, 32))
MEASURED(m_pair_take_sending, answer = moatbetony_pair_take(&pair_to_send, one_sending, 32))
MEASURED(m_pair_take_list, answer = moatbetony_pair_take_list(&pair_half, pair_list, sizeof pair_list))
MEASURED(m_home_open, home_outcome = moatbetony_home_open(balances, 56, 56, 0, 50, 55))
MEASURED(m_home_record, home_outcome = moatbetony_home_check_record(home_room, one_arrival, 32))
MEASURED(m_home_list, home_outcome = moatbetony_home_check_list(home_half, home_list, sizeof home_list))
MEASURED(m_home_figures, home_figures = moatbetony_home_figures(home))
MEASURED(m_home_balance, balance = moatbetony_home_balance(home, 55))
MEASURED(m_home_places, home_places = moatbetony_home_places_left(home))
MEASURED(m_home_take, answer = moatbetony_home_take(&home_room, one_arrival, 32))
MEASURED(m_home_sending, home_outcome = moatbetony_home_check_record(home_to_send, one_sending, 32))
MEASURED(m_home_take_sending, answer = moatbetony_home_take(&home_to_send, one_sending, 32))
MEASURED(m_home_take_list, answer = moatbetony_home_take_list(&home_half, home_list, sizeof home_list))
MEASURED(m_record_read, record = moatbetony_record_read(one_arrival, 32))
MEASURED(m_record_encode, encoded = moatbetony_record_encode(1, 0, 2, 3, 4, 5, 1))
MEASURED(m_charge, charge = moatbetony_charge(9999, UINT64_MAX))
MEASURED(m_charge_52, charge = moatbetony_charge(10001, UINT64_MAX))
MEASURED(m_block_judge, answer = moatbetony_block_judge(block, 512, 3, 14))
MEASURED(m_block_judge_record, answer = moatbetony_block_judge_record(block, 512, 3, 14, 13))
MEASURED(m_block_record, part = moatbetony_block_record(block, 512, 3, 14, 13))
MEASURED(m_block_count, count = moatbetony_block_count(block, 512, 3, 14))
MEASURED(m_block_balances, opening = moatbetony_block_balances(balances_block, 512, 0, 0))
MEASURED(m_block_write, answer = moatbetony_block_write(block, 512, 3, 3, 0, 0, home_list, 14 * 32))
MEASURED(m_block_write_0, answer = moatbetony_block_write(balances_block, 512, 0, 1, 50, 55, home_list, 56 * 8))
MEASURED(m_sha256, digest = moatbetony_sha256(pair_list, sizeof pair_list - 5))

static void need(int holds, const char *what)
{
    if (!holds) {
        printf("FAILED: %s\n", what);
        exit(1);
    }
}

static void *run(void *call)
{
    (*(void (**)(void))call)();
    return NULL;
}

/* The bytes between the caller's frame and the lowest that were altered. */
static size_t used(void (*call)(void))
{
    static uint8_t *low;
    pthread_attr_t attributes;
    pthread_t thread;
    size_t i = 0;
    if (low == NULL) {
        void *mapped = mmap(NULL, STACK, PROT_READ | PROT_WRITE, MAP_PRIVATE | MAP_ANONYMOUS, -1, 0);
        need(mapped != MAP_FAILED, "memory for a stack");
        low = (uint8_t *)mapped;
    }
    memset(low, FILL, STACK);
    need(pthread_attr_init(&attributes) == 0 && pthread_attr_setstack(&attributes, low, STACK) == 0, "a stack for a thread");
    need(pthread_create(&thread, &attributes, run, &call) == 0 && pthread_join(thread, NULL) == 0, "a thread");
    pthread_attr_destroy(&attributes);
    while (i < STACK && low[i] == FILL)
        i++;
    need(i > 4096 && (const char *)low + i <= frame, "the stack that was measured is the thread's");
    return (size_t)(frame - (const char *)(low + i));
}

static int failed;

static void measure(const char *name, void (*call)(void), size_t limit)
{
    size_t most = used(call);
    printf("%-14s %7lu of %lu\n", name, (unsigned long)most, (unsigned long)limit);
    if (most > limit) {
        printf("FAILED: %s needs more than the header says\n", name);
        failed = 1;
    }
}

static void put_record(uint8_t *at, int kind, int ledger, uint64_t number)
{
    encoded = moatbetony_record_encode((uint8_t)kind, (uint8_t)ledger, (uint16_t)(number % 56), (uint16_t)(number / 56 % 56), number, 1, 1);
    need(encoded.answer.passed == 1, "a record to encode");
    memcpy(at, encoded.bytes, 32);
}

/* Sendings and arrivals under numbers that share their low bits, so that an index over them has one long chain. */
static void fill(void)
{
    uint8_t sendings[HALF * 32], arrivals[HALF * 32];
    uint64_t i;
    for (i = 0; i < MOATBETONY_MAX_ACCOUNTS; i++)
        balances[i] = UINT64_C(1) << 40;
    pair = moatbetony_pair_open(balances, 56, balances, 56, 50, 55).state;
    home = moatbetony_home_open(balances, 56, 56, UINT64_C(1) << 40, 50, 55).state;
    for (i = 0; i < HALF; i++) {
        put_record(sendings + 32 * i, MOATBETONY_SENDING, MOATBETONY_FAR, i << 16);
        put_record(arrivals + 32 * i, MOATBETONY_ARRIVAL, MOATBETONY_HOME, i << 16);
        put_record(pair_list + 64 * i, MOATBETONY_SENDING, MOATBETONY_FAR, (HALF + i) << 16);
        put_record(pair_list + 64 * i + 32, MOATBETONY_ARRIVAL, MOATBETONY_HOME, (HALF + i) << 16);
        put_record(home_list + 32 * i, MOATBETONY_ARRIVAL, MOATBETONY_HOME, (HALF + i) << 16);
    }
    memcpy(one_arrival, home_list + 32 * (HALF - 1), 32);
    put_record(one_sending, MOATBETONY_SENDING, MOATBETONY_HOME, RECORDS << 16);
    need(moatbetony_pair_take_list(&pair, sendings, sizeof sendings).passed == 1, "sendings");
    need(moatbetony_pair_take_list(&pair, arrivals, sizeof arrivals).passed == 1, "arrivals");
    need(moatbetony_home_take_list(&home, arrivals, sizeof arrivals).passed == 1, "arrivals at home");
    pair_half = pair_room = pair;
    home_half = home_room = home;
    need(moatbetony_pair_take_list(&pair_room, pair_list, sizeof pair_list - 32).passed == 1, "a pair list but for its last record");
    need(moatbetony_home_take_list(&home_room, home_list, sizeof home_list - 32).passed == 1, "a home list but for its last record");
    pair_to_send = pair_room;
    home_to_send = home_room;
    need(moatbetony_pair_take_list(&pair, pair_list, sizeof pair_list).passed == 1, "a pair list");
    need(moatbetony_home_take_list(&home, home_list, sizeof home_list).passed == 1, "a home list");
    need(pair.counts[0] == RECORDS && pair.counts[1] == RECORDS && home.count == RECORDS, "full tables");
    need(moatbetony_block_write(block, 512, 3, MOATBETONY_BLOCK_RECORDS, 0, 0, home_list, 14 * 32).passed == 1, "a block");
    need(moatbetony_block_write(balances_block, 512, 0, MOATBETONY_BLOCK_HOME_BALANCES, 50, 55, home_list, 56 * 8).passed == 1,
        "a block");
}

int main(void)
{
    fill();
    measure("pair_open", m_pair_open, MOATBETONY_STACK_PAIR);
    measure("pair_record", m_pair_record, MOATBETONY_STACK_PAIR);
    need(pair_outcome.answer.passed == 1, "the record passes");
    measure("pair_list", m_pair_list, MOATBETONY_STACK_PAIR);
    need(pair_outcome.answer.passed == 1, "the list passes");
    measure("pair_figures", m_pair_figures, MOATBETONY_STACK_PAIR);
    need(pair_figures.answer.passed == 1, "the figures pass");
    measure("pair_balance", m_pair_balance, MOATBETONY_STACK_PAIR);
    need(balance.answer.passed == 1, "the balance passes");
    measure("pair_places", m_pair_places, MOATBETONY_STACK_PAIR);
    need(pair_places.answer.passed == 1 && pair_places.home == 0 && pair_places.far == 0, "the places pass");
    measure("pair_take", m_pair_take, MOATBETONY_STACK_PAIR);
    need(answer.passed == 1, "the record passes");
    measure("pair_take, 24", m_pair_take, MOATBETONY_STACK_PAIR);
    need(answer.passed == 0 && answer.number == 24, "the record is refused");
    measure("pair, sending", m_pair_sending, MOATBETONY_STACK_PAIR);
    need(pair_outcome.answer.passed == 1, "the sending passes");
    measure("the same, take", m_pair_take_sending, MOATBETONY_STACK_PAIR);
    need(answer.passed == 1, "the sending passes");
    measure("pair_take_list", m_pair_take_list, MOATBETONY_STACK_PAIR);
    need(answer.passed == 1, "the list passes");
    measure("the same, 24", m_pair_take_list, MOATBETONY_STACK_PAIR);
    need(answer.passed == 0 && answer.number == 24, "the list is refused");
    measure("home_open", m_home_open, MOATBETONY_STACK_HOME);
    measure("home_record", m_home_record, MOATBETONY_STACK_HOME);
    need(home_outcome.answer.passed == 1, "the record passes");
    measure("home_list", m_home_list, MOATBETONY_STACK_HOME);
    need(home_outcome.answer.passed == 1, "the list passes");
    measure("home_figures", m_home_figures, MOATBETONY_STACK_HOME);
    need(home_figures.answer.passed == 1, "the figures pass");
    measure("home_balance", m_home_balance, MOATBETONY_STACK_HOME);
    need(balance.answer.passed == 1, "the balance passes");
    measure("home_places", m_home_places, MOATBETONY_STACK_HOME);
    need(home_places.answer.passed == 1 && home_places.home == 0, "the places pass");
    measure("home_take", m_home_take, MOATBETONY_STACK_HOME);
    need(answer.passed == 1, "the record passes");
    measure("home_take, 24", m_home_take, MOATBETONY_STACK_HOME);
    need(answer.passed == 0 && answer.number == 24, "the record is refused");
    measure("home, sending", m_home_sending, MOATBETONY_STACK_HOME);
    need(home_outcome.answer.passed == 1, "the sending passes");
    measure("the same, take", m_home_take_sending, MOATBETONY_STACK_HOME);
    need(answer.passed == 1, "the sending passes");
    measure("home_take_list", m_home_take_list, MOATBETONY_STACK_HOME);
    need(answer.passed == 1, "the list passes");
    measure("the same, 24", m_home_take_list, MOATBETONY_STACK_HOME);
    need(answer.passed == 0 && answer.number == 24, "the list is refused");
    measure("record_read", m_record_read, MOATBETONY_STACK_OTHER);
    need(record.answer.passed == 1, "the record reads");
    measure("record_encode", m_record_encode, MOATBETONY_STACK_OTHER);
    need(encoded.answer.passed == 1, "the record is encoded");
    measure("charge", m_charge, MOATBETONY_STACK_OTHER);
    need(charge.answer.passed == 1, "the charge passes");
    measure("charge, 52", m_charge_52, MOATBETONY_STACK_OTHER);
    need(charge.answer.passed == 0 && charge.answer.number == 52, "the rate is refused");
    measure("block_judge", m_block_judge, MOATBETONY_STACK_OTHER);
    need(answer.passed == 1, "the block passes");
    measure("block_judge_r.", m_block_judge_record, MOATBETONY_STACK_OTHER);
    need(answer.passed == 1, "the place passes");
    measure("block_record", m_block_record, MOATBETONY_STACK_OTHER);
    need(part.answer.passed == 1, "the part passes");
    measure("block_count", m_block_count, MOATBETONY_STACK_OTHER);
    need(count.answer.passed == 1, "the count passes");
    measure("block_balances", m_block_balances, MOATBETONY_STACK_OTHER);
    need(opening.answer.passed == 1, "the balances pass");
    measure("block_write", m_block_write, MOATBETONY_STACK_OTHER);
    need(answer.passed == 1, "the write passes");
    measure("block_write, 0", m_block_write_0, MOATBETONY_STACK_OTHER);
    need(answer.passed == 1, "the write passes");
    measure("sha256", m_sha256, MOATBETONY_STACK_OTHER);
    measure("version", m_version, MOATBETONY_STACK_OTHER);
    measure("state_version", m_state_version, MOATBETONY_STACK_OTHER);
    return failed;
}
