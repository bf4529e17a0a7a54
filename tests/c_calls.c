/* Calls every export and helper of moatbetony.h with good and bad input: the cases of document 01 at this boundary, the charge of document
   02 (U3), wrong lengths, NULL with length 0, forged states, refused writes; the calls in place beside those by value. Arguments are
   chosen so that a wrong width or order in the header shows. Records and blocks are made here by hand, and not by the calls under test.
   Bytes are lent where they end at a page that nobody may touch, and results come back over what stood there before. The last line is
   'N checks, 0 failed'. */
#ifndef _GNU_SOURCE
#define _GNU_SOURCE
#endif
#include <moatbetony.h>

#include <stdio.h>
#include <stdlib.h>
#include <string.h>
#include <sys/mman.h>

static long checks, failed;

static void check(int holds, const char *what, int line)
{
    checks++;
    if (!holds) {
        failed++;
        printf("FAILED line %d: %s\n", line, what);
    }
}

/* Of every answer that is looked at: `passed` is 1 with number 0 and 0 with a refusal. */
static void check_answer(moatbetony_answer_t a, uint32_t number, uint64_t place, int line)
{
    uint32_t passed = number == MOATBETONY_NO_REFUSAL ? 1 : 0;
    checks++;
    if (a.number != number || a.passed != passed || a.place != place) {
        failed++;
        printf("FAILED line %d: wanted %u, passed %u, at %llu, got %u, passed %u, at %llu\n", line, (unsigned)number, (unsigned)passed,
            (unsigned long long)place, (unsigned)a.number, (unsigned)a.passed, (unsigned long long)a.place);
    }
}

#define CHECK(condition) check(condition, #condition, __LINE__)
#define ANSWER(answer, number, place) check_answer(answer, number, place, __LINE__)
#define SAME(a, b) check(memcmp(&(a), &(b), sizeof(a)) == 0, #a " as " #b, __LINE__)

#define MAX MOATBETONY_MAX_SUPPLY
#define WIDE (UINT64_C(1) << 32)
#define NO_CHARGE 0, 0 /* as arguments: rate and charge account */

/* ## Bytes by hand */

typedef struct bytes32 {
    uint8_t at[32];
} bytes32;

static void put(uint8_t *at, int size, uint64_t value)
{
    while (size-- > 0) {
        at[size] = (uint8_t)value;
        value >>= 8;
    }
}

static bytes32 rec(int kind, int ledger, unsigned sender, unsigned receiver, uint64_t number, uint64_t amount, int verdict)
{
    bytes32 r;
    memset(&r, 0, sizeof r);
    r.at[0] = (uint8_t)kind;
    r.at[1] = (uint8_t)ledger;
    put(r.at + 2, 2, sender);
    put(r.at + 4, 2, receiver);
    put(r.at + 8, 8, number);
    put(r.at + 16, 8, amount);
    r.at[24] = (uint8_t)verdict;
    return r;
}

static bytes32 with_byte(bytes32 r, int at, int value)
{
    r.at[at] = (uint8_t)value;
    return r;
}

static bytes32 local(int ledger, unsigned sender, unsigned receiver, uint64_t number, uint64_t amount)
{
    return rec(MOATBETONY_LOCAL, ledger, sender, receiver, number, amount, 1);
}

static bytes32 sending(int ledger, unsigned sender, unsigned receiver, uint64_t number, uint64_t amount)
{
    return rec(MOATBETONY_SENDING, ledger, sender, receiver, number, amount, 1);
}

static bytes32 arrival(int ledger, unsigned sender, unsigned receiver, uint64_t number, uint64_t amount)
{
    return rec(MOATBETONY_ARRIVAL, ledger, sender, receiver, number, amount, 1);
}

static int all_are(const void *start, size_t size, uint8_t value)
{
    const uint8_t *byte = (const uint8_t *)start;
    while (size > 0 && byte[size - 1] == value)
        size--;
    return size == 0;
}

static int all_zero(const void *start, size_t size)
{
    return all_are(start, size, 0);
}

/* ## Held records by hand */

static uint64_t head(int kind, int ledger, unsigned sender, unsigned receiver)
{
    return (uint64_t)kind << 56 | (uint64_t)ledger << 48 | (uint64_t)sender << 32 | (uint64_t)receiver << 16;
}

static uint64_t tail(int verdict)
{
    return (uint64_t)verdict << 56;
}

/* Whether a held record is the words of these bytes: each the number of eight of them, highest first. */
static int holds(moatbetony_held_t held, bytes32 r)
{
    uint64_t words[4] = {0, 0, 0, 0};
    int i;
    for (i = 0; i < 32; i++)
        words[i / 8] = words[i / 8] << 8 | r.at[i];
    return held.head == words[0] && held.number == words[1] && held.amount == words[2] && held.tail == words[3];
}

/* ## Bytes to lend */

/* Memory of so many bytes that ends where a page begins that nobody may touch, so that a call that reads or writes on ends the test. The
   library is not instrumented: the sanitizers see what its callers do. */
static uint8_t *guarded(size_t length)
{
    enum { PAGE = 4096 };
    size_t size = (length + PAGE - 1) / PAGE * PAGE;
    uint8_t *start = (uint8_t *)mmap(NULL, size + PAGE, PROT_READ | PROT_WRITE, MAP_PRIVATE | MAP_ANONYMOUS, -1, 0);
    if (start == (uint8_t *)MAP_FAILED || mprotect(start + size, PAGE, PROT_NONE) != 0) {
        printf("FAILED: no memory with a page after it that nobody may touch\n");
        exit(1);
    }
    return start + size - length;
}

/* A copy of bytes at the end of such memory. It stays while three more are lent. */
static const uint8_t *lent(const void *bytes, size_t length)
{
    enum { SLOTS = 4, ROOM = 1 << 20 };
    static uint8_t *ends[SLOTS];
    static int next;
    uint8_t *copy;
    if (bytes == NULL)
        return NULL;
    next = (next + 1) % SLOTS;
    if (ends[next] == NULL)
        ends[next] = guarded(ROOM) + ROOM;
    copy = ends[next] - length;
    memcpy(copy, bytes, length);
    return copy;
}

/* As arguments: bytes, or numbers, and how many. */
#define BYTES(bytes, length) lent(bytes, length), length
#define NUMBERS(numbers, count) (const uint64_t *)lent(numbers, 8 * (count)), count

/* ## Version and texts */

static void versions(void)
{
    static const uint32_t known[] = {0, 1, 2, 3, 4, 11, 12, 13, 14, 21, 22, 23, 24, 25, 31, 32, 33, 41, 51, 52};
    size_t i, j;
    CHECK(moatbetony_version() == MOATBETONY_VERSION);
    CHECK(moatbetony_version() == 601);
    CHECK(strcmp(MOATBETONY_VERSION_TEXT, "0.6.1") == 0);
    CHECK(moatbetony_state_version() == MOATBETONY_STATE_VERSION);
    CHECK(moatbetony_state_version() == 3);
    for (i = 0; i < sizeof known / sizeof *known; i++) {
        CHECK(strcmp(moatbetony_refusal_text(known[i]), moatbetony_refusal_text(99)) != 0);
        for (j = 0; j < i; j++)
            CHECK(strcmp(moatbetony_refusal_text(known[i]), moatbetony_refusal_text(known[j])) != 0);
    }
    CHECK(strcmp(moatbetony_refusal_text(0), "no refusal") == 0);
    CHECK(strcmp(moatbetony_refusal_text(0xffffffff), moatbetony_refusal_text(5)) == 0);
}

/* ## Records */

static void unread(bytes32 r, int line)
{
    moatbetony_record_t told = moatbetony_record_read(BYTES(r.at, sizeof r.at));
    check_answer(told.answer, 21, 0, line);
    check(told.kind == 0 && told.ledger == 0 && told.sender == 0 && told.receiver == 0 && told.number == 0 && told.amount == 0 &&
            told.verdict == 0, "zeros beside 21", line);
}

static void unencoded(moatbetony_encoded_t told, int line)
{
    check_answer(told.answer, 21, 0, line);
    check(all_zero(told.bytes, sizeof told.bytes), "zeros beside 21", line);
}

static moatbetony_answer_t read_with(bytes32 r, int at, int value)
{
    r.at[at] = (uint8_t)value;
    return moatbetony_record_read(BYTES(r.at, sizeof r.at)).answer;
}

static void records(void)
{
    bytes32 r = rec(2, 1, 0x0203, 0x0405, UINT64_C(0x060708090a0b0c0d), UINT64_C(0x0e0f101112131415), 1);
    uint8_t longer[33];
    int i;
    moatbetony_encoded_t e =
        moatbetony_record_encode(2, 1, 0x0203, 0x0405, UINT64_C(0x060708090a0b0c0d), UINT64_C(0x0e0f101112131415), 1);
    moatbetony_record_t t = moatbetony_record_read(BYTES(r.at, 32));
    ANSWER(e.answer, 0, 0);
    CHECK(memcmp(e.bytes, r.at, 32) == 0);
    ANSWER(t.answer, 0, 0);
    CHECK(t.kind == MOATBETONY_SENDING && t.ledger == MOATBETONY_FAR && t.sender == 0x0203 && t.receiver == 0x0405);
    CHECK(t.number == UINT64_C(0x060708090a0b0c0d) && t.amount == UINT64_C(0x0e0f101112131415) && t.verdict == 1);

    /* All values of the small fields, and the ends of the large ones. */
    for (i = 0; i < 256; i++) {
        int reads = i == 1 || i == 2 || i == 3;
        ANSWER(read_with(r, 0, i), reads ? 0 : 21, 0);
        ANSWER(moatbetony_record_encode((uint8_t)i, 0, 0, 0, 0, 1, 0).answer, reads ? 0 : 21, 0);
        ANSWER(read_with(r, 1, i), i <= 1 ? 0 : 21, 0);
        ANSWER(moatbetony_record_encode(1, (uint8_t)i, 0, 0, 0, 1, 0).answer, i <= 1 ? 0 : 21, 0);
        ANSWER(read_with(r, 24, i), i <= 1 ? 0 : 21, 0);
        ANSWER(moatbetony_record_encode(1, 0, 0, 0, 0, 1, (uint8_t)i).answer, i <= 1 ? 0 : 21, 0);
    }
    e = moatbetony_record_encode(3, 0, 0xffff, 0xfffe, UINT64_MAX, MAX, 0);
    r = rec(3, 0, 0xffff, 0xfffe, UINT64_MAX, MAX, 0);
    ANSWER(e.answer, 0, 0);
    CHECK(memcmp(e.bytes, r.at, 32) == 0);
    t = moatbetony_record_read(BYTES(e.bytes, 32));
    ANSWER(t.answer, 0, 0);
    CHECK(t.kind == MOATBETONY_ARRIVAL && t.ledger == MOATBETONY_HOME && t.sender == 0xffff && t.receiver == 0xfffe);
    CHECK(t.number == UINT64_MAX && t.amount == MAX && t.verdict == 0);

    unencoded(moatbetony_record_encode(1, 0, 1, 2, 3, 0, 1), __LINE__);
    unencoded(moatbetony_record_encode(1, 0, 1, 2, 3, MAX + 1, 1), __LINE__);
    unencoded(moatbetony_record_encode(0, 0, 1, 2, 3, 4, 1), __LINE__);
    unencoded(moatbetony_record_encode(1, 2, 1, 2, 3, 4, 1), __LINE__);
    unencoded(moatbetony_record_encode(1, 0, 1, 2, 3, 4, 2), __LINE__);
    unread(rec(1, 0, 1, 2, 3, 0, 1), __LINE__);
    unread(rec(1, 0, 1, 2, 3, MAX + 1, 1), __LINE__);
    for (i = 0; i < 32; i++)
        if (i == 6 || i == 7 || i > 24)
            unread(with_byte(r, i, 1), __LINE__);

    memcpy(longer, r.at, 32);
    longer[32] = 0;
    ANSWER(moatbetony_record_read(BYTES(longer, 33)).answer, 21, 0);
    ANSWER(moatbetony_record_read(BYTES(longer, 31)).answer, 21, 0);
    ANSWER(moatbetony_record_read(BYTES(longer, 0)).answer, 21, 0);
    ANSWER(moatbetony_record_read(NULL, 0).answer, 21, 0);
}

/* ## The pair validator */

static const uint64_t HOMES[2] = {100, 50};
static const uint64_t FARS[1] = {20};

/* Rates and charge accounts beside two home accounts, with what an opening says of them: those within bounds, those that 52 is about, also
   at rate 0, and those that look good once they are cut to 16 or to 32 bits. */
static const struct tariff {
    uint64_t rate, account;
    uint32_t number;
} TARIFFS[] = {
    {0, 0, 0}, {0, 1, 0}, {1, 0, 0}, {258, 1, 0}, {9999, 0, 0}, {10000, 1, 0},
    {10001, 0, 52}, {32768, 1, 52}, {65535, 1, 52}, {65536, 0, 52}, {65536 + 50, 1, 52}, {WIDE, 0, 52}, {WIDE + 50, 1, 52},
    {UINT64_MAX, 0, 52}, {0, 2, 52}, {50, 2, 52}, {50, 3, 52}, {0, 56, 52}, {0, 256, 52}, {0, 257, 52}, {50, 65535, 52}, {0, 65536, 52},
    {50, 65537, 52}, {0, WIDE, 52}, {50, WIDE + 1, 52}, {0, UINT64_MAX, 52}, {10001, 2, 52}, {UINT64_MAX, UINT64_MAX, 52},
};
enum { TARIFF_COUNT = sizeof TARIFFS / sizeof *TARIFFS };

static moatbetony_pair_t pair_opened(void)
{
    moatbetony_pair_outcome_t o = moatbetony_pair_open(NUMBERS(HOMES, 2), NUMBERS(FARS, 1), NO_CHARGE);
    ANSWER(o.answer, 0, 0);
    return o.state;
}

static void pair_figures_are(const moatbetony_pair_t *s, uint64_t home, uint64_t far, uint64_t flight, int line)
{
    moatbetony_pair_figures_t f = moatbetony_pair_figures(*s);
    check_answer(f.answer, 0, 0, line);
    check(f.home == home && f.far == far && f.flight == flight, "figures", line);
}

static void pair_balance_is(const moatbetony_pair_t *s, int ledger, unsigned account, uint64_t balance, int line)
{
    moatbetony_balance_t b = moatbetony_pair_balance(*s, (uint8_t)ledger, (uint16_t)account);
    check_answer(b.answer, 0, 0, line);
    check(b.balance == balance, "balance", line);
}

static void pair_left(const moatbetony_pair_t *s, uint64_t home, uint64_t far, int line)
{
    moatbetony_pair_places_t p = moatbetony_pair_places_left(*s);
    check_answer(p.answer, 0, 0, line);
    check(p.home == home && p.far == far, "places left", line);
}

/* Hands a record in by all four ways, from the same state: each gives this answer, and the same state; a refusal the state as it was. */
static void pair_one(moatbetony_pair_t *s, bytes32 r, uint32_t number, int line)
{
    moatbetony_pair_t before = *s, in_place = *s, list_in_place = *s;
    moatbetony_pair_outcome_t one = moatbetony_pair_check_record(*s, BYTES(r.at, 32));
    moatbetony_pair_outcome_t list = moatbetony_pair_check_list(*s, BYTES(r.at, 32));
    check(memcmp(s, &before, sizeof before) == 0, "the caller's copy is not altered", line);
    check_answer(one.answer, number, 0, line);
    check_answer(list.answer, number, 0, line);
    check(memcmp(&one.state, &list.state, sizeof before) == 0, "one and list agree", line);
    if (number != 0)
        check(memcmp(&one.state, &before, sizeof before) == 0, "refused: state as it came", line);
    else
        check(memcmp(&one.state, &before, sizeof before) != 0, "passed: state moves on", line);
    check_answer(moatbetony_pair_take(&in_place, BYTES(r.at, 32)), number, 0, line);
    check_answer(moatbetony_pair_take_list(&list_in_place, BYTES(r.at, 32)), number, 0, line);
    check(memcmp(&in_place, &one.state, sizeof before) == 0, "in place as by value", line);
    check(memcmp(&list_in_place, &one.state, sizeof before) == 0, "a list in place as by value", line);
    *s = one.state;
}

#define PAIR(s, record, number) pair_one(&(s), record, number, __LINE__)

static void pair_openings(void)
{
    uint64_t many[57];
    uint64_t large[2];
    moatbetony_pair_outcome_t o;
    size_t i;
    for (i = 0; i < 57; i++)
        many[i] = 1000 + i;

    o = moatbetony_pair_open(NUMBERS(many, 2), NUMBERS(many + 10, 3), NO_CHARGE);
    ANSWER(o.answer, 0, 0);
    CHECK(o.state.supply == 1000 + 1001 + 1010 + 1011 + 1012);
    CHECK(o.state.accounts[0] == 2 && o.state.accounts[1] == 3 && o.state.counts[0] == 0 && o.state.counts[1] == 0);
    CHECK(o.state.balances[0][0] == 1000 && o.state.balances[0][1] == 1001 && all_zero(o.state.balances[0] + 2, 54 * 8));
    CHECK(o.state.balances[1][0] == 1010 && o.state.balances[1][2] == 1012 && all_zero(o.state.balances[1] + 3, 53 * 8));
    CHECK(all_zero(o.state.records, sizeof o.state.records));

    /* Case 14, on both ledgers; nothing at all. */
    ANSWER(moatbetony_pair_open(NUMBERS(many, 56), NUMBERS(many, 56), NO_CHARGE).answer, 0, 0);
    ANSWER(moatbetony_pair_open(NUMBERS(many, 57), NUMBERS(many, 56), NO_CHARGE).answer, 1, 0);
    ANSWER(moatbetony_pair_open(NUMBERS(many, 56), NUMBERS(many, 57), NO_CHARGE).answer, 1, 0);
    ANSWER(moatbetony_pair_open(NULL, 0, NUMBERS(many, 1), NO_CHARGE).answer, 1, 0);
    ANSWER(moatbetony_pair_open(NUMBERS(many, 1), NULL, 0, NO_CHARGE).answer, 1, 0);
    o = moatbetony_pair_open(NULL, 0, NULL, 0, NO_CHARGE);
    ANSWER(o.answer, 1, 0);
    CHECK(all_zero(&o.state, sizeof o.state));
    ANSWER(moatbetony_pair_figures(o.state).answer, 3, 0);

    /* Case 12; sums that pass 64 bits; 1 before 2. */
    large[0] = MAX;
    large[1] = 0;
    ANSWER(moatbetony_pair_open(NUMBERS(large, 1), NUMBERS(large + 1, 1), NO_CHARGE).answer, 0, 0);
    ANSWER(moatbetony_pair_open(NUMBERS(large + 1, 1), NUMBERS(large, 1), NO_CHARGE).answer, 0, 0);
    large[1] = 1;
    o = moatbetony_pair_open(NUMBERS(large, 1), NUMBERS(large + 1, 1), NO_CHARGE);
    ANSWER(o.answer, 2, 0);
    CHECK(all_zero(&o.state, sizeof o.state));
    large[0] = UINT64_MAX;
    ANSWER(moatbetony_pair_open(NUMBERS(large, 1), NUMBERS(large + 1, 1), NO_CHARGE).answer, 2, 0);
    ANSWER(moatbetony_pair_open(NUMBERS(large + 1, 1), NUMBERS(large, 2), NO_CHARGE).answer, 2, 0);
    ANSWER(moatbetony_pair_open(NUMBERS(large, 2), NULL, 0, NO_CHARGE).answer, 1, 0);
}

static void pair_cases(void)
{
    moatbetony_pair_t s = pair_opened(), after_1;

    PAIR(s, sending(0, 0, 0, 7, 30), 0); /* case 1 */
    pair_balance_is(&s, 0, 0, 70, __LINE__);
    pair_balance_is(&s, 0, 1, 50, __LINE__);
    pair_balance_is(&s, 1, 0, 20, __LINE__);
    pair_figures_are(&s, 120, 20, 30, __LINE__);
    after_1 = s;
    PAIR(s, arrival(1, 0, 0, 7, 30), 0); /* case 2 */
    pair_figures_are(&s, 120, 50, 0, __LINE__);
    pair_balance_is(&s, 1, 0, 50, __LINE__);
    PAIR(s, arrival(1, 0, 0, 7, 30), 24); /* case 3 */
    PAIR(after_1, arrival(1, 0, 0, 7, 31), 31); /* case 4 */
    PAIR(after_1, arrival(1, 1, 0, 7, 30), 31);
    PAIR(after_1, arrival(1, 0, 0, 8, 30), 31);
    PAIR(after_1, arrival(0, 0, 0, 9, 30), 31);

    s = pair_opened(); /* case 5 */
    PAIR(s, local(0, 1, 0, 1, 51), 25);
    PAIR(s, local(0, 1, 0, 1, 50), 0);
    pair_balance_is(&s, 0, 0, 150, __LINE__);
    pair_balance_is(&s, 0, 1, 0, __LINE__);
    s = pair_opened(); /* case 6 */
    PAIR(s, local(0, 0, 0, 1, 101), 25);
    PAIR(s, local(0, 0, 0, 1, 100), 0);
    pair_balance_is(&s, 0, 0, 100, __LINE__);
    s = pair_opened();
    PAIR(s, local(0, 2, 0, 1, 1), 22); /* case 7 */
    PAIR(s, local(0, 0, 0, 1, 0), 21); /* case 8 */
    PAIR(s, local(0, 0, 0, 1, MAX), 25);
    PAIR(s, local(0, 0, 0, 1, MAX + 1), 21);
    PAIR(s, local(0, 0, 0, 1, 1), 0);
    PAIR(s, rec(1, 0, 0, 0, 1, 1, 0), 23); /* case 10 */
    PAIR(s, rec(1, 0, 0, 0, 2, 1, 2), 21); /* case 11 */
    PAIR(s, local(0, 0, 0, 1, 1), 24);
    PAIR(s, local(1, 0, 0, 1, 1), 0); /* a number is used on its ledger only */
    PAIR(s, local(0, 0, 1, 0, 1), 0); /* number 0 is a number */
    PAIR(s, local(0, 0, 1, 0, 1), 24);
}

/* 22 for the sender's account, 51 for the receiver's, each on its own ledger: home has accounts 0 and 1, far has 0. */
static void pair_accounts(void)
{
    static const uint16_t wide[] = {255, 256, 257, 65535};
    moatbetony_pair_t s = pair_opened(), before = s;
    size_t i;
    PAIR(s, local(0, 2, 1, 1, 1), 22);
    PAIR(s, local(0, 1, 2, 1, 1), 51);
    PAIR(s, local(0, 2, 2, 1, 1), 22);
    PAIR(s, local(1, 1, 0, 1, 1), 22);
    PAIR(s, local(1, 0, 1, 1, 1), 51);
    PAIR(s, local(1, 1, 1, 1, 1), 22);
    PAIR(s, sending(0, 2, 0, 1, 1), 22);
    PAIR(s, sending(0, 1, 1, 1, 1), 51);
    PAIR(s, sending(0, 2, 1, 1, 1), 22);
    PAIR(s, sending(1, 1, 1, 1, 1), 22);
    PAIR(s, sending(1, 0, 2, 1, 1), 51);
    PAIR(s, sending(1, 1, 2, 1, 1), 22);
    PAIR(s, arrival(0, 1, 1, 1, 1), 22);
    PAIR(s, arrival(0, 0, 2, 1, 1), 51);
    PAIR(s, arrival(0, 1, 2, 1, 1), 22);
    PAIR(s, arrival(1, 2, 0, 1, 1), 22);
    PAIR(s, arrival(1, 1, 1, 1, 1), 51);
    PAIR(s, arrival(1, 2, 1, 1, 1), 22);
    for (i = 0; i < sizeof wide / sizeof *wide; i++) {
        PAIR(s, local(0, wide[i], 0, 1, 1), 22);
        PAIR(s, local(0, 0, wide[i], 1, 1), 51);
        PAIR(s, sending(0, wide[i], 0, 1, 1), 22);
        PAIR(s, sending(0, 0, wide[i], 1, 1), 51);
        PAIR(s, arrival(0, wide[i], wide[i], 1, 1), 22);
    }
    PAIR(s, local(0, 0, 2, 1, 0), 21);     /* after 21 */
    PAIR(s, rec(1, 0, 0, 2, 1, 1, 0), 51); /* before 23 */
    PAIR(s, rec(1, 0, 2, 2, 1, 1, 0), 22);
    PAIR(s, local(0, 0, 2, 1, MAX), 51);   /* before 25; the arrivals above, before 31 */
    CHECK(memcmp(&s, &before, sizeof s) == 0);
    PAIR(s, sending(0, 1, 0, 1, 1), 0);
    PAIR(s, local(0, 0, 2, 1, 1), 51);     /* before 24 */
    PAIR(s, arrival(1, 1, 0, 1, 1), 0);
    PAIR(s, sending(1, 0, 1, 2, 1), 0);
    PAIR(s, arrival(0, 0, 1, 2, 1), 0);
}

static moatbetony_pair_t pair_charged(uint64_t rate, uint64_t account)
{
    moatbetony_pair_outcome_t o = moatbetony_pair_open(NUMBERS(HOMES, 2), NUMBERS(FARS, 1), rate, account);
    ANSWER(o.answer, 0, 0);
    return o.state;
}

/* A home sending needs amount and charge, takes both and pays the charge; all else costs its amount. At rate 500: 96 and 4 are 100. */
static void pair_charges(void)
{
    moatbetony_pair_t s = pair_charged(500, 1), before;
    bytes32 list[2];
    PAIR(s, sending(0, 0, 0, 7, 97), 25);
    PAIR(s, sending(0, 0, 0, 7, 100), 25);
    PAIR(s, sending(0, 0, 0, 7, MAX), 25);
    PAIR(s, sending(0, 0, 0, 7, 96), 0);
    pair_balance_is(&s, 0, 0, 0, __LINE__);
    pair_balance_is(&s, 0, 1, 54, __LINE__);
    pair_figures_are(&s, 54, 20, 96, __LINE__);
    CHECK(s.rate == 500 && s.charge_account == 1 && s.supply == 170 && s.records[0][0].amount == 96);
    PAIR(s, arrival(1, 0, 0, 7, 100), 31);
    PAIR(s, arrival(1, 0, 0, 7, 96), 0);
    PAIR(s, sending(1, 0, 0, 8, 116), 0);
    PAIR(s, arrival(0, 0, 0, 8, 116), 0);
    PAIR(s, local(0, 0, 1, 9, 116), 0);
    pair_balance_is(&s, 0, 1, 170, __LINE__);
    PAIR(s, sending(0, 1, 0, 10, 163), 25); /* the charge account needs both: 163 and 8 */
    PAIR(s, sending(0, 1, 0, 10, 162), 0);  /* and then gets the charge */
    pair_balance_is(&s, 0, 1, 8, __LINE__);
    pair_figures_are(&s, 8, 0, 162, __LINE__);

    s = pair_charged(50, 1); /* rounded down */
    PAIR(s, local(0, 1, 0, 1, 50), 0);
    PAIR(s, sending(0, 0, 0, 2, 150), 0);
    pair_figures_are(&s, 0, 20, 150, __LINE__);
    s = pair_charged(10000, 1); /* as much again */
    PAIR(s, sending(0, 0, 0, 7, 51), 25);
    PAIR(s, sending(0, 0, 0, 7, 50), 0);
    pair_balance_is(&s, 0, 1, 100, __LINE__);
    s = pair_charged(10000, 0);
    PAIR(s, sending(0, 0, 0, 7, 51), 25);
    PAIR(s, sending(0, 0, 0, 7, 50), 0);
    pair_balance_is(&s, 0, 0, 50, __LINE__);
    s = pair_charged(0, 1);
    PAIR(s, sending(0, 0, 0, 7, 100), 0);
    pair_balance_is(&s, 0, 1, 50, __LINE__);

    /* In a list the charge account can spend what the record before paid it, and no more. */
    s = before = pair_charged(500, 1);
    list[0] = sending(0, 0, 0, 7, 96);
    list[1] = local(0, 1, 0, 8, 55);
    ANSWER(moatbetony_pair_take_list(&s, BYTES(list, 64)), 25, 1);
    SAME(s, before);
    list[1] = local(0, 1, 0, 8, 54);
    ANSWER(moatbetony_pair_take_list(&s, BYTES(list, 64)), 0, 0);
    pair_balance_is(&s, 0, 0, 54, __LINE__);
    pair_balance_is(&s, 0, 1, 0, __LINE__);
}

static void pair_fields(void)
{
    static const uint64_t homes[3] = {1000, 2000, 3000}, fars[4] = {10, 20, 30, 40};
    moatbetony_pair_t s = moatbetony_pair_open(NUMBERS(homes, 3), NUMBERS(fars, 4), 100, 1).state;
    PAIR(s, local(0, 0, 1, 0x1122334455667788, 1), 0);
    PAIR(s, sending(0, 2, 3, UINT64_C(0xfedcba9876543210), 300), 0);
    PAIR(s, arrival(1, 2, 3, UINT64_C(0xfedcba9876543210), 300), 0);
    pair_left(&s, 510, 511, __LINE__);
    CHECK(s.counts[0] == 2 && s.counts[1] == 1 && s.accounts[0] == 3 && s.accounts[1] == 4 && s.supply == 6100);
    CHECK(s.rate == 100 && s.charge_account == 1);
    CHECK(s.balances[0][0] == 999 && s.balances[0][1] == 2004 && s.balances[0][2] == 2697 && s.balances[1][3] == 340);
    CHECK(s.records[0][0].head == head(1, 0, 0, 1) && s.records[0][0].number == 0x1122334455667788);
    CHECK(s.records[0][0].amount == 1 && s.records[0][0].tail == tail(1));
    CHECK(s.records[0][1].head == head(2, 0, 2, 3) && s.records[0][1].number == UINT64_C(0xfedcba9876543210));
    CHECK(s.records[0][1].amount == 300 && s.records[0][1].tail == tail(1));
    CHECK(s.records[1][0].head == head(3, 1, 2, 3) && s.records[1][0].number == UINT64_C(0xfedcba9876543210));
    CHECK(s.records[1][0].amount == 300 && s.records[1][0].tail == tail(1));
    CHECK(holds(s.records[1][0], arrival(1, 2, 3, UINT64_C(0xfedcba9876543210), 300)));
    CHECK(all_zero(s.records[0] + 2, 510 * 32) && all_zero(s.records[1] + 1, 511 * 32));
    pair_figures_are(&s, 5700, 400, 0, __LINE__);
    pair_balance_is(&s, 1, 2, 30, __LINE__);
    pair_balance_is(&s, 0, 2, 2697, __LINE__);
    ANSWER(moatbetony_pair_balance(s, 0, 3).answer, 22, 0);
    ANSWER(moatbetony_pair_balance(s, 1, 3).answer, 0, 0);
    ANSWER(moatbetony_pair_balance(s, 1, 4).answer, 22, 0);
    ANSWER(moatbetony_pair_balance(s, 2, 0).answer, 22, 0);
    ANSWER(moatbetony_pair_balance(s, 255, 0).answer, 22, 0);
    ANSWER(moatbetony_pair_balance(s, 0, 256).answer, 22, 0);
    ANSWER(moatbetony_pair_balance(s, 1, 65535).answer, 22, 0);
    CHECK(moatbetony_pair_balance(s, 0, 3).balance == 0);
}

static void pair_lists(void)
{
    moatbetony_pair_t s = pair_opened(), before;
    moatbetony_pair_outcome_t o;
    uint8_t list[4 * 32 + 1];
    bytes32 r[4];
    size_t length;
    r[0] = sending(0, 0, 0, 7, 30);
    r[1] = arrival(1, 0, 0, 7, 30);
    r[2] = sending(1, 0, 1, 8, 45);
    r[3] = arrival(0, 0, 1, 8, 45);
    memcpy(list, r, 128);
    list[128] = 1;

    before = s;
    o = moatbetony_pair_check_list(s, NULL, 0);
    ANSWER(o.answer, 0, 0);
    SAME(o.state, before);
    ANSWER(moatbetony_pair_take_list(&s, NULL, 0), 0, 0);
    SAME(s, before);
    for (length = 1; length <= 129; length++) {
        uint32_t wanted = length % 32 == 0 ? 0 : 21;
        o = moatbetony_pair_check_list(before, BYTES(list, length));
        ANSWER(o.answer, wanted, wanted == 0 ? 0 : length / 32);
        if (wanted != 0)
            SAME(o.state, before);
        s = before;
        ANSWER(moatbetony_pair_take_list(&s, BYTES(list, length)), wanted, wanted == 0 ? 0 : length / 32);
        SAME(s, o.state);
    }
    s = before;
    o = moatbetony_pair_check_list(before, BYTES(list, 128));
    pair_figures_are(&o.state, 165, 5, 0, __LINE__);
    ANSWER(moatbetony_pair_take_list(&s, BYTES(list, 128)), 0, 0);
    SAME(s, o.state);

    /* A refusal in the middle keeps nothing of the list. */
    r[2] = sending(1, 0, 1, 8, 51);
    memcpy(list, r, 128);
    s = before;
    ANSWER(moatbetony_pair_take_list(&s, BYTES(list, 128)), 25, 2);
    SAME(s, before);
    ANSWER(moatbetony_pair_take_list(&s, BYTES(list + 32, 96)), 31, 0);
    SAME(s, before);
    o = moatbetony_pair_check_list(s, BYTES(list, 128));
    ANSWER(o.answer, 25, 2);
    SAME(o.state, before);

    /* Nor does it leave anything of the list beyond the counts. */
    memset(s.records, 0xaa, sizeof s.records);
    before = s;
    ANSWER(moatbetony_pair_take_list(&s, BYTES(list, 128)), 25, 2);
    SAME(s, before);
    ANSWER(moatbetony_pair_take_list(&s, BYTES(list, 64)), 0, 0);
    CHECK(holds(s.records[0][0], r[0]) && all_are(s.records[0] + 1, 511 * 32, 0xaa));
    CHECK(holds(s.records[1][0], r[1]) && all_are(s.records[1] + 1, 511 * 32, 0xaa));
    s = before;

    /* One record is never cut out of more bytes. */
    ANSWER(moatbetony_pair_take(&s, BYTES(list, 64)), 21, 0);
    ANSWER(moatbetony_pair_take(&s, BYTES(list, 31)), 21, 0);
    ANSWER(moatbetony_pair_take(&s, BYTES(list, 0)), 21, 0);
    ANSWER(moatbetony_pair_take(&s, NULL, 0), 21, 0);
    SAME(s, before);
    o = moatbetony_pair_check_record(s, BYTES(list, 64));
    ANSWER(o.answer, 21, 0);
    SAME(o.state, before);
    o = moatbetony_pair_check_record(s, NULL, 0);
    ANSWER(o.answer, 21, 0);
    SAME(o.state, before);
}

/* Every call with a forged state answers 3, and hands it back or leaves it as it came. */
static void pair_forged(const moatbetony_pair_t *forged, int line)
{
    moatbetony_pair_t s = *forged;
    bytes32 r = local(0, 0, 0, 99, 1);
    moatbetony_pair_outcome_t o = moatbetony_pair_check_record(s, BYTES(r.at, 32));
    moatbetony_pair_figures_t f = moatbetony_pair_figures(s);
    moatbetony_balance_t b = moatbetony_pair_balance(s, 0, 0);
    moatbetony_pair_places_t p = moatbetony_pair_places_left(s);
    check_answer(o.answer, 3, 0, line);
    check(memcmp(&o.state, forged, sizeof s) == 0, "state as it came", line);
    o = moatbetony_pair_check_record(s, NULL, 0);
    check_answer(o.answer, 3, 0, line);
    check(memcmp(&o.state, forged, sizeof s) == 0, "state as it came", line);
    o = moatbetony_pair_check_list(s, BYTES(r.at, 32));
    check_answer(o.answer, 3, 0, line);
    check(memcmp(&o.state, forged, sizeof s) == 0, "state as it came", line);
    o = moatbetony_pair_check_list(s, NULL, 0);
    check_answer(o.answer, 3, 0, line);
    check(memcmp(&o.state, forged, sizeof s) == 0, "state as it came", line);
    check_answer(f.answer, 3, 0, line);
    check(f.home == 0 && f.far == 0 && f.flight == 0, "zeros beside 3", line);
    check_answer(b.answer, 3, 0, line);
    check(b.balance == 0, "zero beside 3", line);
    check_answer(moatbetony_pair_balance(s, 9, 0).answer, 3, 0, line);
    check_answer(p.answer, 3, 0, line);
    check(p.home == 0 && p.far == 0, "zeros beside 3", line);
    check_answer(moatbetony_pair_take(&s, BYTES(r.at, 32)), 3, 0, line);
    check(memcmp(&s, forged, sizeof s) == 0, "state as it was", line);
    check_answer(moatbetony_pair_take(&s, NULL, 0), 3, 0, line);
    check(memcmp(&s, forged, sizeof s) == 0, "state as it was", line);
    check_answer(moatbetony_pair_take_list(&s, BYTES(r.at, 32)), 3, 0, line);
    check(memcmp(&s, forged, sizeof s) == 0, "state as it was", line);
    check_answer(moatbetony_pair_take_list(&s, NULL, 0), 3, 0, line);
    check(memcmp(&s, forged, sizeof s) == 0, "state as it was", line);
}

#define PAIR_FORGED(change)             \
    do {                                \
        static moatbetony_pair_t f;     \
        f = good;                       \
        change;                         \
        pair_forged(&f, __LINE__);      \
    } while (0)

/* On each ledger the numbers of arrivals are counted apart from those of locals and sendings. */
static void pair_numbers(void)
{
    moatbetony_pair_t s = pair_opened(), forged;
    PAIR(s, sending(0, 0, 0, 7, 30), 0);
    PAIR(s, local(1, 0, 0, 7, 5), 0); /* it does not strand the arrival */
    PAIR(s, sending(1, 0, 0, 7, 5), 24);
    PAIR(s, arrival(1, 0, 0, 7, 30), 0);
    pair_figures_are(&s, 120, 50, 0, __LINE__);
    PAIR(s, arrival(1, 0, 0, 7, 30), 24);
    PAIR(s, local(1, 0, 0, 7, 5), 24);
    PAIR(s, local(0, 0, 1, 7, 5), 24);
    PAIR(s, arrival(0, 0, 0, 7, 30), 31); /* far has an arrival of 30 under the number, and no sending */

    s = pair_opened(); /* crossings both ways under one number */
    PAIR(s, sending(0, 0, 0, 7, 30), 0);
    PAIR(s, sending(1, 0, 0, 7, 10), 0);
    pair_figures_are(&s, 120, 10, 40, __LINE__);
    PAIR(s, arrival(0, 0, 0, 7, 30), 31);
    PAIR(s, arrival(0, 0, 0, 7, 10), 0);
    pair_figures_are(&s, 130, 10, 30, __LINE__);
    PAIR(s, arrival(1, 0, 0, 7, 30), 0);
    pair_figures_are(&s, 130, 40, 0, __LINE__);
    PAIR(s, arrival(0, 0, 0, 7, 10), 24);
    pair_left(&s, 510, 510, __LINE__);

    /* Such a state is taken up; one with the arrival twice, or the sending, is 3. */
    forged = s;
    forged.records[1][2] = s.records[1][1];
    forged.counts[1] = 3;
    pair_forged(&forged, __LINE__);
    forged = s;
    forged.records[0][2] = s.records[0][0];
    forged.counts[0] = 3;
    pair_forged(&forged, __LINE__);
}

static void pair_states(void)
{
    moatbetony_pair_t good = pair_opened(), odd, before;
    int l, i, bit;
    PAIR(good, sending(0, 0, 0, 7, 30), 0);
    PAIR(good, local(0, 0, 1, 8, 5), 0);
    PAIR(good, arrival(1, 0, 0, 7, 30), 0);
    PAIR(good, sending(1, 0, 1, 9, 2), 0);

    PAIR_FORGED(memset(&f, 0, sizeof f));
    PAIR_FORGED(memset(&f, 0xff, sizeof f));
    PAIR_FORGED(f.accounts[0] = 0);
    PAIR_FORGED(f.accounts[0] = 57);
    PAIR_FORGED(f.accounts[1] = 0);
    PAIR_FORGED(f.accounts[1] = 57);
    PAIR_FORGED(f.accounts[1] += WIDE);
    PAIR_FORGED(f.accounts[0] = UINT64_MAX);
    PAIR_FORGED(f.counts[0] = 513);
    PAIR_FORGED(f.counts[1] = 513);
    PAIR_FORGED(f.counts[0] = WIDE);
    PAIR_FORGED(f.counts[1] = WIDE);
    PAIR_FORGED(f.counts[0] += WIDE);
    PAIR_FORGED(f.counts[0] = SIZE_MAX);
    PAIR_FORGED(f.counts[1] = SIZE_MAX);
    PAIR_FORGED(f.counts[1] = 1);
    PAIR_FORGED(f.counts[0] = 3);
    PAIR_FORGED(f.rate = 10001);
    PAIR_FORGED(f.rate = 65536);
    PAIR_FORGED(f.rate += WIDE);
    PAIR_FORGED(f.rate = UINT64_MAX);
    PAIR_FORGED(f.charge_account = 2);
    PAIR_FORGED(f.charge_account = 65536);
    PAIR_FORGED(f.charge_account += WIDE);
    PAIR_FORGED(f.charge_account = UINT64_MAX);
    PAIR_FORGED(f.supply = MAX + 1);
    PAIR_FORGED(f.supply += 1);
    PAIR_FORGED(f.supply += WIDE);
    PAIR_FORGED(f.balances[0][0] += 1);
    PAIR_FORGED(f.balances[1][0] += WIDE);
    PAIR_FORGED((f.balances[0][0] = UINT64_MAX, f.balances[0][1] += 1 + good.balances[0][0]));
    PAIR_FORGED((f.balances[0][0] -= 1, f.balances[0][2] = 1));
    PAIR_FORGED((f.balances[0][0] -= 1, f.balances[0][55] = 1));
    PAIR_FORGED((f.balances[1][0] -= 1, f.balances[1][55] = 1));
    PAIR_FORGED(f.records[0][0].head = head(0, 0, 0, 0));
    PAIR_FORGED(f.records[0][1].head = head(0, 0, 0, 1));
    PAIR_FORGED(f.records[0][1].head = head(4, 0, 0, 1));
    PAIR_FORGED(f.records[0][1].head = head(255, 0, 0, 1));
    PAIR_FORGED(f.records[1][0].head = head(4, 1, 0, 0));
    PAIR_FORGED(f.records[1][1].head = head(3, 1, 0, 1));
    PAIR_FORGED(f.records[0][0].head = head(2, 1, 0, 0));
    PAIR_FORGED(f.records[1][0].head = head(3, 0, 0, 0));
    PAIR_FORGED(f.records[0][1].head = head(1, 2, 0, 1));
    PAIR_FORGED(f.records[1][1].head = head(2, 2, 0, 1));
    PAIR_FORGED(f.records[1][1].head = head(2, 255, 0, 1));
    PAIR_FORGED(f.records[0][0].tail = tail(0));
    PAIR_FORGED(f.records[1][1].tail = tail(2));
    PAIR_FORGED(f.records[1][1].tail = tail(255));
    PAIR_FORGED(f.records[0][0].head = head(2, 0, 2, 0));
    PAIR_FORGED(f.records[0][0].head = head(2, 0, 0, 1));
    PAIR_FORGED(f.records[1][0].head = head(3, 1, 256, 0));
    PAIR_FORGED(f.records[1][1].head = head(2, 1, 0, 2));
    PAIR_FORGED(f.records[1][1].head = head(2, 1, 0, 65535));
    PAIR_FORGED(f.records[1][0].head = head(3, 1, 1, 0));
    PAIR_FORGED(f.records[1][0].amount = 31);
    PAIR_FORGED(f.records[0][1].amount = 0);
    PAIR_FORGED(f.records[0][1].amount = MAX + 1);
    PAIR_FORGED(f.records[0][1].number = 7);
    PAIR_FORGED(f.records[1][0].number = 6);
    PAIR_FORGED(f.records[0][0].number = 6);
    /* The zero bytes: two at a head's end, seven after the verdict; each bit, in each record. */
    for (l = 0; l < 2; l++)
        for (i = 0; i < 2; i++) {
            for (bit = 0; bit < 16; bit++)
                PAIR_FORGED(f.records[l][i].head |= UINT64_C(1) << bit);
            for (bit = 0; bit < 56; bit++)
                PAIR_FORGED(f.records[l][i].tail |= UINT64_C(1) << bit);
        }

    /* An arrival and a sending of one number are no such fault. */
    odd = good;
    odd.records[1][1].number = 7;
    pair_figures_are(&odd, 120, 48, 2, __LINE__);

    /* What 3 does not see: balances exchanged; records beyond the counts, which only a passed record writes over. */
    odd = good;
    odd.balances[0][0] = good.balances[0][1];
    odd.balances[0][1] = good.balances[0][0];
    pair_figures_are(&odd, 120, 48, 2, __LINE__);
    for (l = 0; l < 2; l++)
        memset(odd.records[l] + 2, 0xaa, 510 * sizeof(moatbetony_held_t));
    before = odd;
    PAIR(odd, local(0, 0, 1, 10, 200), 25);
    PAIR(odd, local(0, 0, 1, 8, 1), 24);
    SAME(odd, before);
    PAIR(odd, local(0, 0, 1, 10, 1), 0);
    CHECK(odd.counts[0] == 3 && holds(odd.records[0][2], local(0, 0, 1, 10, 1)));
    CHECK(all_are(odd.records[0] + 3, 509 * 32, 0xaa) && all_are(odd.records[1] + 2, 510 * 32, 0xaa));
    PAIR(odd, local(1, 0, 0, 10, 1), 0);
    CHECK(odd.counts[1] == 3 && holds(odd.records[1][2], local(1, 0, 0, 10, 1)));
    CHECK(all_are(odd.records[0] + 3, 509 * 32, 0xaa) && all_are(odd.records[1] + 3, 509 * 32, 0xaa));
    pair_left(&odd, 509, 509, __LINE__);
    /* Another rate and charge account; a balance raised together with the supply; a held record left out, which passes again. */
    odd = good;
    odd.rate = 10000;
    odd.charge_account = 1;
    pair_figures_are(&odd, 120, 48, 2, __LINE__);
    odd = good;
    odd.balances[0][0] += 5;
    odd.supply += 5;
    pair_figures_are(&odd, 125, 48, 2, __LINE__);
    odd = good;
    PAIR(odd, local(0, 0, 1, 8, 5), 24);
    odd.counts[0] = 1;
    PAIR(odd, local(0, 0, 1, 8, 5), 0);
}

/* Case 13, on both ledgers. */
static void pair_full(void)
{
    moatbetony_pair_t s = pair_opened();
    uint64_t i;
    int l;
    for (l = 0; l < 2; l++) {
        for (i = 0; i < 512; i++) {
            bytes32 r = local(l, 0, 0, 1000 + i, 1);
            pair_left(&s, l == 0 ? 512 - i : 0, l == 0 ? 512 : 512 - i, __LINE__);
            ANSWER(moatbetony_pair_take(&s, BYTES(r.at, 32)), 0, 0);
        }
        CHECK(s.counts[l] == 512);
        pair_left(&s, 0, l == 0 ? 512 : 0, __LINE__);
        PAIR(s, local(l, 0, 0, 1000 + 512, 1), 41);
        PAIR(s, local(l, 0, 0, 1000 + 511, 1), 24);
        PAIR(s, local(l, 0, 0, 1000 + 512, 101), 25);
    }
    PAIR(s, arrival(0, 0, 0, 5000, 1), 31);
    pair_figures_are(&s, 150, 20, 0, __LINE__);
    pair_left(&s, 0, 0, __LINE__);
}

/* ## The home validator */

static moatbetony_home_t home_opened(void)
{
    moatbetony_home_outcome_t o = moatbetony_home_open(NUMBERS(HOMES, 2), 1, 20, NO_CHARGE);
    ANSWER(o.answer, 0, 0);
    return o.state;
}

static void home_figures_are(const moatbetony_home_t *s, uint64_t home, uint64_t pool, int line)
{
    moatbetony_home_figures_t f = moatbetony_home_figures(*s);
    check_answer(f.answer, 0, 0, line);
    check(f.home == home && f.pool == pool, "figures", line);
}

static void home_balance_is(const moatbetony_home_t *s, unsigned account, uint64_t balance, int line)
{
    moatbetony_balance_t b = moatbetony_home_balance(*s, (uint16_t)account);
    check_answer(b.answer, 0, 0, line);
    check(b.balance == balance, "balance", line);
}

static void home_left(const moatbetony_home_t *s, uint64_t home, int line)
{
    moatbetony_home_places_t p = moatbetony_home_places_left(*s);
    check_answer(p.answer, 0, 0, line);
    check(p.home == home, "places left", line);
}

/* As pair_one. */
static void home_one(moatbetony_home_t *s, bytes32 r, uint32_t number, int line)
{
    moatbetony_home_t before = *s, in_place = *s, list_in_place = *s;
    moatbetony_home_outcome_t one = moatbetony_home_check_record(*s, BYTES(r.at, 32));
    moatbetony_home_outcome_t list = moatbetony_home_check_list(*s, BYTES(r.at, 32));
    check(memcmp(s, &before, sizeof before) == 0, "the caller's copy is not altered", line);
    check_answer(one.answer, number, 0, line);
    check_answer(list.answer, number, 0, line);
    check(memcmp(&one.state, &list.state, sizeof before) == 0, "one and list agree", line);
    if (number != 0)
        check(memcmp(&one.state, &before, sizeof before) == 0, "refused: state as it came", line);
    else
        check(memcmp(&one.state, &before, sizeof before) != 0, "passed: state moves on", line);
    check_answer(moatbetony_home_take(&in_place, BYTES(r.at, 32)), number, 0, line);
    check_answer(moatbetony_home_take_list(&list_in_place, BYTES(r.at, 32)), number, 0, line);
    check(memcmp(&in_place, &one.state, sizeof before) == 0, "in place as by value", line);
    check(memcmp(&list_in_place, &one.state, sizeof before) == 0, "a list in place as by value", line);
    *s = one.state;
}

#define HOME(s, record, number) home_one(&(s), record, number, __LINE__)

static void home_openings(void)
{
    uint64_t many[57], zero = 0;
    moatbetony_home_outcome_t o;
    size_t i;
    for (i = 0; i < 57; i++)
        many[i] = 1000 + i;
    o = moatbetony_home_open(NUMBERS(many, 2), 3, WIDE + 4, NO_CHARGE);
    ANSWER(o.answer, 0, 0);
    CHECK(o.state.supply == WIDE + 2005 && o.state.pool == WIDE + 4 && o.state.count == 0);
    CHECK(o.state.home_accounts == 2 && o.state.far_accounts == 3);
    CHECK(o.state.balances[0] == 1000 && o.state.balances[1] == 1001 && all_zero(o.state.balances + 2, 54 * 8));
    CHECK(all_zero(o.state.records, sizeof o.state.records));

    ANSWER(moatbetony_home_open(NUMBERS(many, 56), 56, 0, NO_CHARGE).answer, 0, 0);
    ANSWER(moatbetony_home_open(NUMBERS(many, 57), 56, 0, NO_CHARGE).answer, 1, 0);
    ANSWER(moatbetony_home_open(NUMBERS(many, 56), 57, 0, NO_CHARGE).answer, 1, 0);
    ANSWER(moatbetony_home_open(NUMBERS(many, 56), 0, 0, NO_CHARGE).answer, 1, 0);
    ANSWER(moatbetony_home_open(NUMBERS(many, 56), WIDE + 1, 0, NO_CHARGE).answer, 1, 0);
    ANSWER(moatbetony_home_open(NUMBERS(many, 56), SIZE_MAX, UINT64_MAX, NO_CHARGE).answer, 1, 0);
    o = moatbetony_home_open(NULL, 0, 1, 20, NO_CHARGE);
    ANSWER(o.answer, 1, 0);
    CHECK(all_zero(&o.state, sizeof o.state));
    ANSWER(moatbetony_home_open(NUMBERS(&zero, 1), 1, MAX, NO_CHARGE).answer, 0, 0);
    o = moatbetony_home_open(NUMBERS(&zero, 1), 1, MAX + 1, NO_CHARGE);
    ANSWER(o.answer, 2, 0);
    CHECK(all_zero(&o.state, sizeof o.state));
    ANSWER(moatbetony_home_figures(o.state).answer, 3, 0);
    zero = 1;
    ANSWER(moatbetony_home_open(NUMBERS(&zero, 1), 1, MAX, NO_CHARGE).answer, 2, 0);
    ANSWER(moatbetony_home_open(NUMBERS(&zero, 1), 1, UINT64_MAX, NO_CHARGE).answer, 2, 0);
}

static void home_cases(void)
{
    moatbetony_home_t s = home_opened();
    HOME(s, arrival(0, 0, 0, 1, 21), 32); /* case 9 */
    HOME(s, arrival(0, 0, 0, 1, 20), 0);
    home_figures_are(&s, 170, 0, __LINE__);
    HOME(s, arrival(0, 0, 0, 2, 1), 32);
    s = home_opened();
    HOME(s, sending(0, 0, 0, 1, 30), 0);
    home_figures_are(&s, 120, 50, __LINE__);
    HOME(s, arrival(0, 0, 1, 2, 51), 32);
    HOME(s, arrival(0, 0, 1, 2, 50), 0);
    home_figures_are(&s, 170, 0, __LINE__);
    home_balance_is(&s, 0, 70, __LINE__);
    home_balance_is(&s, 1, 100, __LINE__);

    s = home_opened(); /* cases 5 to 8, 10 and 11 */
    HOME(s, local(0, 1, 0, 1, 51), 25);
    HOME(s, local(0, 0, 0, 1, 101), 25);
    HOME(s, local(0, 2, 0, 1, 1), 22);
    HOME(s, local(0, 0, 0, 1, 0), 21);
    HOME(s, local(0, 0, 0, 1, MAX), 25);
    HOME(s, local(0, 0, 0, 1, MAX + 1), 21);
    HOME(s, local(0, 1, 0, 1, 50), 0);
    HOME(s, local(0, 0, 0, 2, 150), 0);
    home_balance_is(&s, 0, 150, __LINE__);
    HOME(s, rec(1, 0, 0, 0, 1, 1, 0), 23);
    HOME(s, rec(1, 0, 0, 0, 3, 1, 2), 21);
    HOME(s, local(0, 0, 0, 1, 1), 24);

    /* A far record is 33, after 21 and before 22 and 51. */
    HOME(s, local(1, 0, 0, 4, 1), 33);
    HOME(s, arrival(1, 9, 9, 4, 1), 33);
    HOME(s, local(1, 0, 9, 4, 1), 33);
    HOME(s, local(1, 0, 0, 4, 0), 21);
}

/* 22 for the sender's account, 51 for the receiver's: with home the larger ledger, and with far. */
static void home_accounts(void)
{
    static const uint64_t homes[2] = {100, 50};
    moatbetony_home_t s = home_opened(), before = s;
    HOME(s, local(0, 2, 1, 1, 1), 22);
    HOME(s, local(0, 1, 2, 1, 1), 51);
    HOME(s, local(0, 2, 2, 1, 1), 22);
    HOME(s, sending(0, 2, 0, 1, 1), 22);
    HOME(s, sending(0, 1, 1, 1, 1), 51);
    HOME(s, sending(0, 2, 1, 1, 1), 22);
    HOME(s, arrival(0, 1, 1, 1, 1), 22);
    HOME(s, arrival(0, 0, 2, 1, 1), 51);
    HOME(s, arrival(0, 1, 2, 1, 1), 22);
    HOME(s, sending(0, 0, 256, 1, 1), 51);
    HOME(s, arrival(0, 0, 65535, 1, 1), 51);
    HOME(s, local(0, 0, 2, 1, 0), 21);
    HOME(s, rec(3, 0, 0, 2, 1, 1, 0), 51);
    HOME(s, arrival(0, 0, 2, 1, 21), 51); /* before 32 */
    CHECK(memcmp(&s, &before, sizeof s) == 0);
    HOME(s, sending(0, 1, 0, 1, 1), 0);
    HOME(s, arrival(0, 0, 1, 2, 1), 0);
    HOME(s, arrival(0, 0, 2, 2, 1), 51); /* before 24 */

    s = moatbetony_home_open(NUMBERS(homes, 2), 4, 20, NO_CHARGE).state;
    HOME(s, sending(0, 0, 4, 1, 1), 51);
    HOME(s, sending(0, 2, 3, 1, 1), 22);
    HOME(s, sending(0, 0, 3, 1, 1), 0);
    HOME(s, arrival(0, 4, 1, 2, 1), 22);
    HOME(s, arrival(0, 3, 2, 2, 1), 51);
    HOME(s, arrival(0, 3, 1, 2, 1), 0);
}

static moatbetony_home_t home_charged(uint64_t rate, uint64_t account)
{
    moatbetony_home_outcome_t o = moatbetony_home_open(NUMBERS(HOMES, 2), 1, 20, rate, account);
    ANSWER(o.answer, 0, 0);
    return o.state;
}

/* As pair_charges; the far pool leaves the charge out. */
static void home_charges(void)
{
    moatbetony_home_t s = home_charged(500, 1), before;
    bytes32 list[2];
    HOME(s, sending(0, 0, 0, 7, 97), 25);
    HOME(s, sending(0, 0, 0, 7, MAX), 25);
    HOME(s, sending(0, 0, 0, 7, 96), 0);
    home_balance_is(&s, 0, 0, __LINE__);
    home_balance_is(&s, 1, 54, __LINE__);
    home_figures_are(&s, 54, 116, __LINE__);
    CHECK(s.rate == 500 && s.charge_account == 1 && s.supply == 170 && s.records[0].amount == 96);
    HOME(s, arrival(0, 0, 0, 8, 117), 32);
    HOME(s, arrival(0, 0, 0, 8, 116), 0);
    HOME(s, local(0, 0, 1, 9, 116), 0);
    home_balance_is(&s, 1, 170, __LINE__);
    HOME(s, sending(0, 1, 0, 10, 163), 25);
    HOME(s, sending(0, 1, 0, 10, 162), 0);
    home_balance_is(&s, 1, 8, __LINE__);
    home_figures_are(&s, 8, 162, __LINE__);
    s = home_charged(10000, 0);
    HOME(s, sending(0, 0, 0, 7, 51), 25);
    HOME(s, sending(0, 0, 0, 7, 50), 0);
    home_balance_is(&s, 0, 50, __LINE__);

    s = before = home_charged(500, 1);
    list[0] = sending(0, 0, 0, 7, 96);
    list[1] = local(0, 1, 0, 8, 55);
    ANSWER(moatbetony_home_take_list(&s, BYTES(list, 64)), 25, 1);
    SAME(s, before);
    list[1] = local(0, 1, 0, 8, 54);
    ANSWER(moatbetony_home_take_list(&s, BYTES(list, 64)), 0, 0);
    home_balance_is(&s, 0, 54, __LINE__);
    home_balance_is(&s, 1, 0, __LINE__);
}

static void home_fields(void)
{
    static const uint64_t homes[3] = {1000, 2000, 3000};
    moatbetony_home_t s = moatbetony_home_open(NUMBERS(homes, 3), 5, 400, 100, 1).state;
    HOME(s, sending(0, 2, 4, 0x1122334455667788, 300), 0);
    HOME(s, arrival(0, 3, 1, UINT64_C(0xfedcba9876543210), 7), 0);
    CHECK(s.supply == 6400 && s.pool == 693 && s.home_accounts == 3 && s.far_accounts == 5 && s.count == 2);
    CHECK(s.rate == 100 && s.charge_account == 1);
    CHECK(s.balances[0] == 1000 && s.balances[1] == 2010 && s.balances[2] == 2697);
    CHECK(s.records[0].head == head(2, 0, 2, 4) && s.records[0].number == 0x1122334455667788);
    CHECK(s.records[0].amount == 300 && s.records[0].tail == tail(1));
    CHECK(s.records[1].head == head(3, 0, 3, 1) && s.records[1].number == UINT64_C(0xfedcba9876543210));
    CHECK(s.records[1].amount == 7 && s.records[1].tail == tail(1));
    CHECK(holds(s.records[0], sending(0, 2, 4, 0x1122334455667788, 300)));
    CHECK(all_zero(s.records + 2, 510 * 32));
    home_figures_are(&s, 5707, 693, __LINE__);
    home_balance_is(&s, 2, 2697, __LINE__);
    ANSWER(moatbetony_home_balance(s, 3).answer, 22, 0);
    ANSWER(moatbetony_home_balance(s, 256).answer, 22, 0);
    ANSWER(moatbetony_home_balance(s, 65535).answer, 22, 0);
    CHECK(moatbetony_home_balance(s, 3).balance == 0);
}

static void home_lists(void)
{
    moatbetony_home_t s = home_opened(), before = s;
    moatbetony_home_outcome_t o;
    uint8_t list[97];
    bytes32 r[3];
    size_t length;
    r[0] = sending(0, 0, 0, 7, 30);
    r[1] = arrival(0, 0, 1, 8, 50);
    r[2] = local(0, 1, 0, 9, 100);
    memcpy(list, r, 96);
    list[96] = 1;
    o = moatbetony_home_check_list(s, NULL, 0);
    ANSWER(o.answer, 0, 0);
    SAME(o.state, before);
    ANSWER(moatbetony_home_take_list(&s, NULL, 0), 0, 0);
    SAME(s, before);
    for (length = 1; length <= 97; length++) {
        uint32_t wanted = length % 32 == 0 ? 0 : 21;
        o = moatbetony_home_check_list(before, BYTES(list, length));
        ANSWER(o.answer, wanted, wanted == 0 ? 0 : length / 32);
        if (wanted != 0)
            SAME(o.state, before);
        s = before;
        ANSWER(moatbetony_home_take_list(&s, BYTES(list, length)), wanted, wanted == 0 ? 0 : length / 32);
        SAME(s, o.state);
    }
    s = before;
    o = moatbetony_home_check_list(before, BYTES(list, 96));
    home_figures_are(&o.state, 170, 0, __LINE__);
    home_balance_is(&o.state, 0, 170, __LINE__);
    ANSWER(moatbetony_home_take_list(&s, BYTES(list, 96)), 0, 0);
    SAME(s, o.state);
    r[2] = local(1, 0, 0, 9, 1);
    memcpy(list, r, 96);
    s = before;
    ANSWER(moatbetony_home_take_list(&s, BYTES(list, 96)), 33, 2);
    SAME(s, before);
    o = moatbetony_home_check_list(s, BYTES(list, 96));
    ANSWER(o.answer, 33, 2);
    SAME(o.state, before);
    memset(s.records, 0xaa, sizeof s.records);
    before = s;
    ANSWER(moatbetony_home_take_list(&s, BYTES(list, 96)), 33, 2);
    SAME(s, before);
    ANSWER(moatbetony_home_take_list(&s, BYTES(list, 64)), 0, 0);
    CHECK(holds(s.records[0], r[0]) && holds(s.records[1], r[1]) && all_are(s.records + 2, 510 * 32, 0xaa));
    s = before;
    ANSWER(moatbetony_home_take_list(&s, BYTES(list + 32, 32)), 32, 0);
    ANSWER(moatbetony_home_take(&s, BYTES(list, 64)), 21, 0);
    ANSWER(moatbetony_home_take(&s, BYTES(list, 31)), 21, 0);
    ANSWER(moatbetony_home_take(&s, BYTES(list, 0)), 21, 0);
    ANSWER(moatbetony_home_take(&s, NULL, 0), 21, 0);
    SAME(s, before);
    o = moatbetony_home_check_record(s, BYTES(list, 64));
    ANSWER(o.answer, 21, 0);
    SAME(o.state, before);
    o = moatbetony_home_check_record(s, NULL, 0);
    ANSWER(o.answer, 21, 0);
    SAME(o.state, before);
}

/* As pair_forged. */
static void home_forged(const moatbetony_home_t *forged, int line)
{
    moatbetony_home_t s = *forged;
    bytes32 r = local(0, 0, 0, 99, 1);
    moatbetony_home_outcome_t o = moatbetony_home_check_record(s, BYTES(r.at, 32));
    moatbetony_home_figures_t f = moatbetony_home_figures(s);
    moatbetony_balance_t b = moatbetony_home_balance(s, 0);
    moatbetony_home_places_t p = moatbetony_home_places_left(s);
    check_answer(o.answer, 3, 0, line);
    check(memcmp(&o.state, forged, sizeof s) == 0, "state as it came", line);
    o = moatbetony_home_check_record(s, NULL, 0);
    check_answer(o.answer, 3, 0, line);
    check(memcmp(&o.state, forged, sizeof s) == 0, "state as it came", line);
    o = moatbetony_home_check_list(s, BYTES(r.at, 32));
    check_answer(o.answer, 3, 0, line);
    check(memcmp(&o.state, forged, sizeof s) == 0, "state as it came", line);
    o = moatbetony_home_check_list(s, NULL, 0);
    check_answer(o.answer, 3, 0, line);
    check(memcmp(&o.state, forged, sizeof s) == 0, "state as it came", line);
    check_answer(f.answer, 3, 0, line);
    check(f.home == 0 && f.pool == 0, "zeros beside 3", line);
    check_answer(b.answer, 3, 0, line);
    check(b.balance == 0, "zero beside 3", line);
    check_answer(moatbetony_home_balance(s, 99).answer, 3, 0, line);
    check_answer(p.answer, 3, 0, line);
    check(p.home == 0, "zero beside 3", line);
    check_answer(moatbetony_home_take(&s, BYTES(r.at, 32)), 3, 0, line);
    check(memcmp(&s, forged, sizeof s) == 0, "state as it was", line);
    check_answer(moatbetony_home_take(&s, NULL, 0), 3, 0, line);
    check(memcmp(&s, forged, sizeof s) == 0, "state as it was", line);
    check_answer(moatbetony_home_take_list(&s, BYTES(r.at, 32)), 3, 0, line);
    check(memcmp(&s, forged, sizeof s) == 0, "state as it was", line);
    check_answer(moatbetony_home_take_list(&s, NULL, 0), 3, 0, line);
    check(memcmp(&s, forged, sizeof s) == 0, "state as it was", line);
}

#define HOME_FORGED(change)             \
    do {                                \
        static moatbetony_home_t f;     \
        f = good;                       \
        change;                         \
        home_forged(&f, __LINE__);      \
    } while (0)

/* Arrivals are counted apart here too. */
static void home_numbers(void)
{
    moatbetony_home_t s = home_opened(), forged;
    HOME(s, local(0, 0, 1, 7, 5), 0);
    HOME(s, sending(0, 0, 0, 7, 5), 24);
    HOME(s, arrival(0, 0, 1, 7, 5), 0);
    HOME(s, arrival(0, 0, 1, 7, 5), 24);
    HOME(s, arrival(0, 0, 1, 8, 5), 0);
    HOME(s, sending(0, 0, 0, 8, 5), 0);
    HOME(s, local(0, 0, 0, 8, 5), 24);
    home_figures_are(&s, 155, 15, __LINE__);
    forged = s;
    forged.records[4] = s.records[1];
    forged.count = 5;
    home_forged(&forged, __LINE__);
    forged.records[4] = s.records[3];
    home_forged(&forged, __LINE__);
}

static void home_states(void)
{
    moatbetony_home_t good = home_opened(), odd, before;
    int i, bit;
    HOME(good, sending(0, 0, 0, 7, 30), 0);
    HOME(good, arrival(0, 0, 1, 8, 5), 0);

    HOME_FORGED(memset(&f, 0, sizeof f));
    HOME_FORGED(memset(&f, 0xff, sizeof f));
    HOME_FORGED(f.home_accounts = 0);
    HOME_FORGED(f.home_accounts = 57);
    HOME_FORGED(f.home_accounts += WIDE);
    HOME_FORGED(f.home_accounts = 1);
    HOME_FORGED(f.far_accounts = 0);
    HOME_FORGED(f.far_accounts = 57);
    HOME_FORGED(f.far_accounts += WIDE);
    HOME_FORGED(f.far_accounts = UINT64_MAX);
    HOME_FORGED(f.count = 513);
    HOME_FORGED(f.count = WIDE);
    HOME_FORGED(f.count += WIDE);
    HOME_FORGED(f.count = SIZE_MAX);
    HOME_FORGED(f.count = 3);
    HOME_FORGED(f.rate = 10001);
    HOME_FORGED(f.rate = 65536);
    HOME_FORGED(f.rate += WIDE);
    HOME_FORGED(f.rate = UINT64_MAX);
    HOME_FORGED(f.charge_account = 2);
    HOME_FORGED(f.charge_account = 65536);
    HOME_FORGED(f.charge_account += WIDE);
    HOME_FORGED(f.charge_account = UINT64_MAX);
    HOME_FORGED(f.supply = MAX + 1);
    HOME_FORGED(f.supply += 1);
    HOME_FORGED(f.supply += WIDE);
    HOME_FORGED(f.pool += 1);
    HOME_FORGED(f.pool += WIDE);
    HOME_FORGED((f.pool = UINT64_MAX, f.balances[0] += 1 + good.pool));
    HOME_FORGED(f.balances[0] += 1);
    HOME_FORGED((f.balances[0] -= 1, f.balances[2] = 1));
    HOME_FORGED((f.balances[0] -= 1, f.balances[55] = 1));
    HOME_FORGED(f.records[0].head = head(0, 0, 0, 0));
    HOME_FORGED(f.records[1].head = head(0, 0, 0, 1));
    HOME_FORGED(f.records[1].head = head(4, 0, 0, 1));
    HOME_FORGED(f.records[1].head = head(255, 0, 0, 1));
    HOME_FORGED(f.records[0].head = head(2, 1, 0, 0));
    HOME_FORGED(f.records[1].head = head(3, 2, 0, 1));
    HOME_FORGED(f.records[1].head = head(3, 255, 0, 1));
    HOME_FORGED(f.records[0].tail = tail(0));
    HOME_FORGED(f.records[1].tail = tail(2));
    HOME_FORGED(f.records[1].tail = tail(255));
    HOME_FORGED(f.records[0].head = head(2, 0, 2, 0));
    HOME_FORGED(f.records[0].head = head(2, 0, 0, 1));
    HOME_FORGED(f.records[1].head = head(3, 0, 1, 1));
    HOME_FORGED(f.records[1].head = head(3, 0, 0, 2));
    HOME_FORGED(f.records[1].head = head(3, 0, 256, 1));
    HOME_FORGED(f.records[1].head = head(3, 0, 0, 65535));
    HOME_FORGED(f.records[0].amount = 0);
    HOME_FORGED(f.records[0].amount = MAX + 1);
    HOME_FORGED((f.records[1].number = 7, f.records[1].head = head(1, 0, 0, 1)));
    for (i = 0; i < 2; i++) {
        for (bit = 0; bit < 16; bit++)
            HOME_FORGED(f.records[i].head |= UINT64_C(1) << bit);
        for (bit = 0; bit < 56; bit++)
            HOME_FORGED(f.records[i].tail |= UINT64_C(1) << bit);
    }

    /* As in pair_states; and a balance raised at the far pool's cost. */
    odd = good;
    odd.records[1].number = 7;
    home_figures_are(&odd, 125, 45, __LINE__);
    odd = good;
    odd.balances[0] = good.balances[1];
    odd.balances[1] = good.balances[0];
    home_figures_are(&odd, 125, 45, __LINE__);
    memset(odd.records + 2, 0xaa, 510 * sizeof(moatbetony_held_t));
    before = odd;
    HOME(odd, local(0, 0, 1, 10, 200), 25);
    HOME(odd, local(0, 0, 1, 7, 1), 24);
    HOME(odd, arrival(0, 0, 1, 8, 1), 24);
    SAME(odd, before);
    HOME(odd, local(0, 0, 1, 10, 1), 0);
    CHECK(odd.count == 3 && holds(odd.records[2], local(0, 0, 1, 10, 1)) && all_are(odd.records + 3, 509 * 32, 0xaa));
    home_left(&odd, 509, __LINE__);
    odd = good;
    odd.rate = 10000;
    odd.charge_account = 1;
    home_figures_are(&odd, 125, 45, __LINE__);
    odd = good;
    odd.balances[0] += 5;
    odd.supply += 5;
    home_figures_are(&odd, 130, 45, __LINE__);
    odd = good;
    odd.balances[0] += 5;
    odd.pool -= 5;
    home_figures_are(&odd, 130, 40, __LINE__);
    odd = good;
    HOME(odd, sending(0, 0, 0, 7, 30), 24);
    odd.count = 0;
    HOME(odd, sending(0, 0, 0, 7, 30), 0);
}

static void home_full(void)
{
    moatbetony_home_t s = home_opened();
    uint64_t i;
    for (i = 0; i < 512; i++) {
        bytes32 r = local(0, 0, 0, 1000 + i, 1);
        home_left(&s, 512 - i, __LINE__);
        ANSWER(moatbetony_home_take(&s, BYTES(r.at, 32)), 0, 0);
    }
    CHECK(s.count == 512);
    home_left(&s, 0, __LINE__);
    HOME(s, local(0, 0, 0, 2000, 1), 41);
    HOME(s, arrival(0, 0, 0, 2000, 20), 41);
    HOME(s, local(0, 0, 0, 1511, 1), 24);
    HOME(s, arrival(0, 0, 0, 2000, 21), 32);
    home_figures_are(&s, 150, 20, __LINE__);
}

/* ## Rate and charge account, in both validators */

/* 52 of openings, after 1 and 2. Far has more accounts than home, which do not help. */
static void tariffs(void)
{
    static const uint64_t fars[4] = {5, 6, 7, 8}, large[2] = {MAX, 0};
    uint64_t many[57];
    int i;
    for (i = 0; i < TARIFF_COUNT; i++) {
        uint64_t rate = TARIFFS[i].rate, account = TARIFFS[i].account;
        moatbetony_pair_outcome_t pair = moatbetony_pair_open(NUMBERS(HOMES, 2), NUMBERS(fars, 4), rate, account);
        moatbetony_home_outcome_t home = moatbetony_home_open(NUMBERS(HOMES, 2), 4, 26, rate, account);
        ANSWER(pair.answer, TARIFFS[i].number, 0);
        ANSWER(home.answer, TARIFFS[i].number, 0);
        if (TARIFFS[i].number == 0) {
            CHECK(pair.state.rate == rate && pair.state.charge_account == account && pair.state.supply == 176);
            CHECK(home.state.rate == rate && home.state.charge_account == account && home.state.supply == 176);
        } else {
            CHECK(all_zero(&pair.state, sizeof pair.state) && all_zero(&home.state, sizeof home.state));
        }
        ANSWER(moatbetony_pair_open(NULL, 0, NUMBERS(fars, 4), rate, account).answer, 1, 0);
        ANSWER(moatbetony_pair_open(NUMBERS(HOMES, 2), NULL, 0, rate, account).answer, 1, 0);
        ANSWER(moatbetony_pair_open(NUMBERS(large, 2), NUMBERS(fars, 1), rate, account).answer, 2, 0);
        ANSWER(moatbetony_home_open(NULL, 0, 4, 26, rate, account).answer, 1, 0);
        ANSWER(moatbetony_home_open(NUMBERS(HOMES, 2), 57, 26, rate, account).answer, 1, 0);
        ANSWER(moatbetony_home_open(NUMBERS(large, 2), 4, 1, rate, account).answer, 2, 0);
    }
    memset(many, 0, sizeof many);
    ANSWER(moatbetony_pair_open(NUMBERS(many, 56), NUMBERS(many, 56), 10000, 55).answer, 0, 0);
    ANSWER(moatbetony_pair_open(NUMBERS(many, 56), NUMBERS(many, 56), 10000, 56).answer, 52, 0);
    ANSWER(moatbetony_home_open(NUMBERS(many, 56), 56, 0, 10000, 55).answer, 0, 0);
    ANSWER(moatbetony_home_open(NUMBERS(many, 55), 56, 0, 10000, 55).answer, 52, 0);
}

/* What the call tells of the charge on an amount. */
static void charge_is(uint64_t rate, uint64_t amount, uint32_t number, uint64_t charge, int line)
{
    moatbetony_charge_t told = moatbetony_charge(rate, amount);
    check_answer(told.answer, number, 0, line);
    check(told.charge == charge, "the charge", line);
}

#define CHARGE(rate, amount, number, charge) charge_is(rate, amount, number, charge, __LINE__)

/* What is sent at most from a balance of account 0, with account 1 paid: by the call that tells the charge, and by both validators. */
static void most_sent(uint64_t rate, uint64_t balance, uint64_t most, uint64_t charge, int line)
{
    uint64_t homes[2] = {0, 0};
    moatbetony_pair_t pair;
    moatbetony_home_t home;
    homes[0] = balance;
    charge_is(rate, most, 0, charge, line);
    check(most + charge <= balance && most + 1 + moatbetony_charge(rate, most + 1).charge > balance, "and no more", line);
    pair = moatbetony_pair_open(NUMBERS(homes, 2), NUMBERS(homes + 1, 1), rate, 1).state;
    home = moatbetony_home_open(NUMBERS(homes, 2), 1, 0, rate, 1).state;
    pair_one(&pair, sending(0, 0, 0, 1, most + 1), most == MAX ? 21 : 25, line);
    home_one(&home, sending(0, 0, 0, 1, most + 1), most == MAX ? 21 : 25, line);
    if (most == 0)
        return;
    pair_one(&pair, sending(0, 0, 0, 1, most), 0, line);
    home_one(&home, sending(0, 0, 0, 1, most), 0, line);
    pair_balance_is(&pair, 0, 0, balance - most - charge, line);
    pair_balance_is(&pair, 0, 1, charge, line);
    pair_figures_are(&pair, balance - most, 0, most, line);
    home_balance_is(&home, 0, balance - most - charge, line);
    home_balance_is(&home, 1, charge, line);
    home_figures_are(&home, balance - most, most, line);
}

#define MOST(rate, balance, most, charge) most_sent(rate, balance, most, charge, __LINE__)

static void exact_charges(void)
{
    MOST(0, 0, 0, 0);
    MOST(0, 100, 100, 0);
    MOST(0, MAX, MAX, 0);
    MOST(1, 9999, 9999, 0);
    MOST(1, 10000, 9999, 0);
    MOST(1, 10001, 10000, 1);
    MOST(50, 1, 1, 0);
    MOST(50, 199, 199, 0);
    MOST(50, 200, 199, 0);
    MOST(50, 201, 200, 1);
    MOST(50, 531, 529, 2);
    MOST(9999, 1, 1, 0);
    MOST(9999, 3, 2, 1);
    MOST(10000, 0, 0, 0);
    MOST(10000, 1, 0, 0);
    MOST(10000, 7, 3, 3);
    /* amount times rate goes beyond 64 bits, but for the first */
    MOST(1, MAX, UINT64_C(9222449791875588249), UINT64_C(922244979187558));
    MOST(50, MAX, UINT64_C(9177484613785846575), UINT64_C(45887423068929232));
    MOST(9999, MAX, UINT64_C(4611916614258100809), UINT64_C(4611455422596674998));
    MOST(10000, MAX, UINT64_C(4611686018427387903), UINT64_C(4611686018427387903));
}

/* The charge on every amount, also on one that no record has, and 52 for a rate above 10,000, with no charge beside it. */
static void charges_told(void)
{
    static const uint64_t amounts[] = {0, 1, 10000, MAX, MAX + 1, UINT64_MAX};
    static const uint64_t too_high[] = {10001, 10002, 65536, 65536 + 50, WIDE, WIDE + 50, WIDE + 10000, MAX, MAX + 1, UINT64_MAX};
    size_t i, j;
    for (i = 0; i < sizeof amounts / sizeof amounts[0]; i++) {
        CHARGE(0, amounts[i], 0, 0);
        CHARGE(10000, amounts[i], 0, amounts[i]);
        for (j = 0; j < sizeof too_high / sizeof too_high[0]; j++)
            CHARGE(too_high[j], amounts[i], 52, 0);
    }
    CHARGE(50, 0, 0, 0);
    CHARGE(50, 199, 0, 0);
    CHARGE(50, 200, 0, 1);
    CHARGE(50, 399, 0, 1);
    CHARGE(50, 400, 0, 2);
    CHARGE(1, 9999, 0, 0);
    CHARGE(1, 10001, 0, 1); /* 52 with the two exchanged */
    CHARGE(9999, 1, 0, 0);
    CHARGE(9999, 10001, 0, 9999);
    CHARGE(1, MAX, 0, UINT64_C(922337203685477));
    CHARGE(9999, MAX, 0, UINT64_C(9222449699651090329));
    CHARGE(50, MAX + 1, 0, UINT64_C(46116860184273879));
    CHARGE(1, UINT64_MAX, 0, UINT64_C(1844674407370955));
    CHARGE(50, UINT64_MAX, 0, UINT64_C(92233720368547758));
    CHARGE(9999, UINT64_MAX, 0, UINT64_C(18444899399302180659));
}

/* ## The journal */

/* A block by hand; the check is the digest that digests() tests. */
static void block_by_hand(uint8_t *block, uint64_t k, int kind, int count, const uint8_t *items, size_t length)
{
    moatbetony_digest_t d;
    memset(block, 0, 512);
    put(block, 4, k);
    block[4] = (uint8_t)kind;
    block[5] = (uint8_t)count;
    memcpy(block + 32, items, length);
    d = moatbetony_sha256(block, 480);
    memcpy(block + 480, d.bytes, 32);
}

static void sealed(uint8_t *block)
{
    moatbetony_digest_t d = moatbetony_sha256(block, 480);
    memcpy(block + 480, d.bytes, 32);
}

/* All calls that judge a block give this refusal with the block number, and nothing beside it. */
static void refused_block(const uint8_t *block, size_t length, uint64_t k, uint64_t before, uint32_t number, int line)
{
    moatbetony_part_t p = moatbetony_block_record(block, length, k, before, 0);
    moatbetony_count_t c = moatbetony_block_count(block, length, k, before);
    moatbetony_balances_t b = moatbetony_block_balances(block, length, k, before);
    check_answer(moatbetony_block_judge(block, length, k, before), number, k, line);
    check_answer(moatbetony_block_judge_record(block, length, k, before, 0), number, k, line);
    check_answer(p.answer, number, k, line);
    check(p.start == 0 && p.length == 0, "no part", line);
    check_answer(c.answer, number, k, line);
    check(c.count == 0, "no count", line);
    check_answer(b.answer, number, k, line);
    check(b.count == 0 && b.rate == 0 && b.charge_account == 0 && all_zero(b.balances, sizeof b.balances), "no balances", line);
}

#define REFUSED(length, k, before, number) refused_block(BYTES(block, length), k, before, number, __LINE__)

static void balances_blocks(void)
{
    uint8_t items[56 * 8], by_hand[512], *block = guarded(512);
    uint64_t i, k;
    for (i = 0; i < 56; i++)
        put(items + 8 * i, 8, UINT64_C(0x0102030405060700) + i);
    for (k = 0; k < 2; k++) {
        uint8_t kind = (uint8_t)(k + 1);
        moatbetony_balances_t b;
        block_by_hand(by_hand, k, kind, 3, items, 24);
        if (k == 0) {
            put(by_hand + 6, 2, 0x0102);
            put(by_hand + 8, 2, 2);
            sealed(by_hand);
        }
        memset(block, 0xee, 512);
        ANSWER(moatbetony_block_write(block, 512, k, kind, 0x0102, 2, BYTES(items, 24)), 0, 0);
        CHECK(memcmp(block, by_hand, 512) == 0);
        ANSWER(moatbetony_block_judge(block, 512, k, UINT64_MAX), 0, 0);
        CHECK(moatbetony_block_count(block, 512, k, 0).count == 3);
        b = moatbetony_block_balances(block, 512, k, 0);
        ANSWER(b.answer, 0, 0);
        CHECK(b.count == 3 && b.balances[0] == UINT64_C(0x0102030405060700) && b.balances[2] == UINT64_C(0x0102030405060702));
        CHECK(b.rate == (k == 0 ? 0x0102 : 0) && b.charge_account == (k == 0 ? 2 : 0));
        CHECK(all_zero(b.balances + 3, 53 * 8));
        ANSWER(moatbetony_block_judge_record(block, 512, k, 0, 0), 4, k);
        ANSWER(moatbetony_block_record(block, 512, k, 0, 0).answer, 4, k);
        REFUSED(512, k + 1, 14, 13);
        REFUSED(512, k + WIDE, 14, 11);
        ANSWER(moatbetony_block_write(block, 512, k, kind, 10000, 55, BYTES(items, 56 * 8)), 0, 0);
        b = moatbetony_block_balances(block, 512, k, 0);
        CHECK(b.count == 56 && b.balances[55] == UINT64_C(0x0102030405060700) + 55);
        CHECK(b.rate == (k == 0 ? 10000 : 0) && b.charge_account == (k == 0 ? 55 : 0));
    }
}

/* Block 0 by hand, with two balances. */
static void block_0_by_hand(uint8_t *block, uint64_t rate, uint64_t account)
{
    uint8_t items[16];
    memset(items, 0x11, sizeof items);
    block_by_hand(block, 0, 1, 2, items, sizeof items);
    put(block + 6, 2, rate);
    put(block + 8, 2, account);
    sealed(block);
}

/* Rate and charge account in block 0: 52 after 11 to 14 and before 4, and of no other block. */
static void tariff_blocks(void)
{
    uint8_t *block = guarded(512);
    int i, k;
    for (i = 0; i < TARIFF_COUNT; i++) {
        uint64_t rate = TARIFFS[i].rate, account = TARIFFS[i].account;
        moatbetony_balances_t b;
        if (rate > 0xffff || account > 0xffff)
            continue;
        block_0_by_hand(block, rate, account);
        if (TARIFFS[i].number != 0) {
            REFUSED(512, 0, 0, 52);
            continue;
        }
        b = moatbetony_block_balances(block, 512, 0, UINT64_MAX);
        ANSWER(b.answer, 0, 0);
        CHECK(b.count == 2 && b.rate == rate && b.charge_account == account && b.balances[1] == UINT64_C(0x1111111111111111));
        ANSWER(moatbetony_block_judge(block, 512, 0, UINT64_MAX), 0, 0);
        CHECK(moatbetony_block_count(block, 512, 0, 0).count == 2);
        ANSWER(moatbetony_block_judge_record(block, 512, 0, 0, 0), 4, 0);
        ANSWER(moatbetony_block_record(block, 512, 0, 0, 0).answer, 4, 0);
    }

    block_0_by_hand(block, 10001, 2);
    ANSWER(moatbetony_block_judge_record(block, 512, 0, 0, UINT64_MAX), 52, 0);
    REFUSED(511, 0, 0, 11);
    REFUSED(512, 1, 0, 13);
    block[9] ^= 1;
    REFUSED(512, 0, 0, 12);
    for (i = 10; i < 32; i++) {
        block_0_by_hand(block, 10001, 2);
        block[i] = 1;
        sealed(block);
        REFUSED(512, 0, 0, 14);
    }
    for (k = 1; k < 3; k++)
        for (i = 6; i < 32; i++) {
            uint8_t items[32] = {0};
            block_by_hand(block, (uint64_t)k, k + 1, k == 1 ? 4 : 1, items, 32);
            ANSWER(moatbetony_block_judge(block, 512, (uint64_t)k, 0), 0, 0);
            block[i] = 1;
            sealed(block);
            REFUSED(512, (uint64_t)k, 0, 14);
        }
}

/* The writer looks at them for block 0 alone, and answers 4 where 52 would refuse the block. */
static void tariff_writes(void)
{
    uint8_t items[32], by_hand[512], before[512], *out = guarded(512);
    int i, k;
    memset(items, 0x11, sizeof items);
    memset(before, 0xee, sizeof before);
    for (i = 0; i < TARIFF_COUNT; i++) {
        uint64_t rate = TARIFFS[i].rate, account = TARIFFS[i].account;
        uint32_t number = TARIFFS[i].number == 0 ? 0 : 4;
        memset(out, 0xee, 512);
        ANSWER(moatbetony_block_write(out, 512, 0, 1, rate, account, BYTES(items, 16)), number, 0);
        block_0_by_hand(by_hand, rate, account);
        CHECK(memcmp(out, number == 0 ? by_hand : before, 512) == 0);
        for (k = 1; k < 3; k++) {
            memset(out, 0xee, 512);
            ANSWER(moatbetony_block_write(out, 512, (uint64_t)k, (uint8_t)(k + 1), rate, account, BYTES(items, 32)), 0, 0);
            block_by_hand(by_hand, (uint64_t)k, k + 1, k == 1 ? 4 : 1, items, 32);
            CHECK(memcmp(out, by_hand, 512) == 0);
        }
        memset(out, 0xee, 512);
        ANSWER(moatbetony_block_write(out, 512, WIDE, 1, rate, account, BYTES(items, 16)), 4, WIDE);
        ANSWER(moatbetony_block_write(out, 512, 0, 2, rate, account, BYTES(items, 16)), 4, 0);
        CHECK(memcmp(out, before, 512) == 0);
    }
    /* Open is what is written beside it. */
    ANSWER(moatbetony_block_write(out, 512, 0, 1, 50, 1, BYTES(items, 8)), 4, 0);
    ANSWER(moatbetony_block_write(out, 512, 0, 1, 50, 2, BYTES(items, 24)), 0, 0);
}

static void record_blocks(void)
{
    uint8_t items[14 * 32], by_hand[512], longer[513], *block = guarded(512);
    moatbetony_part_t p;
    uint64_t i;
    for (i = 0; i < sizeof items; i++)
        items[i] = (uint8_t)(i * 7 + 1);
    block_by_hand(by_hand, 0x0102, 3, 14, items, sizeof items);
    ANSWER(moatbetony_block_write(block, 512, 0x0102, 3, NO_CHARGE, BYTES(items, sizeof items)), 0, 0);
    CHECK(memcmp(block, by_hand, 512) == 0);
    for (i = 0; i < 14; i++) {
        ANSWER(moatbetony_block_judge_record(block, 512, 0x0102, 14, i), 0, 0);
        p = moatbetony_block_record(block, 512, 0x0102, 14, i);
        ANSWER(p.answer, 0, 0);
        CHECK(p.start == 32 + 32 * i && p.length == 32 && memcmp(block + p.start, items + 32 * i, 32) == 0);
    }
    CHECK(moatbetony_block_count(block, 512, 0x0102, 14).count == 14);

    /* Numbers of 64 bits: the block, the count before, the place. */
    ANSWER(moatbetony_block_judge(block, 512, 0x0102, WIDE + 13), 0, 0);
    ANSWER(moatbetony_block_judge(block, 512, 0x0102, 13), 14, 0x0102);
    ANSWER(moatbetony_block_judge(block, 512, WIDE + 0x0102, 14), 11, WIDE + 0x0102);
    ANSWER(moatbetony_block_judge_record(block, 512, 0x0102, 14, 14), 4, 0x0102);
    ANSWER(moatbetony_block_judge_record(block, 512, 0x0102, 14, WIDE), 4, 0x0102);
    ANSWER(moatbetony_block_judge_record(block, 512, 0x0102, 13, 14), 14, 0x0102);
    ANSWER(moatbetony_block_judge_record(block, 512, 0x0102, 14, 13), 0, 0);
    ANSWER(moatbetony_block_judge_record(block, 512, 0x0102, WIDE + 13, 0), 0, 0);
    ANSWER(moatbetony_block_record(block, 512, 0x0102, WIDE + 13, 0).answer, 0, 0);
    ANSWER(moatbetony_block_record(block, 512, 0x0102, 14, WIDE).answer, 4, 0x0102);
    ANSWER(moatbetony_block_count(block, 512, 0x0102, WIDE + 13).answer, 0, 0);
    ANSWER(moatbetony_block_balances(block, 512, 0x0102, WIDE + 13).answer, 4, 0x0102);
    p = moatbetony_block_record(block, 512, 0x0102, 14, 14);
    ANSWER(p.answer, 4, 0x0102);
    CHECK(p.start == 0 && p.length == 0);
    ANSWER(moatbetony_block_record(block, 512, 0x0102, 14, UINT64_MAX).answer, 4, 0x0102);
    ANSWER(moatbetony_block_balances(block, 512, 0x0102, 14).answer, 4, 0x0102);

    /* 11 to 14, in order. */
    REFUSED(512, 0x0102, 13, 14);
    REFUSED(512, 0x0103, 14, 13);
    REFUSED(512, 65536, 14, 11);
    REFUSED(511, 0x0102, 14, 11);
    REFUSED(0, 0x0102, 14, 11);
    refused_block(NULL, 0, 0x0102, 14, 11, __LINE__);
    refused_block(NULL, 0, 0, 0, 11, __LINE__); /* case 15 */
    memcpy(longer, block, 512);
    longer[512] = 0;
    refused_block(BYTES(longer, 513), 0x0102, 14, 11, __LINE__);
    for (i = 0; i < 512; i += 73) {
        block[i] ^= 1;
        REFUSED(512, 0x0102, 14, 12);
        block[i] ^= 1;
    }
    block[511] ^= 0x80;
    REFUSED(512, 0x0103, 0, 12);
    block[511] ^= 0x80;
    block[4] = 2;
    sealed(block);
    REFUSED(512, 0x0102, 14, 14);
    block[4] = 3;
    block[5] = 15;
    sealed(block);
    REFUSED(512, 0x0102, 14, 14);
    block[5] = 0;
    sealed(block);
    REFUSED(512, 0x0102, 14, 14);
    block[5] = 13;
    sealed(block);
    REFUSED(512, 0x0102, 14, 14);
    block[5] = 14;
    block[31] = 1;
    sealed(block);
    REFUSED(512, 0x0102, 14, 14);
    REFUSED(512, 0x0103, 14, 13);
    ANSWER(moatbetony_block_write(block, 512, 2, 3, NO_CHARGE, BYTES(items, 32)), 0, 0);
    ANSWER(moatbetony_block_judge(block, 512, 2, 0), 0, 0);
    ANSWER(moatbetony_block_record(block, 512, 2, 0, 1).answer, 4, 2);
    ANSWER(moatbetony_block_write(block, 512, 65535, 3, NO_CHARGE, BYTES(items, 64)), 0, 0);
    CHECK(moatbetony_block_count(block, 512, 65535, 14).count == 2);
}

/* A write that is refused, with the output as it came. */
static void unwritten(size_t out_length, uint64_t k, int kind, size_t items_length, int line)
{
    uint8_t before[513], items[500], *out = guarded(out_length);
    memset(out, 0xee, out_length);
    memset(before, 0xee, sizeof before);
    memset(items, 0x11, sizeof items);
    check_answer(moatbetony_block_write(out, out_length, k, (uint8_t)kind, NO_CHARGE, BYTES(items, items_length)), 4, k, line);
    check(memcmp(out, before, out_length) == 0, "output as it came", line);
}

static void refused_writes(void)
{
    uint8_t before[512], items[32], *out = guarded(512);
    memset(out, 0xee, 512);
    memset(before, 0xee, 512);
    memset(items, 0, 32);
    unwritten(511, 2, 3, 32, __LINE__);
    unwritten(513, 2, 3, 32, __LINE__);
    unwritten(0, 2, 3, 32, __LINE__);
    unwritten(512, 65536, 3, 32, __LINE__);
    unwritten(512, WIDE + 2, 3, 32, __LINE__);
    unwritten(512, UINT64_MAX, 3, 32, __LINE__);
    unwritten(512, 0, 2, 8, __LINE__);
    unwritten(512, 0, 3, 32, __LINE__);
    unwritten(512, 1, 1, 8, __LINE__);
    unwritten(512, 2, 1, 8, __LINE__);
    unwritten(512, 2, 0, 32, __LINE__);
    unwritten(512, 2, 255, 32, __LINE__);
    unwritten(512, 2, 3, 0, __LINE__);
    unwritten(512, 2, 3, 31, __LINE__);
    unwritten(512, 2, 3, 33, __LINE__);
    unwritten(512, 2, 3, 8, __LINE__);
    unwritten(512, 2, 3, 15 * 32, __LINE__);
    unwritten(512, 0, 1, 57 * 8, __LINE__);
    unwritten(512, 0, 1, 7, __LINE__);
    ANSWER(moatbetony_block_write(out, 512, 2, 3, NO_CHARGE, NULL, 0), 4, 2);
    CHECK(memcmp(out, before, 512) == 0);
    ANSWER(moatbetony_block_write(NULL, 0, 2, 3, NO_CHARGE, BYTES(items, 32)), 4, 2);
    ANSWER(moatbetony_block_write(NULL, 0, 7, 3, NO_CHARGE, NULL, 0), 4, 7);
}

/* ## Results in a slot where something else stood */

/* A struct of more than 16 bytes comes back where a first argument points that C does not show (System V calling convention). Here it is
   shown, so that the slot is the test's own, and volatile, so that no compiler sees which function it is: what a call does not write stays
   in the slot as it was. */
typedef void (*any_call)(void);

#define INTO(call, type, ...) \
    static type *(*volatile into_##call)(type *, __VA_ARGS__) = (type * (*)(type *, __VA_ARGS__))(any_call)moatbetony_##call

INTO(pair_open, moatbetony_pair_outcome_t, const uint64_t *, size_t, const uint64_t *, size_t, uint64_t, uint64_t);
INTO(pair_check_record, moatbetony_pair_outcome_t, moatbetony_pair_t, const uint8_t *, size_t);
INTO(pair_check_list, moatbetony_pair_outcome_t, moatbetony_pair_t, const uint8_t *, size_t);
INTO(pair_figures, moatbetony_pair_figures_t, moatbetony_pair_t);
INTO(pair_balance, moatbetony_balance_t, moatbetony_pair_t, uint8_t, uint16_t);
INTO(pair_places_left, moatbetony_pair_places_t, moatbetony_pair_t);
INTO(home_open, moatbetony_home_outcome_t, const uint64_t *, size_t, size_t, uint64_t, uint64_t, uint64_t);
INTO(home_check_record, moatbetony_home_outcome_t, moatbetony_home_t, const uint8_t *, size_t);
INTO(home_check_list, moatbetony_home_outcome_t, moatbetony_home_t, const uint8_t *, size_t);
INTO(home_figures, moatbetony_home_figures_t, moatbetony_home_t);
INTO(home_balance, moatbetony_balance_t, moatbetony_home_t, uint16_t);
INTO(home_places_left, moatbetony_home_places_t, moatbetony_home_t);
INTO(record_read, moatbetony_record_t, const uint8_t *, size_t);
INTO(record_encode, moatbetony_encoded_t, uint8_t, uint8_t, uint16_t, uint16_t, uint64_t, uint64_t, uint8_t);
INTO(charge, moatbetony_charge_t, uint64_t, uint64_t);
INTO(block_record, moatbetony_part_t, const uint8_t *, size_t, uint64_t, uint64_t, uint64_t);
INTO(block_count, moatbetony_count_t, const uint8_t *, size_t, uint64_t, uint64_t);
INTO(block_balances, moatbetony_balances_t, const uint8_t *, size_t, uint64_t, uint64_t);

/* Calls with a slot of 0xff, and of zeros, and looks at the answer in it. */
#define SLOT(call, type, number, place, ...)                   \
    do {                                                       \
        static type slot;                                      \
        memset(&slot, 0xff, sizeof slot);                      \
        CHECK(into_##call(&slot, __VA_ARGS__) == &slot);       \
        ANSWER(slot.answer, number, place);                    \
        memset(&slot, 0, sizeof slot);                         \
        CHECK(into_##call(&slot, __VA_ARGS__) == &slot);       \
        ANSWER(slot.answer, number, place);                    \
    } while (0)

static void pair_slots(void)
{
    moatbetony_pair_t good = pair_opened(), forged = good;
    bytes32 passes = local(0, 0, 1, 1, 1), refused = local(0, 0, 1, 1, 101);
    forged.supply++;
    SLOT(pair_open, moatbetony_pair_outcome_t, 0, 0, HOMES, 2, FARS, 1, 50, 1);
    SLOT(pair_open, moatbetony_pair_outcome_t, 1, 0, HOMES, 0, FARS, 1, NO_CHARGE);
    SLOT(pair_open, moatbetony_pair_outcome_t, 52, 0, HOMES, 2, FARS, 1, 50, 2);
    SLOT(pair_check_record, moatbetony_pair_outcome_t, 0, 0, good, passes.at, 32);
    SLOT(pair_check_record, moatbetony_pair_outcome_t, 25, 0, good, refused.at, 32);
    SLOT(pair_check_record, moatbetony_pair_outcome_t, 3, 0, forged, passes.at, 32);
    SLOT(pair_check_list, moatbetony_pair_outcome_t, 0, 0, good, passes.at, 32);
    SLOT(pair_check_list, moatbetony_pair_outcome_t, 25, 0, good, refused.at, 32);
    SLOT(pair_check_list, moatbetony_pair_outcome_t, 3, 0, forged, passes.at, 32);
    SLOT(pair_figures, moatbetony_pair_figures_t, 0, 0, good);
    SLOT(pair_figures, moatbetony_pair_figures_t, 3, 0, forged);
    SLOT(pair_balance, moatbetony_balance_t, 0, 0, good, 1, 0);
    SLOT(pair_balance, moatbetony_balance_t, 22, 0, good, 1, 1);
    SLOT(pair_places_left, moatbetony_pair_places_t, 0, 0, good);
    SLOT(pair_places_left, moatbetony_pair_places_t, 3, 0, forged);
}

static void home_slots(void)
{
    moatbetony_home_t good = home_opened(), forged = good;
    bytes32 passes = local(0, 0, 1, 1, 1), refused = local(0, 0, 1, 1, 101);
    forged.supply++;
    SLOT(home_open, moatbetony_home_outcome_t, 0, 0, HOMES, 2, 1, 20, 50, 1);
    SLOT(home_open, moatbetony_home_outcome_t, 2, 0, HOMES, 2, 1, MAX, NO_CHARGE);
    SLOT(home_open, moatbetony_home_outcome_t, 52, 0, HOMES, 2, 1, 20, 10001, 1);
    SLOT(home_check_record, moatbetony_home_outcome_t, 0, 0, good, passes.at, 32);
    SLOT(home_check_record, moatbetony_home_outcome_t, 25, 0, good, refused.at, 32);
    SLOT(home_check_record, moatbetony_home_outcome_t, 3, 0, forged, passes.at, 32);
    SLOT(home_check_list, moatbetony_home_outcome_t, 0, 0, good, passes.at, 32);
    SLOT(home_check_list, moatbetony_home_outcome_t, 25, 0, good, refused.at, 32);
    SLOT(home_check_list, moatbetony_home_outcome_t, 3, 0, forged, passes.at, 32);
    SLOT(home_figures, moatbetony_home_figures_t, 0, 0, good);
    SLOT(home_figures, moatbetony_home_figures_t, 3, 0, forged);
    SLOT(home_balance, moatbetony_balance_t, 0, 0, good, 1);
    SLOT(home_balance, moatbetony_balance_t, 22, 0, good, 2);
    SLOT(home_places_left, moatbetony_home_places_t, 0, 0, good);
    SLOT(home_places_left, moatbetony_home_places_t, 3, 0, forged);
}

static void other_slots(void)
{
    bytes32 r = local(0, 0, 1, 1, 1);
    uint8_t records_block[512], balances_block[512], tariff_block[512], balance[8] = {0};
    ANSWER(moatbetony_block_write(records_block, 512, 2, MOATBETONY_BLOCK_RECORDS, NO_CHARGE, r.at, 32), 0, 0);
    ANSWER(moatbetony_block_write(balances_block, 512, 1, MOATBETONY_BLOCK_FAR_BALANCES, NO_CHARGE, balance, 8), 0, 0);
    block_0_by_hand(tariff_block, 10001, 0);
    SLOT(record_read, moatbetony_record_t, 0, 0, r.at, 32);
    SLOT(record_read, moatbetony_record_t, 21, 0, r.at, 31);
    SLOT(record_encode, moatbetony_encoded_t, 0, 0, 1, 0, 0, 0, 0, 1, 1);
    SLOT(record_encode, moatbetony_encoded_t, 21, 0, 1, 0, 0, 0, 0, 0, 1);
    SLOT(charge, moatbetony_charge_t, 0, 0, 50, 200);
    SLOT(charge, moatbetony_charge_t, 52, 0, 10001, 200);
    SLOT(block_record, moatbetony_part_t, 0, 0, records_block, 512, 2, 0, 0);
    SLOT(block_record, moatbetony_part_t, 4, 2, records_block, 512, 2, 0, 1);
    SLOT(block_count, moatbetony_count_t, 0, 0, records_block, 512, 2, 0);
    SLOT(block_count, moatbetony_count_t, 11, 2, records_block, 511, 2, 0);
    SLOT(block_balances, moatbetony_balances_t, 0, 0, balances_block, 512, 1, 0);
    SLOT(block_balances, moatbetony_balances_t, 13, 0, balances_block, 512, 0, 0);
    SLOT(block_balances, moatbetony_balances_t, 52, 0, tariff_block, 512, 0, 0);
    SLOT(block_record, moatbetony_part_t, 52, 0, tariff_block, 512, 0, 0, 0);
    SLOT(block_count, moatbetony_count_t, 52, 0, tariff_block, 512, 0, 0);
}

/* ## Wide figures and lengths */

static void wide_figures(void)
{
    static const uint64_t homes[2] = {WIDE + 1, 2 * WIDE}, fars[1] = {3 * WIDE + 7};
    moatbetony_pair_t pair = moatbetony_pair_open(NUMBERS(homes, 2), NUMBERS(fars, 1), NO_CHARGE).state;
    moatbetony_home_t home = moatbetony_home_open(NUMBERS(homes, 2), 1, 3 * WIDE + 7, NO_CHARGE).state;
    PAIR(pair, sending(0, 1, 0, 1, WIDE + 5), 0);
    pair_figures_are(&pair, 2 * WIDE - 4, 3 * WIDE + 7, WIDE + 5, __LINE__);
    pair_balance_is(&pair, 0, 0, WIDE + 1, __LINE__);
    pair_balance_is(&pair, 1, 0, 3 * WIDE + 7, __LINE__);
    HOME(home, sending(0, 1, 0, 1, WIDE + 5), 0);
    home_figures_are(&home, 2 * WIDE - 4, 4 * WIDE + 12, __LINE__);
    home_balance_is(&home, 0, WIDE + 1, __LINE__);
}

/* Lengths that are right in their low 32 bits alone, of memory that is there. Nobody reads all of it. */
static void wide_lengths(void)
{
    size_t size = 8 * (WIDE + 4096);
    void *mapped = mmap(NULL, size, PROT_READ | PROT_WRITE, MAP_PRIVATE | MAP_ANONYMOUS | MAP_NORESERVE, -1, 0);
    uint8_t *much = (uint8_t *)mapped, block[512], before[512], items[32];
    const uint64_t *numbers = (const uint64_t *)mapped;
    moatbetony_pair_t pair = pair_opened(), pair_before = pair;
    moatbetony_home_t home = home_opened(), home_before = home;
    bytes32 r = local(0, 0, 1, 1, 1);
    CHECK(mapped != MAP_FAILED);
    if (mapped == MAP_FAILED)
        return;
    ANSWER(moatbetony_pair_open(numbers, WIDE + 2, FARS, 1, NO_CHARGE).answer, 1, 0);
    ANSWER(moatbetony_pair_open(HOMES, 2, numbers, WIDE + 1, NO_CHARGE).answer, 1, 0);
    ANSWER(moatbetony_home_open(numbers, WIDE + 2, 1, 20, NO_CHARGE).answer, 1, 0);
    memcpy(much, r.at, 32);
    ANSWER(moatbetony_record_read(much, WIDE + 32).answer, 21, 0);
    ANSWER(moatbetony_pair_take(&pair, much, WIDE + 32), 21, 0);
    ANSWER(moatbetony_pair_take_list(&pair, much, WIDE + 32), 21, 1);
    ANSWER(moatbetony_pair_check_record(pair, much, WIDE + 32).answer, 21, 0);
    ANSWER(moatbetony_pair_check_list(pair, much, WIDE + 32).answer, 21, 1);
    ANSWER(moatbetony_home_take(&home, much, WIDE + 32), 21, 0);
    ANSWER(moatbetony_home_take_list(&home, much, WIDE + 32), 21, 1);
    ANSWER(moatbetony_home_check_record(home, much, WIDE + 32).answer, 21, 0);
    ANSWER(moatbetony_home_check_list(home, much, WIDE + 32).answer, 21, 1);
    SAME(pair, pair_before);
    SAME(home, home_before);
    memset(items, 1, 32);
    ANSWER(moatbetony_block_write(much, 512, 2, 3, NO_CHARGE, items, 32), 0, 0);
    refused_block(much, WIDE + 512, 2, 0, 11, __LINE__);
    ANSWER(moatbetony_block_write(much, WIDE + 512, 2, 3, NO_CHARGE, items, 32), 4, 2);
    memset(block, 0xee, 512);
    memset(before, 0xee, 512);
    ANSWER(moatbetony_block_write(block, 512, 2, 3, NO_CHARGE, much, WIDE + 32), 4, 2);
    SAME(block, before);
    munmap(mapped, size);
}

/* ## SHA-256: the vectors of FIPS 180-4, and every length about a block's ends */

static void digest_is(const uint8_t *message, size_t length, const char *hex, int line)
{
    moatbetony_digest_t d = moatbetony_sha256(BYTES(message, length));
    char text[65];
    int i;
    for (i = 0; i < 32; i++)
        sprintf(text + 2 * i, "%02x", d.bytes[i]);
    check(strcmp(text, hex) == 0, hex, line);
}

static void digests(void)
{
    static uint8_t many[1000000];
    const uint8_t *abc = (const uint8_t *)"abcdbcdecdefdefgefghfghighijhijkijkljklmklmnlmnomnopnopq";
    moatbetony_digest_t before, d;
    size_t i;
    digest_is(NULL, 0, "e3b0c44298fc1c149afbf4c8996fb92427ae41e4649b934ca495991b7852b855", __LINE__);
    digest_is(abc, 0, "e3b0c44298fc1c149afbf4c8996fb92427ae41e4649b934ca495991b7852b855", __LINE__);
    digest_is((const uint8_t *)"abc", 3, "ba7816bf8f01cfea414140de5dae2223b00361a396177a9cb410ff61f20015ad", __LINE__);
    digest_is(abc, 56, "248d6a61d20638b8e5c026930c3e6039a33ce45964ff2167f6ecedd419db06c1", __LINE__);
    memset(many, 'a', sizeof many);
    digest_is(many, sizeof many, "cdc76e5c9914fb9281a1c7e284d73e67f1809a48a497200e046d39ccc7112cd0", __LINE__);
    before = moatbetony_sha256(BYTES(many, 0));
    for (i = 1; i < 200; i++) {
        d = moatbetony_sha256(BYTES(many, i));
        CHECK(memcmp(d.bytes, before.bytes, 32) != 0);
        before = d;
    }
}

int main(void)
{
    versions();
    digests();
    records();
    pair_openings();
    pair_cases();
    pair_numbers();
    pair_accounts();
    pair_charges();
    pair_fields();
    pair_lists();
    pair_states();
    pair_full();
    home_openings();
    home_cases();
    home_numbers();
    home_accounts();
    home_charges();
    home_fields();
    home_lists();
    home_states();
    home_full();
    tariffs();
    exact_charges();
    charges_told();
    balances_blocks();
    tariff_blocks();
    record_blocks();
    refused_writes();
    tariff_writes();
    pair_slots();
    home_slots();
    other_slots();
    wide_figures();
    wide_lengths();
    printf("%ld checks, %ld failed\n", checks, failed);
    return failed != 0;
}
