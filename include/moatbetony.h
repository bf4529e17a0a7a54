/*
 * Moatbetony 0.6.1: a proved checker of two linked ledgers that trade one credit.
 *
 * A home ledger, and a far ledger run by people nobody here has met, hand in records of 32 bytes. The pair validator (pair book)
 * sees the records of both in one order; the home validator (guard) sees those of home alone. Every call answers passed, or one
 * refusal with its number and place. Hand nothing over on a refusal, and on passed only what the record pays for:
 *
 *     if (moatbetony_version() != MOATBETONY_VERSION) exit(1);                      (once: another library has other states or refusals)
 *     moatbetony_home_outcome_t opened = moatbetony_home_open(home_balances, home_accounts, far_accounts, far_total, rate, charge_account);
 *     moatbetony_home_t state = opened.state;                                       (after opened.answer.passed was tested)
 *     record[24] = signature_good;                                                  (1 or 0, of your own check: SIGNATURES)
 *     moatbetony_answer_t answer = moatbetony_home_take(&state, record, 32);
 *     if (answer.passed) ...                                                        (store the state, then see whom it pays: PASSED)
 *     else puts(moatbetony_refusal_text(answer.number));
 *
 * ARGUMENTS   The state comes first, then bytes with their length, then numbers: a record's fields in the order of its format; of a
 *             block its number, the count before, the place; of an opening, last, rate and charge account; of a charge rate and amount.
 *             The writer alone has output, number, kind, rate, charge account and then the items. A length counts items: bytes, or
 *             numbers of 64 bits.
 * SIGNATURES  are not checked here. Byte 24 of a record says what the caller's own check of its signature found (1 good, 0 bad). Write
 *             it yourself, over whatever came in, before the record is handed in: a record whose byte 24 its sender wrote is one that
 *             nobody has checked.
 * ANSWERS     "Answers 3, 22" in a comment lists all refusals of a call, in their order; where none applies it passes, with number 0,
 *             passed 1 and place 0. Test `passed`: it is 1 where the call passed and 0 with every refusal, so that an answer that was
 *             cleared and never filled has not passed, though its number is 0.
 * PASSED      says that the record is in order and its credit has moved. Whether it pays you, and enough, you read with
 *             moatbetony_record_read: a local or an arrival on home, to your account, from another one if it is a local, of the price.
 * CHARGE      Home's network takes a charge on each home sending: the rate's ten-thousandths of the amount, rounded down (rate 50: 5 on
 *             1,000), paid to a home account, the charge account. An opening tells both: a rate from 0, no charge, to MOATBETONY_MAX_RATE,
 *             as much again as the amount, and an account that is open at home, also beside rate 0 (else 52). They are the network's: ask
 *             it, or read them in block 0 of its journal. A home sending needs amount and charge in the sender's balance (else 25) and
 *             takes both; the charge account gets the charge at once, the far receiver later the amount alone. The charge account may send
 *             too: it needs and pays both, and then gets the charge. Locals, arrivals and far sendings cost nothing more than their
 *             amount. The charge stays at home: the record's amount, what is in flight and the far pool leave it out. Before a holder
 *             signs a sending, ask moatbetony_charge for the charge, and show the amount, the charge and their sum, which leaves the
 *             account. Ask the library each time, and work no charge out: how it is rounded is the library's. There is no call for the
 *             most that a balance allows: on 25 try a smaller amount.
 * PLACES      A validator holds MOATBETONY_CAPACITY passed records of a ledger, and then passes no further one (41): no record makes
 *             room again. Ask moatbetony_pair_places_left or moatbetony_home_places_left before each record, so that you see 41 coming:
 *             warn while there is time for the networks to make a new opening, and close the desk with no place left. Beside a refused
 *             state (3) stands 0 too: test the answer first.
 * STATES      are plain numbers of 64 bits. Hand records in with the calls in place (moatbetony_pair_take, moatbetony_home_take and their
 *             _list): they alter the state behind the pointer where the answer passed, and a refusal leaves every word of it as it was.
 *             One record is taken without a copy of the state; a list keeps one copy while it runs. Until such a call returns, the state
 *             is in between: after one that was cut off, take up the stored state. All other calls take a state by value and neither
 *             keep nor alter the caller's copy: where moatbetony_pair_check_record or one of its kind passed, go on with
 *             `outcome.state`. A refused one hands the state back as it came, and a refused write leaves the output as it came.
 * STORING     A stored state may be damaged or forged: every call judges its state first (refusal 3). 3 says that a state's numbers fit
 *             together, and no more. It does not see two balances exchanged, a balance raised together with the supply (home: or at the
 *             far pool's cost), another rate or charge account that an opening would take, held records left out, so that they pass again,
 *             or an older state put back. Keep the latest digest of a stored state where nobody else can write it, and compare it before
 *             the state is taken up. Store a new state before goods are handed over on it. A state is stored with
 *             moatbetony_state_version, and taken up under no other.
 * ANY INPUT   is taken: damaged bytes, wrong lengths, forged states. But for the signature, nothing needs to be checked before a call.
 *             What a caller owes is what C asks of every buffer: so many items can be read there (and written, for what is), 64-bit
 *             numbers stand aligned, what is written (the output, a state in place) overlaps nothing else that is lent, and nobody else
 *             touches it during the call or writes to the rest. NULL is allowed for bytes or numbers where their length is 0, and never
 *             for a state.
 * THREADS     No data of its own that is written, no allocation, no input or output, no locks: any number of threads may call at once. A
 *             state belongs to one caller at a time; threads that share one keep a lock of their own around taking a record and storing
 *             the state.
 * STACK       A call needs at most MOATBETONY_STACK_PAIR bytes with a pair state, MOATBETONY_STACK_HOME with a home state and
 *             MOATBETONY_STACK_OTHER without one, its arguments and its result included. Measured, not proved. The library touches
 *             its frames page by page, so that too small a stack ends at its guard page; -fstack-clash-protection does so for a caller's.
 * SIZES       moatbetony_pair_t is 4,215 words of 8 bytes (33,720) and moatbetony_home_t 2,111 (16,888). Neither has padding, so that their
 *             bytes can be stored, hashed and compared. Of the other structs moatbetony_record_t alone has padding: compare its fields.
 *             Store or hash states alone.
 * PLATFORM    x86-64 Linux with the System V calling convention and glibc; little-endian, 64-bit size_t. C99 or later, C++11 or later.
 *             The library needs memcpy and memset, and nothing else.
 * REFUSALS    A number keeps its subject and is never given to another. When it is given may change with the rules of a later version,
 *             and a later version may add numbers, also for a part of what an older one told; CHANGELOG.md names each. So take every
 *             answer without `passed` as a refusal, its number known or not (REFUSALS.md of the documentation).
 * PROOFS      cover the library's functions, the calls in place among them, for every input. They do not cover this header, its helper
 *             (the refusals' texts) or the caller's code.
 */
#ifndef MOATBETONY_H
#define MOATBETONY_H

#if !defined(__x86_64__) || !defined(__LP64__) || !defined(__linux__)
#error "moatbetony is built for x86-64 Linux with 64-bit pointers"
#endif

#include <stddef.h>
#include <stdint.h>

#ifdef __cplusplus
extern "C" {
#endif

/* A result that is looked at by nobody is a mistake. */
#if defined(__GNUC__)
#define MOATBETONY_MUST_USE __attribute__((warn_unused_result))
#else
#define MOATBETONY_MUST_USE
#endif

/* ## Constants */

#define MOATBETONY_VERSION_MAJOR 0
#define MOATBETONY_VERSION_MINOR 6
#define MOATBETONY_VERSION_PATCH 1
#define MOATBETONY_VERSION_TEXT "0.6.1"
/* This header's version, as moatbetony_version gives the library's: major * 10,000 + minor * 100 + patch. */
#define MOATBETONY_VERSION (MOATBETONY_VERSION_MAJOR * 10000 + MOATBETONY_VERSION_MINOR * 100 + MOATBETONY_VERSION_PATCH)
/* The layout of the two states. It is stored with a state, and a state is taken up only under its own. */
#define MOATBETONY_STATE_VERSION 3

#define MOATBETONY_RECORD_SIZE 32       /* bytes of a record */
#define MOATBETONY_BLOCK_SIZE 512       /* bytes of a journal's block */
#define MOATBETONY_HEADER_SIZE 32       /* bytes of a block before its items */
#define MOATBETONY_BALANCE_SIZE 8       /* bytes of an opening balance in a block */
#define MOATBETONY_DIGEST_SIZE 32       /* bytes of a SHA-256 digest */
#define MOATBETONY_RECORDS_PER_BLOCK 14 /* the most records of a block */
#define MOATBETONY_MAX_BLOCKS 65536     /* the most blocks of a journal */
#define MOATBETONY_MAX_ACCOUNTS 56      /* the most accounts of a ledger, and opening balances of a block */
#define MOATBETONY_CAPACITY 512         /* the passed records that a validator holds of a ledger */
#define MOATBETONY_MAX_RATE 10000       /* the greatest rate of the charge, in ten-thousandths of what is sent */
/* The most credit that both ledgers hold, and the most that a record moves: 2^63-1. */
#define MOATBETONY_MAX_SUPPLY UINT64_C(9223372036854775807)

/* The stack that a call needs, in bytes, arguments and result included. */
#define MOATBETONY_STACK_PAIR 163840
#define MOATBETONY_STACK_HOME 65536
#define MOATBETONY_STACK_OTHER 4096

/* The ledger that holds a record. */
enum moatbetony_ledger {
    MOATBETONY_HOME = 0,
    MOATBETONY_FAR = 1
};

/* What a record does. A sending and its arrival on the other ledger share sender, receiver, number and amount. */
enum moatbetony_kind {
    MOATBETONY_LOCAL = 1,   /* both accounts on the record's ledger */
    MOATBETONY_SENDING = 2, /* the sender's account on the record's ledger, the receiver's on the other */
    MOATBETONY_ARRIVAL = 3  /* the receiver's account on the record's ledger, the sender's on the other */
};

/* What the caller's own check found of a record's signature: byte 24. */
enum moatbetony_verdict {
    MOATBETONY_SIGNATURE_BAD = 0,
    MOATBETONY_SIGNATURE_GOOD = 1
};

/* What a journal's block holds: block 0 home balances, block 1 far balances, all others records. */
enum moatbetony_block_kind {
    MOATBETONY_BLOCK_HOME_BALANCES = 1,
    MOATBETONY_BLOCK_FAR_BALANCES = 2,
    MOATBETONY_BLOCK_RECORDS = 3
};

/* An answer's number: the refusal (REFUSALS.md of the documentation), or 0 where there is none. Whether the call passed is told by the
   answer's field `passed`, which is 1 or 0 and no number of these. */
enum moatbetony_refusal {
    MOATBETONY_NO_REFUSAL = 0,
    /* caused by the maker who calls */
    MOATBETONY_REFUSED_ACCOUNT_COUNT = 1,
    MOATBETONY_REFUSED_SUPPLY = 2,
    MOATBETONY_REFUSED_STATE = 3,
    MOATBETONY_REFUSED_BLOCK_REQUEST = 4,
    /* by the journal's keeper */
    MOATBETONY_REFUSED_BLOCK_MISSING = 11,
    MOATBETONY_REFUSED_BLOCK_CHECK = 12,
    MOATBETONY_REFUSED_BLOCK_NUMBER = 13,
    MOATBETONY_REFUSED_BLOCK_FORM = 14,
    /* by the record's author */
    MOATBETONY_REFUSED_RECORD_FORM = 21,
    MOATBETONY_REFUSED_ACCOUNT = 22, /* the sender's account; of a balance the account asked for */
    MOATBETONY_REFUSED_VERDICT = 23,
    MOATBETONY_REFUSED_NUMBER_USED = 24, /* in its class: arrivals, or locals and sendings */
    MOATBETONY_REFUSED_BALANCE = 25, /* a home sending needs its charge too */
    /* by the far ledger */
    MOATBETONY_REFUSED_NO_SENDING = 31,
    MOATBETONY_REFUSED_ABOVE_POOL = 32,
    /* by the maker who calls */
    MOATBETONY_REFUSED_FAR_RECORD = 33,
    /* by nobody: the size of the part */
    MOATBETONY_REFUSED_FULL = 41,
    /* by the record's author */
    MOATBETONY_REFUSED_RECEIVER = 51, /* the receiver's account */
    /* by the maker who calls; of a block by the journal's keeper */
    MOATBETONY_REFUSED_TARIFF = 52 /* rate or charge account */
};

/* ## Types */

/* The answer of a call. Test `passed`, and the number only for the reason: an answer set to zeros has number 0 and has not passed. The
   place is the record's index in the list handed in, or the block number; 0 where neither applies, and beside passed. */
typedef struct moatbetony_answer {
    uint32_t number; /* enum moatbetony_refusal */
    uint32_t passed; /* 1 if passed, else 0 */
    uint64_t place;
} moatbetony_answer_t;

/* A held record: the four words of its 32 bytes, each the number of eight bytes, highest first. */
typedef struct moatbetony_held {
    uint64_t head; /* bytes 0 to 7: kind, ledger, sender (2 bytes), receiver (2 bytes), two zeros */
    uint64_t number;
    uint64_t amount;
    uint64_t tail; /* bytes 24 to 31: verdict, seven zeros */
} moatbetony_held_t;

/* The pair validator's state. Where both ledgers are, home stands first. Records at or beyond the count of their ledger are not looked
   at, and only a passed record writes there. */
typedef struct moatbetony_pair {
    moatbetony_held_t records[2][512];
    uint64_t balances[2][56];
    uint64_t supply; /* the credit of both ledgers at opening (the networks' word: stake) */
    uint64_t accounts[2];
    uint64_t counts[2];      /* the numbers of held records */
    uint64_t rate;           /* of the charge on home's sendings, in ten-thousandths: 0 to 10,000 */
    uint64_t charge_account; /* the home account that is paid the charge */
} moatbetony_pair_t;

/* The home validator's state. Records at or beyond the count are not looked at, and only a passed record writes there. */
typedef struct moatbetony_home {
    moatbetony_held_t records[512];
    uint64_t balances[56];
    uint64_t supply; /* home balances and far total at opening (the networks' word: stake) */
    uint64_t pool;   /* the far pool (far due): far total at opening, plus what home has sent, less what has arrived */
    uint64_t home_accounts;
    uint64_t far_accounts;
    uint64_t count;          /* the number of held records */
    uint64_t rate;           /* of the charge on home's sendings, in ten-thousandths: 0 to 10,000 */
    uint64_t charge_account; /* the home account that is paid the charge */
} moatbetony_home_t;

/* An answer, and the state to go on with. */
typedef struct moatbetony_pair_outcome {
    moatbetony_answer_t answer;
    moatbetony_pair_t state;
} moatbetony_pair_outcome_t;

/* The home balances, the far balances and what is in flight: passed sendings whose arrival has not passed, without their charges. The
   three make the supply. */
typedef struct moatbetony_pair_figures {
    moatbetony_answer_t answer;
    uint64_t home;
    uint64_t far;
    uint64_t flight;
} moatbetony_pair_figures_t;

/* How many more records each ledger can hold. */
typedef struct moatbetony_pair_places {
    moatbetony_answer_t answer;
    uint64_t home;
    uint64_t far;
} moatbetony_pair_places_t;

/* An answer, and the state to go on with. */
typedef struct moatbetony_home_outcome {
    moatbetony_answer_t answer;
    moatbetony_home_t state;
} moatbetony_home_outcome_t;

/* The home balances and the far pool. The two make the supply. */
typedef struct moatbetony_home_figures {
    moatbetony_answer_t answer;
    uint64_t home;
    uint64_t pool;
} moatbetony_home_figures_t;

/* How many more records the home ledger can hold. */
typedef struct moatbetony_home_places {
    moatbetony_answer_t answer;
    uint64_t home;
} moatbetony_home_places_t;

/* An account's balance. */
typedef struct moatbetony_balance {
    moatbetony_answer_t answer;
    uint64_t balance;
} moatbetony_balance_t;

/* A record's fields. */
typedef struct moatbetony_record {
    moatbetony_answer_t answer;
    uint8_t kind;   /* enum moatbetony_kind */
    uint8_t ledger; /* enum moatbetony_ledger */
    uint16_t sender;
    uint16_t receiver;
    uint64_t number; /* of the transfer; all are usable, 0 too */
    uint64_t amount;
    uint8_t verdict; /* enum moatbetony_verdict */
} moatbetony_record_t;

/* A record's bytes. */
typedef struct moatbetony_encoded {
    moatbetony_answer_t answer;
    uint8_t bytes[32];
} moatbetony_encoded_t;

/* The charge on an amount. */
typedef struct moatbetony_charge {
    moatbetony_answer_t answer;
    uint64_t charge;
} moatbetony_charge_t;

/* Where a record stands in its block: `length` bytes from `start` on. */
typedef struct moatbetony_part {
    moatbetony_answer_t answer;
    size_t start;
    size_t length;
} moatbetony_part_t;

/* How many items a block holds: balances or records. */
typedef struct moatbetony_count {
    moatbetony_answer_t answer;
    uint64_t count;
} moatbetony_count_t;

/* A block's opening balances, zeros after the first `count`, and beside those of block 0 rate and charge account as an opening takes
   them; block 1 has 0 for both. */
typedef struct moatbetony_balances {
    moatbetony_answer_t answer;
    uint64_t count;
    uint64_t rate;
    uint64_t charge_account;
    uint64_t balances[56];
} moatbetony_balances_t;

/* A SHA-256 digest. */
typedef struct moatbetony_digest {
    uint8_t bytes[32];
} moatbetony_digest_t;

/* ## Version */

/* The library's version: major * 10,000 + minor * 100 + patch. Equal to MOATBETONY_VERSION if library and header belong together:
   compare them once, before the first call. A library older than 0.6.0 has other arguments and other states, and takes no charge, one
   older than 0.5.0 counts the numbers of arrivals with all others (24), one older than 0.4.0 gives 22 for a receiver's account too, and
   one older than 0.2.0 fills no `passed` in. */
uint32_t moatbetony_version(void);

/* The library's layout of the two states. Store it with a state, and take a state up only if it is the same. */
uint32_t moatbetony_state_version(void);

/* ## The pair validator
   Refusals of a record, in order: 3, 21, 22, 51, 23, 24, then 25 (local, sending) or 31 (arrival), then 41. 22 says that the sender's
   account is not open on its ledger, 51 that the sender's is and the receiver's is not: moatbetony_kind says whose ledger is which. 24
   says that a record of its class has passed on its ledger under its number: arrivals are one class, locals and sendings the other. 25
   says that the sender has less than the record takes: the amount, of a home sending the charge too (CHARGE above). */

/* Opens with the balances of each ledger, one for each account from 0, and rate and charge account of home's sendings (CHARGE above).
   Answers 1, 2, 52, in this order, place 0; beside a refusal stands the state of zeros, which every call refuses with 3. */
MOATBETONY_MUST_USE moatbetony_pair_outcome_t moatbetony_pair_open(
    const uint64_t *home_balances, size_t home_balances_len, const uint64_t *far_balances, size_t far_balances_len, uint64_t rate,
    uint64_t charge_account);

/* Checks one record, and moves its credit in the state if it passes. Other than 32 bytes is 21. Answers 3, 21, 22, 51, 23 to 25, 31,
   41, place 0; a refusal leaves the state as it was. `state` must not be NULL. */
MOATBETONY_MUST_USE moatbetony_answer_t moatbetony_pair_take(moatbetony_pair_t *state, const uint8_t *bytes, size_t bytes_len);

/* Checks a list of records, 32 bytes each, all or none. Bytes left over at the end are a record that is too short: 21. An empty list
   passes. Answers 3 (place 0), 21, 22, 51, 23 to 25, 31, 41 with the index of the first refused record; a refusal leaves the state as it
   was. `state` must not be NULL. */
MOATBETONY_MUST_USE moatbetony_answer_t moatbetony_pair_take_list(moatbetony_pair_t *state, const uint8_t *bytes, size_t bytes_len);

/* moatbetony_pair_take by value: the state to go on with stands beside the answer, and beside a refusal the state as it came. */
MOATBETONY_MUST_USE moatbetony_pair_outcome_t moatbetony_pair_check_record(
    moatbetony_pair_t state, const uint8_t *bytes, size_t bytes_len);

/* moatbetony_pair_take_list by value; beside a refusal stands the state from before the list. */
MOATBETONY_MUST_USE moatbetony_pair_outcome_t moatbetony_pair_check_list(
    moatbetony_pair_t state, const uint8_t *bytes, size_t bytes_len);

/* The totals of both ledgers, and what is in flight. Answers 3, with zeros. */
MOATBETONY_MUST_USE moatbetony_pair_figures_t moatbetony_pair_figures(moatbetony_pair_t state);

/* The balance of an account of a ledger. Answers 3, then 22 where there is no such ledger or account, with balance 0. */
MOATBETONY_MUST_USE moatbetony_balance_t moatbetony_pair_balance(moatbetony_pair_t state, uint8_t ledger, uint16_t account);

/* The places left: how many more records of each ledger can pass before 41. Answers 3, with zeros, which say nothing of the ledgers:
   test the answer first. */
MOATBETONY_MUST_USE moatbetony_pair_places_t moatbetony_pair_places_left(moatbetony_pair_t state);

/* ## The home validator
   Refusals of a record, in order: 3, 21, 33, 22, 51, 23, 24, then 25 (local, sending) or 32 (arrival), then 41. 22, 51, 24 and 25 say
   what they say in the pair validator; the far accounts are as many as the opening told. */

/* Opens with the home balances, one for each account from 0, the number of far accounts and their total, and rate and charge account of
   home's sendings (CHARGE above). Answers 1, 2, 52, in this order, place 0; beside a refusal stands the state of zeros, which every call
   refuses with 3. */
MOATBETONY_MUST_USE moatbetony_home_outcome_t moatbetony_home_open(
    const uint64_t *home_balances, size_t home_balances_len, size_t far_accounts, uint64_t far_total, uint64_t rate,
    uint64_t charge_account);

/* Checks one home record, and moves its credit in the state if it passes. Other than 32 bytes is 21. Answers 3, 21, 33, 22, 51, 23 to
   25, 32, 41, place 0; a refusal leaves the state as it was. `state` must not be NULL. */
MOATBETONY_MUST_USE moatbetony_answer_t moatbetony_home_take(moatbetony_home_t *state, const uint8_t *bytes, size_t bytes_len);

/* Checks a list of home records, 32 bytes each, all or none. Bytes left over at the end are a record that is too short: 21. An empty
   list passes. Answers 3 (place 0), 21, 33, 22, 51, 23 to 25, 32, 41 with the index of the first refused record; a refusal leaves the
   state as it was. `state` must not be NULL. */
MOATBETONY_MUST_USE moatbetony_answer_t moatbetony_home_take_list(moatbetony_home_t *state, const uint8_t *bytes, size_t bytes_len);

/* moatbetony_home_take by value: the state to go on with stands beside the answer, and beside a refusal the state as it came. */
MOATBETONY_MUST_USE moatbetony_home_outcome_t moatbetony_home_check_record(
    moatbetony_home_t state, const uint8_t *bytes, size_t bytes_len);

/* moatbetony_home_take_list by value; beside a refusal stands the state from before the list. */
MOATBETONY_MUST_USE moatbetony_home_outcome_t moatbetony_home_check_list(
    moatbetony_home_t state, const uint8_t *bytes, size_t bytes_len);

/* The home total and the far pool. Answers 3, with zeros. */
MOATBETONY_MUST_USE moatbetony_home_figures_t moatbetony_home_figures(moatbetony_home_t state);

/* The balance of a home account. Answers 3, then 22 where there is no such account, with balance 0. */
MOATBETONY_MUST_USE moatbetony_balance_t moatbetony_home_balance(moatbetony_home_t state, uint16_t account);

/* The places left: how many more home records can pass before 41. Answers 3, with 0, which says nothing of the ledger: test the answer
   first. */
MOATBETONY_MUST_USE moatbetony_home_places_t moatbetony_home_places_left(moatbetony_home_t state);

/* ## Records */

/* Reads 32 bytes. Answers 21, with zeros. Whether accounts and number are in order is the validators' question. The verdict it gives is
   byte 24 as it stands: SIGNATURES above. */
MOATBETONY_MUST_USE moatbetony_record_t moatbetony_record_read(const uint8_t *bytes, size_t bytes_len);

/* The 32 bytes of a record. Answers 21 where they would not read as a record, with zeros. */
MOATBETONY_MUST_USE moatbetony_encoded_t moatbetony_record_encode(
    uint8_t kind, uint8_t ledger, uint16_t sender, uint16_t receiver, uint64_t number, uint64_t amount, uint8_t verdict);

/* ## The charge */

/* The charge on an amount that leaves home, at a rate: the rate's ten-thousandths of the amount, rounded down. A home sending of it takes
   amount and charge from its sender; of an amount that a record can have, their sum stays within 64 bits. Every amount is taken, also one
   that no record can have. Answers 52 where the rate is above MOATBETONY_MAX_RATE, place 0, with charge 0. */
MOATBETONY_MUST_USE moatbetony_charge_t moatbetony_charge(uint64_t rate, uint64_t amount);

/* ## The journal
   Blocks of 512 bytes. `number` is that of the block that is wanted, from 0. `before` is the count of items of the block before it; it
   is not looked at for blocks 0 to 2. The place of every refusal is `number`. A missing block is one of length 0. Block 0 has the rate in
   bytes 6-7 and the charge account in bytes 8-9, highest byte first; journals from before there was a charge have zeros there, rate 0. */

/* Judges a block. Answers 11, 12, 13, 14, of block 0 then 52, in this order. It does not judge the records in it. */
MOATBETONY_MUST_USE moatbetony_answer_t moatbetony_block_judge(const uint8_t *block, size_t block_len, uint64_t number, uint64_t before);

/* Judges a block and the place, from 0, at which a record of it is wanted. Answers 11 to 14, 52, then 4 where it has no record there. */
MOATBETONY_MUST_USE moatbetony_answer_t moatbetony_block_judge_record(
    const uint8_t *block, size_t block_len, uint64_t number, uint64_t before, uint64_t place);

/* Where the record at a place stands in the block: nothing is copied. Answers as moatbetony_block_judge_record; beside a refusal start
   and length are 0. */
MOATBETONY_MUST_USE moatbetony_part_t moatbetony_block_record(
    const uint8_t *block, size_t block_len, uint64_t number, uint64_t before, uint64_t place);

/* How many items a block holds: `before` of the next one. Answers as moatbetony_block_judge; beside a refusal the count is 0. */
MOATBETONY_MUST_USE moatbetony_count_t moatbetony_block_count(const uint8_t *block, size_t block_len, uint64_t number, uint64_t before);

/* The opening balances in block 0 or 1, and rate and charge account in block 0. Answers 11 to 14, 52, then 4 where the number is 2 or
   more, with zeros. */
MOATBETONY_MUST_USE moatbetony_balances_t moatbetony_block_balances(
    const uint8_t *block, size_t block_len, uint64_t number, uint64_t before);

/* Writes the block of a number and kind into 512 bytes: 1 to 56 balances of 8 bytes, highest byte first, or 1 to 14 records of 32
   bytes, which are not judged. Rate and charge account are looked at and written for block 0 alone. Answers 4, also where 52 would
   refuse the block; a refusal leaves the output as it came. */
MOATBETONY_MUST_USE moatbetony_answer_t moatbetony_block_write(
    uint8_t *out, size_t out_len, uint64_t number, uint8_t kind, uint64_t rate, uint64_t charge_account, const uint8_t *items,
    size_t items_len);

/* ## Digest */

/* The SHA-256 digest of a message (FIPS 180-4). */
MOATBETONY_MUST_USE moatbetony_digest_t moatbetony_sha256(const uint8_t *message, size_t message_len);

/* ## A helper in C, outside the proofs */

/* A short text for an answer's number, never NULL. That of 0 does not say that the call passed: `passed` alone does. */
static inline const char *moatbetony_refusal_text(uint32_t number)
{
    switch (number) {
    case MOATBETONY_NO_REFUSAL: return "no refusal";
    case MOATBETONY_REFUSED_ACCOUNT_COUNT: return "account count outside 1 to 56";
    case MOATBETONY_REFUSED_SUPPLY: return "opening balances above 2^63-1 in all";
    case MOATBETONY_REFUSED_STATE: return "state damaged, altered or never opened";
    case MOATBETONY_REFUSED_BLOCK_REQUEST: return "block cannot be written so, or has no such item";
    case MOATBETONY_REFUSED_BLOCK_MISSING: return "block missing, not 512 bytes long or numbered above 65,535";
    case MOATBETONY_REFUSED_BLOCK_CHECK: return "block differs from its check";
    case MOATBETONY_REFUSED_BLOCK_NUMBER: return "block has another number";
    case MOATBETONY_REFUSED_BLOCK_FORM: return "block with a wrong kind, count or zero byte, or after one that is not full";
    case MOATBETONY_REFUSED_RECORD_FORM: return "not a record";
    case MOATBETONY_REFUSED_ACCOUNT: return "sender's account, or the account asked for, not open";
    case MOATBETONY_REFUSED_VERDICT: return "bad signature";
    case MOATBETONY_REFUSED_NUMBER_USED: return "number already used on this ledger (arrivals counted apart)";
    case MOATBETONY_REFUSED_BALANCE: return "balance too small (a home sending needs its charge too)";
    case MOATBETONY_REFUSED_NO_SENDING: return "arrival without a matching sending";
    case MOATBETONY_REFUSED_ABOVE_POOL: return "arrival above the far pool";
    case MOATBETONY_REFUSED_FAR_RECORD: return "far record handed to the home validator";
    case MOATBETONY_REFUSED_FULL: return "ledger holds 512 passed records";
    case MOATBETONY_REFUSED_RECEIVER: return "receiver's account not open";
    case MOATBETONY_REFUSED_TARIFF: return "rate above 10,000, or charge account not open at home";
    default: return "refused with a number that this header does not know";
    }
}

/* ## Layout, checked where the language can */

#if defined(__cplusplus) && __cplusplus >= 201103L
#define MOATBETONY_ASSERT(condition) static_assert(condition, #condition)
#elif defined(__STDC_VERSION__) && __STDC_VERSION__ >= 201112L
#define MOATBETONY_ASSERT(condition) _Static_assert(condition, #condition)
#endif
#ifdef MOATBETONY_ASSERT
MOATBETONY_ASSERT(__BYTE_ORDER__ == __ORDER_LITTLE_ENDIAN__);
MOATBETONY_ASSERT(sizeof(size_t) == 8);
MOATBETONY_ASSERT(sizeof(void *) == 8);
MOATBETONY_ASSERT(sizeof(moatbetony_answer_t) == 16);
MOATBETONY_ASSERT(offsetof(moatbetony_answer_t, passed) == 4);
MOATBETONY_ASSERT(offsetof(moatbetony_answer_t, place) == 8);
MOATBETONY_ASSERT(sizeof(moatbetony_held_t) == 32);
MOATBETONY_ASSERT(offsetof(moatbetony_held_t, number) == 8);
MOATBETONY_ASSERT(offsetof(moatbetony_held_t, amount) == 16);
MOATBETONY_ASSERT(offsetof(moatbetony_held_t, tail) == 24);
MOATBETONY_ASSERT(sizeof(moatbetony_pair_t) == 8 * 4215);
MOATBETONY_ASSERT(offsetof(moatbetony_pair_t, balances) == 8 * 4096);
MOATBETONY_ASSERT(offsetof(moatbetony_pair_t, supply) == 8 * 4208);
MOATBETONY_ASSERT(offsetof(moatbetony_pair_t, accounts) == 8 * 4209);
MOATBETONY_ASSERT(offsetof(moatbetony_pair_t, counts) == 8 * 4211);
MOATBETONY_ASSERT(offsetof(moatbetony_pair_t, rate) == 8 * 4213);
MOATBETONY_ASSERT(offsetof(moatbetony_pair_t, charge_account) == 8 * 4214);
MOATBETONY_ASSERT(sizeof(moatbetony_home_t) == 8 * 2111);
MOATBETONY_ASSERT(offsetof(moatbetony_home_t, balances) == 8 * 2048);
MOATBETONY_ASSERT(offsetof(moatbetony_home_t, supply) == 8 * 2104);
MOATBETONY_ASSERT(offsetof(moatbetony_home_t, pool) == 8 * 2105);
MOATBETONY_ASSERT(offsetof(moatbetony_home_t, home_accounts) == 8 * 2106);
MOATBETONY_ASSERT(offsetof(moatbetony_home_t, far_accounts) == 8 * 2107);
MOATBETONY_ASSERT(offsetof(moatbetony_home_t, count) == 8 * 2108);
MOATBETONY_ASSERT(offsetof(moatbetony_home_t, rate) == 8 * 2109);
MOATBETONY_ASSERT(offsetof(moatbetony_home_t, charge_account) == 8 * 2110);
MOATBETONY_ASSERT(sizeof(moatbetony_pair_outcome_t) == 16 + 8 * 4215);
MOATBETONY_ASSERT(offsetof(moatbetony_pair_outcome_t, state) == 16);
MOATBETONY_ASSERT(sizeof(moatbetony_pair_figures_t) == 40);
MOATBETONY_ASSERT(offsetof(moatbetony_pair_figures_t, home) == 16);
MOATBETONY_ASSERT(offsetof(moatbetony_pair_figures_t, far) == 24);
MOATBETONY_ASSERT(offsetof(moatbetony_pair_figures_t, flight) == 32);
MOATBETONY_ASSERT(sizeof(moatbetony_pair_places_t) == 32);
MOATBETONY_ASSERT(offsetof(moatbetony_pair_places_t, home) == 16);
MOATBETONY_ASSERT(offsetof(moatbetony_pair_places_t, far) == 24);
MOATBETONY_ASSERT(sizeof(moatbetony_home_outcome_t) == 16 + 8 * 2111);
MOATBETONY_ASSERT(offsetof(moatbetony_home_outcome_t, state) == 16);
MOATBETONY_ASSERT(sizeof(moatbetony_home_figures_t) == 32);
MOATBETONY_ASSERT(offsetof(moatbetony_home_figures_t, home) == 16);
MOATBETONY_ASSERT(offsetof(moatbetony_home_figures_t, pool) == 24);
MOATBETONY_ASSERT(sizeof(moatbetony_home_places_t) == 24);
MOATBETONY_ASSERT(offsetof(moatbetony_home_places_t, home) == 16);
MOATBETONY_ASSERT(sizeof(moatbetony_balance_t) == 24);
MOATBETONY_ASSERT(offsetof(moatbetony_balance_t, balance) == 16);
MOATBETONY_ASSERT(sizeof(moatbetony_record_t) == 48);
MOATBETONY_ASSERT(offsetof(moatbetony_record_t, kind) == 16);
MOATBETONY_ASSERT(offsetof(moatbetony_record_t, ledger) == 17);
MOATBETONY_ASSERT(offsetof(moatbetony_record_t, sender) == 18);
MOATBETONY_ASSERT(offsetof(moatbetony_record_t, receiver) == 20);
MOATBETONY_ASSERT(offsetof(moatbetony_record_t, number) == 24);
MOATBETONY_ASSERT(offsetof(moatbetony_record_t, amount) == 32);
MOATBETONY_ASSERT(offsetof(moatbetony_record_t, verdict) == 40);
MOATBETONY_ASSERT(sizeof(moatbetony_encoded_t) == 48);
MOATBETONY_ASSERT(offsetof(moatbetony_encoded_t, bytes) == 16);
MOATBETONY_ASSERT(sizeof(moatbetony_charge_t) == 24);
MOATBETONY_ASSERT(offsetof(moatbetony_charge_t, charge) == 16);
MOATBETONY_ASSERT(sizeof(moatbetony_part_t) == 32);
MOATBETONY_ASSERT(offsetof(moatbetony_part_t, start) == 16);
MOATBETONY_ASSERT(offsetof(moatbetony_part_t, length) == 24);
MOATBETONY_ASSERT(sizeof(moatbetony_count_t) == 24);
MOATBETONY_ASSERT(offsetof(moatbetony_count_t, count) == 16);
MOATBETONY_ASSERT(sizeof(moatbetony_balances_t) == 488);
MOATBETONY_ASSERT(offsetof(moatbetony_balances_t, count) == 16);
MOATBETONY_ASSERT(offsetof(moatbetony_balances_t, rate) == 24);
MOATBETONY_ASSERT(offsetof(moatbetony_balances_t, charge_account) == 32);
MOATBETONY_ASSERT(offsetof(moatbetony_balances_t, balances) == 40);
MOATBETONY_ASSERT(sizeof(moatbetony_digest_t) == 32);
#undef MOATBETONY_ASSERT
#endif

#ifdef __cplusplus
}
#endif

#endif
