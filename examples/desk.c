/* A paying desk that sees the home ledger alone. It takes records one by one, hands goods over where a record passed and pays the desk,
   says why not otherwise, shows what a payment to the far ledger costs before it is made, keeps its state in a file and takes it up again,
   warns when the ledger has few places left, and closes when it has none.

       cc desk.c $(pkg-config --cflags --libs moatbetony) -o desk && ./desk STATE_FILE

   The file has the layout's version in 4 bytes, the state, and the SHA-256 of both. What guards a stored state:
   - The digest finds damage, and a change by anyone who cannot write the digest too.
   - Refusal 3 says that a state's numbers fit together, and no more. It does not see two balances exchanged, a balance raised together
     with the supply or at the far pool's cost, another rate or charge account, held records left out, so that they pass again, or an
     older state put back.
   - Neither finds a forger who rewrites state and digest to fit, or who puts an older pair of them back. Keep the latest digest where
     nobody else can write it. */
#define _POSIX_C_SOURCE 200809L
#include <moatbetony.h>

#include <fcntl.h>
#include <stdio.h>
#include <stdlib.h>
#include <string.h>
#include <unistd.h>

enum { VERSION_SIZE = 4, STATE_SIZE = sizeof(moatbetony_home_t), SEALED_SIZE = VERSION_SIZE + STATE_SIZE };
enum { FILE_SIZE = SEALED_SIZE + MOATBETONY_DIGEST_SIZE };
enum { OURS = 1, PRICE = 30, FEW_PLACES = 50 }; /* the desk's account, what its goods cost, and below how many places it warns */
enum { RATE = 50, CHARGE_ACCOUNT = 3 }; /* what home's network takes of a sending, in ten-thousandths, and its account */

static void must(int holds, const char *what)
{
    if (!holds) {
        fprintf(stderr, "desk: %s\n", what);
        exit(1);
    }
}

/* ## The state's file */

/* Writes what the folder of a path says of its files to the disk, so that a file put in its place stays there. */
static void sync_folder(const char *path)
{
    char *folder = strdup(path);
    char *slash;
    int opened;
    must(folder != NULL, "no memory");
    slash = strrchr(folder, '/');
    if (slash != NULL)
        slash[slash == folder] = '\0'; /* the root keeps its slash */
    opened = open(slash != NULL ? folder : ".", O_RDONLY | O_DIRECTORY);
    must(opened >= 0 && fsync(opened) == 0 && close(opened) == 0, "the folder of the state could not be written");
    free(folder);
}

static void write_file(const char *path, const uint8_t *bytes)
{
    char *fresh = (char *)malloc(strlen(path) + 5);
    FILE *file;
    must(fresh != NULL, "no memory");
    strcpy(fresh, path);
    strcat(fresh, ".new");
    file = fopen(fresh, "wb");
    must(file != NULL && fwrite(bytes, 1, FILE_SIZE, file) == FILE_SIZE, "the state could not be written");
    must(fflush(file) == 0 && fsync(fileno(file)) == 0 && fclose(file) == 0, "the state could not be written");
    must(rename(fresh, path) == 0, "the state could not be put in its place"); /* the old one stays whole until then */
    sync_folder(path);
    free(fresh);
}

static void read_file(const char *path, uint8_t *bytes)
{
    FILE *file = fopen(path, "rb");
    must(file != NULL && fread(bytes, 1, FILE_SIZE, file) == FILE_SIZE && fgetc(file) == EOF, "the state could not be read");
    fclose(file);
}

static void seal(uint8_t *bytes)
{
    moatbetony_digest_t digest = moatbetony_sha256(bytes, SEALED_SIZE);
    memcpy(bytes + SEALED_SIZE, digest.bytes, MOATBETONY_DIGEST_SIZE);
}

static void store(const char *path, const moatbetony_home_t *state)
{
    static uint8_t bytes[FILE_SIZE];
    uint32_t version = moatbetony_state_version();
    int i;
    for (i = 0; i < VERSION_SIZE; i++)
        bytes[i] = (uint8_t)(version >> (24 - 8 * i));
    memcpy(bytes + VERSION_SIZE, state, STATE_SIZE);
    seal(bytes);
    write_file(path, bytes);
}

/* Whether the stored state was taken up: its layout is the library's, and its digest agrees. */
static int take_up(const char *path, moatbetony_home_t *state)
{
    static uint8_t bytes[FILE_SIZE];
    moatbetony_digest_t digest;
    uint32_t version = 0;
    int i;
    read_file(path, bytes);
    for (i = 0; i < VERSION_SIZE; i++)
        version = version << 8 | bytes[i];
    digest = moatbetony_sha256(bytes, SEALED_SIZE);
    if (version != moatbetony_state_version() || memcmp(digest.bytes, bytes + SEALED_SIZE, MOATBETONY_DIGEST_SIZE) != 0)
        return 0;
    memcpy(state, bytes + VERSION_SIZE, STATE_SIZE);
    return 1;
}

/* ## The desk */

static void print_refused(const char *label, moatbetony_answer_t answer)
{
    printf("%s: refused with %u, %s\n", label, (unsigned)answer.number, moatbetony_refusal_text(answer.number));
}

static void print_figures(const char *label, const moatbetony_home_t *state)
{
    moatbetony_home_figures_t figures = moatbetony_home_figures(*state);
    moatbetony_balance_t charges = moatbetony_home_balance(*state, CHARGE_ACCOUNT);
    if (figures.answer.passed && charges.answer.passed)
        printf("%s: home %llu, of it %llu on the charge account, far pool %llu\n", label, (unsigned long long)figures.home,
            (unsigned long long)charges.balance, (unsigned long long)figures.pool);
    else
        print_refused(label, figures.answer.passed ? charges.answer : figures.answer);
}

/* Whether a record that passed pays the desk the price. One account paying itself, or somebody else, passes too. */
static int pays_us(const uint8_t *bytes)
{
    moatbetony_record_t record = moatbetony_record_read(bytes, MOATBETONY_RECORD_SIZE);
    int comes_in = record.kind == MOATBETONY_ARRIVAL || (record.kind == MOATBETONY_LOCAL && record.sender != OURS);
    return record.answer.passed && record.ledger == MOATBETONY_HOME && comes_in && record.receiver == OURS &&
        record.amount >= PRICE;
}

/* Whether the ledger has a place for a customer's record; if not, says why. With none left the desk is closed: no record makes room again,
   and the networks make a new opening together, which takes time. So it warns before. A state that is refused has 0 beside its answer,
   which says nothing of the ledger: the answer comes first. */
static int is_open(const moatbetony_home_t *state, const char *label)
{
    moatbetony_home_places_t places = moatbetony_home_places_left(*state);
    if (!places.answer.passed) {
        print_refused(label, places.answer);
        return 0;
    }
    if (places.home == 0) {
        printf("%s: no place left, closed until the networks make a new opening\n", label);
        return 0;
    }
    if (places.home < FEW_PLACES)
        printf("warning: places left: %llu of %d, a new opening is due\n", (unsigned long long)places.home, MOATBETONY_CAPACITY);
    return 1;
}

/* Every customer comes here. Looks whether the desk is open, and takes the bytes that came over the wire, beside what the host's own
   check of their signature found. That finding goes into byte 24, over what the sender wrote there. Bytes that are not as long as a
   record are refused as they are. The state is stored before goods are handed over, so that a desk that is started again refuses the
   same record. */
static void serve(
    const char *path, moatbetony_home_t *state, const char *label, const uint8_t *bytes, size_t length, int signature_good)
{
    uint8_t own[MOATBETONY_RECORD_SIZE];
    moatbetony_answer_t answer;
    if (!is_open(state, label))
        return;
    if (length == sizeof own) {
        memcpy(own, bytes, sizeof own);
        own[24] = signature_good ? MOATBETONY_SIGNATURE_GOOD : MOATBETONY_SIGNATURE_BAD;
        bytes = own;
    }
    answer = moatbetony_home_take(state, bytes, length);
    if (!answer.passed) {
        print_refused(label, answer);
        return;
    }
    store(path, state);
    printf("%s: passed, %s\n", label, pays_us(bytes) ? "handed over" : "but does not pay us the price, nothing handed over");
}

/* So many records as one list, all or none, whose signatures the host found good. Stored like everything that passed, before anything
   is said of it. */
static void serve_list(const char *path, moatbetony_home_t *state, const char *label, uint8_t *list, uint64_t records)
{
    moatbetony_answer_t answer;
    uint64_t i, paid = 0;
    if (!is_open(state, label))
        return;
    for (i = 0; i < records; i++)
        list[32 * i + 24] = MOATBETONY_SIGNATURE_GOOD;
    answer = moatbetony_home_take_list(state, list, 32 * records);
    if (!answer.passed) {
        printf("%s: refused with %u at record %llu, nothing of it is kept\n", label, (unsigned)answer.number,
            (unsigned long long)answer.place);
        return;
    }
    store(path, state);
    for (i = 0; i < records; i++)
        paid += pays_us(list + 32 * i) ? 1 : 0;
    printf("%s: passed, handed over for %llu of %llu\n", label, (unsigned long long)paid, (unsigned long long)records);
}

/* A record as its sender wrote it, who always says that the signature is good. */
static const uint8_t *wire(uint8_t kind, uint8_t ledger, uint16_t sender, uint16_t receiver, uint64_t number, uint64_t amount)
{
    static moatbetony_encoded_t encoded;
    encoded = moatbetony_record_encode(kind, ledger, sender, receiver, number, amount, MOATBETONY_SIGNATURE_GOOD);
    must(encoded.answer.passed, "not a record");
    return encoded.bytes;
}

static const uint8_t *payment(uint64_t number, uint64_t amount)
{
    return wire(MOATBETONY_LOCAL, MOATBETONY_HOME, 0, OURS, number, amount);
}

/* A payment of ours to far account 0. Before it is signed it shows what leaves our account, which is the amount and home's charge on it,
   and what we have. */
static void pay_out(const char *path, moatbetony_home_t *state, const char *label, uint64_t number, uint64_t amount)
{
    moatbetony_balance_t ours = moatbetony_home_balance(*state, OURS);
    moatbetony_charge_t told = moatbetony_charge(state->rate, amount);
    must(ours.answer.passed, "no balance of ours");
    must(told.answer.passed, "no charge at such a rate");
    printf("%s: costs %llu with its charge of %llu; we have %llu\n", label, (unsigned long long)(amount + told.charge),
        (unsigned long long)told.charge, (unsigned long long)ours.balance);
    serve(path, state, label, wire(MOATBETONY_SENDING, MOATBETONY_HOME, OURS, 0, number, amount), 32, 1);
}

static void serve_customers(const char *path, moatbetony_home_t *state)
{
    enum { LOCAL = MOATBETONY_LOCAL, SENDING = MOATBETONY_SENDING, ARRIVAL = MOATBETONY_ARRIVAL };
    enum { HOME = MOATBETONY_HOME, FAR_LEDGER = MOATBETONY_FAR };
    uint8_t list[2 * MOATBETONY_RECORD_SIZE];

    serve(path, state, "a payment of 30", payment(1, 30), 32, 1);
    serve(path, state, "the same record again", payment(1, 30), 32, 1);
    serve(path, state, "a payment of 500", payment(2, 500), 32, 1);
    serve(path, state, "a payment to account 9", wire(LOCAL, HOME, 0, 9, 2, 30), 32, 1);
    serve(path, state, "a payment from account 9", wire(LOCAL, HOME, 9, OURS, 2, 30), 32, 1);
    serve(path, state, "a payment from account 9 to account 9", wire(LOCAL, HOME, 9, 9, 2, 30), 32, 1);
    serve(path, state, "a sending to far account 1", wire(SENDING, HOME, OURS, 1, 2, 30), 32, 1);
    serve(path, state, "a payment with a bad signature", payment(2, 30), 32, 0);
    serve(path, state, "a payment cut off after 31 bytes", payment(2, 30), 31, 1);
    serve(path, state, "a record of the far ledger", wire(LOCAL, FAR_LEDGER, 0, 0, 2, 30), 32, 1);
    serve(path, state, "a payment of 1", payment(2, 1), 32, 1);
    serve(path, state, "a payment to somebody else", wire(LOCAL, HOME, 0, 2, 3, 30), 32, 1);
    serve(path, state, "a payment of the customer to itself", wire(LOCAL, HOME, 0, 0, 4, 30), 32, 1);
    serve(path, state, "a payment of our account to itself", wire(LOCAL, HOME, OURS, OURS, 5, 30), 32, 1);
    serve(path, state, "an arrival of 21, above the far pool of 20", wire(ARRIVAL, HOME, 0, OURS, 6, 21), 32, 1);
    pay_out(path, state, "a sending of 530", 7, 530);
    pay_out(path, state, "a sending of 400", 7, 400);
    /* arrivals' numbers are counted apart: the number of a payment does not stop one, that of an arrival does */
    serve(path, state, "an arrival of 420, now in the far pool, under the first payment's number", wire(ARRIVAL, HOME, 0, OURS, 1, 420),
        32, 1);
    serve(path, state, "the same arrival again", wire(ARRIVAL, HOME, 0, OURS, 1, 420), 32, 1);
    serve(path, state, "a sending under that number", wire(SENDING, HOME, OURS, 0, 1, 30), 32, 1);
    serve(path, state, "an arrival of 1 more", wire(ARRIVAL, HOME, 0, OURS, 8, 1), 32, 1);

    memcpy(list, payment(9, 10), 32);
    memcpy(list + 32, payment(10, 500), 32);
    serve_list(path, state, "a list of 10 and 500", list, 2);
}

/* A day that fills the ledger: records of our account to itself on all places but one, as one list, and then two customers more. A desk
   that did not look would learn from refusal 41 that the ledger is full, with the customer standing there. */
static void busy_day(const char *path, moatbetony_home_t *state)
{
    static uint8_t list[MOATBETONY_CAPACITY * MOATBETONY_RECORD_SIZE];
    moatbetony_home_places_t places = moatbetony_home_places_left(*state);
    moatbetony_answer_t answer;
    uint64_t i;
    must(places.answer.passed && places.home > 0, "no place left to fill");
    printf("places left: %llu of %d\n", (unsigned long long)places.home, MOATBETONY_CAPACITY);
    for (i = 0; i < places.home - 1; i++)
        memcpy(list + 32 * i, wire(MOATBETONY_LOCAL, MOATBETONY_HOME, OURS, OURS, 1000 + i, 1), 32);
    serve_list(path, state, "a list of all but one", list, places.home - 1);
    serve(path, state, "a payment of 30 at the last place", payment(2000, 30), 32, 1);
    serve(path, state, "a payment of 1 after it", payment(2001, 1), 32, 1);
    answer = moatbetony_home_take(state, payment(2001, 1), 32);
    must(!answer.passed, "a full ledger took a record");
    print_refused("the same, had nobody looked", answer);
}

/* ## Somebody else's hand on the stored state */

static void raise_a_balance(moatbetony_home_t *state)
{
    state->balances[0] += 1000;
}

static void exchange_balances(moatbetony_home_t *state)
{
    uint64_t first = state->balances[0];
    state->balances[0] = state->balances[1];
    state->balances[1] = first;
}

static void leave_records_out(moatbetony_home_t *state)
{
    state->count = 0;
}

/* Stores a good state, alters it in its file, with a digest made anew or not, and lets the desk take it up and serve a payment of 30
   under a number. */
static void tamper(const char *path, const moatbetony_home_t *good, const char *label, void (*change)(moatbetony_home_t *),
    int with_digest, uint64_t number)
{
    static uint8_t bytes[FILE_SIZE];
    static moatbetony_home_t state;
    store(path, good);
    read_file(path, bytes);
    memcpy(&state, bytes + VERSION_SIZE, STATE_SIZE);
    change(&state);
    memcpy(bytes + VERSION_SIZE, &state, STATE_SIZE);
    if (with_digest)
        seal(bytes);
    write_file(path, bytes);

    if (take_up(path, &state))
        serve(path, &state, label, payment(number, 30), 32, 1);
    else
        printf("%s: the digest differs, not taken up\n", label);
}

int main(int argc, char **argv)
{
    enum { YESTERDAYS = 1, FRESH = 11 };
    static const uint64_t home_balances[] = {100, 500, 0, 0};
    static moatbetony_home_t state, busy;
    static uint8_t first_file[FILE_SIZE];
    moatbetony_home_outcome_t opened;
    const char *path = argc == 2 ? argv[1] : NULL;
    must(path != NULL, "usage: desk STATE_FILE");
    must(moatbetony_version() == MOATBETONY_VERSION, "library and header do not belong together");

    opened = moatbetony_home_open(home_balances, 4, 1, 20, RATE, CHARGE_ACCOUNT);
    must(opened.answer.passed, "the opening was refused");
    state = opened.state;
    store(path, &state);
    read_file(path, first_file);
    print_figures("opened", &state);
    serve_customers(path, &state);
    print_figures("at closing time", &state);

    memset(&state, 0, sizeof state);
    must(take_up(path, &state), "the stored state was not taken up");
    print_figures("the next day, taken up from the file", &state);
    serve(path, &state, "yesterday's payment of 30 again", payment(YESTERDAYS, 30), 32, 1);
    busy = state; /* a copy, and the desk goes on below from before that day */
    busy_day(path, &busy);

    printf("a payment of 30, after somebody altered the file:\n");
    tamper(path, &state, "a balance raised", raise_a_balance, 0, FRESH);
    tamper(path, &state, "a balance raised, and the digest made anew", raise_a_balance, 1, FRESH);
    tamper(path, &state, "two balances exchanged", exchange_balances, 0, FRESH);
    tamper(path, &state, "two balances exchanged, and the digest made anew", exchange_balances, 1, FRESH);
    tamper(path, &state, "held records left out, and yesterday's payment again", leave_records_out, 0, YESTERDAYS);
    tamper(path, &state, "held records left out, the digest made anew, and yesterday's payment again", leave_records_out, 1, YESTERDAYS);
    write_file(path, first_file);
    must(take_up(path, &state), "the first file was not taken up");
    serve(path, &state, "the first file put back, and yesterday's payment again", payment(YESTERDAYS, 30), 32, 1);
    printf("refusal 3 does not see two balances exchanged or held records left out, which the digest does.\n"
           "neither sees who makes the digest anew or puts an older file back:\n"
           "keep the latest digest where nobody else can write it.\n");
    return 0;
}
