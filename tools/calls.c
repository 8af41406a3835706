/*
 * Each call of calmbaize.h: what makes it, what it must answer, and where that tells something secret, how
 * many branches it allows. Behind those that take the same stand the settings and states that are tried.
 */
#include "calls.h"

#include <string.h>

#include "baseline.h"

enum { RECORD = 13, SEALED = RECORD + CALMBAIZE_TAG_BYTES, KINDS = 6, IN_TURN = 600 };

struct secrets secrets;
struct arguments now;
uint8_t header[CALMBAIZE_HEADER_BYTES_MAX + 1], steps[CALMBAIZE_STEPS_MAX + 1];
uint8_t tail[CALMBAIZE_NONCE_TAIL_BYTES + 1], output[CALMBAIZE_SEALED_BYTES_MAX + 1];
uint8_t store[CALMBAIZE_STORE_BYTES_MAX + CELL];
unsigned verdict;

/* The parcel of the new start and of the old, and the store in which all sales are whole. */
static uint8_t sealed[2][CALMBAIZE_SEALED_BYTES_MAX], kept[CALMBAIZE_STORE_BYTES_MAX + CELL];
static size_t kept_len, kept_sales;

/* Arguments that stand together. */
#define KEY secrets.key, now.key_len
#define NONCE secrets.nonce, now.nonce_len
#define HEADER header, now.header_len
#define SETTINGS (uint32_t)now.mode, (uint32_t)now.rounds, KEY, NONCE, HEADER
#define MESSAGE secrets.message, now.message_len
#define PARCEL secrets.parcel, now.parcel_len
#define START secrets.start, now.start_len
#define OUTPUT output, now.output_len
#define WORDS secrets.words, now.words_len
#define STORE store, now.store_len
#define SALE MACHINE, (uint32_t)now.sale

void usual(void)
{
    now = (struct arguments){.mode = modes[0],
                             .rounds = round_counts[0],
                             .key_len = CALMBAIZE_KEY_BYTES,
                             .nonce_len = CALMBAIZE_NONCE_BYTES,
                             .parcel_len = TAG,
                             .output_len = sizeof output,
                             .words_len = COUNT(secrets.words),
                             .start_len = BLOCK,
                             .store_len = 2 * CELL,
                             .sale = 1,
                             .total = NO_TOTAL,
                             .amount = NO_CENTS,
                             .price = NO_CENTS};
}

/* Sales next to each other have means 0 to 3 in turn: coin, card and others. */
void fill(unsigned set, size_t message_len)
{
    uint8_t *bytes = (uint8_t *)&secrets, ones = (uint8_t)-(set == 1), mixed = (uint8_t)-(set > 1);
    unsigned seed = set;

    for (size_t i = 0; i < offsetof(struct secrets, message) + message_len; i++) {
        seed = seed * 1103515245U + 12345U;
        bytes[i] = (uint8_t)((seed >> 16 & mixed) | ones);
    }
    for (size_t i = 0; i < RECORDS; i++)
        secrets.records[i].means = (uint8_t)((i + set) % 4);
}

static uint64_t refused(uint32_t number, size_t place)
{
    return (uint64_t)number << 32 | place;
}

/* The traces allow no branch on the place. */
static void damage(uint8_t *bytes)
{
    for (size_t i = 0; i < now.sealed_len; i++)
        bytes[i] ^= (uint8_t)(now.changed & -(i == now.place));
}

/* Of calls that take nothing sealed. */
static void unsealed(void)
{
}

static const char *const starts[] = {"new start", "old start"}, *const whole[] = {"whole"};

/* Messages and parcels. */

static uint64_t seal(void)
{
    return calmbaize_seal(SETTINGS, MESSAGE, OUTPUT);
}

static uint64_t seal_run(void)
{
    return calmbaize_seal_run(SETTINGS, MESSAGE, OUTPUT, WORDS);
}

static uint64_t sealed_len(void)
{
    return now.message_len + TAG;
}

static uint64_t open(void)
{
    return calmbaize_open(SETTINGS, PARCEL, OUTPUT);
}

static uint64_t open_run(void)
{
    return calmbaize_open_run(SETTINGS, PARCEL, OUTPUT, WORDS);
}

/* Of a parcel: of the new start, of the old, or damaged. */
static uint64_t by_start(uint64_t under_new, uint64_t under_old)
{
    if (now.changed)
        return refused(CALMBAIZE_REFUSED_TAG, 0);
    return now.old ? under_old : under_new;
}

static uint64_t opened(void)
{
    return by_start(now.message_len, refused(CALMBAIZE_REFUSED_TAG, 0));
}

static uint64_t open_old(void)
{
    return calmbaize_open_old(SETTINGS, PARCEL, OUTPUT);
}

static uint64_t opened_old(void)
{
    return by_start(refused(CALMBAIZE_REFUSED_TAG, 0), now.message_len);
}

static unsigned one_verdict(void)
{
    return verdict;
}

static uint64_t convert(void)
{
    return calmbaize_convert(SETTINGS, PARCEL, OUTPUT);
}

static uint64_t converted(void)
{
    return by_start(refused(CALMBAIZE_REFUSED_DONE_ALREADY, 0), now.parcel_len);
}

/* It tries the new start where the old one fails. */
static unsigned starts_tried(void)
{
    return now.changed || !now.old ? 2 : 1;
}

static void with_lengths(const struct plan *plan, void (*visit)(void))
{
    for (size_t l = 0; l < plan->messages.count; l++)
        for (size_t h = 0; h < plan->headers.count; h++) {
            now.message_len = plan->messages.of[l];
            now.parcel_len = now.message_len + TAG;
            now.header_len = plan->headers.of[h];
            visit();
        }
}

static void with_messages(const struct plan *plan, void (*visit)(void))
{
    for (size_t m = 0; m < COUNT(modes); m++)
        for (size_t r = 0; r < COUNT(round_counts); r++) {
            now.mode = modes[m];
            now.rounds = round_counts[r];
            with_lengths(plan, visit);
        }
}

/* Of either start. The scalar C makes those of the old one: the library has no such call. */
static void seal_parcels(void)
{
    size_t len = now.sealed_len = now.parcel_len;

    if (calmbaize_seal(SETTINGS, MESSAGE, sealed[0], len) != len ||
        baseline_seal_old(SETTINGS, MESSAGE, sealed[1], len) != len)
        now.sealed_len = 0;
}

static void choose_parcel(void)
{
    uint8_t old = (uint8_t)-now.old;

    for (size_t i = 0; i < now.parcel_len; i++)
        secrets.parcel[i] = (uint8_t)((sealed[1][i] & old) | (sealed[0][i] & ~old));
    damage(secrets.parcel);
}

static const struct kind messages = {with_messages, unsealed, unsealed, whole, 1};
static const struct kind parcels = {with_messages, seal_parcels, choose_parcel, starts, 2};

/* Diagnoses. */

enum { SETTING_COUNT = 16 };

/*
 * The setting asked, and the parcel's but for its start, by their places in the order of trial. With either
 * start there is all that can differ, and the parcel's comes before the one asked and behind it.
 */
static const struct pair {
    unsigned asked, parcel;
} pairs[] = {{2, 6}, {5, 3}, {11, 1}, {12, 4}};
/* The one that is tried. At first it is that of the usual arguments. */
static struct pair pair;

static uint64_t diagnose(void)
{
    return calmbaize_diagnose(pair.asked >= SETTING_COUNT / 2, SETTINGS, PARCEL);
}

/* That under which the parcel opens. */
static unsigned true_setting(void)
{
    return pair.parcel + SETTING_COUNT / 2 * now.old;
}

static uint64_t diagnosed(void)
{
    unsigned n = true_setting(), differs = n ^ pair.asked;

    if (now.changed)
        return CALMBAIZE_DIAGNOSE_NONE;
    if (differs == 0)
        return CALMBAIZE_DIAGNOSE_AS_ASKED;
    return 1 + n + 32 * (differs / 8 + 2 * (differs / 4 % 2) + 4 * (differs % 4 != 0));
}

/* The one asked comes first, and is not tried again. */
static unsigned settings_tried(void)
{
    unsigned n = true_setting(), asked = pair.asked;

    if (now.changed)
        return SETTING_COUNT;
    return n == asked ? 1 : n + 1 + (n < asked);
}

static void with_pairs(const struct plan *plan, void (*visit)(void))
{
    for (size_t i = 0; i < COUNT(pairs); i++) {
        pair = pairs[i];
        with_lengths(plan, visit);
    }
}

static void set_mode_and_rounds(unsigned setting)
{
    now.mode = modes[setting / COUNT(round_counts) % COUNT(modes)];
    now.rounds = round_counts[setting % COUNT(round_counts)];
}

static void seal_pair(void)
{
    set_mode_and_rounds(pair.parcel);
    seal_parcels();
    set_mode_and_rounds(pair.asked);
}

static const struct kind pairs_of_settings = {with_pairs, seal_pair, choose_parcel, starts, 2};

/* Masks. */

static uint64_t walk(void)
{
    return calmbaize_walk(START, steps + now.first_step, now.steps_len, OUTPUT);
}

static uint64_t jump(void)
{
    return calmbaize_jump(START, now.alpha, now.beta, now.gamma, OUTPUT);
}

static uint64_t block_len(void)
{
    return BLOCK;
}

/* Each kind of step alone and in a run, all kinds in runs and in turn, and no step. */
static void with_steps(const struct plan *plan, void (*visit)(void))
{
    static const size_t runs[] = {1, 10, IN_TURN / KINDS};

    (void)plan;
    for (size_t i = 0; i < IN_TURN; i++) {
        steps[i] = (uint8_t)(1 + i * KINDS / IN_TURN);
        steps[IN_TURN + i] = (uint8_t)(1 + i % KINDS);
    }
    for (now.first_step = 0; now.first_step < IN_TURN; now.first_step += IN_TURN / KINDS)
        for (size_t r = 0; r < COUNT(runs); r++) {
            now.steps_len = runs[r];
            visit();
        }
    for (now.first_step = 0; now.first_step <= IN_TURN; now.first_step += IN_TURN)
        for (now.steps_len = 0; now.steps_len <= IN_TURN; now.steps_len += IN_TURN)
            visit();
}

/* Each count above, at and below zero, with each of the others so. */
static void with_counts(const struct plan *plan, void (*visit)(void))
{
    (void)plan;
    for (now.alpha = -7; now.alpha <= 7; now.alpha += 7)
        for (now.beta = -7; now.beta <= 7; now.beta += 7)
            for (now.gamma = -7; now.gamma <= 7; now.gamma += 7)
                visit();
}

static const struct kind walks = {with_steps, unsealed, unsealed, whole, 1};
static const struct kind jumps = {with_counts, unsealed, unsealed, whole, 1};

/* The store. */

static struct record *record_of(size_t sale)
{
    return &secrets.records[sale % RECORDS];
}

/* The sale's sealed record and tag. */
static uint8_t *part_of(size_t sale)
{
    return store + CELL * (sale + 1) - SEALED;
}

/* Every other sale is as an older unit stored it. */
static uint32_t kind_of(size_t sale)
{
    return sale % 2 ? CALMBAIZE_KIND_UNPRICED : CALMBAIZE_KIND_PRICED;
}

static size_t last_cell(void)
{
    return now.store_len / CELL - 1;
}

/* Of a sale that is named: in a broken store, there and whole, or damaged. */
static uint64_t by_sale(uint64_t sound, uint64_t damaged)
{
    if (now.broken)
        return refused(now.broken, last_cell());
    if (now.sale > now.sales)
        return refused(CALMBAIZE_REFUSED_SALE_NUMBERS, 0);
    return now.changed ? damaged : sound;
}

static uint64_t store_format(void)
{
    return calmbaize_store_format(STORE);
}

static uint64_t nothing(void)
{
    return 0;
}

static uint64_t store_take(void)
{
    const struct record *record = record_of(now.sale);

    return calmbaize_store_take(KEY, STORE, SALE, tail, record->amount, record->column,
                                record->means, record->price, record->day);
}

static uint64_t taken(void)
{
    if (now.broken)
        return refused(now.broken, last_cell());
    if (now.sale <= now.sales)
        return refused(CALMBAIZE_REFUSED_SALE_NUMBERS, 0);
    return now.sales < last_cell() ? now.sale : refused(CALMBAIZE_REFUSED_STORE_FULL, 0);
}

static uint64_t store_cancel(void)
{
    return calmbaize_store_cancel(KEY, STORE, SALE);
}

static uint64_t cancelled(void)
{
    return by_sale(record_of(now.sale)->amount, refused(CALMBAIZE_REFUSED_TAG, now.sale));
}

static unsigned sale_opened(void)
{
    return !now.broken && now.sale <= now.sales;
}

/* A wrong total is a wrong answer. */
static uint64_t store_total(void)
{
    uint64_t total = NO_TOTAL, answer = calmbaize_store_total(KEY, STORE, &total);

    return answer ^ total ^ now.total;
}

static uint64_t added_up(void)
{
    if (now.broken)
        return refused(now.broken, last_cell());
    return now.changed ? refused(CALMBAIZE_REFUSED_TAG, now.sale) : 0;
}

/* The last sale taken is the first in the chain. */
static unsigned sales_opened(void)
{
    if (now.broken)
        return 0;
    return (unsigned)(now.changed ? now.sales - now.sale + 1 : now.sales);
}

static uint64_t store_read(void)
{
    return calmbaize_store_read(STORE, SALE);
}

static uint64_t found(void)
{
    uint64_t offset = CELL * now.sale + PART_AT;

    return by_sale(offset, offset);
}

/* A wrong amount or price is a wrong answer. */
static uint64_t store_look_up(void)
{
    uint32_t amount = NO_CENTS, price = NO_CENTS;
    uint64_t answer = calmbaize_store_look_up(KEY, STORE, SALE, &amount, &price);

    return answer ^ (amount ^ now.amount) ^ (uint64_t)(price ^ now.price) << 32;
}

static uint64_t looked_up(void)
{
    return by_sale(kind_of(now.sale), refused(CALMBAIZE_REFUSED_TAG, now.sale));
}

static void with_blanks(const struct plan *plan, void (*visit)(void))
{
    now.blank = 1;
    for (size_t c = 0; c < plan->cells.count; c++) {
        now.store_len = plan->cells.of[c] * CELL;
        visit();
    }
}

/* The store that was visited last, broken in each way. */
static void with_broken(void (*visit)(void))
{
    const uint32_t numbers[] = {CALMBAIZE_REFUSED_STORE_INDEX, CALMBAIZE_REFUSED_STORE_KIND};

    for (size_t i = 0; i < COUNT(numbers); i++) {
        now.broken = numbers[i];
        visit();
    }
    now.broken = 0;
}

/* The next sale, and the first one again, in stores with no sale to as many as there is room for. */
static void with_new_sales(const struct plan *plan, void (*visit)(void))
{
    for (size_t c = 0; c < plan->cells.count; c++)
        for (size_t sales = 0; sales < plan->cells.of[c]; sales++) {
            now.store_len = plan->cells.of[c] * CELL;
            now.sales = sales;
            now.sale = 1;
            visit();
            now.sale = sales + 1;
            visit();
            with_broken(visit);
        }
}

/* The first sales taken, and one that is not there, in a full store and in one with a free cell. */
static void with_sales(const struct plan *plan, void (*visit)(void))
{
    for (size_t c = 0; c < plan->cells.count; c++)
        for (size_t free = 0; free < 2 && free + 1 < plan->cells.of[c]; free++) {
            now.store_len = plan->cells.of[c] * CELL;
            now.sales = plan->cells.of[c] - 1 - free;
            for (size_t sale = 0; sale <= now.sales && sale < 6; sale++) {
                now.sale = sale == 0 ? now.sales + 1 : sale;
                visit();
            }
            with_broken(visit);
        }
}

/* Takes what is missing in the store that is kept. No call makes the older kind, so it is written there. */
static void seal_sales(void)
{
    struct arguments wanted = now;

    now.sealed_len = 0;
    if (kept_len != wanted.store_len || kept_sales > wanted.sales) {
        kept_len = store_format() == 0 ? wanted.store_len : 0;
        kept_sales = 0;
        memcpy(kept, store, wanted.store_len);
    }
    memcpy(store, kept, wanted.store_len);
    for (now.sale = kept_sales + 1; now.sale <= wanted.sales; now.sale++) {
        kept_sales += store_take() == now.sale;
        if (kind_of(now.sale) == CALMBAIZE_KIND_UNPRICED)
            store[CELL * now.sale + KIND_AT] = CALMBAIZE_KIND_UNPRICED;
    }
    memcpy(kept, store, wanted.store_len);
    now.sale = wanted.sale;
    if (wanted.sale <= wanted.sales)
        now.sealed_len = SEALED;
}

/* An index past the last cell, or a kind that no cell has. */
static void break_store(void)
{
    uint8_t *cell = store + CELL * last_cell();

    if (now.broken == CALMBAIZE_REFUSED_STORE_INDEX)
        cell[0] = cell[1] = 0xff;
    if (now.broken == CALMBAIZE_REFUSED_STORE_KIND)
        cell[KIND_AT] = CALMBAIZE_KIND_PRICED + 1;
}

static void choose_sale(void)
{
    const struct record *record = record_of(now.sale);
    uint64_t coins = 0, kind = looked_up();

    for (size_t sale = 1; sale <= now.sales; sale++)
        coins += record_of(sale)->amount &
                 -(uint64_t)(record_of(sale)->means == CALMBAIZE_MEANS_COIN);
    now.total = now.changed || now.broken ? NO_TOTAL : coins;
    now.amount = kind > UINT32_MAX ? NO_CENTS : record->amount;
    now.price = kind == CALMBAIZE_KIND_PRICED ? record->price : NO_CENTS;
    memcpy(store, kept, now.store_len);
    break_store();
    if (now.sealed_len > 0)
        damage(part_of(now.sale));
}

static const struct kind blanks = {with_blanks, unsealed, unsealed, whole, 1};
static const struct kind new_sales = {with_new_sales, seal_sales, choose_sale, whole, 1};
static const struct kind sales = {with_sales, seal_sales, choose_sale, whole, 1};

#define STACK(name) CALMBAIZE_##name##_STACK_BYTES
enum { NOT_TRACED, TRACED };

const struct call calls[] = {
    {"seal", STACK(SEAL), &messages, seal, sealed_len, NULL, NOT_TRACED},
    {"open", STACK(OPEN), &parcels, open, opened, one_verdict, NOT_TRACED},
    {"open_old", STACK(OPEN_OLD), &parcels, open_old, opened_old, one_verdict, NOT_TRACED},
    {"convert", STACK(CONVERT), &parcels, convert, converted, starts_tried, TRACED},
    {"diagnose", STACK(DIAGNOSE), &pairs_of_settings, diagnose, diagnosed, settings_tried, TRACED},
    {"seal_run", STACK(SEAL_RUN), &messages, seal_run, sealed_len, NULL, NOT_TRACED},
    {"open_run", STACK(OPEN_RUN), &parcels, open_run, opened, one_verdict, NOT_TRACED},
    {"walk", STACK(WALK), &walks, walk, block_len, NULL, NOT_TRACED},
    {"jump", STACK(JUMP), &jumps, jump, block_len, NULL, NOT_TRACED},
    {"store_format", STACK(STORE_FORMAT), &blanks, store_format, nothing, NULL, NOT_TRACED},
    {"store_take", STACK(STORE_TAKE), &new_sales, store_take, taken, NULL, NOT_TRACED},
    {"store_cancel", STACK(STORE_CANCEL), &sales, store_cancel, cancelled, sale_opened, TRACED},
    {"store_total", STACK(STORE_TOTAL), &sales, store_total, added_up, sales_opened, TRACED},
    {"store_read", STACK(STORE_READ), &sales, store_read, found, NULL, NOT_TRACED},
    {"store_look_up", STACK(STORE_LOOK_UP), &sales, store_look_up, looked_up, sale_opened, TRACED},
};
const size_t call_count = COUNT(calls);

const struct call *find(const char *name)
{
    for (size_t i = 0; i < call_count; i++)
        if (strcmp(calls[i].name, name) == 0)
            return &calls[i];
    return NULL;
}

void each_secret(void (*mark)(void *, size_t))
{
    mark(&secrets, sizeof secrets);
    if (now.blank)
        mark(store, now.store_len);
    for (size_t sale = 1; sale <= now.sales; sale++)
        mark(part_of(sale), SEALED);
}

/* The call that is tried, by what. */
static const struct call *tried;
static void (*attempt_it)(const struct call *);

static void try_state(unsigned old, size_t place, uint8_t changed)
{
    now.old = old;
    now.place = place;
    now.changed = changed;
    tried->kind->choose();
    attempt_it(tried);
}

/* Whole, and with the first and last bytes of what is encrypted and of the tag changed. */
static void try_states(void)
{
    tried->kind->seal();
    const size_t len = now.sealed_len, places[] = {0, len - TAG - 1, len - TAG, len - 1};

    for (unsigned old = 0; old < tried->kind->starts; old++) {
        try_state(old, 0, 0);
        for (size_t i = 0; i < COUNT(places); i++)
            if (places[i] < len)
                try_state(old, places[i], i % 2 ? 0x80 : 1);
    }
}

void each_case(const struct call *call, const struct plan *plan, void (*attempt)(const struct call *))
{
    tried = call;
    attempt_it = attempt;
    usual();
    call->kind->settings(plan, try_states);
}

static unsigned traced_state, traced_set;

static void try_traced(void)
{
    tried->kind->seal();
    if (traced_state < tried->kind->starts)
        try_state(traced_state, 0, 0);
    else if (now.sealed_len > 0)
        try_state(traced_set % tried->kind->starts, (now.sealed_len - 1) * traced_set / 4, 0xff);
}

void each_traced(const struct call *call, const struct plan *plan, unsigned state, unsigned set,
                 void (*attempt)(const struct call *))
{
    tried = call;
    attempt_it = attempt;
    traced_state = state;
    traced_set = set;
    usual();
    call->kind->settings(plan, try_traced);
}
