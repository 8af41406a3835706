/*
 * Holds the constants of calmbaize.h against the archive: each refusal is provoked, each length and
 * limit passes where the next one is refused, and each mode, step byte, means, kind and
 * diagnosis does what its name says.
 *
 * Prints a line for each constant: "held" or "failed", and its name.
 */
#include <stdio.h>
#include <string.h>

#include "calls.h"

#define HOLD(name, truth) hold(#name, truth)
#define REFUSE(name, answer) hold(#name, refused(answer, name))

static void hold(const char *name, int truth)
{
    printf("%s %s\n", truth ? "held" : "failed", name);
}

static int refused(uint64_t answer, uint32_t number)
{
    return calmbaize_refusal(answer) == number && number != CALMBAIZE_OK &&
           calmbaize_place(answer) == 0 && calmbaize_written(answer) == 0;
}

static int wrote(uint64_t answer, size_t bytes)
{
    return calmbaize_refusal(answer) == CALMBAIZE_OK && calmbaize_written(answer) == bytes;
}

static int passes(uint64_t answer)
{
    return calmbaize_refusal(answer) == CALMBAIZE_OK;
}

static uint64_t make(const char *call)
{
    return find(call)->make();
}

/* The call with sound arguments but for this one. */
static uint64_t with(const char *call, size_t *argument, size_t value)
{
    usual();
    *argument = value;
    return make(call);
}

/* The length passes, and one more is refused with the number. */
static int most(const char *call, size_t *argument, size_t len, uint32_t number)
{
    return passes(with(call, argument, len)) && refused(with(call, argument, len + 1), number);
}

/* One less is refused too. */
static int just(const char *call, size_t *argument, size_t len, uint32_t number)
{
    return most(call, argument, len, number) && refused(with(call, argument, len - 1), number);
}

/* Seals a message of that length, by the call of that name, into the parcel. */
static uint64_t seal_parcel(const char *call, size_t len)
{
    uint64_t answer;

    now.message_len = len;
    answer = make(call);
    memcpy(secrets.parcel, output, calmbaize_written(answer));
    return answer;
}

static void lengths(void)
{
    usual();
    HOLD(CALMBAIZE_TAG_BYTES, wrote(seal_parcel("seal", 0), CALMBAIZE_TAG_BYTES));
    HOLD(CALMBAIZE_KEY_BYTES,
         just("seal", &now.key_len, CALMBAIZE_KEY_BYTES, CALMBAIZE_REFUSED_KEY_LENGTH));
    HOLD(CALMBAIZE_NONCE_BYTES,
         just("seal", &now.nonce_len, CALMBAIZE_NONCE_BYTES, CALMBAIZE_REFUSED_NONCE_LENGTH));
    HOLD(CALMBAIZE_BLOCK_BYTES,
         just("walk", &now.start_len, CALMBAIZE_BLOCK_BYTES, CALMBAIZE_REFUSED_START_LENGTH) &&
             wrote(with("walk", &now.steps_len, 0), CALMBAIZE_BLOCK_BYTES));
    HOLD(CALMBAIZE_HEADER_BYTES_MAX, most("seal", &now.header_len, CALMBAIZE_HEADER_BYTES_MAX,
                                          CALMBAIZE_REFUSED_HEADER_TOO_LONG));
    HOLD(CALMBAIZE_MESSAGE_BYTES_MAX, most("seal", &now.message_len, CALMBAIZE_MESSAGE_BYTES_MAX,
                                           CALMBAIZE_REFUSED_INPUT_TOO_LONG));
    usual();
    HOLD(CALMBAIZE_SEALED_BYTES_MAX,
         wrote(seal_parcel("seal", CALMBAIZE_MESSAGE_BYTES_MAX), CALMBAIZE_SEALED_BYTES_MAX) &&
             most("open", &now.parcel_len, CALMBAIZE_SEALED_BYTES_MAX,
                  CALMBAIZE_REFUSED_INPUT_TOO_LONG));
}

/* So many words are enough for both calls, and one less is refused. */
static int words_needed(size_t header_len, size_t len, size_t count)
{
    int enough;

    usual();
    now.header_len = header_len;
    now.words_len = count;
    now.parcel_len = len + TAG;
    enough = calmbaize_run_words(header_len, len) == count &&
             wrote(seal_parcel("seal_run", len), len + TAG) && wrote(make("open_run"), len);
    now.words_len--;
    return enough && refused(make("seal_run"), CALMBAIZE_REFUSED_OUTPUT_TOO_SHORT) &&
           refused(make("open_run"), CALMBAIZE_REFUSED_OUTPUT_TOO_SHORT);
}

/* The longest message has the longest run; the longest header has a shorter one. */
static void lengths_of_runs(void)
{
    const size_t longest = CALMBAIZE_RUN_WORDS_MAX;
    const size_t less = (CALMBAIZE_MESSAGE_BYTES_MAX - CALMBAIZE_HEADER_BYTES_MAX) / BLOCK;

    HOLD(CALMBAIZE_RUN_WORDS_MAX,
         words_needed(CALMBAIZE_HEADER_BYTES_MAX, CALMBAIZE_MESSAGE_BYTES_MAX, longest) &&
             words_needed(0, CALMBAIZE_MESSAGE_BYTES_MAX - 1, longest - 1) &&
             words_needed(CALMBAIZE_HEADER_BYTES_MAX, BLOCK, longest - less));
}

/* A store of so many cells in which all are free. */
static int formatted(size_t cells)
{
    return passes(with("store_format", &now.store_len, cells * CELL));
}

/* In the store that was formatted last. */
static uint64_t of_sale(const char *call, size_t sale)
{
    now.sale = sale;
    return make(call);
}

static int is_length(size_t len)
{
    return passes(with("store_format", &now.store_len, len));
}

/* No length of a store stands between these two. */
static int no_length_between(size_t from, size_t to)
{
    for (size_t len = from + 1; len < to; len++)
        if (!refused(with("store_format", &now.store_len, len), CALMBAIZE_REFUSED_STORE_LENGTH))
            return 0;
    return 1;
}

/* The part of the second sale begins with its numbers and ends with its cell. */
static int sale_part(void)
{
    const uint8_t numbers[] = {MACHINE, 0, 0, 0, 5, 0, 0, 0};
    uint32_t cell, offset;

    if (!formatted(4) || !passes(of_sale("store_take", 4)))
        return 0;
    cell = calmbaize_value(of_sale("store_take", 5));
    offset = calmbaize_value(of_sale("store_read", 5));
    return offset + CALMBAIZE_SALE_BYTES == (cell + 1) * CELL &&
           memcmp(store + offset, numbers, sizeof numbers) == 0;
}

/* The sale's bytes are others where the last of the tail's len bytes is, and not where one behind is. */
static int tail_is(size_t len)
{
    uint8_t taken[3][2 * CELL];

    for (int i = 0; i < 3; i++) {
        tail[len - 1] ^= i == 1;
        tail[len] ^= i == 2;
        if (!formatted(2) || !passes(of_sale("store_take", 1)))
            return 0;
        memcpy(taken[i], store, sizeof taken[i]);
    }
    return memcmp(taken[0], taken[1], sizeof taken[0]) != 0 &&
           memcmp(taken[1], taken[2], sizeof taken[1]) == 0;
}

static void store_lengths(void)
{
    HOLD(CALMBAIZE_CELL_BYTES,
         is_length(CALMBAIZE_STORE_BYTES_MIN + CELL) &&
             no_length_between(CALMBAIZE_STORE_BYTES_MIN, CALMBAIZE_STORE_BYTES_MIN + CELL));
    HOLD(CALMBAIZE_STORE_BYTES_MIN, is_length(CALMBAIZE_STORE_BYTES_MIN) && !is_length(0) &&
                                        no_length_between(0, CALMBAIZE_STORE_BYTES_MIN));
    HOLD(CALMBAIZE_STORE_BYTES_MAX,
         is_length(CALMBAIZE_STORE_BYTES_MAX) &&
             no_length_between(CALMBAIZE_STORE_BYTES_MAX, CALMBAIZE_STORE_BYTES_MAX + CELL + 1));
    HOLD(CALMBAIZE_SALE_BYTES, sale_part());
    HOLD(CALMBAIZE_NONCE_TAIL_BYTES, tail_is(CALMBAIZE_NONCE_TAIL_BYTES));
}

/* A total of one sale of that means comes to the coins. */
static int total_is(uint8_t means, uint32_t amount, uint64_t coins)
{
    secrets.records[1].means = means;
    secrets.records[1].amount = amount;
    if (!formatted(2) || !passes(of_sale("store_take", 1)))
        return 0;
    now.total = coins;
    return make("store_total") == 0;
}

static void means_of_payment(void)
{
    HOLD(CALMBAIZE_MEANS_COIN, total_is(CALMBAIZE_MEANS_COIN, 150, 150));
    /* The archive tells it from no other means that is not coin. */
    HOLD(CALMBAIZE_MEANS_CARD, total_is(CALMBAIZE_MEANS_CARD, 150, 0) && CALMBAIZE_MEANS_CARD == 2);
}

/* A sale of the price 0, taken and then changed to that kind, is looked up as one, with this price. */
static int looked_up_as(uint32_t kind, uint32_t price)
{
    secrets.records[1].price = 0;
    if (!formatted(2) || !passes(of_sale("store_take", 1)))
        return 0;
    store[CELL + KIND_AT] = (uint8_t)kind;
    now.amount = secrets.records[1].amount;
    now.price = price;
    return make("store_look_up") == kind;
}

/* A new sale has that kind. */
static int taken_as(uint32_t kind)
{
    return formatted(2) && passes(of_sale("store_take", 1)) && store[CELL + KIND_AT] == kind;
}

static void kinds_of_sales(void)
{
    HOLD(CALMBAIZE_KIND_UNPRICED, looked_up_as(CALMBAIZE_KIND_UNPRICED, NO_CENTS));
    HOLD(CALMBAIZE_KIND_PRICED,
         looked_up_as(CALMBAIZE_KIND_PRICED, 0) && taken_as(CALMBAIZE_KIND_PRICED));
}

static uint64_t jump(int32_t alpha, int32_t beta, int32_t gamma)
{
    usual();
    now.alpha = alpha;
    now.beta = beta;
    now.gamma = gamma;
    return make("jump");
}

static int count_refused(int32_t count)
{
    return refused(jump(count, 0, 0), CALMBAIZE_REFUSED_COUNT) &&
           refused(jump(0, count, 0), CALMBAIZE_REFUSED_COUNT) &&
           refused(jump(0, 0, count), CALMBAIZE_REFUSED_COUNT);
}

static void bounds_of_steps(void)
{
    const int32_t most_steps = CALMBAIZE_COUNT_MAX;

    HOLD(CALMBAIZE_STEPS_MAX, most("walk", &now.steps_len, CALMBAIZE_STEPS_MAX,
                                   CALMBAIZE_REFUSED_TOO_MANY_STEPS));
    HOLD(CALMBAIZE_COUNT_MAX, passes(jump(most_steps, most_steps, most_steps)) &&
                                  passes(jump(-most_steps, -most_steps, -most_steps)) &&
                                  count_refused(most_steps + 1) && count_refused(-most_steps - 1));
}

/* Two messages that differ in their last byte: OPP's first blocks are alike, MRO's are not. */
static int first_blocks_alike(uint32_t mode)
{
    uint8_t first[BLOCK];

    usual();
    now.mode = mode;
    now.message_len = 2 * BLOCK;
    for (int i = 0; i < 2; i++) {
        memcpy(first, output, BLOCK);
        secrets.message[2 * BLOCK - 1] ^= 1;
        if (!passes(make("seal")))
            return -1;
    }
    return memcmp(first, output, BLOCK) == 0;
}

/* A walk of the one step goes where the jump goes. */
static int steps_to(uint8_t step, int32_t alpha, int32_t beta, int32_t gamma)
{
    uint8_t reached[BLOCK];

    steps[0] = step;
    if (!passes(with("walk", &now.steps_len, 1)))
        return 0;
    memcpy(reached, output, BLOCK);
    return passes(jump(alpha, beta, gamma)) && memcmp(reached, output, BLOCK) == 0;
}

static void modes_and_steps(void)
{
    HOLD(CALMBAIZE_MODE_OPP, first_blocks_alike(CALMBAIZE_MODE_OPP) == 1);
    HOLD(CALMBAIZE_MODE_MRO, first_blocks_alike(CALMBAIZE_MODE_MRO) == 0);
    HOLD(CALMBAIZE_STEP_ALPHA, steps_to(CALMBAIZE_STEP_ALPHA, 1, 0, 0));
    HOLD(CALMBAIZE_STEP_BETA, steps_to(CALMBAIZE_STEP_BETA, 0, 1, 0));
    HOLD(CALMBAIZE_STEP_GAMMA, steps_to(CALMBAIZE_STEP_GAMMA, 0, 0, 1));
    HOLD(CALMBAIZE_STEP_ALPHA_BACK, steps_to(CALMBAIZE_STEP_ALPHA_BACK, -1, 0, 0));
    HOLD(CALMBAIZE_STEP_BETA_BACK, steps_to(CALMBAIZE_STEP_BETA_BACK, 0, -1, 0));
    HOLD(CALMBAIZE_STEP_GAMMA_BACK, steps_to(CALMBAIZE_STEP_GAMMA_BACK, 0, 0, -1));
}

/* What the call answers to an empty message's parcel, with these bits of its last byte changed. */
static uint64_t of_parcel(const char *call, uint8_t changed)
{
    usual();
    if (!wrote(seal_parcel("seal", 0), TAG))
        return UINT64_MAX;
    secrets.parcel[TAG - 1] ^= changed;
    return make(call);
}

static void diagnoses(void)
{
    HOLD(CALMBAIZE_DIAGNOSE_AS_ASKED, of_parcel("diagnose", 0) == CALMBAIZE_DIAGNOSE_AS_ASKED);
    HOLD(CALMBAIZE_DIAGNOSE_NONE, of_parcel("diagnose", 1) == CALMBAIZE_DIAGNOSE_NONE);
}

/* A walk's refusal has the step's place. */
static int step_refused_at(size_t place)
{
    uint64_t answer;

    memset(steps, CALMBAIZE_STEP_ALPHA, sizeof steps);
    steps[place] = 0;
    answer = with("walk", &now.steps_len, 4);
    return calmbaize_refusal(answer) == CALMBAIZE_REFUSED_STEP && calmbaize_place(answer) == place &&
           calmbaize_written(answer) == 0;
}

/* A tag's refusal has a place where the tag is a sale's. */
static int sale_refused_in(size_t cell)
{
    uint64_t cancelled;

    if (!formatted(4) || calmbaize_value(of_sale("store_take", 1)) != 1 ||
        calmbaize_value(of_sale("store_take", 2)) != 2)
        return 0;
    store[(cell + 1) * CELL - 1] ^= 1;
    cancelled = of_sale("store_cancel", cell);
    return calmbaize_refusal(cancelled) == CALMBAIZE_REFUSED_TAG &&
           calmbaize_place(cancelled) == cell && make("store_total") == cancelled &&
           make("store_look_up") == cancelled;
}

/* Four cells, the first a sale, and one byte changed: every call is refused with the number and that place. */
static int broken(size_t cell, size_t byte, uint8_t value, uint32_t number, size_t place)
{
    uint64_t read, taken;

    if (!formatted(4) || !passes(of_sale("store_take", 1)))
        return 0;
    store[CELL * cell + byte] = value;
    read = of_sale("store_read", 1);
    taken = of_sale("store_take", 1);
    return calmbaize_refusal(read) == number && calmbaize_place(read) == place && taken == read &&
           of_sale("store_cancel", 1) == read && make("store_total") == read &&
           make("store_look_up") == read;
}

/* What the call answers to that sale, in a store of so many cells where the first is taken. */
static uint64_t after_one(size_t cells, const char *call, size_t sale)
{
    return formatted(cells) && passes(of_sale("store_take", 1)) ? of_sale(call, sale) : UINT64_MAX;
}

static void refusals_of_lengths_and_settings(void)
{
    HOLD(CALMBAIZE_OK, wrote(of_parcel("seal", 0), TAG) && wrote(of_parcel("open", 0), 0));
    REFUSE(CALMBAIZE_REFUSED_MODE, with("seal", &now.mode, 0));
    REFUSE(CALMBAIZE_REFUSED_ROUNDS, with("seal", &now.rounds, 0));
    REFUSE(CALMBAIZE_REFUSED_KEY_LENGTH, with("seal", &now.key_len, 0));
    REFUSE(CALMBAIZE_REFUSED_NONCE_LENGTH, with("seal", &now.nonce_len, 0));
    REFUSE(CALMBAIZE_REFUSED_HEADER_TOO_LONG, with("seal", &now.header_len, sizeof header));
    REFUSE(CALMBAIZE_REFUSED_INPUT_TOO_LONG, with("seal", &now.message_len, sizeof secrets.message));
    REFUSE(CALMBAIZE_REFUSED_OUTPUT_TOO_SHORT, with("seal", &now.output_len, TAG - 1));
    REFUSE(CALMBAIZE_REFUSED_OUTPUT_TOO_SHORT, with("convert", &now.output_len, TAG - 1));
    REFUSE(CALMBAIZE_REFUSED_OUTPUT_TOO_SHORT, with("seal_run", &now.words_len, 0));
    REFUSE(CALMBAIZE_REFUSED_INPUT_TOO_SHORT, with("open", &now.parcel_len, TAG - 1));
    REFUSE(CALMBAIZE_REFUSED_INPUT_TOO_SHORT, with("convert", &now.parcel_len, TAG - 1));
    REFUSE(CALMBAIZE_REFUSED_START_LENGTH, with("walk", &now.start_len, 0));
    REFUSE(CALMBAIZE_REFUSED_COUNT, jump(0, 0, INT32_MIN));
    REFUSE(CALMBAIZE_REFUSED_TOO_MANY_STEPS, with("walk", &now.steps_len, sizeof steps));
}

static void other_refusals(void)
{
    REFUSE(CALMBAIZE_REFUSED_TAG, of_parcel("open", 1));
    HOLD(CALMBAIZE_REFUSED_TAG, sale_refused_in(1) && sale_refused_in(2));
    HOLD(CALMBAIZE_REFUSED_STEP, step_refused_at(0) && step_refused_at(3));
    REFUSE(CALMBAIZE_REFUSED_STORE_FULL, after_one(2, "store_take", 2));
    REFUSE(CALMBAIZE_REFUSED_SALE_NUMBERS, after_one(3, "store_take", 1));
    REFUSE(CALMBAIZE_REFUSED_SALE_NUMBERS, after_one(3, "store_cancel", 2));
    REFUSE(CALMBAIZE_REFUSED_SALE_NUMBERS, after_one(3, "store_read", 2));
    REFUSE(CALMBAIZE_REFUSED_SALE_NUMBERS, after_one(3, "store_look_up", 2));
    REFUSE(CALMBAIZE_REFUSED_DONE_ALREADY, of_parcel("convert", 0));
    REFUSE(CALMBAIZE_REFUSED_STORE_LENGTH, with("store_format", &now.store_len, 0));
    REFUSE(CALMBAIZE_REFUSED_STORE_LENGTH, with("store_read", &now.store_len, 0));
    /* The first free index past the last cell, and cell 3 behind itself. */
    HOLD(CALMBAIZE_REFUSED_STORE_INDEX, broken(0, 2, 4, CALMBAIZE_REFUSED_STORE_INDEX, 0) &&
                                            broken(3, 0, 3, CALMBAIZE_REFUSED_STORE_INDEX, 3));
    /* Either kind of sale among the free cells, another kind among the sales, and cell 3 in neither chain. */
    HOLD(CALMBAIZE_REFUSED_STORE_KIND,
         broken(2, KIND_AT, 1, CALMBAIZE_REFUSED_STORE_KIND, 2) &&
             broken(2, KIND_AT, 2, CALMBAIZE_REFUSED_STORE_KIND, 2) &&
             broken(1, KIND_AT, 0, CALMBAIZE_REFUSED_STORE_KIND, 1) &&
             broken(1, KIND_AT, 3, CALMBAIZE_REFUSED_STORE_KIND, 1) &&
             broken(2, 0, 0, CALMBAIZE_REFUSED_STORE_KIND, 3));
}

int main(void)
{
    /* Among them a start that the six steps take to six others. */
    fill(2, sizeof secrets.message);
    memset(steps, CALMBAIZE_STEP_ALPHA, sizeof steps);
    lengths();
    lengths_of_runs();
    store_lengths();
    bounds_of_steps();
    modes_and_steps();
    means_of_payment();
    kinds_of_sales();
    diagnoses();
    refusals_of_lengths_and_settings();
    other_refusals();
    return 0;
}
