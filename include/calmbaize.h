/*
 * Calmbaize: authenticated encryption with OPP and MRO over a masked BLAKE2b
 * permutation, the walk of its masks, and a store of sealed sales.
 *
 * Every call takes buffers of any length as a pointer and a length in bytes, or
 * in words of 64 bits where it points to words, checks all its arguments itself
 * and answers with one number, which calmbaize_refusal(), calmbaize_place(),
 * calmbaize_written() and calmbaize_value() take apart.
 *
 *   - A null pointer with length 0 is an empty buffer. With any other length
 *     the pointer must be valid for that many bytes or words. A pointer that
 *     comes without a length must be valid for what it is declared as. Words
 *     are aligned as uint64_t is.
 *   - Buffers must not overlap: no byte of the output, of the words, of the
 *     store, of the total, of the amount or of the price may belong to another
 *     argument.
 *   - Nothing is kept between calls and nothing is allocated. Calls may run at
 *     the same time where nothing that one of them writes belongs to another.
 *   - An answer must be looked at: a refused call leaves the output as it was,
 *     or zero, the words as they were, or on 9 with the run in them, and the
 *     store, the total, the amount and the price as they were. Compilers warn
 *     where one is dropped.
 *   - No branch and no address depends on the key, the nonce, the message, the
 *     parcel's content or its tag, on what the words hold, or on the start of a
 *     walk or jump, but for this: in calmbaize_convert(), whether the parcel
 *     opens under each start, and in calmbaize_diagnose(), whether it opens under
 *     each setting tried, which the answer tells (checked on x86-64). Time
 *     depends on lengths, settings, step bytes and counts, and in these two on
 *     the answer.
 *   - In the store, none depends on the key, on what a sale's record holds, or
 *     on its sealed bytes and tag, but for this: whether a sale opens, which the
 *     answer tells (checked on x86-64). The store's length, indices, kinds and
 *     nonces and the numbers of the sale named are no secrets: branches and time
 *     depend on them.
 */
#ifndef CALMBAIZE_H
#define CALMBAIZE_H

#include <stdbool.h>
#include <stddef.h>
#include <stdint.h>

/* The version, as text and as one number that grows. */
#define CALMBAIZE_VERSION "0.9.0"
#define CALMBAIZE_VERSION_MAJOR 0
#define CALMBAIZE_VERSION_MINOR 9
#define CALMBAIZE_VERSION_PATCH 0
#define CALMBAIZE_VERSION_NUMBER \
    (CALMBAIZE_VERSION_MAJOR * 1000000 + CALMBAIZE_VERSION_MINOR * 1000 + CALMBAIZE_VERSION_PATCH)

/*
 * The format, which names the bytes of a parcel. It goes up by one where
 * calmbaize_seal() comes to write other bytes for the same arguments. A sale's
 * sealed record and tag are such a parcel, so they follow it; another layout of a
 * store's cell or of a record leaves it as it is. Another format is opened only by
 * the calls that this list names.
 *
 *   1   versions before 0.4.0. The masks start from nonce and key alone, the
 *       paper's section 4, the old start. calmbaize_open_old() opens its parcels,
 *       and calmbaize_convert() brings them to format 2. Its sales are not promised
 *       to open in a store: no call of the store uses that start.
 *   2   the round count and the tag's length in bits enter the start, as in
 *       section 8, the new start
 *
 * What the record in a store's cell is made of goes by the cell's kind. Sales of
 * both kinds are of format 2 where version 0.4.0 or a later one stored them.
 *
 *   kind 1   versions before 0.8.0. It has a clock and no price. It is still read,
 *            and no call stores it any more.
 *   kind 2   from version 0.8.0 on. It has price and day. In an older unit every
 *            call but format refuses a store with such a cell: version 0.7.0 with
 *            20, those before with 14.
 */
#define CALMBAIZE_FORMAT 2

/* Marks a call whose answer must not be dropped. */
#if (defined(__cplusplus) && __cplusplus >= 201703L) ||                \
    (defined(_MSVC_LANG) && _MSVC_LANG >= 201703L) ||                  \
    (defined(__STDC_VERSION__) && __STDC_VERSION__ >= 202311L)
#define CALMBAIZE_NODISCARD [[nodiscard]]
#elif defined(__GNUC__)
#define CALMBAIZE_NODISCARD __attribute__((warn_unused_result))
#elif defined(_MSC_VER)
#include <sal.h>
#define CALMBAIZE_NODISCARD _Check_return_
#else
#define CALMBAIZE_NODISCARD
#endif

#ifdef __cplusplus
extern "C" {
#endif

/* Lengths in bytes. */
#define CALMBAIZE_KEY_BYTES 32U
#define CALMBAIZE_NONCE_BYTES 16U
#define CALMBAIZE_TAG_BYTES 32U
#define CALMBAIZE_BLOCK_BYTES 128U
#define CALMBAIZE_HEADER_BYTES_MAX 4096U
#define CALMBAIZE_MESSAGE_BYTES_MAX 65536U
#define CALMBAIZE_SEALED_BYTES_MAX (CALMBAIZE_MESSAGE_BYTES_MAX + CALMBAIZE_TAG_BYTES)

/* Lengths of the store and of its parts, in bytes. */
#define CALMBAIZE_CELL_BYTES 64U
#define CALMBAIZE_STORE_BYTES_MIN 128U
#define CALMBAIZE_STORE_BYTES_MAX 65536U
#define CALMBAIZE_SALE_BYTES 61U /* the part that calmbaize_store_read() finds */
#define CALMBAIZE_NONCE_TAIL_BYTES 8U

/* The longest run, in words of 64 bits; calmbaize_run_words() tells the length of each. */
#define CALMBAIZE_RUN_WORDS_MAX 533U

/* Steps in one walk, and the bound on each net count of a jump. */
#define CALMBAIZE_STEPS_MAX 4096U
#define CALMBAIZE_COUNT_MAX 65536

/* A bound on the stack of each call in bytes, on x86-64; the gate measures it. */
#define CALMBAIZE_SEAL_STACK_BYTES 4096U
#define CALMBAIZE_OPEN_STACK_BYTES 4096U
#define CALMBAIZE_OPEN_OLD_STACK_BYTES 4096U
#define CALMBAIZE_CONVERT_STACK_BYTES 4096U
#define CALMBAIZE_DIAGNOSE_STACK_BYTES 4096U
#define CALMBAIZE_SEAL_RUN_STACK_BYTES 8192U
#define CALMBAIZE_OPEN_RUN_STACK_BYTES 8192U
#define CALMBAIZE_WALK_STACK_BYTES 8192U
#define CALMBAIZE_JUMP_STACK_BYTES 8192U
#define CALMBAIZE_STORE_FORMAT_STACK_BYTES 1024U
#define CALMBAIZE_STORE_TAKE_STACK_BYTES 4096U
#define CALMBAIZE_STORE_CANCEL_STACK_BYTES 4096U
#define CALMBAIZE_STORE_TOTAL_STACK_BYTES 4096U
#define CALMBAIZE_STORE_READ_STACK_BYTES 1024U
#define CALMBAIZE_STORE_LOOK_UP_STACK_BYTES 4096U

/* Modes. OPP needs a fresh nonce for every message; MRO tolerates a repeated one. */
#define CALMBAIZE_MODE_OPP 1U
#define CALMBAIZE_MODE_MRO 2U

/* Answers of calmbaize_diagnose() that name no setting. */
#define CALMBAIZE_DIAGNOSE_AS_ASKED 0U
#define CALMBAIZE_DIAGNOSE_NONE 255U

/* Step bytes. */
#define CALMBAIZE_STEP_ALPHA 1U
#define CALMBAIZE_STEP_BETA 2U
#define CALMBAIZE_STEP_GAMMA 3U
#define CALMBAIZE_STEP_ALPHA_BACK 4U
#define CALMBAIZE_STEP_BETA_BACK 5U
#define CALMBAIZE_STEP_GAMMA_BACK 6U

/* Means of payment. Others are carried unread. */
#define CALMBAIZE_MEANS_COIN 1U
#define CALMBAIZE_MEANS_CARD 2U

/* Kinds of a sale: with a clock and no price; with price and day. */
#define CALMBAIZE_KIND_UNPRICED 1U
#define CALMBAIZE_KIND_PRICED 2U

/*
 * Refusals. No number is used for a second thing: 14 (CALMBAIZE_REFUSED_STORE_FORM),
 * which versions up to 0.6.0 gave for all that is 18, 19 and 20 now, is not given any
 * more, and the name is gone.
 */
#define CALMBAIZE_OK 0U                       /* nothing refused */
#define CALMBAIZE_REFUSED_MODE 1U             /* mode not 1 or 2 */
#define CALMBAIZE_REFUSED_ROUNDS 2U           /* rounds not 4, 6, 8 or 12 */
#define CALMBAIZE_REFUSED_KEY_LENGTH 3U       /* key not 32 bytes */
#define CALMBAIZE_REFUSED_NONCE_LENGTH 4U     /* nonce not 16 bytes */
#define CALMBAIZE_REFUSED_HEADER_TOO_LONG 5U  /* header over 4,096 bytes */
#define CALMBAIZE_REFUSED_INPUT_TOO_LONG 6U   /* message over 65,536 bytes, parcel over 65,568 */
#define CALMBAIZE_REFUSED_OUTPUT_TOO_SHORT 7U /* output or words shorter than success writes */
#define CALMBAIZE_REFUSED_INPUT_TOO_SHORT 8U  /* parcel under 32 bytes */
#define CALMBAIZE_REFUSED_TAG 9U              /* tag differs; of a sale, in the cell at the place */
#define CALMBAIZE_REFUSED_START_LENGTH 10U    /* start not 128 bytes */
#define CALMBAIZE_REFUSED_COUNT 11U           /* net count outside -65,536 to 65,536 */
#define CALMBAIZE_REFUSED_STEP 12U            /* step byte outside 1 to 6, at the place */
#define CALMBAIZE_REFUSED_TOO_MANY_STEPS 13U  /* list over 4,096 steps */
#define CALMBAIZE_REFUSED_STORE_FULL 15U      /* no free cell */
#define CALMBAIZE_REFUSED_SALE_NUMBERS 16U    /* numbers present on take, absent else */
#define CALMBAIZE_REFUSED_DONE_ALREADY 17U    /* parcel opens under the new start, not the old */
#define CALMBAIZE_REFUSED_STORE_LENGTH 18U    /* store not 128 to 65,536 bytes in cells of 64 */
#define CALMBAIZE_REFUSED_STORE_INDEX 19U     /* index past the last cell, or of a cell reached before */
#define CALMBAIZE_REFUSED_STORE_KIND 20U      /* kind that does not fit, or cell in neither chain */

/* The refusal's number, or CALMBAIZE_OK. */
static inline uint32_t calmbaize_refusal(uint64_t answer)
{
    return (uint32_t)(answer >> 32);
}

/*
 * Where the ground of a refusal lies: the step's place in the list for
 * CALMBAIZE_REFUSED_STEP; the sale's cell for CALMBAIZE_REFUSED_TAG of
 * calmbaize_store_cancel(), calmbaize_store_total() and calmbaize_store_look_up();
 * the cell that holds the index, which may be cell 0, for
 * CALMBAIZE_REFUSED_STORE_INDEX; the cell itself for CALMBAIZE_REFUSED_STORE_KIND;
 * else 0.
 */
static inline uint32_t calmbaize_place(uint64_t answer)
{
    return calmbaize_refusal(answer) == CALMBAIZE_OK ? 0 : (uint32_t)answer;
}

/* The bytes written by a call that has an output; 0 where the call was refused. */
static inline size_t calmbaize_written(uint64_t answer)
{
    return calmbaize_refusal(answer) == CALMBAIZE_OK ? (size_t)answer : 0;
}

/* The value that a call answers, as said at each of them; 0 where it was refused. */
static inline uint32_t calmbaize_value(uint64_t answer)
{
    return calmbaize_refusal(answer) == CALMBAIZE_OK ? (uint32_t)answer : 0;
}

/*
 * Encrypts and authenticates the input, and authenticates the header.
 *
 * The permutation takes 4, 6, 8 or 12 rounds, and the time grows with them. A
 * parcel must be opened with the mode and the rounds that sealed it. Its bytes
 * are those of CALMBAIZE_FORMAT.
 *
 * Success writes a parcel, the ciphertext and then the tag, of input_len + 32
 * bytes, and answers that length. The rest of the output is unchanged.
 *
 * Refused, in this order, with 1, 2, 3, 4, 5, 6, 7; then no byte changes.
 */
CALMBAIZE_NODISCARD
uint64_t calmbaize_seal(uint32_t mode, uint32_t rounds,
                        const uint8_t *key, size_t key_len,
                        const uint8_t *nonce, size_t nonce_len,
                        const uint8_t *header, size_t header_len,
                        const uint8_t *input, size_t input_len,
                        uint8_t *output, size_t output_len);

/*
 * Verifies and decrypts a parcel.
 *
 * Success writes the message of input_len - 32 bytes and answers that length.
 * The rest of the output is unchanged. It succeeds exactly where the parcel is
 * what calmbaize_seal() writes for that message under the same settings.
 *
 * Refused, in this order, with 1, 2, 3, 4, 5, 8, 6, 7, 9. On 9 the bytes that
 * the message would have filled are zero and the rest is unchanged; on every
 * other refusal no byte changes.
 */
CALMBAIZE_NODISCARD
uint64_t calmbaize_open(uint32_t mode, uint32_t rounds,
                        const uint8_t *key, size_t key_len,
                        const uint8_t *nonce, size_t nonce_len,
                        const uint8_t *header, size_t header_len,
                        const uint8_t *input, size_t input_len,
                        uint8_t *output, size_t output_len);

/*
 * Verifies and decrypts a parcel of format 1, as calmbaize_open() does one of
 * this format. No call seals such a parcel any more.
 *
 * Success writes the message of input_len - 32 bytes and answers that length.
 * The rest of the output is unchanged. It succeeds exactly where the parcel is
 * what sealing in format 1 makes of that message under the same settings.
 *
 * Refused, in this order, with 1, 2, 3, 4, 5, 8, 6, 7, 9. On 9 the bytes that
 * the message would have filled are zero and the rest is unchanged; on every
 * other refusal no byte changes.
 */
CALMBAIZE_NODISCARD
uint64_t calmbaize_open_old(uint32_t mode, uint32_t rounds,
                            const uint8_t *key, size_t key_len,
                            const uint8_t *nonce, size_t nonce_len,
                            const uint8_t *header, size_t header_len,
                            const uint8_t *input, size_t input_len,
                            uint8_t *output, size_t output_len);

/*
 * Brings a parcel of format 1 over to this format: its message is sealed again
 * with the same settings.
 *
 * Success writes the new parcel of input_len bytes and answers that length. The
 * rest of the output is unchanged. Given room, it succeeds exactly where
 * calmbaize_open_old() opens the parcel, and the new one is what calmbaize_seal()
 * writes for that message under the same settings. The output is another buffer
 * than the parcel, as in every call.
 *
 * Refused, in this order, with 1, 2, 3, 4, 5, 8, 6, and 7 where the output is
 * shorter than the parcel; then, where calmbaize_open_old() does not open it, with
 * 17 where calmbaize_open() does and with 9 where neither does. On no refusal does
 * a byte change: unlike those two, 9 clears nothing.
 */
CALMBAIZE_NODISCARD
uint64_t calmbaize_convert(uint32_t mode, uint32_t rounds,
                           const uint8_t *key, size_t key_len,
                           const uint8_t *nonce, size_t nonce_len,
                           const uint8_t *header, size_t header_len,
                           const uint8_t *input, size_t input_len,
                           uint8_t *output, size_t output_len);

/*
 * Tells why a parcel won't open: tries it under the settings asked, then under the
 * others of the sixteen, and names the first that opens it. Setting n, from 0 to
 * 15, is that of the order new start before old, then OPP before MRO, then rounds
 * 4, 6, 8, 12. The old start is that of format 1; old_start says whether the start
 * asked is the old one.
 *
 * Success answers one of these, and nothing is written. Compare the answer itself
 * with them: calmbaize_value() is 0 where the call was refused.
 *
 *   CALMBAIZE_DIAGNOSE_AS_ASKED   it opens as asked
 *   1 + n + 32 * d                it opens under setting n, and neither as asked nor
 *                                 under a setting before n; d is 1 where the start is
 *                                 not the one asked, plus 2 where the mode is not,
 *                                 plus 4 where the rounds are not
 *   CALMBAIZE_DIAGNOSE_NONE       it opens under none of the sixteen
 *
 * To open under a setting is what calmbaize_open() does with its mode and rounds,
 * or calmbaize_open_old() where its start is the old one.
 *
 * Refused, in this order, with 1, 2, 3, 4, 5, 8, 6.
 */
CALMBAIZE_NODISCARD
uint64_t calmbaize_diagnose(bool old_start, uint32_t mode, uint32_t rounds,
                            const uint8_t *key, size_t key_len,
                            const uint8_t *nonce, size_t nonce_len,
                            const uint8_t *header, size_t header_len,
                            const uint8_t *input, size_t input_len);

/* Whether an answer of calmbaize_diagnose() names a setting other than the one asked. */
static inline bool calmbaize_diagnosed_other(uint64_t answer)
{
    return answer - 1U < CALMBAIZE_DIAGNOSE_NONE - 1U;
}

/*
 * These take such an answer apart: the setting's number n, what it consists of, and
 * what differs from the settings asked. They hold only where
 * calmbaize_diagnosed_other() is true.
 */
static inline uint32_t calmbaize_diagnosed_setting(uint64_t answer)
{
    return (uint32_t)(answer - 1U) % 16U;
}

static inline bool calmbaize_diagnosed_old_start(uint64_t answer)
{
    return calmbaize_diagnosed_setting(answer) >= 8U;
}

static inline uint32_t calmbaize_diagnosed_mode(uint64_t answer)
{
    return CALMBAIZE_MODE_OPP + calmbaize_diagnosed_setting(answer) / 4U % 2U;
}

static inline uint32_t calmbaize_diagnosed_rounds(uint64_t answer)
{
    const uint32_t place = calmbaize_diagnosed_setting(answer) % 4U;

    return place == 3U ? 12U : 4U + 2U * place;
}

static inline bool calmbaize_diagnosed_start_differs(uint64_t answer)
{
    return (answer & 32U) != 0U;
}

static inline bool calmbaize_diagnosed_mode_differs(uint64_t answer)
{
    return (answer & 64U) != 0U;
}

static inline bool calmbaize_diagnosed_rounds_differ(uint64_t answer)
{
    return (answer & 128U) != 0U;
}

/*
 * The words that calmbaize_seal_run() and calmbaize_open_run() need: one for each
 * whole block of the longer of header and message, and 21. For lengths that these
 * calls take it is at most CALMBAIZE_RUN_WORDS_MAX. Keep the words private, and
 * overwrite them when done.
 */
static inline size_t calmbaize_run_words(size_t header_len, size_t message_len)
{
    return (header_len > message_len ? header_len : message_len) / CALMBAIZE_BLOCK_BYTES + 21U;
}

/*
 * Does what calmbaize_seal() does, with the same parcel, and takes all masks from
 * one run of words, which it makes in the words lent. It works on four blocks in a
 * turn, which the archive for x86-64-v3 gains from.
 *
 * What the words hold before does not matter. Success leaves the run in the first
 * calmbaize_run_words(header_len, input_len) of them, and the rest unchanged. The
 * masks are as secret as the key: keep the words private, and overwrite them when
 * done.
 *
 * Refused, in this order, with 1, 2, 3, 4, 5, 6, and 7 where the output is shorter
 * than the parcel or the words are fewer than the run; then no byte and no word
 * changes.
 */
CALMBAIZE_NODISCARD
uint64_t calmbaize_seal_run(uint32_t mode, uint32_t rounds,
                            const uint8_t *key, size_t key_len,
                            const uint8_t *nonce, size_t nonce_len,
                            const uint8_t *header, size_t header_len,
                            const uint8_t *input, size_t input_len,
                            uint8_t *output, size_t output_len,
                            uint64_t *words, size_t words_len);

/*
 * Does what calmbaize_open() does, and takes all masks from one run of words, as
 * calmbaize_seal_run() does.
 *
 * What the words hold before does not matter. Success leaves the run in the first
 * calmbaize_run_words(header_len, input_len - 32) of them, and the rest unchanged;
 * so does refusal 9. Keep the words private, and overwrite them when done. For an
 * input under 32 bytes, which is refused, any number of words will do.
 *
 * Refused, in this order, with 1, 2, 3, 4, 5, 8, 6, with 7 where the output is
 * shorter than the message or the words are fewer than the run, and with 9. On 9
 * the bytes that the message would have filled are zero and the rest is unchanged;
 * on every other refusal no byte and no word changes.
 */
CALMBAIZE_NODISCARD
uint64_t calmbaize_open_run(uint32_t mode, uint32_t rounds,
                            const uint8_t *key, size_t key_len,
                            const uint8_t *nonce, size_t nonce_len,
                            const uint8_t *header, size_t header_len,
                            const uint8_t *input, size_t input_len,
                            uint8_t *output, size_t output_len,
                            uint64_t *words, size_t words_len);

/*
 * Takes the steps of a list, one after the other, from a start block.
 *
 * Success writes the 128 bytes of the block reached and answers 128. The rest
 * of the output is unchanged. An empty list writes the start.
 *
 * Refused, in this order, with 10, 13, 12, 7; then no byte changes.
 */
CALMBAIZE_NODISCARD
uint64_t calmbaize_walk(const uint8_t *start, size_t start_len,
                        const uint8_t *steps, size_t steps_len,
                        uint8_t *output, size_t output_len);

/*
 * Takes net counts of alpha, beta and gamma steps from a start block, back
 * steps where a count is negative.
 *
 * Success writes the 128 bytes of the block reached and answers 128. The rest
 * of the output is unchanged.
 *
 * Refused, in this order, with 10, 11, 7; then no byte changes.
 */
CALMBAIZE_NODISCARD
uint64_t calmbaize_jump(const uint8_t *start, size_t start_len,
                        int32_t alpha, int32_t beta, int32_t gamma,
                        uint8_t *output, size_t output_len);

/*
 * The store: one lent buffer of 128 to 65,536 bytes, a multiple of 64, in cells
 * of 64 bytes, numbered from 0. Numbers stand low byte first.
 *
 *   cell 0     bytes 0, 1: the first sale's cell; bytes 2, 3: the first free
 *              cell; then zeros
 *   the others bytes 0, 1: the next cell in its chain, where 0 ends it; byte 2:
 *              the kind, 0 free, 1 sale with a clock or 2 sale with price and
 *              day; then 61 bytes, zero where free: nonce (16), sealed record
 *              (13), tag (32)
 *
 * The nonce is the machine number (4), the sale number (4) and a tail (8) that
 * the caller chooses. The record is the amount in cents (4), column (2) and means
 * (1); then, in a sale of kind 1, the clock (6), and in one of kind 2 the listed
 * price in cents (4) and the day number (2). Sealed record and tag are the parcel
 * that calmbaize_seal() writes for it under MRO with six rounds and an empty
 * header.
 *
 * The kind is not sealed. Where it is changed in the store's memory from 1 to 2,
 * a clock becomes price and day, and where from 2 to 1, a price is lost: no tag
 * tells. Amounts, means and the total do not depend on it.
 *
 * Every call but format checks the store's form, in this order:
 *
 *   18   the length
 *   19   the indices, as a walk from cell 0 meets them, the chain of sales first:
 *        none is past the last cell, or of a cell that was reached before in
 *        either chain. The place is the cell that holds the index. Cell 0 holds
 *        two: the first sale's is meant where it is past the last cell, else the
 *        first free cell's.
 *   20   where both walks end, the cells in their order from cell 1 on: each is
 *        in a chain, with kind 1 or 2 among sales and kind 0 among free cells. The
 *        place is the first cell that is not.
 *
 * What a free cell holds behind its kind, and cell 0 behind its two indices, is
 * not looked at.
 *
 * A sale is named by its machine and sale number. Where two in the chain of
 * sales have both alike, the first is meant.
 */

/*
 * Makes an empty store of a buffer, whatever it holds: all cells are free and
 * chained upward from 1.
 *
 * Success writes every byte of the store and answers 0.
 *
 * Refused with 18 for the length, and looks at nothing else; then no byte changes.
 */
CALMBAIZE_NODISCARD
uint64_t calmbaize_store_format(uint8_t *store, size_t store_len);

/*
 * Seals a sale of kind 2 into the first free cell and puts it first among the
 * sales. The amount is what was taken and the price what was shown; neither is
 * held against the other. Before version 0.8.0 this call took a clock in the place
 * of price and day: compile its callers anew.
 *
 * Success writes that cell and the two indices of cell 0, and answers the cell.
 * The rest of the store is unchanged. Where numbers come again, after a
 * cancellation, the tail should be another one: with the same nonce and record
 * the same bytes are sealed.
 *
 * Refused, in this order, with 3, 18, 19, 20, 16 where a sale with these numbers
 * is there, and 15; then no byte changes.
 */
CALMBAIZE_NODISCARD
uint64_t calmbaize_store_take(const uint8_t *key, size_t key_len,
                              uint8_t *store, size_t store_len,
                              uint32_t machine, uint32_t sale,
                              const uint8_t nonce_tail[CALMBAIZE_NONCE_TAIL_BYTES],
                              uint32_t amount, uint16_t column, uint8_t means,
                              uint32_t price, uint16_t day);

/*
 * Opens a sale of either kind, takes it out of the chain of sales and puts its
 * cell first among the free ones.
 *
 * Success zeroes the cell behind its next index, writes that index, the index
 * that led to the sale and the first free cell, and answers the amount, never the
 * price. The rest of the store is unchanged.
 *
 * Refused, in this order, with 3, 18, 19, 20, 16 where no sale has these numbers,
 * and 9 where it does not open, with its cell as the place; then no byte changes.
 */
CALMBAIZE_NODISCARD
uint64_t calmbaize_store_cancel(const uint8_t *key, size_t key_len,
                                uint8_t *store, size_t store_len,
                                uint32_t machine, uint32_t sale);

/*
 * Opens every sale, of both kinds, and adds up the amounts of those whose means is
 * coin.
 *
 * Success writes the sum, which may pass 2^32, to the total and answers 0. The
 * store is unchanged.
 *
 * Refused, in this order, with 3, 18, 19, 20, and 9 where a sale, coin or not,
 * does not open, with the cell of the first such in the chain as the place; then
 * the total is unchanged.
 */
CALMBAIZE_NODISCARD
uint64_t calmbaize_store_total(const uint8_t *key, size_t key_len,
                               const uint8_t *store, size_t store_len,
                               uint64_t *total);

/*
 * Finds a sale, and opens nothing. It takes no key, so that it also serves to
 * check a store's form: any answer but 18, 19 and 20 says that it is right.
 *
 * Success answers the offset in the store at which its 61 bytes begin: nonce,
 * sealed record and tag. Its kind, by which the record is read, is the byte before
 * them. The store is unchanged.
 *
 * Refused, in this order, with 18, 19, 20, and 16 where no sale has these numbers.
 */
CALMBAIZE_NODISCARD
uint64_t calmbaize_store_read(const uint8_t *store, size_t store_len,
                              uint32_t machine, uint32_t sale);

/*
 * Opens a sale and tells its amount and its listed price, for a refund.
 *
 * Success answers the sale's kind. Where that is CALMBAIZE_KIND_PRICED, the amount
 * and the price are written, which may be 0; where it is CALMBAIZE_KIND_UNPRICED,
 * there is no price: the amount is written, and the price is unchanged, so look at
 * the answer first. Neither pointer may be null. The store is unchanged.
 *
 * The tag covers the amount and the record's last six bytes, and not the kind: that
 * these are a price, or a clock, rests on the store's memory.
 *
 * Refused as calmbaize_store_cancel() is; then amount and price are unchanged.
 */
CALMBAIZE_NODISCARD
uint64_t calmbaize_store_look_up(const uint8_t *key, size_t key_len,
                                 const uint8_t *store, size_t store_len,
                                 uint32_t machine, uint32_t sale,
                                 uint32_t *amount, uint32_t *price);

#ifdef __cplusplus
}
#endif

#endif
