#include "sealing.h"

enum { RUN = 16 };
enum { MAX_HEADER = 4096, MAX_MESSAGE = 65536, MAX_STEPS = 4096, MAX_COUNT = 65536 };

/* The round counts that seal and open take. */
enum { COUNTS = 4 };
static const uint32_t ROUNDS[COUNTS] = {4, 6, 8, 12};

/* The settings of a parcel: two starts, two modes and the round counts. */
enum { SETTINGS = 2 * 2 * COUNTS };

void baseline_permute(uint32_t rounds, uint64_t s[16])
{
    if (rounds > 0)
        permute(rounds, s);
}

/* Steps. */

static inline void alpha(uint64_t m[WORDS])
{
    uint64_t last = next_word(m);

    for (int i = 0; i < WORDS - 1; i++)
        m[i] = m[i + 1];
    m[WORDS - 1] = last;
}

/* Masks. */

/*
 * Consecutive masks overlap in a run of words, so that an alpha step adds one word and moves none.
 * The run grows well ahead of its use: a word just written is slow to read as part of a vector.
 */
struct masks {
    uint64_t run[RUN + WORDS];
    size_t at;
};

static inline uint64_t *mask(struct masks *masks)
{
    return masks->run + masks->at;
}

/* The mask (0, b, g) of start. */
static void first_mask(struct masks *masks, const uint64_t start[WORDS], int b, int g)
{
    masks->at = RUN;
    mask_of(mask(masks), start, b, g);
}

static inline void next_mask(struct masks *masks)
{
    if (masks->at == RUN) {
        memcpy(masks->run, masks->run + RUN, BLOCK);
        for (int i = 0; i < RUN; i++)
            masks->run[WORDS + i] = next_word(masks->run + i);
        masks->at = 0;
    }
    masks->at++;
}

/* Adds E of the whole blocks at p to sum, each under its mask, and steps the masks past them. */
static void absorb_whole(uint32_t rounds, struct masks *masks, const uint8_t *p, size_t blocks,
                         uint64_t sum[WORDS])
{
    uint64_t block[WORDS];

    for (; blocks > 0; blocks--, p += BLOCK) {
        load(block, p);
        encrypt(rounds, mask(masks), block);
        xor_into(sum, block);
        next_mask(masks);
    }
}

/* Adds E of all of p to sum, from the mask (0, b, 0) on. */
static inline void absorb(uint32_t mode, uint32_t rounds, const uint64_t start[WORDS], int b,
                          const uint8_t *p, size_t len, uint64_t sum[WORDS])
{
    struct masks masks;
    size_t blocks = len / BLOCK;

    first_mask(&masks, start, b, 0);
    absorb_whole(rounds, &masks, p, blocks, sum);
    absorb_leftover(mode, rounds, mask(&masks), p + blocks * BLOCK, len % BLOCK, sum);
}

/* OPP. */

static void opp_seal(uint32_t rounds, const uint64_t start[WORDS], const uint8_t *in, uint8_t *out,
                     size_t len, uint64_t tag[WORDS])
{
    struct masks masks;
    uint64_t block[WORDS], check[WORDS] = {0};

    first_mask(&masks, start, 0, 1);
    for (; len >= BLOCK; len -= BLOCK, in += BLOCK, out += BLOCK) {
        load(block, in);
        xor_into(check, block);
        encrypt(rounds, mask(&masks), block);
        store(out, block);
        next_mask(&masks);
    }
    opp_finish(rounds, mask(&masks), in, out, len, 0, check);
    xor_into(tag, check);
}

/* Each block goes stride bytes behind the one before: 0 where only the tag is wanted. */
static void opp_open(uint32_t rounds, const uint64_t start[WORDS], const uint8_t *in, uint8_t *out,
                     size_t stride, size_t len, uint64_t tag[WORDS])
{
    struct masks masks;
    uint64_t block[WORDS], check[WORDS] = {0};

    first_mask(&masks, start, 0, 1);
    for (; len >= BLOCK; len -= BLOCK, in += BLOCK, out += stride) {
        load(block, in);
        decrypt(rounds, mask(&masks), block);
        xor_into(check, block);
        store(out, block);
        next_mask(&masks);
    }
    opp_finish(rounds, mask(&masks), in, out, len, 1, check);
    xor_into(tag, check);
}

/* MRO. */

static void mro_tag(uint32_t rounds, const uint64_t start[WORDS], const uint8_t *header,
                    size_t header_len, const uint8_t *message, size_t len, uint64_t tag[WORDS])
{
    absorb(MRO, rounds, start, 0, header, header_len, tag);
    absorb(MRO, rounds, start, 1, message, len, tag);
    mro_finish(rounds, start, header_len, len, tag);
}

/* Decrypts under the tag that came behind the ciphertext, and makes the tag of what that gives. */
static void mro_open(uint32_t rounds, const uint64_t start[WORDS], const uint8_t *header,
                     size_t header_len, const uint8_t *in, uint8_t *out, size_t len,
                     uint64_t tag[WORDS])
{
    uint64_t given[4];

    load_tag(given, in + len);
    mro_stream(rounds, start, given, in, out, len);
    mro_tag(rounds, start, header, header_len, out, len, tag);
}

/* Makes the tag that mro_open() makes, and writes no message. */
static void mro_judge(uint32_t rounds, const uint64_t start[WORDS], const uint8_t *header,
                      size_t header_len, const uint8_t *in, size_t len, uint64_t tag[WORDS])
{
    struct masks stream, masks;
    uint64_t given[4], block[WORDS], text[WORDS];
    size_t blocks = len / BLOCK, leftover = len % BLOCK;

    load_tag(given, in + len);
    absorb(MRO, rounds, start, 0, header, header_len, tag);
    first_mask(&stream, start, 0, 1);
    first_mask(&masks, start, 1, 0);
    for (size_t i = 0; i < blocks; i++, in += BLOCK) {
        stream_block(rounds, mask(&stream), given, i, block);
        load(text, in);
        xor_into(block, text);
        encrypt(rounds, mask(&masks), block);
        xor_into(tag, block);
        next_mask(&masks);
    }
    if (leftover > 0) {
        uint8_t bytes[BLOCK] = {0};
        stream_block(rounds, mask(&stream), given, blocks, block);
        xor_bytes(bytes, in, block, leftover);
        load(block, bytes);
        encrypt(rounds, mask(&masks), block);
        xor_into(tag, block);
    }
    mro_finish(rounds, start, header_len, len, tag);
}

/* Sealing and opening. */

/* The place of a round count among those allowed; COUNTS where it is not. */
static uint32_t place_of(uint32_t rounds)
{
    uint32_t i = 0;

    while (i < COUNTS && rounds != ROUNDS[i])
        i++;
    return i;
}

static uint64_t check_settings(uint32_t mode, uint32_t rounds, size_t key_len, size_t nonce_len,
                               size_t header_len)
{
    if (mode != OPP && mode != MRO)
        return refuse(1, 0);
    if (place_of(rounds) == COUNTS)
        return refuse(2, 0);
    if (key_len != KEY)
        return refuse(3, 0);
    if (nonce_len != NONCE)
        return refuse(4, 0);
    if (header_len > MAX_HEADER)
        return refuse(5, 0);
    return 0;
}

uint64_t baseline_check_message(uint32_t mode, uint32_t rounds, size_t key_len, size_t nonce_len,
                                size_t header_len, size_t input_len)
{
    uint64_t refusal = check_settings(mode, rounds, key_len, nonce_len, header_len);

    if (refusal != 0)
        return refusal;
    if (input_len > MAX_MESSAGE)
        return refuse(6, 0);
    return 0;
}

uint64_t baseline_check_parcel(uint32_t mode, uint32_t rounds, size_t key_len, size_t nonce_len,
                               size_t header_len, size_t input_len)
{
    uint64_t refusal = check_settings(mode, rounds, key_len, nonce_len, header_len);

    if (refusal != 0)
        return refusal;
    if (input_len < TAG)
        return refuse(8, 0);
    if (input_len - TAG > MAX_MESSAGE)
        return refuse(6, 0);
    return 0;
}

/* The parcel of the len bytes of input, which may be the output. */
static void seal_parcel(uint32_t mode, uint32_t rounds, const uint64_t start[WORDS],
                        const uint8_t *header, size_t header_len, const uint8_t *input, size_t len,
                        uint8_t *output)
{
    uint64_t tag[WORDS] = {0};

    if (mode == OPP) {
        absorb(OPP, rounds, start, 0, header, header_len, tag);
        opp_seal(rounds, start, input, output, len, tag);
    } else {
        mro_tag(rounds, start, header, header_len, input, len, tag);
        mro_stream(rounds, start, tag, input, output, len);
    }
    store_tag(output + len, tag);
}

static uint64_t seal_from(int old, uint32_t mode, uint32_t rounds, const uint8_t *key,
                          size_t key_len, const uint8_t *nonce, size_t nonce_len,
                          const uint8_t *header, size_t header_len, const uint8_t *input,
                          size_t input_len, uint8_t *output, size_t output_len)
{
    uint64_t start[WORDS];
    uint64_t refusal =
        baseline_check_message(mode, rounds, key_len, nonce_len, header_len, input_len);

    if (refusal != 0)
        return refusal;
    if (output_len < input_len + TAG)
        return refuse(7, 0);

    start_block(old, start, rounds, key, nonce);
    seal_parcel(mode, rounds, start, header, header_len, input, input_len, output);
    return input_len + TAG;
}

uint64_t baseline_seal(uint32_t mode, uint32_t rounds, const uint8_t *key, size_t key_len,
                       const uint8_t *nonce, size_t nonce_len, const uint8_t *header,
                       size_t header_len, const uint8_t *input, size_t input_len, uint8_t *output,
                       size_t output_len)
{
    return seal_from(0, mode, rounds, key, key_len, nonce, nonce_len, header, header_len, input,
                     input_len, output, output_len);
}

uint64_t baseline_seal_old(uint32_t mode, uint32_t rounds, const uint8_t *key, size_t key_len,
                           const uint8_t *nonce, size_t nonce_len, const uint8_t *header,
                           size_t header_len, const uint8_t *input, size_t input_len,
                           uint8_t *output, size_t output_len)
{
    return seal_from(1, mode, rounds, key, key_len, nonce, nonce_len, header, header_len, input,
                     input_len, output, output_len);
}

static uint64_t open_from(int old, uint32_t mode, uint32_t rounds, const uint8_t *key,
                          size_t key_len, const uint8_t *nonce, size_t nonce_len,
                          const uint8_t *header, size_t header_len, const uint8_t *input,
                          size_t input_len, uint8_t *output, size_t output_len)
{
    uint64_t start[WORDS], tag[WORDS] = {0};
    uint64_t refusal =
        baseline_check_parcel(mode, rounds, key_len, nonce_len, header_len, input_len);
    size_t len = input_len - TAG;

    if (refusal != 0)
        return refusal;
    if (output_len < len)
        return refuse(7, 0);

    start_block(old, start, rounds, key, nonce);
    if (mode == OPP) {
        absorb(OPP, rounds, start, 0, header, header_len, tag);
        opp_open(rounds, start, input, output, BLOCK, len, tag);
    } else {
        mro_open(rounds, start, header, header_len, input, output, len, tag);
    }
    return opened(input + len, tag, output, len);
}

uint64_t baseline_open(uint32_t mode, uint32_t rounds, const uint8_t *key, size_t key_len,
                       const uint8_t *nonce, size_t nonce_len, const uint8_t *header,
                       size_t header_len, const uint8_t *input, size_t input_len, uint8_t *output,
                       size_t output_len)
{
    return open_from(0, mode, rounds, key, key_len, nonce, nonce_len, header, header_len, input,
                     input_len, output, output_len);
}

uint64_t baseline_open_old(uint32_t mode, uint32_t rounds, const uint8_t *key, size_t key_len,
                           const uint8_t *nonce, size_t nonce_len, const uint8_t *header,
                           size_t header_len, const uint8_t *input, size_t input_len,
                           uint8_t *output, size_t output_len)
{
    return open_from(1, mode, rounds, key, key_len, nonce, nonce_len, header, header_len, input,
                     input_len, output, output_len);
}

/* Converting. */

/* Whether the parcel of a message of len bytes opens; nothing is written. */
static int opens(uint32_t mode, uint32_t rounds, const uint64_t start[WORDS], const uint8_t *header,
                 size_t header_len, const uint8_t *input, size_t len)
{
    uint64_t tag[WORDS] = {0};
    uint8_t block[BLOCK];

    if (mode == OPP) {
        absorb(OPP, rounds, start, 0, header, header_len, tag);
        opp_open(rounds, start, input, block, 0, len, tag);
    } else {
        mro_judge(rounds, start, header, header_len, input, len, tag);
    }
    return !tag_differs(input + len, tag);
}

/* The message of a parcel that opens. */
static void decrypt_parcel(uint32_t mode, uint32_t rounds, const uint64_t start[WORDS],
                           const uint8_t *input, size_t len, uint8_t *output)
{
    uint64_t tag[WORDS] = {0};

    if (mode == OPP) {
        opp_open(rounds, start, input, output, BLOCK, len, tag);
    } else {
        load_tag(tag, input + len);
        mro_stream(rounds, start, tag, input, output, len);
    }
}

/* The output is written only where the parcel is known to open, since a refusal leaves it as it was. */
uint64_t baseline_convert(uint32_t mode, uint32_t rounds, const uint8_t *key, size_t key_len,
                          const uint8_t *nonce, size_t nonce_len, const uint8_t *header,
                          size_t header_len, const uint8_t *input, size_t input_len,
                          uint8_t *output, size_t output_len)
{
    uint64_t old_start[WORDS], new_start[WORDS];
    uint64_t refusal =
        baseline_check_parcel(mode, rounds, key_len, nonce_len, header_len, input_len);
    size_t len = input_len - TAG;

    if (refusal != 0)
        return refusal;
    if (output_len < input_len)
        return refuse(7, 0);

    start_block(1, old_start, rounds, key, nonce);
    start_block(0, new_start, rounds, key, nonce);
    if (!opens(mode, rounds, old_start, header, header_len, input, len)) {
        if (opens(mode, rounds, new_start, header, header_len, input, len))
            return refuse(17, 0);
        return refuse(9, 0);
    }
    decrypt_parcel(mode, rounds, old_start, input, len, output);
    seal_parcel(mode, rounds, new_start, header, header_len, output, len, output);
    return input_len;
}

/* Diagnosing. */

/* A parcel, what it is tried with, and the starts made so far, whose bits are set in made. */
struct trial {
    const uint8_t *key, *nonce, *header, *input;
    size_t header_len, len;
    uint64_t starts[2 * COUNTS][WORDS];
    uint32_t made;
};

/* The start of setting n. Both modes share it. */
static const uint64_t *start_of(struct trial *trial, uint32_t n)
{
    uint32_t rounds = n % COUNTS, old = n / (2 * COUNTS), i = old * COUNTS + rounds;

    if ((trial->made >> i & 1) == 0) {
        start_block(old, trial->starts[i], ROUNDS[rounds], trial->key, trial->nonce);
        trial->made |= (uint32_t)1 << i;
    }
    return trial->starts[i];
}

/* Whether the parcel opens under setting n: new start before old, then OPP before MRO, then by rounds. */
static int opens_under(struct trial *trial, uint32_t n)
{
    return opens(n / COUNTS % 2 == 0 ? OPP : MRO, ROUNDS[n % COUNTS], start_of(trial, n),
                 trial->header, trial->header_len, trial->input, trial->len);
}

/* What the bits in which the numbers of two settings differ say: 1 for the start, 2 mode, 4 rounds. */
static uint32_t differing(uint32_t bits)
{
    return bits / (2 * COUNTS) + 2 * (bits / COUNTS % 2) + 4 * (bits % COUNTS != 0);
}

uint64_t baseline_diagnose(bool old_start, uint32_t mode, uint32_t rounds, const uint8_t *key,
                           size_t key_len, const uint8_t *nonce, size_t nonce_len,
                           const uint8_t *header, size_t header_len, const uint8_t *input,
                           size_t input_len)
{
    struct trial trial = {key, nonce, header, input, header_len, input_len - TAG, {{0}}, 0};
    uint32_t asked = COUNTS * (2 * old_start + mode - OPP) + place_of(rounds);
    uint64_t refusal =
        baseline_check_parcel(mode, rounds, key_len, nonce_len, header_len, input_len);

    if (refusal != 0)
        return refusal;
    if (opens_under(&trial, asked))
        return 0;
    for (uint32_t n = 0; n < SETTINGS; n++)
        if (n != asked && opens_under(&trial, n))
            return 1 + n + 32 * differing(n ^ asked);
    return 255;
}

/* Back steps. */

/* Columns of a linear map on one or two words: entry k is the image of bit k. */
typedef uint64_t columns[128][2];

struct inverses {
    columns beta, gamma;
};

static inline uint64_t bit(const uint64_t x[2], int k)
{
    return x[k / 64] >> k % 64 & 1;
}

/* Adds column j to column k in both. */
static void add_column(columns map, columns inverse, int k, int j)
{
    for (int w = 0; w < 2; w++) {
        map[k][w] ^= map[j][w];
        inverse[k][w] ^= inverse[j][w];
    }
}

/* Gauss-Jordan elimination over the columns of a map of n bits. */
static void invert(columns map, columns inverse, int n)
{
    for (int k = 0; k < n; k++) {
        inverse[k][0] = k < 64 ? (uint64_t)1 << k : 0;
        inverse[k][1] = k < 64 ? 0 : (uint64_t)1 << (k - 64);
    }
    for (int k = 0; k < n; k++) {
        int pivot = k;
        while (!bit(map[pivot], k))
            pivot++;
        if (pivot != k)
            add_column(map, inverse, k, pivot);
        for (int j = 0; j < n; j++)
            if (j != k && bit(map[j], k))
                add_column(map, inverse, j, k);
    }
}

static void build_inverses(struct inverses *inverses)
{
    columns map = {{0}};

    for (int k = 0; k < 64; k++) {
        uint64_t x = (uint64_t)1 << k;
        map[k][0] = rotl(x, 53) ^ x << 13 ^ x;
    }
    invert(map, inverses->beta, 64);
    for (int k = 0; k < 64; k++) {
        uint64_t x = (uint64_t)1 << k;
        map[k][0] = rotl(x, 53) ^ x << 13;
        map[k][1] = rotl(x, 53) ^ x;
        map[k + 64][0] = x << 13 ^ x;
        map[k + 64][1] = rotl(x, 53) ^ x << 13;
    }
    invert(map, inverses->gamma, 128);
}

static inline void apply(columns map, const uint64_t x[2], int n, uint64_t y[2])
{
    y[0] = y[1] = 0;
    for (int k = 0; k < n; k++) {
        uint64_t select = -bit(x, k);
        y[0] ^= map[k][0] & select;
        y[1] ^= map[k][1] & select;
    }
}

static void alpha_back(uint64_t m[WORDS])
{
    uint64_t first = rotr(m[15] ^ m[4] << 13, 53);

    for (int i = WORDS - 1; i > 0; i--)
        m[i] = m[i - 1];
    m[0] = first;
}

/* Word i of the answer is its word 0 xor c[i], so the last equation has one unknown word. */
static void beta_back(struct inverses *inverses, uint64_t m[WORDS])
{
    uint64_t c[WORDS], x[2];

    c[0] = 0;
    for (int i = 0; i < WORDS - 1; i++)
        c[i + 1] = c[i] ^ m[i];
    apply(inverses->beta, (uint64_t[2]){m[15] ^ c[15] ^ c[5] << 13, 0}, 64, x);
    for (int i = 0; i < WORDS; i++)
        m[i] = c[i] ^ x[0];
}

/*
 * Words 0 and 1 of the answer give the others one by one. c is what they would be from two zero
 * words; the last two equations then have words 0 and 1 as their unknowns.
 */
static void gamma_back(struct inverses *inverses, uint64_t m[WORDS])
{
    uint64_t c[WORDS], x[2];

    c[0] = c[1] = 0;
    for (int i = 0; i < WORDS - 2; i++)
        c[i + 2] = m[i] ^ c[i] ^ c[i + 1];
    uint64_t y0 = m[14] ^ c[14] ^ c[15] ^ c[5] << 13;
    uint64_t y1 = m[15] ^ c[15] ^ c[5] << 13 ^ c[6] << 13;
    apply(inverses->gamma, (uint64_t[2]){y0, y1}, 128, x);
    uint64_t third[3] = {x[0], x[1], x[0] ^ x[1]};
    for (int i = 0; i < WORDS; i++)
        m[i] = c[i] ^ third[i % 3];
}

/* Walking and jumping. */

static void take_step(struct inverses *inverses, uint64_t m[WORDS], int step)
{
    switch (step) {
    case 1:
        alpha(m);
        break;
    case 2:
        beta(m);
        break;
    case 3:
        gamma_step(m);
        break;
    case 4:
        alpha_back(m);
        break;
    case 5:
        beta_back(inverses, m);
        break;
    default:
        gamma_back(inverses, m);
    }
}

uint64_t baseline_walk(const uint8_t *start, size_t start_len, const uint8_t *steps,
                       size_t steps_len, uint8_t *output, size_t output_len)
{
    struct inverses inverses;
    uint64_t m[WORDS];
    int solving = 0;

    if (start_len != BLOCK)
        return refuse(10, 0);
    if (steps_len > MAX_STEPS)
        return refuse(13, 0);
    for (size_t i = 0; i < steps_len; i++) {
        if (steps[i] < 1 || steps[i] > 6)
            return refuse(12, (uint32_t)i);
        solving |= steps[i] > 4;
    }
    if (output_len < BLOCK)
        return refuse(7, 0);

    if (solving)
        build_inverses(&inverses);
    load(m, start);
    for (size_t i = 0; i < steps_len; i++)
        take_step(&inverses, m, steps[i]);
    store(output, m);
    return BLOCK;
}

uint64_t baseline_jump(const uint8_t *start, size_t start_len, int32_t alpha, int32_t beta,
                       int32_t gamma, uint8_t *output, size_t output_len)
{
    const int32_t counts[3] = {alpha, beta, gamma};
    struct inverses inverses;
    uint64_t m[WORDS];

    if (start_len != BLOCK)
        return refuse(10, 0);
    for (int i = 0; i < 3; i++)
        if (counts[i] < -MAX_COUNT || counts[i] > MAX_COUNT)
            return refuse(11, 0);
    if (output_len < BLOCK)
        return refuse(7, 0);

    if (beta < 0 || gamma < 0)
        build_inverses(&inverses);
    load(m, start);
    for (int i = 0; i < 3; i++) {
        int32_t count = counts[i] < 0 ? -counts[i] : counts[i];
        int step = counts[i] < 0 ? i + 4 : i + 1;
        for (; count > 0; count--)
            take_step(&inverses, m, step);
    }
    store(output, m);
    return BLOCK;
}
