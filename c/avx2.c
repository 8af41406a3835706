#include "avx2.h"

#ifdef __AVX2__

#include "run.h"

#include <immintrin.h>

/* The longest message has 512 blocks: a word of the masks for each, and sixteen. */
enum { FOUR = 4 * BLOCK, MASK_WORDS = 512 + WORDS };

/* Vectors of four words. */

static inline __m256i load4(const uint64_t *p)
{
    return _mm256_loadu_si256((const __m256i *)p);
}

static inline void store4(uint64_t *p, __m256i x)
{
    _mm256_storeu_si256((__m256i *)p, x);
}

static inline __m256i xor4(__m256i a, __m256i b)
{
    return _mm256_xor_si256(a, b);
}

static inline __m256i add4(__m256i a, __m256i b)
{
    return _mm256_add_epi64(a, b);
}

static inline __m256i sub4(__m256i a, __m256i b)
{
    return _mm256_sub_epi64(a, b);
}

/* Rotations to the right; n is a constant. */

static inline __m256i ror_bits(__m256i x, int n)
{
    return _mm256_or_si256(_mm256_srli_epi64(x, n), _mm256_slli_epi64(x, 64 - n));
}

/* A shuffle, so that it takes one instruction. */
static inline __m256i ror_bytes(__m256i x, int n)
{
    uint64_t low = rotr(0x0706050403020100, 8 * n);
    uint64_t high = low + 0x0808080808080808;

    return _mm256_shuffle_epi8(
        x, _mm256_setr_epi64x((int64_t)low, (int64_t)high, (int64_t)low, (int64_t)high));
}

static inline __m256i ror32(__m256i x)
{
    return _mm256_shuffle_epi32(x, 0xb1);
}

/* A sum can use one port more than a shift. */
static inline __m256i ror63(__m256i x)
{
    return _mm256_or_si256(_mm256_srli_epi64(x, 63), add4(x, x));
}

/* The permutation of four blocks: s[i] has word i of each. */

static inline void g4(__m256i s[WORDS], int a, int b, int c, int d)
{
    s[a] = add4(s[a], s[b]);
    s[d] = ror32(xor4(s[d], s[a]));
    s[c] = add4(s[c], s[d]);
    s[b] = ror_bytes(xor4(s[b], s[c]), 3);
    s[a] = add4(s[a], s[b]);
    s[d] = ror_bytes(xor4(s[d], s[a]), 2);
    s[c] = add4(s[c], s[d]);
    s[b] = ror63(xor4(s[b], s[c]));
}

static inline void ung4(__m256i s[WORDS], int a, int b, int c, int d)
{
    s[b] = xor4(ror_bits(s[b], 1), s[c]);
    s[c] = sub4(s[c], s[d]);
    s[d] = xor4(ror_bytes(s[d], 6), s[a]);
    s[a] = sub4(s[a], s[b]);
    s[b] = xor4(ror_bytes(s[b], 5), s[c]);
    s[c] = sub4(s[c], s[d]);
    s[d] = xor4(ror32(s[d]), s[a]);
    s[a] = sub4(s[a], s[b]);
}

/* The diagonals begin with the one whose second word, which is needed first, is ready first. */
static inline void permute4(uint32_t rounds, __m256i s[WORDS])
{
    uint32_t r = 0;

    do {
        g4(s, 0, 4, 8, 12);
        g4(s, 1, 5, 9, 13);
        g4(s, 2, 6, 10, 14);
        g4(s, 3, 7, 11, 15);
        g4(s, 3, 4, 9, 14);
        g4(s, 0, 5, 10, 15);
        g4(s, 1, 6, 11, 12);
        g4(s, 2, 7, 8, 13);
    } while (++r < rounds);
}

static inline void unpermute4(uint32_t rounds, __m256i s[WORDS])
{
    uint32_t r = 0;

    do {
        ung4(s, 3, 4, 9, 14);
        ung4(s, 2, 7, 8, 13);
        ung4(s, 1, 6, 11, 12);
        ung4(s, 0, 5, 10, 15);
        ung4(s, 3, 7, 11, 15);
        ung4(s, 2, 6, 10, 14);
        ung4(s, 1, 5, 9, 13);
        ung4(s, 0, 4, 8, 12);
    } while (++r < rounds);
}

/*
 * Four blocks go from memory into a state, each word under its mask, and back. Between the two
 * stand pairs of words, one of blocks 0 and 2 and one of blocks 1 and 3: halves of vectors need no
 * shuffle to go from or to memory. The sum, where there is one, takes in blocks 0 and 1 in one half
 * of each vector, and blocks 2 and 3 in the other.
 */

static inline __m256i load_halves(const uint8_t *p)
{
    __m128i low = _mm_loadu_si128((const __m128i *)p);
    __m128i high = _mm_loadu_si128((const __m128i *)(p + 2 * BLOCK));

    return _mm256_inserti128_si256(_mm256_castsi128_si256(low), high, 1);
}

static inline void store_halves(uint8_t *p, __m256i x)
{
    _mm_storeu_si128((__m128i *)p, _mm256_castsi256_si128(x));
    _mm_storeu_si128((__m128i *)(p + 2 * BLOCK), _mm256_extracti128_si256(x, 1));
}

static inline void add_to_sum(__m256i *sum, __m256i even, __m256i odd)
{
    *sum = xor4(*sum, xor4(even, odd));
}

static inline void load_four(__m256i s[WORDS], const uint64_t *masks, const uint8_t *p,
                             __m256i *sum)
{
    for (int i = 0; i < WORDS; i += 2, p += 16) {
        __m256i even = load_halves(p), odd = load_halves(p + BLOCK);
        if (sum != NULL)
            add_to_sum(sum + i / 2, even, odd);
        s[i] = xor4(_mm256_unpacklo_epi64(even, odd), load4(masks + i));
        s[i + 1] = xor4(_mm256_unpackhi_epi64(even, odd), load4(masks + i + 1));
    }
}

static inline void store_four(uint8_t *p, const uint64_t *masks, const __m256i s[WORDS],
                              __m256i *sum)
{
    for (int i = 0; i < WORDS; i += 2, p += 16) {
        __m256i a = xor4(s[i], load4(masks + i)), b = xor4(s[i + 1], load4(masks + i + 1));
        __m256i even = _mm256_unpacklo_epi64(a, b), odd = _mm256_unpackhi_epi64(a, b);
        if (sum != NULL)
            add_to_sum(sum + i / 2, even, odd);
        store_halves(p, even);
        store_halves(p + BLOCK, odd);
    }
}

/* Adds both halves of the sum to check. */
static inline void sum_halves(uint64_t check[WORDS], const __m256i sum[WORDS / 2])
{
    uint64_t words[4];

    for (int i = 0; i < WORDS; i += 2) {
        store4(words, sum[i / 2]);
        check[i] ^= words[0] ^ words[2];
        check[i + 1] ^= words[1] ^ words[3];
    }
}

/* Masks. */

/* The run of count words, as grow_run makes it, four words at a time. */
static void grow4(uint64_t *words, size_t count, const uint64_t start[WORDS])
{
    __m256i a = load4(start), b = load4(start + 4), c = load4(start + 8), d = load4(start + 12);
    size_t n = WORDS;

    memcpy(words, start, BLOCK);
    for (; n + 4 <= count; n += 4) {
        __m256i from_5 = _mm256_permute4x64_epi64(_mm256_blend_epi32(b, c, 0x03), 0x39);
        __m256i next = xor4(ror_bits(a, 11), _mm256_slli_epi64(from_5, 13));
        store4(words + n, next);
        a = b, b = c, c = d, d = next;
    }
    /* No word behind the run is the call's to write. */
    for (; n < count; n++)
        words[n] = next_word(words + n - WORDS);
}

/*
 * The words of the masks (i, 0, 1), made once, so that a word of a mask takes one load. Words n to
 * n + 15 are the mask of block n, so the four from n + i on are word i of the masks of four blocks.
 */
static void gammas(uint64_t masks[MASK_WORDS], const uint64_t *words, size_t count)
{
    for (size_t n = 0; n < count; n++)
        masks[n] = words[n] ^ words[n + 1] ^ words[n + 2];
}

/* OPP. */

static inline void opp_four(int opening, uint32_t rounds, const uint64_t *masks, const uint8_t *in,
                            uint8_t *out, __m256i sum[WORDS / 2])
{
    __m256i s[WORDS];

    load_four(s, masks, in, opening ? NULL : sum);
    if (opening)
        unpermute4(rounds, s);
    else
        permute4(rounds, s);
    store_four(out, masks, s, opening ? sum : NULL);
}

static inline void opp_one(int opening, uint32_t rounds, const uint64_t *masks, const uint8_t *in,
                           uint8_t *out, uint64_t check[WORDS])
{
    uint64_t block[WORDS];

    load(block, in);
    if (!opening) {
        xor_into(check, block);
        encrypt(rounds, masks, block);
    } else {
        decrypt(rounds, masks, block);
        xor_into(check, block);
    }
    store(out, block);
}

static inline void opp(int opening, uint32_t rounds, const uint64_t *masks, const uint8_t *in,
                       uint8_t *out, size_t len, uint64_t tag[WORDS])
{
    __m256i sum[WORDS / 2] = {0};
    uint64_t m[WORDS], check[WORDS] = {0};

    for (; len >= FOUR; len -= FOUR, in += FOUR, out += FOUR, masks += 4)
        opp_four(opening, rounds, masks, in, out, sum);
    sum_halves(check, sum);
    for (; len >= BLOCK; len -= BLOCK, in += BLOCK, out += BLOCK, masks++)
        opp_one(opening, rounds, masks, in, out, check);
    memcpy(m, masks, BLOCK);
    opp_finish(rounds, m, in, out, len, opening, check);
    xor_into(tag, check);
}

/*
 * Makes the run, adds what the header gives to the tag, and makes the masks for a message of len
 * bytes.
 */
static void begin(uint32_t rounds, const uint8_t *key, const uint8_t *nonce, const uint8_t *header,
                  size_t header_len, size_t len, uint64_t *words, uint64_t masks[MASK_WORDS],
                  uint64_t tag[WORDS])
{
    uint64_t start[WORDS];

    start_block(0, start, rounds, key, nonce);
    grow4(words, run_words(header_len, len), start);
    absorb_run(OPP, rounds, words, ALPHA, header, header_len, tag);
    gammas(masks, words, len / BLOCK + WORDS);
}

/*
 * What opening answers. A mask goes over all bytes of the message, whether the tag at given differs
 * and they are cleared or not: in the library's call the tag decides no branch, and what that is
 * measured against pays for the same. The mask is read back from memory, since a compiler that sees
 * how it is made may make a branch of it.
 */
static uint64_t judged(const uint8_t *given, const uint64_t tag[4], uint8_t *output, size_t len)
{
    volatile uint64_t right = (uint64_t)tag_differs(given, tag) - 1;
    uint64_t kept = right;

    for (size_t n = 0; n < len; n++)
        output[n] &= (uint8_t)kept;
    return (len & kept) | (refuse(9, 0) & ~kept);
}

uint64_t avx2_opp_seal_run(uint32_t mode, uint32_t rounds, const uint8_t *key, size_t key_len,
                           const uint8_t *nonce, size_t nonce_len, const uint8_t *header,
                           size_t header_len, const uint8_t *input, size_t input_len,
                           uint8_t *output, size_t output_len, uint64_t *words, size_t words_len)
{
    uint64_t masks[MASK_WORDS], tag[WORDS] = {0};
    uint64_t refusal =
        baseline_check_message(mode, rounds, key_len, nonce_len, header_len, input_len);

    if (mode != OPP)
        return refuse(1, 0);
    if (refusal != 0)
        return refusal;
    if (output_len < input_len + TAG || words_len < run_words(header_len, input_len))
        return refuse(7, 0);

    begin(rounds, key, nonce, header, header_len, input_len, words, masks, tag);
    opp(0, rounds, masks, input, output, input_len, tag);
    store_tag(output + input_len, tag);
    return input_len + TAG;
}

uint64_t avx2_opp_open_run(uint32_t mode, uint32_t rounds, const uint8_t *key, size_t key_len,
                           const uint8_t *nonce, size_t nonce_len, const uint8_t *header,
                           size_t header_len, const uint8_t *input, size_t input_len,
                           uint8_t *output, size_t output_len, uint64_t *words, size_t words_len)
{
    uint64_t masks[MASK_WORDS], tag[WORDS] = {0};
    uint64_t refusal =
        baseline_check_parcel(mode, rounds, key_len, nonce_len, header_len, input_len);
    size_t len = input_len - TAG;

    if (mode != OPP)
        return refuse(1, 0);
    if (refusal != 0)
        return refusal;
    if (output_len < len || words_len < run_words(header_len, len))
        return refuse(7, 0);

    begin(rounds, key, nonce, header, header_len, len, words, masks, tag);
    opp(1, rounds, masks, input, output, len, tag);
    return judged(input + len, tag, output, len);
}

#endif
