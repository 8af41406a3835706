/* What the scalar C version's files that seal and open share. */
#ifndef SEALING_H
#define SEALING_H

#include "internal.h"

#include <string.h>

enum { WORDS = 16, BLOCK = 128 };

/* Words and blocks. */

static inline uint64_t rotl(uint64_t x, int n)
{
    return x << n | x >> (64 - n);
}

static inline uint64_t rotr(uint64_t x, int n)
{
    return x >> n | x << (64 - n);
}

/* Words stand low byte first. */
static inline uint64_t little_endian(uint64_t x)
{
#if defined(__BYTE_ORDER__) && __BYTE_ORDER__ == __ORDER_BIG_ENDIAN__
    return __builtin_bswap64(x);
#else
    return x;
#endif
}

static inline uint64_t load64(const uint8_t *p)
{
    uint64_t x;

    memcpy(&x, p, sizeof x);
    return little_endian(x);
}

static inline void store64(uint8_t *p, uint64_t x)
{
    x = little_endian(x);
    memcpy(p, &x, sizeof x);
}

static inline void load(uint64_t block[WORDS], const uint8_t *p)
{
    for (int i = 0; i < WORDS; i++)
        block[i] = load64(p + 8 * i);
}

static inline void store(uint8_t *p, const uint64_t block[WORDS])
{
    for (int i = 0; i < WORDS; i++)
        store64(p + 8 * i, block[i]);
}

static inline void xor_into(uint64_t a[WORDS], const uint64_t b[WORDS])
{
    for (int i = 0; i < WORDS; i++)
        a[i] ^= b[i];
}

/* The len bytes at p, then the byte pad, then zeros; len is under 128. */
static inline void load_padded(uint64_t block[WORDS], const uint8_t *p, size_t len, uint8_t pad)
{
    uint8_t bytes[BLOCK] = {0};

    if (len > 0)
        memcpy(bytes, p, len);
    bytes[len] = pad;
    load(block, bytes);
}

/* The four words of a tag. */
static inline void load_tag(uint64_t tag[4], const uint8_t *p)
{
    for (int i = 0; i < 4; i++)
        tag[i] = load64(p + 8 * i);
}

/* The permutation. */

#define G(a, b, c, d)            \
    do {                         \
        (a) += (b);              \
        (d) = rotr((d) ^ (a), 32); \
        (c) += (d);              \
        (b) = rotr((b) ^ (c), 24); \
        (a) += (b);              \
        (d) = rotr((d) ^ (a), 16); \
        (c) += (d);              \
        (b) = rotr((b) ^ (c), 63); \
    } while (0)

#define UNG(a, b, c, d)          \
    do {                         \
        (b) = rotl((b), 63) ^ (c); \
        (c) -= (d);              \
        (d) = rotl((d), 16) ^ (a); \
        (a) -= (b);              \
        (b) = rotl((b), 24) ^ (c); \
        (c) -= (d);              \
        (d) = rotl((d), 32) ^ (a); \
        (a) -= (b);              \
    } while (0)

/* Both take at least one round, which spares the compiler a way past the loop. */

static inline void permute(uint32_t rounds, uint64_t s[WORDS])
{
    uint32_t r = 0;

    do {
        G(s[0], s[4], s[8], s[12]);
        G(s[1], s[5], s[9], s[13]);
        G(s[2], s[6], s[10], s[14]);
        G(s[3], s[7], s[11], s[15]);
        G(s[0], s[5], s[10], s[15]);
        G(s[1], s[6], s[11], s[12]);
        G(s[2], s[7], s[8], s[13]);
        G(s[3], s[4], s[9], s[14]);
    } while (++r < rounds);
}

static inline void unpermute(uint32_t rounds, uint64_t s[WORDS])
{
    uint32_t r = 0;

    do {
        UNG(s[3], s[4], s[9], s[14]);
        UNG(s[2], s[7], s[8], s[13]);
        UNG(s[1], s[6], s[11], s[12]);
        UNG(s[0], s[5], s[10], s[15]);
        UNG(s[3], s[7], s[11], s[15]);
        UNG(s[2], s[6], s[10], s[14]);
        UNG(s[1], s[5], s[9], s[13]);
        UNG(s[0], s[4], s[8], s[12]);
    } while (++r < rounds);
}

/* Steps. */

/* The word that an alpha step puts behind the sixteen at m. */
static inline uint64_t next_word(const uint64_t *m)
{
    return rotl(m[0], 53) ^ m[5] << 13;
}

static inline void beta(uint64_t m[WORDS])
{
    uint64_t last = next_word(m) ^ m[15];

    for (int i = 0; i < WORDS - 1; i++)
        m[i] ^= m[i + 1];
    m[WORDS - 1] = last;
}

static inline void gamma_step(uint64_t m[WORDS])
{
    uint64_t w16 = next_word(m);
    uint64_t w17 = next_word(m + 1);

    for (int i = 0; i < WORDS - 2; i++)
        m[i] ^= m[i + 1] ^ m[i + 2];
    m[14] ^= m[15] ^ w16;
    m[15] ^= w16 ^ w17;
}

/* The mask (0, b, g) of start. */
static inline void mask_of(uint64_t m[WORDS], const uint64_t start[WORDS], int b, int g)
{
    memcpy(m, start, BLOCK);
    while (b-- > 0)
        beta(m);
    while (g-- > 0)
        gamma_step(m);
}

/* E and D under the mask m. */

static inline void encrypt(uint32_t rounds, const uint64_t m[WORDS], uint64_t block[WORDS])
{
    xor_into(block, m);
    permute(rounds, block);
    xor_into(block, m);
}

static inline void decrypt(uint32_t rounds, const uint64_t m[WORDS], uint64_t block[WORDS])
{
    xor_into(block, m);
    unpermute(rounds, block);
    xor_into(block, m);
}

/*
 * Adds E of the leftover at p to sum; m is the mask behind the last whole block. OPP pads it with the
 * byte 1 and takes it in under a mask one beta step further; MRO pads it with zeros.
 */
static inline void absorb_leftover(uint32_t mode, uint32_t rounds, uint64_t m[WORDS],
                                   const uint8_t *p, size_t leftover, uint64_t sum[WORDS])
{
    uint64_t block[WORDS];

    if (leftover == 0)
        return;
    load_padded(block, p, leftover, mode == OPP);
    if (mode == OPP)
        beta(m);
    encrypt(rounds, m, block);
    xor_into(sum, block);
}

/* The round count and the tag's bits stand between nonce and key; in the old start both are zero. */
static inline void start_block(int old, uint64_t start[WORDS], uint32_t rounds, const uint8_t *key,
                               const uint8_t *nonce)
{
    uint8_t bytes[BLOCK] = {0};

    memcpy(bytes, nonce, NONCE);
    memcpy(bytes + BLOCK - KEY, key, KEY);
    load(start, bytes);
    if (!old) {
        start[10] = rounds;
        start[11] = 8 * TAG;
    }
    permute(rounds, start);
}

static inline void xor_bytes(uint8_t *out, const uint8_t *in, const uint64_t stream[WORDS],
                             size_t len)
{
    uint8_t bytes[BLOCK];

    store(bytes, stream);
    for (size_t i = 0; i < len; i++)
        out[i] = in[i] ^ bytes[i];
}

/* OPP. */

/*
 * The leftover of in goes to out. m is the mask (i, 0, 1) behind the last whole block; check takes
 * in the message's leftover, which is in when sealing and out when opening, and becomes the tag.
 */
static inline void opp_finish(uint32_t rounds, uint64_t m[WORDS], const uint8_t *in, uint8_t *out,
                              size_t leftover, int opening, uint64_t check[WORDS])
{
    uint64_t block[WORDS] = {0}, text[WORDS];

    beta(m);
    if (leftover > 0) {
        encrypt(rounds, m, block);
        /* Before out is written: it may be in. */
        if (!opening)
            load_padded(text, in, leftover, 1);
        xor_bytes(out, in, block, leftover);
        if (opening)
            load_padded(text, out, leftover, 1);
        xor_into(check, text);
        beta(m);
    }
    beta(m);
    encrypt(rounds, m, check);
}

/* MRO. */

/* The sum over header and message becomes the tag. */
static inline void mro_finish(uint32_t rounds, const uint64_t start[WORDS], size_t header_len,
                              size_t len, uint64_t tag[WORDS])
{
    uint64_t m[WORDS];

    tag[14] ^= header_len;
    tag[15] ^= len;
    mask_of(m, start, 2, 0);
    encrypt(rounds, m, tag);
}

/* Block i of the stream under the tag; m is the mask (0, 0, 1). */
static inline void stream_block(uint32_t rounds, const uint64_t m[WORDS], const uint64_t tag[4],
                                uint64_t i, uint64_t block[WORDS])
{
    memcpy(block, tag, TAG);
    memset(block + 4, 0, BLOCK - TAG);
    block[15] = i;
    encrypt(rounds, m, block);
}

/* Encrypts or decrypts under the tag. */
static inline void mro_stream(uint32_t rounds, const uint64_t start[WORDS], const uint64_t tag[4],
                              const uint8_t *in, uint8_t *out, size_t len)
{
    uint64_t m[WORDS], block[WORDS], text[WORDS];

    mask_of(m, start, 0, 1);
    for (uint64_t i = 0; len > 0; i++) {
        stream_block(rounds, m, tag, i, block);
        if (len < BLOCK) {
            xor_bytes(out, in, block, len);
            return;
        }
        load(text, in);
        xor_into(block, text);
        store(out, block);
        len -= BLOCK, in += BLOCK, out += BLOCK;
    }
}

/* Tags. */

static inline void store_tag(uint8_t *p, const uint64_t tag[4])
{
    for (int i = 0; i < 4; i++)
        store64(p + 8 * i, tag[i]);
}

static inline int tag_differs(const uint8_t *p, const uint64_t tag[4])
{
    uint64_t difference = 0;

    for (int i = 0; i < 4; i++)
        difference |= load64(p + 8 * i) ^ tag[i];
    return difference != 0;
}

/* What opening answers: where the tag at given differs, the message is cleared. */
static inline uint64_t opened(const uint8_t *given, const uint64_t tag[4], uint8_t *output,
                              size_t len)
{
    if (tag_differs(given, tag)) {
        if (len > 0)
            memset(output, 0, len);
        return refuse(9, 0);
    }
    return len;
}

#endif
