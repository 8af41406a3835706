/* The run of words that the masks are taken from. */
#ifndef RUN_H
#define RUN_H

#include "sealing.h"

/* The words of the run: one for each step, sixteen of a mask and five for its beta and gamma steps. */
static inline size_t run_words(size_t header_len, size_t len)
{
    return (header_len > len ? header_len : len) / BLOCK + WORDS + 5;
}

static inline void grow_run(uint64_t *words, size_t count, const uint64_t start[WORDS])
{
    memcpy(words, start, BLOCK);
    for (size_t n = 0; n + WORDS < count; n++)
        words[n + WORDS] = next_word(words + n);
}

/* The masks of a block, by how many neighbouring words make a word of theirs. */
enum { ALPHA = 1, BETA = 2, GAMMA = 3 };

/* The mask of the block whose words in the run begin at words. */
static inline void run_mask(uint64_t m[WORDS], const uint64_t *words, int kind)
{
    for (int t = 0; t < WORDS; t++) {
        m[t] = words[t];
        for (int k = 1; k < kind; k++)
            m[t] ^= words[t + k];
    }
}

/* Adds E of all of p to sum, under masks of the kind. */
static inline void absorb_run(uint32_t mode, uint32_t rounds, const uint64_t *words, int kind,
                              const uint8_t *p, size_t len, uint64_t sum[WORDS])
{
    uint64_t m[WORDS], block[WORDS];

    for (; len >= BLOCK; len -= BLOCK, p += BLOCK, words++) {
        run_mask(m, words, kind);
        load(block, p);
        encrypt(rounds, m, block);
        xor_into(sum, block);
    }
    run_mask(m, words, kind);
    absorb_leftover(mode, rounds, m, p, len, sum);
}

#endif
