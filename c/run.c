/* Sealing and opening with all masks from one run of words, which stands in a lent buffer. */
#include "run.h"

static void opp_seal_run(uint32_t rounds, const uint64_t *words, const uint8_t *in, uint8_t *out,
                         size_t len, uint64_t tag[WORDS])
{
    uint64_t m[WORDS], block[WORDS], check[WORDS] = {0};

    for (; len >= BLOCK; len -= BLOCK, in += BLOCK, out += BLOCK, words++) {
        run_mask(m, words, GAMMA);
        load(block, in);
        xor_into(check, block);
        encrypt(rounds, m, block);
        store(out, block);
    }
    run_mask(m, words, GAMMA);
    opp_finish(rounds, m, in, out, len, 0, check);
    xor_into(tag, check);
}

static void opp_open_run(uint32_t rounds, const uint64_t *words, const uint8_t *in, uint8_t *out,
                         size_t len, uint64_t tag[WORDS])
{
    uint64_t m[WORDS], block[WORDS], check[WORDS] = {0};

    for (; len >= BLOCK; len -= BLOCK, in += BLOCK, out += BLOCK, words++) {
        run_mask(m, words, GAMMA);
        load(block, in);
        decrypt(rounds, m, block);
        xor_into(check, block);
        store(out, block);
    }
    run_mask(m, words, GAMMA);
    opp_finish(rounds, m, in, out, len, 1, check);
    xor_into(tag, check);
}

static void mro_tag_run(uint32_t rounds, const uint64_t *words, const uint8_t *header,
                        size_t header_len, const uint8_t *message, size_t len, uint64_t tag[WORDS])
{
    absorb_run(MRO, rounds, words, ALPHA, header, header_len, tag);
    absorb_run(MRO, rounds, words, BETA, message, len, tag);
    mro_finish(rounds, words, header_len, len, tag);
}

/* The words are written once nothing but the tag can be refused. */
uint64_t baseline_seal_run(uint32_t mode, uint32_t rounds, const uint8_t *key, size_t key_len,
                           const uint8_t *nonce, size_t nonce_len, const uint8_t *header,
                           size_t header_len, const uint8_t *input, size_t input_len,
                           uint8_t *output, size_t output_len, uint64_t *words, size_t words_len)
{
    uint64_t start[WORDS], tag[WORDS] = {0};
    uint64_t refusal =
        baseline_check_message(mode, rounds, key_len, nonce_len, header_len, input_len);
    size_t count = run_words(header_len, input_len);

    if (refusal != 0)
        return refusal;
    if (output_len < input_len + TAG || words_len < count)
        return refuse(7, 0);

    start_block(0, start, rounds, key, nonce);
    grow_run(words, count, start);
    if (mode == OPP) {
        absorb_run(OPP, rounds, words, ALPHA, header, header_len, tag);
        opp_seal_run(rounds, words, input, output, input_len, tag);
    } else {
        mro_tag_run(rounds, words, header, header_len, input, input_len, tag);
        mro_stream(rounds, words, tag, input, output, input_len);
    }
    store_tag(output + input_len, tag);
    return input_len + TAG;
}

uint64_t baseline_open_run(uint32_t mode, uint32_t rounds, const uint8_t *key, size_t key_len,
                           const uint8_t *nonce, size_t nonce_len, const uint8_t *header,
                           size_t header_len, const uint8_t *input, size_t input_len,
                           uint8_t *output, size_t output_len, uint64_t *words, size_t words_len)
{
    uint64_t start[WORDS], given[4], tag[WORDS] = {0};
    uint64_t refusal =
        baseline_check_parcel(mode, rounds, key_len, nonce_len, header_len, input_len);
    size_t len = input_len - TAG, count = run_words(header_len, len);

    if (refusal != 0)
        return refusal;
    if (output_len < len || words_len < count)
        return refuse(7, 0);

    start_block(0, start, rounds, key, nonce);
    grow_run(words, count, start);
    if (mode == OPP) {
        absorb_run(OPP, rounds, words, ALPHA, header, header_len, tag);
        opp_open_run(rounds, words, input, output, len, tag);
    } else {
        load_tag(given, input + len);
        mro_stream(rounds, words, given, input, output, len);
        mro_tag_run(rounds, words, header, header_len, output, len, tag);
    }
    return opened(input + len, tag, output, len);
}
