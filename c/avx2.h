/*
 * OPP written by hand with AVX2 intrinsics, four blocks side by side: what the
 * speed of the library's archive for x86-64-v3 is measured against. It is there
 * where the compiler is told that the processor has AVX2.
 */
#ifndef AVX2_H
#define AVX2_H

#include "baseline.h"

/* Both answer and write what baseline_seal_run and baseline_open_run do, and refuse MRO as no mode. */

uint64_t avx2_opp_seal_run(uint32_t mode, uint32_t rounds,
                           const uint8_t *key, size_t key_len,
                           const uint8_t *nonce, size_t nonce_len,
                           const uint8_t *header, size_t header_len,
                           const uint8_t *input, size_t input_len,
                           uint8_t *output, size_t output_len,
                           uint64_t *words, size_t words_len);

uint64_t avx2_opp_open_run(uint32_t mode, uint32_t rounds,
                           const uint8_t *key, size_t key_len,
                           const uint8_t *nonce, size_t nonce_len,
                           const uint8_t *header, size_t header_len,
                           const uint8_t *input, size_t input_len,
                           uint8_t *output, size_t output_len,
                           uint64_t *words, size_t words_len);

#endif
