/*
 * The same construction written by hand in scalar C: what the library's speed
 * is measured against. The calls answer as those of calmbaize.h do.
 */
#ifndef BASELINE_H
#define BASELINE_H

#include <stdbool.h>
#include <stddef.h>
#include <stdint.h>

uint64_t baseline_seal(uint32_t mode, uint32_t rounds,
                       const uint8_t *key, size_t key_len,
                       const uint8_t *nonce, size_t nonce_len,
                       const uint8_t *header, size_t header_len,
                       const uint8_t *input, size_t input_len,
                       uint8_t *output, size_t output_len);

uint64_t baseline_open(uint32_t mode, uint32_t rounds,
                       const uint8_t *key, size_t key_len,
                       const uint8_t *nonce, size_t nonce_len,
                       const uint8_t *header, size_t header_len,
                       const uint8_t *input, size_t input_len,
                       uint8_t *output, size_t output_len);

uint64_t baseline_open_old(uint32_t mode, uint32_t rounds,
                           const uint8_t *key, size_t key_len,
                           const uint8_t *nonce, size_t nonce_len,
                           const uint8_t *header, size_t header_len,
                           const uint8_t *input, size_t input_len,
                           uint8_t *output, size_t output_len);

uint64_t baseline_convert(uint32_t mode, uint32_t rounds,
                          const uint8_t *key, size_t key_len,
                          const uint8_t *nonce, size_t nonce_len,
                          const uint8_t *header, size_t header_len,
                          const uint8_t *input, size_t input_len,
                          uint8_t *output, size_t output_len);

uint64_t baseline_diagnose(bool old_start, uint32_t mode, uint32_t rounds,
                           const uint8_t *key, size_t key_len,
                           const uint8_t *nonce, size_t nonce_len,
                           const uint8_t *header, size_t header_len,
                           const uint8_t *input, size_t input_len);

uint64_t baseline_seal_run(uint32_t mode, uint32_t rounds,
                           const uint8_t *key, size_t key_len,
                           const uint8_t *nonce, size_t nonce_len,
                           const uint8_t *header, size_t header_len,
                           const uint8_t *input, size_t input_len,
                           uint8_t *output, size_t output_len,
                           uint64_t *words, size_t words_len);

uint64_t baseline_open_run(uint32_t mode, uint32_t rounds,
                           const uint8_t *key, size_t key_len,
                           const uint8_t *nonce, size_t nonce_len,
                           const uint8_t *header, size_t header_len,
                           const uint8_t *input, size_t input_len,
                           uint8_t *output, size_t output_len,
                           uint64_t *words, size_t words_len);

uint64_t baseline_walk(const uint8_t *start, size_t start_len,
                       const uint8_t *steps, size_t steps_len,
                       uint8_t *output, size_t output_len);

uint64_t baseline_jump(const uint8_t *start, size_t start_len,
                       int32_t alpha, int32_t beta, int32_t gamma,
                       uint8_t *output, size_t output_len);

uint64_t baseline_store_format(uint8_t *store, size_t store_len);

uint64_t baseline_store_take(const uint8_t *key, size_t key_len,
                             uint8_t *store, size_t store_len,
                             uint32_t machine, uint32_t sale,
                             const uint8_t nonce_tail[8],
                             uint32_t amount, uint16_t column, uint8_t means,
                             uint32_t price, uint16_t day);

uint64_t baseline_store_cancel(const uint8_t *key, size_t key_len,
                               uint8_t *store, size_t store_len,
                               uint32_t machine, uint32_t sale);

uint64_t baseline_store_total(const uint8_t *key, size_t key_len,
                              const uint8_t *store, size_t store_len,
                              uint64_t *total);

uint64_t baseline_store_read(const uint8_t *store, size_t store_len,
                             uint32_t machine, uint32_t sale);

uint64_t baseline_store_look_up(const uint8_t *key, size_t key_len,
                                const uint8_t *store, size_t store_len,
                                uint32_t machine, uint32_t sale,
                                uint32_t *amount, uint32_t *price);

/* What the library has no call for. */

/* Seals under the old start, so that there are parcels to open under it and to convert. */
uint64_t baseline_seal_old(uint32_t mode, uint32_t rounds,
                           const uint8_t *key, size_t key_len,
                           const uint8_t *nonce, size_t nonce_len,
                           const uint8_t *header, size_t header_len,
                           const uint8_t *input, size_t input_len,
                           uint8_t *output, size_t output_len);

/* The BLAKE2b permutation, any number of rounds. */
void baseline_permute(uint32_t rounds, uint64_t s[16]);

#endif
