/* What the files of the scalar C version share. */
#ifndef INTERNAL_H
#define INTERNAL_H

#include "baseline.h"

enum { KEY = 32, NONCE = 16, TAG = 32 };
enum { OPP = 1, MRO = 2 };

static inline uint64_t refuse(uint32_t number, uint32_t place)
{
    return (uint64_t)number << 32 | place;
}

/* What the calls that take a message or a parcel check before their output: the refusal, or 0. */

uint64_t baseline_check_message(uint32_t mode, uint32_t rounds, size_t key_len, size_t nonce_len,
                                size_t header_len, size_t input_len);

uint64_t baseline_check_parcel(uint32_t mode, uint32_t rounds, size_t key_len, size_t nonce_len,
                               size_t header_len, size_t input_len);

#endif
