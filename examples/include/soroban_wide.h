// Products of 128 bits. For `__int128` clang calls functions of its run-time library, which a contract does not have.
#ifndef SOROBAN_WIDE_H
#define SOROBAN_WIDE_H

#include "soroban_values.h"

enum rounding { DOWN, UP };

// Returns a * b / c. Fails with the error if the quotient has more than 64 bits, or c is 0.
static uint64_t mul_div(uint64_t a, uint64_t b, uint64_t c, enum rounding rounding, ErrorVal error) {
    // The product, from those of the halves of 32 bits: none of these sums overflows.
    uint64_t low = (a & UINT32_MAX) * (b & UINT32_MAX);
    uint64_t middle = (a >> 32) * (b & UINT32_MAX) + (low >> 32);
    uint64_t other = (a & UINT32_MAX) * (b >> 32) + (middle & UINT32_MAX);
    uint64_t high = (a >> 32) * (b >> 32) + (middle >> 32) + (other >> 32);
    low = other << 32 | (low & UINT32_MAX);
    if (high >= c) {
        fail_with_error(error);
    }

    // Long division, bit by bit: high becomes the remainder, and low the quotient.
    for (int i = 0; i < 64; i++) {
        uint64_t carry = high >> 63;
        high = high << 1 | low >> 63;
        low <<= 1;
        if (carry || high >= c) {
            high -= c;
            low |= 1;
        }
    }
    if (rounding == UP && high != 0 && ++low == 0) {
        fail_with_error(error);
    }
    return low;
}

#endif
