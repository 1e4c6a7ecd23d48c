// The values that a word holds by itself, without the host: Void, booleans, errors, U32 numbers, and short symbols.
//
// The lowest 8 bits of a word are its tag. A larger value is an object: the host keeps it, and its word is a handle.
#ifndef SOROBAN_VALUES_H
#define SOROBAN_VALUES_H

#include "soroban_host.h"

// Exports a function under a name. A contract's function takes values and returns one.
#define EXPORT(name) __attribute__((export_name(name)))

#define FALSE ((BoolVal)0)
#define TRUE ((BoolVal)1)
#define VOID ((VoidVal)2)

// The kinds of storage, which the functions of storage take as a number.
enum { TEMPORARY = 0, PERSISTENT = 1, INSTANCE = 2 };

// An error of the contract's own, by its code.
static inline ErrorVal contract_error(uint32_t code) {
    return (Val)code << 32 | 3;
}

static inline U32Val u32_val(uint32_t number) {
    return (Val)number << 32 | 4;
}

// Says whether a word is a U32. The host checks the types of what its functions are given, and of nothing else.
static inline int is_u32(Val val) {
    return (val & 255) == 4;
}

// The number of a word that is known to be a U32.
static inline uint32_t u32_of(U32Val val) {
    return val >> 32;
}

// The symbol with this text: at most 9 of the characters _, 0 to 9, A to Z, and a to z. The compiler computes the word.
#define SYMBOL(text) ({ _Static_assert(sizeof(text) <= 10, "more than 9 characters"); symbol_of(text); })

static inline SymbolVal symbol_of(const char *text) {
    Val body = 0;
    for (; *text != 0; text++) {
        char c = *text;
        body = body << 6 | (c == '_' ? 1 : c <= '9' ? c - '0' + 2 : c <= 'Z' ? c - 'A' + 12 : c - 'a' + 38);
    }
    return body << 8 | 14;
}

// Makes a vec of words that stand in the linear memory.
static inline VecVal vec_of(const Val *words, uint32_t count) {
    return vec_new_from_linear_memory(u32_val((uint32_t)(uintptr_t)words), u32_val(count));
}

#endif
