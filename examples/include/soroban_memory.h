// The functions that clang calls to copy and fill structs and arrays. A contract that needs them includes this once.
#ifndef SOROBAN_MEMORY_H
#define SOROBAN_MEMORY_H

#include <stddef.h>

void *memcpy(void *restrict to, const void *restrict from, size_t count) {
    for (size_t i = 0; i < count; i++) {
        ((char *)to)[i] = ((const char *)from)[i];
    }
    return to;
}

void *memmove(void *to, const void *from, size_t count) {
    if ((size_t)to <= (size_t)from) {
        return memcpy(to, from, count);
    }
    for (size_t i = count; i > 0; i--) {
        ((char *)to)[i - 1] = ((const char *)from)[i - 1];
    }
    return to;
}

void *memset(void *to, int byte, size_t count) {
    for (size_t i = 0; i < count; i++) {
        ((char *)to)[i] = (char)byte;
    }
    return to;
}

#endif
