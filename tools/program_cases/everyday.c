// A contract that needs room at everyday sizes. everyday.hex has its module, which everyday.txt runs.
//
// clang --target=wasm32 -mcpu=mvp -O2 -ffreestanding -nostdlib -I../../examples/token \
//     -Wl,--no-entry,--strip-all,--compress-relocations,-z,stack-size=4096 -o everyday.wasm everyday.c
// xxd -p everyday.wasm >everyday.hex
#include "soroban_values.h"

enum { PUSHED = 301, UNPACKED = 65, EVENTS = 6, CALLS = 5 };

// With the stack, this is more than two pages of memory, and less than three.
static volatile Val room[17000];

// Pushes 301 items, unpacks 65 of them into the third page, emits 6 events, and calls `bump` of another contract 5 times.
// Returns the number of the items, the last one, the sum of the unpacked ones, and the length and the last byte of the bytes.
EXPORT("everyday") VecVal everyday(BytesVal bytes, AddressVal counter) {
    VecVal items = vec_new();
    for (uint32_t i = 0; i < PUSHED; i++) {
        items = vec_push_back(items, u32_val(i));
    }

    volatile Val *words = room + 17000 - UNPACKED;
    VecVal first = vec_slice(items, u32_val(0), u32_val(UNPACKED));
    vec_unpack_to_linear_memory(first, u32_val((uint32_t)(uintptr_t)words), u32_val(UNPACKED));
    uint32_t sum = 0;
    for (uint32_t i = 0; i < UNPACKED; i++) {
        sum += u32_of(words[i]);
    }

    for (uint32_t i = 0; i < EVENTS; i++) {
        Val topics[] = {SYMBOL("everyday"), u32_val(i)};
        contract_event(vec_of(topics, 2), u32_val(i * i));
    }
    for (uint32_t i = 0; i < CALLS; i++) {
        call(counter, SYMBOL("bump"), vec_new());
    }

    Val found[] = {vec_len(items), vec_back(items), u32_val(sum), bytes_len(bytes), bytes_back(bytes)};
    return vec_of(found, 5);
}
