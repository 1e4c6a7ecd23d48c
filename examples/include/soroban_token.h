// Calls of a token, such as the one in examples/token, and of other contracts.
#ifndef SOROBAN_TOKEN_H
#define SOROBAN_TOKEN_H

#include "soroban_values.h"

// Moves an amount of the token. The address that pays has to authorise this, unless it is the contract that runs.
static inline void transfer_token(AddressVal token, AddressVal from, AddressVal to, uint64_t amount) {
    Val arguments[] = {from, to, obj_from_u64(amount)};
    call(token, SYMBOL("transfer"), vec_of(arguments, 3));
}

static inline uint64_t token_balance(AddressVal token, AddressVal holder) {
    return obj_to_u64(call(token, SYMBOL("balance"), vec_of(&holder, 1)));
}

#endif
