// A token. An admin mints amounts, and holders transfer them. docs/CONTRACTS.md explains what a contract can do.
#include "soroban_values.h"

// The errors with which this contract's functions fail.
enum { NOT_ENOUGH = 1, TOO_MUCH = 2 };

// The ledger keeps each balance in an entry of its own, at the key [balance, ADDRESS].
static VecVal balance_key(AddressVal holder) {
    Val words[] = {SYMBOL("balance"), holder};
    return vec_of(words, 2);
}

static uint64_t read_balance(AddressVal holder) {
    VecVal key = balance_key(holder);
    if (has_contract_data(key, PERSISTENT) == FALSE) {
        return 0;
    }
    return obj_to_u64(get_contract_data(key, PERSISTENT));
}

static void write_balance(AddressVal holder, uint64_t amount) {
    put_contract_data(balance_key(holder), obj_from_u64(amount), PERSISTENT);
}

static void add(AddressVal holder, uint64_t amount) {
    uint64_t sum;
    if (__builtin_add_overflow(read_balance(holder), amount, &sum)) {
        fail_with_error(contract_error(TOO_MUCH));
    }
    write_balance(holder, sum);
}

static void subtract(AddressVal holder, uint64_t amount) {
    uint64_t balance = read_balance(holder);
    if (balance < amount) {
        fail_with_error(contract_error(NOT_ENOUGH));
    }
    write_balance(holder, balance - amount);
}

// Runs once, when the contract is created. Instance storage is part of the contract's own entry.
EXPORT("__constructor") VoidVal construct(AddressVal admin) {
    put_contract_data(SYMBOL("admin"), admin, INSTANCE);
    return VOID;
}

EXPORT("mint") VoidVal mint(AddressVal to, U64Val amount) {
    require_auth(get_contract_data(SYMBOL("admin"), INSTANCE));
    add(to, obj_to_u64(amount));
    Val topics[] = {SYMBOL("mint"), to};
    contract_event(vec_of(topics, 2), amount);
    return VOID;
}

EXPORT("transfer") VoidVal transfer(AddressVal from, AddressVal to, U64Val amount) {
    require_auth(from);
    subtract(from, obj_to_u64(amount));
    add(to, obj_to_u64(amount));
    Val topics[] = {SYMBOL("transfer"), from, to};
    contract_event(vec_of(topics, 3), amount);
    return VOID;
}

EXPORT("balance") U64Val balance(AddressVal holder) {
    return obj_from_u64(read_balance(holder));
}
