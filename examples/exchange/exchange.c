// An exchange over two tokens. Who deposits both tokens gets shares of the pool. Who swaps one token for the other pays 0.3 %.
// The product of both reserves never falls by a swap. docs/CONTRACTS.md explains it.
#include "soroban_token.h"
#include "soroban_values.h"
#include "soroban_wide.h"

// The errors with which this contract's functions fail.
enum { NOT_ITS_TOKEN = 1, TOO_LITTLE = 2, TOO_MUCH = 3, NO_SHARES = 4, SAME_TOKEN = 5 };

// Instance storage has the two tokens at 0 and 1, their reserves at 2 and 3, and the number of all shares at 4.
enum { TOKEN = 0, RESERVE = 2, SHARES = 4 };

static AddressVal token(uint32_t side) {
    return get_contract_data(u32_val(TOKEN + side), INSTANCE);
}

static uint64_t number(uint32_t place) {
    return obj_to_u64(get_contract_data(u32_val(place), INSTANCE));
}

static void set_number(uint32_t place, uint64_t number) {
    put_contract_data(u32_val(place), obj_from_u64(number), INSTANCE);
}

static uint64_t sum(uint64_t a, uint64_t b) {
    uint64_t sum;
    if (__builtin_add_overflow(a, b, &sum)) {
        fail_with_error(contract_error(TOO_MUCH));
    }
    return sum;
}

static uint64_t share(uint64_t a, uint64_t b, uint64_t c, enum rounding rounding) {
    return mul_div(a, b, c, rounding, contract_error(TOO_MUCH));
}

// The ledger keeps the shares of each holder in an entry of its own, at the key [shares, ADDRESS].
static VecVal shares_key(AddressVal holder) {
    Val words[] = {SYMBOL("shares"), holder};
    return vec_of(words, 2);
}

static uint64_t read_shares(AddressVal holder) {
    VecVal key = shares_key(holder);
    return has_contract_data(key, PERSISTENT) == TRUE ? obj_to_u64(get_contract_data(key, PERSISTENT)) : 0;
}

static void write_shares(AddressVal holder, uint64_t shares) {
    put_contract_data(shares_key(holder), obj_from_u64(shares), PERSISTENT);
}

static void announce(SymbolVal what, AddressVal who, uint64_t first, uint64_t second) {
    Val topics[] = {what, who};
    Val numbers[] = {obj_from_u64(first), obj_from_u64(second)};
    contract_event(vec_of(topics, 2), vec_of(numbers, 2));
}

EXPORT("__constructor") VoidVal construct(AddressVal first, AddressVal second) {
    if (obj_cmp(first, second) == 0) {
        fail_with_error(contract_error(SAME_TOKEN));
    }
    put_contract_data(u32_val(TOKEN), first, INSTANCE);
    put_contract_data(u32_val(TOKEN + 1), second, INSTANCE);
    set_number(RESERVE, 0);
    set_number(RESERVE + 1, 0);
    set_number(SHARES, 0);
    return VOID;
}

// Takes at most these amounts, in the ratio of the reserves, and returns the shares. The first deposit sets the ratio, and
// has as many shares as it has of the first token.
EXPORT("deposit") U64Val deposit(AddressVal from, U64Val first, U64Val second) {
    require_auth(from);
    uint64_t reserves[] = {number(RESERVE), number(RESERVE + 1)};
    uint64_t amounts[] = {obj_to_u64(first), obj_to_u64(second)};
    uint64_t all = number(SHARES);
    uint64_t shares = amounts[0];
    if (all != 0) {
        uint64_t by_second = share(amounts[1], all, reserves[1], DOWN);
        shares = share(amounts[0], all, reserves[0], DOWN);
        shares = shares < by_second ? shares : by_second;
        amounts[0] = share(shares, reserves[0], all, UP);
        amounts[1] = share(shares, reserves[1], all, UP);
    }
    if (shares == 0 || amounts[1] == 0) {
        fail_with_error(contract_error(TOO_LITTLE));
    }
    for (uint32_t side = 0; side < 2; side++) {
        set_number(RESERVE + side, sum(reserves[side], amounts[side]));
        transfer_token(token(side), from, get_current_contract_address(), amounts[side]);
    }
    set_number(SHARES, sum(all, shares));
    write_shares(from, read_shares(from) + shares); // at most all shares, whose sum did not overflow
    announce(SYMBOL("deposit"), from, amounts[0], amounts[1]);
    return obj_from_u64(shares);
}

// Gives shares back for their part of both reserves.
EXPORT("withdraw") VoidVal withdraw(AddressVal from, U64Val shares_word) {
    require_auth(from);
    uint64_t shares = obj_to_u64(shares_word);
    uint64_t held = read_shares(from);
    if (shares == 0 || shares > held) {
        fail_with_error(contract_error(NO_SHARES));
    }
    write_shares(from, held - shares);
    uint64_t all = number(SHARES);
    set_number(SHARES, all - shares);
    uint64_t amounts[2];
    for (uint32_t side = 0; side < 2; side++) {
        uint64_t reserve = number(RESERVE + side);
        amounts[side] = share(shares, reserve, all, DOWN);
        set_number(RESERVE + side, reserve - amounts[side]);
        transfer_token(token(side), get_current_contract_address(), from, amounts[side]);
    }
    announce(SYMBOL("withdraw"), from, amounts[0], amounts[1]);
    return VOID;
}

// Which of the two tokens this is.
static uint32_t side_of(AddressVal address) {
    for (uint32_t side = 0; side < 2; side++) {
        if (obj_cmp(address, token(side)) == 0) {
            return side;
        }
    }
    fail_with_error(contract_error(NOT_ITS_TOKEN));
}

// Pays for an amount that the exchange has received, and returns what it paid.
static U64Val pay_for(AddressVal to, uint32_t side, uint64_t paid, U64Val least) {
    uint64_t in = number(RESERVE + side);
    uint64_t out = number(RESERVE + 1 - side);
    uint64_t after_fee = share(paid, 997, 1000, DOWN);
    uint64_t bought = share(out, after_fee, sum(in, after_fee), DOWN);
    if (bought == 0 || bought < obj_to_u64(least)) {
        fail_with_error(contract_error(TOO_LITTLE));
    }
    set_number(RESERVE + side, sum(in, paid));
    set_number(RESERVE + 1 - side, out - bought);
    transfer_token(token(1 - side), get_current_contract_address(), to, bought);
    announce(SYMBOL("swap"), to, paid, bought);
    return obj_from_u64(bought);
}

// Pulls an amount of one token from the address, which authorises this call with the transfer below it, and pays the other one.
EXPORT("swap") U64Val swap(AddressVal from, AddressVal paid_token, U64Val paid, U64Val least) {
    require_auth(from);
    uint32_t side = side_of(paid_token);
    transfer_token(paid_token, from, get_current_contract_address(), obj_to_u64(paid));
    return pay_for(from, side, obj_to_u64(paid), least);
}

// Swaps what was sent to the exchange before, in the same transaction. A contract that calls cannot authorise the transfer
// of a call below, so nothing can be pulled from it: it sends the amount, and then calls this.
EXPORT("swap_sent") U64Val swap_sent(AddressVal to, AddressVal paid_token, U64Val least) {
    uint32_t side = side_of(paid_token);
    uint64_t held = token_balance(paid_token, get_current_contract_address());
    uint64_t reserve = number(RESERVE + side);
    return pay_for(to, side, held > reserve ? held - reserve : 0, least);
}

// Returns both reserves and the number of all shares.
EXPORT("pool") VecVal pool(void) {
    Val numbers[] = {
        get_contract_data(u32_val(RESERVE), INSTANCE),
        get_contract_data(u32_val(RESERVE + 1), INSTANCE),
        get_contract_data(u32_val(SHARES), INSTANCE),
    };
    return vec_of(numbers, 3);
}

EXPORT("shares") U64Val shares(AddressVal holder) {
    return obj_from_u64(read_shares(holder));
}
