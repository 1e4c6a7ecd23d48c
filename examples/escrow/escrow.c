// An escrow. A buyer pays an amount of a token into it. Then the buyer or an arbiter releases it to the seller, or the
// seller or the arbiter refunds it to the buyer. After a deadline the buyer can take it back. docs/CONTRACTS.md explains it.
#include "soroban_token.h"
#include "soroban_values.h"

// The errors with which this contract's functions fail.
enum { NOT_A_PARTY = 1, WRONG_STATE = 2, TOO_EARLY = 3 };

// The state of the escrow. It stands in instance storage, like the terms.
enum { OPEN = 0, FUNDED = 1, CLOSED = 2 };

// For how many ledgers the contract lives on at least, and to what it is extended: 15 and 30 days of 5 seconds a ledger.
enum { LEAST_LIFE = 259200, LIFE = 518400 };

static Val term(SymbolVal name) {
    return get_contract_data(name, INSTANCE);
}

static int is(AddressVal address, SymbolVal name) {
    return obj_cmp(address, term(name)) == 0;
}

// Goes from one state to the next. The state changes before a token is called, although no call can come back here.
static void advance(uint32_t from, uint32_t to) {
    if (u32_of(term(SYMBOL("state"))) != from) {
        fail_with_error(contract_error(WRONG_STATE));
    }
    put_contract_data(SYMBOL("state"), u32_val(to), INSTANCE);
}

static uint64_t amount(void) {
    return obj_to_u64(term(SYMBOL("amount")));
}

static void announce(SymbolVal what) {
    contract_event(vec_of(&what, 1), term(SYMBOL("amount")));
}

static void pay_out(AddressVal to, SymbolVal what) {
    advance(FUNDED, CLOSED);
    transfer_token(term(SYMBOL("token")), get_current_contract_address(), to, amount());
    announce(what);
}

EXPORT("__constructor")
VoidVal construct(
    AddressVal buyer, AddressVal seller, AddressVal arbiter, AddressVal token, U64Val amount, TimepointVal deadline
) {
    // Here the host checks the types of the two numbers. What is stored may be of any type.
    obj_to_u64(amount);
    timepoint_obj_to_u64(deadline);
    put_contract_data(SYMBOL("buyer"), buyer, INSTANCE);
    put_contract_data(SYMBOL("seller"), seller, INSTANCE);
    put_contract_data(SYMBOL("arbiter"), arbiter, INSTANCE);
    put_contract_data(SYMBOL("token"), token, INSTANCE);
    put_contract_data(SYMBOL("amount"), amount, INSTANCE);
    put_contract_data(SYMBOL("deadline"), deadline, INSTANCE);
    put_contract_data(SYMBOL("state"), u32_val(OPEN), INSTANCE);
    return VOID;
}

// The buyer pays. The buyer's authorisation of this call has the transfer of the token below it.
EXPORT("fund") VoidVal fund(void) {
    AddressVal buyer = term(SYMBOL("buyer"));
    require_auth(buyer);
    advance(OPEN, FUNDED);
    extend_current_contract_instance_and_code_ttl(u32_val(LEAST_LIFE), u32_val(LIFE));
    transfer_token(term(SYMBOL("token")), buyer, get_current_contract_address(), amount());
    announce(SYMBOL("fund"));
    return VOID;
}

EXPORT("release") VoidVal release(AddressVal by) {
    require_auth(by);
    if (!is(by, SYMBOL("buyer")) && !is(by, SYMBOL("arbiter"))) {
        fail_with_error(contract_error(NOT_A_PARTY));
    }
    pay_out(term(SYMBOL("seller")), SYMBOL("release"));
    return VOID;
}

EXPORT("refund") VoidVal refund(AddressVal by) {
    require_auth(by);
    if (!is(by, SYMBOL("seller")) && !is(by, SYMBOL("arbiter"))) {
        if (!is(by, SYMBOL("buyer"))) {
            fail_with_error(contract_error(NOT_A_PARTY));
        }
        if (obj_to_u64(get_ledger_timestamp()) < timepoint_obj_to_u64(term(SYMBOL("deadline")))) {
            fail_with_error(contract_error(TOO_EARLY));
        }
    }
    pay_out(term(SYMBOL("buyer")), SYMBOL("refund"));
    return VOID;
}

EXPORT("state") U32Val state(void) {
    return term(SYMBOL("state"));
}
