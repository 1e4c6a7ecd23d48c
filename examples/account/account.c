// An account of several signers. What it does is authorised by a threshold of them, and a create by all of them. The signers
// are addresses: each one authorises the call of `__check_auth` with the payload that is signed. docs/CONTRACTS.md explains it.
#include "soroban_values.h"

// The errors with which this contract's functions fail.
enum { NOT_RISING = 1, NOT_A_SIGNER = 2, TOO_FEW = 3, BAD_THRESHOLD = 4 };

static VecVal signers(void) {
    return get_contract_data(SYMBOL("signers"), INSTANCE);
}

static uint32_t threshold(void) {
    return u32_of(get_contract_data(SYMBOL("threshold"), INSTANCE));
}

// A vec of addresses that rises by the host's order has no address twice.
static void check_rising(VecVal addresses) {
    uint32_t count = u32_of(vec_len(addresses));
    for (uint32_t i = 1; i < count; i++) {
        if (obj_cmp(vec_get(addresses, u32_val(i - 1)), vec_get(addresses, u32_val(i))) >= 0) {
            fail_with_error(contract_error(NOT_RISING));
        }
    }
}

// All of these addresses are signers, none of them twice, and they are at least so many.
static void check_signers(VecVal addresses, uint32_t least) {
    check_rising(addresses);
    uint32_t count = u32_of(vec_len(addresses));
    if (count < least) {
        fail_with_error(contract_error(TOO_FEW));
    }
    for (uint32_t i = 0; i < count; i++) {
        if (vec_first_index_of(signers(), vec_get(addresses, u32_val(i))) == VOID) {
            fail_with_error(contract_error(NOT_A_SIGNER));
        }
    }
}

static void store(VecVal signers, U32Val threshold) {
    check_rising(signers);
    if (!is_u32(threshold) || u32_of(threshold) == 0 || u32_of(threshold) > u32_of(vec_len(signers))) {
        fail_with_error(contract_error(BAD_THRESHOLD));
    }
    put_contract_data(SYMBOL("signers"), signers, INSTANCE);
    put_contract_data(SYMBOL("threshold"), threshold, INSTANCE);
}

EXPORT("__constructor") VoidVal construct(VecVal signers, U32Val threshold) {
    store(signers, threshold);
    return VOID;
}

// The host calls this when something demands that the account authorises it. The signature is a rising vec of signers. A
// context is a vec that begins with a symbol: `Contract` for a call, and a longer one for a create.
EXPORT("__check_auth") VoidVal check_auth(BytesVal payload, VecVal signature, VecVal contexts) {
    uint32_t least = threshold();
    for (uint32_t i = 0; i < u32_of(vec_len(contexts)); i++) {
        if (obj_cmp(vec_front(vec_get(contexts, u32_val(i))), SYMBOL("Contract")) != 0) {
            least = u32_of(vec_len(signers()));
        }
    }
    check_signers(signature, least);
    for (uint32_t i = 0; i < u32_of(vec_len(signature)); i++) {
        require_auth_for_args(vec_get(signature, u32_val(i)), vec_of(&payload, 1));
    }
    return VOID;
}

// Changes the signers. A demand for the account itself would call `__check_auth` while this call is open, which fails. So
// each of those who approve authorises this call.
EXPORT("change") VoidVal change(VecVal approving, VecVal signers, U32Val new_threshold) {
    check_signers(approving, threshold());
    for (uint32_t i = 0; i < u32_of(vec_len(approving)); i++) {
        require_auth(vec_get(approving, u32_val(i)));
    }
    store(signers, new_threshold);
    return VOID;
}

EXPORT("signers") VecVal all_signers(void) {
    return signers();
}

EXPORT("threshold") U32Val get_threshold(void) {
    return u32_val(threshold());
}
