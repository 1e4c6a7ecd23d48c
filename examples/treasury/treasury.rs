//! A treasury. It holds tokens, which its owner pays out, splits among several addresses, and swaps on an exchange.
//! docs/CONTRACTS.md explains it.
#![no_std]
#![no_main]

#[allow(dead_code)]
#[path = "../include/soroban_host.rs"]
mod soroban_host;
#[allow(dead_code)]
#[path = "../include/soroban_values.rs"]
mod soroban_values;

use soroban_host::*;
use soroban_values::*;

const OWNER: SymbolVal = symbol("owner");
const TRANSFER: SymbolVal = symbol("transfer");

// The errors with which this contract's functions fail.
const BAD_SHARES: ErrorVal = contract_error(1);

/// A panic ends the call: the code traps.
#[panic_handler]
fn panic(_: &core::panic::PanicInfo) -> ! {
    core::arch::wasm32::unreachable()
}

/// Sends an amount of the token. The treasury calls the token directly, so nothing else has to authorise this.
fn send(token: AddressVal, to: AddressVal, amount: u64) {
    let arguments = vec_of(&[get_current_contract_address(), to, obj_from_u64(amount)]);
    call(token, TRANSFER, arguments);
}

fn owner_agrees() {
    require_auth(get_contract_data(OWNER, INSTANCE));
}

#[export_name = "__constructor"]
pub extern "C" fn construct(owner: AddressVal) -> VoidVal {
    put_contract_data(OWNER, owner, INSTANCE)
}

#[no_mangle]
pub extern "C" fn pay(token: AddressVal, to: AddressVal, amount: U64Val) -> VoidVal {
    owner_agrees();
    send(token, to, obj_to_u64(amount));
    VOID
}

fn share_of(val: Val) -> u32 {
    if !is_u32(val) {
        fail_with_error(BAD_SHARES);
    }
    u32_of(val)
}

/// Splits an amount by shares, a vec of U32 with one number for each address. What rounding leaves stays in the treasury.
#[no_mangle]
pub extern "C" fn split(token: AddressVal, amount: U64Val, to: VecVal, shares: VecVal) -> VoidVal {
    owner_agrees();
    let amount = obj_to_u64(amount) as u128;
    let count = u32_of(vec_len(to));
    let share = |i| share_of(vec_get(shares, u32_val(i))) as u128;
    let all: u128 = (0..count).map(share).sum();
    if all == 0 || u32_of(vec_len(shares)) != count {
        fail_with_error(BAD_SHARES);
    }
    for i in 0..count {
        // Each part is at most the amount. For products and quotients of 128 bits Rust links functions of its own.
        send(token, vec_get(to, u32_val(i)), (amount * share(i) / all) as u64);
    }
    VOID
}

/// Swaps an amount on the exchange, and returns what was bought. The treasury has an open call, so nobody can ask it to
/// authorise a transfer below the exchange's call. It sends the amount first.
#[no_mangle]
pub extern "C" fn swap(exchange: AddressVal, token: AddressVal, amount: U64Val, least: U64Val) -> U64Val {
    owner_agrees();
    send(token, exchange, obj_to_u64(amount));
    let arguments = vec_of(&[get_current_contract_address(), token, least]);
    call(exchange, symbol("swap_sent"), arguments)
}

#[no_mangle]
pub extern "C" fn owner() -> AddressVal {
    get_contract_data(OWNER, INSTANCE)
}
