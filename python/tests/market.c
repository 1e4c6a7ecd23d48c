// A market for the tests: a buyer pays a seller in one token, and gets an amount of another. Both authorise the whole trade.
//
// clang --target=wasm32 -mcpu=mvp -O2 -ffreestanding -nostdlib -I ../../examples/token \
//     -Wl,--no-entry,--strip-all,--compress-relocations,--stack-first,-z,stack-size=4096 -o market.wasm market.c
// xxd -p market.wasm >market.hex
#include "soroban_values.h"

static void transfer(AddressVal token, AddressVal from, AddressVal to, U64Val amount) {
    Val words[] = {from, to, amount};
    call(token, SYMBOL("transfer"), vec_of(words, 3));
}

EXPORT("buy") VoidVal buy(AddressVal buyer, AddressVal seller, AddressVal goods, U64Val amount, AddressVal money, U64Val price) {
    require_auth(buyer);
    require_auth(seller);
    transfer(money, buyer, seller, price);
    transfer(goods, seller, buyer, amount);
    Val topics[] = {SYMBOL("bought"), buyer, goods};
    contract_event(vec_of(topics, 3), amount);
    return VOID;
}
