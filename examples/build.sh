#!/bin/sh
# Builds contracts in C or in Rust, and says whether the stored hex digits hold the built modules.
#
# sh examples/build.sh                      builds all contracts of this folder, and compares
# sh examples/build.sh token escrow         builds these
# sh examples/build.sh ../my/vault          builds vault.c or vault.rs of another folder
# sh examples/build.sh --store ../my/vault  stores the built module in vault.hex, too
#
# The module becomes out/NAME.wasm in the contract's folder. Another version of a compiler may build other bytes from the
# same text. CLANG and RUSTC name other compilers. docs/CONTRACTS.md says what each option is for.
set -eu
examples=$(cd "$(dirname "$0")" && pwd)
clang=${CLANG:-clang}
rustc=${RUSTC:-rustc}
store=no
if [ "${1:-}" = --store ]; then
    store=yes
    shift
fi
[ $# -gt 0 ] || set -- account escrow exchange token treasury

fail() {
    echo "$*" >&2
    exit 1
}

need() {
    command -v "$1" >/dev/null || fail "this needs the command $1"
}

# Builds $source to $module.
build_c() {
    need "$clang"
    need wasm-ld
    "$clang" --target=wasm32 -mcpu=mvp -O2 -ffreestanding -nostdlib -Wall -Wextra -I "$examples/include" \
        -Wl,--no-entry,--strip-all,--compress-relocations,--stack-first,-z,stack-size=5120 -o "$module" "$source"
}

# Says the target for which rustc has a library. wasm32v1-none, of newer versions, has a library of WebAssembly 1.0 alone.
rust_target() {
    for target in wasm32v1-none wasm32-unknown-unknown; do
        libraries=$("$rustc" --target $target --print target-libdir 2>/dev/null) || continue
        if [ -d "$libraries" ]; then
            echo $target
            return
        fi
    done
    fail "$rustc has no library for WebAssembly (of Debian: libstd-rust-dev-wasm32; of rustup: rustup target add" \
        "wasm32v1-none). RUSTC names another one, such as /usr/bin/rustc"
}

build_rust() {
    need "$rustc"
    target=$(rust_target)
    "$rustc" --target "$target" --edition 2021 --crate-type cdylib -C target-cpu=mvp -C opt-level=s -C lto=fat \
        -C codegen-units=1 -C panic=abort -C strip=symbols -C link-arg=--stack-first -C link-arg=-zstack-size=5120 \
        -o "$module" "$source"
}

need xxd
for folder; do
    [ -d "$folder" ] || folder=$examples/$folder
    [ -d "$folder" ] || fail "there is no folder $folder"
    folder=$(cd "$folder" && pwd)
    name=$(basename "$folder")
    module=$folder/out/$name.wasm
    mkdir -p "$folder/out"
    [ ! -f "$folder/$name.c" ] || [ ! -f "$folder/$name.rs" ] || fail "$folder has both $name.c and $name.rs"
    if [ -f "$folder/$name.c" ]; then
        source=$folder/$name.c
        build_c
    elif [ -f "$folder/$name.rs" ]; then
        source=$folder/$name.rs
        build_rust
    else
        fail "there is no $name.c or $name.rs in $folder"
    fi
    xxd -p "$module" >"$folder/out/$name.hex"
    if [ $store = yes ]; then
        cp "$folder/out/$name.hex" "$folder/$name.hex"
    fi
    if cmp -s "$folder/out/$name.hex" "$folder/$name.hex"; then
        echo "$(basename "$source") is built as $name.hex has it"
    else
        echo "$(basename "$source") is built to other bytes than $name.hex has; --store stores them there"
    fi
done
