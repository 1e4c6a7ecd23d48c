#!/bin/sh
# Proves and builds the program, and shows what it does: vets a module, shows a transaction, a ledger and a set, and applies
# the set to a ledger. Then token.sh uploads a token, creates it, mints and transfers.
#
# The inputs are those of the crate command_cases, whose table data/readme.txt has the same commands and what they do. Its
# table data/token.txt has those of token.sh. So the gate checks what both print.
#
# SOROBAN names another program, which is built already. Then nothing is proved.
set -eu
tools='python3 xxd'
[ -n "${SOROBAN:-}" ] || tools="rt $tools"
for tool in $tools; do
    command -v "$tool" >/dev/null || { echo "$0 needs the command $tool" >&2; exit 1; }
done
cd "$(dirname "$0")/.."
examples=$PWD/examples
[ -n "${SOROBAN:-}" ] || python3 tools/prove.py soroban_cmd

program=${SOROBAN:-$PWD/crates/soroban_cmd/out/soroban_cmd}
inputs=$PWD/crates/command_cases/data/example
folder=$(mktemp -d)
trap 'rm -rf "$folder"' EXIT
for name in set ledger verdicts module token; do
    sed 's/#.*//' "$inputs/$name.hex" | xxd -r -p >"$folder/$name.bin"
done
cp "$inputs/envelope.b64" "$folder"
cd "$folder"

soroban() {
    echo "\$ soroban_cmd $*"
    "$program" "$@"
}

echo
soroban vet --module module.bin
soroban show --kind envelope --file envelope.b64 --base64
soroban show --kind ledger --file token.bin
soroban show --kind set --file set.bin
soroban show --kind ledger --file ledger.bin
soroban apply --set set.bin --ledger ledger.bin --verdicts verdicts.bin --close-time 1001 --workers 1 \
    --report report.bin --ledger-out next.bin
echo '$ xxd -p -c 36 report.bin'
xxd -p -c 36 report.bin
soroban show --kind ledger --file next.bin

echo
sh "$examples/token.sh"
