#!/bin/sh
# Why a transfer of the token fails: ALICE has 100 and transfers 101, and then ALICE authorises 25 and sends 101.
#
# It runs token.sh for the ledger, and then soroban_why, once both programs are built. SOROBAN and SOROBAN_WHY name others. In
# the lines that soroban_why prints, names stand for the hex digits of the contract, its code and the accounts.
set -eu
cd "$(dirname "$0")"
why=${SOROBAN_WHY:-$PWD/../crates/soroban_why/out/soroban_why}
[ -x "$why" ] || { echo "there is no soroban_why yet: python3 tools/prove.py soroban_why builds it, or SOROBAN_WHY names another one" >&2 && exit 1; }
folder=$(mktemp -d)
trap 'rm -rf "$folder"' EXIT
KEEP=$folder sh token.sh >"$folder/output"
cd "$folder"

code=$(sed -n 's/^code //p' output)
contract=$(sed -n 's/^contract //p' output)
why() {
    echo "\$ soroban_why $*"
    "$why" "$@" | sed -e "s/$contract/TOKEN/g" -e "s/$code/CODE/g" -e 's/\(a1\)\{32\}/ALICE/g' -e 's/\(b0\)\{32\}/BOB/g'
}

# The amount stands twice in the envelope, as a U64: in the call, and in the authorisation.
amount=000000050000000000000019
other=000000050000000000000065
digits=$(xxd -p transfer.draft | tr -d '\n')
echo "$digits" | sed "s/$amount/$other/g" | xxd -r -p >too-much.draft
echo "$digits" | sed "s/$amount/$other/" | xxd -r -p >not-authorised.draft

echo 'ALICE has 100, and transfers 101:'
why --tx too-much.draft --ledger ledger-103.bin --verdicts verdicts.bin --close-time 1004 --record

echo
echo 'ALICE authorises 25, and sends 101:'
why --tx not-authorised.draft --ledger ledger-103.bin --verdicts verdicts.bin --close-time 1004 --record
