#!/bin/sh
# A token, from its module to balances on a ledger. Four transactions upload the module, create a contract of it, mint an
# amount, and transfer a part of it. Each transaction is simulated on the ledger that the one before left, and sent with the
# footprint that the simulation found. Each one is alone in its set, and each set makes the next ledger.
#
# The folder token has the contract in C, its module as hex digits, and the parts of which the transactions are made.
# examples/run.sh builds the program and then runs this. SOROBAN names another program. KEEP names a folder that keeps the files.
set -eu
cd "$(dirname "$0")"
program=${SOROBAN:-$PWD/../crates/soroban_cmd/out/soroban_cmd}
parts=$PWD/token
[ -x "$program" ] || { echo "there is no program yet: examples/run.sh builds it, or SOROBAN names another one" >&2 && exit 1; }
if command -v clang >/dev/null && command -v wasm-ld >/dev/null; then
    sh build.sh token || echo 'This goes on with token.hex.'
fi
folder=${KEEP:-}
if [ -z "$folder" ]; then
    folder=$(mktemp -d)
    trap 'rm -rf "$folder"' EXIT
fi
cd "$folder"

soroban() {
    echo "\$ soroban_cmd $*"
    "$program" "$@"
}

# Prints the hex digits of a file. `xxd -r -p` makes bytes of them again.
digits() {
    xxd -p "$1" | tr -d '\n'
}

# Prints the hex digits of a part: its remarks go, and each name in braces becomes what the name stands for.
part() {
    sed -e 's/#.*//' -e "s/{RESOURCES}/$resources/" -e "s/{DATA}/$data/" -e "s/{ENVELOPE}/$envelope/" \
        -e "s/{SIZE}/$size/" -e "s/{MODULE}/$module/" -e "s/{SALT}/$salt/" -e "s/{CODE}/$code/" -e "s/{CONTRACT}/$contract/" \
        -e "s/{ADMIN}/$admin/" -e "s/{ALICE}/$alice/" -e "s/{BOB}/$bob/" -e "s/{HOLDER}/$holder/" \
        -e "s/{ADDRESS_OF_ADMIN}/$account$admin/" -e "s/{ADDRESS_OF_ALICE}/$account$alice/" \
        -e "s/{ADDRESS_OF_BOB}/$account$bob/" "$parts/$1.hex" | tr -d ' \n'
}

# Simulates the transaction PART on LEDGER at TIME. Keeps its Soroban data with the footprint that was found, and the value
# that it returns.
simulate() {
    data=$(part draft)
    part "$1" | xxd -r -p >"$1.draft"
    soroban simulate --tx "$1.draft" --ledger "$2.bin" --verdicts verdicts.bin --close-time "$3" --out "$1.simulation"

    # The file begins with the Soroban data, whose last bytes are the resources of the draft. The result comes next. If it is
    # a success, it begins with no fee and the code 0 and has 64 bytes. Then come a 1, the value, and the events.
    simulation=$(digits "$1.simulation")
    data=${simulation%%"$resources"*}$resources
    result=${simulation#"$data"}
    case $result in
        000000000000000000000000*) value=$(echo "$result" | cut -c 137-) ;;
        *) echo "the transaction fails" >&2 && exit 1 ;;
    esac
}

# Applies a set with the transaction PART, whose footprint was found, to LEDGER at TIME. This makes the ledger NEXT.
send() {
    envelope=$(part "$1")
    part set | xxd -r -p >"$1.set"
    soroban apply --set "$1.set" --ledger "$2.bin" --verdicts verdicts.bin --close-time "$3" --workers 1 \
        --report "$1.report" --ledger-out "$4.bin"
    soroban show --kind ledger --file "$4.bin"

    # The report has a count, the transaction's hash, and what the file of the simulation has behind the Soroban data.
    [ "$(digits "$1.report" | cut -c 73-)" = "$result" ] || { echo "another result than the simulation's" >&2 && exit 1; }
}

# The keys of three accounts, what stands before a key in the address of an account, and a salt for the contract's address.
admin=adadadadadadadadadadadadadadadadadadadadadadadadadadadadadadadad
alice=a1a1a1a1a1a1a1a1a1a1a1a1a1a1a1a1a1a1a1a1a1a1a1a1a1a1a1a1a1a1a1a1
bob=b0b0b0b0b0b0b0b0b0b0b0b0b0b0b0b0b0b0b0b0b0b0b0b0b0b0b0b0b0b0b0b0
account=0000000000000000
salt=0000000000000000000000000000000000000000000000000000000000000001
resources='' data='' envelope='' size='' module='' code='' contract='' holder=''
resources=$(part resources)

echo
echo 'The module of the token, and a ledger without entries:'
part token | xxd -r -p >token.wasm
part ledger | xxd -r -p >ledger-100.bin
echo 00000000 | xxd -r -p >verdicts.bin
soroban vet --module token.wasm
soroban show --kind ledger --file ledger-100.bin

# In a transaction, zeros follow the module up to a multiple of 4 bytes.
module=$(digits token.wasm)
size=$(printf %08x $((${#module} / 2)))
while [ $((${#module} % 8)) -ne 0 ]; do
    module=${module}00
done

echo
echo 'ADMIN uploads the module, and gets the hash of the code:'
simulate upload ledger-100 1001
code=$(echo "$value" | cut -c 17-80)
echo "code $code"
send upload ledger-100 1001 ledger-101

echo
echo 'ADMIN creates a contract of the code, and gets its address:'
simulate create ledger-101 1002
contract=$(echo "$value" | cut -c 17-80)
echo "contract $contract"
send create ledger-101 1002 ledger-102

echo
echo 'ADMIN mints 100 to ALICE:'
simulate mint ledger-102 1003
send mint ledger-102 1003 ledger-103

echo
echo 'ALICE transfers 25 to BOB:'
simulate transfer ledger-103 1004
send transfer ledger-103 1004 ledger-104

echo
echo 'To ask for a balance, a simulation is enough:'
holder=$account$alice
simulate balance ledger-104 1005
echo "ALICE has $((0x$(echo "$value" | cut -c 9-24)))"
holder=$account$bob
simulate balance ledger-104 1005
echo "BOB has $((0x$(echo "$value" | cut -c 9-24)))"
