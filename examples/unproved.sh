#!/bin/sh
# Shows the program within about a minute, unproved: `rt try` compiles it with checks that stop it at some faults. Nothing that
# the README promises is known of it. examples/run.sh proves and builds the program.
#
# sh examples/unproved.sh                              shows the program
# sh examples/unproved.sh --keep FILE [--why FILE]     keeps it as FILE, too; and soroban_why, which takes another minute
set -eu
usage() {
    echo "usage: $0 [--keep FILE [--why FILE]]" >&2
    exit 2
}

# Prints the path of a file that is to be kept.
place() {
    [ -d "$(dirname "$1")" ] || { echo "there is no folder for $1" >&2; exit 1; }
    case $1 in
        /*) echo "$1" ;;
        *) echo "$PWD/$1" ;;
    esac
}

keep=
why=
if [ $# -gt 0 ]; then
    [ $# -ge 2 ] && [ "$1" = --keep ] || usage
    keep=$(place "$2")
    shift 2
fi
if [ $# -gt 0 ]; then
    [ $# -eq 2 ] && [ "$1" = --why ] || usage
    why=$(place "$2")
fi
for tool in rt xxd; do
    command -v "$tool" >/dev/null || { echo "$0 needs the command $tool" >&2; exit 1; }
done
cd "$(dirname "$0")/../crates/soroban_cmd"

inputs=$PWD/../command_cases/data/example
folder=$(mktemp -d)
trap 'rm -rf "$folder"' EXIT
for name in set ledger verdicts module token; do
    sed 's/#.*//' "$inputs/$name.hex" | xxd -r -p >"$folder/$name.bin"
done

# Of each command a file that bears its words, which is its standard input, and a file with a word a line.
mkdir "$folder/commands"
number=0
soroban() {
    number=$((number + 1))
    : >"$folder/commands/$number soroban_cmd $*"
    printf '%s\n' "$@" >"$folder/commands/$number soroban_cmd $*.args"
}
soroban vet --module module.bin
soroban show --kind envelope --file envelope.b64 --base64
soroban show --kind ledger --file token.bin
soroban show --kind set --file set.bin
soroban show --kind ledger --file ledger.bin
soroban apply --set set.bin --ledger ledger.bin --verdicts verdicts.bin --close-time 1001 --workers 1 \
    --report report.bin --ledger-out next.bin

# `rt try` has no word to keep the program: it builds it in a folder for temporary files, runs it there, and removes it. So it
# gets a folder of ours, and the file gets a second name while it stands there.
catch() {
    while [ -d "$folder/build" ]; do
        for file in "$folder"/build/*/program "$folder"/build/*/*/program "$folder"/build/*/*/*/program; do
            if [ -f "$file" ] && ln -f "$file" "$folder/program" 2>/dev/null; then
                return
            fi
        done
        sleep 0.05
    done
}

# build FILE WORD ..: compiles the crate of this folder, runs it as the words say, and keeps it as FILE, if that is not empty.
build() {
    kept=$1
    shift
    rm -f "$folder/program"
    mkdir "$folder/build"
    if [ -n "$kept" ]; then
        catch &
    fi
    TMPDIR=$folder/build rt try "$@" >"$folder/output" 2>"$folder/log" || {
        cat "$folder/output" "$folder/log" >&2
        exit 1
    }
    rm -rf "$folder/build"
    wait
    if [ -n "$kept" ]; then
        [ -f "$folder/program" ] || { echo "this kit builds the program elsewhere, so it is not kept" >&2; exit 1; }
        cp "$folder/program" "$kept"
        chmod 755 "$kept"
    fi
}

if [ -n "$keep" ]; then
    # The last run takes about a second, so that the file stands long enough.
    soroban gen --count 2000 --seed 1 --set set --ledger ledger --verdicts verdicts
fi
echo 'The program is compiled unproved, which takes about a minute.'
build "$keep" --data set.bin="$folder/set.bin" --data ledger.bin="$folder/ledger.bin" \
    --data verdicts.bin="$folder/verdicts.bin" --data module.bin="$folder/module.bin" --data token.bin="$folder/token.bin" \
    --data envelope.b64="$inputs/envelope.b64" --cases "$folder/commands"
sed 's/^== [0-9]* /$ /' "$folder/output"
echo 'All of this was unproved. What apply stored is gone.'
if [ -n "$keep" ]; then
    "$keep" vet --module "$folder/module.bin" >/dev/null
    echo "The program is kept as $keep, unproved."
fi

if [ -n "$why" ]; then
    cd ../soroban_why
    rm -r "$folder/commands"
    mkdir "$folder/commands"
    # So many runs take about a second.
    for number in $(seq 40); do
        : >"$folder/commands/$number soroban_why --version"
        echo --version >"$folder/commands/$number soroban_why --version.args"
    done
    build "$why" --cases "$folder/commands"
    "$why" --version >/dev/null
    echo "The program soroban_why is kept as $why, unproved."
fi
