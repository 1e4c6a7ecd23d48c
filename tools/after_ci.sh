#!/bin/sh
# The checks beside proofs: that documents are in step with the code, that tools do what they say, and what the real program
# does. `bash .ci/run` runs this after `rt ci`, which leaves the program in crates/soroban_cmd/out, and WHY, the program
# soroban_why, in crates/soroban_why/out. Nothing is proved here.
#
# sh tools/after_ci.sh [PROGRAM [WHY]]
#
# Each check has a line `ok NAME` or `FAILED NAME`. What a failed check printed stands above its line. The last line counts.
program=${1:+$(realpath "$1")}
why=${2:+$(realpath "$2")}
cd "$(dirname "$0")/.." || exit 2
program=${program:-$PWD/crates/soroban_cmd/out/soroban_cmd}
why=${why:-$PWD/crates/soroban_why/out/soroban_why}
export PYTHONDONTWRITEBYTECODE=1
output=$(mktemp) || exit 2
trap 'rm -f "$output"' EXIT
passed=0
failed=0

# Runs the words behind the name as a command, which passes if its status is 0.
check() {
    name=$1
    shift
    if "$@" >"$output" 2>&1; then
        passed=$((passed + 1))
        echo "ok $name"
    else
        failed=$((failed + 1))
        cat "$output"
        echo "FAILED $name"
    fi
}

# The tests of python/, over the program. A test that lacks something, such as a module of Python or a browser, has a line that
# begins with "skipped".
check_python() {
    check 'tests of python/' env SOROBAN_CMD="$program" SOROBAN_WHY="$why" python3 -m unittest discover -v -s python
    sed -n "s/^\(.*\) \.\.\. skipped ['\"]\(.*\)['\"]$/skipped \1: \2/p" "$output"
}

check 'docs/DEFINITIONS.md has each definition' python3 tools/definitions.py --check
check 'docs/TRUST.md has each page that decides' python3 tools/definitions.py --trust
check 'docs/RULES.md and docs/PROMISES.md name what is there' python3 tools/rules.py --check
check 'tests of tools/rules.py' python3 tools/test_rules.py
check 'tests of tools/links.py and tools/pictures.py' python3 tools/test_pages.py
check 'links of the documents lead somewhere' python3 tools/links.py
check 'docs/pictures are what tools/pictures.py draws' python3 tools/pictures.py --check
check 'docs/ARCHITECTURE.md has each crate' python3 tools/layers.py --check
check 'definitions stand on no code, and only published lemmas are cited' python3 tools/crossings.py --check
check 'docs/COSTS.md has the lines of each crate' python3 tools/lines.py --check
check 'lines, bodies and docstrings are as they have to be' python3 tools/hygiene.py
check 'tests of tools/hygiene.py' python3 tools/test_hygiene.py
check 'soroban_host.h has each host function' python3 tools/host_header.py --check
check 'tests of .ci/run' python3 tools/test_gate.py
check 'edits stand in the code' python3 tools/edits.py --check
check 'tests of tools/edits.py' python3 tools/test_edits.py
check 'tests of tools/prove.py' python3 tools/test_prove.py
[ -d python ] && check_python

if [ -x "$program" ]; then
    for table in tools/program_cases/*.txt crates/command_cases/data/*.txt; do
        check "program: $table" python3 tools/program_cases.py "$program" "$table"
    done
    check 'program: the options of tools/commands.json' python3 tools/command_table.py check "$program"
    check 'program: the examples of the README' python3 tools/readme_examples.py "$program"
    check 'program: faulty ones fail the tables' python3 tools/test_program_cases.py "$program"
    check 'program: 300 inputs that are changed by chance' python3 tools/fuzz.py "$program" --count 300
    check 'program: tools/fuzz.py finds faulty ones' python3 tools/test_fuzz.py "$program"
else
    check "program: $program is there" false
fi

if [ -x "$why" ]; then
    for table in tools/program_cases/why/*.txt crates/command_cases/data/why/*.txt; do
        check "soroban_why: $table" python3 tools/program_cases.py "$why" "$table"
    done
    check 'soroban_why: the options of tools/commands.json' python3 tools/command_table.py check-other why "$why"
    check 'soroban_why: the example of docs/CONTRACTS.md' python3 tools/readme_examples.py --why "$program" "$why"
else
    check "soroban_why: $why is there" false
fi

echo "$passed passed, $failed failed"
[ "$failed" -eq 0 ]
