#!/usr/bin/env bash
# Every test: the proofs and the programs, and the layout of the sources (rt ci); that each public function is held to one answer; contracts, rules
# and functions broken on purpose, which must be refused; then `trace` and the library beside the second program.
# Ends with 'N passed, 0 failed' where all is well, and with another line and a status that is not 0 where not.
set -u
cd "$(dirname "$0")" || exit 2

fail() {
    printf 'test.sh: %s\n' "$1" >&2
    exit "${2:-1}"
}

# Runs a tool whose last line is its count, 'WORDS: N', and counts N as passed.
counted() { # WORDS TOOL [WORDS...]
    words=$1 tool=$2
    shift 2
    bash "tools/$tool" "$@" 2>&1 | tee "$log"
    [ "${PIPESTATUS[0]}" -eq 0 ] || fail "tools/$tool failed: what it printed above says where"
    count=$(sed -n "\$s/^$words: \([1-9][0-9]*\)\$/\1/p" "$log")
    [ -n "$count" ] || fail "tools/$tool did not end with its line '$words: N'"
    passed=$((passed + count))
}

command -v rt >/dev/null 2>&1 || fail 'the Rattle kit is needed: there is no command rt on the PATH' 2
command -v cargo >/dev/null 2>&1 || fail 'Rust is needed for the second program: there is no command cargo on the PATH' 2
log=$(mktemp) || fail 'no temporary file can be made' 2
trap 'rm -f "$log"' EXIT
passed=0

echo '== proofs, programs, layout (rt ci)'
rt ci 2>&1 | tee "$log"
[ "${PIPESTATUS[0]}" -eq 0 ] || fail 'rt ci failed: what it printed above says where'
passed=$(sed -n '$s/^\([0-9][0-9]*\) passed, 0 failed$/\1/p' "$log")
[ -n "$passed" ] || fail 'rt ci did not end with its line of tests passed'
grep -q '^rt: ok' "$log" || fail 'rt ci did not say rt: ok'
! grep -Eq '^rt: ok.*, [1-9][0-9]* bad' "$log" || fail 'rt ci: an edit of must-fail/ is bad, as told above'

echo '== what the tools begin with: each crate as rt check proves it (rt all check)'
rt all check >"$log" 2>&1 || { tail -n 60 "$log"; fail 'rt all check failed: see above'; }

echo '== contracts: every public function stands in proofs/Contracts.antt (tools/contracts.sh)'
counted 'public functions held to one answer' contracts.sh

echo '== seats: a view becomes one by the leader rule alone (tools/seats-made.txt)'
grep -rE '\bSeat\(' crates/*/src --include='*.rt' | sed 's/:  */: /' | LC_ALL=C sort | diff tools/seats-made.txt - || fail 'a seat is made in a new place (>): if not from a view, add it to tools/seats-made.txt'

echo '== contracts that say too little, functions left out (tools/hollow-contracts.txt, tools/contracts.sh)'
counted 'hollow contracts refused' contracts.sh trials

echo '== rules made wrong: a law or theorem refuses each (crates/*/rules.txt, tools/rules.sh)'
counted 'rules refused' rules.sh

echo '== every function broken: the prover refuses each by name (crates/*/broken.txt, tools/broken.sh)'
counted 'broken functions refused' broken.sh

echo '== fields that another crate must not reach (tools/private.sh)'
counted 'private fields refused' private.sh

echo '== the tools themselves, each given what it must not let pass (tools/tried.sh)'
counted 'tools tried' tried.sh

echo '== the second program (second/, Rust)'
cargo build --release --offline --quiet --manifest-path second/Cargo.toml || fail 'second/ cannot be built'
second=second/target/release/second

echo '== examples and edges, by trace and by the second program (second/cases)'
"$second" cases second/cases --trace crates/trace/out/trace || fail 'a case differs: see above'

echo '== no input, no output, noise, a line of 100 MB (tools/odd-inputs.sh)'
bash tools/odd-inputs.sh crates/trace/out/trace "$second" || fail 'trace does something else on an odd input: see above'

echo '== random runs, by trace and by the second program'
"$second" runs --trace crates/trace/out/trace || fail 'a random run differs, or a cell was not reached: see above'

echo '== the library for C and Rust, beside the second program (crates/station_c, second/library)'
(cd crates/station_c && rt lib) >"$log" 2>&1 || { cat "$log"; fail 'rt lib of station_c failed: see above'; }
mkdir -p target/staticlib && cp crates/station_c/out/libstation_c.a target/staticlib/libstation.a || fail 'crates/station_c/out/libstation_c.a is not there'
STATION_DIR=$PWD/target/staticlib cargo build --release --offline --quiet --manifest-path second/library/Cargo.toml || fail 'second/library cannot be built'
second/library/target/release/library || fail 'the library differs, or a cell was not reached: see above'

printf '%d passed, 0 failed\n' $((passed + 4))
