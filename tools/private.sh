#!/usr/bin/env bash
# No other crate can put anything into a `State` of transcript, or make one: its margin would not be counted. A small crate over the
# proved libraries stores into a field, one after the other, or makes a `State`: the compiler must refuse it because that field is
# private, and for nothing else, and take the crate without that line.
#   bash tools/private.sh     the crates must be proved (rt check)
# Ends with the number of fields refused, and with a status that is not 0 where one was not.
set -u
cd "$(dirname "$0")/.." || exit 2
here=$(mktemp -d) || exit 2
trap 'rm -rf "$here"' EXIT
mkdir -p "$here/outside/src"

# Checks the crate with this line.
outside() { # LINE
    printf '%s\n' 'use transcript::State;' '' 'pub fn changed(state: State, other: State) -> State {' \
        '    let mut next = state;' "    $1" '    next' '}' >"$here/outside/src/lib.rt"
    BELOW=transcript bash tools/prover.sh outside "$here/outside" "$here/kept" >"$here/said" 2>&1
}

fail() {
    echo "private: $1" >&2
    cat "$here/said" >&2
    exit 1
}

# Of this line the compiler must say this, and nothing else.
refused() { # LINE FIELD
    ! outside "$1" || fail "NOT REFUSED: $1"
    [ -s "$here/said" ] && ! grep -qv "error\[private-field\]: field \`$2\` of struct \`State\` is private" "$here/said" ||
        fail "refused for something else: $1"
}

outside '' || fail 'a crate that does nothing to a State is not taken'
fields=$(sed -n '/^pub struct State {/,/^}/s/^    \(pub \)*\([a-z_]*\): .*/\2/p' crates/transcript/src/lib.rt)
all=
for field in $fields; do
    refused "next.$field = other.$field;" "$field"
    all="$all $field: other.$field,"
done
refused "next = State {$all };" '[a-z_]*'
echo "private fields refused: $(echo $fields | wc -w)"
