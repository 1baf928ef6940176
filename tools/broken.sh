#!/usr/bin/env bash
# Breaks every function once or more, many at a time, and has the prover refuse each by name: crates/NAME/broken.txt says how.
#   bash tools/broken.sh [NAME...]     of these crates; else of all
# The crates must be proved (rt check). Ends with the number refused, and with a status that is not 0 where one was not.
set -u
cd "$(dirname "$0")/.." || exit 2
copies=$(mktemp -d) || exit 2
trap 'rm -rf "$copies"' EXIT
mkdir -p target/log

# One crate, in a copy of its own.
one() {
    began=$(date +%s)
    copy=$copies/$1
    mkdir -p "$copy"
    awk -v crate="$1" -v from="$PWD/crates/$1" -v to="$copy/$1" -v log_at="$PWD/target/log/broken.$1" \
        -v ask="bash tools/prover.sh $1 '$copy/$1' '$copy/kept'" -f tools/broken.awk "crates/$1/broken.txt" >"$copies/$1.out" 2>&1
    status=$?
    sed "s/ refused\$/& ($(($(date +%s) - began)) s)/" "$copies/$1.out"
    rm -rf "$copy"
    return "$status"
}

[ $# -gt 0 ] || set -- $(bash tools/listed.sh)
failed=0
for crate in "$@"; do
    grep -qs '^fn: ' "crates/$crate/broken.txt" || { echo "$crate: there is no block in crates/$crate/broken.txt"; failed=1; }
done
[ "$failed" -eq 0 ] || exit 1
# Those with the most blocks are begun first, so that none of them is left alone at the end.
set -- $(for crate in "$@"; do echo "$(grep -c '^fn: ' "crates/$crate/broken.txt") $crate"; done | sort -rn | sed 's/.* //')
started=
for crate in "$@"; do
    while [ "$(jobs -pr | wc -l)" -ge "${RT_JOBS:-$(nproc)}" ]; do sleep 1; done
    one "$crate" &
    started="$started $!"
done
for job in $started; do wait "$job" || failed=1; done
[ "$failed" -eq 0 ] || exit 1
refused=$(cat "$copies"/*.out | awk '/ refused$/ { sum += $(NF - 1) } END { print sum + 0 }')
echo "broken functions refused: $refused"
