#!/usr/bin/env bash
# Every public function of every library stands in its proofs/Contracts.antt; and contracts that say too little are refused.
#   bash tools/contracts.sh            looks at the crates
#   bash tools/contracts.sh trials     tries tools/hollow-contracts.txt, each on a copy of crates/base
# A trial is a block: `trial: ` its name, `refused: ` by whom, then of each `file: ` what is added at its end (`add: `) or replaced (`old: `,
# `new: `). `refused: names: WORDS`: tools/contracts.awk says these words, and no prover is asked. `refused: prover`: its first error stands in
# proofs/Contracts.antt, where a statement and the contract differ. (`rt ci` or `rt check` has proved the crates.)
set -u
cd "$(dirname "$0")/.." || exit 2

# The public functions of the library NAME in the folder DIR.
names() { # NAME DIR
    [ -f "$2/proofs/Contracts.antt" ] || { echo "$2: there is no proofs/Contracts.antt"; return 1; }
    [ -z "$(find "$2" -type l)" ] || { echo "$2: there is a link in it, and nobody follows links"; return 1; }
    find "$2/src" -name '*.rt' | sort | xargs awk -v crate="$1" -f tools/contracts.awk "$2/proofs/Contracts.antt"
}

if [ "${1:-}" != trials ]; then
    failed=0
    functions=0
    for crate in $(bash tools/listed.sh libraries); do
        said=$(names "$crate" "crates/$crate") || { printf '%s\n' "$said"; failed=1; continue; }
        functions=$((functions + said))
    done
    [ "$failed" -eq 0 ] && echo "public functions held to one answer: $functions"
    exit "$failed"
fi

copies=$(mktemp -d) || exit 2
trap 'rm -rf "$copies"' EXIT

# A copy of crates/base for each trial, with what the trial changes.
awk -v copies="$copies" '
    function stop(why) { print "tools/hollow-contracts.txt:" FNR ": " why; failed = 1; exit 1 }
    function write() { if (path != "") { printf "%s", text > path; close(path) } path = "" }
    function read(p,    line) { write(); path = p; text = ""; while ((getline line < p) > 0) text = text line "\n"; close(p) }
    /^trial: / {
        write()
        name = substr($0, 8)
        system("mkdir -p " copies "/" name " && cp -R crates/base " copies "/" name "/base")
        print name > (copies "/list")
    }
    /^refused: / { print substr($0, 10) > (copies "/" name "/by"); close(copies "/" name "/by") }
    /^file: / {
        f = copies "/" name "/base/" substr($0, 7)
        dir = f
        sub(/\/[^\/]*$/, "", dir)
        system("mkdir -p " dir)
        read(f)
    }
    /^add: / { text = text substr($0, 6) "\n" }
    /^old: / { old = substr($0, 6) }
    /^new: / {
        at = index(text, old)
        if (!at || index(substr(text, at + length(old)), old)) stop("old is not there once")
        text = substr(text, 1, at - 1) substr($0, 6) substr(text, at + length(old))
    }
    END { if (!failed) write() }
' tools/hollow-contracts.txt || exit 1
[ -s "$copies/list" ] || { echo 'tools/hollow-contracts.txt has no trial'; exit 1; }

# One trial; says what is wrong with it.
try() { # NAME
    dir=$copies/$1/base
    by=$(cat "$copies/$1/by" 2>/dev/null)
    said=$(names base "$dir")
    status=$?
    case $by in
    'names: '?*)
        [ "$status" -ne 0 ] || { echo "$1: every name is in its place: tools/contracts.awk lets it through"; return; }
        case $said in
        *"${by#names: }"*) ;;
        *) echo "$1: tools/contracts.awk does not say '${by#names: }' but: $said" ;;
        esac
        ;;
    prover)
        [ "$status" -eq 0 ] || { echo "$1: tools/contracts.awk refuses it already: $said"; return; }
        log=$(bash tools/prover.sh base "$dir" "$copies/$1/kept" 2>&1) && { echo "$1: the prover takes it"; return; }
        first=$(printf '%s\n' "$log" | grep -m 1 ': error')
        case $first in
        ./proofs/Contracts.antt:*': error: '*'the two types differ'*) ;;
        *) echo "$1: the first error is not that a statement of proofs/Contracts.antt says another thing: $first" ;;
        esac
        ;;
    *) echo "$1: no line 'refused: names: WORDS' or 'refused: prover'" ;;
    esac
}

while read -r trial; do
    while [ "$(jobs -pr | wc -l)" -ge "${RT_JOBS:-$(nproc)}" ]; do sleep 0.2; done
    try "$trial" >"$copies/$trial/wrong" 2>&1 </dev/null &
done <"$copies/list"
wait
cat "$copies"/*/wrong
[ -z "$(cat "$copies"/*/wrong)" ] || exit 1
echo "hollow contracts refused: $(wc -l <"$copies/list")"
