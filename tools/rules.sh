#!/usr/bin/env bash
# Makes rules wrong, one at a time, and has a law or theorem refuse each: crates/NAME/rules.txt says how.
#   bash tools/rules.sh [NAME...]     of these crates; else of all libraries that have specs/
# A rule is tried over the crate's types and specs alone: no code is in the way, so what refuses it is a theorem, and it takes seconds.
# The crates must be proved (rt check). Ends with the number refused, and with a status that is not 0 where one was not.
set -u
cd "$(dirname "$0")/.." || exit 2
copies=$(mktemp -d) || exit 2
trap 'rm -rf "$copies"' EXIT
mkdir -p target/log

# The types of a source file with what they derive, without its functions and what only they use. A file is in the layout of rt fmt: an item
# begins where a line begins with a letter, and goes on until the next one does. Of what is used, types and constants have a capital letter.
types_of() {
    awk '
        /^[a-z#\/]/ { keep = /^(pub(\([a-z]*\))? )?(mod|struct|enum|const|type) |^#\[derive\(/; used = /^use /; named = "" }
        used { named = named " " $0 }
        used && /;$/ { used = 0; brought(named) }
        keep
        function brought(line,    names, n, i, types) {
            sub(/^ /, "", line)
            sub(/;$/, "", line)
            if (line !~ /\{/) { if (line ~ /::[A-Z][A-Za-z0-9_]*$/) print line ";"; return }
            n = split(substr(line, index(line, "{") + 1), names, /[ ,}]+/)
            for (i = 1; i <= n; i += 1) if (names[i] ~ /^[A-Z]/) types = types (types == "" ? "" : ", ") names[i]
            if (types != "") print substr(line, 1, index(line, "{")) types "};"
        }' "$1"
}

# A crate's types and specs, in a folder of its own name: the prover names the crate after it.
bare() { # NAME COPY
    mkdir -p "$2"
    cp -R "crates/$1/specs" "$2"
    (cd "crates/$1" && find src -name '*.rt') | while IFS= read -r file; do
        mkdir -p "$2/$(dirname "$file")"
        types_of "crates/$1/$file" >"$2/$file"
    done
    number=0
    for law in $(sed -n 's/^falls: //p' "crates/$1/rules.txt" | tr ' ' '\n' | sort -u); do
        for file in $(grep -rlE "^ *(pub )?$law : " "$2/specs"); do witness "$1" "$2" "$law" "$file"; done
    done
}

# A file of its own that cites the law: where a law falls the prover names only a few of those that cite it, but one of each file.
witness() { # NAME COPY LAW FILE
    number=$((number + 1))
    sed -i "s/^\( *\)$3 : /\1pub $3 : /" "$4"
    module=${4#"$2/specs/"}
    module=${module%.antt}
    printf 'use Rattle.%s.specs.%s.{%s}\n\nfalls_%s : Unit {0}\nfalls_%s = search %s\n' "$1" "${module//\//.}" "$3" "$3" "$3" "$3" >"$2/specs/Falls$number.antt"
    printf '\npub mod Falls%s\n' "$number" >>"$2/specs/Lib.antt"
}

# One block, or the crate unchanged, in a copy of its own. What the prover checked of the crate unchanged is kept for this run: beside an edit
# it checks again what stands on the file that was edited.
one() { # NAME [BLOCK]
    label=$1.${2:-unchanged}
    bare "$1" "$copies/$label/$1"
    from=
    [ $# -eq 1 ] || from=$copies/$1.unchanged/kept
    began=$(date +%s)
    awk -v crate="$1" -v edit="${2:-}" -v copy="$copies/$label/$1" -v log_at="$PWD/target/log/rules.$label.log" \
        -v ask="bash tools/prover.sh $1 '$copies/$label/$1' '$copies/$label/kept' $from" -f tools/rules.awk "crates/$1/rules.txt"
    echo "$1 ${2:-unchanged} $? $(($(date +%s) - began))" >>"$copies/done"
    [ $# -eq 1 ] || rm -rf "${copies:?}/$label"
}

# Runs a command beside others, as many as RT_JOBS.
running=0
beside() {
    if [ "$running" -ge "${RT_JOBS:-$(nproc)}" ]; then
        wait -n
        running=$((running - 1))
    fi
    "$@" &
    running=$((running + 1))
}

# Waits for all of them.
over() {
    wait
    running=0
}

# CRATE:BLOCK of each block, first those that take long.
blocks() { # NAME...
    for crate in "$@"; do
        awk -v crate="$crate" '
            /^name: / { name[++count] = substr($0, 7) }
            /^long: / { long[count] = 1 }
            END { for (b = 1; b <= count; b += 1) print 1 - long[b], crate ":" name[b] }' "crates/$crate/rules.txt"
    done | sort -s -n -k 1,1 | sed 's/^. //'
}

[ $# -gt 0 ] || set -- $(bash tools/listed.sh specified)
for crate in "$@"; do
    grep -qs '^name: ' "crates/$crate/rules.txt" || { echo "$crate: there is no rule in crates/$crate/rules.txt"; exit 2; }
    for below in $(sed -n "s/^$crate: *//p" crates.txt); do
        [ -d "crates/$below/out/rlib/$below.rlib" ] || { echo "rules.sh: $below is not built: run rt ci or rt all check first"; exit 2; }
    done
done

# First with no rule changed: what is left of a crate must be proved.
for crate in "$@"; do beside one "$crate"; done
over
for crate in "$@"; do grep -q "^$crate unchanged 0 " "$copies/done" || exit 2; done

for block in $(blocks "$@"); do beside one "${block%%:*}" "${block#*:}"; done
over

bad=0
all=0
for crate in "$@"; do
    tried=$(grep -c '^name: ' "crates/$crate/rules.txt")
    refused=$(grep -c "^$crate [^ ]* 0 " "$copies/done")
    refused=$((refused - 1)) # the crate unchanged
    seconds=$(awk -v crate="$crate" '$1 == crate { sum += $4 } END { print sum }' "$copies/done")
    echo "$crate: $tried rules made wrong, $refused refused ($seconds s)"
    [ "$tried" -eq "$refused" ] || bad=1
    all=$((all + refused))
done
[ "$bad" -eq 0 ] || exit 1
echo "rules refused: $all"
