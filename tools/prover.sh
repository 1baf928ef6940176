#!/usr/bin/env bash
# Has the prover check a copy of one crate, over the libraries below it as `rt ci` or `rt check` built them in crates/*/out.
#   bash tools/prover.sh NAME FOLDER KEPT [FROM]
# FOLDER holds the copy's src/, specs/ and proofs/. KEPT is where the prover keeps what it proved: with no such folder yet, it begins with what
# is in FROM, or what `rt check` of the crate kept. It stands on the crates that crates.txt names, or that BELOW does. Prints what the prover
# says and ends with its status: 0 proved, 1 not, another where it has no verdict.
set -u
cd "$(dirname "$0")/.." || exit 2
name=$1 folder=$2 kept=$3 from=${4:-crates/$1/out/incremental}
kit=$(dirname "$(rt doc)")

if [ ! -d "$kept" ] && [ -d "$from" ]; then
    # The prover replaces a file that it proved, and never writes into it, so a link is enough of such a file.
    cp -Rl "$from" "$kept" 2>/dev/null || { rm -rf "$kept" && cp -R "$from" "$kept"; } || exit 2
    find "$kept" -type f ! -name '*.oantt' | while IFS= read -r file; do cp "$file" "$file.own" && mv "$file.own" "$file"; done
fi

set -- --crate-name "$name" --extern "std=$kit/rlibs/std.rlib" -L "dependency=$kit/rlibs"
for below in ${BELOW:-$(sed -n "s/^$name\( [^:]*\)\{0,1\}: *//p" crates.txt)}; do
    if [ -d "crates/$below" ]; then set -- "$@" --extern "$below=$PWD/crates/$below/out/rlib/$below.rlib"; else set -- "$@" --extern "$below=$kit/rlibs/$below.rlib"; fi
done
for other in $(bash tools/listed.sh libraries); do set -- "$@" -L "dependency=$PWD/crates/$other/out/rlib"; done
grep -q "^$name staticlib" crates.txt && set -- "$@" --crate-type staticlib
cd "$folder" || exit 2
root=src/lib.rt
[ -f "$root" ] || root=src/main.rt
exec "$kit/bin/rattle" check "$root" "$@" --antt-project "$kit/rattle/logic/antt-project.json" --logic-built "$kit/logic_built" --jobs 1 --incremental "$kept"
