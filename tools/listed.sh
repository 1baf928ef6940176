#!/usr/bin/env bash
# The crates by their folders, one a line: the tools go by this list. (That crates.txt lists them all, rt ci looks at.)
#   bash tools/listed.sh               all
#   bash tools/listed.sh libraries     those that are no program
#   bash tools/listed.sh specified     of these, those that have specs/
cd "$(dirname "$0")/.." || exit 2
for crate in crates/*; do
    [ -f "$crate/src/lib.rt" ] || [ -z "${1:-}" ] || continue
    [ -d "$crate/specs" ] || [ "${1:-}" != specified ] || continue
    basename "$crate"
done
