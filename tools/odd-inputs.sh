#!/usr/bin/env bash
# `trace` on inputs and outputs that are none, too much, in pieces, or begin with no H: what it prints, what it says on standard error, that it
# ends.
#   bash tools/odd-inputs.sh TRACE SECOND     the two programs
# Ends with a status that is not 0 where something differs from what stands here, or from the second program.
set -u
program=$1
second=$2
here=$(mktemp -d) || exit 2
trap 'rm -rf "$here"' EXIT
failed=0

# One that does not end prints less, and is found by that.
trace() {
    timeout 60 "$program"
}

# What was expected, against the files out and err.
expect() { # NAME OUT ERR
    if [ "$(cat "$here/out")" = "$2" ] && [ "$(cat "$here/err")" = "$3" ]; then return; fi
    printf 'odd input: %s: printed "%s" and said "%s", not "%s" and "%s"\n' "$1" "$(head -c 200 "$here/out")" "$(head -c 200 "$here/err")" "$2" "$3"
    failed=1
}

tab=$(printf '\t')
opening="H${tab}4${tab}1${tab}0${tab}41312020202020202020202000000001"
enter="E${tab}2"
unread='trace: standard input cannot be read'
unwritten='trace: standard output cannot be written'
wanted='trace: the first line must be H, n, f, seat and entry (32 digits of 0-9a-f), with one tab and no blanks between two of them, and a line feed at the end'

trace </dev/null >"$here/out" 2>"$here/err"
expect 'empty input' "0${tab}19" "$wanted"

printf '%s\nS\n' "${opening//$tab/ }" | trace >"$here/out" 2>"$here/err"
expect 'blanks for tabs' "0${tab}19" "$wanted"

printf '%s\nS\n' "${opening/4/3}" | trace >"$here/out" 2>"$here/err"
expect 'an H that setup refuses' "0${tab}1" ''

trace <"$here" >"$here/out" 2>"$here/err"
expect 'a directory' "0${tab}19" "$unread
$wanted"

trace <&- >"$here/out" 2>"$here/err"
expect 'closed input' "0${tab}19" "$unread
$wanted"

: >"$here/out"
printf '%s\n%s\n' "$opening" "$enter" | trace 2>"$here/err" >/dev/full
expect 'a full disk' '' "$unwritten"

# An input without end, of which one line is read: the pipe that nobody reads ends the program.
{ printf '%s\n' "$opening"; yes "$enter"; } 2>/dev/null | trace 2>"$here/err" | head -n 1 >"$here/out"
[ "${PIPESTATUS[1]}" -ne 124 ] || { echo 'odd input: a closed pipe: trace goes on'; failed=1; }
expect 'a closed pipe' "1${tab}0${tab}-${tab}-3${tab}V${tab}0${tab}+${tab}2${tab}-" ''

# Lines that come in pieces, the first one too.
text=$(printf '%s\n%s' "$opening" "$enter")
{ for ((i = 0; i < ${#text}; i += 12)); do printf '%s' "${text:i:12}"; sleep 0.1; done; echo; } | trace >"$here/out" 2>"$here/err"
expect 'lines in pieces' "1${tab}0${tab}-${tab}-3${tab}V${tab}0${tab}+${tab}2${tab}-" ''

# A program's own bytes, with and without a first line.
for first in "$opening" ''; do
    { [ -z "$first" ] || printf '%s\n' "$first"; cat "$program"; } >"$here/noise"
    trace <"$here/noise" >"$here/out" 2>"$here/err"
    "$second" trace <"$here/noise" >"$here/wanted"
    cmp -s "$here/out" "$here/wanted" || { echo 'odd input: binary noise: trace and the second program differ'; failed=1; }
    said=$wanted
    [ -z "$first" ] || said=
    expect 'binary noise' "$(cat "$here/out")" "$said"
done

# A line of 100 MB, in 16 MB of memory.
{ printf '%s\n' "$opening"; head -c 100000000 /dev/zero | tr '\0' A; printf '\n%s\n' "$enter"; } |
    (ulimit -v 16384 && trace) >"$here/out" 2>"$here/err"
expect 'a line of 100 MB' "1${tab}19${tab}-${tab}-3${tab}-
2${tab}0${tab}-${tab}-3${tab}V${tab}0${tab}+${tab}2${tab}-" ''

exit "$failed"
