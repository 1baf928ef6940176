# Breaks the functions of one crate in a copy of it, as its broken.txt says, and has the prover refuse each of them by name.
# tools/broken.sh calls this, with the crate's name, its folder (from), its copy's (to), the words that ask the prover (ask), and where what
# it says is kept (log_at).
#
# A block of broken.txt is a line `fn: ` with the function as the prover names it, perhaps a line `name: `, then `file: `, `old: ` and
# `new: `: the first `old` behind the function's head becomes `new`. The prover is asked again, without those that it has judged, until none
# is left: where a function calls one that is broken too, some of its goals wait for that one. It must miss a fact, not a name: the goals of
# a function have names from its code, as `returns-then-x-lt48` from `if x < 48`. Where a change renames some, a line `goals: ` has the words
# of names before and after, as `x-lt48 x-lt49`, and what stands in proofs/ of the function is read with the new ones. A change that makes the
# proof speak of steps that are no longer there is refused whatever it means, and needs a line `shape: ` that says why.
# Every function that the prover names has a block, but for those that the toolchain writes where a type derives a trait: they have no text
# to change. A closure, and what it is given to, are part of the function in which they stand. In a program those that read or write may
# have a line `open: `, the function, a colon and why, instead.

/^fn: / { blocks += 1; of[blocks] = substr($0, 5); told[of[blocks]] = 1 }
/^open: / { opens += 1; left_open[opens] = substr($0, 7) }
/^name: / { name[blocks] = " (" substr($0, 7) ")" }
/^file: / { file[blocks] = substr($0, 7) }
/^old: / { old[blocks] = substr($0, 6) }
/^new: / { new[blocks] = substr($0, 6) }
/^goals: / { renamed[blocks] = renamed[blocks] " " substr($0, 8) }
/^shape: / { shape[blocks] = substr($0, 8) }

END {
    for (k = 1; k <= opens; k += 1) leave_open(left_open[k])
    for (b = 1; b <= blocks; b += 1) open[b] = 1
    left = blocks
    while (left > 0) {
        round += 1
        tried = break_some()
        prove()
        judged = judge()
        if (judged == 0) stop("the prover says nothing of the functions that are left; see " log_of())
        left -= judged
    }
    all_told()
    printf "%s: %d broken functions tried in %d rounds, %d refused\n", crate, blocks, round, blocks - unrefused
    exit bad > 0
}

function leave_open(line,    first) {
    if ((getline first < (from "/src/main.rt")) < 0) stop("open: " line ": only a function of a program may be left open")
    if (line !~ /^[^ ]+: .+/) stop("open: " line ": a function, a colon and why are wanted")
    sub(/: .*/, "", line)
    told[line] = 1
    is_open[line] = 1
}

# Of every function that the prover names something is told, and no function is told of that it does not name.
function all_told(    f) {
    read_derives()
    for (f in found) if (!(f in told) && !is_derived(f)) { bad += 1; print crate ": " f " has no block in broken.txt" }
    for (f in is_open) if (!(f in found)) { bad += 1; print crate ": " f " is left open, and there is no such function" }
}

# Which types derive which traits: `#[derive(A, B)]`, and on the next line the type. A derived method is named TypeTrait::method.
function read_derives(    list, path, line, traits, words, n, k, type) {
    list = "find '" from "/src' -name '*.rt'"
    while ((list | getline path) > 0) {
        traits = ""
        while ((getline line < path) > 0) {
            if (line ~ /^#\[derive\([A-Za-z, ]*\)\]$/) { traits = substr(line, 10, length(line) - 11); continue }
            if (traits != "" && match(line, /(struct|enum) [A-Za-z0-9_]+/)) {
                type = substr(line, RSTART, RLENGTH)
                sub(/^.* /, "", type)
                n = split(traits, words, /, */)
                for (k = 1; k <= n; k += 1) derived[type words[k]] = 1
            }
            traits = ""
        }
        close(path)
    }
    close(list)
}

function is_derived(f,    parts, n) {
    n = split(f, parts, "::")
    return parts[n - 1] in derived
}

function stop(why) {
    print crate ": " why
    exit 2
}

function log_of() {
    return log_at "." round ".log"
}

# One open block of each function is applied to a copy of the sources as they are.
function break_some(    b, seen, many) {
    system("rm -rf '" to "' && mkdir '" to "' && cd '" from "' && cp -R `ls | grep -xE \"src|specs|proofs\"` '" to "'")
    for (b = 1; b <= blocks; b += 1) {
        applied[b] = 0
        if (open[b] && !((of[b]) in seen)) {
            seen[of[b]] = 1
            change(b)
            applied[b] = 1
            many += 1
        }
    }
    return many
}

function change(b,    path, text, line, at, head, parts, n) {
    path = to "/" file[b]
    while ((getline line < path) > 0) text = text line "\n"
    close(path)
    n = split(of[b], parts, "::")
    at = 1
    if (parts[n - 1] ~ /^[A-Z]/) at = behind(text, at, "impl " parts[n - 1] (index(text, "impl " parts[n - 1] " {") ? " {" : "<"), b)
    do at = behind(text, at, "fn " parts[n], b)
    while (substr(text, at, 1) !~ /[(<]/)
    at = behind(text, at, old[b], b)
    head = substr(text, 1, at - length(old[b]) - 1)
    n = split(head old[b], parts, "\n")
    if (parts[n] ~ /^ *(requires|ensures)/) stop(of[b] name[b] ": the first '" old[b] "' stands in its contract")
    printf "%s%s%s", head, new[b], substr(text, at) > path
    close(path)
    if (renamed[b] != "") respell(b)
}

# In what stands in proofs/ of the function, the names of its goals.
function respell(b,    list, path, text, line, words, n, k) {
    n = split(renamed[b], words, " ")
    if (n % 2) stop(of[b] name[b] ": goals: words before and after, in pairs")
    list = "ls '" to proof_of(of[b]) "'*.antt 2>/dev/null"
    while ((list | getline path) > 0) {
        text = ""
        while ((getline line < path) > 0) text = text line "\n"
        close(path)
        for (k = 1; k < n; k += 2) text = respelled(text, words[k], words[k + 1])
        printf "%s", text > path
        close(path)
    }
    close(list)
}

# `word` stands in a name behind a dash, or begins it where it has a dash itself, and ends before a dash or with the name.
function respelled(text, word, by,    out, at, before, after) {
    while ((at = index(text, word)) > 0) {
        before = at > 1 ? substr(text, at - 1, 1) : substr(out, length(out))
        after = substr(text, at + length(word), 1)
        out = out substr(text, 1, at - 1) ((before == "-" || word ~ /-/ && before !~ /[A-Za-z0-9_]/) && after !~ /[A-Za-z0-9_]/ ? by : word)
        text = substr(text, at + length(word))
    }
    return out text
}

# The place behind the first `what` from `at` on.
function behind(text, at, what, b,    found) {
    found = index(substr(text, at), what)
    if (what == "" || found == 0) stop(of[b] name[b] ": '" what "' is not in " file[b])
    return at + found - 1 + length(what)
}

function prove() {
    system(ask " > '" log_of() "' 2>&1")
}

# Where the prover's errors of a function's own proof are.
function proof_of(f,    parts, n, i, path) {
    n = split(f, parts, "::")
    path = "/proofs"
    for (i = 2; i <= n; i += 1) path = path "/" parts[i]
    return path "/"
}

# How many blocks this round settled. A function is refused where `search` misses a goal of its own, as notes before its line say or the line
# itself, or where what stands of it in proofs/ has an error. One whose goals wait for a callee, and that has none of these, is not judged.
function judge(    line, path, said, missed, noted, errors, steps, b, many, f, at, refused) {
    path = log_of()
    while ((getline line < path) > 0) {
        if (line ~ /^note: src\/[^ ]*: it is not proved that /) noted = 1
        if (line ~ /^struct |^enum /) noted = 0
        if (line ~ /^fn /) {
            f = substr(line, 4, index(line, ": ") - 4)
            said[f] = substr(line, index(line, ": ") + 2)
            missed[f] = noted || said[f] ~ /did not prove/
            noted = 0
            if (f !~ /::fn::/) found[f] = 1
        }
        if (line ~ /^[^ ].*: (error|note|warning): /) at = ""
        if (line ~ /^[^ ].*: error: /) {
            at = substr(line, 1, index(line, ": error: "))
            errors[at] = 1
        }
        if (at != "" && line ~ /has no field `|that can be named from here|is not in scope|was not admitted/) steps[at] = 1
    }
    close(path)
    for (b = 1; b <= blocks; b += 1) {
        if (!applied[b] || !(of[b] in said)) continue
        f = of[b]
        refused = missed[f] || stands_in(proof_of(f), errors)
        if (said[f] ~ /it calls/ && !refused) continue
        open[b] = 0
        many += 1
        if (said[f] !~ /^(not proved|no proof|could not tell)/) complain(b, "NOT REFUSED", said[f])
        else if (shape[b] == "" && stands_in(proof_of(f), steps)) complain(b, "REFUSED FOR ITS SHAPE", "see " path)
        else if (!refused) complain(b, "REFUSED FOR NO REASON", "see " path)
    }
    return many
}

function stands_in(path, places,    at) {
    for (at in places) if (index(at, path)) return 1
    return 0
}

function complain(b, what, why) {
    bad += 1
    unrefused += 1
    print crate ": " what ": " of[b] name[b] " with '" new[b] "' for '" old[b] "': " why
}
