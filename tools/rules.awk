# Makes one rule of a crate wrong in a copy of its types and specs, has the prover check the copy, and judges what it says.
# tools/rules.sh makes the copy and calls this, with the crate's name, the copy's folder (copy), the block's name (edit), the words that ask
# the prover (ask) and where what it says is kept (log_at). With no name it changes nothing: then the copy must be proved.
#
# A block of rules.txt begins with a line `name: `. Then come, in any order:
#   why:      what would go wrong by this rule
#   file: , old: , new:    a change: `old`, which stands once in that file of specs/, becomes `new`. A file holds for the pairs behind it
#   refused:  a file of specs/ and a law in it that refuses the rule: there an error must stand that is the law's own. One or more lines
#   falls:    laws and theorems that are then not proved either, by themselves or because they cite one that is not
#   long:     why the prover takes minutes: it is begun before the others
# An error is a law's own where the prover misses a fact in its proof. The first error of all must be of this kind too: where an edit has a
# name that nobody knows, or does not fit its type, the prover says that first.

/^#|^$/ { next }
/^name: / { start(substr($0, 7)); next }
blocks == 0 { stop("line " NR ": there is no line 'name: ' before it") }
/^why: ./ { why[blocks] = 1; next }
/^file: / { file = substr($0, 7); old = ""; next }
/^old: ./ { old = substr($0, 6); next }
/^new: / { pair(substr($0, 6)); next }
/^refused: [^ ]+ [^ ]+$/ { laws[blocks] += 1; law[blocks, laws[blocks]] = $2 " " $3; next }
/^long: ./ { next }
/^falls: ./ { falls[blocks] = substr($0, 8); next }
{ stop("line " NR " is none that a block can have: " $0) }

END {
    if (stopped) exit 2
    for (b = 1; b <= blocks; b += 1) look(b)
    if (edit == "") unchanged()
    if (!(edit in number)) stop("no block has the name " edit)
    b = number[edit]
    for (p = 1; p <= pairs[b]; p += 1) change(b, p)
    judge(b)
}

function stop(what) {
    print crate ": rules.txt: " what
    stopped = 1
    exit 2
}

# ---- the blocks

function start(name) {
    if (name in number) stop("two blocks have the name " name)
    blocks += 1
    number[name] = blocks
    name_of[blocks] = name
    file = ""
    old = ""
}

function pair(new) {
    if (file == "" || old == "") stop(name_of[blocks] ": line " NR ": 'file: ' and 'old: ' come before 'new: '")
    pairs[blocks] += 1
    file_of[blocks, pairs[blocks]] = file
    old_of[blocks, pairs[blocks]] = old
    new_of[blocks, pairs[blocks]] = new
    old = ""
}

# A block is whole, and speaks of files that are there.
function look(b,    p, i) {
    if (!why[b]) stop(name_of[b] ": a line 'why: ' is missing")
    if (pairs[b] == 0) stop(name_of[b] ": it changes nothing: 'file: ', 'old: ' and 'new: ' are missing")
    if (laws[b] == 0) stop(name_of[b] ": a line 'refused: ' with a file and a law is missing")
    for (p = 1; p <= pairs[b]; p += 1) find(b, file_of[b, p])
    for (i = 1; i <= laws[b]; i += 1) find(b, file_in(law[b, i]))
}

function find(b, path) {
    if (path !~ /^specs\// || path ~ /\.\./ || text_of(copy "/" path) == "") stop(name_of[b] ": there is no file " path " in the crate's specs/")
}

function file_in(where) {
    return substr(where, 1, index(where, " ") - 1)
}

function text_of(path,    text, line) {
    while ((getline line < path) > 0) text = text line "\n"
    close(path)
    return text
}

function change(b, p,    path, text, at, rest) {
    path = copy "/" file_of[b, p]
    text = text_of(path)
    at = index(text, old_of[b, p])
    if (at == 0) stop(edit ": '" old_of[b, p] "' is not in " file_of[b, p])
    look_at_place(b, file_of[b, p], substr(text, 1, at - 1) old_of[b, p])
    rest = substr(text, at + length(old_of[b, p]))
    if (index(rest, old_of[b, p]) > 0) stop(edit ": '" old_of[b, p] "' is more than once in " file_of[b, p])
    printf "%s%s%s", substr(text, 1, at - 1), new_of[b, p], rest > path
    close(path)
}

# The change lies in a definition: not in a signature, nor in a law that is to refuse it or falls by it.
function look_at_place(b, path, upto,    lines, n, i, name) {
    n = split(upto, lines, "\n")
    if (lines[n] ~ /^(abbrev |unfoldable )?(pub )?[^ ]+ : /) stop(edit ": it changes the signature '" substr(lines[n], 1, 80) "'")
    for (i = n; i > 0; i -= 1) if (lines[i] ~ /^[^ -]/) break
    name = lines[i]
    sub(/^(abbrev |unfoldable )?(pub )?/, "", name)
    sub(/ .*/, "", name)
    for (i = 1; i <= laws[b]; i += 1) if (law[b, i] == path " " name) stop(edit ": it changes the law " name " itself")
    if (index(" " falls[b] " ", " " name " ")) stop(edit ": it changes the law " name " itself")
}

# ---- the prover's answer

# Its verdict and status; the first error; the laws with an error of their own, by file and name; every name that has an error.
function prove(    line, at, path, said, name) {
    system(ask " > '" log_at "' 2>&1; echo status=$? >> '" log_at "'")
    while ((getline line < log_at) > 0) {
        if (line ~ /^logic=/) verdict = line
        if (line ~ /^status=/) status = substr(line, 8)
        if (line !~ /^error: |^[^ ].*: error: /) continue
        if (line ~ /: error: [0-9]+ declarations? that depends? on `.*, (was|were) not checked: /) { fallen(line); continue }
        at = index(line, "error: ")
        path = substr(line, 1, at - 1)
        said = substr(line, at + 7)
        name = ""
        if (said ~ /^`[^`]*`: /) {
            name = substr(said, 2, index(said, "`: ") - 2)
            said = substr(said, length(name) + 5)
        }
        errors += 1
        if (errors == 1) first = path name ": " said
        if (errors == 1) first_fails = fact_fails(said)
        unproved[name] = 1
        sub(/^.*\/specs\//, "specs/", path)
        sub(/:.*/, "", path)
        if (fact_fails(said)) own[path " " name] = 1
    }
    close(log_at)
}

# What the prover did not look at, since it cites what is not proved. It names a few, and how they came to cite it.
function fallen(line,    names, n, i) {
    sub(/^.* not checked: /, "", line)
    gsub(/ \(via [^)]*\)/, "", line)
    n = split(line, names, /, | and /)
    for (i = 1; i <= n; i += 1) unproved[names[i]] = 1
}

# A fact is missed, in the prover's words: two types, sides or indices differ, or nothing proves it. Anything else, as a name that is not known or a
# tactic with nothing to do, says nothing about a rule.
function fact_fails(said) {
    return said ~ /the two (types|sides|indices) |^expected type |does not follow from|does not hold|: no proof of|^give a proof of that/
}

function unchanged() {
    prove()
    if (status == "0" && verdict ~ /^logic=proved /) exit 0
    print crate ": its types and specs alone, with no rule changed, are not proved; see " log_at
    exit 2
}

function judge(b,    n, names, i) {
    prove()
    if (status == "0") wrong("NOT REFUSED", "all laws and theorems are proved as before")
    if (status != "1" || verdict !~ /^logic=not-proved/) wrong("NO VERDICT", "the prover ended with status " status)
    if (!first_fails) wrong("REFUSED FOR ANOTHER REASON", "the first error is no fact that is missed: " substr(first, 1, 300))
    for (i = 1; i <= laws[b]; i += 1)
        if (!(law[b, i] in own)) wrong("REFUSED ELSEWHERE", "there is no error of its own in " law[b, i] "; the first is " substr(first, 1, 300))
    n = split(falls[b], names, " ")
    for (i = 1; i <= n; i += 1)
        if (!(names[i] in unproved || "falls_" names[i] in unproved)) wrong("REFUSED ELSEWHERE", names[i] " is proved as before")
    exit 0
}

function wrong(what, reason) {
    print crate ": " what ": " edit ": " reason "; see " log_at
    exit 1
}
