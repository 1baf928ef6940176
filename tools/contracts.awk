# Whether every public function of one library stands in its proofs/Contracts.antt, where the prover holds its contract to one answer.
#   awk -v crate=NAME -f tools/contracts.awk crates/NAME/proofs/Contracts.antt, then each .rt file below crates/NAME/src
# It reads no contract: it looks for names only. What it cannot read is an error. Prints what is wrong, then how many public functions
# there are; the exit status is 1 where something is wrong.

function wrong(why) {
    printf "%s:%d: %s\n", FILENAME, FNR, why
    failed = 1
}

# ---- proofs/Contracts.antt: imports, one module, and of each function a statement with nothing before it, or with its types, proved by refl

# The names that give a statement its meaning come from where they should, and from nowhere else.
function imported(line,    names, own) {
    own = "Rattle." crate ".specs.contracts as fn"
    names = line
    gsub(/[{},]/, " ", names)
    names = names " "
    if (line == "use " own) alias += 1
    else if (line ~ / as /) wrong("brings in a module under another name: " line)
    if (names ~ / World /) { if (line ~ /^use borrow\.Fn\.World\./) world += 1; else wrong("World is not the kit's: " line) }
    if (names ~ / Exact /) { if (line ~ laws) exact += 1; else wrong("Exact is not that of base: " line) }
    if (names ~ / ExactOf / && line !~ laws) wrong("ExactOf is not that of base: " line)
    if (names ~ / ExactOver / && line !~ laws) wrong("ExactOver is not that of base: " line)
    if (names ~ / (gives|gives_and|shows|becomes|value|part|nothing) / && line !~ laws) wrong("an answer is not said in the words of base: " line)
    if (names ~ / refl / && line !~ /^use (mathlib\.Core\.Path|Rattle\.std\.specs\.Prelude)\./) wrong("refl is not the kit's: " line)
}

function statement(line,    words, path) {
    split(line, words, " ")
    path = words[6]
    if (path !~ /^fn\.[A-Za-z_0-9.]+\.ended$/) { wrong("says nothing of a function: " line); return }
    path = substr(path, 4, length(path) - 9)
    if (words[7] != "fn." path ".spec") wrong("speaks of two functions: " line)
    begun(path, words[2] " κs a", "Exact w fn." path ".ended fn." path ".spec ", substr(line, index(line, " : ") + 3))
}

# Of a function for every type: every type T, and whatever else the toolchain has of it, is bound first and passed on as it is. `ExactOver w T 64`
# is of one that is lent an array of 64.
function statement_of(line,    words, path, names, body, of, k) {
    split(line, words, " ")
    body = line
    sub(/^.*_\) → /, "", body)
    for (k = 4; words[k] ~ /^\(/; k += 3) {
        if (index(names " ", " " substr(words[k], 2) " ")) wrong("binds a name twice: " line)
        names = names " " substr(words[k], 2)
    }
    of = words[k + 1] " " words[k + 2] " " words[k + 3]
    if (words[k + 1] == "ExactOver") of = of " " words[(k += 1) + 3]
    path = words[k + 4]
    if (path !~ /^\(fn\.[A-Za-z_0-9.]+\.ended$/) { wrong("says nothing of a function: " line); return }
    path = substr(path, 5, length(path) - 10)
    begun(path, words[2] names " κs a", of " (fn." path ".ended" names ") (fn." path ".spec" names ") ", body)
}

function begun(path, left, of, text) {
    if (said[path] != "") wrong("says twice what " path " answers")
    said[path] = FNR
    if (proof != "") wrong("the statement before has no proof")
    proof = "  " left " = refl"
    said_of = of
    whole = text
}

# The answer is one term in brackets, and nothing follows it: a statement with an arrow behind would say nothing.
function one_term(text,    i, c, open) {
    if (text !~ /^\(λ κs /) return 0
    for (i = 1; i <= length(text); i += 1) {
        c = substr(text, i, 1)
        if (c == "(") open += 1
        if (c == ")") open -= 1
        if (open == 0) return i == length(text)
    }
    return 0
}

function stated(line) {
    sub(/--.*/, "", line)
    sub(/ +$/, "", line)
    if (line == "") return
    if (line ~ /\{-|-\}/) wrong("cannot be read: " line)
    if (line ~ /^use [^ ]+(\.\{[^{}]*\}| as fn)$/) imported(line)
    else if (line == "module _ (w : World) where") opened += 1
    else if (line ~ /^  pub [a-z0-9_]+_says : Exact w fn\./) statement(line)
    else if (line ~ /^  pub [a-z0-9_]+_says : \(T : _\)( \([A-Zd] : _\))* → Exact(Of w T|Over w T [0-9]+) \(fn\./) statement_of(line)
    else if (line ~ /^      [^ ]/ && proof != "") whole = whole substr(line, 6)
    else if (line == proof) {
        if (index(whole " ", said_of) != 1 || !one_term(substr(whole, length(said_of) + 1))) wrong("says more than an answer: " whole)
        proof = ""
    }
    else wrong("cannot be read: " line)
}

# ---- src/: the public functions, by module and type

# The module that a file is: its path below src/, and nothing for lib.rt.
function module_of(path) {
    sub(/^.*\/src\//, "", path)
    sub(/\.rt$/, "", path)
    sub(/^lib$/, "", path)
    if (path ~ /(^|\/)(lib|mod|main)$/) wrong("cannot be read: which module is this file?")
    gsub(/\//, ".", path)
    return path == "" ? "" : path "."
}

# Comments and texts have no functions in them. From left to right, since each may have the marks of the others in it.
function bare(line,    out, part) {
    while (match(line, /b?"([^"\\]|\\.)*"|b'([^'\\]|\\.[^']*)'|\/\/.*/)) {
        part = substr(line, RSTART, RLENGTH)
        out = out substr(line, 1, RSTART - 1) (part ~ /^\/\// ? "" : part ~ /"$/ ? " TEXT " : " BYTE ")
        line = substr(line, RSTART + RLENGTH)
    }
    out = out line
    if (out ~ /"|\/\*/) wrong("cannot be read: a text or a comment of more than one line")
    if (out ~ /--|\{-|-\}/) wrong("cannot be read: a comment in a contract")
    return out
}

function tokens(line) {
    while (match(line, /[A-Za-z_][A-Za-z_0-9]*|[{};()<>#\[\]]/)) {
        token(substr(line, RSTART, RLENGTH))
        line = substr(line, RSTART + RLENGTH)
    }
}

# `before` has what stands between the last item and this token.
function token(t) {
    if (last == "fn") function_named(t)
    if (last == "struct" || last == "enum") declared(t)
    if (t == "{") { depth += 1; inside[depth] = block(before) }
    if (t == "}") { depth -= 1; if (depth < 0) wrong("cannot be read: a brace that closes nothing") }
    if (t == "{" || t == "}" || t == ";" || t == "]") before = ""
    else before = before " " t
    last = t
}

# What a brace opens: `mod NAME`, `impl NAME`, or anything else.
function block(text) {
    sub(/^ pub( \( [a-z ]*\))?/, "", text)
    if (text ~ /^ mod [a-z_0-9]+$/) return text
    if (text !~ /^ impl /) return ""
    if (text ~ / for /) wrong("cannot be read: impl .. for")
    if (text !~ /^ impl( < [a-z_ ]+ >)? [A-Za-z_0-9]+( < [a-z_ ]+ >)?$/) wrong("cannot be read:" text)
    sub(/^ impl( <[^>]*>)? /, "", text)
    sub(/ .*/, "", text)
    return " impl " text
}

function declared(name) {
    if (owner[name] != "") wrong("cannot be read: two types of the name " name)
    owner[name] = "in " place()
}

function place(    d, path) {
    path = module_of(FILENAME)
    for (d = 1; d <= depth; d += 1) if (inside[d] ~ /^ mod /) path = path substr(inside[d], 6) "."
    return path
}

function function_named(name,    words, type, d) {
    words = before
    sub(/ fn$/, "", words)
    if (words ~ /^ pub \( (crate|super|self|in [a-z_ ]+) \)/) return
    if (words !~ /^( pub)?( (const|unsafe|extern|TEXT))*$/) { wrong("cannot be read:" words " fn " name); return }
    if (words !~ /^ pub/) return
    functions += 1
    for (d = 1; d <= depth; d += 1) if (inside[d] ~ /^ impl /) type = substr(inside[d], 7)
    at[functions] = FILENAME ":" FNR
    of_type[functions] = type
    named[functions] = type == "" ? place() name : type "." name
}

# ---- both together

BEGIN {
    laws = "^use Rattle\\.base\\.specs\\.ExactContracts\\."
}

FILENAME ~ /\.antt$/ { stated($0); next }

{
    if (FILENAME != file) { closed(); depth = 0; before = ""; last = ""; file = FILENAME }
    tokens(bare($0))
}

function closed() {
    if (depth != 0) wrong("cannot be read: the file before has a brace that nothing closes")
}

END {
    closed()
    FILENAME = "crates/" crate "/proofs/Contracts.antt"
    if (alias != 1 || world != 1 || exact != 1 || opened != 1) wrong("does not have each of its four first things once: World, Exact, fn, the module over w")
    if (proof != "") wrong("the last statement has no proof")
    for (k = 1; k <= functions; k += 1) {
        path = of_type[k] == "" ? named[k] : substr(owner[of_type[k]], 4) named[k]
        if (said[path] == "") { printf "%s: %s is public, and proofs/Contracts.antt does not say what it answers\n", at[k], path; failed = 1 }
        if (path in known) { printf "%s: two public functions are read as %s\n", at[k], path; failed = 1 }
        known[path] = 1
    }
    for (path in said) if (!(path in known)) { printf "%s: %s is no public function\n", FILENAME, path; failed = 1 }
    if (!failed) printf "%d\n", functions
    exit failed
}
