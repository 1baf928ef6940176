#!/usr/bin/env bash
# The gate's own tools, each given what it must not let pass: a tool that takes everything shows nothing.
#   bash tools/tried.sh
# The crates must be proved (rt check). Ends with how many of these were refused, and with a status that is not 0 where one was not.
set -u
cd "$(dirname "$0")/.." || exit 2
copies=$(mktemp -d) || exit 2
trap 'rm -rf "$copies"' EXIT

# A copy of the tools and of the crate base alone, which stands on no other.
fresh() {
    mkdir -p "$copy/crates"
    cp -R tools "$copy"
    cp -R crates/base "$copy/crates"
    echo 'base:' >"$copy/crates.txt"
}

# The tool must fail, and say this.
refuses() { # WHAT SAYS TOOL [WORDS...]
    what=$1 says=$2 tool=$3
    shift 3
    echo "$what" >>"$copy/tried"
    said=$(bash "$copy/tools/$tool" "$@" 2>&1) && { echo "tried: $what: tools/$tool lets it pass"; return; }
    case $said in
    *"$says"*) ;;
    *) printf 'tried: %s: tools/%s does not say "%s" but: %s\n' "$what" "$tool" "$says" "$said" ;;
    esac
}

contracts() {
    rm "$copy/tools/hollow-contracts.txt"
    refuses 'no trials of contracts' 'hollow-contracts.txt' contracts.sh trials
    : >"$copy/tools/hollow-contracts.txt"
    refuses 'an empty file of trials' 'has no trial' contracts.sh trials
    printf 'trial: none\nrefused: names: anything\n' >"$copy/tools/hollow-contracts.txt"
    refuses 'a trial that changes nothing' 'lets it through' contracts.sh trials
    printf 'trial: none\nrefused: names: anything\nfile: proofs/Contracts.antt\nadd: nonsense\n' >"$copy/tools/hollow-contracts.txt"
    refuses 'a trial that is refused for something else' 'does not say' contracts.sh trials
    printf 'trial: none\nrefused: prover\n' >"$copy/tools/hollow-contracts.txt"
    refuses 'a trial that changes nothing' 'the prover takes it' contracts.sh trials
    rm "$copy/crates/base/proofs/Contracts.antt"
    refuses 'a library without Contracts.antt' 'there is no proofs/Contracts.antt' contracts.sh
}

no_blocks() {
    rm "$copy/crates/base/broken.txt"
    refuses 'a library without broken.txt' 'there is no block in crates/base/broken.txt' broken.sh
    echo '# nothing' >"$copy/crates/base/broken.txt"
    refuses 'a broken.txt without a block' 'there is no block in crates/base/broken.txt' broken.sh
}

no_block() {
    awk '/^fn: base::pick/ { skip = 1 } /^$/ { skip = 0 } !skip' crates/base/broken.txt >"$copy/crates/base/broken.txt"
    refuses 'a function without a block' 'base::pick has no block' broken.sh
}

left_open() {
    printf '\nopen: base::pick: for no reason\n' >>"$copy/crates/base/broken.txt"
    refuses 'a function of a library left open' 'only a function of a program' broken.sh
}

by_nothing() {
    awk '/^new: / { print "new: " old; next } /^old: / { old = substr($0, 6) } { print }' crates/base/broken.txt >"$copy/crates/base/broken.txt"
    refuses 'a function broken by nothing' 'NOT REFUSED' broken.sh
}

contract_changed() {
    sed -i -e '/^old: /s/.*/old: result ≡/' -e '/^new: /s/.*/new: a ≡/' "$copy/crates/base/broken.txt"
    refuses 'a contract changed, and no function' 'stands in its contract' broken.sh
}

no_rules() {
    rm "$copy/crates/base/rules.txt"
    refuses 'a library without rules.txt' 'there is no rule in crates/base/rules.txt' rules.sh
    echo '# nothing' >"$copy/crates/base/rules.txt"
    refuses 'a rules.txt without a rule' 'there is no rule in crates/base/rules.txt' rules.sh
}

rules() {
    printf '%s\n' 'name: none' 'why: nothing' 'file: specs/Choosing.antt' 'old: larger a b = cond (ltb a b) b a' \
        'new: larger a b = cond (ltb a b) b a -- nothing' 'refused: specs/Choosing.antt larger_bounds' >"$copy/crates/base/rules.txt"
    refuses 'a rule that is not made wrong' 'NOT REFUSED' rules.sh
    sed -i 's/^new: .*/new: larger a b = cond (ltb a b) b c/' "$copy/crates/base/rules.txt"
    refuses 'a rule that is none' 'REFUSED FOR ANOTHER REASON' rules.sh
    sed -i -e 's/^new: .*/new: larger a b = cond (ltb a b) a b/' -e 's/^refused: .*/refused: specs\/RefusalLaws.antt first_lowest/' "$copy/crates/base/rules.txt"
    refuses 'a rule that another law refuses' 'REFUSED ELSEWHERE' rules.sh
    sed -i -e 's/^refused: .*/refused: specs\/Choosing.antt larger_bounds/' -e '$a falls: first_lowest' "$copy/crates/base/rules.txt"
    refuses 'a theorem that does not fall' 'first_lowest is proved as before' rules.sh
    sed -i -e '/^falls: /d' -e 's/^old: .*/old: larger_bounds a b = /' -e 's/^new: .*/new: larger_bounds a b = nothing /' "$copy/crates/base/rules.txt"
    refuses 'an edit of the law itself' 'it changes the law larger_bounds itself' rules.sh
    sed -i -e 's/^old: .*/old: larger : ℕ → ℕ → ℕ/' -e 's/^new: .*/new: larger : ℕ → ℕ → Type 0/' "$copy/crates/base/rules.txt"
    refuses 'an edit of a type' 'it changes the signature' rules.sh
}

# Each in a copy of its own, side by side.
all='rules contracts by_nothing no_block left_open contract_changed no_blocks no_rules'
for one in $all; do
    while [ "$(jobs -pr | wc -l)" -ge "${RT_JOBS:-$(nproc)}" ]; do sleep 0.2; done
    (copy=$copies/$one; fresh; "$one") >"$copies/$one.wrong" 2>&1 </dev/null &
done
wait
cat "$copies"/*.wrong
[ -z "$(cat "$copies"/*.wrong)" ] || exit 1
echo "tools tried: $(cat "$copies"/*/tried | wc -l)"
