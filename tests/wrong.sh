#!/usr/bin/env bash
# Tries the wrong programs of crates/NAME/wrong, for the crates named or for all: the prover must refuse each. They have the format of
# must-fail edits, and rt must-fail tries them, in a copy of the repository in which they stand in the place of those. It begins with
# what rt check kept of each crate, so run this after rt check, which also sees to it that each crate is proved as it stands. What each
# edit came to is kept on this machine, by the checksums of all that was read: an edit is tried again only where its crate, or one below,
# has changed.
#
# An edit of a definition on which theorems of specs/ rest makes the prover refuse a theorem, and with it the text of what cites that.
# rt calls this a bad edit, since no contract was tried. Here it counts as refused: a wrong definition is to be seen by its theorems.
#
# With --seconds N no further crates are begun after so many seconds.
# What rt says stands in target/wrong.log. The last line is `N refused, M not`, with `, K not tried` where the time was up; the exit
# status is 0 exactly where M is 0.
set -u
cd "$(dirname "$0")/.." || exit 2
room=$(mktemp -d) || exit 2
trap 'rm -rf "$room"' EXIT

# The crates that rt must-fail is given at a time: so many keep four processors busy.
batch=8

seconds=
if [ "${1-}" = --seconds ]; then seconds=$2 && shift 2; fi
[ $# -gt 0 ] || set -- $(sed -n 's/#.*//; s/^\([a-z0-9_]*\)[a-z ]*:.*/\1/p' crates.txt)
names=()
for name; do
    [ -d "crates/$name" ] || { echo "there is no crate $name" >&2; exit 2; }
    [ ! -d "crates/$name/wrong" ] || names+=("$name")
done

# The copy, without what rt keeps.
cp crates.txt "$room" && { [ ! -f HANDLES ] || cp HANDLES "$room"; } || exit 2
tar --exclude='crates/*/out' --exclude='crates/*/must-fail' -cf - crates | tar -C "$room" -xf - || exit 2

# The edits of the crates named, as CRATE/LABEL.
edits_of() { # NAME...
    local name
    for name; do (cd crates && ls "$name"/wrong/*.edit); done | sed 's,/wrong/,/,; s/\.edit$//'
}

# What the try of an edit came to, by what rt says of it.
judged() { # CRATE/LABEL
    local said
    said=$(sed -n "s,^rt: must-fail $1\.edit: ,,p" "$room/said")
    case $said in
    'refused, as it must be'*) echo "refused: $1" ;;
    'BAD EDIT: the prover cannot read '*', which was '*', w'*' not checked: '*)
        if grep -q '^file: src/' "crates/${1%/*}/wrong/${1#*/}.edit"; then
            echo "FAILED: $1: $said"
        else
            echo "refused: $1, by a theorem"
        fi
        ;;
    *) echo "FAILED: $1: ${said:-rt says nothing of it}" ;;
    esac
}

mkdir -p target
: >target/wrong.log
: >"$room/judged"
left=0
for ((at = 0; at < ${#names[@]}; at += batch)); do
    some=("${names[@]:at:batch}")
    if [ -n "$seconds" ] && [ "$SECONDS" -ge "$seconds" ]; then
        left=$((left + $(edits_of "${some[@]}" | wc -l)))
        continue
    fi
    for name in "${some[@]}"; do mv "$room/crates/$name/wrong" "$room/crates/$name/must-fail"; done
    (cd "$room" && rt must-fail "${some[@]}") </dev/null >"$room/said" 2>&1
    cat "$room/said" >>target/wrong.log
    if grep 'did not end well' "$room/said"; then echo "FAILED: ${some[*]}: not proved as they stand"; fi >>"$room/judged"
    for edit in $(edits_of "${some[@]}"); do judged "$edit"; done | tee -a "$room/judged"
    rm -rf "$room"/crates/*/out "$room"/crates/*/must-fail
done
refused=$(grep -c '^refused: ' "$room/judged") failed=$(grep -c '^FAILED: ' "$room/judged")
printf '%d refused, %d not' "$refused" "$failed"
[ "$left" -eq 0 ] || printf ', %d not tried' "$left"
echo
[ "$failed" -eq 0 ]
