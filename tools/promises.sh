#!/bin/sh
# Checks the table of mutants in docs/PROMISES.md: each kept edit, each test and each row that it names is there. And checks docs/mutants.tsv,
# which mutants.sh writes: each line is of the crate's files as they are. It tells which crates' mutants have no line.
set -u
cd "$(dirname "$0")/.." || exit 1
script=tools/promises.sh
. tools/lib.sh

# The last cell of each row: a crate, and after its colon the names of edits, tests and rows, each in backquotes.
sed -n '/^## Mutants/,/^## /p' docs/PROMISES.md | grep '^| [0-9]' | sed 's/ *|$//; s/.*| //' | tr ';' '\n' >"$folder/cells"
count=0
while IFS= read -r cell; do
    crate=$(printf '%s\n' "$cell" | sed -n 's/^[^`]*`\([a-z_]*\)`:.*/\1/p')
    [ -n "$crate" ] || fail "no crate in: $cell"
    for name in $(printf '%s\n' "$cell" | sed 's/^[^:]*://' | grep -o '`[a-z0-9_]*`' | tr -d '`'); do
        [ -e "crates/$crate/must-fail/$name.edit" ] || [ -e "crates/$crate/mutants/$name.edit" ] \
            || grep -A 1 -h '#\[test\]' "crates/$crate"/src/*.rt | grep -q "^fn $name(" \
            || grep -Eqs "^row $name(,|\$)" "crates/$crate/stdin" \
            || fail "$crate has no edit, no test and no row $name"
        count=$((count + 1))
    done
done <"$folder/cells"
[ "$count" -gt 0 ] || fail "there is no table of mutants"

# Each edit's old text stands in its file exactly once.
for edit in crates/*/must-fail/*.edit crates/*/mutants/*.edit; do
    [ -e "$edit" ] || continue
    awk -v edit="$edit" -v crate="$(dirname "$(dirname "$edit")")" '
        /^file: / { file = crate "/" substr($0, 7); text = ""; while ((getline line < file) > 0) text = text line "\n"; close(file); if (text == "") { print edit ": there is no " file; exit 1 } }
        /^old: / { old = substr($0, 6); at = index(text, old); if (!at) { print edit ": its old text is not in " file; exit 1 }
                   if (index(substr(text, at + 1), old)) { print edit ": its old text stands twice in " file; exit 1 } }
        /^new:/ { new = substr($0, 6); sub(/^ /, "", new); text = substr(text, 1, at - 1) new substr(text, at + length(old)) }
    ' "$edit" >"$folder/wrong" || fail "$(cat "$folder/wrong")"
done

tab=$(printf '\t')
lines=0
while IFS=$tab read -r crate number sum; do
    [ "$sum" = "$(mutants_sum "$crate")" ] || fail "the mutants of $crate were tried on other files: tools/mutants.sh $crate"
    lines=$((lines + 1))
done <docs/mutants.tsv
untried=
for folder_of in crates/*/mutants; do
    crate=$(basename "$(dirname "$folder_of")")
    grep -q "^$crate$tab" docs/mutants.tsv || untried="$untried $crate"
done
[ -z "$untried" ] || echo "$script: mutants not tried on these files:$untried"
echo "$script: $count edits, tests and rows that refuse mutants are there; the mutants of $lines crates were refused"
