#!/bin/sh
# Compares the rows of the parser in crates/c_rows with gcc: what they call a program has no syntax error there. (gcc takes more than
# the language, so of the others it says nothing.)
set -u
cd "$(dirname "$0")/.." || exit 1
script=tools/parse.sh
. tools/lib.sh
need gcc
count=0
part_of parse stdin >"$folder/rows"
part_of parse stdout >"$folder/answers"
# A row that begins with `#` is read in all its beginnings, with a line of answer each; rows with `@` are written in short form.
while IFS= read -r source && IFS= read -r answer <&3; do
    case $source in \#*) break ;; *@*) continue ;; esac
    [ "$answer" = "a program" ] || continue
    printf '%s\n' "$source" | gcc -std=c11 -fsyntax-only -x c - 2>"$folder/errors"
    if grep -q 'error: expected' "$folder/errors"; then
        fail "gcc finds a syntax error in: $source"
    fi
    count=$((count + 1))
done <"$folder/rows" 3<"$folder/answers"
echo "tools/parse.sh: gcc finds no syntax error in $count programs"
