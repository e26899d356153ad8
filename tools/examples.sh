#!/bin/sh
# Builds and runs each program of examples and examples/embedded on its input: what it writes, and how it ends, is what stands in
# NAME.out beside it, and so does gcc's program, where gcc is there, of it and of the one of that name in examples/embedded/habit.
set -u
cd "$(dirname "$0")/.." || exit 1
script=tools/examples.sh
. tools/lib.sh
compiler

gcc=
command -v gcc >/dev/null 2>&1 && gcc='gcc -std=c11 -fwrapv -funsigned-char -w -O1'
[ -n "$gcc" ] || echo "$script: gcc is not installed, so the outputs are not compared with its programs"

count=0
for source in examples/*.c examples/embedded/*.c; do
    name=${source%.c}
    input=/dev/null
    [ -e "$name.in" ] && input=$name.in
    "$program" build "$source" "$folder/image.elf" || fail "$source is not built"
    "$program" run "$folder/image.elf" <"$input" >"$folder/output" 2>"$folder/report"
    cat "$folder/report" >>"$folder/output"
    cmp -s "$folder/output" "$name.out" || fail "$source writes or ends otherwise than $name.out says"
    count=$((count + 1))
    [ -n "$gcc" ] || continue
    for other in "$source" "${source%/*}/habit/${source##*/}"; do
        [ -e "$other" ] || continue
        $gcc -o "$folder/native" "$other" || fail "gcc does not build $other"
        "$folder/native" <"$input" >"$folder/output"
        echo "exit $?" >>"$folder/output"
        cmp -s "$folder/output" "$name.out" || fail "gcc's program of $other writes or ends otherwise than $name.out says"
    done
done
echo "$script: $count examples write what they should"
