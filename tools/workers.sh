#!/bin/sh
# Builds programs with 1, 2, 8 and 64 workers, twenty times each, and compares the images with that of one worker.
set -u
cd "$(dirname "$0")/.." || exit 1
script=tools/workers.sh
. tools/lib.sh
compiler
"$program" gen 7 200 "$folder/generated.c" || fail 'no program was generated'

compared=0
for source in "$folder/generated.c" examples/*.c; do
    "$program" build "$source" "$folder/wanted.elf" || fail "the build of $source failed"
    for workers in 1 2 8 64; do
        for time in $(seq 20); do
            "$program" build "$source" "$folder/image.elf" --workers "$workers" || fail "the build of $source by $workers failed"
            cmp "$folder/wanted.elf" "$folder/image.elf" || fail "the image of $source by $workers differs"
            compared=$((compared + 1))
        done
    done
done
echo "$script: $compared images are the same"
