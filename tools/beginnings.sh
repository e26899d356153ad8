#!/bin/sh
# Runs each beginning of the least image: it is too short, or a segment passes its end. And images of which one word is another one, and
# a report that cannot be written.
set -u
cd "$(dirname "$0")/.." || exit 1
script=tools/beginnings.sh
. tools/lib.sh
compiler
echo 'int main(void) { return 42; }' >"$folder/answer.c"
"$program" build "$folder/answer.c" "$folder/answer.elf" --recipe none || fail 'answer.c is not built'
length=$(wc -c <"$folder/answer.elf")
[ "$length" -eq 8200 ] || fail 'the image has not 8,200 bytes'

# ends STATUS REPORT WORDS..: the image, or what was made of it, is run with these words and ends so.
ends() {
    status=$1
    report=$2
    shift 2
    "$program" run "$folder/image.elf" "$@" >"$folder/output" 2>"$folder/report"
    ended=$?
    [ "$ended" -eq "$status" ] && [ "$(cat "$folder/report")" = "$report" ] && [ ! -s "$folder/output" ] \
        || fail "status $ended, $(cat "$folder/report"), instead of $status, $report"
}

count=0
while [ $count -lt "$length" ]; do
    head -c $count "$folder/answer.elf" >"$folder/image.elf"
    if [ $count -lt 116 ]; then ends 5 'image Short 1'; else ends 5 'image BadSegment 4'; fi
    count=$((count + 1))
done

# put OFFSET BYTES: these bytes, in octal, stand at the offset of a copy of the image.
put() {
    cp "$folder/answer.elf" "$folder/image.elf"
    printf "$2" | dd of="$folder/image.elf" bs=1 seek="$1" conv=notrunc 2>/dev/null
}
put 4096 '\000\000\000\000'
ends 7 'stuck 00010000 2'
put 24 '\002\000\001\000'
ends 7 'stuck 00010002 1'
put 24 '\000\020\001\000'
ends 7 'stuck 00011000 1'
put 4096 '\157\000\000\000'
ends 7 budget --steps 1000
if [ -e /dev/full ]; then
    "$program" run "$folder/answer.elf" 2>/dev/full
    [ $? -eq 3 ] || fail 'a report that is not written is not status 3'
fi
echo "$script: $length beginnings of an image are refused as they should be"
