#!/bin/sh
# Builds each source of examples/refused: the report is the one that its first line names, the status is 4, and no file is made.
# The limits whose sources are long are written here.
set -u
cd "$(dirname "$0")/.." || exit 1
script=tools/refused.sh
. tools/lib.sh

refused() {
    ./rvcc build "$1" "$folder/out.elf" 2>"$folder/report"
    status=$?
    [ "$status" -eq 4 ] || fail "$1 ended with status $status"
    [ "$(cat "$folder/report")" = "$2" ] || fail "$1 is reported as: $(cat "$folder/report")"
    [ ! -e "$folder/out.elf" ] || fail "a file was made for $1"
}

for source in examples/refused/*.c; do
    refused "$source" "$(sed -n '1s,^// ,,p' "$source")"
done
yes ';' | head -n 200001 >"$folder/many_tokens.c"
refused "$folder/many_tokens.c" 'refused ManyTokens 8 line 200001'
yes '' | head -n 1048577 >"$folder/long_source.c"
refused "$folder/long_source.c" 'refused LongSource 10 line 1048577'
functions() {
    k=0
    while [ $k -lt "$1" ]; do
        echo "int f$k(int a) { $2 }"
        k=$((k + 1))
    done
}
functions 513 'return a;' >"$folder/functions.c"
echo 'int main(void) { return 0; }' >>"$folder/functions.c"
refused "$folder/functions.c" 'refused Limit 42 line 513 which 1 count 514'
# Each call of `putchar` has 6 values, that of `getchar` 3, and a constant 2.
{ echo 'int main(void)'; echo '{'; yes 'putchar(65);' | head -n 4094; echo 'getchar(); 65; }'; } >"$folder/values.c"
refused "$folder/values.c" 'refused Limit 42 line 1 which 5 count 24577'
# 18 functions of which the first 17 have 60 statements of 100 negations.
negations=$(printf '%100s' '' | tr ' ' '!')
values=$(yes "${negations}0;" | head -n 60 | tr -d '\n')
functions 17 "$values return 0;" | sed 's/int a/void/' >"$folder/all_values.c"
echo 'int main(void) { return 0; }' >>"$folder/all_values.c"
refused "$folder/all_values.c" 'refused Limit 42 line 17 which 6 count 410184'
echo "$script: each refused example is refused as it says"
