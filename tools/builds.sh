#!/bin/sh
# Builds that take longer than a test should: sources at the limits, and 512 functions in each shape of calls, by one worker and by
# many to the same bytes. And files of the system that cannot be read or written.
set -u
cd "$(dirname "$0")/.." || exit 1
script=tools/builds.sh
. tools/lib.sh
compiler
source=$folder/source.c
image=$folder/image.elf

# ends STATUS REPORT WORDS..: the compiler with these words ends with the status and the report.
ends() {
    status=$1
    report=$2
    shift 2
    "$program" "$@" >"$folder/output" 2>"$folder/report"
    ended=$?
    [ "$ended" -eq "$status" ] && [ "$(cat "$folder/report")" = "$report" ] || fail "$* ended with $ended: $(cat "$folder/report")"
}

# same WORKERS RECIPE: the source is built by one worker and by so many under the recipe, to the same bytes.
same() {
    ends 0 '' build "$source" "$image" --recipe "$2"
    ends 0 '' build "$source" "$folder/other.elf" --recipe "$2" --workers "$1"
    cmp -s "$image" "$folder/other.elf" || fail "$1 workers make another image of $(head -c 60 "$source") under $2"
}

# runs OUTPUT REPORT: the image writes and ends so.
runs() {
    ends 0 "$2" run "$image"
    [ "$(cat "$folder/output")" = "$1" ] || fail "the image writes: $(head -c 60 "$folder/output")"
}

repeat() {
    yes "$1" | head -n "$2" | tr -d '\n'
}

default=iln,fold,inv,cne,dne,ivt,psh,pll,url,fold,cne,inv,dne,dne

# Files that cannot be read or written, and an image in the place of its source.
cp examples/answer.c "$source"
ends 2 'read fault' build "$folder/none.c" "$image"
ends 2 'read fault' build "$folder" "$image"
[ ! -e "$image" ] || fail "an image was made of no source"
ends 3 'write fault' build "$source" "$folder/none/image.elf"
ends 3 'write fault' build "$source" "$folder"
ends 0 '' build "$source" "$image"
cp "$source" "$folder/both"
ends 0 '' build "$folder/both" "$folder/both"
cmp -s "$image" "$folder/both" || fail "OUT of the name of IN is not the image"

# Files without an end, of which no more is read than a byte over the limit.
if [ -e /dev/zero ]; then
    ends 4 'refused LongSource 10 line 1' build /dev/zero "$folder/zeros.elf"
    [ ! -e "$folder/zeros.elf" ] || fail 'an image was made of a source that is too long'
    ends 5 'image LongFile 5' run /dev/zero
    ends 4 'refused LongSource 10 line 1' </dev/zero
fi

# A log that is too long: a file of holes, which is read and held. So it wants as much memory as that and what it grows by.
cp examples/answer.c "$source"
free=$(sed -n 's/^MemAvailable: *\([0-9]*\) kB$/\1/p' /proc/meminfo 2>/dev/null)
if [ "${free:-0}" -ge 8388608 ]; then
    truncate -s 2147483649 "$folder/long.log" || fail 'no file of holes is made'
    ends 8 'log LongLog 66 line 1' check "$source" "$folder/long.log" "$image"
    rm -f "$folder/long.log"
else
    echo "$script: a log that is too long is not tried, there are fewer than 8 GiB of memory"
fi

# The longest source.
{ cat examples/answer.c; yes '' | head -c $((1048576 - $(wc -c <examples/answer.c))); } >"$source"
same 64 "$default"
runs '' 'exit 42'

# The most values of one function, and of all.
{ printf 'int main(void) { '; repeat 'putchar(65); ' 4094; printf '65; 65; }'; } >"$source"
same 64 none
runs "$(repeat A 4094)" 'exit 0'
negations="$(printf '%100s' '' | tr ' ' '!')0;"
for zeros in 138 139; do
    {
        for k in 0 1 2 3 4 5 6 7 8 9 10 11 12 13 14 15; do
            printf 'int f%d(void) { ' "$k"
            repeat "$negations " 60
            printf 'return 0; } '
        done
        printf 'int main(void) { '
        repeat "$negations " 34
        repeat '0; ' "$zeros"
        printf 'return 0; }'
    } >"$source"
    [ "$zeros" -eq 138 ] && same 64 none
done
ends 4 'refused Limit 42 line 1 which 6 count 400002' build "$source" "$image" --workers 64

# The most functions, in a shape of calls: the body of the first, that of each other one, where %d is the number of the one before
# it, and what `main` does.
shape() {
    {
        seq -f 'int f%.0f(int n);' 0 510
        printf "int f0(int n) { $1 }\n" 510
        for k in $(seq 1 510); do
            printf "int f$k(int n) { $2 }\n" $((k - 1))
        done
        echo "int main(void) { int s = 0; $3 return s; }"
    } >"$source"
    same 64 none
    same 64 "$default"
    runs '' "$4"
}
turn='return n > 0 ? f%d(n - 1) : 7;'
shape 'return n;' 'return n;' 's = f0(20);' 'exit 20'
shape 'return n;' 'return n;' "$(seq -f 's = s + f%.0f(1);' 0 510)" 'exit 255'
shape 'return n;' 'return f%d(n) + 1;' 's = f510(1);' 'exit 255'
shape "$turn" "$turn" 's = f300(1000);' 'exit 7'

# What must be done and not end for want of memory: more of a thing than most programs have.
# done_as RECIPE OUTPUT REPORT: the source on the standard input of this function is built under the recipe and runs so.
done_as() {
    cat >"$source"
    ends 0 '' build "$source" "$image" --recipe "$1"
    runs "$2" "$3"
}
done_as "fold$(repeat ',fold' 31)" '' 'exit 42' <examples/answer.c
{ printf 'int main(void) { int a = getchar(); '; repeat 'a = a + 0; ' 3000; echo 'return a; }'; } >"$source"
ends 0 'functions 1 fold 3000 cne 0 dne 6000 inv 0 psh 0 pll 0 ivt 0 url 0 iln 0 before 12009 after 9' \
    build "$source" "$image" --recipe fold,dne --report count
{
    printf 'int f(int n) { switch (n) { '
    for k in $(seq 0 39); do printf 'case %d: return %d; ' "$k" $((k + 3)); done
    echo 'default: return 1; } } int main(void) { return f(39) + f(40) + f(0); }'
} | done_as none '' 'exit 46'
echo 'int f(int a, int b, int c, int d, int e, int f, int g, int h) { return a - b + c - d + e - f + g - h; }
int main(void) { return f(90, 1, 2, 4, 8, 16, 32, 64); }' | done_as none '' 'exit 47'
{ printf 'int f('; for k in $(seq 1 40); do printf 'int p%d, ' "$k"; done; echo 'int q) { return 0; } int main(void) { return 0; }'; } >"$source"
ends 4 'refused Limit 42 line 1 which 2 count 41' build "$source" "$image"
{ printf 'int main(void) { '; for k in $(seq 0 256); do printf 'int v%d = %d; ' "$k" "$k"; done; echo 'return v200; }'; } | done_as none '' 'exit 200'
echo 'struct s { char pad[300000]; int x; }; struct s v = {{0}, 5}; int main(void) { return v.x; }' | done_as none '' 'exit 5'
{ printf 'int main(void) { '; repeat '"a"; ' 10001; echo 'return 0; }'; } | done_as none '' 'exit 0'
{
    printf 'int main(void) { '
    for k in $(seq 0 599); do printf 'int v%d = getchar(); ' "$k"; done
    printf 'int s = 0; '
    for k in $(seq 0 599); do printf 's = s - v%d; ' "$k"; done
    echo 'return s; }'
} | done_as none '' 'exit 88'

# The large job: 200 generated functions.
ends 0 '' gen 7 200 "$source"
same 8 "$default"
runs G 'exit 118'
counts='functions 201 fold 6 cne 916 dne 3216 inv 841 psh 3744 pll 3544 ivt 0 url 300 iln 141 before 29220 after 64889'
ends 0 "$counts" build "$source" "$image" --report count
ends 0 "$counts" build "$source" "$image" --report count --workers 8
"$program" build "$source" "$image" --report log --workers 8 2>"$folder/built.log" || fail 'the log of a build is not made'
ends 0 yes check "$source" "$folder/built.log" "$image"
ends 0 '' gen 1 2 "$source"
ends 0 'functions 3 fold 2 cne 9 dne 42 inv 10 psh 50 pll 48 ivt 0 url 4 iln 2 before 312 after 848' build "$source" "$image" --report count
echo "$script: the largest builds are the same by many workers; files that cannot be read or written have their status"
