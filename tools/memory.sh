#!/bin/sh
# Refuses each allocation of commands in turn: builds of four sources by 1 and 2 workers under each report, runs of their images and of
# the sources themselves, checks, a source on the input, a generated program, a session by 1 and 2 workers, and what rvcc-view shows. A command ends as it does
# with all its memory, or reports `memory` and has written nothing and made no file (the run of a source: a front of what it writes; the
# whole file where the text of a report found no memory; a session: a front of its answers, and one of its images or none). `read fault`
# and `write fault` come where the name of the file that is opened or created found no memory, and nowhere else: the names are of lengths
# that nothing else has. That needs gcc. Without it, the first allocation of the program is refused by rt.
set -u
cd "$(dirname "$0")/.." || exit 1
script=tools/memory.sh
. tools/lib.sh
if ! command -v gcc >/dev/null 2>&1; then
    need rt
    (cd crates/cc_main && rt try --fail-alloc 1 </dev/null >"$folder/log" 2>&1)
    grep -qx memory "$folder/log" || fail "the line \`memory\` is missing"
    grep -q '^run=ended status=6 ' "$folder/log" || fail "the status is not 6"
    echo "$script: where the first allocation fails, the line is \`memory\` and the status 6; the others are skipped, gcc is not installed"
    exit 0
fi
compiler

# named NAME LENGTH: a path of this length to the file of this name.
named() {
    path=$folder/$1
    while [ ${#path} -lt $(($2 - 1)) ]; do path="${path%/*}/./${path##*/}"; done
    [ ${#path} -eq "$2" ] || path="${path%/*}//${path##*/}"
    [ ${#path} -eq "$2" ] || fail "no path of $2 bytes"
    printf '%s' "$path"
}
read_length=1311
made_length=1733
out=$(named made.out $made_length) || exit 1

echo 'int main(void) { return 42; }' >"$folder/one.c"
cat >"$folder/four.c" <<'END'
int d(int x) { return x + 1; }
int b(int x) { return d(x) * 2; }
int c(int x) { return d(x) * 3; }
int main(void) { return b(1) + c(2); }
END
{
    echo 'int f0(int x) { return x; }'
    k=1
    while [ $k -lt 12 ]; do
        echo "int f$k(int x) { return f$((k - 1))(x) + 1; }"
        k=$((k + 1))
    done
    echo 'int main(void) { return f11(5); }'
} >"$folder/chain.c"
cp examples/squares.c "$folder/squares.c" || exit 1
: >"$folder/nothing"

# A library that refuses one allocation, by its number, and then writes its size to the descriptor 9.
cat >"$folder/refuse.c" <<'END'
#include <stdatomic.h>
#include <stdio.h>
#include <stdlib.h>
#include <unistd.h>
void *__libc_malloc(size_t size);
void *__libc_realloc(void *old, size_t size);
static atomic_long asked;
static long refused;
__attribute__((constructor)) static void start(void)
{
    asked = 0;
    refused = atol(getenv("REFUSED"));
}
static int is_refused(size_t size)
{
    char text[24];
    if (atomic_fetch_add(&asked, 1) + 1 != refused) return 0;
    return write(9, text, snprintf(text, sizeof text, "%zu\n", size)) > 0;
}
void *malloc(size_t size) { return is_refused(size) ? NULL : __libc_malloc(size); }
void *realloc(void *old, size_t size) { return is_refused(size) ? NULL : __libc_realloc(old, size); }
END
gcc -O1 -shared -fPIC -o "$folder/refuse.so" "$folder/refuse.c" || fail 'gcc refused the library'

# is_name LENGTH: the allocation that was refused is of a name of this length: the name, a path to it and the byte that ends it, or the
# folder `.` that the path begins with.
is_name() {
    size=$(cat "$folder/refused")
    [ "$size" -eq 1 ] || { [ "$size" -ge "$1" ] && [ "$size" -le $(($1 + 4)) ]; }
}

# What finds no memory where a file is opened (r) or created (w), in order, with its size.
opening=" r1 r$((read_length + 2)) r$read_length"
creation=" w1 w$((made_length + 2)) w$made_length"

# A front of what is written with all memory was written.
is_front_of_output() {
    head -c "$(wc -c <"$folder/output")" "$folder/whole_output" | cmp -s - "$folder/output"
}

# What a session leaves that was broken off: a front of its answers, and the image of one of its builds or none.
is_front_of_session() {
    is_front_of_output || return 1
    [ ! -e "$out" ] || cmp -s "$folder/first_out" "$out" || cmp -s "$folder/whole_out" "$out"
}

# refuse FAULTS INPUT WORDS..: refuses each allocation of the command in turn; these are read and write faults.
refuse() {
    wanted=$1
    input=$2
    shift 2
    rm -f "$out"
    "$program" "$@" <"$input" >"$folder/whole_output" 2>"$folder/whole_report" || fail "$* failed"
    if [ -e "$out" ]; then cp "$out" "$folder/whole_out"; else rm -f "$folder/whole_out"; fi
    number=1
    faults=
    while :; do
        rm -f "$out"
        REFUSED=$number LD_PRELOAD=$folder/refuse.so "$program" "$@" <"$input" >"$folder/output" 2>"$folder/report" 9>"$folder/refused"
        status=$?
        where="${1-} $(basename -- "${2-}") $(basename -- "${3-}") ${4-} ${5-} ${6-} ${7-} without allocation $number of $(cat "$folder/refused") bytes"
        case "$status $(cat "$folder/report")" in
            "0 $(cat "$folder/whole_report")")
                cmp -s "$folder/whole_output" "$folder/output" || fail "the output differs: $where"
                [ ! -e "$folder/whole_out" ] || cmp -s "$folder/whole_out" "$out" || fail "the file differs: $where"
                ;;
            '6 memory')
                case ${1-} in
                    session) is_front_of_session ;;
                    interp) is_front_of_output && [ ! -e "$out" ] ;;
                    *) [ ! -s "$folder/output" ] && { [ ! -e "$out" ] || { [ "${4-}" = --report ] && cmp -s "$folder/whole_out" "$out"; }; } ;;
                esac || fail "output or a file: $where"
                ;;
            '2 read fault')
                is_name $read_length || fail "a read fault: $where"
                [ ! -s "$folder/output" ] && [ ! -e "$out" ] || fail "output or a file: $where"
                faults="$faults r$size"
                reads=$((reads + 1))
                ;;
            '3 write fault')
                is_name $made_length || fail "a write fault: $where"
                if [ "${1-}" = session ]; then
                    is_front_of_session || fail "output or a file: $where"
                else
                    [ ! -s "$folder/output" ] && [ ! -e "$out" ] || fail "output or a file: $where"
                fi
                faults="$faults w$size"
                writes=$((writes + 1))
                ;;
            *) fail "status $status, $(head -n 1 "$folder/report"): $where" ;;
        esac
        [ -s "$folder/refused" ] || break
        number=$((number + 1))
    done
    [ "$status" -eq 0 ] || fail "no call ended without a refusal: $*"
    refused=$((refused + number - 1))
    # When two workers make OUT is not the same allocation each time.
    case "$*" in
        *'--workers 2') ;;
        *) [ "$faults" = "$wanted" ] || fail "$where: the faults are$faults" ;;
    esac
}

refused=0
reads=0
writes=0
for source in one four chain squares; do
    in=$(named $source.c $read_length) || exit 1
    for workers in 1 2; do
        refuse "$opening$creation" "$folder/nothing" build "$in" "$out" --workers $workers
        for report in count log; do
            refuse "$opening$creation" "$folder/nothing" build "$in" "$out" --report $report --workers $workers
        done
    done
    refuse "$opening$creation" "$folder/nothing" build "$in" "$out" --code tight
    refuse "" "$folder/$source.c"
    "$program" build "$folder/$source.c" "$folder/$source.elf" || fail "$source.c is not built"
    image=$(named $source.elf $read_length) || exit 1
    refuse "$opening" "$folder/nothing" run "$image"
    refuse "$opening" "$folder/nothing" interp "$in"
    "$program" build "$folder/$source.c" "$folder/$source.elf" --report log 2>"$folder/$source.log" || fail "$source.c has no log"
    log=$(named $source.log $read_length) || exit 1
    refuse "$opening$opening$opening" "$folder/nothing" check "$in" "$log" "$image"
done
refuse "$creation" "$folder/nothing" gen 7 20 "$out"
"$program" build "$folder/four.c" "$folder/first_out" || fail 'four.c is not built'
printf 'build\nreplace c 33\nint c(int x) { return d(x) * 4; }\nbuild\nend\n' >"$folder/script"
for workers in 1 2; do
    refuse "$opening$creation$creation" "$folder/script" session "$(named four.c $read_length)" "$out" --workers $workers
done
program=$(sh tools/program.sh rvcc-view) || exit 1
in=$(named four.c $read_length) || exit 1
for form in dot rows; do refuse "$opening" "$folder/nothing" graph "$in" --form $form; done
for shown in steps listing explain; do refuse "$opening" "$folder/nothing" $shown "$in"; done
echo "$script: $refused commands without an allocation end as they should, $reads of them by a file that was not opened, $writes not created"
