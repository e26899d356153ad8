#!/bin/sh
# Builds the deepest sources that are accepted by 1, 2 and 64 workers, under the default recipe, each rule alone and no recipe, with a
# stack of 1 MiB, 8 MiB and without a limit, to the same bytes; with 1 MiB it runs them without an image too. README says that this is
# enough.
set -u
cd "$(dirname "$0")/.." || exit 1
script=tools/stack.sh
. tools/lib.sh
compiler

repeat() {
    yes "$1" | head -n "$2" | tr -d '\n'
}

# What each writes is a program that exits with 3, at its depth N: a loop that is left or gone on with N times; N parentheses; N branches, each in the
# `else` of the one before it, without blocks and with them; N loops, each in the one before it, with blocks and without; N times && and ?:, each in the one before it.
breaks() { printf 'int main(void) { while (1) { '; repeat 'break; ' $1; printf '} return 3; }'; }
continues() { printf 'int main(void) { do { '; repeat 'continue; ' $1; printf '} while (0); return 3; }'; }
parentheses() { printf 'int main(void) { return '; repeat '(' $1; printf 3; repeat ')' $1; printf '; }'; }
branches() {
    printf 'int main(void) { int x = getchar() + 2; '
    for k in $(seq $1); do printf 'if (x == %d) x = 3; else ' "$k"; done
    printf 'x = 2; return x; }'
}
chains() {
    printf 'int main(void) { int x = getchar() + 2; '
    for k in $(seq $1); do printf 'if (x == %d) { x = 3; } else ' "$k"; done
    printf '{ x = 2; } return x; }'
}
blocks() { printf 'int main(void) { int s = 3; '; repeat 'while (s == 4) { ' $1; printf 's = 5; '; repeat '} ' $1; printf 'return s; }'; }
loops() { printf 'int main(void) { int s = 3; '; repeat 'while (s == 4) ' $1; printf 's = 5; return s; }'; }
operators() { printf 'int main(void) { int x = getchar() + 4; return '; repeat 'x && x ? ' $1; printf x; repeat ' : 0' $1; printf '; }'; }

rules='none fold cne dne inv psh pll ivt url iln'
builds=0
while read -r source depth refused; do
    $source $((depth + 1)) >"$folder/source.c"
    "$program" build "$folder/source.c" "$folder/image.elf" 2>"$folder/report" && fail "$source are accepted at $((depth + 1))"
    grep -qx "refused $refused" "$folder/report" || fail "$source at $((depth + 1)): $(cat "$folder/report")"
    $source "$depth" >"$folder/source.c"
    (ulimit -s 1024 && exec "$program" interp "$folder/source.c" </dev/null) 2>"$folder/report"
    [ "$(cat "$folder/report")" = 'exit 3' ] || fail "$source run without an image end with $(cat "$folder/report")"
    for recipe in default $rules; do
        set --
        [ "$recipe" = default ] || set -- --recipe "$recipe"
        "$program" build "$folder/source.c" "$folder/wanted.elf" "$@" 2>"$folder/report" || fail "$source are not built under $recipe: $(cat "$folder/report")"
        "$program" run "$folder/wanted.elf" </dev/null 2>"$folder/report"
        [ "$(cat "$folder/report")" = 'exit 3' ] || fail "$source under $recipe end with $(cat "$folder/report")"
        for size in 1024 8192 unlimited; do
            for workers in 1 2 64; do
                (ulimit -s $size && exec "$program" build "$folder/source.c" "$folder/image.elf" --workers $workers "$@") 2>"$folder/report" \
                    || fail "$source are not built under $recipe by $workers with a stack of $size KiB: $(cat "$folder/report")"
                cmp -s "$folder/wanted.elf" "$folder/image.elf" || fail "the image of $source under $recipe by $workers with a stack of $size KiB differs"
                builds=$((builds + 1))
            done
        done
    done
done <<'END'
breaks 980 Limit 42 line 1 which 5 count 24577
continues 981 Limit 42 line 1 which 5 count 24598
parentheses 99 TooDeep 22 line 1
branches 49 TooDeep 22 line 1
chains 65 TooDeep 22 line 1
blocks 65 TooDeep 22 line 1
loops 98 TooDeep 22 line 1
operators 66 TooDeep 22 line 1
END
# The calls of a source that is run without an image take none of that stack.
echo 'int f(int n) { return n == 0 ? 0 : 1 + f(n - 1); } int main(void) { return f(999999) % 256; }' >"$folder/source.c"
(ulimit -s 1024 && exec "$program" interp "$folder/source.c" </dev/null) 2>"$folder/report"
[ "$(cat "$folder/report")" = 'exit 63' ] || fail "a million calls in each other end with $(cat "$folder/report")"
echo "$script: $builds builds of the deepest sources need no more than 1 MiB of stack"
