#!/bin/sh
# Tests the front of rvcc-cc: each step's programs, which fail without the step, those of the library, and those that are refused.
# The programs of examples/embedded/habit, as their authors write them, give the outputs of the plain ones beside them.
set -u
cd "$(dirname "$0")/.." || exit 1
script=tools/front.sh
. tools/lib.sh
need python3
python=
for one in python3 /usr/bin/python3; do
    "$one" -c 'import pycparser' 2>/dev/null && { python=$one; break; }
done
[ -n "$python" ] || { echo "$script: skipped, python3-pycparser is not installed"; exit 0; }
./rvcc-cc -E examples/answer.c >/dev/null 2>"$folder/said" || { grep -q preprocessor "$folder/said" && { echo "$script: skipped, no preprocessor is installed"; exit 0; }; }
compiler
RVCC=$program
export RVCC
"$python" -B front/tests/run.py >"$folder/log" 2>&1 || { cat "$folder/log"; fail 'tests of front/tests fail'; }
told=$(tail -n 1 "$folder/log")
if echo 'int main(void) { return 0; }' | gcc -m32 -x c - -o "$folder/narrow" 2>/dev/null; then
    "$python" -B front/tests/library/library.py "$program" "$folder" >"$folder/log" 2>&1 || { cat "$folder/log"; fail 'functions of front/library fail'; }
    told="$told; $(tail -n 1 "$folder/log")"
else
    echo "$script: the functions of the library are skipped, gcc-multilib is not installed"
fi
count=0
for source in examples/embedded/habit/*.c; do
    [ -e "$source" ] || continue
    name=$(basename "$source" .c)
    input=examples/embedded/$name.in
    [ -e "$input" ] || input=/dev/null
    ./rvcc-cc "$source" -o "$folder/$name.elf" 2>"$folder/said" || fail "$source is not compiled: $(cat "$folder/said")"
    "$program" run "$folder/$name.elf" <"$input" >"$folder/$name.out" 2>&1
    cmp -s "$folder/$name.out" "examples/embedded/$name.out" || fail "$source gives another output than $name.out"
    count=$((count + 1))
done
./rvcc-cc examples/embedded/habit/two/main.c examples/embedded/habit/two/queue.c -o "$folder/two.elf" 2>"$folder/said" || fail "two files are not compiled: $(cat "$folder/said")"
"$program" run "$folder/two.elf" >"$folder/two.out" 2>&1
cmp -s "$folder/two.out" examples/embedded/habit/two/main.out || fail 'a program of two files gives another output'
if command -v make >/dev/null 2>&1; then
    cp -R examples/embedded/habit "$folder/habit" && make -s -C "$folder/habit" CC="$PWD/rvcc-cc" >"$folder/said" 2>&1 || fail "the Makefile does not build: $(cat "$folder/said")"
else
    echo "$script: the Makefile is skipped, make is not installed"
fi
# One line each: no preprocessor, no pycparser, an output that is an input.
mkdir "$folder/none"
itself=$("$python" -c 'import sys; print(sys.executable)')
printf 'int main(void) { return 0; }\n' >"$folder/a.c"
PATH=$folder/none "$itself" -B front/start.py "$folder/a.c" -o "$folder/a.elf" 2>"$folder/said" && fail 'it works without a preprocessor'
grep -q 'install one of the packages' "$folder/said" || fail "without a preprocessor it says: $(cat "$folder/said")"
./rvcc-cc "$folder/a.c" -o "$folder/a.c" 2>"$folder/said" && fail 'an input is written over'
grep -q 'is an input too' "$folder/said" || fail "for an output that is an input it says: $(cat "$folder/said")"
# What the front does with odd files: a source or options, and a part of what is said.
says() {
    ./rvcc-cc "$folder/odd.c" -o "$folder/odd.elf" >"$folder/said" 2>&1 && "$program" run "$folder/odd.elf" >>"$folder/said" 2>&1
    grep -q "$1" "$folder/said" || fail "$2: $(head -n 3 "$folder/said")"
}
printf '#include "odd.h"\nint main(void) { return 0; }\n' >"$folder/odd.c"
says 'odd.c:1:10: error: .*odd.h' 'a header that is not there'
printf '#include "odd.c"\nint main(void) { return 0; }\n' >"$folder/odd.c"
says 'error: .*nested' 'a source that includes itself'
printf 'int main(void) { char *s = "\351"; return s[0] == 233 ? 5 : 6; } // \351\n' >"$folder/odd.c"
says 'exit 5' 'a source that is not UTF-8'
name=$(printf 'n%.0s' 1 2 3 4 5 6 7 8 9)
name=$name$name$name$name$name$name$name
printf 'int f(void) { static int %s = 3; { static int %s = 4; return %s; } }\nint main(void) { return f(); }\n' "$name" "$name" "$name" >"$folder/odd.c"
says 'exit 4' 'names of 63 bytes'
awk 'BEGIN { print "int main(void) { int s = 0;"; for (i = 0; i < 60000; i++) print "s += 1;"; print "return s; }" }' >"$folder/odd.c"
says 'error: the program has more than 200000 words' 'a source of 200,000 words'

# 5,000 lines, in at most 4 seconds of a processor.
awk 'BEGIN {
    print "#include <stdint.h>"
    for (i = 0; i < 624; i++) printf "static uint32_t f%d(uint32_t a, int n)\n{\n    for (int i = 0; i < n; i++) {\n        a = a * 31u + (uint32_t)i;\n        if (a & 1u) a ^= 0x%xu;\n    }\n    return a;\n}\n", i, i
    print "int main(void) { return (int)f0(1, 2); }"
}' >"$folder/many.c"
seconds=$("$python" -c '
import resource, subprocess, sys
subprocess.run(sys.argv[1:], check=True)
print("%.1f" % sum(resource.getrusage(resource.RUSAGE_CHILDREN)[:2]))' ./rvcc-cc -E -o "$folder/many.i" "$folder/many.c") || fail 'a source of 5,000 lines is not taken'
[ "${seconds%.*}" -lt 4 ] || fail "$(wc -l <"$folder/many.c") lines take $seconds seconds"
echo "$script: $told; $count programs as their authors write them; $(wc -l <"$folder/many.c") lines in $seconds seconds of a processor"
