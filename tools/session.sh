#!/bin/sh
# Runs the sessions of README.md and of the pages in docs/, each page's in a scratch folder of its own that has the programs, the
# examples and a home, and compares what they write. In a block between ``` a line after `$ ` is a command, lines after `> ` go on with
# it, the other lines are what it writes on both streams, and a line `[N]` is its status where that is not 0. README.md has commands
# in such blocks only. A command whose outside program is missing is skipped, saying so.
set -u
cd "$(dirname "$0")/.." || exit 1
script=tools/session.sh
. tools/lib.sh
compiler
view=$(sh tools/program.sh rvcc-view) || exit 1

# What rvcc-cc needs: pycparser, for one of the two that it looks for, and a preprocessor.
has_front=
for python in python3 /usr/bin/python3; do
    ! $python -c 'import pycparser' 2>/dev/null || has_front=yes
done
command -v gcc >/dev/null 2>&1 || command -v clang >/dev/null 2>&1 || command -v cpp >/dev/null 2>&1 || command -v tcc >/dev/null 2>&1 || has_front=

# Each command stands in a file of its number, its line in another, and what it should write in a third.
commands=0
skipped=
for page in README.md docs/*.md; do
    grep -q '^\$ ' "$page" || { [ "$page" != README.md ] || fail 'README.md has no session'; continue; }
    place=$folder/$(basename "$page" .md)
    mkdir "$place" && awk -v folder="$place" -v page="$page" '
        /^```/ { fenced = !fenced; begun = 0; next }
        !fenced { if (page == "README.md" && /^    [^ ]/) { print page ":" FNR ": a command that no session has"; wrong = 1; exit 1 }; next }
        /^\$ / {
            number++; begun = 1; text = substr($0, 3)
            print text > (folder "/command." number)
            print FNR > (folder "/line." number)
            printf "" > (folder "/wanted." number)
            within = 1
            next
        }
        /^> / && within { print substr($0, 3) > (folder "/command." number); next }
        begun { within = 0; print > (folder "/wanted." number) }
        END { if (!wrong) print number + 0 }
    ' "$page" >"$place/count" || fail "$(cat "$place/count")"
    mkdir "$place/session" "$place/session/home" "$place/session/bin" && cp -R examples front rvcc-cc "$place/session/" \
        && cp "$program" "$place/session/bin/rvcc" && cp "$view" "$place/session/bin/rvcc-view" && cp "$place/session/bin"/* "$place/session/" || fail 'there is no room'
    number=1
    while [ $number -le "$(cat "$place/count")" ]; do
        missing=
        for outside in qemu-riscv32 cpp dot; do
            ! grep -q "\(^\|[ |&]\)$outside " "$place/command.$number" || command -v $outside >/dev/null 2>&1 || missing="$missing $outside"
        done
        ! grep -q '/rvcc-cc ' "$place/command.$number" || [ -n "$has_front" ] || missing="$missing python3-pycparser"
        if [ -n "$missing" ]; then
            skipped="$skipped$missing"
        else
            (cd "$place/session" && HOME=$place/session/home sh "$place/command.$number") >"$folder/given" 2>&1
            status=$?
            [ $status -eq 0 ] || echo "[$status]" >>"$folder/given"
            cmp -s "$folder/given" "$place/wanted.$number" || { diff "$place/wanted.$number" "$folder/given"; fail "$page:$(cat "$place/line.$number"): the session differs at: $(head -n 1 "$place/command.$number")"; }
            commands=$((commands + 1))
        fi
        number=$((number + 1))
    done
done
[ -z "$skipped" ] || echo "$script: commands that need these are skipped:$skipped"
echo "$script: $commands commands of README.md and docs/ write what the pages say"
