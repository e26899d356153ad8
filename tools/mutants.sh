#!/bin/sh
# mutants.sh NAME..: tries the mutants of these crates, crates/NAME/mutants/*.edit and crates/NAME/must-fail/*.edit, on a copy: the
# prover has to refuse each. Where it does, the crate's line of docs/mutants.tsv is written: its name, how many mutants, and a
# SHA-256 of its src, specs, proofs and mutants. With --draw it tries those of one cheap crate, drawn by the state of the
# checkout, and writes nothing. Without a name it does nothing.
set -u
cd "$(dirname "$0")/.." || exit 1
script=tools/mutants.sh
[ $# -gt 0 ] || exit 0
table=docs/mutants.tsv

# Crates of the table that are proved in at most ten minutes of a processor with all that they stand on, which a kit may keep or not,
# one of them by the sum of the last commit's tree: against a false line.
drawn() {
    awk '
        FNR == 1 { file++ }
        file == 1 { price[$1] = $2 }
        file == 2 && /^[a-z]/ { sub(/#.*/, ""); name = $1; sub(/:.*/, "", name); sub(/^[^:]*:/, ""); below[name] = $0 }
        file == 3 && cost($1) <= 600 { print $1 }
        function cost(name) {
            delete seen
            return add(name)
        }
        function add(name, sum, names, count, i) {
            if ((name in seen) || !(name in below)) return 0
            seen[name] = 1
            sum = name in price ? price[name] : 60
            count = split(below[name], names, " ")
            for (i = 1; i <= count; i++) sum += add(names[i])
            return sum
        }
    ' docs/prices.tsv crates.txt $table >"$folder/cheap"
    count=$(wc -l <"$folder/cheap")
    [ "$count" -gt 0 ] || return 1
    number=$(git rev-parse 'HEAD^{tree}' 2>/dev/null | cut -c 1-7)
    sed -n "$((0x${number:-0} % count + 1))p" "$folder/cheap"
}

# Tries the mutants of a crate; the last line of the log says how many passed and failed.
tried() {
    part=$(sh tools/part.sh "$1") || return 1
    mkdir -p "$part/crates/$1/must-fail"
    for edit in "crates/$1/mutants"/*.edit "crates/$1/must-fail"/*.edit; do
        [ -e "$edit" ] && cp "$edit" "$part/crates/$1/must-fail/"
    done
    count=$(find "$part/crates/$1/must-fail" -name '*.edit' | wc -l)
    (cd "$part" && rt ci) >"$folder/log" 2>&1
    status=$?
    rm -rf "$part"
    [ $status -eq 0 ] && ! grep -q 'NOT REFUSED\|BAD EDIT\|NOT TRIED' "$folder/log"
}

. tools/lib.sh
need rt
draws=
if [ "$1" = --draw ]; then
    draws=yes
    name=$(drawn) || { echo "$script: no crate to draw"; exit 0; }
    set -- "$name"
fi
for crate in "$@"; do
    [ -d "crates/$crate/mutants" ] || [ -d "crates/$crate/must-fail" ] || fail "$crate has no mutants"
    tried "$crate" || { grep 'NOT REFUSED\|BAD EDIT\|NOT TRIED\|NOT PROVED' "$folder/log"; tail -n 5 "$folder/log"; fail "not every mutant of $crate is refused"; }
    echo "$script: $count mutants of $crate are refused"
    [ -z "$draws" ] || continue
    { grep -v "^$crate	" $table 2>/dev/null; printf '%s\t%s\t%s\n' "$crate" "$count" "$(mutants_sum "$crate")"; } | LC_ALL=C sort >"$folder/table"
    cp "$folder/table" $table
done
