# What the scripts of this folder share. Each sources it first, from the top of the repository, with its own name in `script`.

# Ends the script with status 0, saying so, where one of these programs is missing.
need() {
    for program in "$@"; do
        if ! command -v "$program" >/dev/null 2>&1; then
            echo "$script: skipped, $program is not installed"
            exit 0
        fi
    done
}

fail() {
    echo "$script: $1"
    exit 1
}

# Sets `program` to the program of a crate as the gate built it; where there is none, or a source is newer, the script skips.
built() {
    program=crates/$1/out/$1
    if [ ! -x "$program" ] || [ -n "$(find $(sh tools/below "$1" | sed 's,.*,crates/&/src,') -type f -newer "$program" -print 2>/dev/null | head -n 1)" ]; then
        echo "$script: skipped, the program $1 is not built (rt ci builds it)"
        exit 0
    fi
}

# Sets `program` to the compiler that ./rvcc takes, so that each run takes the program itself. With no input there is no program
# to compile.
compiler() {
    program=$(sh tools/program.sh rvcc) || exit 1
    "$program" </dev/null 2>"$folder/report"
    [ "$(tail -n 1 "$folder/report")" = 'refused NoMain 41 line 1' ] || fail "the compiler does not run: $(cat "$folder/report")"
}

# The lines of a part (`lex`, `parse`, ..) in a table of crates/c_rows: stdin or stdout.
part_of() {
    sed -n "/^part $1\$/,/^part /{/^part /!p}" "crates/c_rows/$2"
}

# The sum of all that a try of a crate's mutants reads of the crate.
mutants_sum() {
    find "crates/$1/src" "crates/$1/specs" "crates/$1/proofs" "crates/$1/must-fail" "crates/$1/mutants" -type f 2>/dev/null \
        | LC_ALL=C sort | tr '\n' '\0' | xargs -0 -r sha256sum | sha256sum | cut -d ' ' -f 1
}

folder=$(mktemp -d) || exit 1
trap 'rm -rf "$folder"' EXIT
