#!/bin/sh
# part.sh NAME..: copies these crates and those that they stand on to a new folder, in which a plain `rt ci` proves them side
# by side, and prints the folder, which is the caller's to remove. Mutants and the crates above stay behind. A kit that keeps
# proofs keeps those for every checkout of the same files. Without a name it does nothing.
set -u
cd "$(dirname "$0")/.." || exit 1
[ $# -gt 0 ] || exit 0

part=$(mktemp -d "${TMPDIR:-/tmp}/rvcc-part.XXXXXX") || exit 1
stop() {
    rm -rf "$part"
    echo "tools/part.sh: $1" >&2
    exit 1
}

crates=$(sh tools/below "$@") || stop 'no such crate'
for crate in $crates; do
    grep "^${crate}[: ]" crates.txt
done >"$part/crates.txt"
cp HANDLES "$part/HANDLES" || stop 'there is no HANDLES'
for crate in $crates; do
    mkdir -p "$part/crates/$crate" || stop "no room for $crate"
    for file in src specs proofs stdin stdout args status data; do
        [ -e "crates/$crate/$file" ] || continue
        cp -R "crates/$crate/$file" "$part/crates/$crate/$file" || stop "no room for $crate"
    done
done
echo "$part"
