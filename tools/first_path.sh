#!/bin/sh
# Compares the first example with outside programs: readelf and objdump read its image, and
# qemu-riscv32 runs it. Debian's packages binutils-riscv64-unknown-elf and qemu-user have them.
set -u
cd "$(dirname "$0")/.." || exit 1
script=tools/first_path.sh
. tools/lib.sh
need qemu-riscv32 riscv64-unknown-elf-readelf riscv64-unknown-elf-objdump

# For each constant: the image is made, runs, and exits with the constant modulo 256.
for constant in 0 42 300 2047 2048 4095 4096 305419896 2147483647; do
    printf 'int main(void) { return %s; }\n' "$constant" >"$folder/program.c"
    ./rvcc build "$folder/program.c" "$folder/program.elf" || fail "the build of $constant failed"
    qemu-riscv32 "$folder/program.elf"
    status=$?
    [ "$status" -eq $((constant % 256)) ] || fail "qemu-riscv32 ended with $status for $constant"
    [ "$(./rvcc run "$folder/program.elf" 2>&1)" = "exit $status" ] || fail "rvcc run ends otherwise for $constant"
done

./rvcc build examples/answer.c "$folder/answer.elf" || fail "the build of examples/answer.c failed"
[ "$(wc -c <"$folder/answer.elf")" -eq 8200 ] || fail "the image of examples/answer.c is not of 8200 bytes"
riscv64-unknown-elf-readelf --wide --file-header --segments "$folder/answer.elf" >"$folder/headers" 2>&1 \
    || fail "readelf refused the image"
grep -qi 'warning\|error' "$folder/headers" && fail "readelf complained of the image"
grep -q 'Entry point address: *0x10000$' "$folder/headers" || fail "readelf tells another entry"
[ "$(grep -c '^ *LOAD ' "$folder/headers")" -eq 2 ] || fail "readelf does not tell two segments"

# The text stands in the file at 4096 and has 45 words where the constant is small; each is an instruction.
dd if="$folder/answer.elf" of="$folder/text" bs=4 skip=1024 count=45 2>/dev/null
riscv64-unknown-elf-objdump -D -b binary -m riscv:rv32 -M no-aliases,numeric "$folder/text" >"$folder/listing" \
    || fail "objdump refused the text"
grep -q '\.word\|\.insn\|unknown' "$folder/listing" && fail "objdump found a word that is no instruction"
echo "tools/first_path.sh: the images agree with qemu-riscv32, readelf and objdump"
