#!/bin/sh
# Compares the instructions that rv_isa decodes with those that objdump tells, on some thousand words of each opcode.
# It needs Debian's package binutils-riscv64-unknown-elf and python3.
set -u
cd "$(dirname "$0")/.." || exit 1
script=tools/decode.sh
. tools/lib.sh
need riscv64-unknown-elf-objdump python3
built c_rows

# 250 words for each opcode of RV32IM, with the fields of registers and functions drawn by a fixed generator.
python3 - "$folder" <<'PYTHON'
import random, struct, sys
draw = random.Random(2019)
opcodes = [0x37, 0x17, 0x6F, 0x67, 0x63, 0x03, 0x23, 0x13, 0x33]
words = []
for opcode in opcodes:
    for _ in range(250):
        word = draw.getrandbits(25) << 7 | opcode
        if opcode in (0x13, 0x33):
            word = word & 0x01FFFFFF | draw.choice([0x00, 0x01, 0x20]) << 25
        words.append(word)
words += [0x00000073, 0x00100073, 0x0000000F]
with open(sys.argv[1] + "/words", "w") as text, open(sys.argv[1] + "/words.bin", "wb") as binary:
    for word in words:
        text.write(f"{word:08x}\n")
        binary.write(struct.pack("<I", word))
PYTHON
"$program" decode <"$folder/words" >"$folder/ours" || exit 1
riscv64-unknown-elf-objdump -D -b binary -m riscv:rv32 -M no-aliases,numeric "$folder/words.bin" >"$folder/theirs" || exit 1
python3 - "$folder" <<'PYTHON'
import re, sys
folder = sys.argv[1]
words = open(folder + "/words").read().split()
ours = []
for line in open(folder + "/ours"):
    found = re.match(r"Some\((\w+)", line)
    ours.append(found.group(1).lower() if found else None)
theirs = {}
for line in open(folder + "/theirs"):
    found = re.match(r"\s*([0-9a-f]+):\s+([0-9a-f]{8})\s+(\S+)", line)
    if found:
        theirs[int(found.group(1), 16) // 4] = found.group(3)
wrong = 0
for k, word in enumerate(words):
    name = theirs.get(k, ".word")
    if name.startswith(".") or name == "unimp" or name.startswith("c."):
        name = None
    # RV32 has no shift by 32 or more, which objdump prints all the same.
    if name in ("slli", "srli", "srai") and int(word, 16) >> 25 & 1:
        name = None
    if ours[k] != name:
        wrong += 1
        print(f"tools/decode.sh: {word} is {ours[k]} here and {name} to objdump")
if wrong:
    sys.exit(1)
print(f"tools/decode.sh: {len(words)} words agree with objdump")
PYTHON
