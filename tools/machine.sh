#!/bin/sh
# Runs small RV32IM programs with `rvcc run` and under qemu-riscv32: output and status must be the same. It needs Debian's
# packages binutils-riscv64-unknown-elf and qemu-user.
set -u
cd "$(dirname "$0")/.." || exit 1
script=tools/machine.sh
. tools/lib.sh
need qemu-riscv32 riscv64-unknown-elf-as riscv64-unknown-elf-ld

# compare NAME INPUT OPTION..: assembles NAME.s, links it with these options, and runs it both ways on the input.
runs=0
compare() {
    riscv64-unknown-elf-as -march=rv32im -mabi=ilp32 -o "$folder/$1.o" "$folder/$1.s" || fail "$1 was not assembled"
    compared=$1
    input=$2
    shift 2
    [ $# -gt 0 ] || set -- -Ttext=0x10000
    riscv64-unknown-elf-ld -m elf32lriscv "$@" -o "$folder/$compared.elf" "$folder/$compared.o" 2>/dev/null || fail "$compared was not linked"
    set -- "$compared" "$input"
    runs=$((runs + 1))
    printf "$2" | qemu-riscv32 "$folder/$1.elf" >"$folder/theirs"
    status=$?
    printf "$2" | ./rvcc run "$folder/$1.elf" >"$folder/ours" 2>"$folder/report" || fail "$1 did not end: $(cat "$folder/report")"
    [ "$(cat "$folder/report")" = "exit $status" ] || fail "$1 ends with $status under qemu and with $(cat "$folder/report") here"
    cmp -s "$folder/ours" "$folder/theirs" || fail "$1 writes other bytes here than under qemu"
}

# Mixes the word in a2 into s0, so that any other result of one instruction gives another word at the end.
mix=' slli t0, s0, 5\n srli t1, s0, 27\n or s0, t0, t1\n xor s0, s0, a2\n'

# Writes the bytes of s0, and exits with some of its bits.
finish=' la s1, word\n sw s0, 0(s1)\n li s2, 4\nnext: li a0, 1\n mv a1, s1\n li a2, 1\n li a7, 64\n ecall\n addi s1, s1, 1\n addi s2, s2, -1\n bnez s2, next\n andi a0, s0, 127\n li a7, 93\n ecall\n'
word='.data\nword: .word 0\n'

# Every register operation on pairs of telling words: the results are mixed into one word, whose bytes are written.
{
    printf '_start:\n li s0, 0\n'
    for a in 0 1 -1 7 -7 0x80000000 0x7fffffff 0x12345678; do
        for b in 0 1 -1 3 -3 31 0x80000000 0x7fffffff; do
            printf ' li a0, %s\n li a1, %s\n' "$a" "$b"
            for op in add sub sll slt sltu xor srl sra or and mul mulh mulhsu mulhu div divu rem remu; do
                printf " %s a2, a0, a1\n$mix" "$op"
            done
        done
    done
    printf "$finish$word"
} >"$folder/operations.s"
compare operations ''

# Every operation with an immediate, on telling words and the corners of the immediate.
{
    printf '_start:\n li s0, 0\n'
    for a in 0 1 -1 7 -7 0x80000000 0x7fffffff 0x12345678; do
        printf ' li a0, %s\n' "$a"
        for op in addi slti sltiu xori ori andi; do
            for imm in 0 1 -1 7 2047 -2048; do
                printf " %s a2, a0, %s\n$mix" "$op" "$imm"
            done
        done
        for op in slli srli srai; do
            for imm in 0 1 7 30 31; do
                printf " %s a2, a0, %s\n$mix" "$op" "$imm"
            done
        done
    done
    for op in lui auipc; do
        for imm in 0 1 0x7ffff 0x80000 0xfffff; do
            printf " %s a2, %s\n$mix" "$op" "$imm"
        done
    done
    printf " fence\n fence r, w\n$finish$word"
} >"$folder/immediates.s"
compare immediates ''

# Every branch on pairs of telling words, forwards and, where it is taken, backwards; jal and jalr, with the link and with the
# lowest bit of the target cleared.
{
    printf '_start:\n li s0, 0\n'
    for a in 0 1 -1 0x80000000 0x7fffffff; do
        for b in 0 1 -1 0x80000000 0x7fffffff; do
            printf ' li a0, %s\n li a1, %s\n' "$a" "$b"
            for op in beq bne blt bge bltu bgeu; do
                printf " li a2, 1\n %s a0, a1, 2f\n li a2, 2\n j 3f\n1: addi a2, a2, 8\n j 3f\n2: %s a0, a1, 1b\n3:$mix" "$op" "$op"
            done
        done
    done
    printf " jal a2, 1f\n ebreak\n1:$mix la t2, 2f\n jalr a2, 1(t2)\n ebreak\n2:$mix la t2, 3f + 2047\n jalr a2, -2047(t2)\n ebreak\n3:$mix"
    printf " la t2, 4f - 2047\n jalr a2, 2047(t2)\n ebreak\n4:$mix la t2, 5f + 2048\n jalr a2, -2048(t2)\n ebreak\n5:$mix"
    printf "$finish$word"
} >"$folder/jumps.s"
compare jumps ''

# Loads and stores of each width, with and without sign, at a word of changing bytes.
cat >"$folder/memory.s" <<'ASM'
_start:
 la s0, bytes
 li s1, 0
 li s2, 0
again:
 add t0, s0, s2
 lb a0, 0(t0)
 lbu a1, 0(t0)
 andi t1, s2, -2
 add t1, s0, t1
 lh a2, 0(t1)
 lhu a3, 0(t1)
 lw a4, 0(s0)
 add s1, s1, a0
 xor s1, s1, a1
 add s1, s1, a2
 xor s1, s1, a3
 add s1, s1, a4
 sb s1, 4(s0)
 sh s1, 6(s0)
 sw s1, 8(s0)
 lw a5, 4(s0)
 xor s1, s1, a5
 addi s2, s2, 1
 li t2, 12
 bltu s2, t2, again
 andi a0, s1, 127
 li a7, 93
 ecall
.data
 .align 2
bytes: .byte 0x80, 0x7f, 0xff, 0x01, 0, 0, 0, 0, 0, 0, 0, 0
ASM
compare memory ''

# Every load and store with the corners of its immediate, at a word of corner bytes.
{
    printf '.option norelax\n_start:\n li s0, 0\n la s1, corners\n'
    for imm in 2047 -2048 -1 1; do
        printf ' li t2, %s\n sub t2, s1, t2\n' "$imm"
        for pair in sb:lb sb:lbu sh:lh sh:lhu sw:lw; do
            for a in 0x80 0x8000 0x80000000 -1 0x7fffffff; do
                printf " li a0, %s\n %s a0, %s(t2)\n %s a2, %s(t2)\n$mix lw a2, 0(s1)\n$mix" "$a" "${pair%:*}" "$imm" "${pair#*:}" "$imm"
            done
        done
    done
    printf "$finish$word.align 2\ncorners: .word 0x80ff7f01\n"
} >"$folder/corners.s"
compare corners ''

# Every branch to the farthest instruction after and before it, and jal so.
{
    printf '.option norelax\n_start:\n li s0, 0\n li a0, -1\n li a1, 1\n'
    for pair in beq:a1,a1 bne:a0,a1 blt:a0,a1 bge:a1,a0 bltu:a1,a0 bgeu:a0,a1; do
        branch="${pair%:*} ${pair#*:}"
        printf " $branch, .+4092\n ebreak\n .space 4084\n addi s0, s0, 1\n j .+4100\n slli s0, s0, 1\n j .+4100\n .space 4088\n $branch, .-4096\n ebreak\n"
    done
    printf " jal a2, .+1048572\n ebreak\n .space 1048564\n addi s0, s0, 1\n la t2, 1f\n jr t2\n slli s0, s0, 1\n la t2, 2f\n jr t2\n .space 1048560\n1: jal a2, .-1048576\n ebreak\n2:$mix"
    printf "$finish$word"
} >"$folder/farthest.s"
compare farthest ''

# ebreak: there the run stops, which is a signal (5) under qemu.
printf '_start:\n li a0, 1\n ebreak\n' >"$folder/break.s"
riscv64-unknown-elf-as -march=rv32im -mabi=ilp32 -o "$folder/break.o" "$folder/break.s" || fail "break was not assembled"
riscv64-unknown-elf-ld -m elf32lriscv -Ttext=0x10000 -o "$folder/break.elf" "$folder/break.o" 2>/dev/null || fail "break was not linked"
(qemu-riscv32 "$folder/break.elf"; exit $?) >/dev/null 2>&1
[ $? -eq 133 ] || fail "ebreak is no signal under qemu"
./rvcc run "$folder/break.elf" >/dev/null 2>"$folder/report"
[ $? -eq 7 ] && [ "$(cat "$folder/report")" = stack ] || fail "ebreak ends with $(cat "$folder/report")"

# Copies its input to its output, and counts the bytes.
cat >"$folder/copy.s" <<'ASM'
_start:
 la s0, byte
 li s1, 0
again:
 li a0, 0
 mv a1, s0
 li a2, 1
 li a7, 63
 ecall
 beqz a0, done
 addi s1, s1, 1
 li a0, 1
 mv a1, s0
 li a2, 1
 li a7, 64
 ecall
 j again
done:
 mv a0, s1
 li a7, 93
 ecall
.data
byte: .byte 0
ASM
compare copy ''
compare copy 'a\000b\377\nc'

# Branches both ways, and a call with a return.
cat >"$folder/branches.s" <<'ASM'
_start:
 li s0, 0
 li a0, -1
 li a1, 1
 bge a0, a1, bad
 bgeu a0, a1, one
 j bad
one: blt a0, a1, two
 j bad
two: bltu a0, a1, bad
 beq a0, a1, bad
 bne a0, a1, three
 j bad
three:
 li a0, 10
 call sum
 li a7, 93
 ecall
sum: li t0, 0
loop: add t0, t0, a0
 addi a0, a0, -1
 bnez a0, loop
 mv a0, t0
 ret
bad: li a0, 1
 li a7, 93
 ecall
ASM
compare branches ''

# Each register holds a word of its own, and x0 none. No address is taken from gp, which has its word too.
{
    printf '.option norelax\n_start:\n'
    for register in $(seq 0 31); do
        printf ' addi x%s, x0, %s\n' "$register" "$((2 * register + 1))"
    done
    printf ' la x8, words\n'
    for register in $(seq 0 31); do
        printf ' sw x%s, %s(x8)\n' "$register" "$((4 * register))"
    done
    printf ' li s0, 0\n la s2, words\n li s3, 32\nagain: lw a2, 0(s2)\n'
    printf "$mix addi s2, s2, 4\n addi s3, s3, -1\n bnez s3, again\n$finish$word.align 2\nwords: .space 128\n"
} >"$folder/registers.s"
compare registers ''

# Text that may be written: an instruction is done, another is stored over it, and it is done again.
cat >"$folder/changed.s" <<'ASM'
_start:
 la t1, again
 la t4, other
 lw t0, 0(t4)
again:
 addi a0, a0, 1
 sw t0, 0(t1)
 fence
 addi t2, t2, 1
 sltiu t3, t2, 2
 bnez t3, again
other:
 addi a0, a0, 16
 li a7, 93
 ecall
ASM
cat >"$folder/changed.ld" <<'LD'
PHDRS { text PT_LOAD FLAGS(7); }
ENTRY(_start)
SECTIONS { . = 0x10000; .text : { *(.text) } :text /DISCARD/ : { *(.riscv.attributes) } }
LD
compare changed '' -T "$folder/changed.ld"

# segments COUNT: a program of so many segments, each on a page of its own: two texts that jump to and fro, and words to read, whose
# sum is the status.
segments() {
    {
        printf '.section .first, "ax"\n_start: .globl _start\n li a0, 0\n lui t0, 0x30\n jalr ra, 0(t0)\n li a7, 93\n ecall\n'
        printf '.section .second, "ax"\n'
        for k in $(seq 3 "$1"); do
            printf ' lui t0, %s\n lw t1, 0(t0)\n add a0, a0, t1\n' "$((0x40 + k))"
        done
        printf ' ret\n'
        for k in $(seq 3 "$1"); do
            printf '.section .word%s, "a"\n .word %s\n' "$k" "$k"
        done
    } >"$folder/segments$1.s"
    {
        printf 'PHDRS { first PT_LOAD FLAGS(5); second PT_LOAD FLAGS(5);'
        for k in $(seq 3 "$1"); do
            printf ' word%s PT_LOAD FLAGS(4);' "$k"
        done
        printf ' }\nENTRY(_start)\nSECTIONS { . = 0x10000; .first : { *(.first) } :first . = 0x30000; .second : { *(.second) } :second\n'
        for k in $(seq 3 "$1"); do
            printf ' . = %s; .word%s : { *(.word%s) } :word%s\n' "$((0x40000 + 0x1000 * k))" "$k" "$k" "$k"
        done
        printf ' /DISCARD/ : { *(.riscv.attributes) } }\n'
    } >"$folder/segments$1.ld"
    compare "segments$1" '' -T "$folder/segments$1.ld"
}
segments 4
segments 16
echo "tools/machine.sh: $runs runs agree with qemu-riscv32"
