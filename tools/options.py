"""options.py PROGRAM FOLDER: prints what the options of a build are worth on the programs of examples/embedded, in FOLDER.

For each row of options: the instructions that the images run, over those of `gcc -O1`, and the bytes of text, over those of
`gcc -Os`, as geometric means over the programs; with `--each` as a third word the figures of each program too. gcc's programs are for
the same processor and run on the same machine, PROGRAM's; that counts both."""
import glob
import math
import os
import re
import struct
import subprocess
import sys

PROGRAM, FOLDER = sys.argv[1:3]
SWEEPS = "fold,inv,cne,dne,inv,dne"
ROWS = [[], ["--recipe", "none"], ["--recipe", SWEEPS], ["--code", "tight"], ["--code", "tight", "--recipe", SWEEPS]]
GCC = ["riscv64-unknown-elf-gcc", "-march=rv32im", "-mabi=ilp32", "-std=gnu11", "-fwrapv", "-funsigned-char", "-w", "-fno-builtin",
       "-ffreestanding", "-fno-tree-loop-distribute-patterns", "-nostdlib", "-static",
       "-ffunction-sections", "-Wl,--gc-sections"]
# The three functions of the language, as short as an image has them, and two that gcc's code may call, linked where it does.
START = """
__asm__(".globl _start\\n_start: .option push\\n.option norelax\\nla gp, __global_pointer$\\n"
        ".option pop\\nla sp, stack_end\\ncall main\\ncall exit\\n"
        "putchar: addi sp, sp, -16\\nsb a0, 0(sp)\\nli a0, 1\\nmv a1, sp\\nli a2, 1\\nli a7, 64\\necall\\nlbu a0, 0(sp)\\n"
        "addi sp, sp, 16\\nret\\n"
        "getchar: addi sp, sp, -16\\nli a0, 0\\nmv a1, sp\\nli a2, 1\\nli a7, 63\\necall\\nmv a1, a0\\nli a0, -1\\nblez a1, 1f\\n"
        "lbu a0, 0(sp)\\n1: addi sp, sp, 16\\nret\\n"
        ".section .text.memcpy, \\"ax\\"\\n.globl memcpy\\nmemcpy: mv a5, a0\\n1: beqz a2, 2f\\nlbu a4, 0(a1)\\nsb a4, 0(a5)\\naddi a1, a1, 1\\n"
        "addi a5, a5, 1\\naddi a2, a2, -1\\nj 1b\\n2: ret\\n"
        ".section .text.memset, \\"ax\\"\\n.globl memset\\nmemset: mv a5, a0\\n1: beqz a2, 2f\\nsb a1, 0(a5)\\naddi a5, a5, 1\\n"
        "addi a2, a2, -1\\nj 1b\\n2: ret\\n.text\\n"
        "exit: li a7, 93\\necall\\n"
        ".globl putchar, getchar, exit\\n.bss\\n.space 1048576\\n.balign 16\\nstack_end: .space 16\\n");
"""


def searched():
    """The recipe for tight code that README gives as searched for."""
    with open("README.md", encoding="utf-8") as file:
        found = re.search(r"^\| tight \| `([a-z,]+)`", file.read(), re.MULTILINE)
    return found and found[1]


def run(image, data, steps):
    return subprocess.run([PROGRAM, "run", image, "--steps", str(steps)], input=data, capture_output=True, check=False)


def instructions(image, data):
    """How many instructions a run takes: the least bound under which it ends."""
    low, high = 0, 1 << 26
    ended = run(image, data, high)
    if not ended.stderr.startswith(b"exit"):
        sys.exit("tools/options: a run of %s ends with %s" % (image, ended.stderr.decode()))
    while high - low > max(1, high >> 13):
        middle = (low + high) // 2
        if run(image, data, middle).stderr.startswith(b"exit"):
            high = middle
        else:
            low = middle
    return high, ended.stdout + ended.stderr


def text(image):
    """The bytes of text: the section, or the first segment that may be executed where there are no sections."""
    with open(image, "rb") as file:
        data = file.read()
    start, sections = struct.unpack_from("<28xII", data)
    headers, size, count, _, number, names = struct.unpack_from("<40x6H", data)
    if number:
        table = [struct.unpack_from("<10I", data, sections + 40 * k) for k in range(number)]
        at = table[names][4]
        return sum(row[5] for row in table if data[at + row[0]:].split(b"\0")[0] == b".text")
    table = [struct.unpack_from("<8I", data, start + size * k) for k in range(count)]
    return next(row[4] for row in table if row[0] == 1 and row[6] & 1)


def mean(ratios):
    return math.exp(sum(map(math.log, ratios)) / len(ratios))


programs = []
with open(os.path.join(FOLDER, "start.c"), "w", encoding="ascii") as file:
    file.write(START)
# The only header of the language, which declares its functions.
with open(os.path.join(FOLDER, "stdio.h"), "w", encoding="ascii") as file:
    file.write("int putchar(int); int getchar(void); void exit(int);\n")
for source in sorted(glob.glob("examples/embedded/*.c")):
    name = os.path.basename(source)[:-2]
    given = source[:-2] + ".in"
    data = open(given, "rb").read() if os.path.exists(given) else b""
    images = {}
    for level in ("-O1", "-Os"):
        images[level] = os.path.join(FOLDER, name + level)
        subprocess.run([*GCC, level, "-I", FOLDER, "-o", images[level], os.path.join(FOLDER, "start.c"), source], check=True)
    steps, output = instructions(images["-O1"], data)
    programs.append((name, source, data, output, steps, text(images["-Os"])))
    print("%s: gcc -O1 runs %d instructions, gcc -Os has %d bytes of text" % (name, steps, programs[-1][5]))
recipe = searched()
rows = ROWS + [["--code", "tight", "--recipe", recipe]] if recipe else ROWS
for options in rows:
    ran, sizes = [], []
    for name, source, data, output, steps, size in programs:
        image = os.path.join(FOLDER, "image.elf")
        subprocess.run([PROGRAM, "build", source, image, *options], check=True)
        found, wrote = instructions(image, data)
        if wrote != output:
            sys.exit("tools/options: %s with %s writes otherwise than gcc's program" % (name, " ".join(options)))
        ran.append(found / steps)
        sizes.append(text(image) / size)
        if "--each" in sys.argv:
            print("  %s: %d instructions, %d bytes" % (name, found, text(image)))
    print("%s: %.2f times the instructions of gcc -O1, %.2f times the text of gcc -Os"
          % (" ".join(options) or "without an option", mean(ran), mean(sizes)), flush=True)
