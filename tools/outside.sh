#!/bin/sh
# Builds programs under `none`, the default recipe, each rule alone and thirty recipes that are drawn, by 1 and by 7 workers. The two
# images must be the same bytes. Each image must write and end with what gcc's program does, under `rvcc run` and under qemu-riscv32,
# and so must the source under `rvcc interp`; readelf reads each image without a complaint, and objdump finds an instruction in each
# word of its text. The programs are those of examples/, which gcc's sanitizers check too, and those of the table of runs in rows/.
# The seed of the recipes is printed; as an argument it draws the same ones again. With a second argument so many recipes are tried:
# `none`, the default and drawn ones.
set -u
cd "$(dirname "$0")/.." || exit 1
script=tools/outside.sh
. tools/lib.sh
need python3 gcc qemu-riscv32 riscv64-unknown-elf-readelf riscv64-unknown-elf-objdump

# The functions of the language for a 32-bit program of gcc, whose pointers are as wide as the language's.
cat >"$folder/start.c" <<'C'
static int call(int number, int first, void *second, int third)
{
    int result;
    __asm__ volatile("int $0x80" : "=a"(result) : "a"(number), "b"(first), "c"(second), "d"(third) : "memory");
    return result;
}
int putchar(int c) { unsigned char byte = c; call(4, 1, &byte, 1); return byte; }
int getchar(void) { unsigned char byte; return call(3, 0, &byte, 1) == 1 ? byte : -1; }
void exit(int status) { for (;;) call(1, status & 255, 0, 0); }
int main(void);
void _start(void) { exit(main()); }
C
native='gcc -m32 -std=c11 -fwrapv -funsigned-char -w -O1 -fno-builtin -fno-stack-protector -fno-pic -no-pie -nostdlib -static'
echo 'int main(void) { return 7; }' >"$folder/seven.c"
$native -o "$folder/seven" "$folder/start.c" "$folder/seven.c" 2>/dev/null
"$folder/seven" 2>/dev/null
[ $? -eq 7 ] || { echo "$script: skipped, gcc makes no 32-bit programs that run here"; exit 0; }

# Each example is defined, as far as the sanitizers see, and is accepted from the standard input. No example allocates, so no leaks are
# looked for, which does not work everywhere.
compiler
export ASAN_OPTIONS=detect_leaks=0
checked='gcc -std=c11 -fwrapv -funsigned-char -w -g -fsanitize=undefined,address -fno-sanitize-recover=all'
sanitizers=yes
if ! $checked -o "$folder/checked" "$folder/seven.c" 2>"$folder/report" || { "$folder/checked" 2>>"$folder/report"; [ $? -ne 7 ]; }; then
    sanitizers=
    echo "$script: the sanitizers of gcc do not work here, what they find is skipped: $(head -n 1 "$folder/report")"
fi
for source in examples/*.c; do
    input=examples/$(basename "$source" .c).in
    [ -e "$input" ] || input=/dev/null
    if [ -n "$sanitizers" ]; then
        $checked -o "$folder/checked" "$source" || fail "gcc refused $source"
        "$folder/checked" <"$input" >/dev/null 2>"$folder/report"
        grep -q 'runtime error\|Sanitizer' "$folder/report" && fail "$source is undefined: $(head -n 3 "$folder/report")"
    fi
    "$program" <"$source" >"$folder/output" || fail "$source is not accepted from standard input"
    grep -qx 'accepted [0-9]*' "$folder/output" || fail "$source is reported as: $(cat "$folder/output")"
done

PYTHONDONTWRITEBYTECODE=1 python3 - "$program" "$folder" "${1:-$(date +%s)}" "$native" "${2:-41}" <<'PYTHON'
import concurrent.futures, glob, os, random, re, struct, subprocess, sys

program, folder, seed, native, count = sys.argv[1:6]
program = os.path.abspath(program)
RULES = "fold cne dne inv psh pll ivt url iln".split()
draw = random.Random(int(seed))
DRAWN = [",".join(draw.choices(RULES, k=draw.randint(2, 6))) for _ in range(30)]
RECIPES = (["none", None] + (RULES if int(count) > 11 else []) + DRAWN)[:int(count)]


# What C leaves open, and gcc does otherwise for x86 than for RISC-V: the order of operands; the least `int` divided by -1.
LEFT_OPEN = ["the order of operands", "word operations"]


def programs():
    """The name, the source, the input and, where gcc is not asked, the output and status of each program."""
    for path in sorted(glob.glob("examples/*.c")):
        given = path[:-2] + ".in"
        yield path, open(path, "rb").read(), open(given, "rb").read() if os.path.exists(given) else b"", None
    sys.path.insert(0, "rows")
    import read
    for number, row in enumerate(read.table("runs"), 1):
        wanted = None if "gcc" in row["outside"] and row["about"] not in LEFT_OPEN else (read.bytes_of(row["output"]), int(row["status"]))
        yield "runs %d" % number, read.source(row), read.bytes_of(row["input"]), wanted


def outcome(words, given):
    ended = subprocess.run(words, input=given, capture_output=True)
    return ended.stdout, ended.returncode, ended.stderr.decode("latin-1")


def of_gcc(home, source, given):
    """What gcc's program writes and ends with."""
    text = re.sub(rb"(?m)^[ \t]*#include.*$", b"", source)
    with open(home + "/native.c", "wb") as file:
        file.write(b"int putchar(int); int getchar(void); void exit(int);\n#line 1\n" + text)
    subprocess.run(native.split() + ["-o", home + "/native", folder + "/start.c", home + "/native.c"], check=True)
    return outcome([home + "/native"], given)[:2]


def built(home, recipe, workers):
    image = home + "/image.elf"
    if os.path.exists(image):
        os.remove(image)
    words = [program, "build", home + "/source.c", image, "--workers", workers] + (["--recipe", recipe] if recipe else [])
    output, status, report = outcome(words, b"")
    if (output, status, report) != (b"", 0, ""):
        return None
    with open(image, "rb") as file:
        return file.read()


def disassembles(home, image):
    """Whether readelf has no complaint, and each word of the text is an instruction of objdump."""
    with open(home + "/image.elf", "wb") as file:
        file.write(image)
    headers = outcome(["riscv64-unknown-elf-readelf", "--wide", "--file-header", "--segments", home + "/image.elf"], b"")
    if headers[1] or headers[2] or re.search(rb"(?i)warning|error", headers[0]):
        return False
    offset, size = struct.unpack_from("<I8xI", image, 56)
    with open(home + "/text", "wb") as file:
        file.write(image[offset:offset + size])
    listing, status, _ = outcome("riscv64-unknown-elf-objdump -D -b binary -m riscv:rv32 -M no-aliases,numeric".split() + [home + "/text"], b"")
    lines = re.findall(rb"(?m)^ *[0-9a-f]+:\t.*$", listing)
    return status == 0 and len(lines) == size // 4 and not re.search(rb"\.word|\.insn|unknown", b"\n".join(lines))


def compare(number, name, source, given, wanted):
    """What is wrong with a program, and how many images it has."""
    home = "%s/%d" % (folder, number)
    os.mkdir(home)
    with open(home + "/source.c", "wb") as file:
        file.write(source)
    wanted = wanted or of_gcc(home, source, given)
    images, wrong = {}, []
    output, status, report = outcome([program, "interp", home + "/source.c"], given)
    if (output, status, report) != (wanted[0], 0, "exit %d\n" % wanted[1]):
        wrong.append(("none", "is run without an image otherwise than gcc's program: " + report.strip()))
    for recipe in RECIPES:
        image = built(home, recipe, "1")
        if image is None or image != built(home, recipe, "7"):
            wrong.append((recipe, "is not built the same by 1 and by 7 workers"))
        else:
            images.setdefault(image, recipe)
    for image, recipe in images.items():
        if not disassembles(home, image):
            wrong.append((recipe, "has an image that readelf or objdump complains of"))
        output, status, report = outcome([program, "run", home + "/image.elf"], given)
        if (output, status, report) != (wanted[0], 0, "exit %d\n" % wanted[1]):
            wrong.append((recipe, "runs otherwise than gcc's program: " + report.strip()))
        if outcome(["qemu-riscv32", home + "/image.elf"], given)[:2] != wanted:
            wrong.append((recipe, "runs otherwise under qemu-riscv32"))
    return ["%s, recipe %s, %s" % (name, recipe or "by default", why) for recipe, why in wrong], len(images)


print("tools/outside.sh: the seed of the recipes is " + seed, flush=True)
with concurrent.futures.ThreadPoolExecutor(os.cpu_count()) as pool:
    tried = [pool.submit(compare, number, *row) for number, row in enumerate(programs())]
    results = [each.result() for each in tried]
for wrong, _ in results:
    for line in wrong:
        print("tools/outside.sh: " + line)
if any(wrong for wrong, _ in results):
    sys.exit(1)
print("tools/outside.sh: %d programs, %d recipes, %d images agree with gcc, qemu-riscv32, readelf and objdump"
      % (len(results), len(RECIPES), sum(count for _, count in results)))
PYTHON
