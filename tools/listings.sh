#!/bin/sh
# Holds the listings of rvcc-view against the images of the compiler, for the sources of the table rows/images.tsv under `none` and the
# default recipe: assembled and linked by the commands of its first comment, a listing has the text and the globals of the image byte
# for byte; its symbols lie in order without a gap in the text; and each word stands in its comment as it stands in the image. And
# against the table rows/listings: each function has its name at its address, and under each line of its linear code its words.
set -u
cd "$(dirname "$0")/.." || exit 1
script=tools/listings.sh
. tools/lib.sh
need python3 riscv64-unknown-elf-as riscv64-unknown-elf-ld
built cc_view_main
view=$program
compiler

PYTHONDONTWRITEBYTECODE=1 python3 - rows "$program" "$view" "$folder" <<'END'
import concurrent.futures
import os
import re
import struct
import subprocess
import sys

rows, compiler, view, folder = sys.argv[1:]
view = os.path.abspath(view)
sys.path.insert(0, rows)
import read

DEFAULT = "iln,fold,inv,cne,dne,ivt,psh,pll,url,fold,cne,inv,dne,dne"


def segments(path):
    """Where each segment of an image begins, and its bytes."""
    with open(path, "rb") as file:
        image = file.read()
    first, = struct.unpack_from("<I", image, 28)
    count, = struct.unpack_from("<H", image, 44)
    heads = [struct.unpack_from("<8I", image, first + 32 * k) for k in range(count)]
    return [(head[2], image[head[1]:head[1] + head[4]]) for head in heads if head[4]]


def sections(path):
    """The bytes and address of each section with contents, and the symbols of functions as address and size."""
    with open(path, "rb") as file:
        linked = file.read()
    first, = struct.unpack_from("<I", linked, 32)
    count, names = struct.unpack_from("<HH", linked, 48)
    heads = [struct.unpack_from("<10I", linked, first + 40 * k) for k in range(count)]

    def text(table, at):
        return linked[table[4] + at:linked.index(b"\0", table[4] + at)].decode()

    symbols = next(head for head in heads if head[1] == 2)
    entries = [struct.unpack_from("<3I2BH", linked, symbols[4] + 16 * k) for k in range(symbols[5] // 16)]
    return ({text(heads[names], head[0]): (head[3], linked[head[4]:head[4] + head[5]]) for head in heads if head[1] == 1},
            sorted((entry[1], entry[2], text(heads[symbols[6]], entry[0])) for entry in entries if entry[3] & 15 == 2))


def by_appearance(lines):
    """Lines with the numbers of their labels in order of appearance, which the table and the compiler count in their own ways."""
    seen = {}
    return [(number, re.sub(r"\bL\d+", lambda found: "L%d" % seen.setdefault(found.group(), len(seen)), line), words)
            for number, line, words in lines]


def lines_of(text):
    """Of each function of a listing its lines with their numbers and words."""
    functions = {}
    for line in text.decode().split("\n"):
        symbol = re.fullmatch(r'"([A-Za-z_]\w*)":', line)
        number = re.fullmatch(r"# (\d+) (.*)", line)
        word = re.fullmatch(r"\t.*\t# ([0-9a-f]{8}) ([0-9a-f]{8})\b.*", line)
        if line == "\t.data" or line == "\t.section\t.rodata":
            break
        if symbol:
            lines = functions.setdefault(symbol.group(1), [])
        elif number and functions:
            lines.append((int(number.group(1)), number.group(2), []))
        elif word and functions:
            lines[-1][2].append((int(word.group(1), 16), int(word.group(2), 16)))
    return functions


def lines_in(path):
    """The same of a file of the table."""
    functions = {}
    for head, rows in read.sections(path):
        if head.startswith("function "):
            lines = functions.setdefault(head.split(" ")[2], [])
        elif head.startswith("frame "):
            for row in rows:
                if row.startswith("-- "):
                    number, line = row[3:].split(" ", 1)
                    lines.append((int(number), line, []))
                else:
                    lines[-1][2].append(tuple(int(part, 16) for part in row.split(" ")[:2]))
    return functions


def faults(name, source, recipe, listed=None):
    own = os.path.join(folder, name)
    os.mkdir(own)
    with open(os.path.join(own, "in.c"), "wb") as file:
        file.write(source)
    options = [] if recipe == DEFAULT else ["--recipe", recipe]
    subprocess.run([compiler, "build", "in.c", "out", *options], cwd=own, check=True, stderr=subprocess.DEVNULL)
    text = subprocess.run([view, "listing", "in.c", *options], cwd=own, stdout=subprocess.PIPE, stderr=subprocess.DEVNULL, check=True).stdout
    with open(os.path.join(own, "F.s"), "wb") as file:
        file.write(text)
    said = []
    for line in text.split(b"\n")[1:3]:
        run = subprocess.run(line[1:].decode().split(), cwd=own, stderr=subprocess.PIPE, text=True)
        if run.returncode or run.stderr:
            return ["it is not assembled and linked: " + run.stderr.strip()[:200]]
    wanted = segments(os.path.join(own, "out"))
    found, functions = sections(os.path.join(own, "F.sym"))
    for section, segment in zip([".text", ".rodata", ".data"] if len(wanted) == 3 else [".text", ".data"], wanted):
        if found.get(section) != segment:
            said.append("another " + section)
    end = wanted[0][0]
    for at, size, _ in functions:
        if at != end:
            said.append("a symbol at %08x, not at %08x" % (at, end))
        end = at + size
    if end != wanted[0][0] + len(wanted[0][1]):
        said.append("the last symbol ends at %08x" % end)
    words = re.findall(rb"^\t.*\t# ([0-9a-f]{8}) ([0-9a-f]{8})\b", text, re.M)
    if [(int(at, 16), int(word, 16)) for at, word in words] != [(wanted[0][0] + 4 * k, word) for k, (word,) in
                                                               enumerate(struct.iter_unpack("<I", wanted[0][1]))]:
        said.append("other words in its comments")
    if listed:
        wanted = lines_in(listed)
        found = lines_of(text)
        places = {symbol: at for at, _, symbol in functions if not symbol.startswith("$")}
        if places != {name: next(words[0][0] for _, _, words in lines if words) for name, lines in wanted.items()}:
            said.append("functions at other addresses")
        said += ["other lines of " + name for name, lines in wanted.items() if by_appearance(found.get(name, [])) != by_appearance(lines)]
    return said


tried = []
for number, row in enumerate(read.table("images"), 1):
    source = read.source(row)
    if b"\r" not in source and max(source, default=0) < 128:
        tried += [("images%d%s" % (number, short), source, recipe) for short, recipe in (("none", "none"), ("default", DEFAULT))]
for name in read.names("listings", ".list"):
    with open(read.path("listings", name + ".c"), "rb") as file:
        tried.append(("listings-" + name, file.read(), "none", read.path("listings", name + ".list")))
failed = 0
with concurrent.futures.ThreadPoolExecutor(os.cpu_count()) as pool:
    for (name, *_), said in zip(tried, pool.map(lambda one: faults(*one), tried)):
        failed += bool(said)
        for line in said:
            print("tools/listings.sh: %s: %s" % (name, line))
print("tools/listings.sh: %d listings, %d differ" % (len(tried), failed))
sys.exit(failed > 0)
END
