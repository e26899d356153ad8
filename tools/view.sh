#!/bin/sh
# Holds the program rvcc-view against tables of expected values: graphs of sources, and of recipes before, after and between their
# steps, as rows; what each sweep does; where refusals are, with the words of docs/REPORTS.md; frames and stacks of examples; a
# debugger, where it is installed, stops at a function of a listing; and pages (tools/page) have each step. It prints each difference.
set -u
cd "$(dirname "$0")/.." || exit 1
script=tools/view.sh
. tools/lib.sh
need python3
built cc_view_main
view=$program
compiler
cat >"$folder/view.py" <<'END'
import os
import re
import resource
import shutil
import subprocess
import sys
import xml.etree.ElementTree

sys.path.insert(0, "rows")
import read

view, compiler, folder = (os.path.abspath(word) for word in sys.argv[1:])
bad = count = 0


def same(what, wanted, found):
    global bad, count
    count += 1
    if wanted != found:
        bad += 1
        print("%s: the table says %s, the program %s" % (what, str(wanted)[:300], str(found)[:300]), flush=True)


def call(program, source, *words):
    """The status, the output and the report of a command on a source."""
    with open(os.path.join(folder, "in.c"), "wb") as file:
        file.write(source)
    found = subprocess.run([program, words[0], "in.c", *words[1:]], capture_output=True, cwd=folder)
    return found.returncode, found.stdout, found.stderr.decode("latin-1")


def functions(lines):
    """The texts of the functions of a program, by name."""
    found = {}
    for line in lines:
        if line.startswith("function "):
            last = found[line.split()[2]] = []
        elif not line.startswith(" "):
            last = []
        last.append(line)
    return found


def text_of(lines):
    return "".join(line + "\n" for line in lines).encode()


# ---- graphs: what a source is built to

for name in read.names("graphs", ".graph"):
    with open(read.path("graphs", name + ".c"), "rb") as file:
        source = file.read()
    with open(read.path("graphs", name + ".graph")) as file:
        wanted = functions(file.read().splitlines())
    found = call(view, source, "graph", "--form", "rows")
    same("graphs/" + name, (0, b"".join(map(text_of, wanted.values())), ""), found)
    for function, lines in wanted.items():
        found = call(view, source, "graph", "--form", "rows", "--function", function)
        same("graphs/%s, %s" % (name, function), (0, text_of(lines), ""), found)

# ---- rules: before and after a recipe, and what its sweeps do

def sweeps_of(text, function):
    """The rows of the table of a function."""
    table = text.decode().split("function %s\n" % function)[1].split("function ")[0]
    return [line.split() for line in table.splitlines()[1:]]


for name in read.names("rules", ".case"):
    given, recipe, rows, before, after = read.case(read.path("rules", name + ".case"))
    with open(read.path("rules", name + ".c"), "rb") as file:
        source = file.read()
    # What the first recipe gives is what the case begins with.
    first_rules = [] if given == "none" else given.split(",")
    rules = [] if recipe == "none" else recipe.split(",")
    recipe = ",".join(first_rules + rules) or "none"
    start, end = functions(before), functions(after)
    wanted = b"".join(text_of(lines) for lines in end.values())
    same("rules/" + name, (0, wanted, ""), call(view, source, "graph", "--form", "rows", "--recipe", recipe))
    status, tables, _ = call(view, source, "steps", "--recipe", recipe)
    same("rules/%s, status" % name, 0, status)
    for function, first, last, steps in rows:
        sweeps = sweeps_of(tables, function)
        same("rules/%s, %s, sweeps" % (name, function), first_rules + rules, [row[1] for row in sweeps])
        given_steps = sum(int(row[3]) for row in sweeps[:len(first_rules)])
        sweeps = sweeps[len(first_rules):]
        same("rules/%s, %s, steps" % (name, function), [step.split()[0] for step in steps],
             [row[1] for row in sweeps for _ in range(int(row[3]))])
        same("rules/%s, %s, values" % (name, function), [first] + [last] * bool(sweeps),
             [int(sweeps[0][4]) if sweeps else first] + [int(row[5]) for row in sweeps[-1:]])
        for count, lines in ((given_steps, start[function]), (given_steps + len(steps), end[function])):
            found = call(view, source, "graph", "--form", "rows", "--recipe", recipe, "--function", function, "--after", str(count))
            same("rules/%s, %s after %d" % (name, function, count), (0, text_of(lines), ""), found)
        found = call(view, source, "graph", "--recipe", recipe, "--function", function, "--after", str(given_steps + len(steps) + 1))
        same("rules/%s, %s after one too many" % (name, function), (1, b""), found[:2])

# ---- refusals: name, number, line and column, the caret, and the words of the page

with open("docs/REPORTS.md") as file:
    words = {cells[1].split()[0]: cells[2].strip() for cells in (line.split("|") for line in file) if len(cells) > 4 and re.match(r" [A-Z][A-Za-z]+ \d+ $", cells[1])}
for number, row in enumerate(read.table("refusals"), 1):
    source = read.source(row)
    status, said, report = call(view, source, "explain")
    what = "refusals %d" % number
    if row["name"] == "none":
        same(what, 0, status)
        continue
    at = min(int(row["place"]), len(source))
    start = source.rfind(b"\n", 0, at) + 1
    limit = "" if row["which"] == "-" else " which %s count %s" % (row["which"], row["count"])
    same(what, (4, "refused %s %s line %s%s\n" % (row["name"], row["number"], row["line"], limit)), (status, report))
    lines = said.split(b"\n")
    same(what + ", place", "%s %s line %s column %d%s" % (row["name"], row["number"], row["line"], at - start + 1, limit), lines[0].decode())
    if len(source) <= 1048576:
        end = source.find(b"\n", at)
        line = source[start:end if end >= 0 else len(source)]
        before, after = line[:at - start], line[at - start:]
        if len(line) > 100:
            before, after = before[-50:], after[:50]
        shown = bytes(b if b == 9 or 32 <= b <= 126 else 46 for b in before + after)
        same(what + ", line", (shown, bytes(9 if b == 9 else 32 for b in before) + b"^"), (lines[1], lines[2]))
    same(what + ", rule", words[row["name"]], lines[3].decode())

# ---- frames and stacks

EXPLAINED = [
    ("squares.c", [], "112 16 80", "stack 192 of 8388608: main number"),
    ("squares.c", ["--recipe", "none"], "64 16 32", None),
    ("life.c", [], None, "stack 400 of "),
    ("calculator.c", [], None, "stack recursive: bracket factor term expression"),
    ("queens.c", [], None, "stack recursive: solve write_number"),
]
for name, options, frames, stack in EXPLAINED:
    if not os.path.exists("examples/" + name):
        continue
    with open("examples/" + name, "rb") as file:
        status, said, _ = call(view, file.read(), "explain", *options)
    lines = said.decode().splitlines()
    same(name, 0, status)
    if frames:
        same(name + ", frames", frames, " ".join(line.split()[1] for line in lines if line.startswith("frame ")))
    if stack:
        same(name + ", stack", stack, lines[-1][:len(stack)])

# ---- a debugger stops in a function of a running image, and knows it and its caller by their names

tools = ["riscv64-unknown-elf-" + tool for tool in ("as", "ld")]


def run(*words):
    return subprocess.run(words, capture_output=True, cwd=folder)


def made_of(text):
    """Makes F.sym of a listing by the commands of its first comment, and tells whether that went well."""
    with open(os.path.join(folder, "F.s"), "wb") as file:
        file.write(text)
    commands = [line[2:].split() for line in text.decode().splitlines() if line.startswith("# riscv64-")]
    made = [run(*words) for words in commands]
    return len(made) == 2 and not any(m.returncode for m in made)


needed = ["gdb-multiarch", "qemu-riscv32", *tools]
if all(map(shutil.which, needed)) and os.path.exists("examples/squares.c"):
    with open("examples/squares.c", "rb") as file:
        source = file.read()
    text = call(view, source, "listing")[1]
    call(compiler, source, "build", "out.elf")
    os.chmod(os.path.join(folder, "out.elf"), 0o755)
    if made_of(text):
        port = str(20000 + os.getpid() % 20000)
        emulator = subprocess.Popen(["qemu-riscv32", "-g", port, "out.elf"], cwd=folder, stdout=subprocess.DEVNULL)
        commands = ["set architecture riscv:rv32", "file F.sym", "target remote :" + port, "break *&number", "continue", "bt 1", "stepi", "info symbol $pc", "kill"]
        said = run("gdb-multiarch", "-batch", "-nx", *[word for command in commands for word in ("-ex", command)]).stdout.decode()
        emulator.kill()
        emulator.wait()
        same("squares.c, where a debugger stops", True, bool(re.search(r"^#0 .*\bnumber\b", said, re.M)))
        same("squares.c, what a step of it is in", True, bool(re.search(r"^number \+ 4 in section \.text", said, re.M)))
else:
    print("tools/view.sh: no debugger is tried, gdb-multiarch, qemu-riscv32 or binutils for RISC-V are not installed")

# ---- drawings are laid out

if shutil.which("dot"):
    for name in ("squares.c", "life.c"):
        if os.path.exists("examples/" + name):
            with open("examples/" + name, "rb") as file:
                status, drawing, _ = call(view, file.read(), "graph")
            laid = subprocess.run(["dot", "-Tsvg"], input=drawing, capture_output=True)
            same(name + ", drawing", (0, 0, b""), (status, laid.returncode, laid.stderr))
else:
    print("tools/view.sh: nothing is laid out, dot is not installed")

# ---- pages: as many drawings as steps or sweeps and one for the end, each well formed; where there is no page no file is written

def page(*words):
    """The status and the report of tools/page in the folder, and the page where there is one."""
    found = subprocess.run(["sh", os.path.abspath("tools/page"), *words], capture_output=True, cwd=folder)
    written = None
    if os.path.exists(os.path.join(folder, "out.html")):
        with open(os.path.join(folder, "out.html"), "rb") as file:
            written = file.read()
        os.remove(os.path.join(folder, "out.html"))
    return found.returncode, found.stderr.decode("latin-1"), written


def used():
    """The seconds that processes took that have ended."""
    spent = resource.getrusage(resource.RUSAGE_CHILDREN)
    return spent.ru_utime + spent.ru_stime


if shutil.which("dot"):
    for name, function in (("squares.c", "number"), ("words.c", "end_word")):
        if not os.path.exists("examples/" + name):
            continue
        with open("examples/" + name, "rb") as file:
            sweeps = sweeps_of(call(view, file.read(), "steps")[1], function)
        steps = [int(row[3]) for row in sweeps]
        wanted = sum(steps) if sum(steps) <= 80 else sum(count > 0 for count in steps)
        before = used()
        status, said, written = page("in.c", "out.html", "--function", function)
        what = "the page of %s" % function
        same(what, (0, ""), (status, said))
        same(what + ", seconds", True, used() - before <= 5)
        same(what + ", size", True, len(written or b"") <= 4000000)
        shown = [e for e in xml.etree.ElementTree.fromstring(written or b"<html/>").iter() if e.tag.endswith("}section")]
        drawn = [[e for e in section.iter() if e.tag == "{http://www.w3.org/2000/svg}svg"] for section in shown]
        same(what + ", drawings", [1] * (wanted + 1), list(map(len, drawn)))
        red = [any(e.get("stroke") == "#dc2626" for e in section.iter()) for section in shown]
        same(what + ", red", [True] * wanted + [False], red)
    odd = b"int main(void) { return 1 < 2 & 3; } // <b>&amp; \xff\xc3\xa9 ]]>\n"
    call(view, odd, "steps")
    status, said, written = page("in.c", "out.html", "--recipe", "fold,dne")
    same("an odd source, page", (0, ""), (status, said))
    text = "".join(xml.etree.ElementTree.fromstring(written or b"<html/>").itertext())
    same("an odd source, shown", True, "return 1 < 2 & 3; } // <b>&amp; ... ]]>\n" in text)
    for wanted, words in ((1, ("in.c",)), (1, ("out.html", "in.c")), (1, ("--function", "main", "in.c", "out.html")),
                          (1, ("in.c", "out.html", "--function", "none")), (1, ("in.c", "out.html", "--function", "ma.n")),
                          (1, ("in.c", "out.html", "--recipe", "fold,")), (1, ("in.c", "out.html", "--recipe")),
                          (2, ("none.c", "out.html")), (3, ("in.c", "none/out.html"))):
        status, said, written = page(*words)
        same("page " + " ".join(words), (wanted, True, None), (status, said != "", written))
    explained = call(view, b"int main(void) { return x; }", "explain")
    status, said, written = page("in.c", "out.html")
    same("the page of a refused source", (explained[0], True, None), (status, explained[1].decode() in said, written))
else:
    print("tools/view.sh: no page is made, dot is not installed")

# ---- what is no command, and what is refused

plain = b"int ra(void) { return 1; }\nint zero(void) { return ra(); }\nint digraph(void) { return zero(); }\nint main(void) { return digraph(); }\n"
for words in (("graph", "--function", "none"), ("graph", "--after", "1"), ("graph", "--function", "main", "--after", "100000"),
              ("graph", "--form", "svg"), ("steps", "--recipe", "fold,"), ("steps", "--function", "main"), ("show",)):
    status, said, _ = call(view, plain, *words)
    same(" ".join(words), (1, b""), (status, said))
for words in (("graph",), ("graph", "--form", "rows"), ("steps",), ("listing",), ("explain",)):
    same(" ".join(words), (0, ""), (lambda found: (found[0], found[2]))(call(view, plain, *words)))
    if words[0] != "explain":
        same(" ".join(words) + " of an empty source", (4, b"", "refused NoMain 41 line 1\n"), call(view, b"", *words))
long = b"int main(void) { return " + b"x" * 1048000 + b"; }"
for source in (b"\0\x7f\xff", long, b"int main(void) { return 0; }\n@\n"):
    status, said, report = call(view, source, "explain")
    same("a refusal of %d bytes" % len(source), (4, True), (status, report.startswith("refused ") and said.count(b"\n") >= 4))

# ---- an output that cannot be written

if os.path.exists("/dev/full"):
    with open(os.path.join(folder, "in.c"), "wb") as file:
        file.write(plain)
    for words in (("graph",), ("graph", "--form", "rows"), ("steps",), ("listing",), ("explain",)):
        with open("/dev/full", "wb") as full:
            ended = subprocess.run([view, words[0], "in.c", *words[1:]], stdout=full, stderr=subprocess.PIPE, cwd=folder)
        same(" ".join(words) + " on a full device", (3, True), (ended.returncode, ended.stderr in (b"write fault\n", b"")))

print("tools/view.sh: %d compared, %d differ" % (count, bad))
sys.exit(bad > 0)
END
PYTHONDONTWRITEBYTECODE=1 python3 "$folder/view.py" "$view" "$program" "$folder" || fail 'there are differences'
