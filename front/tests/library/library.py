"""library.py PROGRAM FOLDER: holds the functions of front/library against gcc's library, in FOLDER.

Each source of front/tests/library names what it calls in its first comment: functions of front/library, and templates with their
type, name and size. Its text with these in front is built by the compiler PROGRAM, plain and tight, and run, and runs defined under
`interp`; it writes what gcc's program of the source alone writes, by gcc's library, or what stands in NAME.out."""
import os
import re
import subprocess
import sys

PROGRAM, FOLDER = sys.argv[1:]
TESTS = os.path.dirname(os.path.abspath(__file__))
LIBRARY = os.path.join(TESTS, "..", "..", "library")
NEEDED = re.compile(r"([\w ]+?)\(([^,]+),(\w+),(\d)\)|(\w+)")
GCC = ["gcc", "-m32", "-std=c11", "-fwrapv", "-funsigned-char", "-fno-builtin", "-w"]


def read(*path):
    with open(os.path.join(*path), encoding="ascii") as file:
        return file.read()


def needed(text):
    found = re.match(r"/\* needs: ([^*]*(?:\*[^/][^*]*)*)\*/\n", text)
    return [match.groups() for match in NEEDED.finditer(found[1].replace("\n", " "))], text[found.end():]


def library(text, texts):
    """Adds the texts of what a text needs, each behind what it needs itself."""
    needs, rest = needed(text)
    for template, kind, name, size, function in needs:
        key = function or template.strip() + " " + name
        if key in texts:
            continue
        if function:
            whole = library(read(LIBRARY, function + ".c"), texts)
        else:
            whole = read(LIBRARY, template.strip() + ".c.in").replace("@T@", kind).replace("@N@", name).replace("@S@", size)
        texts[key] = whole
    return rest


def run(words):
    return subprocess.run(words, stdin=subprocess.DEVNULL, capture_output=True, check=False)


wrong = 0
used, names = set(), sorted(name[:-2] for name in os.listdir(TESTS) if name.endswith(".c"))
for name in names:
    texts = {}
    rest = library(read(TESTS, name + ".c"), texts)
    used.update(texts)
    source, image = os.path.join(FOLDER, name + ".c"), os.path.join(FOLDER, name + ".elf")
    with open(source, "w", encoding="ascii") as file:
        file.write("".join(texts.values()) + rest)
    expected = os.path.join(TESTS, name + ".out")
    if os.path.exists(expected):
        wanted = read(expected).encode()
    else:
        made = run([*GCC, "-include", os.path.join(TESTS, "oracle.h"), "-o", image, os.path.join(TESTS, name + ".c")])
        theirs = run([image])
        # A shell shows a program that a signal ended as 128 and the number of the signal.
        status = theirs.returncode if theirs.returncode >= 0 else 128 - theirs.returncode
        wanted = theirs.stdout + b"exit %d\n" % status if made.returncode == 0 else made.stderr
    for code in ("plain", "tight"):
        built = run([PROGRAM, "build", source, image, "--code", code])
        ran = run([PROGRAM, "run", image])
        if built.returncode != 0 or ran.stdout + ran.stderr != wanted:
            print("%s in %s code: %s%s" % (name, code, built.stderr.decode(), "is otherwise than gcc's library has it"))
            wrong = 1
    ran = run([PROGRAM, "interp", source])
    if ran.stdout + ran.stderr != wanted:
        print("%s is interpreted otherwise: %s" % (name, ran.stderr.decode()))
        wrong = 1
every = {name.split(".")[0] for name in os.listdir(LIBRARY)}
missing = every - {key.split(" ")[0] for key in used}
if missing:
    print("no test calls " + " ".join(sorted(missing)))
    wrong = 1
if not wrong:
    print("%d functions of the library in %d programs do what gcc's do" % (len(every), len(names)))
sys.exit(wrong)
