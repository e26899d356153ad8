#!/bin/sh
# Compares the tables of operators in crates/c_rows with gcc, for the same declarations with 32-bit pointers, where C11 decides. Where
# the language takes less than C11, the rows are those of the rules below: a structure stands only under `.`, `&` and
# `sizeof`, a cast goes between integer types or to void, and what is const is so by its name, `.` and `[]` alone.
# It needs gcc for x86 and python3. With a path as argument it writes the table there.
set -u
cd "$(dirname "$0")/.." || exit 1
script=tools/typing.sh
. tools/lib.sh
need gcc python3
echo 'int x;' | gcc -m32 -S -x c - -o /dev/null 2>/dev/null || { echo "$script: skipped, gcc has no -m32"; exit 0; }

part_of operator stdin >"$folder/asked"
python3 - "$folder" "$folder/table" <<'PYTHON' || fail "gcc gave no table"
import re, subprocess, sys
folder, out = sys.argv[1:3]
NAMES = "c sc uc h uh i u pc puc pi ps pq ai s 0 0u 1 v ki kai ks".split()
DECLARATIONS = """struct s { char c; int b[2]; struct s *next; }; struct q; char c; signed char sc; unsigned char uc; short h;
unsigned short uh; int i, ki; unsigned u; char *pc; unsigned char *puc; int *pi; struct s *ps, s, ks; struct q *pq; int ai[3], kai[3];
void call(void);
"""
TYPES = {"c": "char", "sc": "signed char", "uc": "unsigned char", "h": "short", "uh": "unsigned short", "i": "int", "u": "unsigned",
    "v": "void", "s": "struct s", "q": "struct q", "pc": "char *", "puc": "unsigned char *", "pi": "int *", "ps": "struct s *",
    "pq": "struct q *", "ai": "int[2]", "aI": "int[3]", "pai": "int (*)[3]", "pv": "void *", "psc": "signed char *", "ph": "short *",
    "puh": "unsigned short *", "pu": "unsigned *", "pps": "struct s **", "ppc": "char **", "ppuc": "unsigned char **", "ppi": "int **",
    "ppq": "struct q **"}
MEMBERS = ["c", "b", "next"]
FLAGS = ["-std=c11", "-m32", "-funsigned-char", "-fwrapv"]

def written(name):
    return "call()" if name == "v" else name

def gcc(text, *more):
    with open(folder + "/rows.c", "w") as file:
        file.write(text)
    run = subprocess.run(["gcc", *FLAGS, *more, folder + "/rows.c"], capture_output=True, text=True)
    return run

def accepted(statements):
    """Which statements gcc takes, each in a function of its own on a line of its own."""
    head = DECLARATIONS.count("\n")
    text = DECLARATIONS + "".join("void f%d(void) { %s; }\n" % (k, s) for k, s in enumerate(statements))
    errors = gcc(text, "-pedantic-errors", "-fsyntax-only", "-fmax-errors=0").stderr
    bad = {int(line) - head - 1 for line in re.findall(r"rows\.c:(\d+):\d+: error", errors)}
    return [k not in bad for k in range(len(statements))]

def words(expressions):
    """The words of constant expressions."""
    text = DECLARATIONS + "unsigned r[] = {\n" + "".join("(unsigned) (%s),\n" % e for e in expressions) + "7};\n"
    run = gcc(text, "-w", "-S", "-o", folder + "/rows.s")
    if run.returncode:
        sys.exit(run.stderr)
    with open(folder + "/rows.s") as file:
        data = file.read().split("\nr:\n", 1)[1]
    made = []
    for op, number in re.findall(r"\.(long|zero)\s+(-?\d+)", data):
        made += [int(number) % 2**32] if op == "long" else [0] * (int(number) // 4)
    assert len(made) == len(expressions) + 1, (len(made), len(expressions))
    return made[:-1]

def results(expressions, with_lvalues=False):
    """The types of expressions, none where gcc refuses one."""
    taken = accepted(["&(%s)" % e if with_lvalues == "only" else e for e in expressions])
    good = [e for e, t in zip(expressions, taken) if t]
    lvalues = iter(accepted(["&(%s)" % e for e in good]) if with_lvalues else [False] * len(good))
    kinds = list(TYPES)
    tests = words(["+".join("%d * __builtin_types_compatible_p(__typeof__(%s), %s)" % (k + 1, e, TYPES[t]) for k, t in enumerate(kinds)) for e in good]) if good else []
    tests = iter(tests)
    made = []
    for e, t in zip(expressions, taken):
        if not t:
            made.append("-")
            continue
        k = next(tests)
        if k == 0:
            sys.exit("no name for the type of " + e)
        made.append(("*" if next(lvalues) else "") + kinds[k - 1].replace("I", "i"))
    return made

def is_struct(name):
    return name in ("s", "ks")

def pairs(expression, refused, const, with_lvalues=False):
    asked = [(l, r) for l in NAMES for r in NAMES]
    made = results([expression % (written(l), written(r)) for l, r in asked], with_lvalues)
    made = ["-" if refused(l, r) else m.replace("*", "*k") if const(l, r) else m for (l, r), m in zip(asked, made)]
    n = len(NAMES)
    return "".join("%s: %s\n" % (l, " ".join(made[k * n:(k + 1) * n])) for k, l in enumerate(NAMES))

def singles(made):
    return "".join(" %s: %s" % (n, m) for n, m in zip(NAMES, made)) + "\n"

def never(*names):
    return False

def one(expression, refused=never, const=never, with_lvalues=False):
    made = results([expression % written(n) for n in NAMES], with_lvalues)
    return singles(["-" if refused(n) else m.replace("*", "*k") if const(n) else m for n, m in zip(NAMES, made)])

def any_struct(l, r):
    return is_struct(l) or is_struct(r)

CONSTANTS = [("0", 0), ("1", 1), ("7", 7), ("31", 31), ("32", 32), ("2147483647", 2147483647), ("-1", -1), ("-7", -7), ("-2147483647 - 1", -2**31),
    ("0u", 0), ("5u", 5), ("4294967295u", 2**32 - 1), ("(char) 200", 200), ("(signed char) 200", -56), ("(unsigned char) 7", 7),
    ("(short) 40000", -25536), ("(unsigned short) 65535", 65535)]

def worth(op):
    if op == "null":
        return "".join(" true" if t else " false" for t in accepted(["pi = (%s)" % e for e, v in CONSTANTS])) + "\n"
    if op.startswith("unary "):
        return "".join(" %d" % w for w in words(["%s (%s)" % (op[6:], e) for e, v in CONSTANTS])) + "\n"
    def undefined(v):
        return op in ("/", "%") and v == 0 or op in ("<<", ">>") and not 0 <= v <= 31
    asked = [(a, b) for a, v in CONSTANTS for b, w in CONSTANTS if not undefined(w)]
    made = iter(words(["(%s) %s (%s)" % (a, op, b) for a, b in asked]))
    return "".join("".join(" -" if undefined(w) else " %d" % next(made) for b, w in CONSTANTS) + "\n" for a in CONSTANTS)

BINARY = "* / % & | ^ << >> + - < > <= >= == != && ||".split()

def table(row):
    kind, _, op = row.partition(" ")
    safe = op.replace("%", "%%")
    if kind == "worth":
        return worth(op)
    if row in ("binary ,", "assigned =="):
        return "".join("%s:%s\n" % (l, " -" * len(NAMES)) for l in NAMES)
    if row in ("unary ++", "step +", "member + 0"):
        return singles(["-"] * len(NAMES))
    if kind == "binary":
        return pairs("%s " + safe + " %s", any_struct, never)
    if kind == "assigned":
        return pairs("%s " + safe + " %s", lambda l, r: any_struct(l, r) or l[0] == "k", never)
    if kind == "conditional":
        return pairs("i ? %s : %s", any_struct, never)
    if kind == "index":
        return pairs("%s[%s]", any_struct, lambda l, r: "kai" in (l, r), True)
    if kind == "unary":
        return one(safe + " %s", lambda n: op != "&" and is_struct(n), never, "only" if op == "*" else False)
    if kind == "step":
        return one("%s " + op, lambda n: n[0] == "k")
    if kind == "cast":
        pointers = {n for n in NAMES if n[0] == "p" or n in ("ai", "kai")}
        return one("(%s) %%s" % TYPES[op], lambda n: is_struct(n) or op[0] == "p" or n in pointers and op != "v")
    if kind == "member":
        op, number = op.split()
        if int(number) >= len(MEMBERS):
            return singles(["-"] * len(NAMES))
        return one("%%s %s %s" % (op, MEMBERS[int(number)]), never, lambda n: op == "." and n == "ks", True)
    if kind == "tag":
        tags = {"s": 1, "ks": 1} if op == "." else {"ps": 1, "pq": 2}
        return singles([tags.get(n, "-") for n in NAMES])
    if kind == "condition":
        taken = accepted(["if (%s) i = 0" % written(n) for n in NAMES])
        made = results(["(0, %s)" % written(n) for n in NAMES])
        return singles([m if t else "-" for t, m in zip(taken, made)])
    if kind == "assignable":
        taken = accepted(["%s = %s" % (written(n), written(n)) for n in NAMES])
        return singles(["true" if t and not is_struct(n) and n[0] != "k" else "false" for n, t in zip(NAMES, taken)])
    if kind == "sizeof":
        taken = accepted(["(void) sizeof(%s)" % written(n) for n in NAMES])
        sizes = iter(words(["sizeof(%s)" % written(n) for n, t in zip(NAMES, taken) if t]))
        return singles([next(sizes) if t else "-" for t in taken])
    sys.exit("no such table: " + row)

with open(folder + "/asked") as asked, open(out, "w") as made:
    for row in asked.read().splitlines():
        made.write(row + "\n" + table(row))
PYTHON

if [ $# -gt 0 ]; then
    cp "$folder/table" "$1"
    exit 0
fi
part_of operator stdout >"$folder/stands"
cmp "$folder/table" "$folder/stands" || fail "the tables of operators in crates/c_rows differ from gcc"
echo "$script: the tables of operators in crates/c_rows are those of gcc"
