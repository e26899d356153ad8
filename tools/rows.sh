#!/bin/sh
# Compares the compiler with tables of expected values: refusals, images, words of images, runs of images and of sources, what `check`
# says of logs and images, sessions, what tight images do, and what recipes do to each function, as the log tells it. The tables stand
# in rows/, with the program read.py that reads them and tries them; six sources are too long for them. Every second build has three
# workers. It prints each difference.
set -u
cd "$(dirname "$0")/.." || exit 1
script=tools/rows.sh
. tools/lib.sh
need python3
compiler

PYTHONDONTWRITEBYTECODE=1 python3 - rows "$program" "$folder" <<'END'
import sys
from collections import Counter
sys.path.insert(0, sys.argv[1])
import read


class ByWorkers(read.Trial):
    """Tries the program; every second build has three workers."""
    builds = 0

    def call(self, *words, data=b""):
        if words[0] == "build":
            self.builds += 1
            words += ("--workers", "3") * (self.builds % 2)
        return super().call(*words, data=data)

    def takes(self, what, source, recipe, data, count):
        """The tight image runs for so many instructions and no fewer."""
        self.build(source, recipe, code="tight")
        for steps, end in ((count, "exit"), (count - 1, "budget")):
            _, _, report = self.call("run", "out.elf", "--steps", str(steps), data=data)
            self.same("%s, recipe %s, %d steps" % (what, recipe, steps), end, report.split(" ")[0].strip())


comparison = ByWorkers(sys.argv[2], sys.argv[3])
for name in ("refusals", "images", "runs", "undefined", "bounded", "examples", "generated", "certificates", "sessions", "interp", "tight"):
    for number, row in enumerate(read.table(name), 1):
        getattr(comparison, name)("%s %d" % (name, number), row)
for name, ending in (("listings", ".list"), ("graphs", ".graph"), ("rules", ".case")):
    for row in read.names(name, ending):
        getattr(comparison, name)(row)
# Images of `--code tight`: what they do, and how many instructions they run.
for number, row in enumerate(read.table("runs"), 1):
    for recipe in ("none", "default"):
        comparison.run("runs %d, tight, recipe %s" % (number, recipe), recipe, read.source(row), read.bytes_of(row["input"]),
                       read.bytes_of(row["output"]), "exit " + row["status"], code="tight")
SHORT = (("int main(void) { int s = 0; int i = 0; while (i < 10) { s = s + i; i = i + 1; } return s; }", 129),
         ("int f(int x) { return x * 3; } int g(int a, int b) { int t = f(a); return t + f(b) + a; } int main(void) { return g(2, 5); }", 87),
         ("int f(int a, int b, int c) { int r; if (a) { int t = b * c; r = t - b; } else { int u = c + 7; r = u * u; } return r; } "
          "int main(void) { return f(1, 5, 6) + f(0, 1, 2); }", 80),
         ("int f(int a, int b, int c, int d, int e, int f, int g, int h) { return b; } "
          "int main(void) { return f(1, 2, 3, 4, 5, 6, 7, 8); }", 75),
         ("int main(void) { int x; int y = 3; if (y > 2) { x = y; } return x + y; }", 27))
for text, count in SHORT:
    comparison.takes(text, text.encode(), "none", b"", count)
BETTER = "iln,iln,ivt,ivt,dne,fold,iln,dne,inv,dne,inv,inv,cne,inv,pll,psh,fold,dne,pll,pll,pll"
for name, counts in {"calc": (28877, 25168), "factorial": (319556, 198836), "life": (546260, 386425), "queens": (159380, 148517),
                     "rot13": (4251, 3794), "sort": (70440, 58216), "stack": (222843, 191905), "wc": (18321, 16731)}.items():
    source, data = (open("rows/examples/%s.%s" % (name, ending), "rb").read() for ending in ("c", "in"))
    for recipe, count in zip(("default", BETTER), counts):
        comparison.takes(name, source, recipe, data, count)
# A log certifies the image in its own form of code alone.
answer = b"int main(void) { return 42; }"
_, log, tight = comparison.build(answer, "none", log=True, code="tight")
_, _, plain = comparison.build(answer, "none")
for image, code in ((tight, "tight"), (tight, "plain"), (plain, "plain"), (plain, "tight")):
    for name, data in (("in.log", log.encode()), ("out.elf", image)):
        with open(comparison.file(name), "wb") as file:
            file.write(data)
    told = (0, b"", "yes\n") if image is (tight if code == "tight" else plain) else (8, b"", "log OtherImage 65 byte 68\n")
    comparison.same("a check for %s code" % code, told, comparison.call("check", "in.c", "in.log", "out.elf", "--code", code))
# Long functions: their lines of the log, with values before and after, and how many steps each rule makes.
LONG = (("int a = getchar();" + " a = a + 7;" * 4000 + " return a;", "cne,dne", ["main 16009 8011"], {"cne": 3999, "dne": 3999}),
        ("int a = getchar(), k = 5;" + " if (a) a = a * 3;" * 200 + " return a + k;", "inv,dne", ["main 5413 2413"], {"inv": 200, "dne": 200}),
        ("int i = 0;" + " while (i < 3) i = i + 1;" * 100 + " return i;", "ivt", ["main 4508 4808"], {"ivt": 100}),
        ("int i = 0;" + " while (i < 3) i = i + 1;" * 200 + " return i;", "ivt", ["main 9008 9008"], {}),
        ("int i = 0;" + " do i = i + 1; while (i < 3);" * 200 + " return i;", "url", ["main 4008 8162"], {"url": 134}),
        ("int a = 0;" + " a = id(a);" * 2000 + " return a;", "iln", ["id 11 11", "main 8008 8008"], {"iln": 2000}),
        ("int a = getchar();" + " if (1) a = a + 0;" * 800 + " return a;", "fold", ["main 19209 4809"], {"fold": 1600}),
        ("int a = 0;" + " a = a + getchar();" * 2000 + " return a;", "default", ["main 10008 10004"], {"fold": 1, "dne": 2}))
for body, recipe, values, steps in LONG:
    first = "int id(int x) { return x + 1; } " if "id(" in body else ""
    _, report, _ = comparison.build(("%sint main(void) { %s }" % (first, body)).encode(), recipe, log=True)
    lines = report.splitlines()
    functions = ["function " + line for line in values]
    others = Counter(line.split()[0] for line in lines if not line.startswith("function "))
    comparison.same("a long function, " + recipe, (functions, steps), ([line for line in lines if line.startswith("function ")], others))
print("tools/rows.sh: %d compared, %d differ" % (comparison.count, comparison.bad))
sys.exit(comparison.bad > 0)
END
