#!/bin/sh
# Holds the drawings of g_text against the tables rows/graphs and rows/rules: the edges read back from the DOT text of each lambda are
# its origins, each once, with the places of both ends; and `dot`, where it is installed, lays out each and warns of nothing.
set -u
cd "$(dirname "$0")/.." || exit 1
script=tools/drawings.sh
. tools/lib.sh
need python3
built g_rows

cat >"$folder/drawings.py" <<'END'
import concurrent.futures
import os
import re
import shutil
import subprocess
import sys

program, rows = sys.argv[1:]
LINE = re.compile(r"^ *(\d+): (.*?) \((.*?)\) ->")
EDGE = re.compile(r"^(\S+):s -> (\S+):n(?: \[.*\])?;$", re.M)


def lambdas(lines):
    """The texts of the functions of a program or a case, each as a list of lines."""
    found, last = [], None
    for line in lines:
        if re.match(r"function \d+ \S+ params ", line):
            last = []
            found.append(last)
        elif not line.startswith(" "):
            last = None
        if last is not None:
            last.append(line)
    return found


def read(folder, name):
    with open(os.path.join(rows, folder, name)) as file:
        return file.read().splitlines()


def edges(lines):
    """The ends of each edge, from the text of a lambda."""
    found, nested = [], set()
    left = [line for line in lines if not line.startswith("  object")][1:]

    def region(place):
        left.pop(0)
        own = []
        while not left[0].split()[0] == "results":
            number, op, inputs = LINE.match(left.pop(0)).groups()
            own += [(origin, "n%s:i%d" % (number, k)) for k, origin in enumerate(inputs.split())]
            if op in ("Gamma", "Theta"):
                nested.add(number)
                index = 0
                while left[0].split()[0] == "region":
                    left.pop(0)
                    region("n%s_%d" % (number, index))
                    index += 1
        own += [(origin, "%s_r:p%d" % (place, k)) for k, origin in enumerate(left.pop(0).split()[1:])]
        for origin, target in own:
            number, _, port = origin[1:].partition(".")
            if origin[0] == "a":
                found.append(("%s_a:p%s" % (place, number), target))
            else:
                found.append(("n%s%s:o%s" % (number, "_x" if number in nested else "", port or "0"), target))

    region("body")
    return sorted(found)


texts = [(name, text) for name in sorted(os.listdir(os.path.join(rows, "graphs"))) if name.endswith(".graph")
         for text in lambdas(read("graphs", name))]
texts += [(name, text) for name in sorted(os.listdir(os.path.join(rows, "rules"))) if name.endswith(".case")
          for text in lambdas(read("rules", name))]
table = "part drawings\n" + "".join("\n".join(text) + "\ndraw\n" for _, text in texts)
drawn = subprocess.run([program], input=table, stdout=subprocess.PIPE, text=True, check=True).stdout
drawings = re.split(r"^(?=digraph |0 rows, )", drawn, flags=re.M)[1:-1]
failed = 0 if len(drawings) == len(texts) else 1
for (name, text), drawing in zip(texts, drawings):
    if sorted(EDGE.findall(drawing)) != edges(text):
        failed += 1
        print("%s: other edges are drawn: %s" % (name, text[0]))


def laid_out(drawing):
    return subprocess.run(["dot", "-Tsvg", "-o", os.devnull], input=drawing, stderr=subprocess.PIPE, text=True)


if shutil.which("dot"):
    with concurrent.futures.ThreadPoolExecutor(os.cpu_count()) as pool:
        for (name, text), run in zip(texts, pool.map(laid_out, drawings)):
            if run.returncode or run.stderr:
                failed += 1
                print("%s: dot says of %s: %s" % (name, text[0], run.stderr.strip()[:200]))
else:
    print("dot is not installed: no drawing is laid out")
print("%d drawings, %d failed" % (len(drawings), failed))
END
python3 "$folder/drawings.py" "$program" rows | sed "\$s,^,$script: ," | tee "$folder/answer" || fail "g_rows stopped"
tail -n 1 "$folder/answer" | grep -q '^tools/drawings.sh: [1-9][0-9]* drawings, 0 failed$'
