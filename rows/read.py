#!/usr/bin/env python3
"""Reads the tables of this folder.

    read.py              reads every file and checks its form
    read.py text NAME K  writes the source of row K (from 1) of the table NAME to standard output
    read.py try PROGRAM [NAME..]   holds the program against the tables (all, or those named)

PROGRAM has the commands `build IN OUT [--recipe LIST]`, `run IMG [--steps N]`, `interp IN [--bound N]`, `gen NUMBER COUNT OUT`,
`check IN LOG IMG` and `session IN OUT [--recipe LIST] [--workers N]`; the tables `rules` and `graphs` need `--report log`, and `tight`
is tried where `build` has `--code tight`.
"""
import hashlib
import os
import re
import subprocess
import sys
import tempfile

HERE = os.path.dirname(os.path.abspath(__file__))
PLAIN = {"n": 10, "t": 9, "r": 13, "\\": 92}


def unescape(text):
    """The bytes of a cell."""
    out, i = expand(text, 0, None)
    if i != len(text):
        raise ValueError("a closing \\) without its repetition")
    return out


def expand(text, i, turn):
    """The bytes from i on, up to a closing `\\)` or the end, and where it stopped."""
    out = bytearray()
    while i < len(text):
        if text[i] != "\\":
            j = text.find("\\", i)
            j = len(text) if j < 0 else j
            out += text[i:j].encode("ascii")
            i = j
            continue
        c = text[i + 1]
        if c == "x":
            out.append(int(text[i + 2:i + 4], 16))
            i += 4
        elif c == "#":
            if turn is None:
                raise ValueError("\\# outside a repetition")
            out += b"%d" % turn
            i += 2
        elif c == "*":
            m = re.compile(r"([1-9][0-9]*)\(").match(text, i + 2)
            inner = None
            for k in range(int(m.group(1))):
                if inner is None or b"\\#" in inner[0]:
                    piece, end = expand(text, m.end(), k)
                    inner = (text[m.end():end].encode(), piece, end)
                out += inner[1]
            if text[inner[2]:inner[2] + 2] != "\\)":
                raise ValueError("a repetition without its end")
            i = inner[2] + 2
        elif c == ")":
            return bytes(out), i
        else:
            out.append(PLAIN[c])
            i += 2
    return bytes(out), i


def escape(data):
    """A cell for some bytes, without repetitions."""
    back = {v: "\\" + k for k, v in PLAIN.items()}
    return "".join(back.get(c) or (chr(c) if 32 <= c < 127 else "\\x%02x" % c) for c in data)


def table(name):
    """The rows of a table as maps from heading to cell."""
    with open(os.path.join(HERE, name + ".tsv"), encoding="ascii") as f:
        lines = f.read().split("\n")
    if lines.pop() != "":
        raise ValueError("the last line has no end")
    head = lines[0].split("\t")
    rows = []
    for n, line in enumerate(lines[1:], 2):
        cells = line.split("\t")
        if len(cells) != len(head):
            raise ValueError("%s.tsv, line %d: %d cells, not %d" % (name, n, len(cells), len(head)))
        rows.append(dict(zip(head, cells)))
    return rows


def source(row):
    """The bytes of a row's source."""
    if row.get("form", "text") == "text":
        return unescape(row["source"])
    if row["form"] == "file":
        with open(os.path.join(HERE, row["source"]), "rb") as f:
            return f.read()
    number, count = map(int, row["source"].split(" "))
    return generated(number, count)


def generated(number, count):
    """The text of `gen NUMBER COUNT`."""
    state = number

    def draw(k):
        nonlocal state
        state = (state * 1664525 + 1013904223) % 2**32
        return state // 65536 % k

    out = []
    for i in range(count):
        c, op, constant = 1 + draw(4), "+-*^"[draw(4)], draw(100)
        out += ["int f%d(int a, int b)" % i, "{", "    int s = a;", "    int k = 0;", "    while (k < %d) {" % c,
                "        s = (s %s b) + %d;" % (op, constant), "        k = k + 1;", "    }",
                "    if (s & 1) s = s - b; else s = s ^ k;"]
        if i > 0:
            out.append("    s = s + f%d(s & 255, b);" % draw(i))
        out += ["    return s;", "}"]
    out += ["int main(void)", "{", "    int s = 0;"]
    out += ["    s = s ^ f%d(%d, 7);" % (i, i) for i in range(count)]
    out += ["    putchar(65 + (s & 15));", "    putchar(10);", "    return s & 255;", "}"]
    return "".join(line + "\n" for line in out).encode()


# ---- the text of a graph

NUMBERS = {"BadByte": 1, "OpenComment": 2, "OpenText": 3, "BadText": 4, "TooWide": 5, "LongName": 6, "Directive": 7, "ManyTokens": 8, "BadNumber": 9, "LongSource": 10,
           "LeftOut": 21, "TooDeep": 22, "Syntax": 23, "Unknown": 31, "Redeclared": 32, "NotAssignable": 33, "BadOperands": 34, "BadCall": 35, "NotConstant": 36,
           "BadInitialiser": 37, "BadType": 38, "BadReturn": 39, "BadJump": 40, "NoMain": 41, "Limit": 42, "BadLabel": 43}
RULES = "fold cne dne inv psh pll ivt url iln".split()
BINARY = "Add Sub Mul Div Rem Divu Remu And Or Xor Sll Srl Sra Eq Ne Slt Sltu".split()
UNARY = "Sext8 Zext8 Sext16 Zext16".split()
KINDS = {"Const": ("", "v"), "Undef": ("", "v"), "Local": ("", "v"), "Delta": ("", "v"), "Load": ("vm", "v"), "Store": ("vvm", "m"), "Clear": ("m", "m"),
         "PtrEq": ("vvm", "v"), "Put": ("vi", "i"), "Exit": ("vi", "i"), "Get": ("i", "vi")}
KINDS.update({b: ("vv", "v") for b in BINARY})
KINDS.update({u: ("v", "v") for u in UNARY})


def need(x, why):
    if not x:
        raise ValueError(why)


class Lines:
    def __init__(self, lines):
        self.lines, self.at = lines, 0

    def peek(self):
        return self.lines[self.at] if self.at < len(self.lines) else ""

    def take(self):
        self.at += 1
        return self.lines[self.at - 1]


def graph(lines):
    """The functions and globals of a graph's text: name to its number of values, and what stands in it is well formed."""
    text = Lines(lines)
    functions, globals_ = [], 0
    while text.peek():
        m = re.fullmatch(r"function (\d+) (\w+) params (\d) values (\d+) next (\d+)", text.peek())
        if m:
            text.take()
            need(int(m.group(1)) == len(functions), "functions in order")
            objects = 0
            while re.match(r"  object ", text.peek()):
                o = re.fullmatch(r"  object (\d+) size (\d+) leaves( \d+:[124])+", text.take())
                need(o and int(o.group(1)) == objects, "object")
                objects += 1
            seen = set()
            args, results, values = region(text, 1, seen, objects)
            need(args == "v" * int(m.group(3)) + "mi" and results == "vmi", "the body's kinds")
            need(values == int(m.group(4)), "values of " + m.group(2))
            need(all(n < int(m.group(5)) for n in seen), "next")
            functions.append((m.group(2), values))
            continue
        m = re.fullmatch(r"global (\d+) (fixed|plain) bytes ((?:[0-9a-f]{2})+) links (none|\d+:\d+(?: \d+:\d+)*) leaves( \d+:[124])+", text.take())
        need(m and int(m.group(1)) == globals_, "global")
        globals_ += 1
    return functions


def region(text, depth, seen, objects):
    """The kinds of arguments and results of a region, and its number of values."""
    pad = "  " * depth
    m = re.fullmatch(pad + r"args(?: ([vmi]+))?", text.take())
    need(m, "args")
    args = m.group(1) or ""
    scope = {"a%d" % k: c for k, c in enumerate(args)}
    last = {c: o for o, c in scope.items() if c != "v"}
    count = 1 + len(args)
    while True:
        line = text.take()
        if line.startswith(pad + "results"):
            results = line[len(pad + "results"):].split()
            need(all(last[scope[o]] == o for o in results if scope[o] in last), "a state that is not the last")
            return args, "".join(scope[o] for o in results), count + len(results)
        n = re.fullmatch(pad + r"(\d+): (\w+)((?: \d+)*) \(([^)]*)\) ->(?: ([vmi]+))?", line)
        need(n, "node: " + line)
        number, op, origins, outs = int(n.group(1)), n.group(2), n.group(4).split(), n.group(5) or ""
        inputs = [scope[o] for o in origins]
        need(all(last[scope[o]] == o for o in origins if scope[o] in last), "a state that is not the last")
        need(number not in seen, "number twice")
        seen.add(number)
        regions = []
        while re.match(pad + r"  region \d+$", text.peek()):
            need(text.take() == pad + "  region %d" % len(regions), "regions in order")
            regions.append(region(text, depth + 2, seen, objects))
        if op == "Gamma":
            need(regions and inputs[0] == "v", "Gamma")
            for a, b, c in regions:
                need(a == "".join(inputs[1:]) and b == outs, "region of a Gamma")
        elif op == "Theta":
            need(len(regions) == 1 and regions[0][0] == outs == "".join(inputs) and regions[0][1] == "v" + outs, "Theta")
        elif op == "Apply":
            need("".join(inputs) == "v" * (len(inputs) - 2) + "mi" and outs == "vmi", "Apply")
        else:
            need(("".join(inputs), outs) == KINDS[op], "kinds of " + op)
        if op in ("Local", "Clear"):
            need(int(n.group(3)) < objects, "object of " + op)
        count += 1 + len(outs) + sum(c for _, _, c in regions)
        given = {"n%d%s" % (number, ".%d" % p if p else ""): c for p, c in enumerate(outs)}
        scope.update(given)
        last.update({c: o for o, c in given.items() if c != "v"})


def sections(path):
    """The sections of a file: the words after `==` of each heading, and the lines below it."""
    with open(path, encoding="ascii") as f:
        lines = f.read().split("\n")
    need(lines.pop() == "", "the last line has no end")
    out = []
    for line in lines:
        if line.startswith("== "):
            out.append((line[3:], []))
        else:
            out[-1][1].append(line)
    return out


def case(path):
    """given, recipe, [(name, before, after, steps)], lines before, lines after."""
    s = sections(path)
    need([x[0].split(" ")[0] for x in s] == ["given", "recipe", "steps", "before", "after"], "sections")
    rows = []
    for line in s[2][1]:
        w = line.split(" ")
        if w[0] == "function":
            rows.append((w[1], int(w[2]), int(w[3]), []))
        else:
            need(w[0] in RULES and len(w) == 2, "step")
            rows[-1][3].append(line)
    return s[0][0].split(" ")[1], s[1][0].split(" ")[1], rows, s[3][1], s[4][1]


def listing(path):
    """The words of a listing: [(address, word, text or none)]."""
    words = []
    for head, lines in sections(path):
        for line in lines:
            m = re.fullmatch(r"([0-9a-f]{8}) ([0-9a-f]{8})(?: (.+))?", line)
            need(m or line.startswith("-- "), "line of a listing: " + line)
            if m:
                words.append((int(m.group(1), 16), int(m.group(2), 16), m.group(3)))
    return words


def names(folder, ending):
    return sorted(n[:-len(ending)] for n in os.listdir(os.path.join(HERE, folder)) if n.endswith(ending))


def path(*parts):
    return os.path.join(HERE, *parts)


TABLES = {"refusals": "source name number place line which count about", "images": "form source none-bytes none-sha256 default-bytes default-sha256 recipe recipe-bytes recipe-sha256 about",
         "runs": "form source input output status outside about", "undefined": "source input output image-output image-end about", "bounded": "source recipe input steps output end",
         "interp": "source input bound output end", "examples": "name source input output status", "generated": "number count bytes sha256",
         "certificates": "source recipe log image answer about",
         "tight": "form source none-bytes none-sha256 default-bytes default-sha256 about",
         "sessions": "form source recipe script output status report image-bytes image-sha256 about"}
HEADS = {name: heads for name, heads in TABLES.items() if os.path.exists(path(name + ".tsv"))}
ANSWER = r"replaced|image \d{1,3}|refused (NoFunction 71|OtherNames 72|\w+ \d+ line \d+( which [1-6] count \d+)?)"
END = r"exit \d{1,3}|stack|budget|stuck [0-9a-f]{8} [1-5]"


def check():
    for name, heads in HEADS.items():
        rows = table(name)
        need(rows and " ".join(rows[0]) == heads, "headings of " + name)
        for n, row in enumerate(rows, 2):
            try:
                check_row(name, row)
            except (ValueError, KeyError, IndexError, TypeError) as e:
                raise ValueError("%s.tsv, line %d: %s" % (name, n, e))
        print("%-10s %4d rows" % (name, len(rows)))
    for n in names("graphs", ".graph"):
        with open(path("graphs", n + ".graph"), encoding="ascii") as f:
            graph(f.read().split("\n")[:-1])
    need(names("graphs", ".graph") == names("graphs", ".c"), "pairs of graphs")
    print("graphs     %4d" % len(names("graphs", ".graph")))
    for n in names("rules", ".case"):
        given, recipe, rows, before, after = case(path("rules", n + ".case"))
        need(recipe.split(",") and all(r in RULES for r in recipe.split(",")), "recipe")
        need([(a, b) for a, b, _, _ in rows] == graph(before) and [(a, c) for a, _, c, _ in rows] == graph(after), "values in " + n)
    need(names("rules", ".case") == names("rules", ".c"), "pairs of rules")
    print("rules      %4d" % len(names("rules", ".case")))
    for n in names("listings", ".list"):
        words = listing(path("listings", n + ".list"))
        need(words[0][0] == 0x10000 and all(a[0] % 4 == 0 and a[0] < b[0] for a, b in zip(words, words[1:])), "addresses of " + n)
    need(names("listings", ".list") == names("listings", ".c"), "pairs of listings")
    print("listings   %4d" % len(names("listings", ".list")))


def check_row(name, row):
    if name == "examples":
        for k in ("source", "input", "output"):
            need(os.path.exists(path(row[k])), row[k])
        need(re.fullmatch(r"\d{1,3}", row["status"]), "status")
        return
    if name == "generated":
        text = generated(int(row["number"]), int(row["count"]))
        need(len(text) == int(row["bytes"]) and hashlib.sha256(text).hexdigest() == row["sha256"], "text")
        return
    src = source(row)
    for k in ("input", "output", "image-output", "script"):
        if k in row:
            need(row[k] == "-" or unescape(row[k]), k)
    for k in row:
        if name == "sessions" and row[k] == "-":
            continue
        if k.endswith("sha256"):
            need(re.fullmatch(r"[0-9a-f]{64}", row[k]), k)
        if k.endswith("bytes"):
            need(int(row[k]) >= 8200, k)
    if name == "refusals":
        if row["name"] == "none":
            need(all(row[k] == "-" for k in ("number", "place", "line", "which", "count")), "an accepted source")
            return
        at = int(row["place"])
        need(NUMBERS[row["name"]] == int(row["number"]) and 0 <= at <= len(src), "number and place")
        need(int(row["line"]) == 1 + src[:at].count(b"\n"), "line")
        need((row["which"] == "-") == (row["name"] != "Limit") == (row["count"] == "-"), "which and count")
    if name == "images":
        need(all(r in RULES for r in row["recipe"].split(",")), "recipe")
    if name == "runs":
        need(re.fullmatch(r"\d{1,3}", row["status"]) and row["outside"] in ("qemu", "qemu,gcc"), "status")
    if name == "undefined":
        need(re.fullmatch(END, row["image-end"]), "end")
    if name == "bounded":
        need(re.fullmatch(END, row["end"]) and int(row["steps"]) > 0 and row["recipe"] in ("none", "default"), "end")
    if name == "interp":
        need(re.fullmatch(r"exit \d{1,3}|cut|undefined", row["end"]) and int(row["bound"]) > 0, "end")
    if name == "certificates":
        need(re.fullmatch(r"own|none|more|(byte|first) \d+", row["image"]), "image")
        need(re.fullmatch(r"yes|refused .*|log \w+ \d\d (line|byte) \d+", row["answer"]), "answer")
    if name == "sessions":
        need(row["recipe"] in ("none", "default") or all(r in RULES for r in row["recipe"].split(",")), "recipe")
        need(re.fullmatch({"0": "-", "4": r"refused \w+ \d+ line \d+", "9": r"script [1-9]\d{0,4}"}[row["status"]], row["report"]), "status and report")
        lines = bytes_of(row["output"]).decode("ascii").split("\n")
        need(lines.pop() == "" and all(re.fullmatch(ANSWER, x) for x in lines), "answer lines")
        need((row["image-bytes"] == "-") == (row["image-sha256"] == "-") == (not any(x.startswith("image ") for x in lines)), "image")


# ---- a program against the tables

class Trial:
    def __init__(self, program, folder):
        self.program, self.folder, self.bad, self.count = os.path.abspath(program), folder, 0, 0

    def file(self, name):
        return os.path.join(self.folder, name)

    def call(self, *words, data=b""):
        p = subprocess.run([self.program] + list(words), input=data, capture_output=True, cwd=self.folder)
        return p.returncode, p.stdout, p.stderr.decode("latin-1")

    def same(self, what, mine, theirs):
        self.count += 1
        if mine != theirs:
            self.bad += 1
            print("%s: the table says %s, the program %s" % (what, str(mine)[:300], str(theirs)[:300]), flush=True)

    def build(self, src, recipe, log=False, code=None):
        """The status, the report, and the image or none. A program without recipes builds by `none` alone."""
        with open(self.file("in.c"), "wb") as f:
            f.write(src)
        if os.path.exists(self.file("out.elf")):
            os.remove(self.file("out.elf"))
        words = ["build", "in.c", "out.elf"]
        options = [] if recipe == "default" else ["--recipe", recipe]
        status, _, report = self.call(*words, *options, *(["--report", "log"] if log else []), *(["--code", code] if code else []))
        if status == 1 and code is None and recipe == "none" and not log:
            status, _, report = self.call(*words)
        if not os.path.exists(self.file("out.elf")):
            return status, report, None
        with open(self.file("out.elf"), "rb") as f:
            return status, report, f.read()

    def run(self, what, recipe, src, data, output, end, steps=None, code=None):
        status, report, image = self.build(src, recipe, code=code)
        words = [] if steps is None else ["--steps", str(steps)]
        got = self.call("run", "out.elf", *words, data=data) if image is not None else (status, b"", report)
        self.same(what, (0 if end.startswith("exit") else 7, output, end + "\n"), got)

    def refusals(self, what, row):
        status, report, image = self.build(source(row), "none")
        if row["name"] == "none":
            self.same(what, (0, True), (status, image is not None))
            return
        line = "refused %s %s line %s" % (row["name"], row["number"], row["line"])
        line += "" if row["which"] == "-" else " which %s count %s" % (row["which"], row["count"])
        self.same(what, (4, line + "\n", None), (status, report, image))

    def images(self, what, row):
        for key, recipe in (("none", "none"), ("default", "default"), ("recipe", row["recipe"])):
            status, _, image = self.build(source(row), recipe)
            told = (len(image), hashlib.sha256(image).hexdigest()) if image is not None else (status, "no image")
            self.same("%s, recipe %s" % (what, recipe), (int(row[key + "-bytes"]), row[key + "-sha256"]), told)

    def tight(self, what, row):
        """The images of `--code tight`; a program without that option is not asked."""
        for recipe in ("none", "default"):
            status, _, image = self.build(source(row), recipe, code="tight")
            if status == 1:
                return
            told = (len(image), hashlib.sha256(image).hexdigest()) if image is not None else (status, "no image")
            self.same("%s, recipe %s" % (what, recipe), (int(row[recipe + "-bytes"]), row[recipe + "-sha256"]), told)

    def runs(self, what, row):
        for recipe in ("none", "default"):
            self.run("%s, recipe %s" % (what, recipe), recipe, source(row), bytes_of(row["input"]), bytes_of(row["output"]), "exit " + row["status"])
        self.interpret(what, row, bytes_of(row["output"]), "exit " + row["status"], None)

    def interpret(self, what, row, output, end, bound):
        with open(self.file("in.c"), "wb") as f:
            f.write(source(row))
        words = [] if bound is None else ["--bound", bound]
        got = self.call("interp", "in.c", *words, data=bytes_of(row["input"]))
        self.same(what + ", interp", (0 if end.startswith("exit") else 7, output, end + "\n"), got)

    def undefined(self, what, row):
        self.run(what, "none", source(row), bytes_of(row["input"]), bytes_of(row["image-output"]), row["image-end"], 30000)
        self.interpret(what, row, bytes_of(row["output"]), "undefined", None)

    def bounded(self, what, row):
        self.run(what, row["recipe"], source(row), bytes_of(row["input"]), bytes_of(row["output"]), row["end"], row["steps"])

    def interp(self, what, row):
        self.interpret(what, row, bytes_of(row["output"]), row["end"], row["bound"])

    def certificates(self, what, row):
        """The image is the build's under the recipe (own), under `none`, or the own one changed: a byte's lowest bit, cut, longer."""
        word, _, at = row["image"].partition(" ")
        status, report, image = self.build(source(row), "none" if word == "none" else row["recipe"])
        if image is None:
            self.same(what, "an image", (status, report))
            return
        if word == "byte":
            image = image[:int(at)] + bytes([image[int(at)] ^ 1]) + image[int(at) + 1:]
        if word == "first":
            image = image[:int(at)]
        if word == "more":
            image = image + b"\0"
        for name, data in (("in.log", bytes_of(row["log"])), ("out.elf", image)):
            with open(self.file(name), "wb") as f:
                f.write(data)
        got = self.call("check", "in.c", "in.log", "out.elf")
        answer = row["answer"]
        self.same(what, (0 if answer == "yes" else 4 if answer.startswith("refused") else 8, b"", answer + "\n"), got)

    def sessions(self, what, row):
        """OUT holds `before` at first, and still where the row has no image."""
        for workers in ("1", "4"):
            with open(self.file("in.c"), "wb") as f:
                f.write(source(row))
            with open(self.file("out.elf"), "wb") as f:
                f.write(b"before")
            recipe = [] if row["recipe"] == "default" else ["--recipe", row["recipe"]]
            got = self.call("session", "in.c", "out.elf", *recipe, "--workers", workers, data=bytes_of(row["script"]))
            with open(self.file("out.elf"), "rb") as f:
                image = f.read()
            left = ("-", "-") if image == b"before" else (str(len(image)), hashlib.sha256(image).hexdigest())
            report = "" if row["report"] == "-" else row["report"] + "\n"
            told = (int(row["status"]), report, bytes_of(row["output"]), (row["image-bytes"], row["image-sha256"]))
            self.same("%s, %s workers" % (what, workers), told, (got[0], got[2], got[1], left))

    def examples(self, what, row):
        data, out = (open(path(row[k]), "rb").read() for k in ("input", "output"))
        with open(path(row["source"]), "rb") as f:
            self.run(what, "default", f.read(), data, out, "exit " + row["status"])

    def generated(self, what, row):
        status, _, _ = self.call("gen", row["number"], row["count"], "gen.c")
        told = ""
        if status == 0:
            with open(self.file("gen.c"), "rb") as f:
                told = hashlib.sha256(f.read()).hexdigest()
        self.same(what, (0, row["sha256"]), (status, told))

    def graphs(self, name):
        with open(path("graphs", name + ".c"), "rb") as f, open(path("graphs", name + ".graph"), encoding="ascii") as g:
            status, report, _ = self.build(f.read(), "none", log=True)
            self.same("graphs " + name, "".join("function %s %d %d\n" % (a, n, n) for a, n in graph(g.read().split("\n")[:-1])), report)

    def rules(self, name):
        given, recipe, rows, _, _ = case(path("rules", name + ".case"))
        with open(path("rules", name + ".c"), "rb") as f:
            src = f.read()
        _, first, _ = self.build(src, given, log=True)
        status, report, _ = self.build(src, recipe if given == "none" else given + "," + recipe, log=True)
        parts = ("\n" + first).split("\nfunction ")[1:]
        steps = [[x for x in part.split("\n")[1:] if x] for part in parts]
        base = [int(line.split(" ")[2]) for line in report.split("\n") if line.startswith("function ")]
        lines = []
        for (a, _, after, own), head, n in zip(rows, steps, base):
            lines += ["function %s %d %d" % (a, n, after)] + head + own
        self.same("rules " + name, "".join(x + "\n" for x in lines), report)

    def listings(self, name):
        with open(path("listings", name + ".c"), "rb") as f:
            _, _, image = self.build(f.read(), "none")
        told = []
        for h in range(int.from_bytes(image[44:46], "little") if image else 0):
            at = 52 + 32 * h
            offset, address, _, size = (int.from_bytes(image[at + 4 * k:at + 4 * k + 4], "little") for k in range(1, 5))
            told += [(address + k, int.from_bytes(image[offset + k:offset + k + 4], "little")) for k in range(0, size, 4)]
        words = ["%08x %08x" % (a, w) for a, w, _ in listing(path("listings", name + ".list"))]
        told = ["%08x %08x" % x for x in told]
        first = next((k for k, (a, b) in enumerate(zip(words, told)) if a != b), min(len(words), len(told)))
        self.same("listings %s, word %d" % (name, first), (len(words), words[first:first + 1]), (len(told), told[first:first + 1]))


def bytes_of(cell):
    return b"" if cell == "-" else unescape(cell)


def attempt(program, wanted):
    with tempfile.TemporaryDirectory() as folder:
        trial = Trial(program, folder)
        for name in list(HEADS) + ["graphs", "rules", "listings"]:
            if wanted and name not in wanted:
                continue
            before = trial.count, trial.bad
            if name in HEADS:
                for n, row in enumerate(table(name), 1):
                    getattr(trial, name)("%s %d" % (name, n), row)
            else:
                for n in names(name, {"graphs": ".graph", "rules": ".case", "listings": ".list"}[name]):
                    getattr(trial, name)(n)
            print("%-10s %5d compared, %d differ" % (name, trial.count - before[0], trial.bad - before[1]), flush=True)
    return 1 if trial.bad else 0


def main(words):
    if not words:
        check()
        return 0
    if words[0] == "text" and len(words) == 3:
        sys.stdout.buffer.write(source(table(words[1])[int(words[2]) - 1]))
        return 0
    if words[0] == "try" and len(words) > 1:
        return attempt(words[1], words[2:])
    print(__doc__)
    return 1


if __name__ == "__main__":
    sys.exit(main(sys.argv[1:]))
