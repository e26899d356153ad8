"""commands.py PROGRAM FOLDER: holds the compiler PROGRAM against tables of rows/, in FOLDER, and prints each difference.

The tables have the form of the others there (rows/read.py): a line of headings, then a line a row, cells separated by one tab, and
bytes by escapes; `-` stands for nothing. Where a report or an output is only known in part, the cell is `~` and a regular
expression of the whole. What a call is not told to report, to write or to leave, it must not: a cell `-` is compared too.

commands.tsv: words, given, input, status, report, output, left, about. Each row is a call of the program with these words,
divided by one blank each; two blanks in a row enclose an empty word, and `\\x20` is a blank in a word. `given` is one file that is
made before: `NAME is BYTES`; `NAME first N of OTHER`, the first N bytes of a file, where N may be a list of numbers and ranges as
`0-9,12`, and the call is made for each; `NAME of OTHER at N HEX`, a file with other bytes from N on. A row whose words begin with
`+ ` goes on in the folder that the row before left; each other one begins in an empty folder. `left` are facts of files
afterwards, divided by `, `: `NAME absent`, `NAME kept` (as it was before), `NAME as OTHER` (the same bytes), `NAME of N bytes`,
`NAME at N HEX` (bytes from N on), `NAME is BYTES`, which is the last one.

reported.tsv: source, report, output, about. The source on the standard input has this report and output, and a build of it, by
one worker and by 64, the same report; where that is `-`, it makes an image, and else none.

programs.tsv: source, recipes, input, steps, output, end, about. Under each recipe (`default` is a build that names none) builds by
1, 2 and 64 workers make the same image, and its run for at most so many steps reads, writes and ends as said.
"""
import os
import re
import shutil
import subprocess
import sys

sys.path.insert(0, os.path.join(os.path.dirname(os.path.abspath(__file__)), "..", "rows"))
from read import bytes_of, table

FACT = re.compile(r"(\S+ (?:absent|kept|as \S+|of \d+ bytes|at \d+ [0-9a-f]+|is .*))(?:, |$)")


class Trial:
    def __init__(self, program, folder):
        self.program, self.folder, self.compared, self.differ = os.path.abspath(program), os.path.join(folder, "calls"), 0, 0

    def empty(self):
        shutil.rmtree(self.folder, ignore_errors=True)
        os.mkdir(self.folder)

    def write(self, name, data):
        with open(os.path.join(self.folder, name), "wb") as file:
            file.write(data)

    def read(self, name):
        """The bytes of a file, or nothing where there is none."""
        try:
            with open(os.path.join(self.folder, name), "rb") as file:
                return file.read()
        except FileNotFoundError:
            return None

    def call(self, words, data=b""):
        """The status, the report and the output of a call."""
        done = subprocess.run([self.program, *words], input=data, capture_output=True, cwd=self.folder)
        return done.returncode, done.stderr, done.stdout

    def same(self, what, told, found):
        """Compares what the table tells with what was found: each the same, or a whole of the regular expression."""
        self.compared += 1
        for mine, theirs in zip(told, found):
            if isinstance(mine, re.Pattern) and isinstance(theirs, bytes) and mine.fullmatch(theirs) or mine == theirs:
                continue
            self.differ += 1
            print("%s: the table says %.300s, the program %.300s" % (what, mine, theirs))
            return

    def commands(self, what, row):
        goes_on = row["words"].startswith("+ ")
        if not goes_on:
            self.empty()
        words = [] if row["words"] == "-" else [bytes_of(word).decode("latin-1") for word in row["words"][2 * goes_on:].split(" ")]
        for given in self.files(row["given"]):
            if given:
                self.write(*given)
            before = {name: self.read(name) for name in os.listdir(self.folder)}
            found = self.call(words, bytes_of(row["input"]))
            self.same(what, (int(row["status"]), told(row["report"]), told(row["output"])), found)
            facts = FACT.findall(row["left"])
            left = {fact.split(" ")[0] for fact in facts}
            for fact in facts:
                self.same(what + ", " + fact[:40], *self.fact(fact, before))
            others = {name: self.read(name) for name in os.listdir(self.folder) if name not in left}
            self.same(what + ", the other files", [{name: before[name] for name in before if name not in left}], [others])

    def files(self, cell):
        """The file that is made before each call: its name and its bytes."""
        name, how, *rest = cell.split(" ", 2) if cell != "-" else ("-", "")
        if how == "is":
            return [(name, bytes_of(rest[0]))]
        if how == "first":
            counts, other = rest[0].split(" of ")
            ranges = [(part + "-" + part).split("-")[:2] for part in counts.split(",")]
            return [(name, (self.read(other) or b"")[:count]) for first, last in ranges for count in range(int(first), int(last) + 1)]
        if how == "of":
            other, _, at, new = rest[0].split(" ")
            data, at, new = self.read(other) or b"", int(at), bytes.fromhex(new)
            return [(name, data[:at] + new + data[at + len(new):])]
        return [None]

    def fact(self, fact, before):
        """What a fact of a file tells, and what is found."""
        name, how, *rest = fact.split(" ", 2)
        data = self.read(name)
        if how == "absent":
            return [None], [data]
        if how == "kept":
            return [before.get(name)], [data]
        if how == "as":
            return [self.read(rest[0])], [data]
        if data is None:
            return ["a file"], [None]
        if how == "of":
            return [int(rest[0].split(" ")[0])], [len(data)]
        if how == "at":
            at, new = rest[0].split(" ")
            return [bytes.fromhex(new)], [data[int(at):int(at) + len(new) // 2]]
        return [bytes_of(rest[0])], [data]

    def reported(self, what, row):
        source, report, output = bytes_of(row["source"]), told(row["report"]), told(row["output"])
        self.empty()
        status = 0 if row["report"] == "-" else 4
        self.same(what, (status, report, output), self.call([], source))
        self.write("in", source)
        for workers in ("1", "64"):
            found = self.call(["build", "in", "out", "--workers", workers])
            self.same(what + " by " + workers, (status, report, b"", status == 0), (*found, self.read("out") is not None))

    def programs(self, what, row):
        status = 0 if row["end"].startswith("exit") else 7
        end = told(row["end"]) if row["end"].startswith("~") else bytes_of(row["end"]) + b"\n"
        for recipe in row["recipes"].split(" "):
            self.empty()
            self.write("in", bytes_of(row["source"]))
            options = [] if recipe == "default" else ["--recipe", recipe]
            for workers in ("1", "2", "64"):
                found = self.call(["build", "in", "image" + workers, "--workers", workers, *options])
                image = self.read("image" + workers)
                self.same("%s, %s by %s" % (what, recipe, workers), (0, b"", b"", self.read("image1")), (*found, image or b""))
            found = self.call(["run", "image1", "--steps", row["steps"]], bytes_of(row["input"]))
            self.same("%s, a run under %s" % (what, recipe), (status, end, told(row["output"])), found)


def told(cell):
    """What a cell tells of a report or an output."""
    if not cell.startswith("~"):
        return bytes_of(cell)
    return re.compile(cell[1:].encode("ascii"), re.DOTALL)


trial = Trial(*sys.argv[1:])
for name in ("commands", "reported", "programs"):
    for number, row in enumerate(table(name), 1):
        getattr(trial, name)("%s %d" % (name, number), row)
print("tools/commands.sh: %d compared, %d differ" % (trial.compared, trial.differ))
sys.exit(trial.differ > 0)
