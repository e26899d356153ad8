#!/bin/sh
# Talks to `rvcc session` over two pipes: it waits for the answer to each command before it writes the next one, and after `end` for the
# end, while the pipe is open. The commands, answers and images are those of the table of sessions in rows/, by 1 and by 4 workers.
# Then one session by single bytes, one on a terminal, broken commands after which the pipe stays open, an OUT that cannot be created
# at the second `build`, and one that is IN.
set -u
cd "$(dirname "$0")/.." || exit 1
script=tools/answers.sh
. tools/lib.sh
need python3
compiler

PYTHONDONTWRITEBYTECODE=1 python3 - rows "$program" "$folder" <<'END'
import hashlib, os, pty, select, subprocess, sys, time

sys.path.insert(0, sys.argv[1])
import read

program, folder = os.path.abspath(sys.argv[2]), sys.argv[3]
SECONDS = 120
IN, OUT = os.path.join(folder, "in.c"), os.path.join(folder, "out.elf")


def written(name, data):
    with open(name, "wb") as file:
        file.write(data)


def image():
    with open(OUT, "rb") as file:
        return file.read()


class Session:
    """A session that is open: what it is asked goes through a pipe, or through a terminal, and what it answers through another pipe."""

    def __init__(self, words, on_terminal=False):
        self.asked, given = pty.openpty() if on_terminal else reversed(os.pipe())
        self.child = subprocess.Popen([program, "session", *words], stdin=given, stdout=subprocess.PIPE, stderr=subprocess.PIPE, cwd=folder)
        os.close(given)
        self.output, self.rest = self.child.stdout.fileno(), b""

    def ask(self, data, step=1 << 20):
        """Writes the bytes, so many at a time. A session that has ended takes no more."""
        try:
            for at in range(0, len(data), step):
                done = at
                while done < min(at + step, len(data)):
                    done += os.write(self.asked, data[done:min(at + step, len(data))])
        except BrokenPipeError:
            pass

    def answer(self):
        """The next line of the output, or what came of it before the output ended or time ran out."""
        last = time.monotonic() + SECONDS
        while b"\n" not in self.rest and select.select([self.output], [], [], max(0, last - time.monotonic()))[0]:
            more = os.read(self.output, 65536)
            if not more:
                break
            self.rest += more
        line, end, self.rest = self.rest.partition(b"\n")
        return line + end

    def close(self):
        os.close(self.asked)
        self.asked = None

    def ended(self):
        """The status, the output that is left and the report, or none where the session goes on."""
        try:
            output, report = self.child.communicate(timeout=SECONDS)
        except subprocess.TimeoutExpired:
            self.child.kill()
            self.child.communicate()
            return None
        finally:
            if self.asked is not None:
                self.close()
        return self.child.returncode, self.rest + output, report


compared = wrong = 0


def same(what, wanted, got):
    global compared, wrong
    compared += 1
    if wanted != got:
        wrong += 1
        print("%s: %s is wanted, and there is %s" % (what, str(wanted)[:200], str(got)[:200]), flush=True)


def commands(script, count):
    """The first commands of a script, each with all its bytes, and the rest."""
    first = []
    for _ in range(count):
        size = script.index(b"\n") + 1
        words = script[:size].split()
        if words[0] == b"replace":
            size += int(words[2]) + 1
        first.append(script[:size])
        script = script[size:]
    return first, script


def talk(what, row, workers, step=1 << 20, on_terminal=False):
    """Goes through the script of a row of the table."""
    written(IN, read.source(row))
    written(OUT, b"before")
    lines = read.bytes_of(row["output"]).splitlines(True)
    first, rest = commands(read.bytes_of(row["script"]), len(lines))
    session = Session(["in.c", "out.elf", "--workers", workers] + (["--recipe", row["recipe"]] if row["recipe"] != "default" else []), on_terminal)
    builds = sum(line.startswith(b"image ") for line in lines)
    for number, (command, line) in enumerate(zip(first, lines), 1):
        session.ask(command, step)
        answer = session.answer()
        if answer != line:
            same("%s, command %d" % (what, number), line, answer)
            session.child.kill()
            break
        if line.startswith(b"image "):
            builds -= 1
            if builds == 0:
                same("%s, OUT at the last image" % what, (row["image-bytes"], row["image-sha256"]), (str(len(image())), hashlib.sha256(image()).hexdigest()))
    session.ask(rest, step)
    # A script that is cut off is no more than that until the pipe is closed.
    if row["status"] == "9":
        session.close()
    report = b"" if row["report"] == "-" else row["report"].encode("ascii") + b"\n"
    same(what, (int(row["status"]), b"", report), session.ended())


rows = read.table("sessions")
for number, row in enumerate(rows, 1):
    for workers in ("1", "4"):
        talk("sessions %d, %s workers" % (number, workers), row, workers)
talk("sessions 1 by single bytes", rows[0], "1", step=1)
talk("sessions 1 on a terminal", rows[0], "1", on_terminal=True)

# A broken command ends the session while the pipe is open, as does a source that is refused.
four = read.source(rows[0])
for broken in (b"x\n", b"\n", b"build \n", b"Build\n", b"replace c 1048577\n", b"replace c 12345678\n", b"replace c 1\nxy", b"a" * 101 + b"\n"):
    written(IN, four)
    written(OUT, b"before")
    session = Session(["in.c", "out.elf"])
    session.ask(b"build\n")
    same("build before %r" % broken[:20], b"image 4\n", session.answer())
    session.ask(broken)
    same("%r" % broken[:20], (9, b"", b"script 2\n"), session.ended())
written(IN, b"int main(void) { return x; }")
same("a refused source", (4, b"", b"refused Unknown 31 line 1\n"), Session(["in.c", "out.elf"]).ended())

# A text of which nothing comes.
written(IN, four)
session = Session(["in.c", "out.elf"])
session.ask(b"replace c 1048576\n")
session.close()
same("a text that does not come", (9, b"", b"script 1\n"), session.ended())

# OUT cannot be created at the second build.
written(OUT, b"before")
session = Session(["in.c", "out.elf"])
session.ask(b"build\n")
same("the first of two builds", b"image 4\n", session.answer())
os.remove(OUT)
os.mkdir(OUT)
session.ask(b"build\n")
same("an OUT that is a folder", (3, b"", b"write fault\n"), session.ended())
os.rmdir(OUT)

# OUT is IN: the source of the session is what was read.
session = Session(["in.c", "in.c"])
answers = []
for command in (b"build\n", b"replace c 33\nint c(int x) { return d(x) * 4; }\n", b"build\n"):
    session.ask(command)
    answers.append(session.answer())
session.ask(b"end\n")
same("an OUT that is IN", ([b"image 4\n", b"replaced\n", b"image 2\n"], (0, b"", b"")), (answers, session.ended()))

print("tools/answers.sh: %d compared, %d differ" % (compared, wrong))
sys.exit(wrong > 0)
END
