#!/usr/bin/env python3
"""dead.py [--all] [WHAT..]: what nothing uses in specs/ and proofs/. Run at the root; changes nothing; some seconds.

WHAT, all where none is named:
  names     definitions and lemmas of .antt that nothing uses, or only what nothing uses itself
  imports   names in a `use` of .antt, or a `ghost use` of .rt, that their file does not say again
  own       pub names of proofs/lemmas that no other crate names: whole modules, and the rest
  small     files of specs/ with at most 10 lines
Answers of proofs (Answers, Invariants, Proof), rows and examples are used by being there. A name is used where a file
imports it and says it, or says it after the name that it gave to the module. A place to look, not a verdict: the check
of the crate decides, since a tactic may take an import that no text says.
"""
import os, re, sys
from collections import defaultdict

args = [a for a in sys.argv[1:] if not a.startswith("--")]
show = 10**6 if "--all" in sys.argv else 12
if not os.path.exists("crates.txt"):
    sys.exit("dead.py: no crates.txt here: run it at the root of the repository")

TOKEN = re.compile(r"[^\s(){}\[\],;.λ«»\"`]+|\[\]")
RT_TOKEN = re.compile(r"&&|[^\s(){}\[\],;.λ«»\"`:&]+|\[\]")
USE = re.compile(r"^\s*(?:pub )?(?:ghost )?use\s+(.*)$")
# A module that a crate passes on of another has the path that it has there.
PASSED = re.compile(r"Rattle\.[a-z_0-9]+\.(specs|proofs)\.(?:of_)?(?!declared\.|contracts\.|lemmas\.)([a-z_0-9]+)\.(?=[A-Z]|declared\.|contracts\.|lemmas\.)")
NAMED = re.compile(r"^((?:pub |abbrev |unfoldable |mutual |instance )*)(?:(data|record|ruleset|class) )?([^\s:(){}]+)(?: |$)")
KEYWORDS = {"use", "module", "mod", "open", "infixl", "infixr", "infix", "mutual", "where", "syntax", "--", "in"}


def tell(title, rows):
    print("%s: %s" % (title, len(rows)))
    for r in rows[:show]:
        print("   " + r)
    if len(rows) > show:
        print("   ..")


def pieces(name):
    """What of a name stands in a text that uses it: of an operator, the words between its gaps."""
    return [p for p in name.split("◌") if p] if "◌" in name and name.strip("◌") else [name]


class File:
    def __init__(self, path):
        self.path, self.crate = path, path.split("/")[1]
        self.rt = path.endswith(".rt")
        text = PASSED.sub(r"Rattle.\2.\1.", open(path, encoding="utf-8").read())
        self.lines = text.split("\n")
        inner = path.split("/", 2)[2][: -len(".antt")] if not self.rt else ""
        self.module = "Rattle.%s.%s" % (self.crate, inner.replace("/", ".")) if inner else ""
        base = os.path.basename(path)
        self.root = self.rt or base in ("Answers.antt", "Invariants.antt", "Proof.antt") or "/examples/" in path \
            or "Examples" in base or "Rows" in base or self.crate.endswith("_tests")
        self.imports = []                    # (line, module, name, local name)
        self.aliases = []                    # (module, local name)
        self.use_lines = set()
        self.read_uses()
        self.code = [("" if i in self.use_lines else self.bare(l)) for i, l in enumerate(self.lines)]
        self.decls = [] if self.rt else self.read_decls()

    def bare(self, l):
        if self.rt:
            # docstrings and comments say nothing that counts
            l = re.sub(r"//.*$", "", l)
        else:
            l = re.sub(r"(^|\s)--.*$", "", l)
        return l

    def read_uses(self):
        i = 0
        while i < len(self.lines):
            m = USE.match(self.lines[i])
            if not m or (self.rt and "Rattle." not in self.lines[i]):
                i += 1
                continue
            first, text = i, m.group(1)
            self.use_lines.add(i)
            while "{" in text and "}" not in text and i + 1 < len(self.lines):
                i += 1
                self.use_lines.add(i)
                text += " " + self.lines[i].strip()
            text = text.strip().rstrip(";").strip()
            pub = self.lines[first].lstrip().startswith("pub ")
            if "{" in text:
                module, names = text.split("{", 1)
                for n in names.rsplit("}", 1)[0].split(","):
                    n = n.strip()
                    if n:
                        a, _, b = n.partition(" as ")
                        self.imports.append((first, module.strip().rstrip("."), a.strip(), b.strip() or a.strip(), pub))
            else:
                a, _, b = text.partition(" as ")
                self.aliases.append((first, a.strip(), b.strip() or a.strip().rsplit(".", 1)[-1], pub))
            i += 1

    def read_decls(self):
        out, block, current = [], None, None
        for i, l in enumerate(self.code):
            if not l.strip():
                continue
            indent = len(l) - len(l.lstrip())
            if indent == 0:
                if re.match(r"(abbrev |pub |unfoldable )*(mutual|module)\b", l):
                    block, current = i, None
                    continue
                block = None
            if indent == 0 or (block is not None and indent == 2):
                s = l.strip()
                m = NAMED.match(s)
                if m and m.group(3) not in KEYWORDS:
                    marks, sort, name = m.groups()
                    rest = s[m.end():]
                    signed = rest.lstrip().startswith(":") or sort or (rest == "" and i + 1 < len(self.code)
                                                                          and self.code[i + 1].strip().startswith(":"))
                    if signed:
                        current = [name, i, i, "pub " in marks or s.startswith("pub "), sort, "instance" in marks]
                        out.append(current)
                        continue
                elif m:
                    current = None
                    continue
            if current is not None:
                current[2] = i
        return out


def sources():
    """The files of the crates, but for what rt makes in out/."""
    for at, folders, names in os.walk("crates"):
        folders[:] = sorted(f for f in folders if f != "out")
        yield from (os.path.join(at, n) for n in sorted(names) if n.endswith((".antt", ".rt")))


files = [File(p) for p in sources()]
rt_files = [f for f in files if f.rt]
for f in files:
    f.said = defaultdict(list)                               # word -> lines
    for i, l in enumerate(f.code):
        for t in (RT_TOKEN if f.rt else TOKEN).findall(l):
            f.said[t].append(i)


def says(f, name, lo=None, hi=None):
    """Whether a file says the name outside these lines."""
    return all(any(lo is None or not lo <= i <= hi for i in f.said.get(p, ())) for p in pieces(name))


def parts_of(f, d):
    """A data type is used by its constructors too, a record by its name alone."""
    names = [d[0]]
    if d[4] == "data":
        for l in f.code[d[1] + 1 : d[2] + 1]:
            m = re.match(r"\s*\|?\s*([^\s:(){}]+)(?: [^:]*)? : ", l)
            if m:
                names.append(m.group(1))
        head = f.code[d[1]]
        if "=" in head:
            names += [w.split()[0] for w in head.split("=", 1)[1].split("|") if w.split()]
    return names


# the declarations; who imports what
all_decls = []
for f in files:
    for d in f.decls:
        entry = (f, d, parts_of(f, d))
        all_decls.append(entry)
importers = defaultdict(list)                                # (module, name) -> [(file, local)]
module_users = defaultdict(list)                             # module -> [(file, local)]
for f in files:
    for _, m, n, local, pub in f.imports:
        importers[(m, n)].append((f, local, pub))
        importers[("." + m.rsplit(".", 1)[-1], n)].append((f, local, pub))
    for _, m, local, pub in f.aliases:
        module_users[m.rsplit(".", 1)[-1]].append((f, local))


owner = {}
for f in files:
    o = [None] * len(f.lines)
    for d in f.decls:
        for i in range(d[1], d[2] + 1):
            o[i] = id(d)
    owner[f.path] = o

uses = defaultdict(set)                                      # declaration -> users: ids of declarations, or True
for f, d, names in all_decls:
    last = f.module.rsplit(".", 1)[-1]
    for n in names:
        candidates = [(f, n)]
        candidates += [(g, local) for g, local, _ in importers.get(("." + last, n), ())]
        # a name reached through a module that another passes on, or a record's or data's own module
        candidates += [(g, local) for g, local, _ in importers.get(("." + d[0], n), ())]
        for g, local in candidates:
            words = pieces(local)
            for p in words[:1]:
                for i in g.said.get(p, ()):
                    if g is f and d[1] <= i <= d[2]:
                        continue
                    o = owner[g.path][i]
                    uses[id(d)].add(o if o is not None and not g.root else True)
        for g, local in module_users.get(last, []) + module_users.get(d[0], []):
            for i in g.said.get(n, ()):
                if re.search(r"(?<![^\s(){}\[\],;])%s\.%s(?![^\s(){}\[\],;.])" % (re.escape(local), re.escape(n)), g.code[i]):
                    o = owner[g.path][i]
                    uses[id(d)].add(o if o is not None and not g.root else True)
        # named by its path in .rt, as using(crate::proofs::Module::name)
        for g in rt_files:
            if n in g.said and last in g.said and any("::%s::%s" % (last, n) in g.code[i] for i in g.said[n]):
                uses[id(d)].add(True)
    # a row that is evaluated: its proof is refl, or a tuple of them
    body = " ".join(f.code[d[1] : d[2] + 1]).replace("\n", " ")
    row = "/proofs/" in f.path and re.search(r"\s=\s*\(?(refl[\s,)]*)+$", body)
    if d[5] or f.root or row or d[4] == "class":
        uses[id(d)].add(True)

live = {i for i, u in uses.items() if True in u}
grown = True
while grown:
    grown = False
    for i, u in uses.items():
        if i not in live and u & live:
            live.add(i)
            grown = True

if not args or "names" in args:
    rows, lines, crates = [], 0, set()
    for f, d, names in all_decls:
        if id(d) not in live:
            end = d[2]
            while end > d[1] and not f.code[end].strip():
                end -= 1
            lines += end - d[1] + 1
            crates.add(f.crate)
            only = "" if not uses[id(d)] else "  (used by what nothing uses)"
            rows.append("%s:%d %s%s" % (f.path, d[1] + 1, d[0], only))
    tell("names that nothing uses (%d lines, %d crates)" % (lines, len(crates)), rows)

if not args or "imports" in args:
    rows = []
    for f in files:
        for line, m, n, local, pub in f.imports:
            if f.said.get("do") and local in ("◌>>=◌", "◌>>◌", "pure"):
                continue
            if not pub and not all(f.said.get(p) for p in pieces(local)):
                rows.append("%s:%d %s" % (f.path, line + 1, local))
        for line, m, local, pub in f.aliases:
            if not pub and not f.said.get(local) and not f.path.endswith("Lib.antt"):
                rows.append("%s:%d %s" % (f.path, line + 1, local))
    for end, what in ((".antt", "use of .antt"), (".rt", "ghost use of .rt")):
        mine = [r for r in rows if end + ":" in r]
        crates = {r.split("/")[1] for r in mine}
        tell("imports that their file does not say again, %s (%d crates)" % (what, len(crates)), mine)

if not args or "own" in args:
    # A module of proofs/lemmas without `pub` in lemmas.antt is seen in that folder alone; one of proofs/ without `pub`
    # in Lib.antt is seen in its whole crate.
    folder, crate_wide, here, count, outside, alone = [], [], defaultdict(int), 0, 0, []
    offers = {c: open("crates/%s/proofs/lemmas.antt" % c, encoding="utf-8").read().split("\n")
              for c in {f.crate for f in files} if os.path.exists("crates/%s/proofs/lemmas.antt" % c)}

    def is_named(f, name):
        """Whether a path of .rt, a name for its module, or a pub ruleset, which takes none but pub names, names it."""
        last = f.module.rsplit(".", 1)[-1]
        path = re.compile(r"::%s::%s(?![\w-])" % (last, re.escape(name)))
        if any(name in g.said and path.search(g.code[i]) for g in rt_files for i in g.said.get(name, ())):
            return True
        for g, local in module_users.get(last, ()):
            if any(m == f.module for _, m, _, _ in g.aliases) and any("%s.%s" % (local, name) in g.code[i] for i in g.said.get(name, ())):
                return True
        return any(d[3] and d[4] == "ruleset" and any(d[1] <= i <= d[2] for i in f.said.get(name, ())) for d in f.decls)

    for f in files:
        if "/proofs/lemmas/" not in f.path or f.rt or f.path.endswith("/lemmas/Lib.antt"):
            continue
        users = {g.path for (m, _), gs in importers.items() if m == f.module for g, _, _ in gs}
        users |= {g.path for gs in module_users.values() for g, _ in gs if any(m == f.module for _, m, _, _ in g.aliases)}
        if all(u.split("/")[1] == f.crate for u in users):
            here_alone = all("/proofs/lemmas/" in u for u in users)
            if not here_alone:
                crate_wide.append(f.path)
            elif "pub mod " + f.module.rsplit(".", 1)[-1] in offers[f.crate]:
                folder.append(f.path)
        for d in f.decls:
            if d[3]:
                count += 1
                by = {g.path for g, _, _ in importers.get((f.module, d[0]), ())}
                if any(u.split("/")[1] != f.crate for u in by):
                    outside += 1
                else:
                    here[f.crate] += 1
                    if not by and id(d) in live and d[4] is None and not is_named(f, d[0]):
                        alone.append("%s:%d %s" % (f.path, d[1] + 1, d[0]))
    tell("modules that proofs/lemmas alone names: `mod` in the place of `pub mod`", folder)
    tell("modules that their own crate alone names: into proofs/, `mod` in Lib.antt", crate_wide)
    print("pub names of proofs/lemmas: %d, named by other crates: %d (%d of 100)" % (count, outside, 100 * outside // max(count, 1)))
    tell("pub names of proofs/lemmas that no `use`, path or pub ruleset takes: without `pub`", alone)
    tell("pub names of proofs/lemmas that no other crate names, by crate",
         ["%s %d" % (c, n) for c, n in sorted(here.items(), key=lambda x: -x[1]) if n])

if not args or "small" in args:
    rows = [f.path + " %d" % (len(f.lines) - 1) for f in files
            if "/specs/" in f.path and not f.path.endswith("Lib.antt") and len(f.lines) - 1 <= 10]
    tell("files of specs/ with at most 10 lines", rows)
