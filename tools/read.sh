#!/bin/sh
# read.sh NAME..: prints, crate by crate and file by file, the definitions of specs/ that these definitions reach, with their lines:
# what has to be read to know what they say. CRATE.NAME tells two of one name apart; of a bare one the highest crate's counts, saying
# so. Then the Rust types that they name, with their lines, and the names of the kit's library, which are not counted. A line counts
# where it is not blank and no import; a definition is its paragraph, with those after it that define nothing. Without arguments it
# holds the table in docs/THEOREM.md, between the two marks, against the crates; `read.sh --write` writes it.
set -u
cd "$(dirname "$0")/.." || exit 1
script=tools/read.sh
. tools/lib.sh
page=docs/THEOREM.md
begin='<!-- made by tools/read.sh --write -->'
end='<!-- end -->'

# Each file of specs/ is read once, in the order of crates.txt. What a definition cites is looked at when it is reached.
sed -n 's/^\([a-z][a-z0-9_]*\).*:.*/\1/p' crates.txt | while read -r crate; do
    find "crates/$crate/specs" -name '*.antt' ! -name Lib.antt 2>/dev/null | LC_ALL=C sort
done >"$folder/files"
cat >"$folder/reach.awk" <<'AWK'
function stop(text) { print text; wrong = 1; exit 1 }

# ---- the files: units, their names, and where a name of a file comes from

function name_of(text,  n, words) {
    n = split(text, words, / /)
    return words[1]
}
# the names that a line defines: heads, and constructors of a data type; the fields of a record
# count for imports alone
function heads(line,  text, indent, name) {
    match(line, /^ */)
    indent = RLENGTH
    text = substr(line, indent + 1)
    if (kind != "" && indent <= kind_indent) kind = ""
    if (block && indent == 0) block = 0
    if (text ~ /^(abbrev )?mutual$/) { block = 1; return }
    if (text ~ /^(pub )?(record|data) /) {
        kind = text ~ /^(pub )?record / ? "record" : "data"
        kind_indent = indent; inner = -1
        sub(/^(pub )?(record|data) /, "", text)
        define(name_of(text)); return
    }
    if (text ~ /^(abbrev|unfoldable) /) {
        sub(/^(abbrev|unfoldable) /, "", text); sub(/^pub /, "", text)
        define(name_of(text)); return
    }
    if (kind == "data" && indent > kind_indent && text ~ /^[A-Za-z][^ ]*( [A-Za-z][^ ]*)* : /) {
        if (inner < 0) inner = indent
        if (indent == inner) { sub(/ : .*/, "", text); count_of_names = split(text, new_names, / /); for (name = 1; name <= count_of_names; name++) define(new_names[name]) }
        return
    }
    if (kind == "record" && indent > kind_indent && text ~ /^pub [^ ]+ : /) { sub(/^pub /, "", text); field[++fields] = name_of(text); return }
    if (kind == "" && text ~ /^(pub )?[^ ]+ : / && (block || text ~ /^pub /)) { sub(/^pub /, "", text); define(name_of(text)) }
}
function define(name) { fresh[++freshes] = name }
function flush(  i, j) {
    if (lines == 0) return
    freshes = 0; fields = 0
    for (i = 1; i <= lines; i++) if (line_of[i] !~ /^ *--/) heads(line_of[i])
    if (freshes > 0) {
        unit = ++units; file_of[unit] = file; line_at[unit] = begun; title[unit] = fresh[1]; size[unit] = 0; text_of[unit] = ""
        for (j = 1; j <= freshes; j++) {
            if (!((file, fresh[j]) in own)) own[file, fresh[j]] = unit
            if (index(fresh[j], "\342\227\214")) mixfix[file] = mixfix[file] " " fresh[j]
            holders[fresh[j]] = holders[fresh[j]] " " unit
        }
    }
    for (j = 1; j <= fields; j++) if (!((file, field[j]) in projected)) projected[file, field[j]] = unit
    if (lines == 1 && line_of[1] ~ /^ *-- ---- /) lines = 0
    if (unit) for (i = 1; i <= lines; i++) {
        size[unit]++
        if (line_of[i] !~ /^ *--/) text_of[unit] = text_of[unit] "\n" line_of[i]
    }
    lines = 0
}
# A module that a crate passes on of another has the path that it has there.
function import(line,  path, names, n, i, name, as) {
    sub(/^(pub )?use /, "", line)
    while (match(line, /^Rattle\.[a-z_0-9]+\.specs\.[a-z_0-9]+\./) && line !~ /^Rattle\.[a-z_0-9]+\.specs\.(declared|contracts)\./)
        sub(/^Rattle\.[a-z_0-9]+\.specs\./, "Rattle.", line) && sub(/^Rattle\.[a-z_0-9]+\./, "&specs.", line)
    if (match(line, /\.\{/)) {
        path = substr(line, 1, RSTART - 1)
        names = substr(line, RSTART + 2); sub(/\}.*$/, "", names)
        n = split(names, parts, /, */)
        for (i = 1; i <= n; i++) {
            name = parts[i]; as = name
            if (match(name, / as /)) { as = substr(name, RSTART + 4); name = substr(name, 1, RSTART - 1) }
            path_of[file, as] = path; name_in[file, as] = name
            if (index(as, "\342\227\214") && path ~ /^Rattle\./) mixfix[file] = mixfix[file] " " as
        }
    } else if (match(line, / as /)) alias[file, substr(line, RSTART + 4)] = substr(line, 1, RSTART - 1)
    else alias[file, line] = line
}
FNR == 1 {
    flush()
    file = FILENAME; kind = ""; block = 0; unit = 0
    split(file, at, "/"); crate = at[2]; base = at[4]; sub(/\.antt$/, "", base)
    crate_of[file] = crate; base_of[file] = base; file_named["Rattle." crate ".specs." base] = file
    if (!(crate in crates)) { crates[crate] = ++crate_count; crate_named[crate_count] = crate }
    files_of[crate] = files_of[crate] "\n" file
}
/^(pub )?use / { import($0); next }
/^ *$/ { flush(); next }
{ line_of[++lines] = $0; if (lines == 1) begun = FNR }

# ---- what a definition reaches

# From a module and a name, over files that import it: a unit, or a Rust type, or a name of the kit. `maybe` is said of a name
# after an alias, which may be a variable of the alias's name.
function visit(path, name, from, maybe,  file, key, hops, type) {
    for (hops = 0; hops < 20; hops++) {
        if (path !~ /^Rattle\./ || path ~ /^Rattle\.std\./) { note_kit(path "." name); return }
        if (path ~ /\.specs\.(declared|contracts)\./) { note_type(path, name); return }
        if (!(path in file_named)) {
            split(path, part, /\./)
            if (part[2] in crates) stop(from ":" line_at[looked] ": there is no " path ", of which it takes " name)
            note_kit(path "." name); return
        }
        file = file_named[path]
        if ((file, name) in own) { add(own[file, name]); return }
        if ((file, name) in projected) { add(projected[file, name]); return }
        key = file SUBSEP name
        if (!(key in path_of) && maybe) return
        if (!(key in path_of)) stop(from ":" line_at[looked] ": " file " has no " name)
        path = path_of[key]; name = name_in[key]
    }
    stop(from ":" line_at[looked] ": the imports of " name " go round")
}
function add(unit) {
    if ((query, unit) in reached || index(" " barred " ", " " title[unit] " ")) return
    reached[query, unit] = 1
    waiting[++last] = unit
}
function note_kit(name) {
    if ((query, "kit", name) in reached) return
    reached[query, "kit", name] = 1
    kits[query]++; kit_names[query] = kit_names[query] "\n" name
}
# `declared.module.Type`, whose constructors and views stand below it
function note_type(path, name,  crate, type, n) {
    n = split(path, part, /\./)
    crate = part[2]
    if (part[4] == "contracts") return
    type = crate " " part[5] " " part[6]
    if ((query, "type", type) in reached) return
    reached[query, "type", type] = 1
    types[query] = types[query] "\n" type
}
function cite(word, from,  head, rest) {
    if ((from, word) in own) { add(own[from, word]); return }
    if ((from, word) in path_of) { visit(path_of[from, word], name_in[from, word], from); return }
    if (!match(word, /\./)) { if (word ~ /^[A-Z][a-z][A-Za-z]+$/ && word in holders) unknown(word, from); return }
    head = substr(word, 1, RSTART - 1); rest = substr(word, RSTART + 1)
    if (head == "" || rest == "") { if (head != "") cite(head, from); return }
    if ((from, head) in alias) { sub(/\..*/, "", rest); visit(alias[from, head], rest, from, 1); return }
    if ((from, head) in own || (from, head) in path_of) cite(head, from)
}
# a capital name that some file defines, and this one neither defines nor imports
function unknown(word, from) {
    if (!((from, word) in missed)) { missed[from, word] = 1; missing = missing "\n" from ":" line_at[looked] ": " word " is not imported" }
}
function look(unit,  text, from, n, i, words, m, names, j, k, pieces, all) {
    from = file_of[unit]; text = text_of[unit]; looked = unit
    gsub(/"[^"]*"/, " ", text)
    gsub(/[({][A-Za-z_][A-Za-z0-9_' ]* : /, "( ", text)
    gsub(/\316\273 [A-Za-z_][A-Za-z0-9_' ]*\./, " ", text)
    gsub(/[][(){};,\n]/, " ; ", text)
    n = split(text, words, / +/)
    for (i = 1; i <= n; i++) if (words[i] != "" && words[i + 1] != ":" && words[i + 1] != "=") cite(words[i], from)
    m = split(mixfix[from], names, / /)
    for (j = 1; j <= m; j++) {
        if (names[j] == "") continue
        k = split(names[j], pieces, "\342\227\214"); all = 1
        for (i = 1; i <= k; i++) if (pieces[i] != "" && !index(" " text " ", " " pieces[i] " ")) all = 0
        if (all) cite(names[j], from)
    }
}
function reach(label, roots, without,  n, names, i) {
    query = label; barred = without; last = 0; first = 1
    n = split(roots, names, / /)
    for (i = 1; i <= n; i++) root(names[i])
    while (first <= last) look(waiting[first++])
}
function root(name,  crate, n, found, i, chosen, others) {
    crate = ""
    if (match(name, /\./)) { crate = substr(name, 1, RSTART - 1); name = substr(name, RSTART + 1) }
    n = split(holders[name], found, / /)
    for (i = 1; i <= n; i++) {
        if (found[i] == "" || (crate != "" && crate_of[file_of[found[i]]] != crate)) continue
        if (chosen) others = others " " crate_of[file_of[chosen]]
        chosen = found[i]
    }
    if (!chosen) stop("no file of specs/ defines " (crate == "" ? "" : crate ".") name)
    if (others != "" && roots_said) print "# " name " is the one of " crate_of[file_of[chosen]] "; there is one of" others " too"
    add(chosen)
}

# ---- the sums

# Of the units that one query reaches and another does not, over some crates (or all but some): lines by crate and by file.
function tally(label, minus, only, but,  u, c) {
    total = 0; touched = 0
    for (c in by_crate) delete by_crate[c]
    for (c in by_file) delete by_file[c]
    for (u = 1; u <= units; u++) {
        if (!((label, u) in reached) || (minus != "" && (minus, u) in reached)) continue
        c = crate_of[file_of[u]]
        if (only != "" && !index(" " only " ", " " c " ")) continue
        if (but != "" && index(" " but " ", " " c " ")) continue
        if (!(c in by_crate)) touched++
        by_crate[c] += size[u]; by_file[file_of[u]] += size[u]; total += size[u]
    }
}
function thousands(n) { return n < 1000 ? n : int(n / 1000) "," sprintf("%03d", n % 1000) }
# the crates of the last tally, the largest first, and the files of each where there are several
function listed(with_files,  out, c, best, done, f, files, n, i, b, inner, many) {
    for (c in seen) delete seen[c]
    out = ""
    while (1) {
        best = ""
        for (c in by_crate) if (!(c in seen) && (best == "" || by_crate[c] > by_crate[best] || (by_crate[c] == by_crate[best] && crates[c] < crates[best]))) best = c
        if (best == "") return out
        seen[best] = 1
        out = out (out == "" ? "" : ", ") "`" best "` " thousands(by_crate[best])
        if (!with_files) continue
        inner = ""; many = 0
        n = split(files_of[best], files, /\n/)
        for (i = 1; i <= n; i++) listing[i] = files[i]
        while (1) {
            b = 0
            for (i = 1; i <= n; i++) if (listing[i] != "" && listing[i] in by_file && (!b || by_file[listing[i]] > by_file[listing[b]])) b = i
            if (!b) break
            inner = inner (many++ ? ", " : "") "`" base_of[listing[b]] "` " thousands(by_file[listing[b]])
            listing[b] = ""
        }
        if (many > 1 || with_files > 1) out = out " (" inner ")"
    }
}

# ---- the Rust types: their lines, from the comment before the item to its end; each file is read once

function type_lines(type,  part, path, line, count, depth, held, name) {
    split(type, part, / /)
    path = "crates/" part[1] "/src/" part[2] ".rt"
    if (!(path in scanned)) {
        scanned[path] = 1; count = 0; name = ""
        while ((getline line < path) > 0) {
            if (name == "" && line ~ /^(\/\/\/|#\[)/) { count++; continue }
            if (name == "" && match(line, /^pub (enum|struct|type) [A-Za-z0-9_]+/)) {
                name = substr(line, RSTART, RLENGTH); sub(/.* /, "", name)
                if (line ~ /;$/ || line ~ /}$/) { lines_of_type[path, name] = count + 1; name = ""; count = 0; continue }
            }
            if (name == "") { count = 0; continue }
            if (line !~ /^ *$/) count++
            if (line ~ /^[})]/) { lines_of_type[path, name] = count; name = ""; count = 0 }
        }
        close(path)
    }
    return (path, part[3]) in lines_of_type ? lines_of_type[path, part[3]] : 0
}
function types_tally(label,  n, names, i) {
    type_total = 0; type_count = 0
    n = split(types[label], names, /\n/)
    for (i = 1; i <= n; i++) if (names[i] != "") { type_count++; type_total += type_lines(names[i]) }
}

function print_reached(label,  i, c, files, n, j, u, out, names) {
    tally(label, "", "", "")
    for (i = 1; i <= crate_count; i++) {
        c = crate_named[i]
        if (!(c in by_crate)) continue
        print c " " by_crate[c]
        n = split(files_of[c], files, /\n/)
        for (j = 1; j <= n; j++) {
            if (!(files[j] in by_file)) continue
            out = ""
            for (u = 1; u <= units; u++) if (file_of[u] == files[j] && (label, u) in reached) out = out (out == "" ? "" : ", ") title[u] " " size[u]
            print "  " base_of[files[j]] " " by_file[files[j]] ": " out
        }
    }
    types_tally(label)
    print touched " crates, " total " lines; beside them " type_count " Rust types of " type_total " lines and " kits[label] + 0 " names of the kit"
    n = split(types[label], files, /\n/)
    for (i = 1; i <= n; i++) if (files[i] != "") { split(files[i], part, / /); print "  Rust: " part[1] " " part[3] " " type_lines(files[i]) }
    n = split(kit_names[label], names, /\n/)
    for (i = 1; i <= n; i++) if (names[i] != "") print "  kit: " names[i]
}
function row(step, question, with_files) { print "| " step " | " question " | " listed(with_files) " | " thousands(total) " |" }
function sum_row(name, what) { print "| | **`" name "`**" what " | " touched " crates | **" thousands(total) "** |" }

END {
    flush()
    if (wrong) exit 1
    if (roots_said) { reach("named", asked, ""); print_reached("named"); if (missing != "") stop(substr(missing, 2)); exit 0 }
    reach("meaning", "KeepsMeaning cc_emit.lambdas_of", "")
    reach("runs", "KeepsMeaning", "frames PlainLambda")
    reach("accepted", "Accepts", "")
    reach("trees", "Accepts", "limit_passed")
    reach("compiled", "IsImageUnder", "")
    reach("built", "HasBuilt", "")
    reach("top", "cc_command.command_of cc_top.Ends cc_top.Completes outside_of IsReported", "")
    reach("status", "cc_command.command_of BuildEndsUnder outside_of IsReported", "IsRefused WasCompiled")
    reach("kept", "FileKeeps", "")
    machine = "rv_isa elf_file rv_machine"
    source = "val_core c_type c_typed c_mean"
    # how runs are compared: what is of neither side, and of the shared values what the comparison itself cites
    for (u = 1; u <= units; u++) {
        c = crate_of[file_of[u]]
        if (("runs", u) in reached && !index(" " machine " " source " ", " " c " ")) reached["compared", u] = 1
        if (("kept", u) in reached && c == "val_core") reached["compared", u] = 1
    }
    print "| Step | Question | Lines by crate, and by file of `specs/` | Sum |"
    print "|---|---|---|---|"
    tally("status", "built", "", ""); row(0, "how does status 0 of `build` lead to `HasBuilt`: arguments, outcomes, report, files", 1)
    tally("compared", "", "", ""); row(1, "how are runs compared", 2)
    tally("runs", "", machine, ""); row(2, "what is the machine", 2)
    tally("runs", "compared", source, ""); row(3, "what does a program of C do", 2)
    tally("meaning", "runs", "", ""); row(4, "what is a frame, for the stack's bound alone", 1)
    tally("meaning", "", "", ""); sum_row("meaning", ": `KeepsMeaning`, and `lambdas_of`, which gives it its lambdas")
    tally("trees", "", "", ""); row(5, "which program is a source", 1)
    tally("accepted", "trees", "", ""); row(6, "what are limits 5 and 6, which count the built graph", 1)
    tally("accepted", "", "", ""); sum_row("accepted", ": `Accepts`")
    tally("compiled", "", "", ""); row(7, "which bytes are the image: the recipe and its answers, the graph, the layout", 0)
    sum_row("compiled", ": `IsImageUnder`")
    tally("built", "", "", ""); sum_row("HasBuilt", ", each line once")
    tally("top", "", "", ""); sum_row("top", ", all that its two clauses cite")
    if (missing != "") stop(substr(missing, 2))
    types_tally("built")
    print "| | beside them: " type_count " Rust types that `HasBuilt` names (`Instr` has " type_lines("rv_isa instruction Instr") "), and " kits["built"] " names of the kit\047s library | | " thousands(type_total) " |"
}
AWK

# In a shell of its own: names of files are divided by line ends alone.
reach() (
    set -f
    IFS='
'
    LC_ALL=C awk -v asked="$1" -v roots_said="${2:-}" -f "$folder/reach.awk" $(cat "$folder/files")
)
case ${1:-} in
    '' | --write) ;;
    *) reach "$*" yes; exit $? ;;
esac
reach '' >"$folder/table" || fail "$(tail -n 1 "$folder/table")"
awk -v begin="$begin" -v end="$end" '
    $0 == begin && !at { at = FNR }
    at && $0 == end { found = 1; exit }
    END { if (!found) print at ? at ": no line " end " follows" : FNR ": no line is " begin }
' $page >"$folder/lacks"
[ ! -s "$folder/lacks" ] || fail "$page:$(cat "$folder/lacks")"
if [ "${1:-}" = --write ]; then
    awk -v begin="$begin" -v end="$end" -v table="$folder/table" '
        $0 == begin { print; print ""; while ((getline line < table) > 0) print line; print ""; within = 1; next }
        $0 == end { within = 0 }
        !within
    ' $page >"$folder/page" && cp "$folder/page" $page
    exit 0
fi
awk -v begin="$begin" -v end="$end" '$0 == begin { within = 1; next } $0 == end { within = 0 } within' $page | sed '1d;$d' >"$folder/written"
diff "$folder/written" "$folder/table" >"$folder/wrong" || {
    line=$(grep -nxF "$begin" $page | cut -d : -f 1)
    number=$(sed -n '1s/^\([0-9]*\).*/\1/p' "$folder/wrong")
    fail "$page:$((line + 1 + number)): the table is stale: $(sed -n '/^>/{s/^> //p;q;}' "$folder/wrong") (read.sh --write)"
}
echo "$script: the table of $page is what the definitions reach"
