#!/bin/sh
# Holds the tables of crates in docs/ARCHITECTURE.md, between the two marks, against the crates: names, the first sentence of each root
# file's head, its sentence that begins `Always:`, what the crate stands on, and lines of code, specs and proofs that are not blank. A
# name, a sentence or an edge must be as it is; a count may be off by a tenth or 50 lines. `map.sh --write` writes the tables.
set -u
cd "$(dirname "$0")/.." || exit 1
script=tools/map.sh
. tools/lib.sh
page=docs/ARCHITECTURE.md

# The files of the crates, each crate's root first.
sed -n 's/^\([a-z][a-z0-9_]*\).*:.*/\1/p' crates.txt >"$folder/names"
while read -r crate; do
    [ -d "crates/$crate" ] || fail "crates.txt:$(grep -n "^$crate[: ]" crates.txt | cut -d : -f 1): $crate has no folder"
    root=crates/$crate/src/lib.rt
    [ -e "$root" ] || root=crates/$crate/src/main.rt
    [ -e "$root" ] || fail "crates/$crate has no root file"
    echo "$root" >&3
    find "crates/$crate/src" "crates/$crate/specs" "crates/$crate/proofs" -type f \( -name '*.rt' -o -name '*.antt' \) ! -path "$root" 2>/dev/null >&3
done <"$folder/names" 3>"$folder/files"

# Crate, sentence, `Always:` sentence, and counts, separated by tabs. Each file is read once; a wrong head ends the script with its
# file and line.
awk '
    function stop(text) { print text; wrong = 1; exit 1 }
    function sentence(s,  at) {
        at = match(s, /\.( |$)/)
        return at ? substr(s, 1, at) : ""
    }
    {
        path = $0; split(path, at, "/"); crate = at[2]; part = at[3]
        is_root = !(crate in first); within = is_root; text = ""; number = 0
        while ((getline line < path) > 0) {
            number++
            if (line ~ /[^ \t\r]/) lines[crate, part]++
            if (!within || line !~ /^\/\/!/) { within = 0; continue }
            sub(/^\/\/! ?/, "", line)
            if (index(line, "|")) stop(path ":" number ": a head has no |")
            text = text (text == "" ? "" : " ") line
        }
        close(path)
        if (!is_root) next
        first[crate] = sentence(text)
        if (first[crate] == "") stop(path ":1: the head has no sentence with a full stop")
        begun = index(text, "Always: ")
        if (begun) { always[crate] = sentence(substr(text, begun + 8)); if (always[crate] == "") stop(path ":1: the sentence after Always: has no full stop") }
        order[++count] = crate
    }
    END {
        if (wrong) exit 1
        for (i = 1; i <= count; i++) {
            crate = order[i]
            print crate "\t" first[crate] "\t" always[crate] "\t" lines[crate, "src"] + 0 "\t" lines[crate, "specs"] + 0 "\t" lines[crate, "proofs"] + 0
        }
    }
' "$folder/files" >"$folder/facts" || fail "$(cat "$folder/facts")"

# The tables: a heading and a table for each comment line of crates.txt that begins a layer (`# Name`), a row for each crate.
awk -F '\t' '
    FNR == NR { purpose[$1] = $2; always[$1] = $3; code[$1] = $4; specs[$1] = $5; proofs[$1] = $6; next }
    /^# [^#]/ { if (FNR > 1) layer[++layers] = substr($0, 3) }
    /^[a-z]/ {
        colon = index($0, ":"); name = substr($0, 1, colon - 1); sub(/ .*/, "", name)
        deps[name] = substr($0, colon + 1); of[name] = layers; order[++count] = name
    }
    function reaches(from, to,  names, n, i) {
        if ((from, to) in known) return known[from, to]
        known[from, to] = 0
        n = split(deps[from], names, " ")
        for (i = 1; i <= n; i++) if (names[i] == to || (names[i] in deps && reaches(names[i], to))) { known[from, to] = 1; break }
        return known[from, to]
    }
    function edges(name,  names, n, i, j, out, reached) {
        n = split(deps[name], names, " ")
        for (i = 1; i <= n; i++) {
            if (!(names[i] in deps)) continue
            reached = 0
            for (j = 1; j <= n; j++) if (j != i && (names[j] in deps) && reaches(names[j], names[i])) reached = 1
            if (!reached) out = out (out == "" ? "" : ", ") "`" names[i] "`"
        }
        return out
    }
    END {
        for (l = 1; l <= layers; l++) {
            printed = 0
            for (i = 1; i <= count; i++) {
                name = order[i]
                if (of[name] != l) continue
                if (!printed++) {
                    if (l > 1) print ""
                    print "### " layer[l] "\n"
                    print "| Crate | What it is for | Always | Stands on | Code | Specs | Proofs |"
                    print "|---|---|---|---|---|---|---|"
                }
                print "| `" name "` | " purpose[name] " | " always[name] " | " edges(name) " | " code[name] " | " specs[name] " | " proofs[name] " |"
                sums[1] += code[name]; sums[2] += specs[name]; sums[3] += proofs[name]
            }
        }
        print ""
        print "Together: " sums[1] " lines of code, " sums[2] " of specs, " sums[3] " of proofs."
    }
' "$folder/facts" crates.txt | sed 's/  *|/ |/g' >"$folder/tables"

begin='<!-- made by tools/map.sh --write -->'
end='<!-- end -->'
awk -v begin="$begin" -v end="$end" '
    $0 == begin && !at { at = FNR }
    at && $0 == end { found = 1; exit }
    END { if (!found) print at ? at ": no line " end " follows" : FNR ": no line is " begin }
' $page >"$folder/lacks"
[ ! -s "$folder/lacks" ] || fail "$page:$(cat "$folder/lacks")"
if [ "${1:-}" = --write ]; then
    awk -v begin="$begin" -v end="$end" -v tables="$folder/tables" '
        $0 == begin { print; print ""; while ((getline line < tables) > 0) print line; print ""; within = 1; next }
        $0 == end { within = 0 }
        !within
    ' $page >"$folder/page" && cp "$folder/page" $page
    exit 0
fi
awk -v begin="$begin" -v end="$end" '$0 == begin { within = 1; next } $0 == end { within = 0 } within' $page | sed '1d;$d' >"$folder/written"
awk -F ' [|] ' -v begun="$(grep -nxF "$begin" $page | head -n 1 | cut -d : -f 1)" '
    function stop(line, text) { print begun + line ": " text; wrong = 1; exit 1 }
    function off(a, b) { a += 0; b += 0; return (a > b ? a - b : b - a) > 50 && (a > b ? a - b : b - a) * 10 > b }
    FNR == NR { if (/^\| `/) { cut = $0; sub(/ \| [0-9]+ \| [0-9]+ \| [0-9]+ \|$/, "", cut); row[$1] = cut; line_of[$1] = FNR + 1; n = split($0, cells, / \| /); for (i = 0; i < 3; i++) count[$1, i] = cells[n - i] } next }
    /^\| `/ {
        cut = $0; sub(/ \| [0-9]+ \| [0-9]+ \| [0-9]+ \|$/, "", cut)
        if (!($1 in row)) stop(0, "there is no row of " substr($1, 3))
        if (row[$1] != cut) stop(line_of[$1], "the row of " substr($1, 3) " is stale: " cut)
        n = split($0, cells, / \| /)
        for (i = 0; i < 3; i++) if (off(count[$1, i], cells[n - i])) stop(line_of[$1], "the counts of " substr($1, 3) " are stale")
        delete line_of[$1]
    }
    END { if (!wrong) for (name in line_of) stop(line_of[name], "there is no crate " substr(name, 3)) }
' "$folder/written" "$folder/tables" >"$folder/wrong" || fail "$page:$(cat "$folder/wrong") (map.sh --write)"
echo "$script: the tables of $page are those of $(wc -l <"$folder/names") crates"
