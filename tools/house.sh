#!/bin/sh
# Holds the crates against docs/NAMES.md: each name has a prefix and an ending of its tables; a crate of definitions or laws has no
# function that takes an argument and none that allocates or changes; no crate stands on one that its row does not name, none passes on
# another, and none is small and named by one alone, but for those with a reason; and nothing in specs/ and proofs/ is unused
# (tools/dead.py), but for what tools/dead.exceptions lists with a reason. Each file has a head, and no more files of proofs have none
# than had. Paths and names in backquotes in README.md and docs/ are there, the tables of docs/CONTRIBUTING.md have the crates that say
# their sample words, each arrow of the tower of laws is cited, and each definition and law of docs/PROMISES.md is in the crate that its
# row names. `house.sh --try` tries the table of edits that the scripts have to refuse.
set -u
cd "$(dirname "$0")/.." || exit 1
script=tools/house.sh
. tools/lib.sh

# ---- house.sh --try: each edit of the table, made in a copy, has to be refused by the script, with the line, that it names

if [ "${1:-}" = --try ]; then
    # Nothing is built here: where there is no program of these sources, the session's edit is not tried.
    mkdir "$folder/none" && printf '#!/bin/sh\nexit 1\n' >"$folder/none/rt" && chmod +x "$folder/none/rt" || exit 1
    export PATH="$folder/none:$PATH" TMPDIR="$folder"
    has_program=$(sh tools/program.sh rvcc 2>/dev/null)
    copy=$folder/copy
    mkdir "$copy" && find .ci README.md HANDLES bin crates.txt crates docs examples rows rvcc rvcc-view tools -path '*/out' -prune -o -type f -print \
        | tr '\n' '\0' | xargs -0 cp -p --parents -t "$copy" || fail 'there is no room for a copy'
    # With the times of its sources, so that it is taken in the copy too.
    built=crates/cc_main/out/cc_main
    [ ! -x $built ] || cp -p --parents -t "$copy" $built || fail 'there is no room for a copy'
    (cd "$copy" && sh tools/map.sh --write && sh tools/read.sh --write) || fail 'the copy is refused before an edit'
    # script, file, an edit of sed, and what the refusal says
    tried=0
    while IFS='@' read -r by file edit says; do
        if [ "$by" = session ] && [ -z "$has_program" ]; then
            echo "$script: the edit of the session is not tried, there is no program of these sources"
            continue
        fi
        cp -p "$copy/$file" "$folder/kept"
        sed "$edit" "$folder/kept" >"$copy/$file"
        cmp -s "$folder/kept" "$copy/$file" && fail "the edit of $file changes nothing: $edit"
        said=$(cd "$copy" && sh "tools/$by.sh" 2>&1) && fail "tools/$by.sh does not refuse: $file, $edit"
        printf '%s\n' "$said" | grep -q "$says" || fail "tools/$by.sh refuses otherwise: $said"
        cp -p "$folder/kept" "$copy/$file"
        tried=$((tried + 1))
    done <<'EDITS'
session@README.md@s/before 219/before 218/@README.md:[0-9]*: the session differs at: ./rvcc build examples/squares.c
map@crates.txt@/^r_cne:/s/$/ r_walk/@docs/ARCHITECTURE.md:[0-9]*: the row of `r_cne` is stale
map@crates/board_core/src/lib.rt@s,^//! Always: ,//! ,@docs/ARCHITECTURE.md:[0-9]*: the row of `board_core` is stale
house@docs/NAMES.md@/^| `rv_`, /d@crates.txt:[0-9]*: rv_isa has no prefix of docs/NAMES.md
house@docs/NAMES.md@s/ lock,//@crates.txt:[0-9]*: board_lock has an ending that docs/NAMES.md does not list
house@crates.txt@/^r_cne:/s/$/ board_core/@crates.txt:[0-9]*: r_cne stands on board_core, which its row of docs/NAMES.md does not name
house@crates/g_build_keeps/src/formation_laws.rt@s/fn formed_is_well_formed()/fn formed_is_well_formed(n: u32)/@g_build_keeps has a function that takes an argument
house@crates/base/src/lib.rt@1s/[.]$/, with the names by which the crates above know it, and with what it is that each of them counts./@crates/base/src/lib.rt:1: the first sentence is longer than 110 characters
house@tools/house.sh@s/^most_bare=.*/most_bare=1/@files of proofs begin with no comment
house@tools/house.sh@s/^most_read=.*/most_read=1/@crates.txt: by the paths of libraries a gate reads [0-9]* files
house@crates/cc_top/src/lib.rt@$a pub use cc_session;@crates/cc_top/src/lib.rt:[0-9]*: it passes on the crate cc_session
house@crates/cc_top/specs/Lib.antt@$a pub use Rattle.cc_session.specs@crates/cc_top/specs/Lib.antt:[0-9]*: it passes on Rattle.cc_session.specs
house@tools/house.sh@/^a_place_keeps: /d@crates.txt:[0-9]*: a_place_keeps has [0-9]* lines of code, and cc_emit alone names it
house@docs/CONTRIBUTING.md@/^| `cc_view` | `proofs.Bounds/d@docs/CONTRIBUTING.md:[0-9]*: the table lacks cc_view, which says PtrEq
house@docs/CONTRIBUTING.md@/^| `cc_source` | `proofs.FewGroups/s/cc_source/cc_emit/@docs/CONTRIBUTING.md:[0-9]*: there is no proofs/FewGroups
house@crates/g_build_count/proofs/HasExpressions.antt@s/Complement/Opposite/g@docs/CONTRIBUTING.md:[0-9]*: the table has g_build_count, which does not say Complement|Tilde
house@crates/c_interp/src/lib.rt@$a // Of BadJump nothing is known here.@docs/CONTRIBUTING.md:[0-9]*: the table lacks c_interp, which says BadJump
house@crates/rv_layout/src/lib.rt@$a // Cne@docs/CONTRIBUTING.md:[0-9]*: the table lacks rv_layout, which says Cne|rule_place
house@docs/CONTRIBUTING.md@s,^| `c_check_statement` | `src/loops.rt`,| `c_check_statement` | `src/functions.rt`,@docs/CONTRIBUTING.md:[0-9]*: there is no src/functions.rt
house@docs/GLOSSARY.md@s/`Exi\(ted\)`/`Exo\1`/@docs/GLOSSARY.md:[0-9]*: no file of the crates has Exo
house@docs/ARCHITECTURE.md@s/images_keep_meaning| cc_source/a_lost_law| cc_source/@docs/ARCHITECTURE.md:[0-9]*: cc_emit has no law a_lost_law
house@docs/ARCHITECTURE.md@s/globals_are_shown| cc_emit/globals_are_shown| cc_top/@docs/ARCHITECTURE.md:[0-9]*: cc_top does not cite globals_are_shown
read@docs/THEOREM.md@/\*\*`meaning`/s/\*\*[0-9,]*\*\*/**1,555**/@docs/THEOREM.md:[0-9]*: the table is stale
EDITS
    echo "$script: $tried edits are refused"
    exit 0
fi

# ---- names: the prefixes and endings in backquotes in the first cells of the two tables, the parts in the list, and fixed names

cells() {
    sed -n "/^## $1\$/,/^## /p" docs/NAMES.md | grep '^| ' | sed '1d' | cut -d '|' -f 2 | grep -o '`[a-z_]*`' | tr -d '`'
}
cells Prefixes >"$folder/prefixes"
cells Endings | grep '^_' >"$folder/endings"
sed -n '/^## Endings$/,/^Parts: /p' docs/NAMES.md | grep -v '^|' | grep -o '`[a-z_]*`' | tr -d '`' >"$folder/fixed"
sed -n '/^Parts: /,/^$/{s/^Parts://;p;}' docs/NAMES.md | tr -cs 'a-z0-9' '\n' | sed -n 's/^./_&/p' >"$folder/parts"
[ -s "$folder/prefixes" ] && [ -s "$folder/endings" ] && [ -s "$folder/parts" ] || fail 'docs/NAMES.md has no table of prefixes, none of endings, or no list of parts'
sed -n 's/^\([a-z][a-z0-9_]*\).*:\(.*\)/\1\2/p' crates.txt >"$folder/crates"

# The line of a crate in crates.txt.
line_of() {
    grep -n "^$1[: ]" crates.txt | cut -d : -f 1
}
while read -r crate rest; do
    [ -d "crates/$crate" ] || fail "crates.txt:$(line_of "$crate"): $crate has no folder"
    found=
    while read -r prefix; do
        case $crate in "$prefix" | "$prefix"*_*) found=yes ;; "$prefix"*) case $prefix in *_) found=yes ;; esac ;; esac
    done <"$folder/prefixes"
    [ -n "$found" ] || fail "crates.txt:$(line_of "$crate"): $crate has no prefix of docs/NAMES.md"
    grep -qx "$crate" "$folder/prefixes" "$folder/fixed" || grep -qx "_${crate##*_}" "$folder/endings" "$folder/parts" \
        || fail "crates.txt:$(line_of "$crate"): $crate has an ending that docs/NAMES.md does not list"
done <"$folder/crates"
for path in crates/*/; do
    crate=$(basename "$path")
    grep -q "^$crate\( \|\$\)" "$folder/crates" || fail "crates/$crate has no line in crates.txt"
done

# ---- roles: nothing runs in a crate of definitions or laws

for path in crates/*_def/ crates/*_laws/ crates/*_keeps/; do
    crate=$(basename "$path")
    wrong=$(grep -nE '\bfn [a-z0-9_]+(<[^>]*>)?\(([^)]|$)' "$path"src/*.rt "$path"src/*/*.rt 2>/dev/null | head -n 1)
    [ -z "$wrong" ] || fail "$crate has a function that takes an argument: $wrong"
    wrong=$(sed 's,//.*,,' "$path"src/*.rt "$path"src/*/*.rt 2>/dev/null | grep -E '\balloc\b|&mut' | head -n 1)
    [ -z "$wrong" ] || fail "$crate allocates or changes: $wrong"
done

# ---- paths: for its stamps `rt ci` reads a library's files, and for each path that leads from it to another library those of that one

most_read=6000000
find crates/*/src crates/*/specs crates/*/proofs -type f 2>/dev/null | cut -d / -f 2 | sort | uniq -c >"$folder/files"
for path in crates/*/src/main.rt; do path=${path#crates/}; echo "program ${path%%/*}"; done >"$folder/programs"
read_files=$(awk '
    FILENAME == ARGV[1] { files[$2] = $1; next }
    FILENAME == ARGV[2] { program[$2] = 1; next }
    { sum = files[$1] + 6; for (i = 2; i <= NF; i++) sum += read[$i]; read[$1] = sum; if (!($1 in program)) all += sum }
    END { printf "%d", all }
' "$folder/files" "$folder/programs" "$folder/crates")
[ "$read_files" -le $most_read ] || fail "crates.txt: by the paths of libraries a gate reads $read_files files for a round of stamps, more than $most_read: name what is used alone, and let few crates stand between"

# ---- passing on: each name is written by the crate where it stands

find crates -path '*/out' -prune -o \( -path '*/src/*.rt' -o -name Lib.antt \) -print | LC_ALL=C sort | tr '\n' '\0' | xargs -0 awk -v known="$folder/crates" '
    BEGIN { while ((getline line < known) > 0) { sub(/ .*/, "", line); crate[line] = 1 } }
    /^ *pub use / {
        word = $0; sub(/^ *pub use /, "", word)
        if (FILENAME ~ /[.]antt$/) { if (word ~ /^Rattle[.]/) print FILENAME ":" FNR ": it passes on " word; next }
        if (word !~ /^[a-z0-9_]+(::[*])?( as [a-z0-9_]+)?;/) next
        sub(/[^a-z0-9_].*/, "", word)
        if (word in crate) print FILENAME ":" FNR ": it passes on the crate " word
    }
' >"$folder/wrong" && [ ! -s "$folder/wrong" ] || fail "$(head -n 3 "$folder/wrong")"

# ---- small crates: one that a single crate names, and that has under 150 lines of code, is a part of it, but for these

cat >"$folder/apart" <<'REASONS'
a_place_keeps: its laws are of the places of both allocators, and dear to prove
REASONS
find crates/*/src -type f -name '*.rt' -print | tr '\n' '\0' | xargs -0 awk '/[^ \t]/ { split(FILENAME, at, "/"); lines[at[2]]++ } END { for (name in lines) print name, lines[name] }' >"$folder/lines"
awk -v apart="$folder/apart" -v counts="$folder/lines" '
    BEGIN {
        while ((getline line < apart) > 0) { sub(/:.*/, "", line); reason[line] = 1 }
        while ((getline line < counts) > 0) { split(line, part, / /); lines[part[1]] = part[2] }
    }
    { for (i = 2; i <= NF; i++) { names[$i]++; by[$i] = $1 }; order[++count] = $1 }
    END {
        for (i = 1; i <= count; i++) {
            name = order[i]; small = names[name] == 1 && lines[name] < 150
            if (small && !(name in reason)) { print name " has " lines[name] + 0 " lines of code, and " by[name] " alone names it: make it a part of that"; exit 1 }
            if (!small && (name in reason)) { print name " needs no reason to stand apart"; exit 1 }
        }
    }
' "$folder/crates" >"$folder/wrong" || fail "crates.txt:$(line_of "$(cut -d ' ' -f 1 "$folder/wrong")"): $(cat "$folder/wrong")"

# ---- edges: what a crate may stand on, by the rows of the prefixes, and by its ending

# a row's number, and a prefix of it or, after `may`, what it may name
sed -n '/^## Prefixes$/,/^## /p' docs/NAMES.md | awk -F '|' '
    /^\| `/ {
        row++
        n = split($2, words, "`"); for (i = 2; i <= n; i += 2) print row, words[i]
        n = split($4, words, "`"); for (i = 2; i <= n; i += 2) print row, "may", words[i]
        if ($4 ~ /^ *all *$/) print row, "may", "all"
    }
' >"$folder/rows"
awk '
    function is_test(name) { return name ~ /_(tests|rows)$/ }
    function begins(name, prefix) { return name == prefix || (prefix ~ /_$/ && index(name, prefix) == 1) }
    function row_of(name,  i) { for (i = 1; i <= prefixes; i++) if (begins(name, prefix[i])) return row[i]; return 0 }
    function may_name(r, name,  i) {
        if (row_of(name) == 0 || row_of(name) == 1 || row_of(name) == r) return 1
        for (i = 1; i <= mays; i++) if (may_row[i] == r && (may[i] == "all" || begins(name, may[i]))) return 1
        return 0
    }
    FNR == NR { if ($2 == "may") { may[++mays] = $3; may_row[mays] = $1 } else { prefix[++prefixes] = $2; row[prefixes] = $1 }; next }
    {
        for (i = 2; i <= NF; i++) {
            if (!is_test($1) && !may_name(row_of($1), $i)) { print $1 " stands on " $i ", which its row of docs/NAMES.md does not name"; exit 1 }
            wrong = ""
            if ($1 ~ /_def$/ && $i ~ /_keeps$/) wrong = "a definition"
            if (is_test($i) && !is_test($1)) wrong = "code"
            if (wrong != "") { print $1 " stands on " $i ", which " wrong " must not"; exit 1 }
        }
    }
' "$folder/rows" "$folder/crates" >"$folder/wrong" || fail "crates.txt:$(line_of "$(cut -d ' ' -f 1 "$folder/wrong")"): $(cat "$folder/wrong")"

# ---- heads: what each file says first, the first sentence of a root's head in at most 110 characters

find crates -path '*/out' -prune -o \( -path '*/src/*.rt' -o -path '*/specs/*.antt' ! -name Lib.antt \) -print | LC_ALL=C sort >"$folder/headed"
tr '\n' '\0' <"$folder/headed" | xargs -0 awk '
    FNR == 1 && FILENAME ~ /\.rt$/ && !/^\/\/!/ { print FILENAME ":1: no head (//!)"; next }
    FNR == 1 && FILENAME ~ /\.antt$/ && !/^-- / { print FILENAME ":1: no head (-- )" }
' >"$folder/wrong" && [ ! -s "$folder/wrong" ] || fail "$(head -n 3 "$folder/wrong")"
grep -E '^crates/[a-z0-9_]*/src/(lib|main)[.]rt$' "$folder/headed" | tr '\n' '\0' | xargs -0 awk '
    function look() { if (match(text, /\.( |$)/) > 110) print file ":1: the first sentence is longer than 110 characters" }
    FNR == 1 { look(); file = FILENAME; text = ""; within = 1 }
    !/^\/\/!/ { within = 0 }
    within { sub(/^\/\/! ?/, ""); text = text (text == "" ? "" : " ") $0 }
    END { look() }
' >"$folder/wrong" && [ ! -s "$folder/wrong" ] || fail "$(head -n 3 "$folder/wrong")"

# Files of proofs that begin with no comment: there may be no more than there were.
most_bare=374
bare=$(find crates -path '*/out' -prune -o -path '*/proofs/*.antt' ! -name Lib.antt ! -name Answers.antt -print | tr '\n' '\0' \
    | xargs -0 awk 'FNR == 1 && !/^--/' | wc -l)
[ "$bare" -le $most_bare ] || fail "$bare files of proofs begin with no comment, where $most_bare did: give the new ones a first line (-- )"

# ---- paths of the documents: a word in backquotes that has a slash and a folder of the repository, or a crate, before it; one that
# begins with src, specs or proofs is of a crate that the first cell of its row names, or, where that names none, of any crate

# file and line, the word, and the words in backquotes in the first cell
awk '
    FNR == 1 { fenced = 0 }
    /^```/ { fenced = !fenced; next }
    fenced { next }
    {
        row = ""
        if (/^\| `/) { split($0, cells, "|"); n = split(cells[2], parts, "`"); for (i = 2; i <= n; i += 2) row = row " " parts[i] }
        n = split($0, parts, "`")
        for (i = 2; i <= n; i += 2) if (parts[i] ~ /^[A-Za-z0-9_.*\/:+]+$/) print FILENAME ":" FNR ": " parts[i] row
    }
' README.md docs/*.md >"$folder/words"
sed -n 's/^\([a-z][a-z0-9_]*\).*/\1/p' crates.txt >"$folder/known"
find .ci README.md crates docs examples rows tools -path '*/out' -prune -o -print >"$folder/files"
awk -v files="$folder/files" -v known="$folder/known" '
    BEGIN {
        while ((getline line < files) > 0) {
            there[line] = 1; file[++count] = line
            if (line ~ /^crates\/[^\/]*\/(src|specs|proofs)\//) { sub(/^crates\/[^\/]*\//, "", line); tail[line] = 1; sub(/\.(rt|antt)$/, "", line); tail[line] = 1 }
        }
        while ((getline line < known) > 0) crate[line] = 1
    }
    function matches(path,  regex, i) {
        sub(/\/$/, "", path)
        if (path in there) return 1
        if (path !~ /\*/) return 0
        regex = path; gsub(/\./, "[.]", regex); gsub(/\*/, "[^/]*", regex); regex = "^" regex "$"
        for (i = 1; i <= count; i++) if (file[i] ~ regex) return 1
        return 0
    }
    {
        word = $2
        if (word ~ /NAME/ || word ~ /^bin\//) next
        if (word ~ /^[a-z0-9_]+\.sh$/) { if (!matches("tools/" word)) print $1 " there is no tools/" word; next }
        if (word !~ /\//) next
        first = word; sub(/\/.*/, "", first)
        if (first ~ /^(src|specs|proofs)$/) {
            sub(/\/$/, "", word)
            if (word == first || word ~ /\.\.|\/[Xx]([A-Z.]|$)/) next
            named = 0; found = 0
            for (i = 3; i <= NF; i++) if ($i in crate) {
                named = 1; path = "crates/" $i "/" word
                if ((path in there) || ((path ".rt") in there) || ((path ".antt") in there)) found = 1
            }
            if (named ? !found : !(word in tail)) print $1 " there is no " word
            next
        }
        if (first in crate) word = "crates/" word
        else if (first !~ /^(crates|docs|tools|examples|rows|\.ci)$/) next
        if (!matches(word)) print $1 " there is no " $2
    }
' "$folder/words" >"$folder/wrong" && [ ! -s "$folder/wrong" ] || fail "$(head -n 3 "$folder/wrong")"

# ---- lists of CONTRIBUTING.md: the crates of the table after a line of sample words are those that say one of them

awk '
    /^Sample words: / {
        n = split($0, parts, "`"); words = ""; within = 1
        for (i = 2; i <= n; i += 2) words = words (words == "" ? "" : "|") parts[i]
        at = FNR; next
    }
    within && /^\| `/ { split($0, cells, "|"); n = split(cells[2], parts, "`"); for (i = 2; i <= n; i += 2) print at, words, parts[i]; begun = 1 }
    begun && !/^\|/ { within = 0; begun = 0 }
' docs/CONTRIBUTING.md >"$folder/samples"
[ -s "$folder/samples" ] || fail 'docs/CONTRIBUTING.md has no table after a line of sample words'
find crates/*/src crates/*/specs crates/*/proofs -type f \( -name '*.rt' -o -name '*.antt' \) -print 2>/dev/null | tr '\n' '\0' >"$folder/texts"
cut -d ' ' -f 1,2 "$folder/samples" | uniq >"$folder/lists"
while read -r at words; do
    xargs -0 grep -lwE "$words" <"$folder/texts" | cut -d / -f 2 | LC_ALL=C sort -u >"$folder/say"
    awk -v at="$at" '$1 == at { print $3 }' "$folder/samples" | LC_ALL=C sort -u >"$folder/listed"
    wrong=$(LC_ALL=C comm -23 "$folder/say" "$folder/listed" | head -n 1)
    [ -z "$wrong" ] || fail "docs/CONTRIBUTING.md:$at: the table lacks $wrong, which says $words"
    wrong=$(LC_ALL=C comm -13 "$folder/say" "$folder/listed" | head -n 1)
    [ -z "$wrong" ] || fail "docs/CONTRIBUTING.md:$at: the table has $wrong, which does not say $words"
done <"$folder/lists"

# ---- names: a word, or each of those that `::` joins, is a crate, or a name that the crates have

awk -v known="$folder/known" '
    BEGIN { while ((getline line < known) > 0) crate[line] = 1 }
    $2 ~ /^[A-Za-z0-9_:]+$/ {
        n = split($2, parts, "::")
        for (i = 1; i <= n; i++) if (parts[i] ~ /^[A-Za-z][A-Za-z0-9_]*[A-Za-z0-9]$/ && !(parts[i] in crate)) print $1, parts[i]
    }
' "$folder/words" >"$folder/asked"
{
    find crates -path '*/out' -prune -o \( -name '*.rt' -o -name '*.antt' -o -name '*.edit' \) -print | tr '\n' '\0' | xargs -0 cat
    cat docs/prices.tsv tools/* rows/*.py
    find front examples -type f \( -name '*.[chsi]' -o -name '*.in' -o -name '*.py' -o -name '*.tsv' \) -print | tr '\n' '\0' | xargs -0 cat
    sed 's,.*/,,; s,[.][a-z]*$,,' "$folder/files"
    sed -n 's/^row \([a-z_0-9]*\).*/\1/p' crates/*/stdin
} | LC_ALL=C tr -cs 'A-Za-z0-9_' '\n' | LC_ALL=C sort -u >"$folder/there"
awk -v list="$folder/there" '
    BEGIN { while ((getline line < list) > 0) there[line] = 1 }
    $2 ~ /^X_|NAME$|^(transf_c_program_preservation|compile_correct|stage1|EOF)$/ { next }
    !($2 in there) { print $1 " no file of the crates has " $2 }
' "$folder/asked" >"$folder/wrong" && [ ! -s "$folder/wrong" ] || fail "$(head -n 3 "$folder/wrong")"

# ---- arrows of the tower of laws: the lower crate has the law, and the upper one cites it

awk '
    /^flowchart BT/ { within = 1; next }
    /^```/ { within = 0 }
    within && /-->/ {
        line = $0; sub(/^ */, "", line)
        lower = line; sub(/ *-->.*/, "", lower); if (match(lower, /\["/)) { lower = substr(lower, RSTART + 2); sub(/"\].*/, "", lower) }
        laws = line; sub(/^[^|]*-->\|/, "", laws); upper = laws; sub(/\|.*/, "", laws); sub(/^[^|]*\| */, "", upper)
        gsub(/,/, "", laws); gsub(/&/, "", upper)
        n = split(lower, ls, / +/); m = split(laws, names, / +/); k = split(upper, us, / +/)
        for (i = 1; i <= n; i++) for (j = 1; j <= m; j++) for (l = 1; l <= k; l++) print FNR, ls[i], names[j], us[l]
    }
' docs/ARCHITECTURE.md >"$folder/arrows"
[ -s "$folder/arrows" ] || fail 'docs/ARCHITECTURE.md has no tower of laws'
# ---- definitions and laws of PROMISES.md: each is in the crate that its row names

awk -v known="$folder/known" '
    BEGIN { while ((getline line < known) > 0) crate[line] = 1 }
    /^## / { within = 0 }
    /^\| Promise \| Definition \|/ { within = 1; next }
    within && /^\| / && !/^\|---/ {
        split($0, cells, "|")
        all = ""
        n = split(cells[3], parts, "`"); last = ""
        for (i = 2; i <= n; i += 2) {
            if (parts[i] in crate) { last = parts[i]; all = all " " last }
            else print FNR, "specs", parts[i], last
        }
        n = split(cells[5], parts, "`"); last = ""
        for (i = 2; i <= n; i += 2) {
            if (parts[i] in crate) last = parts[i]
            else if (parts[i] ~ /^(laws|[a-z]+_laws|laws::[a-z]+)$/ || parts[i] ~ /\//) continue
            else print FNR, "law", parts[i], (last == "" ? all : last)
        }
    }
' docs/PROMISES.md >"$folder/promised"
[ -s "$folder/promised" ] || fail 'docs/PROMISES.md has no table of promises'
find crates -path '*/out' -prune -o \( -path '*/src/*.rt' -o -path '*/specs/*.antt' \) -print | LC_ALL=C sort | tr '\n' '\0' | LC_ALL=C xargs -0 awk -v arrows="$folder/arrows" -v promised="$folder/promised" '
    BEGIN {
        while ((getline line < arrows) > 0) {
            split(line, part, / /); arrow[++arrow_count] = line
            if (!(part[3] in wanted)) { wanted[part[3]] = 1; law[++laws] = part[3]; stem[laws] = part[3]; sub(/^X/, "", stem[laws]) }
        }
    }
    FNR == 1 { split(FILENAME, at, "/"); crate = at[2]; if (at[3] == "specs") { name = at[4]; sub(/\.antt$/, "", name); spec[crate, name] = 1 } }
    at[3] == "src" {
        if (match($0, /fn [a-z_0-9]+/)) {
            name = substr($0, RSTART + 3, RLENGTH - 3); has[crate, name] = 1
            if (match(name, /_keeps_meaning$/)) { has[crate, "X_keeps_meaning"] = 1; meant[crate] = name }
        }
        for (i = 1; i <= laws; i++) if (index($0, stem[i])) {
            n = split($0, words, /[^a-z_0-9]+/)
            for (j = 1; j <= n; j++) cited[crate, words[j]] = 1
        }
        next
    }
    /^ *(abbrev|unfoldable|pub) / {
        n = split($0, words, / +/)
        for (i = 1; i <= n && i < 6; i++) if (words[i] != "" && words[i] !~ /^(abbrev|unfoldable|pub|record|data)$/) { spec[crate, words[i]] = 1; break }
    }
    END {
        for (i = 1; i <= arrow_count; i++) {
            split(arrow[i], part, / /)
            if (!((part[2], part[3]) in has)) { print "docs/ARCHITECTURE.md:" part[1] ": " part[2] " has no law " part[3]; continue }
            name = part[3] == "X_keeps_meaning" ? meant[part[2]] : part[3]
            if (!((part[4], name) in cited)) print "docs/ARCHITECTURE.md:" part[1] ": " part[4] " does not cite " name " of " part[2]
        }
        while ((getline line < promised) > 0) {
            n = split(line, part, / +/); found = 0
            for (i = 4; i <= n; i++) if (part[2] == "law" ? ((part[i], part[3]) in has) : ((part[i], part[3]) in spec)) found = 1
            if (!found) { where = line; sub(/^[^ ]* [^ ]* [^ ]* */, "", where); print "docs/PROMISES.md:" part[1] ": no " part[3] " in " (where == "" ? "any crate of its row" : where) }
        }
    }
' >"$folder/wrong" && [ ! -s "$folder/wrong" ] || fail "$(head -n 3 "$folder/wrong")"

# ---- what nothing uses

if command -v python3 >/dev/null 2>&1; then
    PYTHONDONTWRITEBYTECODE=1 python3 tools/dead.py --all names imports | sed -n 's/^   \([^ :]*\):[0-9]* /\1 /p' >"$folder/dead"
    grep -v '^#' tools/dead.exceptions | cut -f 1 >"$folder/excepted"
    wrong=$(grep -vxFf "$folder/excepted" "$folder/dead" | head -n 3)
    [ -z "$wrong" ] || fail "nothing uses: $wrong"
else
    echo "$script: tools/dead.py skipped, python3 is not installed"
fi
echo "$script: the names, roles and edges of $(wc -l <"$folder/crates") crates are as docs/NAMES.md says"
