#!/bin/sh
# program.sh NAME: prints the path of the program NAME, `rvcc` or `rvcc-view`, that the sources of this checkout give; `program.sh NAME
# run WORDS..` runs it with these words. That is the one that was built here, where no code of any crate is newer; else the shipped one,
# where its sums say that it is whole and made of these sources, and it starts; else it is proved and built first, which takes long:
# standard error says how far that is. What a line in error says goes to standard error. Without a name it does nothing.
set -u
[ $# -gt 0 ] || exit 0
case $0 in */*) top=${0%/*}/.. ;; *) top=.. ;; esac
name=$1
case $name in
    rvcc) crate=cc_main ;;
    rvcc-view) crate=cc_view_main ;;
    *) echo "tools/program.sh: there is no program $name" >&2; exit 1 ;;
esac
built=crates/$crate/out/$crate
shipped=bin/$name

say() {
    echo "$name: $1" >&2
}

# The first of the code, or of the files behind the test, that passes a test of `find`, or what `find` says of a fault: of the code alone,
# since specs and proofs change no byte of a program. It ends the shell, so it stands in a substitution.
found() {
    test=$1 than=$2
    shift 2
    exec find "$top"/crates/*/src "$top/crates.txt" "$top/HANDLES" "$@" "$test" "$than" -print -quit 2>&1
}

# The first source of the program's own crates that is newer than a file.
newer() {
    find $(sh tools/below $crate | sed 's,.*,crates/&/src crates/&/specs crates/&/proofs,') crates.txt HANDLES -type f -newer "$1" -print 2>/dev/null | head -n 1
}

sum() {
    sha256sum | cut -d ' ' -f 1
}

# Why the shipped program does not start here, told by what it does without input and with a word that is no command: a program that
# starts prints its usage.
starts() {
    given=$($shipped usage </dev/null 2>&1 >/dev/null)
    status=$?
    case $given in "usage: $name "*) return 0 ;; esac
    system="$(uname -s) $(uname -m)"
    if [ "$system" != 'Linux x86_64' ]; then
        say "$shipped is a program for Linux on x86-64, and this is $system: use it on such a machine"
    elif [ $status -eq 126 ]; then
        say "$shipped may not be run: chmod +x $shipped, and keep it where programs may run (no mount with noexec)"
    elif [ $status -eq 127 ]; then
        say "$shipped needs the GNU C library, which is not here: use a Linux that has it, from 2.34 on (Debian 12, Ubuntu 22.04)"
    else
        case $given in
            *GLIBC_*)
                wanted=$(printf '%s\n' "$given" | grep -o 'GLIBC_[0-9.]*' | sort -t . -k 2n | tail -n 1)
                say "$shipped needs the GNU C library ${wanted#GLIBC_}, and this is $(getconf GNU_LIBC_VERSION 2>/dev/null || echo another): use a newer system (Debian 12, Ubuntu 22.04)"
                ;;
            *) say "$shipped does not start (status $status): $given" ;;
        esac
    fi
    return 1
}

# Whether the shipped program is whole, of these sources, and starts. A stamp, newer than what it was found of, says so from then on.
is_of_these() {
    [ -e $shipped ] && [ -e $shipped.sum ] || { say "$shipped or $shipped.sum is not there: get them anew (git checkout bin)"; return 1; }
    { mkdir -p "${stamp%/*}" && : >"$stamp.$$"; } 2>/dev/null
    if [ "$(sum <$shipped)" != "$(sed -n 's/^program //p' $shipped.sum)" ]; then
        say "$shipped is damaged, its sum is not that of $shipped.sum: get it anew (git checkout $shipped $shipped.sum)"
    elif [ "$(sh tools/sources $crate)" != "$(sed -n 's/^sources //p' $shipped.sum)" ]; then
        say "$shipped is of other sources than those of crates/: take those back (git status crates), or build it by rt of the Rattle kit"
    elif starts; then
        mv "$stamp.$$" "$stamp" 2>/dev/null
        return 0
    fi
    rm -f "$stamp.$$"
    return 1
}

# What is left to do by the prices of crates (docs/prices.tsv) and the rate so far, for each crate that is done.
progress() {
    awk -v crates="$(sh tools/below $crate | tr '\n' ' ')" -v name="$name" -v began="$(date +%s)" '
        function now(t) { "date +%s" | getline t; close("date +%s"); return t }
        FILENAME != "-" { price[$1] = $2; next }
        !ready { ready = 1; count = split(crates, names, " "); for (i = 1; i <= count; i++) { here[names[i]] = 1; left += (names[i] in price ? price[names[i]] : 60) } }
        /^rt: [a-z_0-9]* (proved$|is kept)/ && ($2 in here) && !told[$2]++ {
            each = $2 in price ? price[$2] : 60
            done++; left -= each
            if ($3 == "proved") paid += each
            line = name ": " done " of " count " crates, " $2
            if (paid > 0) line = line "; about " int(left * (now() - began) / paid / 60 + 1) " minutes left"
            print line
            fflush()
        }
    ' docs/prices.tsv - >&2
}

build() {
    command -v rt >/dev/null 2>&1 || { say 'no rt is here that could build the program instead'; return 1; }
    mkdir -p crates/$crate/out 2>/dev/null && [ -w crates/$crate/out ] || { say 'the program cannot be built, since this checkout cannot be written'; return 1; }
    say 'the program is proved and built first'
    part=$(sh tools/part.sh $crate) || return 1
    log=$part.log
    trap 'rm -rf "$part" "$log"; exit 1' INT TERM HUP
    (cd "$part" && rt ci) 2>&1 | tee "$log" | progress
    if ! tail -n 1 "$log" | grep -q ' 0 failed' || [ ! -x "$part/$built" ]; then
        tail -n 20 "$log" >&2
        rm -rf "$part"
        say "the program could not be built; the log is $log"
        return 1
    fi
    # Another run may take the program meanwhile, so it is made apart.
    cp "$part/$built" $built.$$ && mv $built.$$ $built || { rm -rf "$part" $built.$$; return 1; }
    rm -rf "$part" "$log"
}

# The program, when code is newer than what was found before.
choose() (
    cd "$top" || exit 1
    if [ -x $built ] && [ -z "$(newer $built)" ]; then
        echo $built
    elif is_of_these; then
        echo $shipped
    else
        build && touch $built && echo $built
    fi
)

# The stamp stands in the checkout, or in the user's cache where that cannot be written.
stamp=$top/out/$name.shipped
[ -w "$top/out" ] || { [ ! -e "$top/out" ] && [ -w "$top" ]; } || stamp=${XDG_CACHE_HOME:-${HOME:-}/.cache}/rvcc$(cd "$top" && pwd -P)/$name.shipped
if [ -x "$top/$built" ] && [ -z "$(found -newer "$top/$built")" ]; then
    program=$built
elif [ -e "$stamp" ] && [ -z "$(found -cnewer "$stamp" "$top/$shipped" "$top/$shipped.sum")" ]; then
    program=$shipped
else
    program=$(choose) || exit 1
fi
if [ "${2:-}" = run ]; then
    shift 2
    exec "$top/$program" "$@"
fi
echo "$(cd "$top" && pwd)/$program"
