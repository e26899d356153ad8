#!/bin/sh
# Runs each command under all eight sets of closed descriptors of 0, 1 and 2: it does the same as with all three, but for what comes
# from or goes to a closed one. Then the mode of what is built, that output is there before a program waits and, on a terminal, after
# each line (that needs python3), and that a pipe without a reader is a write fault. Then each call that reads, writes or opens is
# interrupted, in turn, and fails, and each moves one byte: a command is done all the same, or says that it is not; that needs gcc. At
# last an echo of 1,000,000 bytes, in at most 1,000 system calls of each kind; that needs strace.
set -u
cd "$(dirname "$0")/.." || exit 1
script=tools/descriptors.sh
. tools/lib.sh
compiler

cat >"$folder/answer.c" <<'END'
int main(void) { return 42; }
END
cat >"$folder/echo.c" <<'END'
int main(void) { int c; while ((c = getchar()) != -1) putchar(c); return 0; }
END
printf 'a\000b\377' >"$folder/bytes"
"$program" build "$folder/answer.c" "$folder/answer.elf" --recipe none || fail 'answer.c is not built'
[ "$(wc -c <"$folder/answer.elf")" -eq 8200 ] || fail 'the image has not 8,200 bytes'
"$program" build "$folder/answer.c" "$folder/answer.elf" --report count 2>"$folder/count" || fail 'answer.c is not built'
[ "$(wc -c <"$folder/answer.elf")" -eq 8200 ] || fail 'the image under the default recipe has not 8,200 bytes'
"$program" build "$folder/echo.c" "$folder/echo.elf" || fail 'echo.c is not built'
"$program" gen 7 20 "$folder/generated.c" || fail 'no program was generated'

# runs SET INPUT WORDS..: the compiler with these words and this input, without the descriptors of SET. What it writes goes to files.
runs() {
    closed=$1
    input=$2
    shift 2
    : >"$folder/output"
    : >"$folder/report"
    (
        exec <"$input" >"$folder/output" 2>"$folder/report"
        case $closed in *0*) exec <&- ;; esac
        case $closed in *1*) exec >&- ;; esac
        case $closed in *2*) exec 2>&- ;; esac
        exec "$program" "$@"
    )
    status=$?
}

# open NUMBER FILE: prints the file, or nothing where that descriptor is closed.
open() {
    case $closed in
        *$1*) ;;
        *) cat "$2" ;;
    esac
}

# wrote OUTPUT REPORT: what was written is in these files.
wrote() {
    open 1 "$1" >"$folder/wanted"
    cmp -s "$folder/wanted" "$folder/output" || fail "without [$closed] another output: $(head -c 60 "$folder/output")"
    open 2 "$2" >"$folder/wanted"
    cmp -s "$folder/wanted" "$folder/report" || fail "without [$closed] another report: $(head -c 60 "$folder/report")"
}

: >"$folder/nothing"
echo 'accepted 1' >"$folder/accepted"
echo 'refused NoMain 41 line 1' >"$folder/refused"
echo 'exit 0' >"$folder/exit"
sets=0
for closed in '' 0 1 2 01 02 12 012; do
    rm -f "$folder/image.elf" "$folder/text.c"
    runs "$closed" "$folder/bytes" build "$folder/answer.c" "$folder/image.elf" --report count
    [ $status -eq 0 ] || fail "build without [$closed] ended with $status"
    cmp -s "$folder/answer.elf" "$folder/image.elf" || fail "build without [$closed] makes another image"
    wrote "$folder/nothing" "$folder/count"

    runs "$closed" "$folder/bytes" gen 7 20 "$folder/text.c"
    [ $status -eq 0 ] || fail "gen without [$closed] ended with $status"
    cmp -s "$folder/generated.c" "$folder/text.c" || fail "gen without [$closed] writes another text"
    wrote "$folder/nothing" "$folder/nothing"

    runs "$closed" "$folder/bytes" run "$folder/echo.elf"
    [ $status -eq 0 ] || fail "run without [$closed] ended with $status"
    open 0 "$folder/bytes" >"$folder/echoed"
    wrote "$folder/echoed" "$folder/exit"

    runs "$closed" "$folder/answer.c"
    case $closed in
        *0*)
            [ $status -eq 4 ] || fail "no words without [$closed] ended with $status"
            wrote "$folder/nothing" "$folder/refused"
            ;;
        *)
            [ $status -eq 0 ] || fail "no words without [$closed] ended with $status"
            wrote "$folder/accepted" "$folder/nothing"
            ;;
    esac
    sets=$((sets + 1))
done
echo "$script: each command is done without each of $sets sets of descriptors"

# A new image has the mode 0777 less the mask, a new text 0666 less it; an image that was there can be executed by those who may read it.
# A device keeps its mode.
mode() {
    ls -lL "$1" | cut -c 1-10
}
for mask in 022 077 027 026 044; do
    rm -f "$folder/image.elf" "$folder/text.c"
    (umask $mask && "$program" build "$folder/answer.c" "$folder/image.elf" && "$program" gen 1 1 "$folder/text.c")
    case $mask in
        022) wanted='-rwxr-xr-x -rw-r--r--' ;;
        077) wanted='-rwx------ -rw-------' ;;
        027) wanted='-rwxr-x--- -rw-r-----' ;;
        026) wanted='-rwxr-x--x -rw-r-----' ;;
        *) wanted='-rwx-wx-wx -rw--w--w-' ;;
    esac
    [ "$(mode "$folder/image.elf") $(mode "$folder/text.c")" = "$wanted" ] || fail "under the mask $mask: $(mode "$folder/image.elf") $(mode "$folder/text.c")"
done
chmod 640 "$folder/image.elf"
"$program" build "$folder/answer.c" "$folder/image.elf" || fail 'OUT cannot be a file that is there'
[ "$(mode "$folder/image.elf")" = '-rwxr-x---' ] || fail "an image over a file of mode 0640: $(mode "$folder/image.elf")"
before=$(mode /dev/null)
"$program" build "$folder/answer.c" /dev/null || fail 'OUT cannot be /dev/null'
[ "$(mode /dev/null)" = "$before" ] || fail 'a build has changed the mode of /dev/null'
echo "$script: images can be executed under five masks"

# What is written before a read is there while the program waits, and all of it before the report.
cat >"$folder/prompt.c" <<'END'
int main(void) { putchar('?'); getchar(); putchar('!'); return 0; }
END
"$program" build "$folder/prompt.c" "$folder/prompt.elf" || fail 'prompt.c is not built'
mkfifo "$folder/pipe" || fail 'no pipe was made'
"$program" run "$folder/prompt.elf" <"$folder/pipe" >"$folder/both" 2>&1 &
exec 8>"$folder/pipe"
turn=0
until [ "$(cat "$folder/both")" = '?' ]; do
    turn=$((turn + 1))
    [ $turn -lt 100 ] || fail 'what was written before a read was not handed over'
    sleep 0.1
done
echo >&8
exec 8>&-
wait
[ "$(cat "$folder/both")" = '?!exit 0' ] || fail "the report is not behind the output: $(cat "$folder/both")"
if [ -e /dev/full ]; then
    "$program" run "$folder/prompt.elf" </dev/null >/dev/full 2>"$folder/report"
    [ $? -eq 3 ] || fail 'a full output is not status 3 of run'
    "$program" <"$folder/answer.c" >/dev/full 2>"$folder/report"
    [ $? -eq 3 ] || fail 'a full output is not status 3 of no words'
fi
echo "$script: a prompt is there before the program waits"

# A pipe without a reader, to which more goes than it holds.
cat >"$folder/many.c" <<'END'
int main(void) { int i; for (i = 0; i < 100000; i++) putchar('a'); return 0; }
END
"$program" build "$folder/many.c" "$folder/many.elf" || fail 'many.c is not built'
{
    "$program" run "$folder/many.elf" 2>"$folder/report"
    echo $? >"$folder/status"
} | true
[ "$(cat "$folder/status" "$folder/report")" = "$(printf '3\nwrite fault')" ] || fail "a pipe without a reader: $(cat "$folder/status" "$folder/report")"

# On a terminal a line is there once it ends, and what follows it is not, while the program goes on.
if command -v python3 >/dev/null 2>&1; then
    cat >"$folder/line.c" <<'END'
int main(void) { putchar('a'); putchar(10); putchar('b'); while (1) ; return 0; }
END
    "$program" build "$folder/line.c" "$folder/line.elf" || fail 'line.c is not built'
    cat >"$folder/terminal.py" <<'END'
import os, pty, select, signal, sys
child, terminal = pty.fork()
if child == 0:
    os.execv(sys.argv[1], [sys.argv[1], "run", sys.argv[2], "--steps=1000000000000"])
seen = b""
while not seen.endswith(b"\n") and select.select([terminal], [], [], 20)[0]:
    seen += os.read(terminal, 100)
os.kill(child, signal.SIGKILL)
os.waitpid(child, 0)
sys.exit(seen != b"a\r\n")
END
    python3 "$folder/terminal.py" "$program" "$folder/line.elf" || fail 'a line is not there on a terminal once it ends'
    echo "$script: a line is there on a terminal once it ends, and a pipe without a reader is a write fault"
else
    echo "$script: no terminal is tried, python3 is not installed"
fi

# A library under which one call that reads, writes or opens, by its number, is interrupted (INTERRUPTED) or fails (FAILED), and then
# writes to the descriptor 9; or under which each read and write moves one byte (SHORT).
if command -v gcc >/dev/null 2>&1; then
    cat >"$folder/edge.c" <<'END'
#define _GNU_SOURCE
#include <errno.h>
#include <fcntl.h>
#include <stdarg.h>
#include <stdatomic.h>
#include <stdlib.h>
#include <sys/syscall.h>
#include <unistd.h>
static atomic_long made;
static long interrupted, failed, is_short;
static long number_of(const char *name) { return getenv(name) ? atol(getenv(name)) : 0; }
__attribute__((constructor)) static void start(void)
{
    interrupted = number_of("INTERRUPTED");
    failed = number_of("FAILED");
    is_short = number_of("SHORT");
}
static int is_refused(void)
{
    long number = atomic_fetch_add(&made, 1) + 1;
    if (number != interrupted && number != failed) return 0;
    syscall(SYS_write, 9, "x", 1);
    errno = number == interrupted ? EINTR : EIO;
    return 1;
}
static size_t moved(size_t n) { return is_short && n > 1 ? 1 : n; }
ssize_t read(int fd, void *to, size_t n) { return is_refused() ? -1 : syscall(SYS_read, fd, to, moved(n)); }
ssize_t write(int fd, const void *from, size_t n) { return is_refused() ? -1 : syscall(SYS_write, fd, from, moved(n)); }
int open(const char *path, int flags, ...)
{
    va_list more;
    va_start(more, flags);
    int mode = va_arg(more, int);
    va_end(more);
    return is_refused() ? -1 : syscall(SYS_openat, AT_FDCWD, path, flags, mode);
}
END
    gcc -O1 -shared -fPIC -o "$folder/edge.so" "$folder/edge.c" || fail 'gcc refused the library'
    "$program" build examples/squares.c "$folder/squares.elf" --report log 2>"$folder/log" || fail 'squares.c is not built'

    # under VARIABLE VALUE WORDS..: the compiler with these words and the given input under the library.
    under() {
        name=$1
        value=$2
        shift 2
        rm -f "$folder/image.elf"
        env "$name=$value" LD_PRELOAD="$folder/edge.so" "$program" "$@" <"$given" >"$folder/output" 2>"$folder/report" 9>"$folder/mark"
        status=$?
    }

    # is_front FILE OF: the file is there and holds the other one from its front on.
    is_front() {
        [ -e "$1" ] && head -c "$(wc -c <"$1")" "$2" | cmp -s - "$1"
    }

    # ends REPORT OUTPUT WORDS..: the command was done, with this report and output.
    ends() {
        [ $status -eq 0 ] && cmp -s "$folder/report" "$1" && cmp -s "$folder/output" "$2" || return 1
        [ "${3-}" != build ] || cmp -s "$folder/image.elf" "$folder/squares.elf"
    }

    # gives_up REPORT OUTPUT WORDS..: the command has not read or written, and says so.
    gives_up() {
        is_front "$folder/output" "$2" || return 1
        case "$status $(cat "$folder/report")" in
            '2 read fault') [ ! -e "$folder/image.elf" ] ;;
            '3 write fault') [ ! -e "$folder/image.elf" ] || is_front "$folder/image.elf" "$folder/squares.elf" ;;
            3*) is_front "$folder/report" "$1" && { [ "${3-}" != build ] || cmp -s "$folder/image.elf" "$folder/squares.elf"; } ;;
            *) return 1 ;;
        esac
    }

    # each REPORT OUTPUT WORDS..: the compiler with these words, where each read and write moves one byte, each call is interrupted, and
    # each call fails.
    each() {
        report=$1
        output=$2
        shift 2
        under SHORT 1 "$@"
        ends "$report" "$output" "$@" || fail "$* by single bytes: status $status, $(cat "$folder/report")"
        for way in INTERRUPTED FAILED; do
            number=1
            while :; do
                under $way $number "$@"
                [ -s "$folder/mark" ] || break
                if [ $way = INTERRUPTED ]; then ends "$report" "$output" "$@"; else gives_up "$report" "$output" "$@"; fi \
                    || fail "$* with the call $number $way: status $status, $(cat "$folder/report")"
                number=$((number + 1))
            done
            ends "$report" "$output" "$@" || fail "$* ends with $status: $(cat "$folder/report")"
            [ $number -gt 3 ] || fail "no call of $* is $way"
            calls=$((calls + number - 1))
        done
    }
    calls=0
    given=$folder/answer.c
    each "$folder/nothing" "$folder/accepted"
    given=$folder/bytes
    each "$folder/log" "$folder/nothing" build examples/squares.c "$folder/image.elf" --report log --workers 2
    each "$folder/exit" "$folder/bytes" run "$folder/echo.elf"
    each "$folder/nothing" "$folder/nothing" gen 7 20 "$folder/text.c"
    cmp -s "$folder/generated.c" "$folder/text.c" || fail 'gen writes another text'
    echo "$script: $calls calls were interrupted or failed, and single bytes read and written: nothing is lost unsaid"
else
    echo "$script: interrupted, short and failing calls are skipped, gcc is not installed"
fi

# The system calls of an echo of 1,000,000 bytes.
if command -v strace >/dev/null 2>&1 && strace -o "$folder/none" true 2>/dev/null; then
    head -c 1000000 /dev/urandom >"$folder/million"
    strace -f -o "$folder/calls" "$program" run "$folder/echo.elf" <"$folder/million" >"$folder/output" 2>"$folder/report" || fail 'the echo did not end'
    cmp -s "$folder/million" "$folder/output" || fail 'the echo differs'
    sed 's/^[0-9]* *//; s/(.*//' "$folder/calls" | LC_ALL=C sort | uniq -c | sort -rn >"$folder/kinds"
    most=$(head -n 1 "$folder/kinds" | awk '{ print $1 }')
    [ "$most" -le 1000 ] || fail "an echo of 1,000,000 bytes: $(head -n 3 "$folder/kinds" | tr '\n' ' ')"
    echo "$script: an echo of 1,000,000 bytes makes at most $most system calls of a kind"
else
    echo "$script: system calls are not counted, strace is not installed"
fi
