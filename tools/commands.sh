#!/bin/sh
# Tries the compiler on the tables of commands, of reported sources and of programs in rows/: what each call ends with, reports,
# writes and leaves (tools/commands.py). It prints each difference.
set -u
cd "$(dirname "$0")/.." || exit 1
script=tools/commands.sh
. tools/lib.sh
need python3
compiler
python3 -B tools/commands.py "$program" "$folder"
