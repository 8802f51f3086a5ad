#!/bin/sh
# Each allocation of the built program refused in turn, for each command on small files: how the runs ended.
#
# usage: bench/refused/run.sh [PROGRAM]     (default: the program that the gate built)
#
# Every run has to end by itself, either with status 3 and nothing written, or with its answer. It needs a C compiler and glibc.
set -eu
here=$(cd "$(dirname "$0")" && pwd)
. "$here/../parts.sh"
program=${1:-$top/crates/octopus/out/octopus}
"${CC:-cc}" -O2 -shared -fPIC -o "$work/refuse.so" "$here/refuse.c"
python3 "$here/refused.py" "$program" "$work/refuse.so"
