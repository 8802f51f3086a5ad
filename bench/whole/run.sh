#!/bin/sh
# Whole commands beside C++, in one run, as tables: single commands, steps of each motion with few and many splits,
# whole runs with sessions on one processor and on all, and meshes that are made to be slow. All programs read the same
# files, and what they write has to be equal. bench/README.md says more.
#
# usage: bench/whole/run.sh [-r ROUNDS] [--only commands|steps|runs|slow-mesh].. [--limit SECONDS] [--cells CELLS]
#            [--beside PROGRAM] [CUBES..]
#
# OCTOPUS names the program to measure; else it is the one that the gate built. It needs g++ with OpenMP, python3 and
# taskset.
set -eu
here=$(cd "$(dirname "$0")" && pwd)
. "$here/../parts.sh"
program=${OCTOPUS:-$top/crates/octopus/out/octopus}
[ -x "$program" ] || { echo "no built program: run rt ci first"; exit 1; }
for name in peer made; do g++ -O3 -march=native -fopenmp -std=c++17 -o "$work/$name" "$here/$name.cpp"; done
python3 -B "$here/measure.py" "$program" "$work/peer" "$work/made" "$work" "$@"
