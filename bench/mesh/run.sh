#!/bin/sh
# Megabytes per second and peak memory of whole programs that read a mesh text: `scan` (MeshReader over pieces of 65,536 bytes),
# read_mesh over the whole text, a C++ reader with from_chars, and wc -w, all over the text of a block of cubes.
# Usage: bench/mesh/run.sh [CUBES A SIDE] [ROUNDS]
set -eu
here=$(cd "$(dirname "$0")" && pwd)
side=${1:-60}
rounds=${2:-3}
. "$here/../parts.sh"
take_crates octopus
new_program reading mesh_base vtk_legacy
cat > "$program/src/main.rt" <<'RT'
#![tactic(auto)]

use std::env;
use std::fs;
use std::io;
use vtk_legacy::read_mesh;

fn main(rt: HostRuntime) -> io::Result<()> {
    let mut name = String::new(rt.alloc());
    for (i, word) in env::args(&rt)?.enumerate() {
        if i == 1 {
            name = word;
        }
    }
    let text = fs::read(&rt, name.as_str())?;
    match read_mesh(rt.alloc(), &text) {
        Ok(mesh) => {
            let points = mesh.points().len();
            let cells = mesh.cells().len();
            println!(rt; "{points} {cells}")
        }
        Err(_) => println!(rt; "refused"),
    }
}
RT
(cd "$work/crates/octopus" && rt run -- gen "$side" > "$work/block.vtk" 2> "$work/log") || { tail "$work/log"; exit 1; }
(cd "$program" && rt run -- /dev/null > "$work/log" 2>&1) || { tail "$work/log"; exit 1; }
build_peer "$here/peer.cpp"

# the seconds and the peak memory of a command
measured() {
    python3 - "$@" <<'PY'
import os, resource, subprocess, sys, time
start = time.monotonic()
done = subprocess.run(sys.argv[2:], stdout=subprocess.PIPE, check=True)
wall = time.monotonic() - start
words = done.stdout.decode().split()
peak = resource.getrusage(resource.RUSAGE_CHILDREN).ru_maxrss / 1024
size = int(os.environ["SIZE"])
print(f"{sys.argv[1]:8} {size / wall / 1e6:8.1f} MB/s   peak {peak:7.1f} MB   {' '.join(words)}")
PY
}
SIZE=$(wc -c < "$work/block.vtk")
export SIZE
echo "text of $SIZE bytes, block of $side cubes a side"
for _ in $(seq "$rounds"); do
    measured pieces "$work/crates/octopus/out/octopus" scan "$work/block.vtk" 0 0 0 0 0 0
    measured whole "$program/out/reading" "$work/block.vtk"
    measured c++ "$work/peer" "$work/block.vtk"
    measured wc wc -w "$work/block.vtk"
done
