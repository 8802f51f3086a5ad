#!/bin/sh
# Times the motions of a block of cubes, alone and in threads, beside plain loops in C++, and then splits of its cells.
#
# usage: bench/kernels/run.sh [CUBES_A_SIDE..]     (default: 60, at most 87)
#
# It writes a small program over copies of the crates into a temporary folder, which `rt run` proves and builds by LLVM,
# and builds peer.cpp by g++ -O2. Both make the same block and move its points by the same three motions, and print the
# best time of ten for each with a sum of the new coordinates, which has to agree. The program then splits 10,000 cells.
set -eu
here=$(cd "$(dirname "$0")" && pwd)
. "$here/../parts.sh"
take_crates sample_meshes move_kernels
new_program time_kernels mesh_base sample_meshes topo move_kernels
cat > "$program/src/main.rt" <<'EOF'
//! Times motions and splits.
#![tactic(auto)]

ghost use Rattle.std.specs.Prelude.{◌≡◌, ◌<◌, ◌≤◌, length};
ghost use Rattle.move_kernels.specs.Motions.{HasDivisor};

use mesh_base::{CellList, Edit, Kernel, Mesh, NoMemory, Point, PointList};
use move_kernels::{moved, moved_par};
use sample_meshes::block_mesh;
use std::alloc::Global;
use std::io;
use std::marker::Sync;
use std::thread::Threads;
use std::time::Instant;
use topo::{Positions, Shape, Topo};

fn sum_of(points: &[Point]) -> i64 {
    let mut sum = 0i64;
    for p in points {
        let mixed = (p.x() as i64)
            .wrapping_add((p.y() as i64).wrapping_mul(3))
            .wrapping_add((p.z() as i64).wrapping_mul(7));
        sum = sum.wrapping_add(mixed);
    }
    sum
}

// The least microseconds of ten runs, and a sum of what the last one gave.
macro_rules! best_of_ten {
    ($rt:expr, $moved:expr) => {{
        let mut best = u128::MAX;
        let mut sum = 0;
        for _round in 0..10u32 {
            let start = Instant::now($rt)?;
            let list = $moved;
            best = best.min(start.elapsed($rt)?.as_micros());
            sum = sum_of(list.items());
        }
        Ok((best, sum))
    }};
}

fn best_alone(
    rt: &HostRuntime,
    kernel: &Kernel,
    old: &Positions,
    shape: &Shape,
) -> io::Result<(u128, i64)>
    requires points { length old.now ≡ shape.now.points }
    requires kernel { HasDivisor kernel.now }
{
    let alloc = rt.alloc();
    best_of_ten!(rt, moved(alloc, kernel, 1, old, shape)?)
}

fn best_in_threads(
    rt: &HostRuntime,
    threads: &(impl Threads + Sync),
    kernel: &Kernel,
    old: &Positions,
    shape: &Shape,
) -> io::Result<(u128, i64)>
    requires points { length old.now ≡ shape.now.points }
    requires kernel { HasDivisor kernel.now }
{
    let alloc = rt.alloc();
    best_of_ten!(rt, moved_par(threads, alloc, kernel, 1, old, shape)?)
}

fn time_motion(
    rt: &HostRuntime,
    threads: &(impl Threads + Sync),
    n: u32,
    name: &str,
    kernel: &Kernel,
    old: &Positions,
    shape: &Shape,
) -> io::Result<()>
    requires points { length old.now ≡ shape.now.points }
    requires kernel { HasDivisor kernel.now }
{
    let (alone, sum) = best_alone(rt, kernel, old, shape)?;
    println!(rt; "kernels {name} n {n} alone      {alone} us, sum {sum}")?;
    let (together, sum) = best_in_threads(rt, threads, kernel, old, shape)?;
    println!(rt; "kernels {name} n {n} in threads {together} us, sum {sum}")
}

fn split_all(alloc: Global, topo: &mut Topo, at: Point) -> Result<u32, NoMemory> {
    let mut splits = 0u32;
    for cell in 0..10_000 {
        let edit = Edit::Split { cell, at };
        if topo.edit_ok(&edit) {
            topo.edit(alloc, &edit)?;
            splits = splits.wrapping_add(1);
        }
    }
    Ok(splits)
}

fn time_splits(rt: &HostRuntime, n: u32, topo: &mut Topo) -> io::Result<()> {
    let alloc = rt.alloc();
    let Some(at) = Point::new(4, 4, 4) else {
        return Ok(());
    };
    let start = Instant::now(rt)?;
    let splits = split_all(alloc, topo, at)?;
    let each = start.elapsed(rt)?.as_nanos() / (splits as u128).max(1);
    let surface = topo.surface().len();
    println!(rt; "splits n {n} {splits} splits, {each} ns each, surface {surface}")
}

fn time_all(rt: &HostRuntime, threads: &(impl Threads + Sync), n: u32, mesh: &Mesh) -> io::Result<()> {
    let alloc = rt.alloc();
    let count = mesh.points().len() as u32;
    let old = Positions::of(alloc, PointList::of(mesh.points().to_vec(alloc)?))?;
    let mut topo = Topo::build(alloc, count, CellList::of(mesh.cells().to_vec(alloc)?))?;
    let shape = topo.freeze_next(alloc)?;
    time_motion(rt, threads, n, "shift", &Kernel::Shift { dx: 3, dy: -5, dz: 7 }, &old, &shape)?;
    time_motion(rt, threads, n, "shake", &Kernel::Shake { seed: 7, amp: 3 }, &old, &shape)?;
    time_motion(rt, threads, n, "relax", &Kernel::Relax, &old, &shape)?;
    time_splits(rt, n, &mut topo)
}

fn run(rt: &HostRuntime, threads: &(impl Threads + Sync), n: u32) -> io::Result<()>
    requires { (0 < n) × (n ≤ 87) }
{
    let mesh = block_mesh(rt.alloc(), n)?;
    time_all(rt, threads, n, &mesh)
}

fn main(rt: HostRuntime) -> io::Result<()> {
SIZES
    Ok(())
}
EOF
sizes=${*:-60}
put_sizes 'run(&rt, &rt, %d)?;' $sizes
build_peer "$here/peer.cpp"
build_program
# Each program once more, now that nothing else of this script runs.
"$program/out/time_kernels"
for n in $sizes; do "$work/peer" "$n"; done
