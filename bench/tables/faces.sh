#!/bin/sh
# Times the table of faces on blocks of cubes, beside two tables in C++ that count the same.
#
# usage: bench/tables/faces.sh [CUBES_A_SIDE..]     (default: 40 80, at most 87)
#
# It writes a small program over copies of the crates into a temporary folder, which `rt run` proves and builds by LLVM,
# and builds peer_faces.cpp by g++ -O2. Both make the same block, build their tables, put each sixth cell in once more and
# take it out again, and print the same number of surface vertices.
set -eu
here=$(cd "$(dirname "$0")" && pwd)
. "$here/../parts.sh"
take_crates sample_meshes face_table
new_program time_faces mesh_base sample_meshes face_table
cat > "$program/src/main.rt" <<'EOF'
//! Times the table of faces.
#![tactic(auto)]

ghost use Rattle.std.specs.Prelude.{◌≡◌, ◌<◌, ◌≤◌, ◌↔◌, IsTrue, OnOk};
ghost use Rattle.mesh_base.specs.Mesh.{IsWithin};
ghost use Rattle.face_table.specs.Tally.{IsTallyOf};

use face_table::FaceTable;
use mesh_base::{Cell, MOST_CELLS, Mesh, live_cell};
use sample_meshes::block_mesh;
use std::alloc::{AllocError, Global};
use std::fs;
use std::io;
use std::time::Instant;

fn is_within(cell: &Cell, points: u32) -> bool
    ensures { IsTrue result ↔ IsWithin points cell.now }
{
    let [a, b, c, d] = cell.corners();
    a < points && b < points && c < points && d < points
}

fn put(
    alloc: Global,
    table: &mut FaceTable,
    points: u32,
    cells: &mut Vec<Option<Cell>>,
    i: usize,
) -> Result<(), AllocError>
    requires points { table.old.points ≡ points }
    requires cells { IsTallyOf cells.old.items table.old }
    ensures points { table.new.points ≡ table.old.points }
    ensures cells { OnOk result (IsTallyOf cells.new.items table.new) }
{
    let cell = live_cell(cells, i).ok_or(AllocError)?;
    if !is_within(&cell, points) || cells.len() >= MOST_CELLS {
        return Err(AllocError);
    }
    cells.reserve(1)?;
    table.put_cell(alloc, cell)?;
    cells.push_reserved(Some(cell));
    Ok(())
}

fn remove(table: &mut FaceTable, points: u32, cells: &mut Vec<Option<Cell>>, i: usize)
    requires points { table.old.points ≡ points }
    requires cells { IsTallyOf cells.old.items table.old }
    ensures points { table.new.points ≡ table.old.points }
    ensures cells { IsTallyOf cells.new.items table.new }
{
    match live_cell(cells, i) {
        Some(cell) if i < cells.len() && is_within(&cell, points) => {
            table.take_cell(cell);
            cells[i] = None;
        }
        _ => {}
    }
}

fn put_many(
    alloc: Global,
    table: &mut FaceTable,
    points: u32,
    cells: &mut Vec<Option<Cell>>,
    count: usize,
) -> Result<(), AllocError>
    requires points { table.old.points ≡ points }
    requires cells { IsTallyOf cells.old.items table.old }
    ensures points { table.new.points ≡ table.old.points }
    ensures cells { OnOk result (IsTallyOf cells.new.items table.new) }
{
    for i in 0..count {
        put(alloc, table, points, cells, i.wrapping_mul(6))?;
    }
    Ok(())
}

fn take_many(
    table: &mut FaceTable,
    points: u32,
    cells: &mut Vec<Option<Cell>>,
    from: usize,
    to: usize,
)
    requires points { table.old.points ≡ points }
    requires cells { IsTallyOf cells.old.items table.old }
    ensures points { table.new.points ≡ table.old.points }
    ensures cells { IsTallyOf cells.new.items table.new }
{
    for i in from..to {
        remove(table, points, cells, i);
    }
}

fn time_table(rt: &HostRuntime, n: u32, mesh: &Mesh) -> io::Result<()> {
    let alloc = rt.alloc();
    let mut cells = mesh.cells().to_vec(alloc)?;
    let live = cells.len();
    let count = live / 6;
    cells.reserve(count)?;
    let points = mesh.points().len() as u32;
    let bytes = resident(rt)?;
    let start = Instant::now(rt)?;
    let mut table = FaceTable::build(alloc, points, mesh.cells())?;
    let build = start.elapsed(rt)?.as_micros();
    let bytes = resident(rt)?.saturating_sub(bytes) / (live as u64).max(1);
    let start = Instant::now(rt)?;
    put_many(alloc, &mut table, points, &mut cells, count)?;
    let put = start.elapsed(rt)?.as_nanos() / (count as u128).max(1);
    let start = Instant::now(rt)?;
    let end = cells.len();
    take_many(&mut table, points, &mut cells, live, end);
    let take = start.elapsed(rt)?.as_nanos() / (count as u128).max(1);
    let surface = table.surface().len();
    println!(rt; "face_table     n {n} cells {live} build {build} us, put {put} ns, take {take} ns, {bytes} bytes a cell, surface {surface}")
}

fn run(rt: &HostRuntime, n: u32) -> io::Result<()>
    requires { (0 < n) × (n ≤ 87) }
{
    let mesh = block_mesh(rt.alloc(), n)?;
    time_table(rt, n, &mesh)
}

fn main(rt: HostRuntime) -> io::Result<()> {
    run(&rt, 20)?;
SIZES
    Ok(())
}
EOF
resident_function >> "$program/src/main.rt"
sizes=${*:-40 80}
put_sizes 'run(&rt, %d)?;' $sizes
invariant() {
    mkdir -p "$program/proofs/$1"
    cat > "$program/proofs/$1/Invariants.antt" <<EOF
use Rattle.std.proofs.Common.{◌≡◌}
use Rattle.face_table.specs.Tally.{IsTallyOf}
use Rattle.time_faces.proofs.$1.Given as goal

abbrev pub invariant-loop-i : goal.invariant-loop-i
invariant-loop-i l = (l.table.points ≡ l.points) × IsTallyOf l.cells.items l.table
EOF
}
invariant put_many
invariant take_many
build_peer "$here/peer_faces.cpp"
build_program
# Each program once more, now that nothing else of this script runs.
"$program/out/time_faces"
for n in 20 $sizes; do "$work/peer" sorted "$n"; done
for n in 20 $sizes; do "$work/peer" hashed "$n"; done
