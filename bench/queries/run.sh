#!/bin/sh
# Microseconds and position reads of boxes on blocks of cubes: probe, walk and crawl, beside a plain scan of all vertices,
# and both beside the same in C++.
#
# usage: bench/queries/run.sh [CUBES_A_SIDE..]     (default: 20 40 80, at most 87)
#
# Boxes have 64 vertices, 0.1 % and 1 % of all, at a corner of the block and in its middle. It writes a small program over
# copies of the crates into a temporary folder, which `rt run` proves and builds by LLVM, and builds peer.cpp by g++ -O2.
# Both make the same blocks and boxes. Times are the least of 20 answers and of 5 scans. The C++ program counts its reads;
# the other can't, since its counter takes no bytes, so it prints what the proof allows: the surface, and the neighbours of
# what is found. Where it walks, those of the walk come on top.
set -eu
here=$(cd "$(dirname "$0")" && pwd)
. "$here/../parts.sh"
take_crates sample_meshes job_steps box_query
new_program time_queries mesh_base sample_meshes run_script job_steps step_view box_crawl box_query
mkdir -p "$program/proofs/time_box"
cat > "$program/src/main.rt" <<'RT'
//! Times boxes on blocks of cubes.
#![tactic(auto)]

ghost use Rattle.std.specs.Prelude.{◌≡◌, ◌<◌, ◌≤◌};

use box_crawl::Marks;
use box_query::{answer_plain, scan};
use job_steps::first_step;
use mesh_base::{BoxQ, Point};
use run_script::Job;
use sample_meshes::block_mesh;
use std::alloc::Global;
use std::env;
use std::io;
use std::marker::Brand;
use std::sync::Arc;
use std::sync::ledger::{Blank, Ledger};
use std::time::Instant;
use step_view::{Step, Steps};

fn area_of(lo: i32, hi: i32) -> Option<BoxQ> {
    BoxQ::new(Point::new(lo, lo, lo)?, Point::new(hi, hi, hi)?)
}

// How many neighbours the vertices of the list have together.
fn degrees(step: &Step, list: &[u32]) -> usize {
    let mut sum = 0usize;
    for v in list {
        if *v < step.points() {
            sum = sum.wrapping_add(step.neighbours(*v).len());
        }
    }
    sum
}

// The least nanoseconds of so many scans.
fn time_scan<L: Ledger>(rt: &HostRuntime, blank: Blank, step: &Step, area: &BoxQ) -> io::Result<u128>
    requires name { blank.name ≡ L.name }
    requires parts { blank.parts ≡ L.parts }
    requires some { 0 < L.parts }
{
    let mut reads = Steps::<L>::open(blank);
    let mut least = u128::MAX;
    for _again in 0..5 {
        let start = Instant::now(rt)?;
        let _list = scan(rt.alloc(), step, area, &mut reads)?;
        least = least.min(start.elapsed(rt)?.as_nanos());
    }
    Ok(least)
}

fn time_answer(rt: &HostRuntime, step: &Step, area: &BoxQ, marks: &mut Marks) -> io::Result<u128> {
    let mut least = u128::MAX;
    for _again in 0..20 {
        marks.reach(rt.alloc(), step.points())?;
        let start = Instant::now(rt)?;
        let _answer = answer_plain(rt.alloc(), step, area, marks)?;
        least = least.min(start.elapsed(rt)?.as_nanos());
    }
    Ok(least)
}

fn time_box(rt: &HostRuntime, step: &Step, marks: &mut Marks, lo: i32, hi: i32) -> io::Result<()> {
    let Some(area) = area_of(lo, hi) else {
        return Ok(());
    };
    marks.reach(rt.alloc(), step.points())?;
    let (route, list) = answer_plain(rt.alloc(), step, &area, marks)?;
    let count = list.items().len();
    let reads = step.surface().len().wrapping_add(degrees(step, list.items()));
    let answer = time_answer(rt, step, &area, marks)?;
    let scan = time_scan::<Brand>(rt, Blank::new(1), step, &area)?;
    let (us, part) = (answer / 1000, answer % 1000 / 100);
    let (all, rest) = (scan / 1000, scan % 1000 / 100);
    println!(rt; "octopus  box {lo} {hi} {route:?} count {count}: answer {us}.{part} us, at most {reads} reads; scan {all}.{rest} us")
}

// Boxes with 64 vertices, 0.1 % and 1 % of all, at a corner of the block and in its middle.
fn time_boxes(rt: &HostRuntime, step: &Step, marks: &mut Marks, n: i32) -> io::Result<()> {
    let middle = (n / 2).wrapping_mul(16);
    for side in [4, n / 10, n.wrapping_mul(43).wrapping_add(100) / 200] {
        let far = side.wrapping_mul(16).wrapping_sub(8);
        time_box(rt, step, marks, 0, far)?;
        time_box(rt, step, marks, middle, middle.wrapping_add(far))?;
    }
    Ok(())
}

fn run(rt: &HostRuntime, n: u32) -> io::Result<()>
    requires { (0 < n) × (n ≤ 87) }
{
    let alloc = rt.alloc();
    let job = Job::still(alloc, block_mesh(alloc, n)?)?;
    let (step, _maker) = first_step(alloc, Arc::new(alloc, job)?)?;
    let mut marks = Marks::new(alloc, 0)?;
    time_boxes(rt, &step, &mut marks, n as i32)
}

fn main(rt: HostRuntime) -> io::Result<()> {
    for word in env::args(&rt)? {
        match word.parse::<u32>() {
            Ok(n) if 1 <= n && n <= 87 => {
                println!(rt; "block of {n} cubes a side")?;
                run(&rt, n)?;
            }
            _ => {}
        }
    }
    Ok(())
}
RT
cat > "$program/proofs/time_box/Invariants.antt" <<'EOT'
use Rattle.time_queries.proofs.time_box.Given as goal

abbrev pub ghosts-time_scan : goal.ghosts-time_scan
ghosts-time_scan a = record { name = a.blank.name; parts = a.blank.parts }
EOT
build_peer "$here/peer.cpp"
build_program
for n in ${*:-20 40 80}; do
    "$program/out/time_queries" "$n"
    "$work/peer" "$n"
done
