#!/bin/sh
# Turns and publishes a second of the shared table, beside a mutex and shared pointers in C++.
#
# usage: bench/table/run.sh [ROUNDS]     (default: 5)
#
# The mesh has no points, so that an answer costs next to nothing. With 1, 2, 4 and 8 sessions of 80,000 turns together it
# prints the turns a second: each is a pin, an empty answer, and the pin back. Then it prints the publishes a second of
# 10,000 steps that move nothing, without sessions and with eight that sleep until the last step. A whole run is timed, with
# the making of its threads and steps; the best of the rounds counts. The C++ program keeps the newest step as a shared pointer
# under a std::mutex, with the same journal and answers, and its sessions sleep on a std::condition_variable.
#
# It writes a small program over copies of the crates into a temporary folder, which `rt run` proves and builds by LLVM, and
# builds peer.cpp by g++ -O2.
set -eu
here=$(cd "$(dirname "$0")" && pwd)
. "$here/../parts.sh"
take_crates run_threads
new_program time_table mesh_base oct_edge run_script script_format step_registry run_threads
cat > "$program/src/main.rt" <<'RT'
//! Times runs of a job whose mesh has no points.
#![tactic(auto)]

use mesh_base::{CellList, Mesh, PointList};
use oct_edge::NoGate;
use run_script::Job;
use run_threads::run_job;
use script_format::read_script;
use std::alloc::Global;
use std::env;
use std::io;
use std::marker::Sync;
use std::rt::Clock;
use std::sync::Wait;
use std::thread::Threads;
use std::time::Instant;

// So many steps that move nothing, and sessions of so many boxes each, which wait for a step first.
fn script(alloc: Global, steps: u32, sessions: u32, boxes: u32, wait: u32) -> io::Result<String> {
    let mut text = String::new(alloc);
    text.push_str("octopus script 1\n")?;
    for _ in 0..steps {
        text.push_str("stay\n")?;
    }
    for _ in 0..sessions {
        writeln!(text, "session\nwait {wait}")?;
        for _ in 0..boxes {
            text.push_str("box 0 0 0 0 0 0\n")?;
        }
    }
    text.push_str("end\n")?;
    Ok(text)
}

fn job_of(alloc: Global, text: &str) -> io::Result<Option<Job>> {
    let text = text.as_bytes();
    if text.len() > 10_000_000 {
        return Ok(None);
    }
    let (points, cells) = (PointList::of(Vec::new(alloc)), CellList::of(Vec::new(alloc)));
    let (Some(mesh), Ok(script)) = (Mesh::new(points, cells), read_script(alloc, text)) else {
        return Ok(None);
    };
    Ok(Job::check(alloc, mesh, script).ok())
}

// The least nanoseconds of some runs.
fn time_runs<R: Threads + Wait + Sync + Clock + Print>(
    rt: &R,
    alloc: Global,
    rounds: u32,
    text: &str,
) -> io::Result<u128> {
    let mut least = u128::MAX;
    for _ in 0..rounds {
        if let Some(job) = job_of(alloc, text)? {
            let start = Instant::now(rt)?;
            let registry = run_job(rt, alloc, job, &NoGate)?;
            least = least.min(start.elapsed(rt)?.as_nanos());
            if !registry.is_whole() {
                println!(rt; "not whole")?;
            }
        }
    }
    Ok(least)
}

fn per_second(count: u128, nanoseconds: u128) -> u128 {
    count.wrapping_mul(1_000_000_000) / nanoseconds.max(1)
}

fn main(rt: HostRuntime) -> io::Result<()> {
    let mut rounds = 5;
    for word in env::args(&rt)? {
        if let Ok(n) = word.parse::<u32>() {
            rounds = n;
        }
    }
    for sessions in [1, 2, 4, 8] {
        let text = script(rt.alloc(), 0, sessions, 80_000 / sessions, 0)?;
        let turns = per_second(80_000, time_runs(&rt, rt.alloc(), rounds, text.as_str())?);
        println!(rt; "octopus  {sessions} sessions: {turns} turns a second")?;
    }
    for sessions in [0, 8] {
        let text = script(rt.alloc(), 10_000, sessions, 1, 10_000)?;
        let steps = per_second(10_000, time_runs(&rt, rt.alloc(), rounds, text.as_str())?);
        println!(rt; "octopus  {sessions} sessions asleep: {steps} publishes a second")?;
    }
    Ok(())
}
RT
build_peer "$here/peer.cpp"
build_program
"$program/out/time_table" "${1:-5}"
"$work/peer" "${1:-5}"
