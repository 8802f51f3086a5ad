#!/bin/sh
# A small run by threads, with each of its allocations refused in turn: how it ended.
#
# usage: bench/table/refused.sh
#
# It writes a program that plays a job of three steps and three sessions, has it proved and built by `rt run`, and puts
# refused/refuse.c in front of the C library. A run ends `whole`, `cut short` (the plan is closed, one step is held, the journal
# isn't whole), or as `no run`, where memory was refused before the workers began. Any other end is printed with its number, and
# so is a run that has not ended after a minute.
set -eu
here=$(cd "$(dirname "$0")" && pwd)
. "$here/../parts.sh"
take_crates run_threads
new_program refused_run mesh_base oct_edge run_script script_format step_registry run_threads
cat > "$program/src/main.rt" <<'RT'
//! Plays a small job, and prints how the run ended.
#![tactic(auto)]

use mesh_base::{Cell, CellList, Mesh, NoMemory, Point, PointList};
use oct_edge::NoGate;
use run_script::Job;
use run_threads::{Played, play_job};
use script_format::read_script;
use std::alloc::Global;
use std::io;
use std::marker::Sync;
use std::sync::Wait;
use std::thread::Threads;
use step_registry::Registry;

const TEXT: &[u8] = b"octopus script 2\nsplit 0 1 1 1\nshift 1 0 0\npoint 9 9 9\nrelax\nshake 7 3\nsession\nbox 0 0 0 7 7 7\nwait 1\nhold\nbox 0 0 0 7 0 0\nbox 1 1 1 1 1 1\nfree\nsession\nwait 3\nbox 0 0 0 7 7 7\nsession\nwait 2\nbox 0 0 0 1 1 1\nbox 0 0 0 7 0 0\nend\n";

fn job_of(alloc: Global) -> Result<Option<Job>, NoMemory> {
    let mut points = Vec::new(alloc);
    for [x, y, z] in [[0, 0, 0], [4, 0, 0], [0, 4, 0], [0, 0, 4]] {
        if let Some(at) = Point::new(x, y, z) {
            points.push(at)?;
        }
    }
    let mut cells = Vec::new(alloc);
    cells.push(Cell::new([0, 1, 2, 3]))?;
    match (Mesh::new(PointList::of(points), CellList::of(cells)), read_script(alloc, TEXT)) {
        (Some(mesh), Ok(script)) => Ok(Job::check(alloc, mesh, script).ok()),
        _ => Ok(None),
    }
}

fn is_cut_short(registry: &Registry) -> bool {
    registry.closed() && !registry.is_whole() && registry.held().len() == 1
}

fn ended<R: Threads + Wait + Sync>(rt: &R, alloc: Global) -> &'static str {
    let Ok(Some(job)) = job_of(alloc) else {
        return "no run";
    };
    match play_job(rt, alloc, job, &NoGate) {
        Ok(Played::Whole { registry }) if registry.is_whole() => "whole",
        Ok(Played::NoMemory { registry }) if is_cut_short(&registry) => "cut short",
        Ok(_) => "wrong",
        Err(_) => "no run",
    }
}

fn main(rt: HostRuntime) -> io::Result<()> {
    let end = ended(&rt, rt.alloc());
    println!(rt; "{end}")
}
RT
build_program
"${CC:-cc}" -O2 -shared -fPIC -o "$work/refuse.so" "$here/../refused/refuse.c"
number=1
while :; do
    rm -f "$work/reached"
    end=$(timeout 60 env LD_PRELOAD="$work/refuse.so" REFUSE_AT=$number REFUSE_LOG="$work/reached" "$program/out/refused_run" || true)
    [ -e "$work/reached" ] || break
    case $end in
    whole | "cut short" | "no run") echo "$end" >> "$work/ends" ;;
    *) echo "allocation $number refused: ${end:-did not end as a run may}" ;;
    esac
    number=$((number + 1))
done
echo "$((number - 1)) allocations refused:"
sort "$work/ends" | uniq -c
