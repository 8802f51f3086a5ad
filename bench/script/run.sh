#!/bin/sh
# Seconds to read a run script of 1,000,000 edits and 100,000 boxes: read_script beside a C++ reader with from_chars, which makes the
# same checks and lists. Both read the same file into memory first, time the reading alone, and print the same sum of all numbers.
# Usage: bench/script/run.sh [ROUNDS]
set -eu
here=$(cd "$(dirname "$0")" && pwd)
rounds=${1:-5}
. "$here/../parts.sh"
take_crates script_format
new_program reading mesh_base run_script script_format
cat > "$program/src/main.rt" <<'RT'
#![tactic(auto)]

use mesh_base::{Edit, Point};
use run_script::{Item, ItemList, Plan, Script};
use script_format::read_script;
use std::env;
use std::fs;
use std::io;
use std::time::Instant;

fn placed(at: Point) -> i64 {
    i64::from(at.x())
        .wrapping_add(i64::from(at.y()))
        .wrapping_add(i64::from(at.z()))
}

fn edited(edit: &Edit) -> i64 {
    match edit {
        Edit::Point { at } => placed(*at),
        Edit::Add { corners } => {
            let [a, b, c, d] = *corners;
            i64::from(a)
                .wrapping_add(i64::from(b))
                .wrapping_add(i64::from(c))
                .wrapping_add(i64::from(d))
        }
        Edit::Remove { cell } => i64::from(*cell),
        Edit::Split { cell, at } => i64::from(*cell).wrapping_add(placed(*at)),
    }
}

fn of_plans(plans: &[Plan]) -> i64 {
    let mut sum: i64 = 0;
    for plan in plans {
        for edit in plan.edits.items() {
            sum = sum
                .wrapping_add(edited(&edit.edit))
                .wrapping_add(i64::from(edit.line));
        }
    }
    sum
}

fn of_sessions(sessions: &[ItemList]) -> i64 {
    let mut sum: i64 = 0;
    for session in sessions {
        for item in session.items() {
            match item {
                Item::Wait { line, step } => {
                    sum = sum
                        .wrapping_add(i64::from(*line))
                        .wrapping_add(i64::from(*step));
                }
                Item::Ask { area } => {
                    sum = sum
                        .wrapping_add(placed(area.lo()))
                        .wrapping_add(placed(area.hi()));
                }
                Item::Hold => {}
                Item::Free => {}
            }
        }
    }
    sum
}

fn sum(script: &Script) -> i64 {
    of_plans(script.plans()).wrapping_add(of_sessions(script.sessions()))
}

fn main(rt: HostRuntime) -> io::Result<()> {
    let mut name = String::new(rt.alloc());
    for (i, word) in env::args(&rt)?.enumerate() {
        if i == 1 {
            name = word;
        }
    }
    let text = fs::read(&rt, name.as_str())?;
    if text.len() > 100_000_000 {
        return println!(rt; "too long");
    }
    let start = Instant::now(&rt)?;
    let read = read_script(rt.alloc(), &text);
    let time = start.elapsed(&rt)?;
    let seconds = time.as_secs_f64();
    match read {
        Ok(script) => {
            let total = sum(&script);
            println!(rt; "read_script {seconds} {total}")
        }
        Err(_) => println!(rt; "refused"),
    }
}
RT
python3 - > "$work/script.txt" <<'PY'
state = 1
def number(most):
    global state
    state = (state * 6364136223846793005 + 1442695040888963407) % 2 ** 64
    return (state >> 33) % most
def place():
    return " ".join(str(number(2 ** 30) - 2 ** 29) for _ in range(3))
lines = ["octopus script 1"]
for i in range(1_000_000):
    kind = i % 4
    if kind == 0:
        lines.append("point " + place())
    elif kind == 1:
        lines.append("add " + " ".join(str(number(1_000_000)) for _ in range(4)))
    elif kind == 2:
        lines.append("remove %d" % number(4_000_000))
    else:
        lines.append("split %d %s" % (number(4_000_000), place()))
    if i % 1000 == 999:
        lines.append("shift %s" % place())
for s in range(8):
    lines += ["session", "wait %d" % number(1000)]
    for _ in range(12_500):
        low = [number(2 ** 29) for _ in range(3)]
        high = [x + number(2 ** 20) for x in low]
        lines.append("box " + " ".join(map(str, low + high)))
lines.append("end")
print("\n".join(lines))
PY
(cd "$program" && rt run -- "$work/script.txt" > "$work/log" 2>&1) || { cat "$work/log"; exit 1; }
build_peer "$here/peer.cpp"
size=$(wc -c < "$work/script.txt")
echo "script of $size bytes"
for _ in $(seq "$rounds"); do
    "$program/out/reading" "$work/script.txt"
    "$work/peer" "$work/script.txt"
done | awk -v size="$size" '{ printf "%-11s %6.3f s  %7.1f MB/s  (sum %s)\n", $1, $2, size / $2 / 1e6, $3 }'
