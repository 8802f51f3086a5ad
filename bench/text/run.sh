#!/bin/sh
# Megabytes per second for reading ten million coordinates: Tokens::next with whole, beside Rust's split_ascii_whitespace with parse.
# Both programs make the same text and print the same sum. Usage: bench/text/run.sh [ROUNDS]
set -eu
here=$(cd "$(dirname "$0")" && pwd)
rounds=${1:-5}
. "$here/../parts.sh"
take_crates oct_text
new_program reading oct_text
cat > "$program/src/main.rt" <<'RT'
#![tactic(auto)]

use oct_text::{Taken, Tokens, put_number, put_text, whole};
use std::alloc::{AllocError, Global};
use std::io;
use std::time::Instant;

const COUNT: u64 = 10_000_000;

fn coordinates(alloc: Global) -> Result<Vec<u8>, AllocError> {
    let mut text = Vec::new(alloc);
    let mut state: u64 = 1;
    for i in 0..COUNT {
        state = state
            .wrapping_mul(6364136223846793005)
            .wrapping_add(1442695040888963407);
        put_number(alloc, &mut text, (state >> 33) as i64 - 1073741824)?;
        if i % 3 == 2 {
            put_text(alloc, &mut text, b"\n")?;
        } else {
            put_text(alloc, &mut text, b" ")?;
        }
    }
    Ok(text)
}

fn sum(tokens: &mut Tokens) -> u64 {
    let mut total: u64 = 0;
    for _i in 0..u64::MAX {
        match tokens.next() {
            Taken::Token { place: _, text } => match whole(text) {
                Ok(value) => total = total.wrapping_add_signed(i64::from(value)),
                Err(_) => return 0,
            },
            _ => return total,
        }
    }
    total
}

fn main(rt: HostRuntime) -> io::Result<()> {
    let text = coordinates(rt.alloc())?;
    let mut tokens = Tokens::new(rt.alloc());
    let start = Instant::now(&rt)?;
    tokens.feed(rt.alloc(), &text)?;
    tokens.finish();
    let fed = start.elapsed(&rt)?;
    let start = Instant::now(&rt)?;
    let total = sum(&mut tokens);
    let time = start.elapsed(&rt)?;
    let len = text.len();
    let feeding = fed.as_secs_f64();
    let reading = time.as_secs_f64();
    println!(rt; "oct_text {len} {reading} {feeding} {total}")
}
RT
(cd "$program" && rt run > "$work/log" 2>&1) || { cat "$work/log"; exit 1; }
rustc -O -o "$work/peer" "$here/peer.rs"
for _ in $(seq "$rounds"); do
    "$program/out/reading"
    "$work/peer"
done | awk '{ printf "%-9s reads %7.1f MB/s", $1, $2 / $3 / 1e6; if ($4 > 0) printf ", feeds %7.1f MB/s", $2 / $4 / 1e6; printf "  (sum %s)\n", $5 }'
