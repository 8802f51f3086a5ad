// The same text and the same work as run.sh's program, by Rust's standard library.
use std::fmt::Write;
use std::time::Instant;

const COUNT: u64 = 10_000_000;

fn coordinates() -> String {
    let mut text = String::new();
    let mut state: u64 = 1;
    for i in 0..COUNT {
        state = state
            .wrapping_mul(6364136223846793005)
            .wrapping_add(1442695040888963407);
        let blank = if i % 3 == 2 { '\n' } else { ' ' };
        write!(text, "{}{blank}", (state >> 33) as i64 - 1073741824).unwrap();
    }
    text
}

fn main() {
    let text = coordinates();
    let start = Instant::now();
    let mut total: u64 = 0;
    for word in text.split_ascii_whitespace() {
        let value: i32 = word.parse().unwrap();
        total = total.wrapping_add_signed(i64::from(value));
    }
    let reading = start.elapsed().as_secs_f64();
    println!("rust {} {reading} 0 {total}", text.len());
}
