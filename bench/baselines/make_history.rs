//! Writes a legal history of so many marks (the first word; 1,048,576 where there is none) by 16 seats, on a
//! queue of capacity 1,048,576. Two of three calls insert in its first half, and one of three in its second.
use std::cmp::Reverse;
use std::collections::BinaryHeap;
use std::io::{self, BufWriter, Write};

/// Marsaglia's xorshift (Xorshift RNGs, 2003).
struct Numbers(u64);

impl Numbers {
    fn below(&mut self, limit: u64) -> u64 {
        self.0 ^= self.0 << 13;
        self.0 ^= self.0 >> 7;
        self.0 ^= self.0 << 17;
        (self.0 >> 16) % limit
    }
}

fn main() -> io::Result<()> {
    let marks: u64 = std::env::args().nth(1).map_or(1 << 20, |word| word.parse().expect("a number of marks"));
    let mut numbers = Numbers(1);
    let mut held = BinaryHeap::new();
    let mut out = BufWriter::new(io::stdout().lock());
    writeln!(out, "seats 16 capacity 1048576")?;
    for place in 0..marks {
        let seat = 1 + numbers.below(16);
        let inserts = if place < marks / 2 { 2 } else { 1 };
        if numbers.below(3) < inserts {
            let (key, id) = (numbers.below(1 << 26), numbers.below(1 << 22));
            held.push(Reverse((key, id)));
            writeln!(out, "{place} {seat} + {key} {id} done")?;
        } else if let Some(Reverse((key, id))) = held.pop() {
            writeln!(out, "{place} {seat} - got {key} {id}")?;
        } else {
            writeln!(out, "{place} {seat} - empty")?;
        }
    }
    writeln!(out, "left {}", held.len())?;
    out.flush()
}
