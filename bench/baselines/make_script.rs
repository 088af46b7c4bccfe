//! Writes a script of so many commands (the first word; 1,000,000 where there is none) in one lane: in its first half two
//! of three commands insert, in its second one of three. Of the removals every other one is below a limit.
use std::io::{self, BufWriter, Write};

fn main() -> io::Result<()> {
    let commands: u64 = std::env::args().nth(1).map_or(1_000_000, |word| word.parse().expect("a number of commands"));
    // Marsaglia's xorshift (Xorshift RNGs, 2003).
    let mut state = 1u64;
    let mut draw = |below: u64| {
        state ^= state << 13;
        state ^= state >> 7;
        state ^= state << 17;
        (state >> 16) % below
    };
    let mut out = BufWriter::new(io::stdout().lock());
    for command in 0..commands {
        let inserts = if command < commands / 2 { 2 } else { 1 };
        if draw(3) < inserts {
            writeln!(out, "+ {} {}", draw(1 << 26), draw(1 << 22))?;
        } else if draw(2) == 0 {
            writeln!(out, "-")?;
        } else {
            writeln!(out, "< {}", draw((1 << 26) + 1))?;
        }
    }
    out.flush()
}
