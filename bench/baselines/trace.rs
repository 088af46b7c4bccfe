//! The baseline of `pq trace --queue plain`: one pass over the bytes of a script in plain Rust, with std's `BinaryHeap` as
//! the queue, and the history's text in one buffer. The word behind the name is the capacity.
use std::cmp::Reverse;
use std::collections::BinaryHeap;
use std::io::{self, Read, Write};
use std::process::exit;

struct Script<'a> {
    bytes: &'a [u8],
    at: usize,
    line: u32,
}

impl<'a> Script<'a> {
    fn refuse(&self, cause: &str) -> ! {
        eprintln!("line {}: {cause}", self.line);
        exit(3)
    }

    fn blanks(&mut self) {
        while matches!(self.bytes.get(self.at), Some(b' ' | b'\t')) {
            self.at += 1;
        }
    }

    /// The next word of the line, empty where there is none.
    fn word(&mut self) -> &'a [u8] {
        self.blanks();
        let start = self.at;
        while !matches!(self.bytes.get(self.at), None | Some(b' ' | b'\t' | b'\n')) {
            self.at += 1;
        }
        let word = &self.bytes[start..self.at];
        let ends = matches!(self.bytes.get(self.at), None | Some(b'\n'));
        if ends { word.strip_suffix(b"\r").unwrap_or(word) } else { word }
    }

    fn number(&mut self, high: u64) -> u64 {
        let word = self.word();
        if word.is_empty() {
            self.refuse("missing");
        }
        let mut value = 0u64;
        for byte in word {
            if !byte.is_ascii_digit() {
                self.refuse("number");
            }
            value = (value * 10 + u64::from(byte - b'0')).min(1 << 40);
        }
        if value > high {
            self.refuse("range");
        }
        value
    }

    fn end_line(&mut self) {
        if !self.word().is_empty() {
            self.refuse("extra");
        }
        self.skip_line();
    }

    fn skip_line(&mut self) {
        while !matches!(self.bytes.get(self.at), None | Some(b'\n')) {
            self.at += 1;
        }
        self.at += 1;
        self.line += 1;
    }
}

/// Writes a number and what stands behind it.
fn number(out: &mut Vec<u8>, mut value: u64, behind: &[u8]) {
    let mut digits = [0u8; 20];
    let mut at = digits.len();
    loop {
        at -= 1;
        digits[at] = b'0' + (value % 10) as u8;
        value /= 10;
        if value == 0 {
            break;
        }
    }
    out.extend_from_slice(&digits[at..]);
    out.extend_from_slice(behind);
}

fn entry(out: &mut Vec<u8>, raw: u64, behind: &[u8]) {
    number(out, raw >> 22, b" ");
    number(out, raw & ((1 << 22) - 1), behind);
}

fn main() -> io::Result<()> {
    let capacity: usize = std::env::args().nth(1).map_or(1024, |word| word.parse().expect("a capacity"));
    let mut bytes = Vec::new();
    io::stdin().lock().read_to_end(&mut bytes)?;
    let mut script = Script { bytes: &bytes, at: 0, line: 1 };
    let mut held = BinaryHeap::with_capacity(capacity);
    let mut out = Vec::with_capacity(2 * bytes.len());
    out.extend_from_slice(b"seats 1 capacity ");
    number(&mut out, capacity as u64, b"\n");
    let mut place = 0;
    while script.at < bytes.len() {
        let (limit, act) = match script.word() {
            b"" | [b'#', ..] => {
                script.skip_line();
                continue;
            }
            b"+" => {
                let raw = script.number((1 << 26) - 1) << 22 | script.number((1 << 22) - 1);
                script.end_line();
                number(&mut out, place, b" 1 + ");
                place += 1;
                if held.len() < capacity {
                    held.push(Reverse(raw));
                    entry(&mut out, raw, b" done\n");
                } else {
                    entry(&mut out, raw, b" full\n");
                }
                continue;
            }
            b"-" => (u64::MAX, b" 1 - "),
            b"<" => (script.number(1 << 26), b" 1 < "),
            b"lane" => script.refuse("range"),
            _ => script.refuse("word"),
        };
        script.end_line();
        number(&mut out, place, act);
        place += 1;
        if limit != u64::MAX {
            number(&mut out, limit, b" ");
        }
        match held.peek() {
            None => out.extend_from_slice(b"empty\n"),
            Some(Reverse(raw)) if raw >> 22 >= limit => out.extend_from_slice(b"above\n"),
            Some(&Reverse(raw)) => {
                held.pop();
                out.extend_from_slice(b"got ");
                entry(&mut out, raw, b"\n");
            }
        }
    }
    out.extend_from_slice(b"left ");
    number(&mut out, held.len() as u64, b"\n");
    io::stdout().lock().write_all(&out)
}
