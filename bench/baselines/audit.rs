//! The baseline of `pq audit`: the same reading, replay and verdict in plain Rust. Digits are added up by
//! hand in one pass over the bytes, an entry is one u64, and the multiset is std's `BinaryHeap`.
use std::cmp::Reverse;
use std::collections::BinaryHeap;
use std::io::{self, Read};
use std::process::exit;

#[derive(Clone, Copy)]
enum Mark {
    Added(u64),
    Full,
    Got(u64, u32),
    Empty,
    Above(u32),
}

struct Words<'a> {
    bytes: &'a [u8],
    at: usize,
    line: u32,
}

impl<'a> Words<'a> {
    fn refuse(&self, cause: &str) -> ! {
        eprintln!("line {}: {cause}", self.line);
        exit(3)
    }

    fn blanks(&mut self) {
        while self.at < self.bytes.len() && matches!(self.bytes[self.at], b' ' | b'\t') {
            self.at += 1;
        }
    }

    fn number(&mut self, low: u64, high: u64) -> u64 {
        self.blanks();
        let start = self.at;
        let mut value = 0u64;
        while self.at < self.bytes.len() && self.bytes[self.at].is_ascii_digit() {
            value = (value * 10 + u64::from(self.bytes[self.at] - b'0')).min(1 << 50);
            self.at += 1;
        }
        if start == self.at {
            self.refuse("number");
        }
        if value < low || high < value {
            self.refuse("range");
        }
        value
    }

    fn word(&mut self) -> &'a [u8] {
        self.blanks();
        let start = self.at;
        while self.at < self.bytes.len() && !matches!(self.bytes[self.at], b' ' | b'\t' | b'\r' | b'\n') {
            self.at += 1;
        }
        if start == self.at {
            self.refuse("missing");
        }
        &self.bytes[start..self.at]
    }

    fn fixed(&mut self, word: &[u8]) {
        if self.word() != word {
            self.refuse("word");
        }
    }

    fn end_line(&mut self) {
        self.blanks();
        if self.bytes.get(self.at) == Some(&b'\r') {
            self.at += 1;
        }
        if self.at < self.bytes.len() {
            if self.bytes[self.at] != b'\n' {
                self.refuse("extra");
            }
            self.at += 1;
        }
        self.line += 1;
    }

    fn entry(&mut self) -> u64 {
        self.number(0, (1 << 26) - 1) << 22 | self.number(0, (1 << 22) - 1)
    }
}

fn main() -> io::Result<()> {
    let mut bytes = Vec::new();
    io::stdin().lock().read_to_end(&mut bytes)?;
    let mut words = Words { bytes: &bytes, at: 0, line: 1 };
    words.fixed(b"seats");
    let seats = words.number(1, 16) as usize;
    words.fixed(b"capacity");
    let capacity = words.number(1, 1 << 20) as usize;
    words.end_line();

    let mut marks: Vec<(u32, Mark)> = Vec::new();
    let left = loop {
        words.blanks();
        if !bytes.get(words.at).is_some_and(u8::is_ascii_digit) {
            words.fixed(b"left");
            let left = words.number(0, 1 << 20);
            words.end_line();
            break left;
        }
        words.number(marks.len() as u64, marks.len() as u64);
        let seat = words.number(1, seats as u64) as u32;
        let mark = match words.word() {
            b"+" => {
                let raw = words.entry();
                match words.word() {
                    b"done" => Mark::Added(raw),
                    b"full" => Mark::Full,
                    _ => words.refuse("word"),
                }
            }
            b"-" => match words.word() {
                b"got" => Mark::Got(words.entry(), u32::MAX),
                b"empty" => Mark::Empty,
                _ => words.refuse("word"),
            },
            b"<" => {
                let limit = words.number(0, 1 << 26) as u32;
                match words.word() {
                    b"got" => Mark::Got(words.entry(), limit),
                    b"empty" => Mark::Empty,
                    b"above" => Mark::Above(limit),
                    _ => words.refuse("word"),
                }
            }
            _ => words.refuse("word"),
        };
        words.end_line();
        marks.push((seat, mark));
    };

    let mut held = BinaryHeap::new();
    for (place, (_, mark)) in marks.iter().enumerate() {
        let is_step = match *mark {
            Mark::Added(raw) => {
                let fits = held.len() < capacity;
                held.push(Reverse(raw));
                fits
            }
            Mark::Full => held.len() + seats > capacity,
            Mark::Got(raw, limit) => raw >> 22 < u64::from(limit) && held.pop() == Some(Reverse(raw)),
            Mark::Empty => held.is_empty(),
            Mark::Above(limit) => held.peek().is_some_and(|Reverse(raw)| raw >> 22 >= u64::from(limit)),
        };
        if !is_step {
            println!("bad {place}");
            exit(1);
        }
    }
    if held.len() as u64 != left {
        println!("bad {}", marks.len());
        exit(1);
    }
    println!("legal\nleft {left}");
    Ok(())
}
