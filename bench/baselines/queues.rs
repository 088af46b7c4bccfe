//! The baselines of `bench/queues`: the hold model over a queue under one lock, and over a sketch of the
//! heap that the proved one is (`parts/heap.rs`).
//!
//! Words: which queue (`locked` or `sketch`), how many entries, how many threads, how many turns all threads make
//! together. Each turn removes the least entry, and inserts one with a greater key. What is printed is the time of all
//! turns, in nanoseconds of the clock.
mod parts {
    pub mod heap;
}
use parts::heap::{IDS, KEY_LIMIT, Sketch};
use std::cmp::Reverse;
use std::collections::BinaryHeap;
use std::sync::Mutex;
use std::thread;
use std::time::Instant;

/// Marsaglia's xorshift (Xorshift RNGs, 2003).
fn next(x: u64) -> u64 {
    let a = x ^ (x << 13);
    let b = a ^ (a >> 7);
    b ^ (b << 17)
}

/// A queue of entries, each one number: the key times 2^22, and the id.
trait Queue: Sync {
    fn insert(&self, seat: u64, entry: u64) -> Option<u64>;
    fn remove(&self, seat: u64) -> Option<(u64, u64)>;
}

struct Locked {
    held: Mutex<(BinaryHeap<Reverse<u64>>, u64)>,
    capacity: usize,
}

impl Queue for Locked {
    fn insert(&self, _seat: u64, entry: u64) -> Option<u64> {
        let mut held = self.held.lock().unwrap();
        held.1 += 1;
        if held.0.len() >= self.capacity {
            return None;
        }
        held.0.push(Reverse(entry));
        Some(held.1)
    }

    fn remove(&self, _seat: u64) -> Option<(u64, u64)> {
        let mut held = self.held.lock().unwrap();
        held.1 += 1;
        let Reverse(entry) = held.0.pop()?;
        Some((entry, held.1))
    }
}

impl Queue for Sketch {
    fn insert(&self, seat: u64, entry: u64) -> Option<u64> {
        self.insert(seat, entry)
    }

    fn remove(&self, seat: u64) -> Option<(u64, u64)> {
        self.remove_below(seat, KEY_LIMIT)
    }
}

/// Each turn takes the least entry, and puts it back with a key that is up to 2^15 greater.
fn hold(queue: &impl Queue, seat: u64, turns: u64) {
    let mut x = seat;
    for _ in 0..turns {
        if let Some((entry, _)) = queue.remove(seat) {
            x = next(x);
            let key = (entry / IDS + 1 + x % (1 << 15)).min(KEY_LIMIT - 1);
            queue.insert(seat, key * IDS + entry % IDS);
        }
    }
}

fn measure(queue: &impl Queue, entries: u64, threads: u64, turns: u64) {
    let mut x = 1;
    for id in 0..entries {
        x = next(x);
        queue.insert(1, x % (1 << 15) * IDS + id);
    }
    let start = Instant::now();
    thread::scope(|scope| {
        for seat in 1..=threads {
            scope.spawn(move || hold(queue, seat, turns / threads));
        }
    });
    println!("{}", start.elapsed().as_nanos());
    let mut last = 0;
    for _ in 0..entries {
        let (entry, _) = queue.remove(1).expect("as many are left as were put in");
        assert!(last <= entry);
        last = entry;
    }
    assert!(queue.remove(1).is_none());
}

fn main() {
    let mut words = std::env::args().skip(1);
    let queue = words.next().expect("a queue");
    let mut number = || words.next().expect("a number").parse().expect("a number");
    let (entries, threads, turns) = (number(), number(), number());
    let capacity = 2 * entries;
    match queue.as_str() {
        "locked" => {
            let held = Mutex::new((BinaryHeap::with_capacity(capacity as usize), 0));
            measure(&Locked { held, capacity: capacity as usize }, entries, threads, turns);
        }
        _ => measure(&Sketch::new(capacity), entries, threads, turns),
    }
}
