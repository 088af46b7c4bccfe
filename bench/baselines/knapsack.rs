//! The baseline of `pq solve knapsack`: the same order, bound and best-first search in plain Rust, with std's
//! `BinaryHeap` as the queue. What goes to standard error is how many nodes were made.
mod parts {
    pub mod knapsack;
}
use parts::knapsack::{Knapsack, Node};
use std::cmp::Reverse;
use std::collections::BinaryHeap;
use std::io::{self, Read};

fn solve<const WORDS: usize>(problem: &Knapsack) {
    let root = problem.root::<WORDS>();
    let mut queue = BinaryHeap::new();
    queue.push(Reverse((problem.bound(&root), 0u32)));
    let mut store = vec![root];
    let mut best: Option<Node<WORDS>> = None;
    while let Some(Reverse((bound, number))) = queue.pop() {
        let node = store[number as usize];
        let cost = best.as_ref().map_or(u32::MAX, |found| problem.total() - found.value);
        if bound >= cost {
            break;
        }
        if node.depth as usize == problem.order.len() {
            best = Some(node);
            continue;
        }
        let fits = problem.fits(&node);
        for takes in [true, false] {
            if takes && !fits {
                continue;
            }
            let child = problem.child(&node, takes);
            let bound = problem.bound(&child);
            if bound < cost {
                queue.push(Reverse((bound, store.len() as u32)));
                store.push(child);
            }
        }
    }
    problem.write(&best.expect("the empty choice is feasible"));
    eprintln!("{} nodes", store.len());
}

fn main() -> io::Result<()> {
    let mut text = String::new();
    io::stdin().lock().read_to_string(&mut text)?;
    let problem = Knapsack::new(&text);
    match problem.order.len().div_ceil(64) {
        0 | 1 => solve::<1>(&problem),
        2 => solve::<2>(&problem),
        _ => solve::<16>(&problem),
    }
    Ok(())
}
