//! The baseline of `pq solve shop`: the same branchings, bounds and best-first search in plain Rust, with std's
//! `BinaryHeap` as the queue. The first word is the node limit, and the second the branching, `dispatch` or `active`;
//! what goes to standard error is how many nodes were made.
mod parts {
    pub mod shop;
}
use parts::shop::{Node, Shop};
use std::cmp::Reverse;
use std::collections::BinaryHeap;
use std::io::{self, Read};
use std::process::exit;

fn main() -> io::Result<()> {
    let limit: usize = std::env::args().nth(1).map_or(usize::MAX, |word| word.parse().expect("a node limit"));
    let active = std::env::args().nth(2).is_some_and(|word| word == "active");
    let mut text = String::new();
    io::stdin().lock().read_to_string(&mut text)?;
    let shop = Shop::new(&text, active);
    let mut scratch = shop.scratch();
    let root = shop.root();
    let mut queue = BinaryHeap::new();
    queue.push(Reverse((shop.bound(&root, &mut scratch), 0usize)));
    let mut store = vec![Some(root)];
    let mut kept: Vec<(u32, Node)> = Vec::new();
    let mut best: Option<(u32, Node)> = None;
    while let Some(Reverse((bound, number))) = queue.pop() {
        let node = store[number].take().expect("each node is taken once");
        let cost = best.as_ref().map_or(u32::MAX, |found| found.0);
        if bound >= cost {
            break;
        }
        let leaf = shop.expand(&node, |child| {
            let bound = shop.bound(&child, &mut scratch);
            if bound < cost {
                kept.push((bound, child));
            }
        });
        if let Some(makespan) = leaf {
            best = Some((makespan, node));
        }
        if store.len() + kept.len() > limit {
            eprintln!("{} nodes", store.len());
            exit(4);
        }
        for (bound, child) in kept.drain(..) {
            queue.push(Reverse((bound, store.len())));
            store.push(Some(child));
        }
    }
    let (makespan, node) = best.expect("there is a schedule");
    shop.write(makespan, &node);
    eprintln!("{} nodes", store.len());
    Ok(())
}
