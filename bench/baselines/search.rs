//! The baseline of `bench/workers`: a sketch of the search by several workers over the sketch of the heap, in plain
//! Rust.
//!
//! Words: how many workers, the node limit, and `knapsack`, `dispatch` or `active`. It goes as
//! `docs/parallel-search.md` tells: nodes lie in a store by number, a worker removes the least entry below the best
//! cost and takes its node, draws numbers for all children that it keeps by one step, and puts and inserts each. Where
//! no turn was open twice running an idle worker ends, and one goes on alone once all have ended. It ends with 4 where
//! the limit was too low. What goes to standard error is how many nodes were made.
mod parts {
    pub mod heap;
    pub mod knapsack;
    pub mod sharing;
    pub mod shop;
}
use parts::heap::{IDS, KEY_LIMIT, Sketch};
use parts::knapsack::{self, Knapsack};
use parts::sharing::{Control, Store};
use parts::shop::{self, Shop};
use std::io::{self, Read};
use std::process::ExitCode;
use std::thread;

/// What is searched. A plan is the leaf's node.
trait Problem: Sync {
    type Node: Send;
    type Scratch: Send;
    fn scratch(&self) -> Self::Scratch;
    fn root(&self) -> Self::Node;
    fn bound(&self, node: &Self::Node, scratch: &mut Self::Scratch) -> u32;
    /// The cost of a leaf's plan, else the children are shown.
    fn expand(&self, node: &Self::Node, show: impl FnMut(Self::Node)) -> Option<u32>;
    fn write(&self, cost: u32, node: &Self::Node);
}

impl Problem for Shop {
    type Node = shop::Node;
    type Scratch = shop::Scratch;

    fn scratch(&self) -> shop::Scratch {
        Shop::scratch(self)
    }

    fn root(&self) -> shop::Node {
        Shop::root(self)
    }

    fn bound(&self, node: &shop::Node, scratch: &mut shop::Scratch) -> u32 {
        Shop::bound(self, node, scratch)
    }

    fn expand(&self, node: &shop::Node, show: impl FnMut(shop::Node)) -> Option<u32> {
        Shop::expand(self, node, show)
    }

    fn write(&self, cost: u32, node: &shop::Node) {
        Shop::write(self, cost, node)
    }
}

/// A knapsack of at most 64 times `WORDS` items.
struct Bag<const WORDS: usize>(Knapsack);

impl<const WORDS: usize> Problem for Bag<WORDS> {
    type Node = knapsack::Node<WORDS>;
    type Scratch = ();

    fn scratch(&self) {}

    fn root(&self) -> knapsack::Node<WORDS> {
        self.0.root()
    }

    fn bound(&self, node: &knapsack::Node<WORDS>, _: &mut ()) -> u32 {
        self.0.bound(node)
    }

    fn expand(&self, node: &knapsack::Node<WORDS>, mut show: impl FnMut(knapsack::Node<WORDS>)) -> Option<u32> {
        if node.depth as usize == self.0.order.len() {
            return Some(self.0.total() - node.value);
        }
        if self.0.fits(node) {
            show(self.0.child(node, true));
        }
        show(self.0.child(node, false));
        None
    }

    fn write(&self, _: u32, node: &knapsack::Node<WORDS>) {
        self.0.write(node)
    }
}

struct Search<'a, P: Problem> {
    problem: &'a P,
    heap: Sketch,
    store: Store<P::Node>,
    control: Control,
}

/// A worker: its seat at the heap, the children of the branch at hand that it keeps, and the best plan that it found.
struct Worker<P: Problem> {
    seat: u64,
    scratch: P::Scratch,
    kept: Vec<(u32, P::Node)>,
    found: Option<(u32, P::Node)>,
}

/// The search has to stop early.
struct Stop;

impl<P: Problem> Search<'_, P> {
    fn put(&self, seat: u64, number: u64, key: u32, node: P::Node) -> Result<(), Stop> {
        self.store.put(number, node);
        self.heap.insert(seat, u64::from(key) * IDS + number).map(|_| ()).ok_or(Stop)
    }

    /// A turn: whether the worker found an entry below the best cost.
    fn take_turn(&self, worker: &mut Worker<P>) -> Result<bool, Stop> {
        self.control.opened();
        let removed = self.heap.remove_below(worker.seat, self.control.best());
        if let Some((entry, _)) = removed {
            let node = self.store.take(entry % IDS);
            self.expand(worker, entry / IDS, node)?;
        }
        self.control.closed();
        Ok(removed.is_some())
    }

    fn expand(&self, worker: &mut Worker<P>, key: u64, node: P::Node) -> Result<(), Stop> {
        let best = self.control.best();
        if key >= best {
            return Ok(());
        }
        let Worker { seat, scratch, kept, found } = worker;
        let leaf = self.problem.expand(&node, |child| {
            let bound = self.problem.bound(&child, scratch);
            if u64::from(bound) < best {
                kept.push((bound, child));
            }
        });
        if let Some(cost) = leaf.filter(|cost| u64::from(*cost) < best) {
            self.control.better(u64::from(cost));
            *found = Some((cost, node));
        }
        if kept.is_empty() {
            return Ok(());
        }
        let first = self.store.draw(kept.len() as u64).ok_or(Stop)?;
        for (number, (key, child)) in (first..).zip(kept.drain(..)) {
            self.put(*seat, number, key, child)?;
        }
        Ok(())
    }

    fn run(&self, worker: &mut Worker<P>) {
        let mut was_idle = false;
        loop {
            match self.take_turn(worker) {
                Ok(true) => was_idle = false,
                Ok(false) => {
                    let idle = self.control.is_idle();
                    if self.control.is_stopped() || idle && was_idle {
                        return;
                    }
                    was_idle = idle;
                    thread::yield_now();
                }
                Err(Stop) => return self.control.stop(),
            }
        }
    }

    /// The best plan, or nothing where the search stopped early.
    fn search(&self, workers: u64) -> Option<(u32, P::Node)> {
        let root = self.problem.root();
        let mut all: Vec<Worker<P>> = (1..=workers)
            .map(|seat| Worker { seat, scratch: self.problem.scratch(), kept: Vec::new(), found: None })
            .collect();
        let key = self.problem.bound(&root, &mut all[0].scratch);
        let number = self.store.draw(1)?;
        self.put(1, number, key, root).ok()?;
        let (first, rest) = all.split_first_mut()?;
        thread::scope(|scope| {
            for worker in rest {
                scope.spawn(move || self.run(worker));
            }
            self.run(first);
        });
        while !self.control.is_stopped() && self.take_turn(&mut all[0]).ok()? {}
        if self.control.is_stopped() {
            return None;
        }
        all.into_iter().filter_map(|worker| worker.found).min_by_key(|found| found.0)
    }
}

fn solve<P: Problem>(problem: &P, workers: u64, limit: u64) -> ExitCode {
    let search = Search {
        problem,
        heap: Sketch::new(limit + workers),
        store: Store::new(limit),
        control: Control::new(KEY_LIMIT),
    };
    let found = search.search(workers);
    eprintln!("{} nodes", search.store.made().min(limit));
    let Some((cost, node)) = found else {
        return ExitCode::from(4);
    };
    problem.write(cost, &node);
    ExitCode::SUCCESS
}

fn main() -> io::Result<ExitCode> {
    let words: Vec<String> = std::env::args().skip(1).collect();
    let [workers, limit, kind] = words.as_slice() else { panic!("workers, a node limit and a problem") };
    let (workers, limit) = (workers.parse().expect("workers"), limit.parse().expect("a node limit"));
    let mut text = String::new();
    io::stdin().lock().read_to_string(&mut text)?;
    Ok(match kind.as_str() {
        "knapsack" => {
            let knapsack = Knapsack::new(&text);
            match knapsack.order.len().div_ceil(64) {
                0 | 1 => solve(&Bag::<1>(knapsack), workers, limit),
                _ => solve(&Bag::<16>(knapsack), workers, limit),
            }
        }
        branching => solve(&Shop::new(&text, branching == "active"), workers, limit),
    })
}
