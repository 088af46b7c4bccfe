//! What the workers of the search share beside the heap: the nodes by number, and the control. Every step on a word is
//! sequentially consistent.
use std::cell::UnsafeCell;
use std::sync::atomic::{AtomicU64, Ordering::SeqCst};

const NONE: u64 = 0;
const FULL: u64 = 1;
const DONE: u64 = 2;

/// Nodes by number, each put once and taken once. A number's word says who may touch its slot.
pub struct Store<N> {
    made: Apart,
    limit: u64,
    slots: Vec<(AtomicU64, UnsafeCell<Option<N>>)>,
}

// A slot is touched only by whoever drew its number and has not put yet, and by whoever turned its word to DONE.
unsafe impl<N: Send> Sync for Store<N> {}

impl<N> Store<N> {
    pub fn new(limit: u64) -> Store<N> {
        let slots = (0..limit).map(|_| (AtomicU64::new(NONE), UnsafeCell::new(None))).collect();
        Store { made: Apart::default(), limit, slots }
    }

    /// The first of so many numbers that are the caller's alone, or nothing where they pass the limit.
    pub fn draw(&self, count: u64) -> Option<u64> {
        let first = self.made.0.fetch_add(count, SeqCst);
        (first + count <= self.limit).then_some(first)
    }

    /// Puts the node under a number that the caller has drawn.
    pub fn put(&self, number: u64, node: N) {
        let (word, slot) = &self.slots[number as usize];
        unsafe { *slot.get() = Some(node) };
        word.store(FULL, SeqCst);
    }

    /// Takes the node that was put under the number.
    pub fn take(&self, number: u64) -> N {
        let (word, slot) = &self.slots[number as usize];
        word.compare_exchange(FULL, DONE, SeqCst, SeqCst).expect("each node is taken once");
        unsafe { (*slot.get()).take() }.expect("a node was put")
    }

    /// How many numbers were drawn.
    pub fn made(&self) -> u64 {
        self.made.0.load(SeqCst)
    }
}

/// A word that has two lines of the cache alone.
#[derive(Default)]
#[repr(align(128))]
struct Apart(AtomicU64);

/// How many turns are open, the best cost so far, and whether the search stops early.
pub struct Control {
    open: Apart,
    best: Apart,
    stop: Apart,
}

impl Control {
    /// No cost is known: every cost is below this one.
    pub fn new(above_all: u64) -> Control {
        Control { open: Apart::default(), best: Apart(AtomicU64::new(above_all)), stop: Apart::default() }
    }

    pub fn opened(&self) {
        self.open.0.fetch_add(1, SeqCst);
    }

    pub fn closed(&self) {
        self.open.0.fetch_sub(1, SeqCst);
    }

    pub fn is_idle(&self) -> bool {
        self.open.0.load(SeqCst) == 0
    }

    pub fn best(&self) -> u64 {
        self.best.0.load(SeqCst)
    }

    pub fn better(&self, cost: u64) {
        self.best.0.fetch_min(cost, SeqCst);
    }

    pub fn stop(&self) {
        self.stop.0.store(1, SeqCst);
    }

    pub fn is_stopped(&self) -> bool {
        self.stop.0.load(SeqCst) != 0
    }
}
