//! A sketch of the heap that the proved one is, with the protocol of `docs/heap.md`, whole: the heap's lock with the
//! size, a lock and a word for each node, inserts that are Busy with their owner while they climb, removers that place
//! such inserts and leave their owners a letter, holes that sift down, and one word for the length of the history, from
//! which each call draws its place. Every step is sequentially consistent. The layout is the same too.
use std::hint::spin_loop;
use std::sync::atomic::{AtomicU64, Ordering::SeqCst};
use std::thread;

pub const KEY_LIMIT: u64 = 1 << 26;
pub const IDS: u64 = 1 << 22;

const HEAP_LOCK: usize = 24;
const SIZE: usize = 25;
const AVAILABLE: u64 = 1 << 48;
const BUSY: u64 = 2 << 48;
const TAGS: u64 = 3 << 48;
const RAW: u64 = AVAILABLE - 1;

fn lock_of(node: u64) -> usize {
    32 + 4 * node as usize
}

fn word_of(node: u64) -> usize {
    33 + 4 * node as usize
}

fn busy(seat: u64, entry: u64) -> u64 {
    BUSY | (seat - 1) << 50 | entry
}

/// A number that children are compared by. An Empty node is above all.
fn rank(word: u64) -> u64 {
    if word & TAGS == 0 { AVAILABLE } else { word & RAW }
}

/// The seat whose insert a word has, where it is Busy.
fn owner(word: u64) -> Option<usize> {
    (word & TAGS == BUSY).then_some((word >> 50) as usize + 1)
}

/// The heap. An entry is one number: the key times 2^22, and the id.
pub struct Sketch {
    words: Vec<AtomicU64>,
    capacity: u64,
}

/// Waits as crossbeam's `Backoff::snooze` does.
struct Backoff(u32);

impl Backoff {
    fn snooze(&mut self) {
        if self.0 <= 6 {
            (0..1 << self.0).for_each(|_| spin_loop());
        } else {
            thread::yield_now();
        }
        self.0 = (self.0 + 1).min(11);
    }
}

impl Sketch {
    pub fn new(capacity: u64) -> Sketch {
        Sketch { words: (0..36 + 4 * capacity).map(|_| AtomicU64::new(0)).collect(), capacity }
    }

    fn lock(&self, word: usize, seat: u64) {
        let mut backoff = Backoff(0);
        while self.words[word].compare_exchange(0, seat, SeqCst, SeqCst).is_err() {
            backoff.snooze();
        }
    }

    fn unlock(&self, word: usize) {
        self.words[word].store(0, SeqCst);
    }

    fn load(&self, word: usize) -> u64 {
        self.words[word].load(SeqCst)
    }

    fn store(&self, word: usize, value: u64) {
        self.words[word].store(value, SeqCst);
    }

    fn draw(&self, marks: u64) -> u64 {
        self.words[0].fetch_add(marks, SeqCst)
    }

    /// Tells the owner of a Busy word its place. Without one there is nothing to tell.
    fn tell(&self, word: u64, place: u64) {
        if let Some(owner) = owner(word) {
            self.store(owner, place + 1);
        }
    }

    /// Lets the hole sift down until the entry in hand fills it.
    fn sift(&self, seat: u64, entry: u64) {
        let mut hole = 1;
        while 2 * hole <= self.capacity {
            let (left, right) = (2 * hole, 2 * hole + 1);
            self.lock(lock_of(left), seat);
            let left_word = self.load(word_of(left));
            let mut child = (left, left_word);
            if right <= self.capacity {
                self.lock(lock_of(right), seat);
                let right_word = self.load(word_of(right));
                if rank(right_word) < rank(left_word) {
                    child = (right, right_word);
                }
                if rank(child.1) < entry {
                    self.unlock(lock_of(left + right - child.0));
                } else {
                    self.unlock(lock_of(left));
                    self.unlock(lock_of(right));
                    break;
                }
            } else if rank(left_word) >= entry {
                self.unlock(lock_of(left));
                break;
            }
            self.store(word_of(hole), child.1);
            self.unlock(lock_of(hole));
            hole = child.0;
        }
        self.store(word_of(hole), AVAILABLE | entry);
        self.unlock(lock_of(hole));
    }

    /// Inserts an entry by the seat, and gives its place, or nothing where the heap is full.
    pub fn insert(&self, seat: u64, entry: u64) -> Option<u64> {
        self.lock(HEAP_LOCK, seat);
        let size = self.load(SIZE);
        if size >= self.capacity {
            self.draw(1);
            self.unlock(HEAP_LOCK);
            return None;
        }
        let mut node = size + 1;
        self.lock(lock_of(node), seat);
        self.store(SIZE, node);
        let own = busy(seat, entry);
        self.store(word_of(node), own);
        self.unlock(HEAP_LOCK);
        self.unlock(lock_of(node));
        let mut backoff = Backoff(0);
        while node > 1 {
            let parent = node / 2;
            self.lock(lock_of(parent), seat);
            self.lock(lock_of(node), seat);
            let (above, word) = (self.load(word_of(parent)), self.load(word_of(node)));
            let mut done = None;
            let mut up = parent;
            if word == own {
                if above & TAGS != AVAILABLE {
                    up = node;
                } else if entry < above & RAW {
                    self.store(word_of(parent), own);
                    self.store(word_of(node), above);
                } else {
                    done = Some(self.draw(1));
                    self.store(word_of(node), AVAILABLE | entry);
                }
            }
            self.unlock(lock_of(node));
            self.unlock(lock_of(parent));
            if done.is_some() {
                return done;
            }
            if up == node {
                backoff.snooze();
            }
            node = up;
        }
        self.lock(lock_of(1), seat);
        let place = if self.load(word_of(1)) == own {
            let place = self.draw(1);
            self.store(word_of(1), AVAILABLE | entry);
            place
        } else {
            self.words[seat as usize].swap(0, SeqCst).checked_sub(1).expect("the letter is there")
        };
        self.unlock(lock_of(1));
        Some(place)
    }

    /// Removes the least entry by the seat where its key is below the limit, and gives it with its place.
    pub fn remove_below(&self, seat: u64, limit: u64) -> Option<(u64, u64)> {
        self.lock(HEAP_LOCK, seat);
        let size = self.load(SIZE);
        if size == 0 {
            self.draw(1);
            self.unlock(HEAP_LOCK);
            return None;
        }
        self.lock(lock_of(1), seat);
        let root = self.load(word_of(1));
        let before = u64::from(owner(root).is_some());
        if (root & RAW) / IDS >= limit {
            let place = self.draw(1 + before);
            self.free_root(root, AVAILABLE | root & RAW, place);
            return None;
        }
        if size == 1 {
            self.store(SIZE, 0);
            let place = self.draw(1 + before);
            self.free_root(root, 0, place);
            return Some((root & RAW, place + before));
        }
        self.lock(lock_of(size), seat);
        let last = self.load(word_of(size));
        let behind = u64::from(owner(last).is_some());
        self.store(SIZE, size - 1);
        let place = self.draw(1 + before + behind);
        self.store(word_of(size), 0);
        self.tell(root, place);
        self.tell(last, place + before + 1);
        self.unlock(lock_of(size));
        self.unlock(HEAP_LOCK);
        self.sift(seat, last & RAW);
        Some((root & RAW, place + before))
    }

    /// Stores the root's new word, tells the owner of the insert that it held its place, and frees it and the heap.
    fn free_root(&self, root: u64, word: u64, place: u64) {
        self.store(word_of(1), word);
        self.tell(root, place);
        self.unlock(lock_of(1));
        self.unlock(HEAP_LOCK);
    }
}
