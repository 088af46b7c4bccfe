//! The knapsack as the searches in plain Rust have it: the order, the bound and the children. A node is its depth, room
//! and value, and the items taken as a set of bits, of as many words as the instance needs.

pub struct Knapsack {
    pub capacity: u64,
    pub order: Vec<usize>,
    pub items: Vec<(u64, u64)>,
    pub weights: Vec<u64>,
    pub values: Vec<u64>,
}

#[derive(Clone, Copy)]
pub struct Node<const WORDS: usize> {
    pub depth: u32,
    pub value: u32,
    pub room: u64,
    pub taken: [u64; WORDS],
}

impl Knapsack {
    /// Reads the instance, and puts its items into the order of their values for their weight.
    pub fn new(text: &str) -> Knapsack {
        let mut numbers = text.split_ascii_whitespace().map(|word| word.parse::<u64>().expect("a number"));
        let count = numbers.next().expect("a count") as usize;
        let capacity = numbers.next().expect("a capacity");
        let items: Vec<(u64, u64)> = (0..count).map(|_| (numbers.next().unwrap(), numbers.next().unwrap())).collect();
        let mut order: Vec<usize> = (0..count).collect();
        order.sort_by(|&a, &b| {
            let ((wa, va), (wb, vb)) = (items[a], items[b]);
            (wa != 0).cmp(&(wb != 0)).then((vb * wa).cmp(&(va * wb))).then(a.cmp(&b))
        });
        let sums = |of: fn((u64, u64)) -> u64| {
            let mut sum = 0;
            let mut all = vec![0];
            all.extend(order.iter().map(|&k| {
                sum += of(items[k]);
                sum
            }));
            all
        };
        let (weights, values) = (sums(|item| item.0), sums(|item| item.1));
        Knapsack { capacity, order, items, weights, values }
    }

    /// The sum of all values, but those of the taken items and Dantzig's bound of the rest.
    pub fn bound<const WORDS: usize>(&self, node: &Node<WORDS>) -> u32 {
        let from = node.depth as usize;
        let limit = self.weights[from] + node.room;
        let stop = from + self.weights[from + 1..].partition_point(|&sum| sum <= limit);
        let mut most = self.values[stop] - self.values[from];
        if stop < self.order.len() {
            let (weight, value) = self.items[self.order[stop]];
            most += (limit - self.weights[stop]) * value / weight;
        }
        (self.values[self.order.len()] - u64::from(node.value) - most) as u32
    }

    /// The child that takes the next item, or leaves it.
    pub fn child<const WORDS: usize>(&self, node: &Node<WORDS>, takes: bool) -> Node<WORDS> {
        let mut child = *node;
        let depth = node.depth as usize;
        if takes {
            let (weight, value) = self.items[self.order[depth]];
            child.room -= weight;
            child.value += value as u32;
            child.taken[depth / 64] |= 1 << (depth % 64);
        }
        child.depth += 1;
        child
    }

    pub fn root<const WORDS: usize>(&self) -> Node<WORDS> {
        Node { depth: 0, value: 0, room: self.capacity, taken: [0; WORDS] }
    }

    /// The sum of all values.
    pub fn total(&self) -> u32 {
        self.values[self.order.len()] as u32
    }

    /// Whether the next item fits, of a node that does not decide on all items.
    pub fn fits<const WORDS: usize>(&self, node: &Node<WORDS>) -> bool {
        self.items[self.order[node.depth as usize]].0 <= node.room
    }

    /// Writes the plan of a node that decides on all items.
    pub fn write<const WORDS: usize>(&self, node: &Node<WORDS>) {
        let mut numbers: Vec<usize> =
            (0..self.order.len()).filter(|&d| node.taken[d / 64] >> (d % 64) & 1 == 1).map(|d| self.order[d]).collect();
        numbers.sort();
        println!("value {}", node.value);
        println!("items{}", numbers.iter().map(|number| format!(" {number}")).collect::<String>());
    }
}
