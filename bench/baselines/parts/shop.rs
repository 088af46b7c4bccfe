//! The job shop as the searches in plain Rust have it, with both branchings and their bounds. A node is one box of
//! numbers: the ready times of jobs and machines, each job's next step, and the dispatched jobs, four to a number.

#[derive(Clone, Copy)]
struct Operation {
    machine: usize,
    time: u32,
    tail: u32,
}

#[derive(Clone, Copy)]
struct Load {
    head: u32,
    time: u32,
    tail: u32,
}

const IDLE: Load = Load { head: u32::MAX, time: 0, tail: u32::MAX };

pub struct Shop {
    active: bool,
    jobs: usize,
    machines: usize,
    operations: Vec<Operation>,
}

pub type Node = Box<[u32]>;

/// What the bounds are found in, to be used again and again.
pub struct Scratch {
    loads: Vec<Load>,
    rows: Vec<Vec<Load>>,
}

impl Shop {
    pub fn new(text: &str, active: bool) -> Shop {
        let mut numbers = text.split_ascii_whitespace().map(|word| word.parse::<u32>().expect("a number"));
        let jobs = numbers.next().expect("a number of jobs") as usize;
        let machines = numbers.next().expect("a number of machines") as usize;
        let mut operations: Vec<Operation> = (0..jobs * machines)
            .map(|_| Operation { machine: numbers.next().unwrap() as usize, time: numbers.next().unwrap(), tail: 0 })
            .collect();
        for job in operations.chunks_mut(machines) {
            let mut tail = 0;
            for operation in job.iter_mut().rev() {
                operation.tail = tail;
                tail += operation.time;
            }
        }
        Shop { active, jobs, machines, operations }
    }

    pub fn root(&self) -> Node {
        vec![0; 2 * self.jobs + self.machines + self.operations.len().div_ceil(4)].into_boxed_slice()
    }

    pub fn scratch(&self) -> Scratch {
        Scratch { loads: vec![IDLE; self.machines], rows: vec![Vec::new(); self.machines] }
    }

    /// The bound of the branching.
    #[inline(always)]
    pub fn bound(&self, node: &Node, scratch: &mut Scratch) -> u32 {
        if self.active {
            self.active_bound(node, &mut scratch.rows)
        } else {
            self.dispatch_bound(node, &mut scratch.loads)
        }
    }

    /// The makespan of a node that has all operations dispatched, else shows each child of the branching, in order.
    #[inline(always)]
    pub fn expand(&self, node: &Node, mut show: impl FnMut(Node)) -> Option<u32> {
        let depth = self.depth(node);
        if depth == self.operations.len() {
            return Some(node[..self.jobs].iter().copied().max().unwrap_or(0));
        }
        let first = if self.active { self.first_end(node) } else { None };
        for job in 0..self.jobs {
            let Some((next, start)) = self.next(node, job) else {
                continue;
            };
            if first.is_some_and(|(end, j, machine)| job != j && (next.machine != machine || start >= end)) {
                continue;
            }
            let mut child = node.clone();
            self.dispatch(&mut child, job, depth);
            show(child);
        }
        None
    }

    /// Writes the plan of a node that has all operations dispatched.
    pub fn write(&self, makespan: u32, node: &Node) {
        println!("makespan {makespan}");
        for row in self.starts(node) {
            println!("{}", row.iter().map(u32::to_string).collect::<Vec<_>>().join(" "));
        }
    }

    fn step(&self, node: &Node, job: usize) -> usize {
        node[self.jobs + self.machines + job] as usize
    }

    fn dispatch(&self, node: &mut Node, job: usize, depth: usize) -> u32 {
        let step = self.step(node, job);
        let operation = self.operations[job * self.machines + step];
        let start = node[job].max(node[self.jobs + operation.machine]);
        node[job] = start + operation.time;
        node[self.jobs + operation.machine] = start + operation.time;
        node[self.jobs + self.machines + job] += 1;
        node[2 * self.jobs + self.machines + depth / 4] |= (job as u32) << (8 * (depth % 4));
        start
    }

    fn dispatch_bound(&self, node: &Node, loads: &mut [Load]) -> u32 {
        loads.fill(IDLE);
        let mut most = self.finishes(node, |operation, head| {
            let load = &mut loads[operation.machine];
            load.head = load.head.min(head);
            load.time += operation.time;
            load.tail = load.tail.min(operation.tail);
        });
        for load in loads.iter().filter(|load| load.head != u32::MAX) {
            most = most.max(load.head + load.time + load.tail);
        }
        most
    }

    /// The greatest bound of one machine, over all sets of its operations: the least head, the sum of the times and the
    /// least tail. The sets that matter have all operations whose head and tail are not below two given ones.
    fn active_bound(&self, node: &Node, rows: &mut [Vec<Load>]) -> u32 {
        rows.iter_mut().for_each(Vec::clear);
        let mut most = self.finishes(node, |&Operation { machine, time, tail }, head| {
            let row = &mut rows[machine];
            let at = row.iter().position(|load| load.tail < tail).unwrap_or(row.len());
            row.insert(at, Load { head, time, tail });
        });
        for row in rows.iter() {
            for &Load { head, .. } in row {
                let mut sum = head;
                for load in row.iter().filter(|load| load.head >= head) {
                    sum += load.time;
                    most = most.max(sum + load.tail);
                }
            }
        }
        most
    }

    /// Shows each operation that is left with its head. Gives the greatest finish of a job and ready time of a machine.
    fn finishes(&self, node: &Node, mut show: impl FnMut(&Operation, u32)) -> u32 {
        let (ready, rest) = node.split_at(self.jobs);
        let (machines, steps) = rest.split_at(self.machines);
        let mut most = machines.iter().copied().max().unwrap_or(0);
        for (job, operations) in self.operations.chunks(self.machines).enumerate() {
            let mut end = ready[job];
            for operation in &operations[steps[job] as usize..] {
                let head = end.max(machines[operation.machine]);
                show(operation, head);
                end = head + operation.time;
            }
            most = most.max(end);
        }
        most
    }

    /// A job's next operation, with its start.
    #[inline(always)]
    fn next(&self, node: &Node, job: usize) -> Option<(Operation, u32)> {
        let step = self.step(node, job);
        let operation = *self.operations[job * self.machines..][..self.machines].get(step)?;
        Some((operation, node[job].max(node[self.jobs + operation.machine])))
    }

    /// The job whose next operation ends first, with its machine and that end.
    fn first_end(&self, node: &Node) -> Option<(u32, usize, usize)> {
        (0..self.jobs)
            .filter_map(|job| self.next(node, job).map(|(next, start)| (start + next.time, job, next.machine)))
            .min()
    }

    fn depth(&self, node: &Node) -> usize {
        (0..self.jobs).map(|job| self.step(node, job)).sum()
    }

    fn starts(&self, node: &Node) -> Vec<Vec<u32>> {
        let mut again = self.root();
        let mut rows = vec![Vec::new(); self.jobs];
        for depth in 0..self.operations.len() {
            let job = (node[2 * self.jobs + self.machines + depth / 4] >> (8 * (depth % 4))) as usize & 255;
            let start = self.dispatch(&mut again, job, depth);
            rows[job].push(start);
        }
        rows
    }
}
