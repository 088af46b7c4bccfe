//! Writes a job shop of so many jobs (the first word) and machines (the second), from a seed (the third): each job
//! visits the machines from a drawn one on, in a round, and each operation takes 1 to 20.
fn main() {
    let word = |at: usize, or: u64| std::env::args().nth(at).map_or(or, |word| word.parse().expect("a number"));
    let (jobs, machines, seed) = (word(1, 6), word(2, 6), word(3, 0));
    let mut state = 2 * seed + 1;
    let mut draw = |below: u64| {
        state ^= state << 13;
        state ^= state >> 7;
        state ^= state << 17;
        (state >> 16) % below
    };
    println!("{jobs} {machines}");
    for _ in 0..jobs {
        let first = draw(machines);
        let row: Vec<String> = (0..machines).map(|k| format!("{} {}", (first + k) % machines, 1 + draw(20))).collect();
        println!("{}", row.join(" "));
    }
}
