//! Writes a knapsack of so many items (the second word), of a class that makes a search open many nodes (the first word):
//!
//! - `correlated`: weights 1 to 1,000 from a seed (the third word; 1 where there is none), each value its weight plus
//!   100, and a capacity of half the sum of weights;
//! - `equal`: weights and values 2, and an odd capacity of about half their sum, which no choice comes to.
fn main() {
    let word = |at: usize| std::env::args().nth(at);
    let number = |at: usize, or: u64| word(at).map_or(or, |word| word.parse().expect("a number"));
    let (items, mut state) = (number(2, 40), number(3, 1));
    let mut draw = |below: u64| {
        state ^= state << 13;
        state ^= state >> 7;
        state ^= state << 17;
        (state >> 16) % below
    };
    let (capacity, items): (u64, Vec<(u64, u64)>) = match word(1).as_deref() {
        Some("correlated") => {
            let weights: Vec<u64> = (0..items).map(|_| 1 + draw(1000)).collect();
            (weights.iter().sum::<u64>() / 2, weights.iter().map(|weight| (*weight, weight + 100)).collect())
        }
        Some("equal") => (items | 1, vec![(2, 2); items as usize]),
        _ => panic!("correlated or equal"),
    };
    println!("{} {capacity}", items.len());
    for (weight, value) in items {
        println!("{weight} {value}");
    }
}
