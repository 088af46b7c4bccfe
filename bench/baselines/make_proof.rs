//! Writes a knapsack of 22 items of weight 2 and value 2 with the capacity 23, which no choice fills; a best plan of it;
//! and the proof that no choice is worth more, as `pq prove` writes it.
use std::fmt::Write;

const ITEMS: u32 = 22;
const BEST: u32 = 22;

/// Puts the tokens of a node with so many items left, and of all that its proof visits under it.
fn visit(left: u32, room: u32, value: u32, tokens: &mut Vec<char>) {
    if value + room.min(2 * left) <= BEST {
        tokens.push('c');
    } else {
        tokens.push('b');
        if room >= 2 {
            visit(left - 1, room - 2, value + 2, tokens);
        }
        visit(left - 1, room, value, tokens);
    }
}

fn main() {
    let mut text = format!("{ITEMS} 23\n{}value {BEST}\nitems", "2 2\n".repeat(ITEMS as usize));
    (0..BEST / 2).for_each(|item| write!(text, " {item}").unwrap());
    let mut tokens = Vec::new();
    visit(ITEMS, 23, 0, &mut tokens);
    write!(text, "\nproof {}\n", tokens.len()).unwrap();
    tokens.iter().for_each(|token| writeln!(text, "{token}").unwrap());
    print!("{text}");
}
