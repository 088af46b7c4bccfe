//! The baseline of `pq verify knapsack`: the same checks of a plan and a proof in plain Rust. It reads an instance, its
//! plan and its proof from standard input.
use std::io::{self, Read};

struct Problem {
    capacity: u64,
    items: Vec<(u64, u64)>,
    weights: Vec<u64>,
    values: Vec<u64>,
}

impl Problem {
    /// The items in the order of decisions, and the sums over it.
    fn new(capacity: u64, mut items: Vec<(u64, u64)>) -> Problem {
        items.sort_by(|a, b| (a.0 != 0).cmp(&(b.0 != 0)).then((b.1 * a.0).cmp(&(a.1 * b.0))));
        let sums = |of: fn(&(u64, u64)) -> u64| {
            let mut sum = 0;
            let mut all = vec![0];
            all.extend(items.iter().map(|item| {
                sum += of(item);
                sum
            }));
            all
        };
        let (weights, values) = (sums(|item| item.0), sums(|item| item.1));
        Problem { capacity, items, weights, values }
    }

    fn bound(&self, depth: usize, room: u64, value: u64) -> u64 {
        let limit = self.weights[depth] + room;
        let stop = depth + self.weights[depth + 1..].partition_point(|&sum| sum <= limit);
        let mut most = self.values[stop] - self.values[depth];
        if let Some(&(weight, worth)) = self.items.get(stop) {
            most += (limit - self.weights[stop]) * worth / weight;
        }
        self.values[self.items.len()] - value - most
    }

    fn first_bad(&self, cost: u64, tokens: &[bool]) -> Option<usize> {
        let mut path: Vec<bool> = Vec::with_capacity(self.items.len());
        let (mut room, mut value, mut over) = (self.capacity, 0, false);
        for (place, &token) in tokens.iter().enumerate() {
            if over {
                return Some(place);
            }
            if token {
                let Some(&(weight, worth)) = self.items.get(path.len()) else {
                    return Some(place);
                };
                let fits = weight <= room;
                path.push(fits);
                if fits {
                    room -= weight;
                    value += worth;
                }
            } else {
                if self.bound(path.len(), room, value) < cost {
                    return Some(place);
                }
                match path.iter().rposition(|&taken| taken) {
                    Some(last) => {
                        path.truncate(last);
                        path.push(false);
                        room += self.items[last].0;
                        value -= self.items[last].1;
                    }
                    None => over = true,
                }
            }
        }
        (!over).then_some(tokens.len())
    }
}

fn main() -> io::Result<()> {
    let mut text = String::new();
    io::stdin().lock().read_to_string(&mut text)?;
    let mut lines = text.lines();
    let mut numbers = |word: Option<&str>| -> Vec<u64> {
        let line = lines.next().expect("a line");
        let line = word.map_or(line, |word| line.strip_prefix(word).expect("the word"));
        line.split_ascii_whitespace().map(|number| number.parse().expect("a number")).collect()
    };
    let head = numbers(None);
    let items: Vec<(u64, u64)> = (0..head[0])
        .map(|_| {
            let item = numbers(None);
            (item[0], item[1])
        })
        .collect();
    let stated = numbers(Some("value"))[0];
    let chosen = numbers(Some("items"));
    let count = numbers(Some("proof"))[0] as usize;
    let tokens: Vec<bool> = lines
        .map(|line| match line {
            "b" => true,
            "c" => false,
            _ => panic!("a token"),
        })
        .collect();
    assert_eq!(tokens.len(), count);
    let load = |part: fn(&(u64, u64)) -> u64| chosen.iter().map(|&k| part(&items[k as usize])).sum::<u64>();
    let (weight, value) = (load(|item| item.0), load(|item| item.1));
    let total: u64 = items.iter().map(|item| item.1).sum();
    if weight > head[1] {
        println!("bad weight {weight}");
    } else if value != stated {
        println!("bad value {value}");
    } else {
        match Problem::new(head[1], items).first_bad(total - value, &tokens) {
            Some(place) => println!("bad token {place}"),
            None => println!("proved {value}"),
        }
    }
    Ok(())
}
