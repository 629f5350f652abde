// The work of turns_bench with std's Mutex: threads take turns at values in stock Rust.
// Words: LEVELS VALUES TURNS, for 2^LEVELS threads that make TURNS turns each.
use std::sync::Mutex;
use std::{env, process, thread};

struct Tally {
    count: u64,
    sum: u64,
}

fn work(tallies: &[Mutex<Tally>], first: u64, turns: u64) {
    for turn in first..first + turns {
        let mut tally = tallies[(turn % tallies.len() as u64) as usize].lock().unwrap();
        tally.count += 1;
        tally.sum = tally.sum.wrapping_add(turn);
    }
}

fn main() {
    let words: Vec<u64> = env::args().skip(1).filter_map(|word| word.parse().ok()).collect();
    let [levels, values, turns] = words[..] else { process::exit(2) };
    let tallies: Vec<_> = (0..values).map(|_| Mutex::new(Tally { count: 0, sum: 0 })).collect();
    thread::scope(|scope| {
        for first in 0..1u64 << levels {
            let tallies = &tallies;
            scope.spawn(move || work(tallies, first, turns));
        }
    });
    let count: u64 = tallies.iter().map(|tally| tally.lock().unwrap().count).sum();
    println!("{count}");
}
