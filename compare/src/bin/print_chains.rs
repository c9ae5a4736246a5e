//! Prints the grammars whose checks `visits` counts: `print_chains [SEED]`.
//!
//! A line for each: the number of rules, how often right sides mention a nonterminal, the number of words, the
//! words, and the grammar's name. They are those of the benchmark, large ones for the same seed, and the large
//! one twice more with its rules and nonterminals in another order.

use compare::generate::{chains, families, grammar, Draft, Random};

fn main() {
    let seed = std::env::args().nth(1).and_then(|s| s.parse().ok());
    let seed = seed.unwrap_or(1);
    for n in [8, 16, 32, 64] {
        print(&format!("chain {n} down"), &chains::down(n));
        print(&format!("chain {n} up"), &chains::up(n));
    }
    print("follow chain 64 down", &chains::follow_down(64));
    print("follow chain 64 up", &chains::follow_up(64));
    print("G", &families::bench_g());
    let large = grammar::large(&mut Random::new(seed), 200);
    print("large", &large);
    let mut random = Random::new(seed.rotate_left(16));
    let mut full = large.clone();
    grammar::fill_up(&mut random, &mut full, 256);
    print("large, more rules", &full);
    for _ in 0..2 {
        print("large, mixed", &chains::mixed(&mut random, &large).0);
    }
}

fn print(name: &str, draft: &Draft) {
    let words = draft.words();
    let text: Vec<String> = words.iter().map(u16::to_string).collect();
    println!(
        "{} {} {} {} {name}",
        draft.rules.len(),
        chains::mentions(draft),
        words.len(),
        text.join(" ")
    );
}
