//! Writes logs of grammar G as u16 tokens, 4,096 to a log: `make_logs SEED correct|damaged`.

use compare::generate::log::{self, Sampler};
use compare::generate::{families, Random};
use std::io::Write;

fn main() {
    let words: Vec<String> = std::env::args().skip(1).collect();
    let [seed, kind] = words.as_slice() else {
        panic!("usage: make_logs SEED correct|damaged");
    };
    let mut random = Random::new(seed.parse().expect("a number"));
    let g = families::bench_g();
    let sampler = Sampler::new(&g);
    for _ in 0..16 {
        let tokens = if kind == "damaged" {
            let more = sampler.string(&mut random, 64, 5_120, 200);
            let mut damaged = log::damaged(&mut random, &more, g.t(), 50);
            damaged.truncate(4_096);
            damaged
        } else {
            sampler.exact(&mut random, 4_096)
        };
        let bytes: Vec<u8> = tokens.iter().flat_map(|t| t.to_le_bytes()).collect();
        std::io::stdout().write_all(&bytes).expect("written");
    }
}
