//! How long a value alone takes beside the Rust's: a product, and its quotient by SCALE.

use crate::leaf::value;
use scenario::Random;
use std::hint::black_box;
use std::time::Instant;
use threshcoil_sys as port;

/// A size of order: the most whole shares and the highest price, in cents.
type Size = (u64, u64);

const COMMON: Size = (1_000, 50_000);
const OF_A_WORD: Size = (1_000_000, 10_000_000);
const OF_TWO_WORDS: Size = (100_000_000, 1_000_000_000);

const SORTS: [(&str, &[Size]); 4] = [
    ("of common size", &[COMMON]),
    ("products of one word", &[OF_A_WORD]),
    ("products of two words", &[OF_TWO_WORDS]),
    ("of all sizes, mixed", &[COMMON, OF_A_WORD, OF_TWO_WORDS]),
];

fn order(random: &mut Random, sizes: &[Size]) -> (i64, i64) {
    let (shares, cents) = random.pick(sizes);
    let quantity = random.below(shares + 1) as i64 * 1_000_000;
    (if random.one_in(2) { -quantity } else { quantity }, 1 + random.below(cents) as i64)
}

/// Nanoseconds a call, the best of several turns that go back and forth between the two: calls that need nothing of each other, then
/// calls of which each waits for the one before.
pub fn bench(seed: u64) -> bool {
    const TURNS: usize = 200;
    const CALLS: usize = 4_096;
    println!("values: nanoseconds a call, best of {TURNS} turns over {CALLS} orders of each sort");
    let mut random = Random::new(seed);
    for (sort, sizes) in SORTS {
        let orders: Vec<(i64, i64)> = (0..CALLS).map(|_| order(&mut random, sizes)).collect();
        let apart = |value: fn(i64, i64) -> i64| {
            let start = Instant::now();
            orders.iter().for_each(|&(quantity, price)| _ = black_box(value(quantity, price)));
            start.elapsed().as_secs_f64() / CALLS as f64 * 1e9
        };
        let chained = |value: fn(i64, i64) -> i64| {
            let start = Instant::now();
            black_box(orders.iter().fold(0, |last, &(quantity, price)| value(quantity ^ (last & 1), price)));
            start.elapsed().as_secs_f64() / CALLS as f64 * 1e9
        };
        let ours: fn(i64, i64) -> i64 = |quantity, price| port::tc_value(quantity, price);
        let mut best = [f64::MAX; 4];
        for _ in 0..TURNS {
            let turn = [apart(value), apart(ours), chained(value), chained(ours)];
            best = std::array::from_fn(|k| best[k].min(turn[k]));
        }
        let [rust, port, rust_chained, port_chained] = best;
        println!(
            "  {sort}: Rust {rust:.2}, port {port:.2}, ratio {:.2}; in a chain {rust_chained:.2}, {port_chained:.2}, ratio {:.2}",
            port / rust,
            port_chained / rust_chained
        );
    }
    true
}
