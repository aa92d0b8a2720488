//! How long saving and loading take, beside a copy of the account's bytes, beside a query that does little more than ask whether they are a sound
//! account, and beside the Rust's JSON where this build has it.

use crate::bench::{BATCHES, CALLS, batch, holding, median};
use oracle::Timed;
use std::hint::black_box;
use threshcoil::Account;
use threshcoil_sys as port;
use threshcoil_sys::layout::{ACCOUNT_SIZE, FILE_SIZE};

/// What is timed, in the order in which it is told.
const ROWS: [&str; 6] =
    ["save on bytes", "save by the crate", "load on bytes", "load by the crate", "a cash query", "a copy of the bytes"];

/// A batch of each.
fn ours(account: &Account, file: &[u8]) -> [f64; ROWS.len()] {
    let (bytes, mut room, mut back) = (account.as_bytes(), [0; FILE_SIZE], [0; ACCOUNT_SIZE]);
    let done = |answer: u64| assert_eq!(answer % 256, 0);
    [
        batch(|| (0..CALLS).for_each(|_| done(port::tc_save(black_box(bytes), &mut room)))),
        batch(|| (0..CALLS).for_each(|_| _ = black_box(black_box(account).saved()))),
        batch(|| (0..CALLS).for_each(|_| done(port::tc_load(black_box(file), &mut back)))),
        batch(|| (0..CALLS).for_each(|_| _ = black_box(Account::load(black_box(file))))),
        batch(|| (0..CALLS).for_each(|_| done(port::tc_cash(black_box(bytes), &mut [0; 8])))),
        batch(|| (0..CALLS).for_each(|_| black_box(&mut back).copy_from_slice(black_box(bytes)))),
    ]
}

/// The Rust's account into JSON and out of it.
fn theirs(rust: &mut Timed, json: &str) -> [f64; 2] {
    [
        batch(|| (0..CALLS).for_each(|_| _ = black_box(black_box(&*rust).to_json()))),
        batch(|| (0..CALLS).for_each(|_| assert!(rust.load_json(black_box(json))))),
    ]
}

fn medians<const N: usize>(batches: impl Iterator<Item = [f64; N]>) -> [f64; N] {
    let batches: Vec<[f64; N]> = batches.collect();
    std::array::from_fn(|k| median(batches.iter().map(|times| times[k]).collect()))
}

pub fn bench() -> bool {
    println!("saved: nanoseconds a call, median of {BATCHES} batches of {CALLS} calls");
    for n in [8, 64] {
        let (account, rust) = holding(n);
        let file = account.saved();
        assert_eq!(Account::load(&file), Ok(account));
        let times = medians((0..BATCHES).map(|_| ours(&account, &file)));
        let told: Vec<String> = ROWS.iter().zip(times).map(|(row, time)| format!("{row} {time:.0}")).collect();
        println!("  {n:>2} positions, a file of {} bytes: {}", file.len(), told.join(", "));
        match rust.and_then(|rust| rust.to_json().map(|json| (rust, json))) {
            Some((mut rust, json)) => {
                let [written, read] = medians((0..BATCHES).map(|_| theirs(&mut rust, &json)));
                println!("     the Rust's JSON of {} bytes: written {written:.0}, read {read:.0}", json.len());
            }
            None => println!(
                "     the Rust's JSON: SKIPPED, since this build has no serde or no nanobook; tools/json makes one"
            ),
        }
    }
    true
}
