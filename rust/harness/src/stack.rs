//! How much stack the deepest call takes: a thread's stack below this frame is painted, a call is made, and what it left
//! of the paint is looked at.

use std::hint::black_box;
use std::ptr::{read_volatile, write_volatile};
use threshcoil_sys as port;
use threshcoil_sys::layout::{self, Setting};

const SYMBOLS: usize = 64;
/// Painted and looked at below the caller's frame.
const DEPTH: usize = 192 * 1024;
/// What phones' small stacks leave.
const MOST: usize = 64 * 1024;
const PAINT: u8 = 0xa5;

/// The largest group of a house return, and its whole numbers: changes, first sums, parts' changes.
const ACCOUNTS: usize = 32;
const PARTS: usize = 64;
const HOUSE_PLACES: usize = 1 + ACCOUNTS + 2 * PARTS;

struct Lent {
    account: Vec<u8>,
    targets: Vec<u8>,
    prices: Vec<u8>,
    records: Vec<u8>,
    file: Vec<u8>,
    equities: Vec<i64>,
    returns: Vec<f64>,
}

fn entries<T>(count: usize, value: impl Fn(usize) -> T, bytes: impl Fn(T) -> [u8; 8]) -> Vec<u8> {
    // Falling symbols, so that the prices have to be sorted first, which is the deeper way.
    (0..count)
        .rev()
        .flat_map(|k| [*format!("S{k:07}").as_bytes().first_chunk().unwrap(), bytes(value(k))].concat())
        .collect()
}

/// An account with 64 positions under a cap and cash-first mode, and what the calls on it are lent.
fn lent() -> Lent {
    let mut settings = [[0; layout::WORD_SIZE]; layout::SETTINGS.len()];
    for (setting, word) in [
        (Setting::CommissionBps, 10f64.to_bits()),
        (Setting::SlippageBps, 2f64.to_bits()),
        (Setting::MinCommission, 1),
        (Setting::QuantityStep, 1_000),
        (Setting::CapMark, 1),
        (Setting::CapCount, 60),
        (Setting::Recording, 1),
        (Setting::CashFirst, 1),
    ] {
        settings[setting as usize] = word.to_le_bytes();
    }
    let mut lent = Lent {
        account: vec![0; layout::ACCOUNT_SIZE],
        targets: entries(SYMBOLS, |k| 1.0 / (k + 40) as f64, f64::to_le_bytes),
        prices: entries(2 * SYMBOLS, |k| 1_000 + k as i64, i64::to_le_bytes),
        records: vec![0; SYMBOLS * layout::RECORD_SIZE],
        file: vec![0; layout::FILE_SIZE],
        equities: vec![0; HOUSE_PLACES],
        returns: vec![0.0; 4_096],
    };
    let Lent { account, targets, prices, records, equities, .. } = &mut lent;
    assert_eq!(port::tc_open(100_000_000, settings.as_flattened(), account, equities), 0);
    assert_eq!(port::tc_set_max_trades_per_rebalance(account, 0, 0), 0);
    assert_eq!(port::tc_rebalance_simple(account, targets, prices, 0, 0, records), 64 << 8);
    assert_eq!(port::tc_set_max_trades_per_rebalance(account, 1, 60), 0);
    let length = port::tc_save(&lent.account, &mut lent.file) >> 8;
    lent.file.truncate(length as usize);
    // The same holdings at other prices, so that a rebalance has orders again.
    lent.prices = entries(2 * SYMBOLS, |k| 2_000 - 7 * k as i64, i64::to_le_bytes);
    lent
}

/// Something that a thread runs on a painted stack; how deep it went.
fn depth(call: fn(&mut Lent) -> u64) -> (u64, usize) {
    let taken = move || {
        let mut lent = lent();
        let mark = 0u8;
        let top = (&raw const mark as usize) - 1_024;
        for at in top - DEPTH..top {
            // SAFETY: the thread's stack reaches 1 MiB below, and nothing lives under this frame but what this loop calls.
            unsafe { write_volatile(at as *mut u8, PAINT) };
        }
        let answer = black_box(call)(&mut lent);
        // SAFETY: as above.
        let clean = (top - DEPTH..top).take_while(|at| unsafe { read_volatile(*at as *const u8) } == PAINT).count();
        (answer, DEPTH - clean + 1_024)
    };
    std::thread::Builder::new().stack_size(1 << 20).spawn(taken).expect("a thread").join().expect("a call that ends")
}

pub fn run() -> bool {
    let calls: [(&str, fn(&mut Lent) -> u64); 10] = [
        ("tc_open", |l| {
            let settings = l.account[layout::bytes_of(layout::SETTINGS_FROM, layout::SETTINGS.len())].to_vec();
            port::tc_open(1, &settings, &mut l.account, &mut l.equities)
        }),
        ("tc_set_quantity_step", |l| port::tc_set_quantity_step(&mut l.account, 1)),
        ("tc_rebalance_simple", |l| {
            port::tc_rebalance_simple(&mut l.account, &l.targets, &l.prices, 1, 0, &mut l.records)
        }),
        ("tc_close_position_at", |l| {
            port::tc_close_position_at(&mut l.account, u64::from_be_bytes(*b"S0000007"), 900, 1, 1, &mut l.records)
        }),
        ("tc_record_return", |l| port::tc_record_return(&mut l.account, &l.prices, &mut l.equities, &mut l.returns)),
        ("tc_snapshot", |l| {
            port::tc_snapshot(
                &l.account,
                &l.prices,
                &mut [0; layout::SNAPSHOT_SIZE],
                &mut l.records[..layout::WEIGHTS_SIZE],
            )
        }),
        ("tc_save", |l| port::tc_save(&l.account, &mut l.records)),
        ("tc_load", |l| port::tc_load(&l.file, &mut l.account)),
        ("tc_figures", |l| port::tc_figures(&l.returns, &mut [0.0; 6], &mut [0; 3])),
        ("tc_house_return", |l| {
            const ENDS: usize = 2 * ACCOUNTS * PARTS;
            let (changes, sums) = l.equities.split_at_mut(1 + ACCOUNTS);
            let (firsts, gains) = sums.split_at_mut(PARTS);
            let (n, m, rates) = (ACCOUNTS as u64, PARTS as u64, &mut l.returns[..1 + PARTS]);
            port::tc_house_return(n, m, &[1; ENDS], &[1_000; ENDS], rates, changes, firsts, gains)
        }),
    ];
    calls.iter().fold(true, |small, (name, call)| {
        let (answer, bytes) = depth(*call);
        println!("stack: {name:<22} {bytes:>7} bytes (answer {}, {} written)", answer % 256, answer >> 8);
        small && answer % 256 == 0 && bytes < MOST
    })
}
