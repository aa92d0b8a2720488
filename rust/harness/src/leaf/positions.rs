//! A position as numbers: its symbol, then quantity, average, realized profit and total cost.

use super::Kind::{Bool, I64, U64};
use super::{CLAMPED, Class, Inputs, Kind, Leaf, PLAIN, padded};
use crate::place::{Answer, DONE};
use oracle::Leaves;
use scenario::Random;
use threshcoil_sys as port;

pub type Numbers = [i64; 4];

const SYMBOL: u64 = u64::from_be_bytes(*b"AAPL\0\0\0\0");

/// "1 to 8 bytes, each 33 to 126, padded with zeros"
fn is_good(symbol: u64) -> bool {
    let bytes = symbol.to_be_bytes();
    let length = bytes.iter().position(|b| *b == 0).unwrap_or(8);
    let (name, padding) = bytes.split_at(length);
    length > 0 && name.iter().all(|b| (33..=126).contains(b)) && padding.iter().all(|b| *b == 0)
}

/// "A flat position has average and total cost 0; otherwise the average is at least 0, a long's total cost is at least, and
/// a short's at most, its market value at its average", and its symbol is good.
pub fn is_sound(symbol: u64, [quantity, average, _, total]: Numbers) -> bool {
    let exact = i128::from(quantity) * i128::from(average) / 1_000_000;
    let worth = exact.clamp(i64::MIN as i128, i64::MAX as i128) as i64;
    let sound = match quantity {
        0 => average == 0 && total == 0,
        1.. => average >= 0 && worth <= total,
        _ => average >= 0 && total <= worth,
    };
    is_good(symbol) && sound
}

/// What a fill by itself is refused with; 0 where it is not.
pub fn refusal(symbol: u64, numbers: Numbers, price: i64) -> Answer {
    match (is_sound(symbol, numbers), price < 0) {
        (false, _) => Answer::plain(11),
        (true, true) => Answer::alone(4),
        (true, false) => DONE,
    }
}

/// Eight bytes, most of them a good symbol's.
pub fn symbol(random: &mut Random) -> u64 {
    let length = random.below(9) as usize;
    let mut bytes = [0; 8];
    for b in &mut bytes[..length] {
        *b = 33 + random.below(94) as u8;
    }
    if random.one_in(4) {
        let at = random.below(8) as usize;
        bytes[at] = random.pick(&[0, 1, 32, 33, 126, 127, 128, 255]);
    }
    u64::from_be_bytes(bytes)
}

/// A position that a few fills made, sometimes with one number spoiled, and a price.
fn draw(random: &mut Random) -> Inputs {
    let mut numbers: Numbers = [0; 4];
    for _ in 0..random.below(4) {
        let quantity = if random.one_in(3) { numbers[0].saturating_neg() } else { random.i64() };
        port::tc_apply_fill(SYMBOL, &mut numbers, quantity, (random.i64() & i64::MAX) >> random.below(40));
    }
    let mut symbol = SYMBOL;
    match random.below(8) {
        0 => numbers[random.below(4) as usize] = random.i64(),
        1 if random.one_in(4) => symbol = self::symbol(random),
        _ => {}
    }
    let quantity = if random.one_in(4) { numbers[0].saturating_neg() } else { random.i64() };
    let price = if random.one_in(8) { random.i64() } else { random.i64() & i64::MAX };
    let [q, a, r, t] = numbers.map(|n| n as u64);
    padded([symbol, q, a, r, t, quantity as u64, price as u64])
}

fn numbers(i: &Inputs) -> Numbers {
    [i[1], i[2], i[3], i[4]].map(|n| n as i64)
}

/// What the port answers to a fill, and the numbers after it.
fn ours(i: &Inputs) -> (u64, Numbers) {
    let mut after = numbers(i);
    (port::tc_apply_fill(i[0], &mut after, i[5] as i64, i[6] as i64), after)
}

/// What a fill is refused with; 0 where it is not.
fn refused(i: &Inputs) -> Answer {
    refusal(i[0], numbers(i), i[6] as i64)
}

/// What nanobook makes of a fill that is not refused; a refusal leaves the numbers as found.
fn theirs(nanobook: &Leaves, i: &Inputs) -> (Answer, Numbers) {
    match refused(i) {
        DONE => (DONE, (nanobook.apply_fill)(numbers(i), i[5] as i64, i[6] as i64)),
        refused => (refused, numbers(i)),
    }
}

const FILLED: &[Kind] = &[U64, I64, I64, I64, I64, I64, I64];

const BRANCHES: &[Class] = &[
    ("opens", |i, _| done(i) && i[1] == 0 && i[5] != 0),
    ("grows", |i, _| done(i) && side(i[1]) * side(i[5]) > 0),
    ("closes or covers", |i, _| done(i) && side(i[1]) * side(i[5]) < 0),
    ("fill of 0", |i, _| done(i) && i[5] == 0),
    ("unsound", |i, _| refused(i).number == 11),
    ("price below 0", |i, _| refused(i).number == 4),
];

fn done(i: &Inputs) -> bool {
    refused(i) == DONE
}

fn side(n: u64) -> i64 {
    (n as i64).signum()
}

/// One of the four numbers after a fill.
macro_rules! after {
    ($name:expr, $number:expr, $at:expr) => {
        Leaf {
            name: $name,
            number: $number,
            takes: FILLED,
            gives: I64,
            draw: Some(draw),
            port: |i| ours(i).1[$at] as u64,
            nanobook: Some(|n, i| theirs(n, i).1[$at] as u64),
            classes: BRANCHES,
            ..PLAIN
        }
    };
}

pub const LEAVES: &[Leaf] = &[
    Leaf {
        name: "tc_good_symbol",
        number: 51,
        takes: &[U64],
        gives: Bool,
        draw: Some(|random| padded([symbol(random)])),
        port: |i| u64::from(port::tc_good_symbol(i[0])),
        rust: Some(|i| u64::from(is_good(i[0]))),
        classes: &[
            ("good", |_, r| r == 1),
            ("bad", |_, r| r == 0),
            ("empty", |i, _| i[0] == 0),
            ("of eight bytes", |i, r| r == 1 && i[0] & 0xff != 0),
        ],
        ..PLAIN
    },
    Leaf {
        name: "tc_sound_position",
        number: 52,
        takes: &[U64, I64, I64, I64, I64],
        gives: Bool,
        draw: Some(draw),
        port: |i| {
            let [quantity, average, realized, total] = numbers(i);
            u64::from(port::tc_sound_position(i[0], quantity, average, realized, total))
        },
        rust: Some(|i| u64::from(is_sound(i[0], numbers(i)))),
        classes: &[
            ("sound", |_, r| r == 1),
            ("unsound", |_, r| r == 0),
            ("sound and flat", |i, r| r == 1 && i[1] == 0),
            ("sound and long", |i, r| r == 1 && i[1] as i64 > 0),
            ("sound and short", |i, r| r == 1 && (i[1] as i64) < 0),
        ],
        ..PLAIN
    },
    Leaf {
        name: "tc_market_value",
        number: 53,
        takes: FILLED,
        gives: I64,
        draw: Some(draw),
        port: |i| {
            let [quantity, average, realized, total] = numbers(i);
            port::tc_market_value(i[0], quantity, average, realized, total, i[6] as i64) as u64
        },
        nanobook: Some(|n, i| (n.market_value)(numbers(i), i[6] as i64) as u64),
        classes: CLAMPED,
        ..PLAIN
    },
    Leaf {
        name: "tc_unrealized_pnl",
        number: 54,
        takes: FILLED,
        gives: I64,
        draw: Some(draw),
        port: |i| {
            let [quantity, average, realized, total] = numbers(i);
            port::tc_unrealized_pnl(i[0], quantity, average, realized, total, i[6] as i64) as u64
        },
        nanobook: Some(|n, i| (n.unrealized_pnl)(numbers(i), i[6] as i64) as u64),
        classes: CLAMPED,
        ..PLAIN
    },
    Leaf {
        name: "tc_apply_fill",
        number: 55,
        takes: FILLED,
        gives: U64,
        draw: Some(draw),
        port: |i| ours(i).0 % 256,
        nanobook: Some(|n, i| theirs(n, i).0.number),
        classes: BRANCHES,
        ..PLAIN
    },
    after!("tc_apply_fill quantity", 56, 0),
    after!("tc_apply_fill average", 57, 1),
    after!("tc_apply_fill realized", 58, 2),
    after!("tc_apply_fill total", 59, 3),
];

/// The place that a refused fill tells: document 02's, so that it stands outside the sample.
pub const PLACES: &[Leaf] = &[Leaf {
    name: "tc_apply_fill place",
    takes: FILLED,
    gives: U64,
    draw: Some(draw),
    port: |i| ours(i).0 / 256,
    rust: Some(|i| refused(i).word() / 256),
    classes: BRANCHES,
    ..PLAIN
}];
