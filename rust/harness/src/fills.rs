//! Runs of fills: positions as nanobook makes them, fill after fill, beside the port's; and what the port must refuse.

use crate::leaf::{Numbers, is_sound, refusal};
use crate::place::DONE;
use scenario::Random;
use threshcoil_sys as port;

const SYMBOL: u64 = u64::from_be_bytes(*b"THRSHCL\0");

/// Something that a fill may do, told by the position before it, the fill and the position after it.
type Branch = (&'static str, fn(&Fill) -> bool);

struct Fill {
    before: Numbers,
    quantity: i64,
    price: i64,
    after: Numbers,
}

impl Fill {
    fn opposite(&self) -> bool {
        self.before[0].signum() * self.quantity.signum() < 0
    }

    fn ends(&self, n: i64) -> bool {
        n == i64::MAX || n == i64::MIN
    }
}

const BRANCHES: &[Branch] = &[
    ("of 0", |f| f.quantity == 0),
    ("open", |f| f.before[0] == 0 && f.quantity != 0),
    ("grow", |f| f.before[0].signum() * f.quantity.signum() > 0),
    ("reduce a long", |f| f.opposite() && f.before[0] > 0 && f.after[0] > 0),
    ("reduce a short", |f| f.opposite() && f.before[0] < 0 && f.after[0] < 0),
    ("close", |f| f.opposite() && f.after[0] == 0),
    ("flip to short", |f| f.opposite() && f.before[0] > 0 && f.after[0] < 0),
    ("flip to long", |f| f.opposite() && f.before[0] < 0 && f.after[0] > 0),
    ("at price 0", |f| f.quantity != 0 && f.price == 0),
    ("at the highest price", |f| f.quantity != 0 && f.price == i64::MAX),
    ("quantity saturates", |f| f.before[0].checked_add(f.quantity).is_none()),
    ("total cost at an end", |f| f.ends(f.after[3])),
    ("realized profit at an end", |f| f.ends(f.after[2])),
    ("average at an end", |f| f.ends(f.after[1])),
    ("-2^63 micro-shares covered", |f| f.before[0] == i64::MIN && f.quantity == i64::MAX && f.after[0] == -1),
    ("a short's average rises", |f| f.opposite() && f.after[0] < 0 && f.after[1] > f.before[1]),
];

/// Fills until `count` are compared. True where nothing differs, every branch was met and every refusal was right.
pub fn run(seed: u64, count: u64) -> bool {
    let Some(nanobook) = oracle::leaves() else {
        println!("fills: SKIPPED, since nanobook's source is not at hand");
        return refusals(seed, count / 4);
    };
    let mut random = Random::new(seed);
    let (mut differences, mut runs, mut left) = (0, 0u64, count);
    let mut met = vec![0u64; BRANCHES.len()];
    while left > 0 {
        runs += 1;
        let sort = random.below(4);
        let mut numbers: Numbers = [0; 4];
        for _ in 0..(1 + random.below(24)).min(left) {
            let (quantity, price) = next(&mut random, sort, numbers);
            let after = (nanobook.apply_fill)(numbers, quantity, price);
            let fill = Fill { before: numbers, quantity, price, after };
            differences += u64::from(!agrees(&fill));
            met.iter_mut().zip(BRANCHES).for_each(|(met, (_, branch))| *met += u64::from(branch(&fill)));
            numbers = after;
            left -= 1;
        }
    }
    let said: Vec<String> = BRANCHES.iter().zip(&met).map(|((name, _), n)| format!("{name} {n}")).collect();
    println!("fills: seed {seed}, {count} fills in {runs} runs, {differences} differences; {}", said.join(", "));
    refusals(seed, count / 4) && differences == 0 && met.iter().all(|n| *n > 0)
}

fn agrees(fill: &Fill) -> bool {
    let mut ours = fill.before;
    let answer = port::tc_apply_fill(SYMBOL, &mut ours, fill.quantity, fill.price);
    let same = answer == 0 && ours == fill.after && is_sound(SYMBOL, ours);
    if !same {
        let Fill { before, quantity, price, after } = fill;
        println!("DIFFERS: {before:?} filled by {quantity} at {price}: port {answer} {ours:?}, nanobook {after:?}");
    }
    same
}

/// The next fill of a run: of an everyday size, of any size, at the ends of i64, or around what is held.
pub fn next(random: &mut Random, sort: u64, [held, average, ..]: Numbers) -> (i64, i64) {
    const ENDS: [i64; 8] = [i64::MAX, i64::MIN, i64::MAX - 1, i64::MIN + 1, 1, -1, 1_000_000, i64::MAX / 2];
    let any_price = random.i64() & i64::MAX;
    let (quantity, price) = match sort {
        0 => ((random.below(2_001) as i64 - 1_000) * 100_000, random.below(50_000) as i64),
        1 => (random.i64(), any_price),
        2 => (random.pick(&ENDS), if random.one_in(2) { i64::MAX } else { any_price }),
        _ => (held / (1 + random.below(4) as i64), any_price >> 20),
    };
    let quantity = match random.below(8) {
        0 => held.saturating_neg(),
        1 => -(held / 2),
        2 => held.saturating_neg().saturating_add(random.below(5) as i64 - 2),
        _ if quantity == 0 && random.below(16) > 0 => random.i64(),
        _ => quantity,
    };
    let price = match random.below(16) {
        0 => 0,
        1 => average,
        2 => 1 + random.below(3) as i64,
        _ => price,
    };
    (quantity, price)
}

/// Unsound positions, prices below 0 and slices that are no position: each with its number and place, and left as found.
fn refusals(seed: u64, count: u64) -> bool {
    let mut random = Random::new(!seed);
    let (mut wrong, mut unsound, mut below, mut lengths) = (0u64, 0u64, 0u64, 0u64);
    for _ in 0..count {
        let found = [random.i64(), random.i64(), random.i64(), random.i64()];
        let found = if random.one_in(3) { [found[0], 0, found[2], 0] } else { found };
        let symbol = if random.one_in(3) { random.word() } else { SYMBOL };
        let (quantity, price) = (random.i64(), random.i64());
        let expected = refusal(symbol, found, price);
        if expected != DONE {
            let mut numbers = found;
            let answer = port::tc_apply_fill(symbol, &mut numbers, quantity, price);
            wrong += u64::from(answer != expected.word() || numbers != found);
            unsound += u64::from(expected.number == 11);
            below += u64::from(expected.number == 4);
        }
        let length = random.below(9) as usize;
        if length != 4 {
            let found: Vec<i64> = (0..length).map(|_| random.i64()).collect();
            let mut numbers = found.clone();
            wrong += u64::from(port::tc_apply_fill(SYMBOL, &mut numbers, quantity, price) != 11 || numbers != found);
            lengths += 1;
        }
    }
    println!(
        "fills: refused and left as found: unsound {unsound}, price below 0 {below}, not four numbers {lengths}; {wrong} wrong"
    );
    wrong == 0 && unsound > 0 && below > 0 && lengths > 0
}
