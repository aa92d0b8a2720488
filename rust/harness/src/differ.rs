//! A differential run over the leaves: the same inputs to the port, to Rust's own arithmetic and to nanobook.

use crate::leaf::{self, Class, Inputs, Kind, Leaf};
use scenario::Random;

/// What one leaf's run found.
struct Tally {
    tried: u64,
    compared: u64,
    with_nanobook: u64,
    differences: u64,
    left_out: Vec<u64>,
    met: Vec<u64>,
}

/// Runs every leaf on `count` inputs and prints what was covered. True where nothing differs and every class was met.
pub fn run(seed: u64, count: u64) -> bool {
    let nanobook = oracle::leaves();
    println!("leaves: seed {seed}, {count} inputs a leaf, edge values among them");
    if nanobook.is_none() {
        println!("leaves: SKIPPED the comparison with nanobook's own functions: its source is not at hand");
    }
    let mut tallies = Vec::new();
    for (k, leaf) in leaf::all().enumerate() {
        let mut random = Random::new(seed.wrapping_add(k as u64));
        let tally = compare(leaf, nanobook.as_ref(), &mut random, count);
        print(leaf, &tally);
        tallies.push(tally);
    }
    let total = |of: fn(&Tally) -> u64| tallies.iter().map(of).sum::<u64>();
    let unmet = tallies.iter().flat_map(|t| &t.met).filter(|n| **n == 0).count();
    println!(
        "leaves: {} leaves, {} inputs, {} of them compared, {} with nanobook's own functions, {} differences, {unmet} classes not met",
        tallies.len(),
        total(|t| t.tried),
        total(|t| t.compared),
        total(|t| t.with_nanobook),
        total(|t| t.differences),
    );
    total(|t| t.differences) == 0 && unmet == 0
}

fn compare(leaf: &Leaf, nanobook: Option<&oracle::Leaves>, random: &mut Random, count: u64) -> Tally {
    let (left_out, met) = (vec![0; leaf.left_out.len()], vec![0; leaf.classes.len()]);
    let mut tally = Tally { tried: 0, compared: 0, with_nanobook: 0, differences: 0, left_out, met };
    for _ in 0..count {
        let inputs = leaf.inputs(random);
        let answer = (leaf.port)(&inputs);
        tally.tried += 1;
        for (left, (_, out)) in tally.left_out.iter_mut().zip(leaf.left_out) {
            *left += u64::from(out(&inputs));
        }
        for (met, (_, class)) in tally.met.iter_mut().zip(leaf.classes) {
            *met += u64::from(class(&inputs, answer));
        }
        if let Some(own) = leaf.rust {
            expect(leaf, &inputs, answer, own(&inputs), "Rust", &mut tally);
        }
        let theirs = leaf.nanobooks(nanobook, &inputs);
        tally.compared += u64::from(leaf.rust.is_some() || theirs.is_some());
        if let Some(theirs) = theirs {
            tally.with_nanobook += 1;
            expect(leaf, &inputs, answer, theirs, "nanobook", &mut tally);
        }
    }
    tally
}

fn expect(leaf: &Leaf, inputs: &Inputs, answer: u64, expected: u64, whose: &str, tally: &mut Tally) {
    if same(leaf.gives, answer, expected) {
        return;
    }
    tally.differences += 1;
    if tally.differences <= 3 {
        println!(
            "DIFFERS: {} gives {}, {whose} {}",
            call(leaf, inputs),
            shown(leaf.gives, answer),
            shown(leaf.gives, expected)
        );
    }
}

/// Bit for bit, the sign of a zero included but among the figures; all NaNs are one.
pub fn same(kind: Kind, a: u64, b: u64) -> bool {
    let [x, y] = [a, b].map(f64::from_bits);
    match kind {
        Kind::F64 => a == b || (x.is_nan() && y.is_nan()),
        Kind::Figure => x == y || (x.is_nan() && y.is_nan()),
        Kind::U64 | Kind::I64 | Kind::Bool => a == b,
    }
}

pub fn call(leaf: &Leaf, inputs: &Inputs) -> String {
    let words: Vec<String> = leaf.takes.iter().zip(inputs).map(|(kind, word)| shown(*kind, *word)).collect();
    format!("{}({})", leaf.name, words.join(", "))
}

pub fn shown(kind: Kind, word: u64) -> String {
    match kind {
        Kind::U64 => word.to_string(),
        Kind::I64 => (word as i64).to_string(),
        Kind::F64 | Kind::Figure => format!("{:e}", f64::from_bits(word)),
        Kind::Bool => (word != 0).to_string(),
    }
}

fn print(leaf: &Leaf, tally: &Tally) {
    let met = leaf.classes.iter().zip(&tally.met).map(|((name, _), met): (&Class, &u64)| format!("{name} {met}"));
    let left =
        leaf.left_out.iter().zip(&tally.left_out).map(|((why, _), n)| format!("left out of nanobook's: {why} {n}"));
    let said: Vec<String> = met.chain(left).collect();
    println!("  {:<29} {} differences in {}; {}", leaf.name, tally.differences, tally.compared, said.join(", "));
}
