//! Whole accounts: random scenarios played by the Rust and by the port, and written as text for the model to play.

use crate::port::Port;
use scenario::{Covered, Played, Random, Scenario, cash_first, ceiling, play, scenario, spoiled, written};
use std::io::Write;

/// Plays `count` scenarios on the Rust and on the port, and compares every answer, every figure and the whole account
/// after every call, bit for bit.
pub fn run(seed: u64, count: u64) -> bool {
    if !oracle::PRESENT {
        println!("accounts: SKIPPED, since nanobook's source is not at hand");
        return true;
    }
    let mut covered = Covered::default();
    let mut differences = 0u64;
    for k in 0..count {
        let mut scenario = scenario(&mut Random::new(seed.wrapping_add(k)));
        let theirs = oracle::play(&scenario).expect("the oracle is present");
        covered.add(&scenario, &theirs);
        scenario.steps.truncate(theirs.calls.len());
        let ours = play::<Port>(&scenario);
        if written(&scenario, &ours) != written(&scenario, &theirs) {
            differences += 1;
            if differences <= 3 {
                differs(seed.wrapping_add(k), &scenario, &ours, &theirs);
            }
        }
    }
    println!("accounts: seed {seed}; {covered}; {differences} scenarios differ");
    let missed = covered.missed();
    if !missed.is_empty() {
        println!("accounts: met fewer than ten times in 10,000 scenarios: {}", missed.join(", "));
    }
    differences == 0 && missed.is_empty()
}

/// The first line in which two answers to a scenario differ, with the call that it answers.
fn differs(seed: u64, scenario: &Scenario, ours: &Played, theirs: &Played) {
    let [ours, theirs] = [ours, theirs].map(|played| written(scenario, played));
    let mut asked = "";
    for (our, their) in ours.lines().zip(theirs.lines()) {
        if our.starts_with('>') {
            asked = our;
        }
        if our != their {
            println!("DIFFERS in scenario {seed}\n  asked: {asked}\n  port: {our}\n  Rust: {their}");
            return;
        }
    }
}

/// Writes `count` scenarios with the Rust's answers, and what they cover to standard error.
pub fn emit(seed: u64, count: u64, out: &mut dyn Write) -> bool {
    if !oracle::PRESENT {
        eprintln!("scenarios: SKIPPED, since nanobook's source is not at hand");
        return true;
    }
    let mut covered = Covered::default();
    for k in 0..count {
        let scenario = scenario(&mut Random::new(seed.wrapping_add(k)));
        let played = oracle::play(&scenario).expect("the oracle is present");
        covered.add(&scenario, &played);
        let text = format!("# scenario {}\n{}", seed.wrapping_add(k), written(&scenario, &played));
        if out.write_all(text.as_bytes()).is_err() {
            return false;
        }
    }
    eprintln!("scenarios: seed {seed}; {covered}");
    true
}

/// Writes `count` scenarios outside the domain, with the port's answers: the Rust refuses nothing, so the model is held to
/// them.
pub fn emit_spoiled(seed: u64, count: u64, out: &mut dyn Write) -> bool {
    let spoiled = |random: &mut Random| {
        let good = scenario(random);
        spoiled(random, good)
    };
    emit_ours("spoiled", spoiled, seed, count, out)
}

/// Likewise scenarios in cash-first mode, which the Rust lacks.
pub fn emit_cash_first(seed: u64, count: u64, out: &mut dyn Write) -> bool {
    emit_ours("cash-first", cash_first, seed, count, out)
}

/// Likewise scenarios under a commission ceiling, which it lacks too.
pub fn emit_ceiling(seed: u64, count: u64, out: &mut dyn Write) -> bool {
    emit_ours("ceiling", ceiling, seed, count, out)
}

fn emit_ours(name: &str, scenario: fn(&mut Random) -> Scenario, seed: u64, count: u64, out: &mut dyn Write) -> bool {
    (0..count).all(|k| {
        let seed = seed.wrapping_add(k);
        let scenario = scenario(&mut Random::new(seed));
        write!(out, "# {name} {seed}\n{}", written(&scenario, &play::<Port>(&scenario))).is_ok()
    })
}
