//! The house return of random groups, beside Rust's own i128 and f64, its laws, and what the port must refuse; and groups written as text
//! for the model to play (tools/model/house.py).

mod bench;
mod damage;
mod draw;
mod group;
mod laws;
mod reference;
mod sorts;
mod text;

pub use bench::bench;
pub use text::emit;

use group::{Gave, Group, called};
use laws::Laws;
use reference::Sums;
use scenario::Random;
use sorts::{Met, Seen};
use threshcoil_sys as port;

/// Compares `count` groups. True where nothing differs, every law was tried and held, every sort was met and every refusal was right.
pub fn run(seed: u64, count: u64) -> bool {
    let mut random = Random::new(seed);
    let (mut differences, mut pairs, mut met, mut laws) = (0u64, 0, Met::default(), Laws::default());
    for _ in 0..count {
        let group = draw::draw(&mut random);
        pairs += group.accounts * group.parts;
        let sums = Sums::of(&group);
        let theirs = sums.told(&group);
        let ours = called(port::tc_house_return, &group);
        if !ours.same(&theirs) {
            differences += 1;
            if differences <= 3 {
                differs(&group, &ours, &theirs);
            }
        }
        assert!(called(bench::in_rust, &group).same(&theirs), "what is timed is the same function");
        laws.add(&mut random, &group, &ours);
        met.add(&Seen { group: &group, sums: &sums, answer: theirs.answer, rates: &theirs.places.rates });
    }
    println!("house: seed {seed}, {count} groups, {pairs} accounts in parts, {differences} differences; {met}");
    println!("house: laws, each as often as it was tried: {laws}");
    let refused = damage::run(&mut random, count / 2);
    refused && differences == 0 && laws.held() && met.all()
}

/// A group, and the first line of what it gave that differs.
fn differs(group: &Group, ours: &Gave, theirs: &Gave) {
    println!("DIFFERS: {}", text::asked(group));
    let [ours, theirs] = [ours, theirs].map(text::told);
    if let Some((our, their)) = ours.lines().zip(theirs.lines()).find(|(our, their)| our != their) {
        println!("  port: {our}\n  Rust: {their}");
    }
}
