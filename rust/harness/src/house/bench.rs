//! How long a house return takes beside the same sums in Rust.

use super::group::{Entry, Group, Places};
use scenario::Random;
use std::hint::black_box;
use std::time::Instant;
use threshcoil_sys as port;

/// A part's first sum and change.
type Part = (i64, i64);

/// The same checks, sums and places as the port's, over slices and without allocation. Every run holds it to the reference.
#[inline(never)]
#[allow(clippy::too_many_arguments)]
pub fn in_rust(
    accounts: u64,
    parts: u64,
    marks: &[u8],
    equities: &[i64],
    rates: &mut [f64],
    changes: &mut [i64],
    firsts: &mut [i64],
    gains: &mut [i64],
) -> u64 {
    if !(1..=32).contains(&accounts) {
        return 13;
    }
    let (n, m) = (accounts as usize, parts as usize);
    let lengths = || [marks.len(), equities.len(), rates.len(), changes.len(), firsts.len(), gains.len()];
    if !(1..=64).contains(&parts) || lengths() != [2 * n * m, 2 * n * m, 1 + m, 1 + n, m, m] {
        return 6;
    }
    // A mark above 1 has a higher bit, so that one test tells of all.
    if marks.iter().fold(0, |all, mark| all | mark) > 1 {
        return 1;
    }
    let (mut own, mut sums) = ([0; 32], [(0, 0); 64]);
    let (mut fits, positive) = added(n, marks, equities, &mut own, &mut sums[..m]);
    let group: i128 = own[..n].iter().sum();
    fits &= own[..n].iter().chain([&group]).all(|change| i64::try_from(*change).is_ok());
    if !fits || !positive {
        return if fits { 14 } else { 15 };
    }
    changes[0] = group as i64;
    changes[1..].iter_mut().zip(own).for_each(|(change, own)| *change = own as i64);
    rates[0] = grown(&sums[..m], &mut rates[1..], firsts, gains) - 1.0;
    0
}

/// Adds up every part, and what is each account's own. Whether all within a part fits i64, and whether every first sum is positive.
fn added(n: usize, marks: &[u8], equities: &[i64], own: &mut [i128; 32], sums: &mut [Part]) -> (bool, bool) {
    let (mut fits, mut positive) = (true, true);
    for ((sum, marks), equities) in sums.iter_mut().zip(marks.chunks_exact(2 * n)).zip(equities.chunks_exact(2 * n)) {
        let (mut first, mut gain) = (0i128, 0i128);
        for ((marks, ends), own) in marks.chunks_exact(2).zip(equities.chunks_exact(2)).zip(&mut *own) {
            if marks == [1, 1] {
                // Where it leaves i64 the answer is 15 whatever the sums are.
                let (change, leaves) = ends[1].overflowing_sub(ends[0]);
                fits &= !leaves;
                first += i128::from(ends[0]);
                gain += i128::from(change);
                *own += i128::from(change);
            }
        }
        *sum = (first as i64, gain as i64);
        fits &= i128::from(sum.0) == first && i128::from(sum.1) == gain;
        positive &= first > 0;
    }
    (fits, positive)
}

/// Writes what is told of each part; the product of 1 plus each growth.
fn grown(sums: &[Part], growths: &mut [f64], firsts: &mut [i64], gains: &mut [i64]) -> f64 {
    let mut product = 1.0;
    for (((sum, growth), first), gain) in sums.iter().zip(growths).zip(firsts).zip(gains) {
        (*first, *gain) = *sum;
        *growth = *gain as f64 / *first as f64;
        product *= 1.0 + *growth;
    }
    product
}

/// Everyday equities; one account in so many is absent from a part, none where it is 0, and never all of them.
fn group(random: &mut Random, accounts: usize, parts: usize, absent: u64) -> Group {
    let mut group = Group::new(accounts, parts);
    for part in 0..parts {
        let mut there = accounts;
        for account in 0..accounts {
            let first = 100_000 + random.below(100_000_000) as i64;
            group.put(part, account, [first, first + random.below(first as u64 / 10) as i64 - first / 20]);
            if absent > 0 && there > 1 && random.one_in(absent) {
                let at = group.at(part, account) + random.below(2) as usize;
                group.marks[at] = 0;
                there -= 1;
            }
        }
    }
    group
}

/// Nanoseconds a call. Each takes another group than the one before, so that no branch is learnt by heart.
fn timed(entry: Entry, groups: &[Group], places: &mut Places, calls: usize) -> f64 {
    let Places { rates, changes, firsts, gains } = places;
    let start = Instant::now();
    for k in 0..calls {
        let Group { accounts, parts, marks, equities } = black_box(&groups[k % groups.len()]);
        assert_eq!(entry(*accounts as u64, *parts as u64, marks, equities, rates, changes, firsts, gains), 0);
    }
    start.elapsed().as_secs_f64() / calls as f64 * 1e9
}

/// What it is called, one account in how many is absent from a part, and whether an equity is beyond what low words alone are added of.
const SORTS: [(&str, u64, bool); 3] =
    [("all there", 0, false), ("one account in ten absent", 10, false), ("all there, one at 2^55", 0, true)];

/// The best of several turns that go back and forth between the two.
pub fn bench(seed: u64) -> bool {
    const TURNS: usize = 25;
    const GROUPS: usize = 64;
    println!("house: nanoseconds a call, best of {TURNS} turns over {GROUPS} groups of each sort");
    let mut random = Random::new(seed);
    for (accounts, parts) in [(32, 64), (8, 12), (2, 4)] {
        for (sort, absent, far) in SORTS {
            let mut groups: Vec<Group> = (0..GROUPS).map(|_| group(&mut random, accounts, parts, absent)).collect();
            if far {
                groups.iter_mut().for_each(|group| group.put(0, 0, [1 << 55; 2]));
            }
            let (mut places, calls) = (Places::of(accounts, parts), 2_000_000 / (accounts * parts));
            let (mut rust, mut port) = (f64::MAX, f64::MAX);
            for _ in 0..TURNS {
                rust = rust.min(timed(in_rust, &groups, &mut places, calls));
                port = port.min(timed(port::tc_house_return, &groups, &mut places, calls));
            }
            let ratio = port / rust;
            println!(
                "  {accounts:>2} accounts in {parts:>2} parts, {sort:<25} Rust's i128 {rust:>5.0}, port {port:>5.0}, ratio {ratio:.2}"
            );
        }
    }
    true
}
