//! The figures of whole return series, beside nanobook's, and how long they take beside the same loops in Rust.

use crate::leaf::expected_figures;
use scenario::Random;
use std::hint::black_box;
use std::time::Instant;
use threshcoil_sys as port;

type Figures = ([f64; 6], [u64; 3]);

/// What the lent places hold before a call: a refusal leaves it.
const FOUND: Figures = ([9.0; 6], [9; 3]);

/// Something that a series may be; the figures are nanobook's.
type Sort = (&'static str, fn(&[f64], &Figures) -> bool);

const SORTS: &[Sort] = &[
    ("of one return", |s, _| s.len() == 1),
    ("of 4,096 returns", |s, _| s.len() == 4_096),
    ("with a -1", |s, _| s.contains(&-1.0)),
    ("with a member over 1e100", |s, _| s.iter().any(|r| r.abs() > 1e100)),
    ("with a subnormal member", |s, _| s.iter().any(|r| r.is_subnormal())),
    ("no losing return", |_, f| f.1[2] == 0),
    ("no winning return", |_, f| f.1[1] == 0),
    ("losses too small for a finite payoff ratio", |_, f| f.1[2] > 0 && f.0[4].is_infinite()),
    ("an infinite figure", |_, f| f.0.iter().any(|x| x.is_infinite())),
    ("a NaN figure", |_, f| f.0.iter().any(|x| x.is_nan())),
];

fn ours(series: &[f64]) -> (u64, Figures) {
    let (mut rates, mut counts) = FOUND;
    (port::tc_figures(series, &mut rates, &mut counts), (rates, counts))
}

/// "In figures, zeros of either sign and all NaNs compare equal."
fn same(a: &Figures, b: &Figures) -> bool {
    a.1 == b.1 && a.0.iter().zip(b.0).all(|(x, y)| *x == y || (x.is_nan() && y.is_nan()))
}

/// Compares `count` series. True where nothing differs, every sort was met and every refusal was right.
pub fn run(seed: u64, count: u64) -> bool {
    let mut random = Random::new(seed);
    let refused = refusals(&mut random);
    if !oracle::PRESENT {
        println!("figures: SKIPPED, since nanobook's source is not at hand");
        return refused;
    }
    let (mut differences, mut returns, mut signs) = (0, 0, 0u64);
    let mut met = vec![0u64; SORTS.len()];
    for _ in 0..count {
        let series = draw(&mut random);
        returns += series.len();
        let theirs = expected_figures(&series).and_then(Result::ok).expect("a series that nanobook takes");
        let (answer, figures) = ours(&series);
        if answer != 0 || !same(&figures, &theirs) {
            differences += 1;
            println!("DIFFERS: {} returns: port {answer} {figures:?}, nanobook {theirs:?}", series.len());
        }
        met.iter_mut().zip(SORTS).for_each(|(met, (_, sort))| *met += u64::from(sort(&series, &theirs)));
        let zeros = figures.0.iter().zip(theirs.0).any(|(x, y)| *x == 0.0 && x.to_bits() != y.to_bits());
        signs += u64::from(zeros);
    }
    let said: Vec<String> = SORTS.iter().zip(&met).map(|((name, _), n)| format!("{name} {n}")).collect();
    println!(
        "figures: seed {seed}, {count} series, {returns} returns, {differences} differences; {}; zeros of the other sign {signs}",
        said.join(", ")
    );
    refused && differences == 0 && met.iter().all(|n| *n > 0)
}

/// A series of one sort and of 1 to 4,096 finite returns, most of them short.
fn draw(random: &mut Random) -> Vec<f64> {
    let sort = random.below(12);
    let length = match random.below(64) {
        0 => 4_096,
        1 => 1 + random.below(4_096),
        2..24 => 1 + random.below(300),
        _ => 1 + random.below(12),
    };
    (0..length).map(|_| member(random, sort)).collect()
}

fn member(random: &mut Random, sort: u64) -> f64 {
    let unit = random.below(1 << 53) as f64 / (1u64 << 53) as f64;
    let finite = |x: f64| if x.is_finite() { x } else { 0.0 };
    let tiny = 5e-324;
    match sort {
        0 | 1 => (unit - 0.48) * 0.04,
        2 => random.pick(&[-1.0, f64::MAX, -f64::MAX, tiny, -tiny, 0.0, -0.0, 1e200, -1e200, -2.0, unit, -unit]),
        3 => -tiny * (1.0 + (unit * 3.0).floor()),
        4 => random.pick(&[tiny, -tiny, -tiny, -tiny, -tiny]),
        5 => (unit - 0.5) * 1e300,
        6 => finite(f64::from_bits(random.word())),
        7 => random.pick(&[0.0, -0.0]),
        8 => unit * 0.01,
        9 => -unit * 0.01,
        10 => random.pick(&[-1.0, unit * 0.1, -unit * 0.1]),
        _ => finite(random.f64()),
    }
}

/// An empty series, one that is too long, members that are not finite anywhere, and places of other lengths.
fn refusals(random: &mut Random) -> bool {
    let (mut tried, mut wrong) = (0, 0);
    let mut expect = |series: &[f64], rates: usize, counts: usize, number: u64| {
        let (mut r, mut c) = (vec![9.0; rates], vec![9; counts]);
        let answer = port::tc_figures(series, &mut r, &mut c);
        tried += 1;
        wrong += u64::from(answer != number || r.iter().any(|x| *x != 9.0) || c.iter().any(|n| *n != 9));
    };
    expect(&[], 6, 3, 12);
    for length in [4_097, 5_000, 10_000] {
        expect(&vec![0.01; length], 6, 3, 6);
        expect(&vec![f64::NAN; length], 6, 3, 6);
    }
    for length in [1, 2, 17, 4_096] {
        for x in [f64::NAN, -f64::NAN, f64::INFINITY, f64::NEG_INFINITY] {
            let mut series = vec![0.01; length];
            series[random.below(length as u64) as usize] = x;
            expect(&series, 6, 3, 12);
        }
    }
    for (rates, counts) in [(0, 0), (0, 3), (6, 0), (5, 3), (7, 3), (6, 2), (6, 4), (3, 6)] {
        expect(&[0.01, -0.01], rates, counts, 6);
    }
    println!("figures: refused and left as found: {tried} series, {wrong} wrong");
    wrong == 0
}

/// The figures that are ported, by the loops that nanobook's `compute_metrics` takes them with.
#[inline(never)]
fn loops(returns: &[f64]) -> Figures {
    let total_return = returns.iter().fold(1.0, |acc, r| acc * (1.0 + r)) - 1.0;
    let (mut peak, mut equity, mut drawdown) = (1.0, 1.0, 0.0);
    for r in returns {
        equity *= 1.0 + r;
        if equity > peak {
            peak = equity;
        }
        let fallen = (peak - equity) / peak;
        if fallen > drawdown {
            drawdown = fallen;
        }
    }
    let winning = returns.iter().filter(|r| **r > 0.0).count();
    let losing = returns.iter().filter(|r| **r < 0.0).count();
    let gains: f64 = returns.iter().filter(|r| **r > 0.0).sum();
    let losses: f64 = returns.iter().filter(|r| **r < 0.0).sum();
    let over = |gain: f64, loss: f64| match (loss != 0.0, gain > 0.0) {
        (true, _) => gain / loss.abs(),
        (false, true) => f64::INFINITY,
        (false, false) => 0.0,
    };
    let mean = |sum: f64, count: usize| if count > 0 { sum / count as f64 } else { 0.0 };
    let win_rate = winning as f64 / returns.len() as f64;
    let payoff = over(mean(gains, winning), mean(losses, losing));
    let kelly = if payoff > 0.0 && payoff.is_finite() { win_rate - (1.0 - win_rate) / payoff } else { 0.0 };
    let rates = [total_return, drawdown, win_rate, over(gains, losses), payoff, kelly];
    (rates, [returns.len() as u64, winning as u64, losing as u64])
}

/// Nanoseconds a call, the best of several turns that go back and forth between the two. Each call takes another series
/// than the one before, so that no branch of either is learnt by heart.
pub fn bench(seed: u64) -> bool {
    const TURNS: usize = 15;
    const SERIES: usize = 64;
    println!("figures: nanoseconds a call, best of {TURNS} turns over {SERIES} series of each length");
    let mut random = Random::new(seed);
    for length in [16, 252, 4_096] {
        let mut one = || (0..length).map(|_| member(&mut random, 0)).collect::<Vec<f64>>();
        let series: Vec<Vec<f64>> = (0..SERIES).map(|_| one()).collect();
        let calls = 4_000_000 / length;
        let timed = |call: &dyn Fn(&[f64])| {
            let start = Instant::now();
            (0..calls).for_each(|k| call(black_box(&series[k % SERIES])));
            start.elapsed().as_secs_f64() / calls as f64 * 1e9
        };
        let (mut rust, mut port) = (f64::MAX, f64::MAX);
        for _ in 0..TURNS {
            rust = rust.min(timed(&|returns| _ = black_box(loops(returns))));
            port = port.min(timed(&|returns| _ = black_box(ours(returns))));
        }
        println!("  {length:>5} returns: Rust's loops {rust:.0}, port {port:.0}, ratio {:.2}", port / rust);
    }
    true
}
