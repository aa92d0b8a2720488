//! The figures of a short return series: how many returns there are, then up to six of them. Long ones are in `series`.

use super::Kind::{F64, Figure, U64};
use super::{Class, Inputs, Kind, Leaf, PLAIN, padded};
use scenario::Random;
use threshcoil_sys as port;

const SERIES: &[Kind] = &[U64, F64, F64, F64, F64, F64, F64];

fn draw(random: &mut Random) -> Inputs {
    let mut inputs = padded([random.below(7)]);
    let plain = random.below(3) > 0;
    for word in &mut inputs[1..7] {
        let spread = (random.below(1 << 30) as f64 / (1u64 << 29) as f64 - 1.0) * 0.1;
        *word = if plain { spread } else { random.f64() }.to_bits();
    }
    inputs
}

fn returns(i: &Inputs) -> Vec<f64> {
    i[1..=i[0].min(6) as usize].iter().map(|w| f64::from_bits(*w)).collect()
}

/// The answer, the six rates and the three counts; the places are lent as zeros, so that a refusal gives "zero figures".
fn ours(i: &Inputs) -> [u64; 10] {
    let (mut rates, mut counts) = ([0.0; 6], [0; 3]);
    let answer = port::tc_figures(&returns(i), &mut rates, &mut counts);
    joined(answer, rates, counts)
}

fn joined(answer: u64, rates: [f64; 6], counts: [u64; 3]) -> [u64; 10] {
    let [a, b, c, d, e, f] = rates.map(f64::to_bits);
    let [n, winning, losing] = counts;
    [answer, a, b, c, d, e, f, n, winning, losing]
}

/// Nanobook's figures of a series that document 01 takes; else the refusal's number. None where nanobook is not at hand.
pub fn expected(returns: &[f64]) -> Option<Result<([f64; 6], [u64; 3]), u64>> {
    if returns.len() > 4_096 {
        return Some(Err(6));
    }
    if returns.is_empty() || returns.iter().any(|r| !r.is_finite()) {
        return Some(Err(12));
    }
    let f = oracle::figures(returns)?;
    let rates = [f.total_return, f.max_drawdown, f.win_rate, f.profit_factor, f.payoff_ratio, f.kelly];
    Some(Ok((rates, [f.num_periods, f.winning_periods, f.losing_periods])))
}

fn theirs(i: &Inputs) -> [u64; 10] {
    match expected(&returns(i)).expect("nanobook is at hand") {
        Ok((rates, counts)) => joined(0, rates, counts),
        Err(refused) => joined(refused, [0.0; 6], [0; 3]),
    }
}

const SORTS: &[Class] = &[
    ("empty", |i, _| i[0] == 0),
    ("six returns", |i, _| i[0] == 6),
    ("a member that is not finite", |i, _| returns(i).iter().any(|r| !r.is_finite())),
    ("a loss of all", |i, _| returns(i).iter().any(|r| *r <= -1.0)),
    ("a winning and a losing one", |i, _| returns(i).iter().any(|r| *r > 0.0) && returns(i).iter().any(|r| *r < 0.0)),
];

macro_rules! figure {
    ($name:expr, $number:expr, $kind:expr) => {
        Leaf {
            name: $name,
            number: $number,
            takes: SERIES,
            gives: $kind,
            draw: Some(draw),
            port: |i| ours(i)[$number - 70],
            nanobook: Some(|_, i| theirs(i)[$number - 70]),
            classes: SORTS,
            ..PLAIN
        }
    };
}

pub const LEAVES: &[Leaf] = &[
    figure!("tc_figures", 70, U64),
    figure!("tc_figures total return", 71, Figure),
    figure!("tc_figures drawdown", 72, Figure),
    figure!("tc_figures win rate", 73, Figure),
    figure!("tc_figures profit factor", 74, Figure),
    figure!("tc_figures payoff ratio", 75, Figure),
    figure!("tc_figures kelly", 76, Figure),
    figure!("tc_figures periods", 77, U64),
    figure!("tc_figures winning", 78, U64),
    figure!("tc_figures losing", 79, U64),
];
