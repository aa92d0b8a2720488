//! What holds of every house return, tried on the port alone.

use super::draw::{redrawn_behind, shuffled};
use super::group::{Gave, Group, Places, called};
use scenario::Random;
use std::fmt;
use threshcoil_sys as port;
use threshcoil_sys::layout::{self, Series, Setting};

const LAWS: [&str; 5] = [
    "another order of accounts changes the order of their changes alone",
    "numbers behind marks of absence change nothing",
    "the changes of accounts, and those of parts, add up to the group's",
    "the figure is the total return of the growths",
    "one account in one part grows by the return that it would record",
];

/// How often each was tried, and broken.
#[derive(Default)]
pub struct Laws([[u64; 2]; LAWS.len()]);

impl Laws {
    pub fn add(&mut self, random: &mut Random, group: &Group, gave: &Gave) {
        let (done, places) = (gave.answer == 0, &gave.places);
        let held = [
            (group.accounts > 1).then(|| in_any_order(random, group, gave)),
            group.marks.contains(&0).then(|| behind_any_numbers(random, group, gave)),
            done.then(|| adds_up(places)),
            done.then(|| is_total_return(places)),
            done.then(|| is_recorded(group, places)).flatten(),
        ];
        for ([tried, broken], held) in self.0.iter_mut().zip(held) {
            *tried += u64::from(held.is_some());
            *broken += u64::from(held == Some(false));
        }
    }

    pub fn held(&self) -> bool {
        self.0.iter().all(|[tried, broken]| *tried > 0 && *broken == 0)
    }
}

impl fmt::Display for Laws {
    fn fmt(&self, f: &mut fmt::Formatter) -> fmt::Result {
        let said = LAWS.iter().zip(self.0).map(|(law, [tried, broken])| match broken {
            0 => format!("{law} {tried}"),
            _ => format!("{law} {tried}, BROKEN {broken}"),
        });
        f.write_str(&said.collect::<Vec<String>>().join("; "))
    }
}

fn in_any_order(random: &mut Random, group: &Group, gave: &Gave) -> bool {
    let (other, from) = shuffled(random, group);
    let mut again = called(port::tc_house_return, &other);
    let changes = again.places.changes.clone();
    from.iter().enumerate().for_each(|(account, place)| again.places.changes[1 + place] = changes[1 + account]);
    again.same(gave)
}

fn behind_any_numbers(random: &mut Random, group: &Group, gave: &Gave) -> bool {
    called(port::tc_house_return, &redrawn_behind(random, group)).same(gave)
}

fn adds_up(places: &Places) -> bool {
    let sum = |numbers: &[i64]| numbers.iter().map(|n| i128::from(*n)).sum::<i128>();
    [&places.changes[1..], &places.gains].iter().all(|numbers| sum(numbers) == i128::from(places.changes[0]))
}

fn is_total_return(places: &Places) -> bool {
    let (mut figures, mut counts) = ([0.0; 6], [0; 3]);
    let answer = port::tc_figures(&places.rates[1..], &mut figures, &mut counts);
    let [total, figure] = [figures[0], places.rates[0]];
    answer == 0 && (total == figure || (total.is_nan() && figure.is_nan()))
}

/// By an account that has the last equity in cash and the first one as its previous equity. None where that is no account.
fn is_recorded(group: &Group, places: &Places) -> Option<bool> {
    let [first, last] = (group.accounts * group.parts == 1).then(|| group.ends(0, 0)).flatten()?;
    let mut settings = [0; layout::SETTINGS_SIZE];
    settings[layout::bytes_of(Setting::QuantityStep as usize, 1)].copy_from_slice(&1i64.to_le_bytes());
    let (mut account, mut equities, mut returns) = ([0; layout::ACCOUNT_SIZE], [0; 2], [0.0]);
    if port::tc_open(last, &settings, &mut account, &mut equities) != 0 {
        return None;
    }
    account[layout::bytes_of(layout::series(Series::PreviousEquity), 1)].copy_from_slice(&first.to_le_bytes());
    let answer = port::tc_record_return(&mut account, &[], &mut equities, &mut returns);
    Some(answer == 0 && returns[0].to_bits() == places.rates[1].to_bits())
}
