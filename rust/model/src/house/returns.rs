//! What the library makes of a group, and beside it the average of account returns.

use super::group::{House, Part};
use crate::lines::Said;
use crate::text::{money, refused};
use std::fmt;
use std::ops::Range;
use threshcoil::{Group, HouseReturn, PartReturn, Refusal};

pub struct Told<'a> {
    pub house: &'a House,
    pub figure: f64,
    /// The group's.
    pub change: i64,
    /// One for each part.
    pub parts: Vec<PartReturn>,
    /// One for each account.
    pub changes: Vec<i64>,
    /// What each account comes to by itself over its own parts; refused where it has none, or where its first equity in one is
    /// not positive.
    pub own: Vec<Result<f64, Refusal>>,
}

/// A group without a figure, and the line that it is for, where that is one line.
pub struct Refused {
    pub line: Option<usize>,
    refusal: Refusal,
    why: String,
}

impl fmt::Display for Refused {
    fn fmt(&self, f: &mut fmt::Formatter<'_>) -> fmt::Result {
        write!(f, "{}: {}", refused("the house return", self.refusal), self.why)
    }
}

pub fn of(house: &House) -> Result<Told<'_>, Refused> {
    let (told, changes) = asked(house.all(), &house.parts).map_err(|refusal| fault(house, refusal))?;
    let own = house.all().map(|account| own_return(house, account)).collect();
    Ok(Told { house, figure: told.figure, change: told.change, parts: told.parts().to_vec(), changes, own })
}

/// The house return of these accounts over these parts, and the change of each.
fn asked<'a>(
    accounts: Range<usize>,
    parts: impl IntoIterator<Item = &'a Part>,
) -> Result<(HouseReturn, Vec<i64>), Refusal> {
    let mut group = Group::new();
    let ids: Vec<_> = accounts.clone().map(|_| group.account()).collect();
    for part in parts {
        let mut filled = group.part();
        for ends in part.ends.iter().map(|said| &said.what).filter(|ends| accounts.contains(&ends.account)) {
            let id = ids[ends.account - accounts.start];
            filled.equities(id, ends.first, ends.last).expect("an account of this group");
        }
    }
    let told = group.house_return()?;
    let changes = ids.iter().filter_map(|id| told.change_of(*id)).collect();
    Ok((told, changes))
}

/// Whether these accounts are refused so in that part by itself.
fn refused_in(part: &Part, accounts: Range<usize>, refusal: Refusal) -> bool {
    asked(accounts, [part]).is_err_and(|told| told == refusal)
}

fn alone(account: usize) -> Range<usize> {
    account..account + 1
}

/// The figure of the account's own group, which is the total return of its growths.
fn own_return(house: &House, account: usize) -> Result<f64, Refusal> {
    let (told, _) = asked(alone(account), house.parts.iter().filter(|part| part.counts(account)))?;
    Ok(told.figure)
}

impl Told<'_> {
    /// What the page showed before: the accounts' own returns, each of the same weight. None where no account has one.
    pub fn average(&self) -> Option<f64> {
        let own: Vec<f64> = self.own.iter().filter_map(|own| own.ok()).collect();
        (!own.is_empty()).then(|| own.iter().sum::<f64>() / own.len() as f64)
    }

    /// The accounts that the average leaves out, and why.
    pub fn without_return(&self) -> Vec<String> {
        let House { accounts, parts, .. } = self.house;
        let said = |account: usize| {
            let refusal = self.own[account].err()?;
            let counts = |part: &&Part| part.counts(account) && refused_in(part, alone(account), refusal);
            let why = match parts.iter().find(counts) {
                Some(part) => format!("its first equity in {} is not positive", part.label),
                None => "it is at both ends of no part".into(),
            };
            Some(format!("{} has no return of its own and is left out of the average: {why}.", accounts[account].what))
        };
        self.house.all().filter_map(said).collect()
    }

    /// The parts that leave out an account that is there at one end, and whom.
    pub fn absent_at_one_end(&self) -> Vec<String> {
        let House { accounts, parts, .. } = self.house;
        let said = |part: &Part| {
            let half = part.ends.iter().filter(|said| said.what.first.is_some() != said.what.last.is_some());
            let names: Vec<&str> = half.map(|said| accounts[said.what.account].what.as_str()).collect();
            let left = format!("{} leaves out {}, absent at one end.", part.label, names.join(", "));
            (!names.is_empty()).then_some(left)
        };
        parts.iter().filter_map(said).collect()
    }
}

/// Where the file has what was refused.
fn fault(house: &House, refusal: Refusal) -> Refused {
    let (line, why) = match refusal {
        Refusal::BadGroup => match house.accounts.get(Group::MAX_ACCOUNTS) {
            Some(said) => (Some(said.line), format!("{} is one too many", said.what)),
            None => (None, "no account is named".into()),
        },
        Refusal::TooLong => match house.parts.get(Group::MAX_PARTS) {
            Some(part) => (Some(part.line), format!("part {} is one too many", part.label)),
            None => (None, "there is no part".into()),
        },
        Refusal::OutOfRange => out_of_range(house, refusal),
        _ => match house.parts.iter().find(|part| refused_in(part, house.all(), refusal)) {
            Some(part) => {
                let sum = money(part.first_sum());
                let nobody = if part.counted() == 0 { ", nobody being there at both ends" } else { "" };
                (Some(part.line), format!("the first sum of part {} is {sum}{nobody}", part.label))
            }
            None => (None, "in a part".into()),
        },
    };
    Refused { line, refusal, why }
}

/// The first of: an account's change in a part, a part's sums, an account's change over its parts; else it is the group's.
fn out_of_range(house: &House, refusal: Refusal) -> (Option<usize>, String) {
    let House { accounts, parts, .. } = house;
    for part in parts {
        if let Some(said) = part.ends.iter().find(|said| refused_in(part, alone(said.what.account), refusal)) {
            let name = &accounts[said.what.account].what;
            return (Some(said.line), format!("the change of {name} in part {}", part.label));
        }
    }
    if let Some(part) = parts.iter().find(|part| refused_in(part, house.all(), refusal)) {
        return (Some(part.line), format!("the first sum or the change of part {}", part.label));
    }
    match house.all().find(|account| asked(alone(*account), parts).is_err_and(|told| told == refusal)) {
        Some(account) => {
            let Said { line, what } = &accounts[account];
            (Some(*line), format!("the change of {what} over its parts"))
        }
        None => (None, "the change of the group".into()),
    }
}
