//! Request 2 by Rust's own i128 and f64: nanobook has no house return.

use super::group::{Gave, Group, Places};

/// What 15 asks of, kind by kind, each number exact.
pub struct Sums {
    pub changes: Vec<i128>,
    pub firsts: Vec<i128>,
    pub gains: Vec<i128>,
    pub own: Vec<i128>,
    pub group: i128,
}

pub const KINDS: [&str; 5] =
    ["an account's change in a part", "a first sum", "a part's change", "an account's change", "the group's change"];

pub fn fits(n: &i128) -> bool {
    i64::try_from(*n).is_ok()
}

impl Sums {
    pub fn of(group: &Group) -> Sums {
        let mut sums =
            Sums { changes: Vec::new(), firsts: Vec::new(), gains: Vec::new(), own: vec![0; group.accounts], group: 0 };
        for part in 0..group.parts {
            let (mut sum, mut gain) = (0, 0);
            for (account, own) in sums.own.iter_mut().enumerate() {
                let Some([first, last]) = group.ends(part, account).map(|ends| ends.map(i128::from)) else { continue };
                sums.changes.push(last - first);
                sum += first;
                gain += last - first;
                *own += last - first;
            }
            sums.firsts.push(sum);
            sums.gains.push(gain);
        }
        sums.group = sums.own.iter().sum();
        sums
    }

    /// In the order of `KINDS`.
    pub fn kinds(&self) -> [&[i128]; 5] {
        [&self.changes, &self.firsts, &self.gains, &self.own, std::slice::from_ref(&self.group)]
    }

    pub fn leave(&self) -> bool {
        !self.kinds().into_iter().flatten().all(fits)
    }

    /// Some first sum is not positive.
    pub fn no_first_sum(&self) -> bool {
        self.firsts.iter().any(|sum| *sum <= 0)
    }

    /// Of marks that are 0 or 1, and lists of their lengths.
    pub fn answer(&self, group: &Group) -> u64 {
        let checks = [
            (13, !(1..=32).contains(&group.accounts)),
            (6, !(1..=64).contains(&group.parts)),
            (15, self.leave()),
            (14, self.no_first_sum()),
        ];
        checks.iter().find(|(_, holds)| *holds).map_or(0, |(number, _)| *number)
    }

    /// What a call that is done leaves, where each number fits.
    fn written(&self) -> Places {
        let mut places = Places::of(self.own.len(), self.firsts.len());
        let Places { rates, changes, firsts, gains } = &mut places;
        let mut product = 1.0;
        for (part, growth) in rates[1..].iter_mut().enumerate() {
            (firsts[part], gains[part]) = (self.firsts[part] as i64, self.gains[part] as i64);
            *growth = gains[part] as f64 / firsts[part] as f64;
            product *= 1.0 + *growth;
        }
        rates[0] = product - 1.0;
        changes[0] = self.group as i64;
        changes[1..].iter_mut().zip(&self.own).for_each(|(change, own)| *change = *own as i64);
        places
    }

    pub fn told(&self, group: &Group) -> Gave {
        let answer = self.answer(group);
        let places = if answer == 0 { self.written() } else { Places::of(group.accounts, group.parts) };
        Gave { answer, places }
    }
}
