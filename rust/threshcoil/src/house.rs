//! The house return: one figure for a group of accounts.

use crate::Refusal;
use crate::refusal::told;
use std::fmt;
use std::sync::atomic::{AtomicU64, Ordering};

const ACCOUNTS: usize = Group::MAX_ACCOUNTS;
const PARTS: usize = Group::MAX_PARTS;
const ENDS: usize = 2 * ACCOUNTS * PARTS;

/// Accounts, and what each was worth at both ends of each part of a period.
///
/// Accounts and parts are made here and filled in by [`Part::equities`]; too many or too few of either are refused when the
/// figure is asked for. A group takes 36 KiB, all inside it.
///
/// ```
/// use threshcoil::Group;
///
/// # fn main() -> Result<(), Box<dyn std::error::Error>> {
/// let mut group = Group::new();
/// let (flagship, trial) = (group.account(), group.account());
/// group.part().equities(flagship, Some(1_000_000), Some(1_250_000))?;
/// // A deposit ended the first part, and the trial account joins.
/// let mut second = group.part();
/// second.equities(flagship, Some(1_999_900), Some(1_499_800))?;
/// second.equities(trial, Some(100), Some(200))?;
///
/// let house = group.house_return()?;
/// // 250,000 over 1,000,000, then -500,000 over 2,000,000: 1.25 times 0.75, less 1.
/// assert_eq!(house.figure, -0.0625);
/// assert_eq!(house.parts()[1].growth, -0.25);
/// assert_eq!((house.change_of(flagship), house.change_of(trial)), (Some(-250_100), Some(100)));
/// assert_eq!(house.change, -250_000);
/// # Ok(())
/// # }
/// ```
pub struct Group {
    number: u64,
    accounts: usize,
    parts: usize,
    /// As the C interface takes them: part by part, in a part account by account, for each its first end and its last.
    marks: [u8; ENDS],
    equities: [i64; ENDS],
}

/// An account of one group. With another group it is refused, by [`AnotherGroup`].
#[derive(Clone, Copy, Debug, PartialEq, Eq, Hash)]
pub struct AccountId {
    group: u64,
    place: usize,
}

/// An account was given to a group that it is none of; nothing was changed.
#[derive(Clone, Copy, Debug, PartialEq, Eq)]
pub struct AnotherGroup;

/// A part of the period, to be filled in. A deposit or a withdrawal ends a part.
pub struct Part<'a> {
    group: u64,
    /// Empty where the part is over the bound.
    marks: &'a mut [u8],
    equities: &'a mut [i64],
}

/// What a group came to.
#[derive(Clone, Copy, Debug)]
pub struct HouseReturn {
    /// 1 plus each part's growth, multiplied in the order of the parts, less 1.
    pub figure: f64,
    /// The group's change, which is that of its accounts added up.
    pub change: i64,
    group: u64,
    accounts: usize,
    changes: [i64; ACCOUNTS],
    part_count: usize,
    parts: [PartReturn; PARTS],
}

/// What a part came to, over the accounts that are there at both its ends.
#[derive(Clone, Copy, Debug, PartialEq)]
pub struct PartReturn {
    /// Their equities at its first end, added up.
    pub first_sum: i64,
    /// Their changes, added up.
    pub change: i64,
    /// The change over the first sum.
    pub growth: f64,
}

impl Group {
    /// The most accounts that are not refused.
    pub const MAX_ACCOUNTS: usize = 32;
    /// The most parts that are not refused.
    pub const MAX_PARTS: usize = 64;

    /// A group without accounts and parts.
    pub fn new() -> Group {
        static MADE: AtomicU64 = AtomicU64::new(0);
        let number = MADE.fetch_add(1, Ordering::Relaxed);
        Group { number, accounts: 0, parts: 0, marks: [0; ENDS], equities: [0; ENDS] }
    }

    /// One account more, absent in the parts that there are.
    pub fn account(&mut self) -> AccountId {
        let (place, parts) = (self.accounts, self.parts.min(PARTS));
        self.accounts += 1;
        if place < ACCOUNTS {
            widen(&mut self.marks, parts, 2 * place);
            widen(&mut self.equities, parts, 2 * place);
        }
        AccountId { group: self.number, place }
    }

    /// One part more, behind the others, in which every account is absent.
    pub fn part(&mut self) -> Part<'_> {
        let width = 2 * self.accounts.min(ACCOUNTS);
        let places = if self.parts < PARTS { self.parts * width..(self.parts + 1) * width } else { 0..0 };
        self.parts += 1;
        Part { group: self.number, marks: &mut self.marks[places.clone()], equities: &mut self.equities[places] }
    }

    /// The figure, or, in this order: [`Refusal::BadGroup`], [`Refusal::TooLong`], [`Refusal::OutOfRange`] in any part,
    /// [`Refusal::NoFirstSum`] in any part.
    pub fn house_return(&self) -> Result<HouseReturn, Refusal> {
        // What is over a bound had no room, and the counts, which are told as they are, get it refused.
        let (accounts, part_count) = (self.accounts.min(ACCOUNTS), self.parts.min(PARTS));
        let count = 2 * accounts * part_count;
        let (mut rates, mut changes) = ([0.0; 1 + PARTS], [0; 1 + ACCOUNTS]);
        let (mut firsts, mut gains) = ([0; PARTS], [0; PARTS]);
        told(threshcoil_sys::tc_house_return(
            self.accounts as u64,
            self.parts as u64,
            &self.marks[..count],
            &self.equities[..count],
            &mut rates[..=part_count],
            &mut changes[..=accounts],
            &mut firsts[..part_count],
            &mut gains[..part_count],
        ))?;
        let ([figure, growths @ ..], [change, changes @ ..]) = (rates, changes);
        let part = |k| PartReturn { first_sum: firsts[k], change: gains[k], growth: growths[k] };
        let parts = std::array::from_fn(part);
        Ok(HouseReturn { figure, change, group: self.number, accounts, changes, part_count, parts })
    }
}

impl Part<'_> {
    /// The account's equity at both ends, in the place of what was given before. Where either is none, the account is left out
    /// of this part.
    pub fn equities(
        &mut self,
        account: AccountId,
        first: Option<i64>,
        last: Option<i64>,
    ) -> Result<&mut Self, AnotherGroup> {
        if account.group != self.group {
            return Err(AnotherGroup);
        }
        let places = 2 * account.place..2 * account.place + 2;
        for (place, end) in places.zip([first, last]) {
            if let (Some(mark), Some(equity)) = (self.marks.get_mut(place), self.equities.get_mut(place)) {
                (*mark, *equity) = (u8::from(end.is_some()), end.unwrap_or(0));
            }
        }
        Ok(self)
    }
}

/// Each row gets two places more, of 0. The last is moved first, since the others take its place.
fn widen<T: Copy + Default>(places: &mut [T], rows: usize, width: usize) {
    for row in (0..rows).rev() {
        let from = row * (width + 2);
        places.copy_within(row * width..(row + 1) * width, from);
        places[from + width..from + width + 2].fill(T::default());
    }
}

impl HouseReturn {
    /// The account's change over its own parts, those at both of whose ends it is there; none for an account that the group did
    /// not have.
    pub fn change_of(&self, account: AccountId) -> Option<i64> {
        let of_this = account.group == self.group && account.place < self.accounts;
        of_this.then(|| self.changes[account.place])
    }

    /// The parts, in their order.
    pub fn parts(&self) -> &[PartReturn] {
        &self.parts[..self.part_count]
    }
}

impl Default for Group {
    fn default() -> Group {
        Group::new()
    }
}

impl fmt::Debug for Group {
    fn fmt(&self, f: &mut fmt::Formatter<'_>) -> fmt::Result {
        let Group { accounts, parts, .. } = self;
        f.debug_struct("Group").field("accounts", accounts).field("parts", parts).finish_non_exhaustive()
    }
}

impl fmt::Display for AnotherGroup {
    fn fmt(&self, f: &mut fmt::Formatter<'_>) -> fmt::Result {
        f.write_str("the account is of another group")
    }
}

impl std::error::Error for AnotherGroup {}
