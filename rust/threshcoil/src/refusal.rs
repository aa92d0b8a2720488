//! Why a call was refused, and where.

use crate::Entry;
use crate::entry::Given;
use std::fmt;
use threshcoil_sys::answer;

/// A call that was not done. The account and every lent place are as they were.
///
/// Where several apply, the one told is the first of: 11, 1, 6, 2, 3, 5, 4, 8, 7, 9, 10, 12; of a group: 13, 6, 15, 14; of a file that is
/// loaded: 16, 17 or 11 as its bytes are met, then 18, then 11.
///
/// 2, 3 and 4 tell the first entry that is bad, of the targets before any of the prices; 3 the first whose symbol stands earlier in its
/// list. 16, 17 and 18 tell a byte of the file, from 0.
///
/// ```
/// use threshcoil::{Account, CostModel, Entry, List, Price, Refusal, Settings, Symbol};
///
/// let account = Account::open(50_000, &Settings::new(CostModel::default()), &mut [0])?;
/// let [fund, bond] = [Symbol::new("FUND")?, Symbol::new("BOND")?];
/// let prices = [Price { symbol: fund, price: 1_000 }, Price { symbol: bond, price: 0 }];
/// let refusal = account.total_equity(&prices).unwrap_err();
/// assert_eq!((refusal.number(), refusal.to_string().as_str()), (4, "price 1 (`BOND`): a price is below 1"));
/// let Refusal::BadPrice(entry) = refusal else { panic!("{refusal}") };
/// assert_eq!((entry.list(), entry.index()), (List::Prices, 1));
/// assert!(entry.symbol() == bond);
///
/// let refusal = Symbol::new("no spaces").unwrap_err();
/// assert_eq!((refusal.number(), refusal.to_string().as_str()), (2, "`no space..`: a symbol is bad"));
///
/// let file = account.saved();
/// assert_eq!(Account::load(&file[..12]).unwrap_err().to_string(), "the file ends early, at byte 12");
/// # Ok::<(), Refusal>(())
/// ```
#[derive(Clone, Copy, Debug, PartialEq, Eq, PartialOrd, Ord, Hash)]
pub enum Refusal {
    /// 1: a setting or the opening cash is out of its bounds.
    BadSetting,
    /// 2: a symbol is not 1 to 8 bytes from 33 to 126.
    BadSymbol(Entry),
    /// 3: a symbol stands twice in one list.
    Twice(Entry),
    /// 4: a price is below 1.
    BadPrice(Entry),
    /// 5: a weight is not finite.
    BadWeight,
    /// 6: more than 64 targets, 128 prices or 4,096 returns, or parts of a period outside 1 to 64.
    TooLong,
    /// 7: held symbols, flat ones too, and target symbols together exceed 64.
    TooMany,
    /// 8: recording is on and there are under 64 record places, or none for a close.
    NoRecordRoom,
    /// 9: a close names a position that is absent or flat.
    NotHeld,
    /// 10: the equity or return buffer has no free place.
    BufferFull,
    /// 11: the bytes are no sound account, or a file has an unknown form, a mark or a count out of its bounds, or no sound account.
    Unsound,
    /// 12: a return series is empty or has a member that is not finite.
    BadSeries,
    /// 13: a group of accounts is empty or over 32.
    BadGroup,
    /// 14: a part's first sum is not positive.
    NoFirstSum,
    /// 15: a change or a finished sum of a group leaves the signed 64-bit range.
    OutOfRange,
    /// 16: a file ends early, after so many bytes.
    EndsEarly(usize),
    /// 17: the number of a file that begins at this byte is not in its shortest form, or too large.
    BadNumber(usize),
    /// 18: bytes of a file are left over, from this one on.
    LeftOver(usize),
    /// 19: the room for a file is too short.
    NoFileRoom,
}

use Refusal::*;

impl Refusal {
    /// Its number among the answers; 0, which is none of them, means done.
    pub fn number(self) -> u64 {
        self.row().0
    }

    /// What it says of any call, without the place.
    pub fn meaning(self) -> &'static str {
        self.row().1
    }

    /// The entry that 2, 3 and 4 tell.
    pub fn entry(self) -> Option<Entry> {
        match self {
            BadSymbol(entry) | Twice(entry) | BadPrice(entry) => Some(entry),
            _ => None,
        }
    }

    /// The byte of the file that 16, 17 and 18 tell.
    pub fn byte(self) -> Option<usize> {
        match self {
            EndsEarly(byte) | BadNumber(byte) | LeftOver(byte) => Some(byte),
            _ => None,
        }
    }

    fn row(self) -> (u64, &'static str) {
        match self {
            BadSetting => (1, "a setting or opening cash is bad"),
            BadSymbol(_) => (2, "a symbol is bad"),
            Twice(_) => (3, "a symbol stands twice in one list"),
            BadPrice(_) => (4, "a price is below 1"),
            BadWeight => (5, "a weight is not finite"),
            TooLong => (6, "a list or return series is over its bound, or parts are not 1 to 64"),
            TooMany => (7, "held and target symbols together exceed 64"),
            NoRecordRoom => (8, "recording is on and the record buffer has too few places"),
            NotHeld => (9, "a close names an absent or flat position"),
            BufferFull => (10, "the equity or return buffer has no free place"),
            Unsound => (11, "the account is not sound"),
            BadSeries => (12, "a return series is empty or has a non-finite member"),
            BadGroup => (13, "a group of accounts is empty or over 32"),
            NoFirstSum => (14, "a part's first sum is not positive"),
            OutOfRange => (15, "a change or a finished sum leaves the signed 64-bit range"),
            EndsEarly(_) => (16, "the file ends early"),
            BadNumber(_) => (17, "a number of the file is not in its shortest form, or too large"),
            LeftOver(_) => (18, "bytes of the file are left over"),
            NoFileRoom => (19, "the room for the file is too short"),
        }
    }
}

/// The entry before its meaning, the byte after it.
impl fmt::Display for Refusal {
    fn fmt(&self, f: &mut fmt::Formatter<'_>) -> fmt::Result {
        if let Some(entry) = self.entry() {
            write!(f, "{entry}: ")?;
        }
        f.write_str(self.meaning())?;
        match self {
            LeftOver(byte) => write!(f, ", from byte {byte} on"),
            EndsEarly(byte) | BadNumber(byte) => write!(f, ", at byte {byte}"),
            _ => Ok(()),
        }
    }
}

impl std::error::Error for Refusal {}

/// What the C interface returned of a call without symbols.
pub(crate) fn told(word: u64) -> Result<usize, Refusal> {
    told_of(word, Given::Lists(&[], &[]))
}

/// What the C interface returned: the count, or the refusal at its place in what was given. There are no numbers but these.
pub(crate) fn told_of(word: u64, given: Given<'_>) -> Result<usize, Refusal> {
    let byte = answer::byte(word) as usize;
    Err(match answer::number(word) {
        0 => return Ok(answer::count(word) as usize),
        1 => BadSetting,
        2 => BadSymbol(given.entry(word)),
        3 => Twice(given.entry(word)),
        4 => BadPrice(given.entry(word)),
        5 => BadWeight,
        6 => TooLong,
        7 => TooMany,
        8 => NoRecordRoom,
        9 => NotHeld,
        10 => BufferFull,
        12 => BadSeries,
        13 => BadGroup,
        14 => NoFirstSum,
        15 => OutOfRange,
        16 => EndsEarly(byte),
        17 => BadNumber(byte),
        18 => LeftOver(byte),
        19 => NoFileRoom,
        _ => Unsound,
    })
}

#[cfg(test)]
mod tests {
    use super::*;

    #[test]
    fn each_number_is_told_as_itself() {
        for number in 1..=19 {
            for place in [0, 1, 2, 35, 4_000] {
                assert_eq!(told(number + 256 * place).map_err(Refusal::number), Err(number));
            }
        }
        assert_eq!((told(0), told(256 * 64)), (Ok(0), Ok(64)));
    }
}
