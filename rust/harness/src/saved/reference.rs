//! Document 02's request 5, with request 9's places in a file, as a second program, by tables and in wide numbers; it calls nothing of the port.
//! An account is its bytes of the C interface.

use crate::damage::sound;
use crate::place::{Answer, Place};
use std::ops::Range;
use threshcoil_sys::layout::{self, ACCOUNT_SIZE, Column, Counter, PLACES, Series, Setting};

/// What stands at a place of a file.
#[derive(Clone, Copy, Debug, PartialEq, Eq)]
pub enum Part {
    Form,
    Signed,
    Count,
    Rate,
    Flag,
    /// With a count after it where it is 1, which in an account is the next word.
    CapMark,
    Positions,
    Length,
    Text,
}

use Part::*;

/// "cash, settings in document 01's order without opening cash, the ceiling, recording and cash-first .., counters in `Portfolio`'s field order,
/// record count, equity and return counts, previous equity, position count": each by its word in an account.
const HEAD: [(usize, Part); 22] = [
    (layout::CASH, Signed),
    (layout::setting(Setting::MinCommission), Signed),
    (layout::setting(Setting::MinOrderValue), Signed),
    (layout::setting(Setting::MaxOrderValue), Signed),
    (layout::setting(Setting::MaxRebalanceNotional), Signed),
    (layout::setting(Setting::QuantityStep), Signed),
    (layout::setting(Setting::CommissionBps), Rate),
    (layout::setting(Setting::NoTradeBandBps), Rate),
    (layout::setting(Setting::SlippageBps), Rate),
    (layout::setting(Setting::CapMark), CapMark),
    (layout::setting(Setting::MaxCommission), Signed),
    (layout::setting(Setting::Recording), Flag),
    (layout::setting(Setting::CashFirst), Flag),
    (layout::counter(Counter::LastOrderCount), Count),
    (layout::counter(Counter::LastNotional), Signed),
    (layout::counter(Counter::TrimmedCount), Count),
    (layout::counter(Counter::TrimmedShortfall), Signed),
    (layout::counter(Counter::RecordCount), Count),
    (layout::series(Series::EquityCount), Count),
    (layout::series(Series::ReturnCount), Count),
    (layout::series(Series::PreviousEquity), Signed),
    (layout::POSITIONS, Positions),
];

/// "each in `Position`'s field order", after the symbol.
const FIGURES: [Column; 4] = [Column::Quantity, Column::Average, Column::Realized, Column::TotalCost];

const FORM: u64 = 1;
const NEGATIVE_ZERO: u64 = 1 << 63;

fn word(account: &[u8], place: usize) -> u64 {
    u64::from_le_bytes(account[layout::bytes_of(place, 1)].try_into().unwrap())
}

fn put(account: &mut [u8], place: usize, word: u64) {
    account[layout::bytes_of(place, 1)].copy_from_slice(&word.to_le_bytes());
}

/// "groups of seven bits, lowest first, the top bit set on all but the last group, shortest form only".
pub fn groups(n: u64) -> Vec<u8> {
    let length = (1..).find(|length| u128::from(n) < 1 << (7 * length)).expect("a length");
    (0..length).map(|k| (u128::from(n) >> (7 * k)) as u8 & 0x7f | if k + 1 < length { 0x80 } else { 0 }).collect()
}

/// "A signed n is stored as 2n, or as -2n-1 when negative."
pub fn of_signed(n: i64) -> u64 {
    let n = i128::from(n);
    (if n < 0 { -2 * n - 1 } else { 2 * n }) as u64
}

fn to_signed(n: u64) -> i64 {
    let n = i128::from(n);
    (if n % 2 == 0 { n / 2 } else { -(n + 1) / 2 }) as i64
}

/// What a word of an account is in a file.
fn stored(part: Part, word: u64) -> u64 {
    match part {
        Signed => of_signed(word as i64),
        // "Floating zero settings are written with positive sign."
        Rate if word == NEGATIVE_ZERO => 0,
        _ => word,
    }
}

/// The file of an account, or 11.
pub fn save(account: &[u8]) -> Result<Vec<u8>, u64> {
    if !sound(account) {
        return Err(11);
    }
    let mut file = groups(FORM);
    for (place, part) in HEAD {
        let here = word(account, place);
        file.extend(groups(stored(part, here)));
        if part == CapMark && here == 1 {
            file.extend(groups(word(account, place + 1)));
        }
    }
    for k in 0..word(account, layout::POSITIONS) as usize {
        let symbol = &account[layout::bytes_of(layout::column(Column::Symbol) + k, 1)];
        let length = symbol.iter().position(|byte| *byte == 0).unwrap_or(symbol.len());
        file.extend(groups(length as u64));
        file.extend(&symbol[..length]);
        for column in FIGURES {
            file.extend(groups(stored(Signed, word(account, layout::column(column) + k))));
        }
    }
    Ok(file)
}

/// What a file is refused for, each sort that document 02 names by itself.
#[derive(Clone, Copy, Debug, PartialEq, Eq, PartialOrd, Ord)]
pub enum Fault {
    EndsBetween,
    EndsWithin,
    EndsAfterNine,
    EndsInSymbol,
    NotShortest,
    FormNotShortest,
    TenthGroup,
    TenthGroupContinues,
    Form,
    Flag,
    CapMark,
    NegativeZero,
    TooMany,
    LengthZero,
    LengthAbove,
    LengthAboveAtEnd,
    LeftOver,
    LeftOverUnsound,
    SymbolPadded,
    SymbolBad,
    Unsound,
}

impl Fault {
    pub const ALL: [Fault; 21] = [
        Fault::EndsBetween,
        Fault::EndsWithin,
        Fault::EndsAfterNine,
        Fault::EndsInSymbol,
        Fault::NotShortest,
        Fault::FormNotShortest,
        Fault::TenthGroup,
        Fault::TenthGroupContinues,
        Fault::Form,
        Fault::Flag,
        Fault::CapMark,
        Fault::NegativeZero,
        Fault::TooMany,
        Fault::LengthZero,
        Fault::LengthAbove,
        Fault::LengthAboveAtEnd,
        Fault::LeftOver,
        Fault::LeftOverUnsound,
        Fault::SymbolPadded,
        Fault::SymbolBad,
        Fault::Unsound,
    ];

    pub fn number(self) -> u64 {
        match self {
            Fault::EndsBetween | Fault::EndsWithin | Fault::EndsAfterNine | Fault::EndsInSymbol => 16,
            Fault::NotShortest | Fault::FormNotShortest | Fault::TenthGroup | Fault::TenthGroupContinues => 17,
            Fault::LeftOver | Fault::LeftOverUnsound => 18,
            _ => 11,
        }
    }
}

/// What a file is refused for, and the answer: "the byte place for 16, 17 and 18: the end of the file, the number's first byte, and the first byte
/// left over".
#[derive(Clone, Copy, Debug, PartialEq, Eq)]
pub struct Refused {
    pub fault: Fault,
    pub answer: Answer,
}

impl Refused {
    fn plain(fault: Fault) -> Refused {
        Refused { fault, answer: Answer::plain(fault.number()) }
    }

    fn at(fault: Fault, byte: usize) -> Refused {
        Refused { fault, answer: Answer::at(fault.number(), Place::Byte(byte)) }
    }
}

/// A file that is read from its beginning.
struct Reading<'a> {
    file: &'a [u8],
    place: usize,
    account: Vec<u8>,
    /// Whether a symbol has a zero at its end, which an account would not show, or another byte that none has.
    padded: bool,
    bad: bool,
    parts: Parts,
}

/// What stands where in a file.
pub type Parts = Vec<(Part, Range<usize>)>;

/// The account of a file, and its parts.
pub fn load(file: &[u8]) -> Result<(Vec<u8>, Parts), Refused> {
    let account = vec![0; ACCOUNT_SIZE];
    let mut reading = Reading { file, place: 0, account, padded: false, bad: false, parts: Vec::new() };
    reading.all()?;
    let Reading { place, account, padded, bad, parts, .. } = reading;
    let good = !padded && !bad && sound(&account);
    match (place < file.len(), good) {
        (true, true) => Err(Refused::at(Fault::LeftOver, place)),
        (true, false) => Err(Refused::at(Fault::LeftOverUnsound, place)),
        (false, true) => Ok((account, parts)),
        (false, false) if bad => Err(Refused::plain(Fault::SymbolBad)),
        (false, false) if padded => Err(Refused::plain(Fault::SymbolPadded)),
        (false, false) => Err(Refused::plain(Fault::Unsound)),
    }
}

impl Reading<'_> {
    fn all(&mut self) -> Result<(), Refused> {
        self.number(Form)?;
        for (place, part) in HEAD {
            let n = self.number(part)?;
            put(&mut self.account, place, if part == Signed { to_signed(n) as u64 } else { n });
            if part == CapMark && n == 1 {
                let cap = self.number(Count)?;
                put(&mut self.account, place + 1, cap);
            }
        }
        (0..word(&self.account, layout::POSITIONS) as usize).try_for_each(|k| self.position(k))
    }

    fn position(&mut self, k: usize) -> Result<(), Refused> {
        let length = self.number(Length)? as usize;
        let text = self.place..self.place + length;
        let ends = Refused::at(Fault::EndsInSymbol, self.file.len());
        let bytes = self.file.get(text.clone()).ok_or(ends)?;
        let named = bytes.iter().rposition(|byte| *byte != 0).map_or(0, |last| last + 1);
        self.padded |= named < length;
        self.bad |= named == 0 || bytes[..named].iter().any(|byte| !(33..=126).contains(byte));
        let at = layout::WORD_SIZE * (layout::column(Column::Symbol) + k);
        self.account[at..at + length].copy_from_slice(bytes);
        self.place += length;
        self.parts.push((Text, text));
        for column in FIGURES {
            let n = self.number(Signed)?;
            put(&mut self.account, layout::column(column) + k, to_signed(n) as u64);
        }
        Ok(())
    }

    /// A number as it stands, then what is asked of one that stands there.
    fn number(&mut self, part: Part) -> Result<u64, Refused> {
        let from = self.place;
        let rest = &self.file[from..];
        let ended = rest.iter().take(10).position(|group| *group < 0x80);
        let length = match ended {
            Some(last) => last + 1,
            None if rest.len() >= 10 => return Err(Refused::at(Fault::TenthGroupContinues, from)),
            None => return Err(self.ends(rest.len())),
        };
        let sum = rest[..length].iter().rev().fold(0u128, |sum, group| sum << 7 | u128::from(group & 0x7f));
        if length == 10 && rest[9] > 1 {
            return Err(Refused::at(Fault::TenthGroup, from));
        }
        let n = u64::try_from(sum).expect("ten groups, the tenth at most 1");
        if length > 1 && rest[length - 1] == 0 {
            return Err(Refused::at(if part == Form { Fault::FormNotShortest } else { Fault::NotShortest }, from));
        }
        self.place += length;
        self.parts.push((part, from..self.place));
        self.met(part, n).map_or(Ok(n), |fault| Err(Refused::plain(fault)))
    }

    fn ends(&self, groups: usize) -> Refused {
        let fault = match groups {
            0 => Fault::EndsBetween,
            9 => Fault::EndsAfterNine,
            _ => Fault::EndsWithin,
        };
        Refused::at(fault, self.file.len())
    }

    /// "11 for an unknown form, a flag or cap mark above 1, a negative zero, over 64 positions or a symbol length outside 1 to 8, as the bytes
    /// are met".
    fn met(&self, part: Part, n: u64) -> Option<Fault> {
        let above = if self.place == self.file.len() { Fault::LengthAboveAtEnd } else { Fault::LengthAbove };
        let (bad, fault) = match part {
            Form => (n != FORM, Fault::Form),
            Flag => (n > 1, Fault::Flag),
            CapMark => (n > 1, Fault::CapMark),
            Rate => (n == NEGATIVE_ZERO, Fault::NegativeZero),
            Positions => (n > PLACES as u64, Fault::TooMany),
            Length if n == 0 => (true, Fault::LengthZero),
            Length => (n > 8, above),
            Signed | Count | Text => return None,
        };
        bad.then_some(fault)
    }
}
