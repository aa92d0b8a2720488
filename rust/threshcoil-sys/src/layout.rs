//! The words of settings and of an account, in their order: docs/LAYOUT.md as one table. A row more or fewer moves every size
//! and every place; nothing else here, in the safe crate or in the harness has a number for one.

/// What a word may hold.
#[derive(Clone, Copy, Debug, PartialEq)]
pub enum Kind {
    /// A double from 0 to this.
    Rate(f64),
    /// A signed number from this on.
    Amount(i64),
    Count,
    /// 0 or 1.
    Flag,
    /// 0 or 1, of the count that is the next word: beside the mark 0 that is 0.
    Mark,
    /// 0, or a signed number from the one of another row on, the floor, which has this place in its table.
    Ceiling(usize),
    /// Must be 0.
    Reserved,
}

use Kind::*;

/// A row of the table.
#[derive(Clone, Copy, Debug)]
pub struct Word {
    pub name: &'static str,
    pub kind: Kind,
}

/// Rows of the table, and their places among each other.
macro_rules! words {
    ($(#[$doc:meta])* $table:ident, $places:ident: $($name:ident $kind:expr;)*) => {
        $(#[$doc])*
        #[derive(Clone, Copy, Debug, PartialEq, Eq)]
        pub enum $places {
            $($name),*
        }
        pub const $table: &[Word] = &[$(Word { name: stringify!($name), kind: $kind }),*];
    };
}

words! {
    /// Settings, which stand by themselves and in an account after the cash.
    SETTINGS, Setting:
    CommissionBps Rate(f64::MAX);
    SlippageBps Rate(10_000.0);
    MinCommission Amount(0);
    QuantityStep Amount(1);
    MinOrderValue Amount(0);
    MaxOrderValue Amount(0);
    NoTradeBandBps Rate(f64::MAX);
    CapMark Mark;
    CapCount Count;
    MaxRebalanceNotional Amount(0);
    Recording Flag;
    CashFirst Flag;
    MaxCommission Ceiling(Setting::MinCommission as usize);
    CoverRule Reserved;
    LongOnly Reserved;
}

words! {
    /// Counters, as they stand in an account after the settings and as `tc_counters` tells them.
    COUNTERS, Counter:
    LastOrderCount Count;
    LastNotional Amount(i64::MIN);
    TrimmedCount Count;
    TrimmedShortfall Amount(i64::MIN);
    RecordCount Count;
    OpenCount Reserved;
    ClosedTotal Reserved;
}

words! {
    /// The series, as they stand in an account after the counters and as `tc_series` tells them.
    SERIES, Series:
    EquityCount Count;
    ReturnCount Count;
    PreviousEquity Amount(i64::MIN);
}

/// Columns of positions, 64 places each, as they stand at an account's end.
#[derive(Clone, Copy, Debug, PartialEq, Eq)]
pub enum Column {
    Symbol,
    Quantity,
    Average,
    Realized,
    TotalCost,
}

pub const COLUMNS: usize = 5;
/// Positions of an account, targets of a call, weights that a query tells.
pub const PLACES: usize = 64;

/// Words of an account: the cash, the settings, the counters, the series, the count of positions, the columns.
pub const CASH: usize = 0;
pub const SETTINGS_FROM: usize = CASH + 1;
pub const COUNTERS_FROM: usize = SETTINGS_FROM + SETTINGS.len();
pub const SERIES_FROM: usize = COUNTERS_FROM + COUNTERS.len();
pub const POSITIONS: usize = SERIES_FROM + SERIES.len();

pub const fn setting(word: Setting) -> usize {
    SETTINGS_FROM + word as usize
}

pub const fn counter(word: Counter) -> usize {
    COUNTERS_FROM + word as usize
}

pub const fn series(word: Series) -> usize {
    SERIES_FROM + word as usize
}

/// The first word of a column.
pub const fn column(column: Column) -> usize {
    POSITIONS + 1 + PLACES * column as usize
}

pub const ACCOUNT_WORDS: usize = POSITIONS + 1 + PLACES * COLUMNS;

pub const WORD_SIZE: usize = 8;

/// The bytes of a word, and of a run of them.
pub const fn bytes_of(word: usize, count: usize) -> std::ops::Range<usize> {
    WORD_SIZE * word..WORD_SIZE * (word + count)
}

pub const ACCOUNT_SIZE: usize = WORD_SIZE * ACCOUNT_WORDS;
pub const SETTINGS_SIZE: usize = WORD_SIZE * SETTINGS.len();
pub const COUNTERS_SIZE: usize = WORD_SIZE * COUNTERS.len();
pub const SERIES_SIZE: usize = WORD_SIZE * SERIES.len();
/// A mark, then a word of each column.
pub const POSITION_SIZE: usize = WORD_SIZE * (1 + COLUMNS);
/// Sequence, period, kind, symbol, and eight figures.
pub const RECORD_SIZE: usize = WORD_SIZE * 12;
/// Cash, equity, open positions, realized profit, weights written.
pub const SNAPSHOT_SIZE: usize = WORD_SIZE * 5;
/// An entry of a list: a symbol, then a weight or a price.
pub const ENTRY_SIZE: usize = WORD_SIZE * 2;
pub const WEIGHTS_SIZE: usize = ENTRY_SIZE * PLACES;
/// The longest file of a saved account.
pub const FILE_SIZE: usize = 3_328;
