//! The account and its calls.

use crate::bytes;
use crate::entry::Given;
use crate::list::{Prices, Targets};
use crate::record;
use crate::refusal::{told, told_of};
use crate::settings;
use crate::{Context, CostModel, ExecutionRecord, Price, Refusal, Saved, Settings, Shares, Symbol, Target, Weights};
use std::fmt;
use threshcoil_sys as port;
use threshcoil_sys::layout::{self, Counter, Series};

/// One position, open or flat.
#[derive(Clone, Copy, Debug, PartialEq, Eq)]
pub struct Position {
    /// What is held.
    pub symbol: Symbol,
    /// How much; negative for a short, 0 for a flat position.
    pub quantity: Shares,
    /// Average entry price.
    pub avg_entry_price: i64,
    /// Profit taken so far.
    pub realized_pnl: i64,
    /// What the holding cost; negative for a short.
    pub total_cost: i64,
}

/// An account at one moment.
#[derive(Clone, Copy, Debug)]
pub struct Snapshot {
    /// The cash.
    pub cash: i64,
    /// Cash and the value of the positions.
    pub equity: i64,
    /// Of open positions, in symbol order.
    pub weights: Weights,
    /// How many positions are open.
    pub num_positions: u64,
    /// The profit taken of all positions, flat ones too.
    pub total_realized_pnl: i64,
}

/// A portfolio account: cash, settings, counters, and at most 64 positions in symbol order.
///
/// It is always sound, since it is opened by [`Account::open`], loaded from a file by [`Account::load`] or taken from bytes by
/// [`Account::from_bytes`], and every call leaves a sound account sound. So only what a caller gives can be refused.
#[derive(Clone, Copy, PartialEq, Eq)]
pub struct Account([u8; Account::SIZE]);

impl Account {
    /// Bytes of an account.
    pub const SIZE: usize = layout::ACCOUNT_SIZE;

    /// Bytes of the longest file of an account.
    pub const FILE_SIZE: usize = layout::FILE_SIZE;

    /// An account with cash alone, which is also written as the first equity.
    ///
    /// ```
    /// use threshcoil::{Account, CostModel, Refusal, Settings};
    ///
    /// let settings = Settings::new(CostModel::default());
    /// let mut equity = [0; 4];
    /// let account = Account::open(50_000, &settings, &mut equity)?;
    /// assert_eq!((account.cash(), equity[0]), (50_000, 50_000));
    /// assert_eq!(Account::open(-1, &settings, &mut equity), Err(Refusal::BadSetting));
    /// assert_eq!(Account::open(50_000, &settings, &mut []), Err(Refusal::BufferFull));
    /// # Ok::<(), Refusal>(())
    /// ```
    pub fn open(initial_cash: i64, settings: &Settings, equity: &mut [i64]) -> Result<Account, Refusal> {
        let mut account = Account([0; Account::SIZE]);
        told(port::tc_open(initial_cash, &settings.to_bytes(), &mut account.0, equity))?;
        Ok(account)
    }

    /// The account of a file that [`Account::saved`] or [`Account::save`] gave, here or on another device. The series stay with the
    /// caller: [`Account::record_return`] goes on at the counts that the account carries.
    ///
    /// ```
    /// # use threshcoil::{Account, CostModel, Refusal, Settings};
    /// # let account = Account::open(50_000, &Settings::new(CostModel::default()), &mut [0])?;
    /// let file = account.saved().to_vec();
    /// assert_eq!(Account::load(&file)?, account);
    /// assert_eq!(Account::load(&file[..20]), Err(Refusal::EndsEarly(20)));
    /// assert_eq!(Account::load(&[&file[..], &[0]].concat()), Err(Refusal::LeftOver(file.len())));
    /// # Ok::<(), Refusal>(())
    /// ```
    pub fn load(file: &[u8]) -> Result<Account, Refusal> {
        let mut account = Account([0; Account::SIZE]);
        told(port::tc_load(file, &mut account.0))?;
        Ok(account)
    }

    /// The account's file by value. A zero rate is written with positive sign; up to that, equal accounts have equal files.
    ///
    /// ```
    /// # use threshcoil::{Account, CostModel, Refusal, Settings};
    /// # let account = Account::open(50_000, &Settings::new(CostModel::default()), &mut [0])?;
    /// # let path = std::env::temp_dir().join(format!("threshcoil-{}", std::process::id()));
    /// std::fs::write(&path, account.saved()).expect("a place to write");
    /// # let file = std::fs::read(&path).expect("the file");
    /// # std::fs::remove_file(&path).expect("the file");
    /// # assert_eq!(Account::load(&file)?, account);
    /// # Ok::<(), Refusal>(())
    /// ```
    pub fn saved(&self) -> Saved {
        // No sound account is refused where there is room for the longest file.
        Saved::written(|room| self.save(room).unwrap_or(0))
    }

    /// Writes the account's file into the first places of `file`, and returns how many it takes; the others are as they were.
    /// [`Refusal::NoFileRoom`] where they are too few: [`Account::FILE_SIZE`] are always enough.
    pub fn save(&self, file: &mut [u8]) -> Result<usize, Refusal> {
        told(port::tc_save(&self.0, file))
    }

    /// The account that [`Account::as_bytes`] gave, or [`Refusal::Unsound`] for bytes that are none.
    ///
    /// ```
    /// # use threshcoil::{Account, CostModel, Refusal, Settings};
    /// # let account = Account::open(50_000, &Settings::new(CostModel::default()), &mut [0])?;
    /// let bytes = account.as_bytes().to_vec();
    /// assert_eq!(Account::from_bytes(&bytes)?, account);
    /// assert_eq!(Account::from_bytes(&bytes[1..]), Err(Refusal::Unsound));
    /// # Ok::<(), Refusal>(())
    /// ```
    pub fn from_bytes(bytes: &[u8]) -> Result<Account, Refusal> {
        let account = Account(bytes.try_into().map_err(|_| Refusal::Unsound)?);
        told(port::tc_cash(&account.0, &mut [0; 8]))?;
        Ok(account)
    }

    /// The whole account, as the C interface of this version has it; what is stored or sent is [`Account::saved`].
    pub fn as_bytes(&self) -> &[u8; Account::SIZE] {
        &self.0
    }

    /// Order sizing granularity, in micro-shares.
    pub fn set_quantity_step(&mut self, step: i64) -> Result<(), Refusal> {
        told(port::tc_set_quantity_step(&mut self.0, step)).map(drop)
    }

    /// Orders below this notional are skipped; 0 is off.
    pub fn set_min_order_value(&mut self, value: i64) -> Result<(), Refusal> {
        told(port::tc_set_min_order_value(&mut self.0, value)).map(drop)
    }

    /// Orders above this notional are cut down to it; 0 is off.
    pub fn set_max_order_value(&mut self, value: i64) -> Result<(), Refusal> {
        told(port::tc_set_max_order_value(&mut self.0, value)).map(drop)
    }

    /// A position is left alone until its drift exceeds this; 0 is off.
    pub fn set_no_trade_band_bps(&mut self, bps: f64) -> Result<(), Refusal> {
        told(port::tc_set_no_trade_band_bps(&mut self.0, bps)).map(drop)
    }

    /// The most orders that one rebalance admits; 0 admits nothing.
    pub fn set_max_trades_per_rebalance(&mut self, cap: Option<u64>) -> Result<(), Refusal> {
        let (mark, cap) = (u64::from(cap.is_some()), cap.unwrap_or(0));
        told(port::tc_set_max_trades_per_rebalance(&mut self.0, mark, cap)).map(drop)
    }

    /// The most notional that one rebalance trades; 0 is off.
    pub fn set_max_rebalance_notional(&mut self, value: i64) -> Result<(), Refusal> {
        told(port::tc_set_max_rebalance_notional(&mut self.0, value)).map(drop)
    }

    /// Whether fills are recorded; the record count goes on from where it is.
    pub fn set_recording(&mut self, on: bool) -> Result<(), Refusal> {
        told(port::tc_set_recording(&mut self.0, u64::from(on))).map(drop)
    }

    /// Whether orders that would lower no cash, filled whole, run before the others, each group by symbol.
    pub fn set_cash_first(&mut self, on: bool) -> Result<(), Refusal> {
        told(port::tc_set_cash_first(&mut self.0, u64::from(on))).map(drop)
    }

    /// The cash.
    pub fn cash(&self) -> i64 {
        let [cash] = self.asked(port::tc_cash);
        i64::from_le_bytes(cash)
    }

    /// All settings.
    pub fn settings(&self) -> Settings {
        let mut out = [0; settings::SIZE];
        port::tc_settings(&self.0, &mut out);
        Settings::of_bytes(&out)
    }

    /// What a trade costs.
    pub fn cost_model(&self) -> CostModel {
        self.settings().cost_model
    }

    /// How many orders the last rebalance admitted.
    pub fn last_rebalance_order_count(&self) -> u64 {
        u64::from_le_bytes(self.counter(Counter::LastOrderCount))
    }

    /// What those orders came to at listed prices.
    pub fn last_rebalance_notional(&self) -> i64 {
        i64::from_le_bytes(self.counter(Counter::LastNotional))
    }

    /// How many buys were cut to what cash allows, also to nothing.
    pub fn trimmed_fill_count(&self) -> u64 {
        u64::from_le_bytes(self.counter(Counter::TrimmedCount))
    }

    /// The notional that those buys lost.
    pub fn trimmed_shortfall_cents(&self) -> i64 {
        i64::from_le_bytes(self.counter(Counter::TrimmedShortfall))
    }

    /// How many fills were recorded so far.
    pub fn record_count(&self) -> u64 {
        u64::from_le_bytes(self.counter(Counter::RecordCount))
    }

    /// How many places of the caller's equity buffer are filled.
    pub fn equity_count(&self) -> u64 {
        u64::from_le_bytes(self.series(Series::EquityCount))
    }

    /// How many places of the caller's return buffer are filled.
    pub fn return_count(&self) -> u64 {
        u64::from_le_bytes(self.series(Series::ReturnCount))
    }

    /// The equity that the next return is measured from.
    pub fn previous_equity(&self) -> i64 {
        i64::from_le_bytes(self.series(Series::PreviousEquity))
    }

    /// The position of a symbol, flat ones too.
    pub fn position(&self, symbol: Symbol) -> Result<Option<Position>, Refusal> {
        let mut out = [0; layout::POSITION_SIZE];
        told_of(port::tc_position(&self.0, symbol.number(), &mut out), Given::Only(symbol))?;
        Ok(position_of(&out))
    }

    /// All positions in symbol order, flat ones too.
    pub fn positions(&self) -> impl Iterator<Item = Position> {
        (0..layout::PLACES as u64).map_while(|index| {
            let mut out = [0; layout::POSITION_SIZE];
            port::tc_position_at(&self.0, index, &mut out);
            position_of(&out)
        })
    }

    /// Cash and the value of the positions; one without a price counts 0.
    pub fn total_equity(&self, prices: &[Price]) -> Result<i64, Refusal> {
        let mut out = [0; 8];
        told_of(port::tc_total_equity(&self.0, Prices::new(prices).as_bytes(), &mut out), Given::Lists(&[], prices))?;
        Ok(i64::from_le_bytes(out))
    }

    /// The weights of open positions, in symbol order; none at equity 0.
    pub fn current_weights(&self, prices: &[Price]) -> Result<Weights, Refusal> {
        let mut out = [0; layout::WEIGHTS_SIZE];
        let answer = port::tc_current_weights(&self.0, Prices::new(prices).as_bytes(), &mut out);
        let count = told_of(answer, Given::Lists(&[], prices))?;
        Ok(Weights::of_bytes(&out, count))
    }

    /// The first open position, in symbol order, that has no price.
    pub fn unpriced_holding(&self, prices: &[Price]) -> Result<Option<Symbol>, Refusal> {
        let mut out = [0; layout::ENTRY_SIZE];
        let answer = port::tc_unpriced_holding(&self.0, Prices::new(prices).as_bytes(), &mut out);
        told_of(answer, Given::Lists(&[], prices))?;
        let [mark, symbol] = bytes::take(&out);
        Ok((u64::from_le_bytes(mark) == 1).then_some(Symbol::from_padded(symbol)))
    }

    /// The account at these prices.
    pub fn snapshot(&self, prices: &[Price]) -> Result<Snapshot, Refusal> {
        let (mut out, mut weights) = ([0; layout::SNAPSHOT_SIZE], [0; layout::WEIGHTS_SIZE]);
        let answer = port::tc_snapshot(&self.0, Prices::new(prices).as_bytes(), &mut out, &mut weights);
        let count = told_of(answer, Given::Lists(&[], prices))?;
        let [cash, equity, open, realized, _] = bytes::take(&out);
        let [cash, equity, total_realized_pnl] = [cash, equity, realized].map(i64::from_le_bytes);
        let (weights, num_positions) = (Weights::of_bytes(&weights, count), u64::from_le_bytes(open));
        Ok(Snapshot { cash, equity, weights, num_positions, total_realized_pnl })
    }

    /// Rebalances to target weights: closes priced holdings that are no target, then moves each target to its weight.
    /// Returns how many records were written; while recording, 64 places are asked for.
    pub fn rebalance_simple(
        &mut self,
        targets: &[Target],
        prices: &[Price],
        context: Context,
        records: &mut [ExecutionRecord],
    ) -> Result<usize, Refusal> {
        let mut out = [0; layout::PLACES * layout::RECORD_SIZE];
        let room = &mut out[..records.len().min(layout::PLACES) * layout::RECORD_SIZE];
        let given = Given::Lists(targets, prices);
        let (targets, prices) = (Targets::new(targets), Prices::new(prices));
        let (period, kind) = (context.period_index, context.kind.number());
        let answer = port::tc_rebalance_simple(&mut self.0, targets.as_bytes(), prices.as_bytes(), period, kind, room);
        let count = told_of(answer, given)?;
        record::read(records, count, &out);
        Ok(count)
    }

    /// Closes the whole position at a price. Returns how many records were written, 0 also where nothing could be filled.
    pub fn close_position_at(
        &mut self,
        symbol: Symbol,
        price: i64,
        context: Context,
        records: &mut [ExecutionRecord],
    ) -> Result<usize, Refusal> {
        let mut out = [0; layout::RECORD_SIZE];
        let room = &mut out[..records.len().min(1) * layout::RECORD_SIZE];
        let (period, kind) = (context.period_index, context.kind.number());
        let answer = port::tc_close_position_at(&mut self.0, symbol.number(), price, period, kind, room);
        let count = told_of(answer, Given::Only(symbol))?;
        record::read(records, count, &out);
        Ok(count)
    }

    /// Writes the equity at these prices and, where one is due, the return since the last, each at the account's count.
    pub fn record_return(&mut self, prices: &[Price], equity: &mut [i64], returns: &mut [f64]) -> Result<(), Refusal> {
        let answer = port::tc_record_return(&mut self.0, Prices::new(prices).as_bytes(), equity, returns);
        told_of(answer, Given::Lists(&[], prices)).map(drop)
    }

    fn counter(&self, word: Counter) -> bytes::Word {
        self.asked::<{ layout::COUNTERS.len() }>(port::tc_counters)[word as usize]
    }

    fn series(&self, word: Series) -> bytes::Word {
        self.asked::<{ layout::SERIES.len() }>(port::tc_series)[word as usize]
    }

    /// The words that a query of the account alone gives. None refuses a sound account.
    fn asked<const N: usize>(&self, query: fn(&[u8], &mut [u8]) -> u64) -> [bytes::Word; N] {
        let mut out = [[0; 8]; N];
        query(&self.0, out.as_flattened_mut());
        out
    }
}

/// None where the mark says so.
fn position_of(out: &[u8]) -> Option<Position> {
    let [mark, symbol, figures @ ..] = bytes::take::<6>(out);
    let [quantity, avg_entry_price, realized_pnl, total_cost] = figures.map(i64::from_le_bytes);
    let symbol = Symbol::from_padded(symbol);
    let position = Position { symbol, quantity: Shares(quantity), avg_entry_price, realized_pnl, total_cost };
    (u64::from_le_bytes(mark) == 1).then_some(position)
}

impl fmt::Debug for Account {
    fn fmt(&self, f: &mut fmt::Formatter<'_>) -> fmt::Result {
        let (cash, positions) = (self.cash(), Positions(self));
        f.debug_struct("Account").field("cash", &cash).field("positions", &positions).finish_non_exhaustive()
    }
}

/// The positions as they are shown.
struct Positions<'a>(&'a Account);

impl fmt::Debug for Positions<'_> {
    fn fmt(&self, f: &mut fmt::Formatter<'_>) -> fmt::Result {
        f.debug_list().entries(self.0.positions()).finish()
    }
}
