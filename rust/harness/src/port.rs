//! The port's account, answering a scenario's calls through the safe crate; a refusal is told as the C interface returns it. What a call
//! lends is looked at afterwards: a place that was to stay as found and did not gives an answer of its own, which nothing else gives.

use scenario::{
    Context, Costs, Held, Kind, Opening, Outcome, Prices, Record, Reply, Setting, Settings, Step, Symbol, Targets, View,
};
use threshcoil::{Account, CostModel, ExecutionKind, ExecutionRecord, List, Position, Price, Refusal, Target, Weight};
use threshcoil_sys as port;
use threshcoil_sys::layout;

const TOUCHED: u64 = 255;

/// Places of each series buffer, and what stands in them before a call fills them.
const SERIES: usize = 100;
const SPOT: i64 = 0x5555_5555_5555_5555;
const GAIN: f64 = 555.0;

pub struct Port {
    /// None after a refused opening.
    account: Option<Account>,
    equity: Vec<i64>,
    returns: Vec<f64>,
}

impl scenario::Account for Port {
    fn open(opening: &Opening) -> (u64, Port) {
        let mut equity = vec![SPOT; SERIES];
        let places = SERIES.min(opening.equity_places as usize);
        let settings = threshcoil::Settings::new(model(opening.costs));
        let opened = Account::open(opening.cash, &settings, &mut equity[..places]);
        let mut expected = vec![SPOT; SERIES];
        if opened.is_ok() {
            expected[0] = opening.cash;
        }
        let answer = if equity == expected { opened.err().map_or(0, Refusal::number) } else { TOUCHED };
        (answer, Port { account: opened.ok(), equity, returns: vec![GAIN; SERIES] })
    }

    fn call(&mut self, step: &Step) -> Option<Outcome> {
        let before = self.account;
        let (answer, reply) = match self.answer(step) {
            Ok(reply) => (reply.as_ref().map_or(TOUCHED, |_| 0), reply.unwrap_or(Reply::Nothing)),
            Err(refusal) => {
                (if self.account == before { self.refused(step, refusal) } else { TOUCHED }, Reply::Nothing)
            }
        };
        Some(Outcome { answer, reply })
    }

    fn view(&self) -> View {
        self.account.as_ref().map_or(ZEROS, view)
    }
}

impl Port {
    /// The account as the C interface has it; none after a refused opening.
    pub fn bytes(&self) -> Vec<u8> {
        self.account.as_ref().map_or(Vec::new(), |account| account.as_bytes().to_vec())
    }

    /// Saves the account and loads it again.
    pub fn through_a_file(&mut self) {
        if let Some(account) = &mut self.account {
            *account = Account::load(&account.saved()).expect("its own file");
        }
    }

    /// What the C interface returns for a call that the safe crate told as refused, with its number, its place and the symbol there.
    fn refused(&self, step: &Step, refusal: Refusal) -> u64 {
        let word = self.account.as_ref().and_then(|account| returned(account.as_bytes(), step));
        let word = word.unwrap_or(refusal.number());
        let Some(entry) = refusal.entry() else { return if word == refusal.number() { word } else { TOUCHED } };
        let above = 2 * entry.index() as u64 + u64::from(entry.list() == List::Prices);
        let named = symbol_at(step, entry.list(), entry.index()).is_some_and(|s| entry.symbol() == symbol(&s));
        if word == refusal.number() + 256 * above && named { word } else { TOUCHED }
    }

    /// None where a lent place was touched that was to stay as found.
    fn answer(&mut self, step: &Step) -> Result<Option<Reply>, Refusal> {
        let Some(account) = &mut self.account else {
            // "all zeros from a refused opening"
            return Account::from_bytes(&[0; Account::SIZE]).map(|_| None);
        };
        Ok(Some(match step {
            Step::Set(setting) => set(account, setting).map(|()| Reply::Nothing)?,
            Step::Rebalance { targets, prices: p, context: c, places } => {
                let targets: Vec<Target> =
                    targets.iter().map(|(s, w)| Target { symbol: symbol(s), weight: *w }).collect();
                let prices = prices(p);
                return filled(*places, |records| account.rebalance_simple(&targets, &prices, context(c), records));
            }
            Step::Close { symbol: s, price, context: c, places } => {
                return filled(*places, |records| account.close_position_at(symbol(s), *price, context(c), records));
            }
            Step::RecordReturn { prices: p, equity_places, return_places } => {
                return self.record_return(&prices(p), *equity_places as usize, *return_places as usize);
            }
            Step::TotalEquity(p) => Reply::Equity(account.total_equity(&prices(p))?),
            Step::CurrentWeights(p) => Reply::Weights(weights(&account.current_weights(&prices(p))?)),
            Step::UnpricedHolding(p) => Reply::Unpriced(account.unpriced_holding(&prices(p))?.map(name)),
            Step::Position(s) => Reply::Position(account.position(symbol(s))?.map(held)),
            Step::Snapshot(p) => {
                let s = account.snapshot(&prices(p))?;
                let (open, realized) = (s.num_positions, s.total_realized_pnl);
                Reply::Snapshot { cash: s.cash, equity: s.equity, weights: weights(&s.weights), open, realized }
            }
        }))
    }

    fn record_return(&mut self, prices: &[Price], equities: usize, returns: usize) -> Result<Option<Reply>, Refusal> {
        let Some(account) = &mut self.account else { return Ok(None) };
        let (mut equity, mut gains) = (self.equity.clone(), self.returns.clone());
        let [at, then] = [account.equity_count(), account.return_count()].map(|n| n as usize);
        let lent = (&mut equity[..equities.min(SERIES)], &mut gains[..returns.min(SERIES)]);
        let told = account.record_return(prices, lent.0, lent.1);
        let gain = (account.return_count() as usize > then).then(|| gains[then]);
        if told.is_ok() {
            self.equity[at] = equity[at];
            self.returns[then] = gains[then];
        }
        if equity != self.equity || gains != self.returns {
            return Ok(None);
        }
        told.map(|()| Some(Reply::Recorded { equity: equity[at], gain }))
    }
}

/// The symbol at a place of a call's lists; the only one of a call that has one.
fn symbol_at(step: &Step, list: List, index: usize) -> Option<Symbol> {
    match step {
        Step::Set(_) => None,
        Step::Close { symbol, .. } | Step::Position(symbol) => Some(*symbol),
        Step::Rebalance { targets, .. } if list == List::Targets => targets.get(index).map(|(s, _)| *s),
        Step::Rebalance { prices, .. } | Step::RecordReturn { prices, .. } => prices.get(index).map(|(s, _)| *s),
        Step::TotalEquity(prices)
        | Step::CurrentWeights(prices)
        | Step::UnpricedHolding(prices)
        | Step::Snapshot(prices) => prices.get(index).map(|(s, _)| *s),
    }
}

/// What the C interface returns for a call on a copy of an account; None for a setter, of which no refusal tells a place.
fn returned(account: &[u8; Account::SIZE], step: &Step) -> Option<u64> {
    let mut account = *account;
    let records = |places: u64| vec![0; layout::RECORD_SIZE * places as usize];
    let room = |places: u64| SERIES.min(places as usize);
    Some(match step {
        Step::Set(_) => return None,
        Step::Rebalance { targets, prices, context: c, places } => {
            let (targets, prices, kind) = (weighed(targets), priced(prices), c.kind as u64);
            port::tc_rebalance_simple(&mut account, &targets, &prices, c.period, kind, &mut records(*places))
        }
        Step::Close { symbol, price, context: c, places } => {
            let (number, kind) = (u64::from_be_bytes(symbol.0), c.kind as u64);
            port::tc_close_position_at(&mut account, number, *price, c.period, kind, &mut records(*places))
        }
        Step::RecordReturn { prices, equity_places, return_places } => {
            let (mut equity, mut returns) = (vec![0; room(*equity_places)], vec![0.0; room(*return_places)]);
            port::tc_record_return(&mut account, &priced(prices), &mut equity, &mut returns)
        }
        Step::TotalEquity(p) => port::tc_total_equity(&account, &priced(p), &mut [0; layout::WORD_SIZE]),
        Step::CurrentWeights(p) => port::tc_current_weights(&account, &priced(p), &mut [0; layout::WEIGHTS_SIZE]),
        Step::UnpricedHolding(p) => port::tc_unpriced_holding(&account, &priced(p), &mut [0; layout::ENTRY_SIZE]),
        Step::Position(s) => port::tc_position(&account, u64::from_be_bytes(s.0), &mut [0; layout::POSITION_SIZE]),
        Step::Snapshot(p) => {
            let (mut figures, mut weights) = ([0; layout::SNAPSHOT_SIZE], [0; layout::WEIGHTS_SIZE]);
            port::tc_snapshot(&account, &priced(p), &mut figures, &mut weights)
        }
    })
}

/// Targets as the C interface takes them.
pub fn weighed(targets: &Targets) -> Vec<u8> {
    targets.iter().flat_map(|(s, weight)| [s.0, weight.to_le_bytes()].concat()).collect()
}

/// Prices as it takes them.
pub fn priced(prices: &Prices) -> Vec<u8> {
    prices.iter().flat_map(|(s, price)| [s.0, price.to_le_bytes()].concat()).collect()
}

/// A call that may fill, with the records that it wrote.
fn filled(
    places: u64,
    call: impl FnOnce(&mut [ExecutionRecord]) -> Result<usize, Refusal>,
) -> Result<Option<Reply>, Refusal> {
    let spot = ExecutionRecord { sequence: u64::MAX, price: SPOT, ..ExecutionRecord::EMPTY };
    let mut records = vec![spot; places as usize];
    let told = call(&mut records);
    let (written, rest) = records.split_at(*told.as_ref().unwrap_or(&0));
    if rest.iter().any(|r| *r != spot) {
        return Ok(None);
    }
    told.map(|_| Some(Reply::Filled(written.iter().map(record).collect())))
}

fn set(account: &mut Account, setting: &Setting) -> Result<(), Refusal> {
    match *setting {
        Setting::QuantityStep(n) => account.set_quantity_step(n),
        Setting::MinOrderValue(n) => account.set_min_order_value(n),
        Setting::MaxOrderValue(n) => account.set_max_order_value(n),
        Setting::NoTradeBandBps(x) => account.set_no_trade_band_bps(x),
        Setting::MaxTrades(cap) => account.set_max_trades_per_rebalance(cap),
        Setting::MaxRebalanceNotional(n) => account.set_max_rebalance_notional(n),
        Setting::Recording(on) => account.set_recording(on),
        Setting::CashFirst(on) => account.set_cash_first(on),
    }
}

fn view(a: &Account) -> View {
    View {
        cash: a.cash(),
        settings: settings(a.settings()),
        last_order_count: a.last_rebalance_order_count(),
        last_notional: a.last_rebalance_notional(),
        trimmed_count: a.trimmed_fill_count(),
        trimmed_shortfall: a.trimmed_shortfall_cents(),
        record_count: a.record_count(),
        equity_count: a.equity_count(),
        return_count: a.return_count(),
        previous_equity: a.previous_equity(),
        positions: a.positions().map(held).collect(),
    }
}

const ZEROS: View = View {
    cash: 0,
    settings: Settings {
        costs: Costs { commission_bps: 0.0, slippage_bps: 0.0, min_commission: 0, max_commission: 0 },
        quantity_step: 0,
        min_order_value: 0,
        max_order_value: 0,
        no_trade_band_bps: 0.0,
        max_trades: None,
        max_rebalance_notional: 0,
        recording: false,
        cash_first: false,
    },
    last_order_count: 0,
    last_notional: 0,
    trimmed_count: 0,
    trimmed_shortfall: 0,
    record_count: 0,
    equity_count: 0,
    return_count: 0,
    previous_equity: 0,
    positions: Vec::new(),
};

pub fn model(costs: Costs) -> CostModel {
    let Costs { commission_bps, slippage_bps, min_commission, max_commission } = costs;
    CostModel { commission_bps, slippage_bps, min_commission, max_commission }
}

fn settings(s: threshcoil::Settings) -> Settings {
    let CostModel { commission_bps, slippage_bps, min_commission, max_commission } = s.cost_model;
    Settings {
        costs: Costs { commission_bps, slippage_bps, min_commission, max_commission },
        quantity_step: s.quantity_step,
        min_order_value: s.min_order_value,
        max_order_value: s.max_order_value,
        no_trade_band_bps: s.no_trade_band_bps,
        max_trades: s.max_trades_per_rebalance,
        max_rebalance_notional: s.max_rebalance_notional,
        recording: s.recording,
        cash_first: s.cash_first,
    }
}

fn symbol(s: &Symbol) -> threshcoil::Symbol {
    threshcoil::Symbol::from_padded(s.0)
}

fn name(s: threshcoil::Symbol) -> Symbol {
    Symbol(s.padded())
}

fn prices(list: &Prices) -> Vec<Price> {
    list.iter().map(|(s, price)| Price { symbol: symbol(s), price: *price }).collect()
}

fn weights(list: &[Weight]) -> Vec<(Symbol, f64)> {
    list.iter().map(|w| (name(w.symbol), w.weight)).collect()
}

fn held(p: Position) -> Held {
    Held {
        symbol: name(p.symbol),
        quantity: p.quantity.0,
        avg_entry_price: p.avg_entry_price,
        realized_pnl: p.realized_pnl,
        total_cost: p.total_cost,
    }
}

fn context(c: &Context) -> threshcoil::Context {
    let kind = match c.kind {
        Kind::Rebalance => ExecutionKind::Rebalance,
        Kind::StopExit => ExecutionKind::StopExit,
    };
    threshcoil::Context { period_index: c.period, kind }
}

fn record(r: &ExecutionRecord) -> Record {
    let kind = match r.kind {
        ExecutionKind::Rebalance => Kind::Rebalance,
        ExecutionKind::StopExit => Kind::StopExit,
    };
    Record {
        sequence: r.sequence,
        context: Context { period: r.period_index, kind },
        symbol: name(r.symbol),
        quantity: r.quantity.0,
        price: r.price,
        reference_price: r.reference_price,
        notional: r.notional,
        reference_notional: r.reference_notional,
        cost: r.cost,
        cash_delta: r.cash_delta,
        cash_after: r.cash_after,
    }
}
