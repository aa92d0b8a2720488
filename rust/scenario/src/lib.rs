//! What an account is asked and what it answers, said apart from any implementation: the oracle is one, the port another,
//! and the model in tools/model reads both as text.

mod aimed;
mod bad_lists;
mod cash_first;
mod ceiling;
mod covered;
mod generate;
mod plan;
mod random;
mod spoil;
pub mod text;

pub use bad_lists::bad_lists;
pub use cash_first::cash_first;
pub use ceiling::ceiling;
pub use covered::Covered;
pub use generate::{ordinary, scenario};
pub use random::Random;
pub use spoil::spoiled;
pub use text::{asked, written};

/// One to eight bytes, padded with zeros: document 01's symbol.
#[derive(Clone, Copy, Debug, PartialEq, Eq, PartialOrd, Ord)]
pub struct Symbol(pub [u8; 8]);

#[derive(Clone, Copy, Debug, PartialEq)]
pub struct Costs {
    pub commission_bps: f64,
    pub slippage_bps: f64,
    pub min_commission: i64,
    /// The ceiling of a fill's commission, 0 for none.
    pub max_commission: i64,
}

#[derive(Clone, Copy, Debug, PartialEq)]
pub struct Opening {
    pub cash: i64,
    pub costs: Costs,
    /// How many places the lent equity buffer has.
    pub equity_places: u64,
}

/// All settings of an account, as its setters leave them.
#[derive(Clone, Copy, Debug, PartialEq)]
pub struct Settings {
    pub costs: Costs,
    pub quantity_step: i64,
    pub min_order_value: i64,
    pub max_order_value: i64,
    pub no_trade_band_bps: f64,
    pub max_trades: Option<u64>,
    pub max_rebalance_notional: i64,
    pub recording: bool,
    pub cash_first: bool,
}

#[derive(Clone, Copy, Debug, PartialEq)]
pub enum Setting {
    QuantityStep(i64),
    MinOrderValue(i64),
    MaxOrderValue(i64),
    NoTradeBandBps(f64),
    MaxTrades(Option<u64>),
    MaxRebalanceNotional(i64),
    Recording(bool),
    CashFirst(bool),
}

/// "Each record carries its kind, rebalance or stop exit."
#[derive(Clone, Copy, Debug, PartialEq, Eq)]
pub enum Kind {
    Rebalance,
    StopExit,
}

/// "The caller gives period index and kind with the call."
#[derive(Clone, Copy, Debug, PartialEq, Eq)]
pub struct Context {
    pub period: u64,
    pub kind: Kind,
}

pub type Prices = Vec<(Symbol, i64)>;
pub type Targets = Vec<(Symbol, f64)>;

#[derive(Clone, Debug, PartialEq)]
pub enum Step {
    Set(Setting),
    /// `places` is how many records the lent run has room for, here and in a close.
    Rebalance {
        targets: Targets,
        prices: Prices,
        context: Context,
        places: u64,
    },
    Close {
        symbol: Symbol,
        price: i64,
        context: Context,
        places: u64,
    },
    RecordReturn {
        prices: Prices,
        equity_places: u64,
        return_places: u64,
    },
    TotalEquity(Prices),
    CurrentWeights(Prices),
    UnpricedHolding(Prices),
    Position(Symbol),
    Snapshot(Prices),
}

/// An account's whole life: its opening, then one call after the other.
#[derive(Clone, Debug, PartialEq)]
pub struct Scenario {
    pub opening: Opening,
    pub steps: Vec<Step>,
}

#[derive(Clone, Copy, Debug, PartialEq, Eq)]
pub struct Held {
    pub symbol: Symbol,
    pub quantity: i64,
    pub avg_entry_price: i64,
    pub realized_pnl: i64,
    pub total_cost: i64,
}

/// The figures of the Rust's `ExecutionRecord`, in its order.
#[derive(Clone, Copy, Debug, PartialEq, Eq)]
pub struct Record {
    pub sequence: u64,
    pub context: Context,
    pub symbol: Symbol,
    pub quantity: i64,
    pub price: i64,
    pub reference_price: i64,
    pub notional: i64,
    pub reference_notional: i64,
    pub cost: i64,
    pub cash_delta: i64,
    pub cash_after: i64,
}

/// What a call gives back beside its answer number.
#[derive(Clone, Debug, PartialEq)]
pub enum Reply {
    Nothing,
    Filled(Vec<Record>),
    Recorded { equity: i64, gain: Option<f64> },
    Equity(i64),
    Weights(Vec<(Symbol, f64)>),
    Unpriced(Option<Symbol>),
    Position(Option<Held>),
    Snapshot { cash: i64, equity: i64, weights: Vec<(Symbol, f64)>, open: u64, realized: i64 },
}

#[derive(Clone, Debug, PartialEq)]
pub struct Outcome {
    /// The number; a refusal of the port's has its place above it.
    pub answer: u64,
    pub reply: Reply,
}

/// The whole account.
#[derive(Clone, Debug, PartialEq)]
pub struct View {
    pub cash: i64,
    pub settings: Settings,
    pub last_order_count: u64,
    pub last_notional: i64,
    pub trimmed_count: u64,
    pub trimmed_shortfall: i64,
    pub record_count: u64,
    pub equity_count: u64,
    pub return_count: u64,
    pub previous_equity: i64,
    pub positions: Vec<Held>,
}

/// What one implementation made of a scenario: the account as opened, then each call's outcome and the account after it.
#[derive(Clone, Debug, PartialEq)]
pub struct Played {
    /// What the opening answered.
    pub answer: u64,
    pub opened: View,
    /// Fewer than the scenario's steps where the implementation is no oracle for the next one.
    pub calls: Vec<(Outcome, View)>,
}

pub fn play<A: Account>(scenario: &Scenario) -> Played {
    let (answer, mut account) = A::open(&scenario.opening);
    let opened = account.view();
    let mut calls = Vec::new();
    for step in &scenario.steps {
        let Some(outcome) = account.call(step) else { break };
        calls.push((outcome, account.view()));
    }
    Played { answer, opened, calls }
}

/// An implementation of the account.
pub trait Account: Sized {
    /// The answer and the account: "all zeros from a refused opening".
    fn open(opening: &Opening) -> (u64, Self);

    /// None where this implementation is no oracle for the call; the account is then worth nothing more.
    fn call(&mut self, step: &Step) -> Option<Outcome>;

    fn view(&self) -> View;
}
