//! Single fills under a ceiling: beside the Rust, which has none and yet makes each such fill; and written as text for the model to
//! play (tools/model/fills.py).

use super::{Case, Class, Run, Spoiled, done, ours, places, refusals, with_ceiling};
use crate::leaf::{are_good, charged, draw_ceiling, flat_fee, free, need, notional, paid};
use oracle::{Ask, Filled, Single};
use scenario::{Context, Costs, Kind, Random, Record, Symbol, text};
use std::io::Write;

pub const RUN: Run = Run { name: "single under a ceiling", draw, fill: with_ceiling, classes: CLASSES };

/// Nanobook's own fill; under a ceiling, which it lacks, one of two that it makes: without the ceiling, or for a flat fee of it. The
/// lesser is charged, and commission never falls as notional rises. Where that of what the flat fee fills reaches the ceiling, so
/// does that of any larger buy, which then fits no better without it; else the plain fill is no smaller, and fits by a commission
/// below the ceiling. A sale is not cut down, so its own commission decides.
pub fn theirs(ask: &Ask, before: Single, paid: i64) -> Option<Filled> {
    let (rust, ceiling) = (oracle::leaves()?, ask.costs.max_commission);
    let filled = |costs: Costs| oracle::fill_alone(&Ask { costs, ..*ask }, &before);
    if ceiling == 0 {
        return filled(ask.costs);
    }
    let flat = filled(flat_fee(ask.costs))?;
    let quantity = if ask.quantity > 0 { flat.record.map_or(0, |r| r.quantity) } else { ask.quantity };
    let plain = (rust.compute_cost)(free(ask.costs), (rust.notional_of)(quantity, paid));
    if plain >= ceiling { Some(flat) } else { filled(free(ask.costs)) }
}

impl Case {
    fn ceiling(&self) -> i64 {
        self.ask.costs.max_commission
    }

    /// The commission of so many shares without a ceiling.
    fn uncapped(&self, quantity: i64) -> i64 {
        charged(free(self.ask.costs), notional(quantity, self.paid))
    }

    /// The request's commission without a ceiling.
    fn today(&self) -> i64 {
        self.uncapped(self.ask.quantity)
    }

    /// The ceiling is the floor, and the request's commission is above both.
    fn flat(&self) -> bool {
        self.ceiling() == self.ask.costs.min_commission && self.ceiling() > 0 && self.today() > self.ceiling()
    }

    /// The ceiling is above the floor, and the request's commission is above both.
    fn between(&self) -> bool {
        self.ceiling() > self.ask.costs.min_commission && self.today() > self.ceiling()
    }

    fn not_reached(&self) -> bool {
        self.ceiling() > 0 && self.today() <= self.ceiling()
    }

    /// A buy that fits whole and would not without a ceiling.
    fn whole_by_it(&self) -> bool {
        let plain = need(self.ask.quantity, self.paid, free(self.ask.costs));
        self.buys() && !self.trimmed() && plain > self.before.cash
    }

    /// A sale that is filled and would not be without a ceiling: cash and proceeds are less than its commission.
    fn sold_by_it(&self) -> bool {
        let proceeds = notional(self.ask.quantity, self.paid);
        let skipped = i128::from(self.before.cash) + i128::from(proceeds) < i128::from(self.today());
        self.ask.quantity < 0 && self.record.is_some() && skipped
    }

    /// Cut down to a part below the ceiling, and a step more would reach it.
    fn next_reaches(&self) -> bool {
        let more = |r: Record| self.uncapped(r.quantity.saturating_add(self.ask.quantity_step));
        self.trimmed() && self.record.is_some_and(|r| r.cost < self.ceiling() && more(r) >= self.ceiling())
    }
}

const CLASSES: &[Class] = &[
    ("without a ceiling", |c| c.ceiling() == 0),
    ("not reached", |c| c.not_reached() && c.today() < c.ceiling()),
    ("just at the request's commission", |c| c.not_reached() && c.today() == c.ceiling()),
    ("whole buys, not reached", |c| c.not_reached() && c.buys() && !c.trimmed()),
    ("trimmed to a part, not reached", |c| c.not_reached() && c.trimmed() && c.record.is_some()),
    ("trimmed to nothing, not reached", |c| c.not_reached() && c.trimmed() && c.record.is_none()),
    ("sells, not reached", |c| c.not_reached() && c.ask.quantity < 0 && c.record.is_some()),
    ("skipped sells, not reached", |c| c.not_reached() && c.ask.quantity < 0 && c.record.is_none()),
    ("flat fees", |c| c.flat() && c.record.is_some()),
    ("whole buys by the flat fee alone", |c| c.flat() && c.whole_by_it()),
    ("trimmed to a part for a flat fee", |c| c.flat() && c.trimmed() && c.record.is_some()),
    ("of these at step 1,000,000", |c| c.flat() && c.part(1_000_000)),
    ("trimmed to nothing for a flat fee", |c| c.flat() && c.trimmed() && c.record.is_none()),
    ("sells by the flat fee alone", |c| c.flat() && c.sold_by_it()),
    ("skipped sells for a flat fee", |c| c.flat() && c.ask.quantity < 0 && c.record.is_none()),
    ("pays the ceiling whole", |c| c.between() && !c.trimmed() && c.record.is_some()),
    ("whole by the ceiling alone", |c| c.between() && c.whole_by_it()),
    ("pays it trimmed to a part", |c| c.between() && c.trimmed() && c.record.is_some_and(|r| r.cost == c.ceiling())),
    ("next step would reach it", |c| c.between() && c.next_reaches()),
    ("trimmed to nothing under it", |c| c.between() && c.trimmed() && c.record.is_none()),
    ("sale by the ceiling alone", |c| c.between() && c.sold_by_it()),
    ("skipped sells under it", |c| c.between() && c.ask.quantity < 0 && c.record.is_none()),
    ("need saturates", |c| c.ceiling() > 0 && c.need == i64::MAX),
];

/// A fill under any good ceiling, with cash about what it needs with it or without, or about where the ceiling is reached.
fn draw(random: &mut Random, sort: u64, account: Single) -> (Ask, Single) {
    let (mut ask, mut before) = super::draw(random, sort, account);
    let notional = notional(ask.quantity, paid(ask.costs, ask.quantity, ask.price));
    let floor = ask.costs.min_commission;
    ask.costs.max_commission = match draw_ceiling(random, floor, charged(ask.costs, notional)) {
        0 => 0,
        drawn => drawn.max(floor),
    };
    let (cost, most) = (charged(ask.costs, notional), ask.costs.max_commission);
    let short = if ask.quantity > 0 { notional.saturating_add(cost) } else { cost.saturating_sub(notional) };
    let reached = (most as f64 * 10_000.0 / ask.costs.commission_bps) as i64;
    before.cash = match random.below(8) {
        0 | 1 => short.saturating_sub(random.below(4) as i64 - 1),
        2 => (short as f64 * (random.below(1 << 20) as f64 / (1 << 20) as f64)) as i64,
        3 => reached.saturating_add(most).saturating_add(random.below(8) as i64 - 4),
        _ => before.cash,
    }
    .max(0);
    (ask, before)
}

/// The refusals of the fill that takes a ceiling, 1 for the ceiling alone among them.
pub fn refused(seed: u64, count: u64) -> bool {
    let draw = |random: &mut Random| {
        let mut spoiled = Spoiled::draw(random);
        spoiled.ask.costs.max_commission = draw_ceiling(random, spoiled.ask.costs.min_commission, 1_000);
        spoiled
    };
    let mut random = Random::new(!seed);
    let alone = (0..count).map(|_| draw(&mut random)).filter(|spoiled| {
        let costs = spoiled.ask.costs;
        spoiled.refusal().number == 1 && !are_good(costs) && are_good(free(costs))
    });
    let alone = alone.count();
    println!("single under a ceiling: refused with 1 for the ceiling: {alone}");
    refusals("single under a ceiling", with_ceiling, draw, seed, count) && alone > 0
}

/// Writes `count` fills as text, some of them at a price below 1, each with the port's answer, what it left and its record.
pub fn emit(seed: u64, count: u64, out: &mut dyn Write) -> bool {
    let mut random = Random::new(seed);
    let (mut sort, mut account) = (0, Single::default());
    (0..count).all(|_| {
        if random.one_in(12) {
            (sort, account) = (random.below(4), Single::default());
        }
        let (mut ask, before) = draw(&mut random, sort, account);
        // A plan has no order of 0, and the model is not asked of one.
        ask.quantity += i64::from(ask.quantity == 0);
        if random.one_in(64) {
            ask.price = -(random.u64() as i64 & i64::MAX);
        }
        let (answer, after, record) = told(&ask, before);
        account = after;
        let left = format!("< answer {answer}\n< left {}\n", single(&after));
        let record = record.as_ref().map_or(String::new(), text::record);
        write!(out, "> fill {} | {}\n{left}{record}", asked(&ask), single(&before)).is_ok()
    })
}

/// What a lent place that should have stayed as found and did not gives, and nothing else.
const TOUCHED: u64 = 255;

/// The number of a fill that is done, or a refusal with its place, the account after it and the record.
fn told(ask: &Ask, before: Single) -> (u64, Single, Option<Record>) {
    let (answer, after, words, ints) = ours(with_ceiling, ask, before);
    let [sequence, period, kind, symbol, _] = words;
    let [quantity, price, reference_price, notional, reference_notional, cost, cash_delta, cash_after, _] = ints;
    let record = Record {
        sequence,
        context: Context { period, kind: if kind == 0 { Kind::Rebalance } else { Kind::StopExit } },
        symbol: Symbol(symbol.to_be_bytes()),
        quantity,
        price,
        reference_price,
        notional,
        reference_notional,
        cost,
        cash_delta,
        cash_after,
    };
    let record = (answer == done(true)).then_some(record);
    let told = if answer % 256 == 0 { 0 } else { answer };
    (if places(record) == (words, ints) { told } else { TOUCHED }, after, record)
}

fn asked(ask: &Ask) -> String {
    let Ask { costs, quantity_step, context, symbol, quantity, price } = ask;
    let order = format!("{} {quantity} {price}", text::name(symbol));
    format!("{} {quantity_step} {} {order}", text::costs(costs), text::context(context))
}

fn single(s: &Single) -> String {
    let [quantity, average, realized, total] = s.position;
    let Single { cash, shortfall, trimmed, records, .. } = s;
    format!("{cash} {shortfall} {trimmed} {records} {quantity} {average} {realized} {total}")
}
