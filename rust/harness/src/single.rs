//! Single fills on an account of at most one position, fill after fill, beside nanobook's own `execute_fill`; and what the
//! port must refuse. Without a ceiling here, with one in `ceiling`.

mod ceiling;

pub use ceiling::emit;

use crate::fills::next;
use crate::leaf::{are_good, costs_of, draw_costs, draw_symbol, is_sound, largest, need, notional, paid};
use crate::place::{Answer, DONE};
use oracle::{Ask, Filled, Single};
use scenario::{Context, Costs, Kind, Random, Record, Symbol};
use threshcoil_sys as port;

const SYMBOL: Symbol = Symbol(*b"THRSHCL\0");

/// Something that a fill may do.
type Class = (&'static str, fn(&Case) -> bool);

/// A fill, the account before it, and nanobook's answer.
struct Case {
    ask: Ask,
    before: Single,
    after: Single,
    record: Option<Record>,
    /// What is paid for a share, after slippage, and the cash that the whole request needs.
    paid: i64,
    need: i64,
}

impl Case {
    fn buys(&self) -> bool {
        self.ask.quantity > 0
    }

    /// By the need and not by the count, which may be at its top.
    fn trimmed(&self) -> bool {
        self.buys() && self.need > self.before.cash
    }

    fn part(&self, step: i64) -> bool {
        self.trimmed() && self.record.is_some() && self.ask.quantity_step == step
    }

    fn turns(&self, from: i64, to: i64) -> bool {
        self.record.is_some() && self.before.position[0].signum() == from && self.after.position[0].signum() == to
    }
}

const CLASSES: &[Class] = &[
    ("of 0", |c| c.ask.quantity == 0),
    ("whole buys", |c| c.buys() && !c.trimmed()),
    ("trimmed", Case::trimmed),
    ("to nothing", |c| c.trimmed() && c.record.is_none()),
    ("at cash 0", |c| c.trimmed() && c.before.cash == 0),
    ("to a part at step 1", |c| c.part(1)),
    ("at step 1,000", |c| c.part(1_000)),
    ("at step 1,000,000", |c| c.part(1_000_000)),
    ("at another step", |c| c.part(c.ask.quantity_step) && ![1, 1_000, 1_000_000].contains(&c.ask.quantity_step)),
    ("sells", |c| c.ask.quantity < 0 && c.record.is_some()),
    ("skipped sells", |c| c.ask.quantity < 0 && c.record.is_none()),
    ("sold at 0", |c| c.record.is_some() && c.paid == 0),
    ("at the commission's floor", |c| c.record.is_some_and(|r| r.cost > 0 && r.cost == c.ask.costs.min_commission)),
    ("above it", |c| c.record.is_some_and(|r| r.cost > c.ask.costs.min_commission)),
    ("need saturates", |c| c.need == i64::MAX),
    ("price saturates", |c| c.ask.quantity != 0 && c.paid == i64::MAX),
    ("slippage 10,000", |c| c.record.is_some() && c.ask.costs.slippage_bps == 10_000.0),
    ("cash at the top", |c| c.record.is_some() && c.after.cash == i64::MAX),
    ("shortfall at the top", |c| c.trimmed() && c.after.shortfall == i64::MAX),
    ("trimmed count at the top", |c| c.trimmed() && c.before.trimmed == u64::MAX),
    ("record count at the top", |c| c.record.is_some() && c.before.records == u64::MAX),
    ("of none held", |c| c.record.is_some() && c.before.position == [0; 4]),
    ("opens long", |c| c.turns(0, 1)),
    ("opens short", |c| c.turns(0, -1)),
    ("closes a long", |c| c.turns(1, 0)),
    ("closes a short", |c| c.turns(-1, 0)),
    ("flips to short", |c| c.turns(1, -1)),
    ("flips to long", |c| c.turns(-1, 1)),
    ("covers a part", |c| c.buys() && c.turns(-1, -1)),
    ("stop exits", |c| c.record.is_some_and(|r| r.context.kind == Kind::StopExit)),
];

/// How fills are drawn and made by the port, and what they must meet.
struct Run {
    name: &'static str,
    draw: fn(&mut Random, u64, Single) -> (Ask, Single),
    fill: Fill,
    classes: &'static [Class],
}

const PLAIN: Run = Run { name: "single", draw, fill: without_ceiling, classes: CLASSES };

/// True where nothing differs, every class was met and every refusal was right.
pub fn run(seed: u64, count: u64) -> bool {
    let refused = || {
        let plain = refusals("single", without_ceiling, Spoiled::draw, seed, count / 8);
        plain && ceiling::refused(seed, count / 8)
    };
    if !oracle::PRESENT {
        println!("single: SKIPPED, since nanobook's source is not at hand");
        return refused();
    }
    let plain = compared(&PLAIN, seed, count);
    let ceilings = compared(&ceiling::RUN, seed, count / 2);
    refused() && plain && ceilings
}

/// Fills until `count` are compared.
fn compared(run: &Run, seed: u64, count: u64) -> bool {
    let Run { name, classes, .. } = run;
    let mut random = Random::new(seed);
    let (mut differences, mut runs, mut endless, mut left) = (0, 0u64, 0u64, count);
    let mut met = vec![0u64; classes.len()];
    while left > 0 {
        runs += 1;
        let sort = random.below(4);
        let mut account = Single::default();
        for _ in 0..(1 + random.below(24)).min(left) {
            let (ask, before) = (run.draw)(&mut random, sort, account);
            let paid = paid(ask.costs, ask.quantity, ask.price);
            let need = need(ask.quantity, paid, ask.costs);
            let Some(Filled { after, record }) = ceiling::theirs(&ask, before, paid) else {
                endless += 1;
                differences += u64::from(!fills_by_the_rule(run.fill, &ask, before, paid, need));
                continue;
            };
            let case = Case { ask, before, after, record, paid, need };
            differences += u64::from(!agrees(run.fill, &case));
            met.iter_mut().zip(*classes).for_each(|(met, (_, class))| *met += u64::from(class(&case)));
            account = after;
            left -= 1;
        }
    }
    let said: Vec<String> = classes.iter().zip(&met).map(|((class, _), n)| format!("{class} {n}")).collect();
    println!("{name}: seed {seed}, {count} fills in {runs} runs, {differences} differences; {}", said.join(", "));
    println!(
        "{name}: left out, since nanobook may not end (request 2^63 - 1, step 1), and held to the rule: {endless}"
    );
    differences == 0 && endless > 0 && met.iter().all(|n| *n > 0)
}

/// What stands in a record's places before a fill, so that a place written or left shows.
const WORD: u64 = 0x5a5a_5a5a_5a5a_5a5a;
const INT: i64 = -0x5a5a_5a5a_5a5a_5a5a;

/// Money, tallies, words and ints, as they are lent.
type Lent<'a> = (&'a mut [i64], &'a mut [u64], &'a mut [u64], &'a mut [i64]);

/// A fill by the port: what is asked, the kind and the symbol as they go over, and what is lent.
type Fill = fn(&Ask, u64, u64, Lent) -> u64;

fn without_ceiling(ask: &Ask, kind: u64, symbol: u64, (money, tallies, words, ints): Lent) -> u64 {
    let Costs { commission_bps: c, slippage_bps: s, min_commission: m, .. } = ask.costs;
    let Ask { quantity_step, context, quantity, price, .. } = *ask;
    port::tc_fill(c, s, m, quantity_step, context.period, kind, symbol, quantity, price, money, tallies, words, ints)
}

fn with_ceiling(ask: &Ask, kind: u64, symbol: u64, (money, tallies, words, ints): Lent) -> u64 {
    let Costs { commission_bps: c, slippage_bps: s, min_commission: m, max_commission: x } = ask.costs;
    let Ask { quantity_step: step, context, quantity, price, .. } = *ask;
    port::tc_fill_with_ceiling(
        c,
        s,
        m,
        x,
        step,
        context.period,
        kind,
        symbol,
        quantity,
        price,
        money,
        tallies,
        words,
        ints,
    )
}

/// What the port returns, the account after it, and the record's places, with one place more that it must leave.
fn ours(fill: Fill, ask: &Ask, before: Single) -> (u64, Single, [u64; 5], [i64; 9]) {
    let [quantity, average, realized, total] = before.position;
    let mut money = [before.cash, before.shortfall, quantity, average, realized, total];
    let mut tallies = [before.trimmed, before.records];
    let (mut words, mut ints) = ([WORD; 5], [INT; 9]);
    let lent: Lent = (&mut money, &mut tallies, &mut words, &mut ints);
    let answer = fill(ask, ask.context.kind as u64, u64::from_be_bytes(ask.symbol.0), lent);
    let [cash, shortfall, position @ ..] = money;
    let [trimmed, records] = tallies;
    (answer, Single { cash, shortfall, position, trimmed, records }, words, ints)
}

/// A record in its places; as found where there is none.
fn places(record: Option<Record>) -> ([u64; 5], [i64; 9]) {
    let Some(r) = record else { return ([WORD; 5], [INT; 9]) };
    let words = [r.sequence, r.context.period, r.context.kind as u64, u64::from_be_bytes(r.symbol.0), WORD];
    let figures = [r.notional, r.reference_notional, r.cost, r.cash_delta, r.cash_after];
    let [notional, listed, cost, change, after] = figures;
    (words, [r.quantity, r.price, r.reference_price, notional, listed, cost, change, after, INT])
}

/// The number 0, and above its eight bits the count of records.
fn done(recorded: bool) -> u64 {
    u64::from(recorded) << 8
}

fn agrees(fill: Fill, case: &Case) -> bool {
    let (answer, after, words, ints) = ours(fill, &case.ask, case.before);
    let same = answer == done(case.record.is_some()) && after == case.after && (words, ints) == places(case.record);
    if !same {
        let Case { ask, before, after: theirs, record, .. } = case;
        println!(
            "DIFFERS: {ask:?} on {before:?}: port {answer} {after:?} {words:?} {ints:?}, nanobook {theirs:?} {record:?}"
        );
    }
    same
}

/// A fill that nanobook is not asked: the whole request where its need fits, else the largest step multiple that fits.
fn fills_by_the_rule(fill: Fill, ask: &Ask, before: Single, paid: i64, need: i64) -> bool {
    let largest = || largest(ask.quantity, before.cash, ask.quantity_step, paid, ask.costs);
    let expected = if need <= before.cash { ask.quantity } else { largest() };
    let (answer, after, _, ints) = ours(fill, ask, before);
    let filled = if after.cash == before.cash && ints[0] == INT { 0 } else { ints[0] };
    let same = answer == done(expected != 0) && filled == expected;
    if !same {
        println!("DIFFERS: {ask:?} on {before:?}: port {answer}, filled {filled}, by the rule {expected}");
    }
    same
}

fn costs(random: &mut Random) -> Costs {
    let mut rate = |most: f64| match random.below(8) {
        0 | 1 => 0.0,
        2 | 3 => random.pick(&[-0.0, 0.5, 2.5, 10.0, 33.3, 1_000.0, 10_000.0]),
        // Doubles of at least 0 stand in the order of their bits.
        4 => f64::from_bits(random.below(most.to_bits() + 1)),
        _ => random.below(1 << 40) as f64 / (1u64 << 40) as f64 * 100.0,
    };
    let (commission_bps, slippage_bps) = (rate(f64::MAX), rate(10_000.0));
    let min_commission = match random.below(6) {
        0 | 1 => 0,
        2 | 3 => random.below(10_000) as i64,
        4 => (random.i64() & i64::MAX) >> random.below(40),
        _ => random.i64() & i64::MAX,
    };
    Costs { commission_bps, slippage_bps, min_commission, max_commission: 0 }
}

/// A fill of any size on the account, with cash about what it needs.
fn draw(random: &mut Random, sort: u64, account: Single) -> (Ask, Single) {
    let (quantity, price) = next(random, sort, account.position);
    let costs = costs(random);
    let ask = Ask {
        costs,
        quantity_step: if random.one_in(8) {
            (random.i64() & i64::MAX).max(1)
        } else {
            random.pick(&[1, 1_000, 1_000_000])
        },
        context: Context { period: random.u64(), kind: random.pick(&[Kind::Rebalance, Kind::StopExit]) },
        symbol: SYMBOL,
        quantity,
        price: price.max(1),
    };
    let paid = paid(costs, quantity, ask.price);
    let proceeds = notional(quantity, paid);
    let short = if quantity > 0 { need(quantity, paid, costs) } else { costs.min_commission.saturating_sub(proceeds) };
    let cash = match random.below(10) {
        0 => 0,
        1 | 2 => short.saturating_sub(random.below(4) as i64 - 1),
        3 => costs.min_commission.saturating_add(random.below(1_000) as i64),
        4 => i64::MAX,
        5 => random.i64(),
        6 | 7 => (short as f64 * (random.below(1 << 20) as f64 / (1 << 20) as f64)) as i64,
        _ => account.cash,
    };
    let mut before = Single { cash: cash.max(0), ..account };
    match random.below(64) {
        0 => before.shortfall = i64::MAX - random.below(1_000) as i64,
        1 => before.shortfall = random.i64(),
        2 => before.trimmed = u64::MAX - random.below(2),
        3 => before.records = u64::MAX - random.below(2),
        4 => (before.trimmed, before.records, before.shortfall) = (0, 0, 0),
        _ => {}
    }
    (ask, before)
}

/// A call with anything spoiled, and places of any length.
struct Spoiled {
    ask: Ask,
    kind: u64,
    symbol: u64,
    money: Vec<i64>,
    tallies: Vec<u64>,
    words: Vec<u64>,
    ints: Vec<i64>,
}

impl Spoiled {
    fn draw(random: &mut Random) -> Spoiled {
        let (mut ask, before) = draw(random, 0, Single::default());
        let mut rarely = |length: u64| if random.one_in(12) { random.below(12) as usize } else { length as usize };
        let lengths = [rarely(6), rarely(2), rarely(4), rarely(8)];
        let mut money = vec![before.cash, 0, 0, 0, 0, 0];
        money.resize(lengths[0], 0);
        if random.one_in(6) && !money.is_empty() {
            let at = random.below(money.len() as u64) as usize;
            money[at] = random.i64();
        }
        let symbol = if random.one_in(6) { draw_symbol(random) } else { u64::from_be_bytes(SYMBOL.0) };
        let kind = if random.one_in(6) { random.u64() } else { random.below(2) };
        match random.below(12) {
            0 | 1 => ask.costs = costs_of(draw_costs(random)),
            2 => ask.quantity_step = random.i64(),
            3 => ask.price = random.i64(),
            _ => {}
        }
        let (tallies, words, ints) = (vec![0; lengths[1]], vec![WORD; lengths[2]], vec![INT; lengths[3]]);
        Spoiled { ask, kind, symbol, money, tallies, words, ints }
    }

    /// "Check order where several apply: 11, 1, .. 4, 8"
    fn refusal(&self) -> Answer {
        let &[cash, _, quantity, average, realized, total] = &self.money[..] else { return Answer::plain(11) };
        if self.tallies.len() != 2 || cash < 0 || !is_sound(self.symbol, [quantity, average, realized, total]) {
            return Answer::plain(11);
        }
        if !are_good(self.ask.costs) || self.ask.quantity_step < 1 || self.kind > 1 {
            return Answer::plain(1);
        }
        match (self.ask.price < 1, self.words.len() < 4 || self.ints.len() < 8) {
            (true, _) => Answer::alone(4),
            (false, true) => Answer::plain(8),
            (false, false) => DONE,
        }
    }

    /// Whether the port answers with that number and place and leaves all as found.
    fn is_refused_with(&self, fill: Fill, expected: Answer) -> bool {
        let (mut money, mut tallies) = (self.money.clone(), self.tallies.clone());
        let (mut words, mut ints) = (self.words.clone(), self.ints.clone());
        let answer = fill(&self.ask, self.kind, self.symbol, (&mut money, &mut tallies, &mut words, &mut ints));
        let left = money == self.money && tallies == self.tallies && words == self.words && ints == self.ints;
        answer == expected.word() && left
    }
}

fn refusals(run: &str, fill: Fill, draw: fn(&mut Random) -> Spoiled, seed: u64, count: u64) -> bool {
    let mut random = Random::new(!seed);
    let mut wrong = 0u64;
    let mut met = [(11, 0u64), (1, 0), (4, 0), (8, 0)];
    for _ in 0..count {
        let spoiled = draw(&mut random);
        let expected = spoiled.refusal();
        if expected != DONE {
            wrong += u64::from(!spoiled.is_refused_with(fill, expected));
            met.iter_mut().filter(|(answer, _)| *answer == expected.number).for_each(|(_, n)| *n += 1);
        }
    }
    let said: Vec<String> = met.iter().map(|(answer, n)| format!("{answer}: {n}")).collect();
    println!("{run}: refused and left as found, by answer: {}; {wrong} wrong", said.join(", "));
    wrong == 0 && met.iter().all(|(_, n)| *n > 0)
}
