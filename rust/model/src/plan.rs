//! A model portfolio as a text file has it: the opening, the settings, and what each period asks for.

use crate::lines::{Said, cents, lines, scaled, shown};
use threshcoil::{CostModel, List, Price, Settings, Shares, Symbol, Target};

#[derive(Clone, Debug)]
pub struct Close {
    pub symbol: Symbol,
    /// The listed price where the line gives none.
    pub price: Option<i64>,
}

#[derive(Clone, Debug)]
pub struct Period {
    pub line: usize,
    pub label: String,
    pub prices: Vec<Said<Vec<Price>>>,
    /// None where the period asks for no rebalance; a list may be empty.
    pub targets: Option<Vec<Said<Vec<Target>>>>,
    pub closes: Vec<Said<Close>>,
    /// Whether a line of prices can't be read: what it prices would count 0.
    pub prices_unread: bool,
    /// Whether a line of targets can't be read: what it names would be closed.
    pub targets_unread: bool,
}

impl Period {
    fn new(line: usize, label: String) -> Period {
        let (prices, closes) = (Vec::new(), Vec::new());
        Period { line, label, prices, targets: None, closes, prices_unread: false, targets_unread: false }
    }

    pub fn all_prices(&self) -> Vec<Price> {
        self.prices.iter().flat_map(|said| said.what.iter().copied()).collect()
    }

    pub fn all_targets(&self) -> Vec<Target> {
        self.targets.iter().flatten().flat_map(|said| said.what.iter().copied()).collect()
    }

    /// The line on which the entry at an index of a list stands.
    pub fn line_at(&self, list: List, index: usize) -> Option<usize> {
        match list {
            List::Targets => line_of_nth(self.targets.as_deref().unwrap_or_default(), index),
            List::Prices => line_of_nth(&self.prices, index),
        }
    }
}

fn line_of_nth<T>(lines: &[Said<Vec<T>>], index: usize) -> Option<usize> {
    lines.iter().flat_map(|said| said.what.iter().map(|_| said.line)).nth(index)
}

#[derive(Clone, Debug)]
pub struct Plan {
    pub name: String,
    pub opening: Opening,
    /// The opening as it stands after each of its lines.
    pub openings: Vec<Said<Opening>>,
    /// Whether a saved account is in the place of an opening.
    continued: bool,
    pub periods: Vec<Period>,
}

#[derive(Clone, Copy, Debug)]
pub struct Opening {
    pub cash: i64,
    pub settings: Settings,
}

/// A line that says nothing that is known here.
#[derive(Clone, Debug)]
pub struct Unread {
    pub line: usize,
    pub why: String,
    /// Whether it may have been a setting or the cash, without which no number of a run means anything.
    pub opening: bool,
}

impl Plan {
    fn new() -> Plan {
        let settings = Settings { recording: true, ..Settings::new(CostModel::default()) };
        let (opening, openings) = (Opening { cash: 0, settings }, Vec::new());
        Plan { name: "Model portfolio".into(), opening, openings, continued: false, periods: Vec::new() }
    }
}

/// Reads the whole text. What can't be read stands in the second list, line by line, and the rest of the file counts.
pub fn read(text: &str) -> (Plan, Vec<Unread>) {
    read_into(Plan::new(), text)
}

/// Reads the text of a run that continues a saved account, which has its cash, its settings and a name.
pub fn read_on(text: &str, name: &str) -> (Plan, Vec<Unread>) {
    read_into(Plan { name: name.into(), continued: true, ..Plan::new() }, text)
}

fn read_into(mut plan: Plan, text: &str) -> (Plan, Vec<Unread>) {
    let mut unread = Vec::new();
    for (line, word, rest) in lines(text) {
        if let Err(why) = take(&mut plan, line, word, rest) {
            unread.push(Unread { line, why: shown(&why), opening: plan.periods.is_empty() || is_setting(word) });
        }
    }
    (plan, unread)
}

fn take(plan: &mut Plan, line: usize, word: &str, rest: &str) -> Result<(), String> {
    if word == "period" {
        // Without a label it still begins here: its lines are not those of the period before.
        let label = if rest.is_empty() { format!("line {line}") } else { shown(rest) };
        plan.periods.push(Period::new(line, label));
        return if rest.is_empty() { Err("a period has a label".into()) } else { Ok(()) };
    }
    match plan.periods.last_mut() {
        Some(_) if is_setting(word) => Err(format!("'{word}' is a setting, and settings come before the first period")),
        Some(period) => take_in_period(period, line, word, rest),
        None if plan.continued && word != "name" && is_setting(word) => {
            Err(format!("'{word}' is a setting, and the saved account has its own"))
        }
        None => match take_setting(plan, word, rest)? {
            true => {
                plan.openings.push(Said { line, what: plan.opening });
                Ok(())
            }
            false => Err(format!("'{word}' is no setting, and no period has begun")),
        },
    }
}

fn is_setting(word: &str) -> bool {
    take_setting(&mut Plan::new(), word, "") != Ok(false)
}

/// False for a word that is no setting's.
fn take_setting(plan: &mut Plan, word: &str, rest: &str) -> Result<bool, String> {
    let Opening { cash, settings } = &mut plan.opening;
    match word {
        "name" => plan.name = shown(rest),
        "cash" => *cash = cents(rest)?,
        "commission_bps" => settings.cost_model.commission_bps = number(rest)?,
        "slippage_bps" => settings.cost_model.slippage_bps = number(rest)?,
        "min_commission" => settings.cost_model.min_commission = cents(rest)?,
        "max_commission" => settings.cost_model.max_commission = cents(rest)?,
        "quantity_step" => settings.quantity_step = scaled(rest, 6)?,
        "min_order_value" => settings.min_order_value = cents(rest)?,
        "max_order_value" => settings.max_order_value = cents(rest)?,
        "no_trade_band_bps" => settings.no_trade_band_bps = number(rest)?,
        "max_trades" => settings.max_trades_per_rebalance = cap(rest)?,
        "max_rebalance_notional" => settings.max_rebalance_notional = cents(rest)?,
        "cash_first" => settings.cash_first = flag(rest)?,
        _ => return Ok(false),
    }
    Ok(true)
}

fn take_in_period(period: &mut Period, line: usize, word: &str, rest: &str) -> Result<(), String> {
    match word {
        "prices" => {
            let what = pairs(rest, |symbol, price| Ok(Price { symbol, price: cents(price)? }));
            period.prices_unread |= what.is_err();
            let what = what.map_err(|why| format!("{why}, so the period has no rebalance and no equity"))?;
            period.prices.push(Said { line, what });
        }
        "targets" => {
            let what = pairs(rest, |symbol, weight| Ok(Target { symbol, weight: number(weight)? }));
            period.targets_unread |= what.is_err();
            let what = what.map_err(|why| format!("{why}, so the period has no rebalance"))?;
            period.targets.get_or_insert_default().push(Said { line, what });
        }
        "close" => {
            let mut words = rest.split_whitespace();
            let symbol = symbol(words.next().ok_or("a close names a symbol")?)?;
            let price = words.next().map(cents).transpose()?;
            if words.next().is_some() {
                return Err("a close has a symbol and at most a price".into());
            }
            period.closes.push(Said { line, what: Close { symbol, price } });
        }
        _ => return Err(format!("'{word}' is neither period, prices, targets nor close")),
    }
    Ok(())
}

fn pairs<T>(rest: &str, entry: impl Fn(Symbol, &str) -> Result<T, String>) -> Result<Vec<T>, String> {
    let words: Vec<&str> = rest.split_whitespace().collect();
    if words.len() % 2 != 0 {
        return Err(format!("'{}' stands without its number", words[words.len() - 1]));
    }
    words.chunks_exact(2).map(|pair| entry(symbol(pair[0])?, pair[1])).collect()
}

/// Any text of one to eight bytes that padding does not change: whether it is a good symbol is the library's to say.
fn symbol(text: &str) -> Result<Symbol, String> {
    let bytes = text.as_bytes();
    // The mark has three bytes, where one may have been lost: nothing is said of the length.
    if text.contains(char::REPLACEMENT_CHARACTER) {
        return Err(format!("'{text}' has \u{fffd} in the place of bytes that are no UTF-8 text"));
    }
    if bytes.len() > 8 {
        return Err(format!("'{text}' has more than the eight bytes of a symbol"));
    }
    let mut padded = [0; 8];
    padded[..bytes.len()].copy_from_slice(bytes);
    let symbol = Symbol::from_padded(padded);
    if symbol.as_bytes() != bytes {
        return Err(format!("'{text}' ends in a zero byte, and no symbol does"));
    }
    Ok(symbol)
}

fn number(text: &str) -> Result<f64, String> {
    text.parse().map_err(|_| format!("'{text}' is no number"))
}

fn cap(text: &str) -> Result<Option<u64>, String> {
    if text == "none" {
        return Ok(None);
    }
    text.parse().map(Some).map_err(|_| format!("'{text}' is neither a count nor 'none'"))
}

fn flag(text: &str) -> Result<bool, String> {
    match text {
        "on" => Ok(true),
        "off" => Ok(false),
        _ => Err(format!("'{text}' is neither 'on' nor 'off'")),
    }
}

/// One whole share, for who tells quantities.
pub const SHARE: i64 = Shares::SCALE;

#[cfg(test)]
mod tests {
    use super::*;

    #[test]
    fn a_bad_line_is_told_and_the_rest_counts() {
        let (plan, unread) = read("cash 10.00\nperiod one\nprices A 1.00 B\ntargets A 0.5 # half\nnonsense\n");
        assert_eq!(plan.opening.cash, 1_000);
        assert_eq!(unread.iter().map(|u| u.line).collect::<Vec<_>>(), [3, 5]);
        assert_eq!(plan.periods[0].all_targets().len(), 1);
        assert!(plan.periods[0].all_prices().is_empty());
        assert!(unread.iter().all(|u| !u.opening));
    }

    #[test]
    fn a_zero_is_not_taken_for_padding() {
        for bad in ["prices B\0 1.00", "prices A 1.00 \0 1.00", "targets B\0\0 0.5", "close B\0", "close B\0 1.00"] {
            let (plan, unread) = read(&format!("period one\n{bad}\n"));
            assert_eq!(unread.iter().map(|u| u.line).collect::<Vec<_>>(), [2], "{bad:?}");
            assert!(unread[0].why.contains("ends in a zero byte"), "{bad:?}: {}", unread[0].why);
            let period = &plan.periods[0];
            assert!(period.prices.is_empty() && period.targets.is_none() && period.closes.is_empty(), "{bad:?}");
        }
        let (plan, unread) = read("period one\nprices A\0B 1.00\n");
        assert!(unread.is_empty() && !plan.periods[0].all_prices()[0].symbol.is_good(), "that one the library refuses");
    }

    #[test]
    fn an_entry_stands_on_its_line() {
        let (plan, _) = read("period one\nprices A 1.00 B 1.00\ntargets A 0.5\nprices\nprices C 1.00\ntargets B 0.5\n");
        let [prices, targets] = [List::Prices, List::Targets]
            .map(|list| (0..4).map(|index| plan.periods[0].line_at(list, index)).collect::<Vec<_>>());
        assert_eq!(prices, [Some(2), Some(2), Some(5), None]);
        assert_eq!(targets, [Some(3), Some(6), None, None]);
        assert_eq!(read("period one\n").0.periods[0].line_at(List::Targets, 0), None);
    }

    #[test]
    fn a_line_of_the_opening_is_known_wherever_it_stands() {
        for bad in ["cash abc", "cahs 1.00", "max_trades few", "prices A 1.00\nperiod one", "period one\ncash 1.00"] {
            let (_, unread) = read(bad);
            assert!(unread.len() == 1 && unread[0].opening, "{bad}");
        }
    }

    #[test]
    fn a_saved_account_has_its_own_settings() {
        for (text, bad) in [("cash 1.00\nperiod one", true), ("max_trades 4", true), ("period one", false), ("", false)]
        {
            let (plan, unread) = read_on(text, "Kept");
            assert_eq!((unread.len(), unread.iter().any(|u| u.opening)), (usize::from(bad), bad), "{text}");
            assert_eq!(plan.name, "Kept");
        }
        assert_eq!(read_on("name Given\nperiod one", "Kept").0.name, "Given");
    }

    #[test]
    fn a_period_without_a_label_is_not_the_one_before() {
        let (plan, unread) = read("period one\nprices A 1.00\nperiod\nprices A 2.00\n");
        assert_eq!(unread.iter().map(|u| (u.line, u.opening)).collect::<Vec<_>>(), [(3, false)]);
        assert_eq!(plan.periods.iter().map(|p| p.all_prices().len()).collect::<Vec<_>>(), [1, 1]);
    }
}
