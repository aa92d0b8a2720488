//! What a page shows of the periods before a saved account, which has no series: a text file beside the account's, a line for each thing.
//! Amounts are cents, quantities micro-shares, doubles their sixteen hexadecimal digits, so that nothing is lost.

use crate::history::{History, Told};
use std::fmt::Write;
use threshcoil::{Account, ExecutionKind, ExecutionRecord, Shares, Symbol, Weight};

const FIRST: &str = "threshcoil history 1";

#[derive(Clone, Debug, Default)]
pub struct Kept {
    /// The account's file in hexadecimal digits, as it was saved; nothing where nothing was.
    pub account: String,
    pub name: String,
    /// How many equities and returns came before the first equity here; none of either where that is the opening's.
    pub unknown: Option<(u64, u64)>,
    pub periods: Vec<Told>,
    pub equities: Vec<i64>,
    pub returns: Vec<f64>,
    /// As of the last period with prices.
    pub weights: Vec<Weight>,
    /// What of earlier files did not count, as the page shows it.
    pub left_out: Vec<String>,
}

impl Kept {
    /// All that is known of a saved account by itself.
    pub fn of(account: &Account) -> Kept {
        let unknown = Some((account.equity_count().saturating_sub(1), account.return_count()));
        Kept { name: "Saved account".into(), unknown, equities: vec![account.previous_equity()], ..Kept::default() }
    }

    /// Whether this was saved with the account of a file, which then counts what is here, its last equity the last one here.
    pub fn is_of(&self, file: &[u8], account: &Account) -> bool {
        let (equities, returns) = self.unknown.unwrap_or((0, 0));
        self.account == hexadecimal(file)
            && equities.checked_add(self.equities.len() as u64) == Some(account.equity_count())
            && returns.checked_add(self.returns.len() as u64) == Some(account.return_count())
            && self.equities.last() == Some(&account.previous_equity())
    }

    /// The number of the first line that can't be read, where there is one.
    pub fn read(text: &str) -> Result<Kept, usize> {
        let mut kept = Kept::default();
        let mut lines = (1usize..).zip(text.lines());
        if lines.next().is_none_or(|(_, first)| first != FIRST) {
            return Err(1);
        }
        for (number, line) in lines.by_ref() {
            let (word, rest) = line.split_once(' ').unwrap_or((line, ""));
            kept.take(word, rest).ok_or(number)?;
        }
        if kept.equities.is_empty() { Err(1 + text.lines().count()) } else { Ok(kept) }
    }

    fn take(&mut self, word: &str, rest: &str) -> Option<()> {
        let begun = !self.equities.is_empty();
        match word {
            "account" => self.account = rest.into(),
            "name" => self.name = rest.into(),
            "opening" if !begun => self.equities.push(rest.parse().ok()?),
            "saved" if !begun => {
                let [equity, equities, returns] = words(rest)?;
                self.equities.push(equity.parse().ok()?);
                self.unknown = Some((equities.parse().ok()?, returns.parse().ok()?));
            }
            "left-out" => self.left_out.push(rest.into()),
            "weight" => {
                let [symbol, weight] = words(rest)?;
                self.weights.push(Weight { symbol: Symbol::new(symbol).ok()?, weight: double(weight)? });
            }
            "period" if begun => self.periods.push(Told { label: rest.into(), ..Told::default() }),
            _ => self.take_in_period(word, rest)?,
        }
        Some(())
    }

    fn take_in_period(&mut self, word: &str, rest: &str) -> Option<()> {
        let period = self.periods.last_mut()?;
        match word {
            "fill" => period.fills.push(record(rest)?),
            "trimmed" => period.trimmed = rest.parse().ok()?,
            "equity" => {
                let [equity, gain] = words(rest)?;
                period.equity = Some(equity.parse().ok()?);
                period.gain = if gain == "-" { None } else { Some(double(gain)?) };
                self.equities.extend(period.equity);
                self.returns.extend(period.gain);
            }
            _ => return None,
        }
        Some(())
    }
}

/// What is kept of a run, to stand beside its account; `left_out` is as its page shows it.
pub fn written(account: &[u8], name: &str, history: &History, left_out: &[String]) -> String {
    let first = history.equities.first().copied().unwrap_or(0);
    let begins = match history.unknown {
        None => format!("opening {first}"),
        Some((equities, returns)) => format!("saved {first} {equities} {returns}"),
    };
    let mut out = format!("{FIRST}\naccount {}\nname {name}\n{begins}\n", hexadecimal(account));
    for told in &history.periods {
        let _ = writeln!(out, "period {}", told.label);
        for r in &told.fills {
            let _ = writeln!(out, "fill {}", fill(r));
        }
        if told.trimmed > 0 {
            let _ = writeln!(out, "trimmed {}", told.trimmed);
        }
        if let Some(equity) = told.equity {
            let _ = writeln!(out, "equity {equity} {}", told.gain.map_or("-".into(), digits));
        }
    }
    for weight in &history.weights {
        let _ = writeln!(out, "weight {} {}", weight.symbol, digits(weight.weight));
    }
    for entry in left_out {
        let _ = writeln!(out, "left-out {entry}");
    }
    out
}

fn digits(x: f64) -> String {
    format!("{:016x}", x.to_bits())
}

fn double(digits: &str) -> Option<f64> {
    (digits.len() == 16).then(|| u64::from_str_radix(digits, 16).ok()).flatten().map(f64::from_bits)
}

fn words<const N: usize>(rest: &str) -> Option<[&str; N]> {
    rest.split(' ').collect::<Vec<_>>().try_into().ok()
}

fn kind(kind: ExecutionKind) -> &'static str {
    match kind {
        ExecutionKind::Rebalance => "rebalance",
        ExecutionKind::StopExit => "stop-exit",
    }
}

fn fill(r: &ExecutionRecord) -> String {
    let prices = format!("{} {} {} {}", r.price, r.reference_price, r.notional, r.reference_notional);
    let cash = format!("{} {} {}", r.cost, r.cash_delta, r.cash_after);
    format!("{} {} {} {} {} {prices} {cash}", r.sequence, r.period_index, kind(r.kind), r.symbol, r.quantity.0)
}

fn record(rest: &str) -> Option<ExecutionRecord> {
    let [sequence, period, why, symbol, figures @ ..] = words::<12>(rest)?;
    let kinds = [ExecutionKind::Rebalance, ExecutionKind::StopExit];
    let [quantity, price, reference_price, notional, reference_notional, cost, cash_delta, cash_after] =
        figures.map(|figure| figure.parse().ok());
    Some(ExecutionRecord {
        sequence: sequence.parse().ok()?,
        period_index: period.parse().ok()?,
        kind: kinds.into_iter().find(|k| kind(*k) == why)?,
        symbol: Symbol::new(symbol).ok()?,
        quantity: Shares(quantity?),
        price: price?,
        reference_price: reference_price?,
        notional: notional?,
        reference_notional: reference_notional?,
        cost: cost?,
        cash_delta: cash_delta?,
        cash_after: cash_after?,
    })
}

#[cfg(test)]
mod tests {
    use super::*;

    const TEXT: &str = "threshcoil history 1\nname A # B\nopening 1000\nperiod one\n\
        fill 0 0 rebalance #1 -5 4 3 2 1 0 -7 993\ntrimmed 2\nequity 990 bf747ae147ae147b\nperiod \nperiod three\n\
        equity 995 -\nweight #1 3fe0000000000000\nleft-out one, line 3: what\n";

    #[test]
    fn each_line_is_read() {
        let kept = Kept::read(TEXT).unwrap();
        assert_eq!((kept.name.as_str(), kept.unknown), ("A # B", None));
        assert_eq!((kept.equities.as_slice(), kept.returns.as_slice()), (&[1_000, 990, 995][..], &[-0.005][..]));
        assert_eq!(kept.periods.iter().map(|p| p.label.as_str()).collect::<Vec<_>>(), ["one", "", "three"]);
        assert_eq!((kept.periods[0].fills[0].cash_after, kept.periods[0].trimmed), (993, 2));
        assert_eq!((kept.weights[0].weight, kept.left_out.as_slice()), (0.5, &["one, line 3: what".to_string()][..]));
    }

    #[test]
    fn a_line_that_cannot_be_read_is_told() {
        for (bad, line) in [
            (TEXT.replace("history 1", "history 2"), 1),
            (TEXT.replace("opening 1000\n", ""), 3),
            (TEXT.replace("opening 1000", "opening ten"), 3),
            (TEXT.replace("-7 993", "-7"), 5),
            (TEXT.replace("rebalance", "whim"), 5),
            (TEXT.replace("equity 995 -", "equity 995"), 10),
            (TEXT.replace("3fe0000000000000", "0.5"), 11),
            (TEXT.replace("name A # B", "opening 1"), 3),
            ("threshcoil history 1\nname A\n".into(), 3),
            ("threshcoil history 1\nequity 5 -\n".into(), 2),
            (String::new(), 1),
        ] {
            assert_eq!(Kept::read(&bad).err(), Some(line), "{bad}");
        }
    }
}

fn hexadecimal(bytes: &[u8]) -> String {
    bytes.iter().map(|byte| format!("{byte:02x}")).collect()
}
