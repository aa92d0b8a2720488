//! What a run tells in the terminal, and how amounts are written.

use crate::history::{History, Refused, Told};
use crate::plan::{Plan, SHARE};
use crate::saved::Start;
use std::io::{self, Write};
use std::path::Path;
use threshcoil::{Entry, ExecutionKind, ExecutionRecord, Figures, Refusal, Shares};

/// Cents as units with two decimals and grouped thousands.
pub fn money(cents: i64) -> String {
    let magnitude = cents.unsigned_abs();
    let sign = if cents < 0 { "-" } else { "" };
    format!("{sign}{}.{:02}", grouped(magnitude / 100), magnitude % 100)
}

fn grouped(n: u64) -> String {
    let digits = n.to_string();
    let mut out = String::new();
    for (k, digit) in digits.chars().enumerate() {
        if k > 0 && (digits.len() - k) % 3 == 0 {
            out.push(',');
        }
        out.push(digit);
    }
    out
}

/// Micro-shares as shares, without zeros at the end.
pub fn shares(quantity: Shares) -> String {
    let magnitude = quantity.0.unsigned_abs();
    let sign = if quantity.0 < 0 { "-" } else { "" };
    let (whole, part) = (magnitude / SHARE as u64, magnitude % SHARE as u64);
    let decimals = format!("{part:06}");
    let decimals = decimals.trim_end_matches('0');
    if decimals.is_empty() {
        format!("{sign}{}", grouped(whole))
    } else {
        format!("{sign}{}.{decimals}", grouped(whole))
    }
}

pub fn percent(x: f64) -> String {
    share(x * 100.0)
}

/// So many percent, without a sign where they round to zero.
pub fn share(percent: f64) -> String {
    let said = format!("{percent:.2}%");
    if said == "-0.00%" { "0.00%".into() } else { said }
}

/// A ratio, or words where there is no number to show.
pub fn ratio(x: f64) -> String {
    if x.is_infinite() { "no losses".into() } else { format!("{x:.2}") }
}

/// `1 fill`, `2 fills`.
pub fn count(n: usize, noun: &str) -> String {
    format!("{n} {noun}{}", if n == 1 { "" } else { "s" })
}

/// That something was refused, and why. An entry of a list stands first, behind the line that it stands on.
pub fn refused(what: &str, refusal: Refusal) -> String {
    let number = refusal.number();
    match refusal.entry() {
        None => format!("{what} was refused, {number}: {refusal}"),
        Some(Entry::Target { .. } | Entry::Price { .. }) => format!("{refusal}; {what} was refused, {number}"),
        // What was refused has the symbol in its name.
        Some(Entry::Only { .. }) => format!("{what} was refused, {number}: {}", refusal.meaning()),
    }
}

/// Why a file is no saved account, in words that say what to do about it.
pub fn bad_file(file: &Path, refusal: Refusal) -> String {
    let then = match refusal {
        Refusal::EndsEarly(_) => "a part of it was lost",
        Refusal::BadNumber(_) | Refusal::LeftOver(_) => "it is damaged, or no saved account",
        _ => "it is damaged, or of a form that is not known here",
    };
    format!("{}: {}; {then}", file.display(), refused("the saved account", refusal))
}

/// What a run continues from.
pub fn start(out: &mut impl Write, file: &Path, start: &Start) -> io::Result<()> {
    let (equity, periods) = (money(start.account.previous_equity()), start.kept.periods.len());
    match start.kept.unknown {
        None => writeln!(out, "from {}: {}, equity {equity}", file.display(), count(periods, "period"))?,
        Some(_) => writeln!(out, "from {}: equity {equity}, without all its periods", file.display())?,
    }
    if start.account.settings().recording { Ok(()) } else { writeln!(out, "{NOT_RECORDED}") }
}

/// Said of an account that was saved elsewhere: one that is opened here records.
pub const NOT_RECORDED: &str = "Recording is off in this account: its fills are not listed.";

pub fn refusal(file: &str, r: &Refused) -> String {
    format!("{file}:{}: {r}", r.line)
}

fn fill(r: &ExecutionRecord) -> String {
    let side = if r.quantity.0 < 0 { "sell" } else { "buy" };
    let why = if r.kind == ExecutionKind::StopExit { ", stop exit" } else { "" };
    let quantity = shares(Shares(r.quantity.0.saturating_abs()));
    format!(
        "  {side:<4} {:<8} {quantity:>14} at {:>12}, cost {}{why}",
        r.symbol.to_string(),
        money(r.price),
        money(r.cost)
    )
}

/// One period: its fills, what was cut or refused, and the equity.
pub fn period(out: &mut impl Write, file: &str, told: &Told) -> io::Result<()> {
    writeln!(out, "{}", told.label)?;
    for r in &told.fills {
        writeln!(out, "{}", fill(r))?;
    }
    if told.trimmed > 0 {
        writeln!(out, "  {} cut down to the cash at hand", told.trimmed)?;
    }
    for r in &told.refused {
        writeln!(out, "  {}", refusal(file, r))?;
    }
    match (told.equity, told.gain) {
        (Some(equity), Some(gain)) => writeln!(out, "  equity {} ({})", money(equity), percent(gain)),
        (Some(equity), None) => writeln!(out, "  equity {}", money(equity)),
        (None, _) => writeln!(out, "  no equity for this period"),
    }
}

/// The figures with their names, as both the text and the page show them.
pub fn figures(f: &Figures) -> [(&'static str, String); 8] {
    [
        ("Total return", percent(f.total_return)),
        ("Maximum drawdown", percent(f.max_drawdown)),
        ("Winning periods", f.winning_periods.to_string()),
        ("Losing periods", f.losing_periods.to_string()),
        ("Win rate", percent(f.win_rate)),
        ("Profit factor", ratio(f.profit_factor)),
        ("Payoff ratio", ratio(f.payoff_ratio)),
        ("Kelly fraction", percent(f.kelly)),
    ]
}

pub fn summary(out: &mut impl Write, plan: &Plan, history: &History) -> io::Result<()> {
    writeln!(out, "\n{}: {} periods, {} returns", plan.name, history.periods.len(), history.returns.len())?;
    match &history.figures {
        Ok(f) => {
            for (name, value) in figures(f) {
                writeln!(out, "  {name:<18} {value:>14}")?;
            }
        }
        Err(refusal) => writeln!(out, "  no figures, {}: {refusal}", refusal.number())?,
    }
    if let Some(ceiling) = history.ceiling() {
        writeln!(out, "  {:<18} {:>14}", "Commission ceiling", money(ceiling))?;
    }
    writeln!(out, "  {:<18} {:>14}", "Cash", money(history.account.cash()))?;
    for p in history.positions.iter().filter(|p| p.quantity.0 != 0) {
        let weight = history.weight_of(p.symbol).map_or("".into(), percent);
        writeln!(out, "  {:<18} {:>14} shares {weight:>9}", p.symbol.to_string(), shares(p.quantity))?;
    }
    Ok(())
}

#[cfg(test)]
mod tests {
    use super::*;

    #[test]
    fn amounts_read_as_people_write_them() {
        assert_eq!(money(-123_456_789), "-1,234,567.89");
        assert_eq!(money(i64::MIN), "-92,233,720,368,547,758.08");
        assert_eq!(shares(Shares(1_500_000)), "1.5");
        assert_eq!(shares(Shares(-1_000_000_000)), "-1,000");
    }

    #[test]
    fn zero_has_no_sign() {
        assert_eq!([-0.0, -0.000_04, 0.000_04].map(percent), ["0.00%"; 3]);
        assert_eq!([-0.000_06, -0.1].map(percent), ["-0.01%", "-10.00%"]);
    }
}
