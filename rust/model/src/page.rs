//! The page of a run.

use crate::chart::Chart;
use crate::history::{History, Told};
use crate::html::{self, escaped};
use crate::plan::{Plan, Unread};
use crate::text::{NOT_RECORDED, count, figures, money, percent, shares};
use std::fmt::Write;
use threshcoil::{ExecutionKind, ExecutionRecord, Position};

const FOOTER: &str = "Equity, fills, holdings, weights and figures come from code that is proved to meet its definition; the curves \
     are drawn from them. A model portfolio is no advice, and past returns promise nothing.";

/// The page of a run, with what of its files did not count.
pub fn page(plan: &Plan, left_out: &[String], history: &History) -> String {
    html::page(&plan.name, FOOTER, |out| {
        head(out, &plan.name, history);
        not_counted(out, left_out, history);
        tiles(out, history);
        curves(out, history);
        holdings(out, history);
        trades(out, history);
    })
}

fn head(out: &mut String, name: &str, history: &History) {
    let ends = |p: Option<&Told>| p.map_or(String::new(), |p| escaped(&p.label));
    let (first, last) = (ends(history.periods.first()), ends(history.periods.last()));
    let equity = history.equities.last().copied().unwrap_or(0);
    let opening = history.equities.first().copied().unwrap_or(0);
    let begins = match history.unknown {
        None => "at opening",
        Some(_) => "in a saved account, before which nothing is shown or counts in a figure",
    };
    let _ = write!(
        out,
        "<header>\n<h1>{}</h1>\n<p class=\"span\">{first} to {last}, {} periods</p>\n\
         <p class=\"equity\">{}</p>\n<p class=\"span\">from {} {begins}; cash {}</p>\n</header>\n",
        escaped(name),
        history.periods.len(),
        money(equity),
        money(opening),
        money(history.account.cash())
    );
}

/// How many lines of the box stand open; the others are folded away.
const OPEN: usize = 8;

/// What of the files did not count: what was told of those before a saved account, then the rest in the file's order.
pub fn left_out(unread: &[Unread], history: &History) -> Vec<String> {
    let refused = history.refusals().map(|(label, r)| (r.line, format!("{label}, line {}: {r}", r.line)));
    let mut now: Vec<_> =
        unread.iter().map(|u| (u.line, format!("line {}: {}", u.line, u.why))).chain(refused).collect();
    now.sort_by_key(|(line, _)| *line);
    history.left_out.iter().cloned().chain(now.into_iter().map(|(_, entry)| entry)).collect()
}

/// The same, where it can't be overlooked.
fn not_counted(out: &mut String, all: &[String], history: &History) {
    if all.is_empty() {
        return;
    }
    let (count, do_not) = (all.len(), if all.len() == 1 { "entry does" } else { "entries do" });
    let then = if history.stopped { " The run stopped there." } else { "" };
    let _ = write!(
        out,
        "<section class=\"left-out\">\n<h2>{count} {do_not} not count</h2>\n\
         <p>Each was refused, can't be read or has no price. A refused call changes nothing.{then}</p>\n"
    );
    let (open, folded) = all.split_at(all.len().min(OPEN));
    list(out, open);
    if !folded.is_empty() {
        let _ = writeln!(out, "<details>\n<summary>{} more</summary>", folded.len());
        list(out, folded);
        out.push_str("</details>\n");
    }
    out.push_str("</section>\n");
}

fn list(out: &mut String, entries: &[String]) {
    out.push_str("<ul>\n");
    for entry in entries {
        let _ = writeln!(out, "<li>{}</li>", escaped(entry));
    }
    out.push_str("</ul>\n");
}

fn tiles(out: &mut String, history: &History) {
    out.push_str("<section class=\"tiles\">\n");
    match &history.figures {
        Ok(f) => {
            for (name, value) in figures(f) {
                let _ = writeln!(out, "<div><span>{name}</span><b>{value}</b></div>");
            }
        }
        Err(refusal) => {
            let _ = writeln!(out, "<p class=\"none\">No figures, {}: {refusal}.</p>", refusal.number());
        }
    }
    out.push_str("</section>\n");
}

fn curves(out: &mut String, history: &History) {
    let mut labels = vec![if history.unknown.is_none() { "opening" } else { "saved" }.to_string()];
    labels.extend(history.periods.iter().filter(|p| p.equity.is_some()).map(|p| p.label.clone()));
    let equity: Vec<f64> = history.equities.iter().map(|e| *e as f64 / 100.0).collect();
    let drawdown: Vec<f64> = history.drawdowns().iter().map(|d| -d * 100.0).collect();
    let charts = [
        Chart {
            class: "equity",
            title: "Equity",
            height: 260.0,
            values: &equity,
            labels: &labels,
            tick: |v| money((v * 100.0) as i64).trim_end_matches(".00").into(),
            filled: false,
        },
        Chart {
            class: "drawdown",
            title: "Drawdown",
            height: 150.0,
            values: &drawdown,
            labels: &labels,
            tick: |v| format!("{}%", if v == 0.0 { 0.0 } else { (v * 100.0).round() / 100.0 }),
            filled: true,
        },
    ];
    for chart in charts {
        let _ = writeln!(out, "<section>\n<h2>{}</h2>\n{}\n</section>", chart.title, chart.svg());
    }
}

fn holdings(out: &mut String, history: &History) {
    let open: Vec<&Position> = history.positions.iter().filter(|p| p.quantity.0 != 0).collect();
    out.push_str("<section>\n<h2>Holdings</h2>\n");
    if open.is_empty() {
        out.push_str("<p class=\"none\">All in cash.</p>\n</section>\n");
        return;
    }
    let widest = open.iter().filter_map(|p| history.weight_of(p.symbol)).fold(0.0, |w: f64, x| w.max(x.abs()));
    out.push_str(
        "<div class=\"scroll\"><table>\n<tr><th>Symbol</th><th class=\"bar\">Weight</th><th>Shares</th>\
         <th>Average price</th><th>Realized</th></tr>\n",
    );
    for p in open {
        let weight = history.weight_of(p.symbol).unwrap_or(0.0);
        let width = if widest > 0.0 { weight.abs() / widest * 60.0 } else { 0.0 };
        let side = if p.quantity.0 < 0 { "short" } else { "long" };
        let _ = writeln!(
            out,
            "<tr><td>{}{}</td><td class=\"bar\"><i class=\"{side}\" style=\"width:{width:.1}%\"></i><span>{}</span></td>\
             <td>{}</td><td>{}</td><td>{}</td></tr>",
            escaped(&p.symbol.to_string()),
            if side == "short" { " <em>short</em>" } else { "" },
            percent(weight),
            shares(p.quantity),
            money(p.avg_entry_price),
            money(p.realized_pnl)
        );
    }
    out.push_str("</table></div>\n</section>\n");
}

/// The fills of every period, the newest first; long ones are folded away.
fn trades(out: &mut String, history: &History) {
    out.push_str("<section>\n<h2>Trades</h2>\n");
    if let Some(ceiling) = history.ceiling() {
        let _ = writeln!(out, "<p class=\"span\">A fill costs at most {} in commission.</p>", money(ceiling));
    }
    if !history.account.settings().recording {
        let _ = writeln!(out, "<p class=\"span\">{NOT_RECORDED}</p>");
    }
    for (k, told) in history.periods.iter().rev().filter(|t| !t.fills.is_empty()).enumerate() {
        let cut = if told.trimmed > 0 { format!(", {} cut to the cash at hand", told.trimmed) } else { String::new() };
        let _ = writeln!(
            out,
            "<details{}>\n<summary>{}: {}{cut}</summary>",
            if k == 0 { " open" } else { "" },
            escaped(&told.label),
            count(told.fills.len(), "fill")
        );
        html::table(out, ["Symbol", "Shares", "Price", "Cost", "Cash after"], told.fills.iter().map(fill));
        out.push_str("</details>\n");
    }
    out.push_str("</section>\n");
}

fn fill(r: &ExecutionRecord) -> [String; 5] {
    let exit = if r.kind == ExecutionKind::StopExit { " <em>stop exit</em>" } else { "" };
    let symbol = escaped(&r.symbol.to_string()) + exit;
    [symbol, shares(r.quantity), money(r.price), money(r.cost), money(r.cash_after)]
}
