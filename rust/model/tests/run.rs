//! The command as it is run: the built-in example, files with bad lines, and where it stops.

mod command;

use command::{place, said, stands_alone};
use std::process::{Command, Output};

/// A run by its name, the text of its file (none: the built-in example) and further words; and its page, if it wrote one.
fn model(name: &str, text: Option<&str>, more: &[&str]) -> (Output, Option<String>) {
    command::run(&[], name, text, more)
}

const BOX: &str = "<section class=\"left-out\">";

#[test]
fn the_example_runs_to_its_end() {
    let (out, page) = model("example", None, &[]);
    assert_eq!(out.status.code(), Some(0));
    let said = said(&out);
    assert_eq!(said.matches("  equity ").count(), 60);
    for expected in ["cut down to the cash at hand", "stop exit", "60 periods, 60 returns", ", cost 10.00\n"] {
        assert!(said.contains(expected), "{expected}");
    }
    let page = page.unwrap();
    stands_alone(&page);
    for shown in ["<h2>Equity", "<h2>Drawdown", "<h2>Holdings", "<h2>Trades", "Kelly fraction"] {
        assert!(page.contains(shown), "{shown}");
    }
    assert!(!page.contains(BOX));
}

#[test]
fn what_the_feed_lost_is_told_and_the_account_stays() {
    let example = include_str!("../example.txt");
    let lost = example.replacen("INDIGO 151.02", "INDIGO 0.00", 1).replacen("close EMBER", "close LUMEN", 1);
    let line_of = |text: &str| 1 + lost.lines().position(|l| l.contains(text)).unwrap();
    let (out, page) = model("lost", Some(&lost), &[]);
    assert_eq!(out.status.code(), Some(1));
    let (said, page) = (said(&out), page.unwrap());
    for (line, why) in [
        (line_of("INDIGO 0.00"), "price 8 (`INDIGO`): a price is below 1; the period's return was refused, 4"),
        (line_of("close LUMEN"), "the close of LUMEN was refused, 9: a close names an absent or flat position"),
    ] {
        assert!(said.contains(&format!(":{line}: {why}")), "{said}");
        assert!(page.contains(&format!(", line {line}: {why}</li>")), "{why}");
    }
    assert!(page.contains("<h2>2 entries do not count</h2>"));
    assert!(said.contains("60 periods, 59 returns"), "{said}");
}

const BAD: &str =
    "cash 1000.00\nperiod one\nprices A 1.00 A 2.00\ntargets A 0.5\nperiod two\nprices A 1.00\nwhat is <this>\n";

#[test]
fn a_bad_line_is_told_with_its_number_and_the_run_goes_on() {
    let (out, page) = model("bad", Some(BAD), &[]);
    assert_eq!(out.status.code(), Some(1));
    let said = said(&out);
    let twice = "price 1 (`A`): a symbol stands twice in one list; the rebalance was refused, 3";
    assert!(said.contains(&format!(":3: {twice}\n")), "{said}");
    assert!(said.contains(":7: 'what' is neither"), "{said}");
    assert!(said.contains("two\n  equity 1,000.00"), "{said}");
    let page = page.unwrap();
    let listed: Vec<&str> = page.lines().filter(|l| l.starts_with("<li>")).collect();
    assert_eq!(listed.len(), 3, "{listed:?}");
    assert_eq!(listed[0], format!("<li>one, line 3: {twice}</li>"));
    assert!(listed[2].starts_with("<li>line 7: 'what' is neither"), "{listed:?}");
    assert!(page.find(BOX) < page.find("<h2>Equity"), "the box stands above the curves");
}

/// Lists on several lines each, and what a change of the file is refused for, on which line.
#[test]
fn a_refused_entry_is_told_on_its_line() {
    let lists = "cash 100.00\nperiod one\nprices A 1.00 B 1.00\nprices C 1.00 D 1.00\nprices E 1.00\n\
                 targets A 0.1 B 0.1\ntargets C 0.1\ntargets D 0.1 E 0.1\n";
    let (out, page) = model("entry-none", Some(lists), &[]);
    assert!(out.status.success() && !page.unwrap().contains(BOX), "{}", said(&out));
    let (rebalance, both) = (&["the rebalance"][..], &["the rebalance", "the period's return"][..]);
    for (name, from, to, line, entry, number, refused) in [
        ("price", "D 1.00", "D 0.00", 4, "price 3 (`D`): a price is below 1", 4, both),
        ("prices", "C 1.00 D 1.00", "C -1.00 D 0", 4, "price 2 (`C`): a price is below 1", 4, both),
        ("symbol", "E 1.00", "\u{dc}&\u{202e} 1.00", 5, "price 4 (`\u{dc}&\\u{202e}`): a symbol is bad", 2, both),
        ("first", "A 1.00 B", "\u{1b}[1m 1.00 B", 3, "price 0 (`\\u{1b}[1m`): a symbol is bad", 2, both),
        ("twice", "C 1.00 D", "B 1.00 B", 4, "price 2 (`B`): a symbol stands twice in one list", 3, both),
        ("pairs", "C 1.00 D 1.00\nprices E", "B 1.00 X 1.00\nprices A", 4, "price 2 (`B`): a symbol stands", 3, both),
        ("target", "C 0.1", "\u{dc} 0.1", 7, "target 2 (`\u{dc}`): a symbol is bad", 2, rebalance),
        ("targets", "E 0.1", "A 0.1", 8, "target 4 (`A`): a symbol stands twice in one list", 3, rebalance),
        (
            "before",
            "E 1.00\ntargets A 0.1 B",
            "\u{dc} 1.00\ntargets A 0.1 A",
            5,
            "price 4 (`\u{dc}`): a symbol is",
            2,
            both,
        ),
    ] {
        assert!(lists.contains(from), "{name}");
        let (out, page) = model(&format!("entry-{name}"), Some(&lists.replacen(from, to, 1)), &[]);
        assert_eq!(out.status.code(), Some(1), "{name}");
        let (said, page) = (said(&out), page.unwrap());
        let told: Vec<&str> = said.lines().filter(|l| l.contains(".txt:")).collect();
        let listed: Vec<&str> = page.lines().filter(|l| l.starts_with("<li>")).collect();
        assert_eq!((told.len(), listed.len()), (refused.len(), refused.len()), "{name}: {said}");
        for ((what, told), listed) in refused.iter().zip(told).zip(listed) {
            let end = format!("; {what} was refused, {number}");
            assert!(told.contains(&format!(".txt:{line}: {entry}")) && told.ends_with(&end), "{name}: {told}");
            let entry = entry.replace('&', "&amp;");
            assert!(listed.starts_with(&format!("<li>one, line {line}: {entry}")), "{name}: {listed}");
            assert!(listed.ends_with(&format!("{end}</li>")), "{name}: {listed}");
        }
        assert!(!said.contains(['\u{1b}', '\u{202e}']) && !page.contains(['\u{1b}', '\u{202e}']), "{name}");
    }
}

/// A refusal that tells no entry stands at a line that is refused for the same by itself, whatever a line before it would be refused for.
#[test]
fn a_refusal_without_an_entry_is_told_at_a_line_of_its_kind() {
    let many = |word: &str, from: usize, to: usize| {
        (from..to)
            .fold(word.to_string(), |line, k| format!("{line} S{k} {}", if word == "prices" { "1.00" } else { "0.01" }))
    };
    let opened = |lines: &[&str]| format!("cash 100.00\nperiod one\n{}\n", lines.join("\n"));
    let [all, half, rest] = [(0, 66), (0, 33), (33, 66)].map(|(from, to)| many("targets", from, to));
    let [much, a, b, c] = [(0, 129), (0, 43), (43, 86), (86, 129)].map(|(from, to)| many("prices", from, to));
    let zero = a.replacen("1.00", "0.00", 1);
    let (rebalance, both) = ("the rebalance", "the period's return");
    for (name, lines, told) in [
        ("targets", &["prices A 1.00 B 0.00", &half, &rest][..], &[(4, 6, rebalance), (3, 4, both)][..]),
        ("one-line", &["prices A 1.00 B 0.00", "targets A 0.5", &all], &[(5, 6, rebalance), (3, 4, both)]),
        ("prices", &[&zero, &b, &c, "targets A 0.5"], &[(6, 6, rebalance), (2, 6, both)]),
        ("all-prices", &[&zero, &much, "targets A 0.5"], &[(4, 6, rebalance), (4, 6, both)]),
        ("weight", &["prices A 1.00 B 0.00", "targets A 0.5", "targets B inf"], &[(5, 5, rebalance), (3, 4, both)]),
    ] {
        let (out, _) = model(&format!("kind-{name}"), Some(&opened(lines)), &[]);
        assert_eq!(out.status.code(), Some(1), "{name}");
        let said = said(&out);
        let lines: Vec<&str> = said.lines().filter(|l| l.contains(".txt:")).collect();
        assert_eq!(lines.len(), told.len(), "{name}: {said}");
        for (line, (at, number, what)) in lines.iter().zip(told) {
            let refused = format!("{what} was refused, {number}");
            assert!(line.contains(&format!(".txt:{at}: ")) && line.contains(&refused), "{name}: {line}");
        }
    }
}

#[test]
fn a_period_is_not_half_read() {
    let text = "cash 100.00\nperiod one\nprices A 1.00\nprices B 1.00\ntargets A 0.5\ntargets B 0.5\n\
                period two\nprices A 1.00\nprices B 1.00\ntargets A 0.5\ntargets B half\n\
                period three\nprices A 1.00\nprices B 1,00\ntargets A 0.5\ntargets B 0.5\n\
                period four\nprices A 1.00\nprices B 1.00\n";
    let (out, page) = model("half", Some(text), &[]);
    assert_eq!(out.status.code(), Some(1));
    let said = said(&out);
    assert!(
        said.contains("two\n  equity 100.00 (0.00%)\nthree\n  no equity for this period\nfour\n  equity 100.00"),
        "{said}"
    );
    assert!(said.contains(":11: 'half' is no number, so the period has no rebalance\n"), "{said}");
    assert!(page.unwrap().contains("so the period has no rebalance and no equity</li>"));
}

#[test]
fn a_long_list_is_folded() {
    let (_, page) = model("long", Some(&("cash 1.00\nperiod one\n".to_string() + &"nonsense\n".repeat(50))), &[]);
    let page = page.unwrap();
    assert!(page.contains("50 entries do not count") && page.contains("<summary>42 more</summary>"));
}

#[test]
fn a_run_stops_where_asked() {
    let stops = BAD.replace("what is <this>\n", "");
    let (out, page) = model("stop", Some(&stops), &["--stop"]);
    assert_eq!(out.status.code(), Some(1));
    assert!(!said(&out).contains("\ntwo\n"));
    assert!(page.unwrap().contains("The run stopped there."));
    let (out, page) = model("unread", Some(BAD), &["--stop"]);
    assert_eq!(out.status.code(), Some(1));
    assert!(!said(&out).contains("equity") && page.is_none());
}

#[test]
fn an_opening_that_cannot_be_read_runs_nothing() {
    for (name, bad, line) in [
        ("cash", "cash abc\nperiod one\nprices A 1.00\n", 1),
        ("word", "cash 10.00\ncahs 10.00\nperiod one\n", 2),
        ("setting", "cash 10.00\ncommission_bps few\nperiod one\n", 2),
        ("ceiling", "cash 10.00\nmin_commission 1.00\nmax_commission none\nperiod one\n", 3),
        ("late", "cash 10.00\nperiod one\nprices A 1.00\ncash_first on\n", 4),
    ] {
        let (out, page) = model(&format!("opening-{name}"), Some(bad), &[]);
        assert_eq!(out.status.code(), Some(1), "{name}");
        assert!(out.stdout.is_empty() && page.is_none(), "{name}: {}", said(&out));
        assert!(said(&out).contains(&format!(".txt:{line}: ")), "{name}: {}", said(&out));
    }
}

#[test]
fn a_refused_opening_and_a_missing_file_are_told() {
    let pair = ": max_commission is below min_commission";
    for (name, bad, line, more) in [
        ("cash", "name Bad\ncash -10.00\nslippage_bps 1\n", 2, ""),
        ("slippage", "cash 10.00\nslippage_bps 10001\ncommission_bps 1\n", 2, ""),
        ("below", "cash 10.00\nmax_commission -0.01\n", 2, pair),
        ("ceiling-after", "min_commission 5.00\ncash 10.00\nmax_commission 4.99\n", 3, pair),
        ("ceiling-before", "max_commission 4.99\nmin_commission 5.00\ncash 10.00\n", 2, pair),
        ("ceiling-mended", "max_commission 4.99\nmin_commission 5.00\nmax_commission 5.00\ncash -10.00\n", 4, ""),
        ("ceiling-none", "cash -10.00\nmin_commission 5.00\nmax_commission 0\n", 1, ""),
        ("ceiling-later", "cash -10.00\nmin_commission 5.00\nmax_commission 4.99\n", 1, ""),
    ] {
        let (out, page) = model(&format!("refused-{name}"), Some(bad), &[]);
        assert_eq!(out.status.code(), Some(1), "{name}");
        let told = format!(".txt:{line}: the opening was refused, 1: a setting or opening cash is bad{more}\n");
        assert!(said(&out).contains(&told), "{name}: {}", said(&out));
        assert!(out.stdout.is_empty() && page.is_none(), "{name}");
    }
    let out = Command::new(env!("CARGO_BIN_EXE_model")).arg(place("no such file")).output().unwrap();
    assert_eq!(out.status.code(), Some(2));
}

#[test]
fn a_close_without_a_price_says_so() {
    let text =
        "cash 10.00\nperiod one\nprices A 1.00\ntargets A 0.5\nperiod two\nprices B 1.00\nclose A\nclose A 0.00\n";
    let (out, page) = model("unpriced", Some(text), &[]);
    assert_eq!(out.status.code(), Some(1));
    let said = said(&out);
    assert!(
        said.contains(":7: the close of A has no price: the period lists none, nor does the line give one"),
        "{said}"
    );
    assert!(said.contains(":8: the close of A was refused, 4: a price is below 1"), "{said}");
    assert!(said.contains(":5: A is held and the period has no price of it: it counts 0"), "{said}");
    let page = page.unwrap();
    for shown in
        ["<li>two, line 7: the close of A has no price:", "<li>two, line 5: A is held and the period has no price"]
    {
        assert!(page.contains(shown), "{shown}");
    }
}

/// Document 02's case of request 1: the sale below the floor waits for the one that pays for it.
#[test]
fn cash_first_runs_what_lowers_no_cash_first() {
    let text = "cash 0.65\nmin_commission 0.15\ncash_first on\nperiod one\nprices A 0.10 B 0.25\n\
                targets A 0.16 B 0.39\nperiod two\nprices A 0.10 B 0.25\ntargets\n";
    let (out, _) = model("cash-first", Some(text), &[]);
    assert_eq!(out.status.code(), Some(0));
    let said = said(&out);
    let fills: Vec<&str> = said.lines().filter(|l| l.starts_with("  sell ") || l.starts_with("  buy ")).collect();
    let first = |line: &str| line.split_whitespace().take(2).collect::<Vec<_>>().join(" ");
    assert_eq!(fills.iter().map(|l| first(l)).collect::<Vec<_>>(), ["buy A", "buy B", "sell B", "sell A"], "{said}");
    assert!(said.lines().any(|l| l.split_whitespace().eq(["Cash", "0.05"])), "{said}");
}

/// Of 1,000.50 in all 100 shares at 10.00 are wanted. With a commission of 1.00 only 99 fit, for 990.00 and 0.99; with at most 0.50 all fit.
#[test]
fn a_ceiling_caps_the_commission_and_is_shown() {
    let text =
        "cash 1000.50\ncommission_bps 10\nmin_commission 0.50\nCEILING\nperiod one\nprices A 10.00\ntargets A 1.0\n";
    let summed = |said: &str, row: &[&str]| said.lines().any(|l| l.split_whitespace().eq(row.iter().copied()));
    for (name, line) in [("not-given", ""), ("zero", "max_commission 0")] {
        let (out, page) = model(&format!("ceiling-{name}"), Some(&text.replace("CEILING", line)), &[]);
        let (said, page) = (said(&out), page.unwrap());
        assert_eq!(out.status.code(), Some(0), "{said}");
        assert!(said.contains(", cost 0.99\n  1 cut down to the cash at hand\n"), "{said}");
        assert!(summed(&said, &["Cash", "9.51"]) && !said.contains("Commission ceiling"), "{said}");
        assert!(!page.contains("in commission"));
    }
    let (out, page) = model("ceiling", Some(&text.replace("CEILING", "max_commission 0.50")), &[]);
    let (said, page) = (said(&out), page.unwrap());
    assert_eq!(out.status.code(), Some(0), "{said}");
    assert!(said.contains(", cost 0.50\n") && !said.contains("cut down"), "{said}");
    assert!(summed(&said, &["Commission", "ceiling", "0.50"]) && summed(&said, &["Cash", "0.00"]), "{said}");
    assert!(page.contains("A fill costs at most 0.50 in commission."));
}

#[test]
fn a_symbol_is_shown_as_it_is() {
    let text =
        "cash 10.00\nperiod one\nprices A&B\"' 1.00 \\<C> 1.00\ntargets A&B\"' 0.5 \\<C> 0.25\nclose \u{dc}X 1.00\n";
    let (out, page) = model("symbol", Some(text), &[]);
    let said = said(&out);
    for shown in ["buy  A&B\"' ", "buy  \\<C> ", "the close of \u{dc}X was refused, 2: a symbol is bad"] {
        assert!(said.contains(shown), "{said}");
    }
    let page = page.unwrap();
    for shown in ["<td>A&amp;B&quot;'</td>", "<td>\\&lt;C&gt;</td>"] {
        assert!(page.contains(shown), "{shown}");
    }
}

/// Of a symbol that is too long for the library, of every other word that is told, of labels and of the name.
#[test]
fn no_word_of_a_file_is_a_command_to_the_terminal() {
    let hidden = ['\u{1b}', '\u{202e}', '\u{2066}', '\0'];
    let words = "name N\u{202e}\ncash 10.00\nperiod one\u{1b}[2J\nprices LONG\u{1b}[1mNAME 1.00\nprices A \u{202e}1.00\n\
                 targets \u{2066}LONGNAME 0.5\ntargets A x\u{1b}\ntargets A 1 B\u{1b}\nclose B\0\nclose \u{1b}[1mLONGER\n\u{1b}c A\n";
    let (out, page) = model("command", Some(words), &[]);
    assert_eq!(out.status.code(), Some(1));
    let (said, page) = (said(&out), page.unwrap());
    assert!(!said.contains(hidden) && !page.contains(hidden), "{}", said.escape_debug());
    for (line, shown) in [
        (4, "'LONG\\u{1b}[1mNAME' has more than the eight bytes"),
        (5, "'\\u{202e}1.00' is no number"),
        (6, "'\\u{2066}LONGNAME' has more"),
        (7, "'x\\u{1b}' is no number"),
        (8, "'B\\u{1b}' stands without"),
        (9, "'B\\0' ends in a zero byte"),
        (10, "'\\u{1b}[1mLONGER' has more"),
        (11, "'\\u{1b}c' is neither"),
    ] {
        assert!(said.contains(&format!(".txt:{line}: {shown}")), "{shown}: {said}");
        assert!(page.contains(&format!("<li>line {line}: {shown}")), "{shown}: {page}");
    }
    assert!(said.contains("one\\u{1b}[2J\n") && said.contains("N\\u{202e}: 1 periods"), "{said}");
    for opening in ["cash \u{1b}[1m", "\u{1b}[1m 1", "max_trades \u{202e}", "cash_first \u{202e}"] {
        let (out, _) = model("command-opening", Some(opening), &[]);
        assert!(out.status.code() == Some(1) && !command::said(&out).contains(hidden), "{}", opening.escape_debug());
    }
}

/// A file in Latin-1: its lines are told as such, and nothing of them is run; a label and what stands after # need no reading.
#[test]
fn bytes_that_are_no_text_are_told_as_such() {
    let text = b"cash 10.00\nperiod Z\xfcrich\nprices A 1.00 \xdc\xdc\xdc\xdc\xdc\xdc\xdc\xdc 1.00\ntargets A 0.5\n\
                 period two # \xfc\nprices A 1.00\ntargets A 0.5 \xdc 0.5\nclose B\xfc 1.00\n";
    let (file, page) = (place("latin.txt"), place("latin.html"));
    let _ = std::fs::remove_file(&page);
    std::fs::write(&file, text).unwrap();
    let out = Command::new(env!("CARGO_BIN_EXE_model")).arg(file).arg("--page").arg(&page).output().unwrap();
    assert_eq!(out.status.code(), Some(1));
    let (said, page) = (said(&out), std::fs::read_to_string(page).unwrap());
    let lost = "in the place of bytes that are no UTF-8 text";
    for (line, shown) in [(3, "\u{fffd}".repeat(8)), (7, "\u{fffd}".into()), (8, "B\u{fffd}".into())] {
        let told = format!("{line}: '{shown}' has \u{fffd} {lost}");
        assert!(said.contains(&format!(".txt:{told}")) && page.contains(&format!("<li>line {told}")), "{told}: {said}");
    }
    assert!(!said.contains("more than the eight bytes") && !said.contains("  buy "), "{said}");
    assert!(said.contains("Z\u{fffd}rich\n  no equity for this period\ntwo\n  equity 10.00"), "{said}");
}

#[test]
fn the_page_is_written_though_nobody_reads_the_output() {
    let (_, page) = model("heard", None, &[]);
    assert!(page.is_some());
    assert_eq!(command::unheard(&[], "unheard"), (Some(0), page));
}

#[test]
fn help_is_no_fault() {
    for word in ["--help", "-h"] {
        let (out, page) = model("help", None, &[word]);
        assert_eq!(out.status.code(), Some(0));
        assert!(said(&out).starts_with("usage: tools/threshcoil ") && page.is_none());
    }
    let (out, _) = model("unknown", None, &["--hlep"]);
    assert_eq!(out.status.code(), Some(2));
    assert!(said(&out).contains("'--hlep' is not known\nusage: "));
}
