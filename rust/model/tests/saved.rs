//! A saved account: a run in two halves beside one run, and files that are none.

mod command;

use command::{place, said, stands_alone};
use std::path::PathBuf;
use std::process::Output;

const EXAMPLE: &str = include_str!("../example.txt");

/// A run whose last words name a saved account to begin from and one to save to, as far as they are given.
fn run(name: &str, text: &str, from: Option<&str>, save: Option<&str>) -> (Output, Option<String>) {
    let paths = [("--from", from), ("--save", save)];
    let words: Vec<String> = paths
        .iter()
        .filter_map(|(word, file)| file.map(|file| [word.to_string(), place(file).display().to_string()]))
        .flatten()
        .collect();
    let words: Vec<&str> = words.iter().map(String::as_str).collect();
    command::run(&[], name, Some(text), &words)
}

fn bytes(name: &str) -> Option<Vec<u8>> {
    std::fs::read(place(name)).ok()
}

fn fresh(name: &str) -> PathBuf {
    for ending in ["", ".history", ".history.new", ".new"] {
        let _ = std::fs::remove_file(place(&format!("{name}{ending}")));
    }
    place(name)
}

/// A text cut before a period; the second half keeps its lines' numbers.
fn halves(text: &str, period: &str) -> [String; 2] {
    let at = text.find(&format!("period {period}\n")).expect("a period of that label");
    [text[..at].to_string(), "\n".repeat(text[..at].lines().count()) + &text[at..]]
}

/// Runs a text whole, and in two halves over a saved account; both give the same page, account and history.
fn same_in_halves(name: &str, text: &str, period: &str) -> String {
    let [whole, half, again] = ["whole", "half", "again"].map(|which| format!("{name}-{which}.account"));
    [&whole, &half, &again].iter().for_each(|file| _ = fresh(file));
    let (out, page) = run(&format!("{name}-whole"), text, None, Some(&whole));
    let [first, second] = halves(text, period);
    run(&format!("{name}-first"), &first, None, Some(&half));
    let (last, continued) = run(&format!("{name}-second"), &second, Some(&half), Some(&again));
    assert!(page.is_some() && page == continued, "the same page: {}", said(&last));
    assert!(bytes(&whole).is_some() && bytes(&whole) == bytes(&again), "the same account");
    assert!(bytes(&half) != bytes(&again), "the second half counts");
    let [whole, again] = [whole, again].map(|file| bytes(&format!("{file}.history")));
    assert!(whole.is_some() && whole == again, "the same history");
    let summary =
        |out: &Output| said(out).split("\n\n").last().unwrap_or("").split("page: ").next().unwrap().to_owned();
    assert_eq!(summary(&out), summary(&last));
    page.unwrap()
}

#[test]
fn two_halves_give_the_page_of_one_run() {
    for period in ["2025-09-12", "2026-03-27", "2026-10-23"] {
        let page = same_in_halves(&format!("halves-{period}"), EXAMPLE, period);
        assert!(page.contains("60 periods") && page.contains("at opening"));
    }
}

/// Lines that do not count, fills of either kind, trims, a period without equity and a symbol that looks like a comment.
#[test]
fn what_did_not_count_is_told_in_the_second_half_too() {
    let text = "name Half & half\ncash 100.00\nmin_commission 0.10\nquantity_step 0.001\n\
                period one\nprices A 1.00 #B 2.00\ntargets A 2.0\nwhat\n\
                period two\nprices A 0.00\nclose B 1.00\n\
                period three\nprices A 1.10\nclose A\n\
                period four\nprices A 1.20\ntargets A -0.5\n\
                period five\nprices A 0.90 A 1.00\n\
                period six\nprices A 1.00\ntargets A 0.25\nnonsense\n";
    for period in ["two", "four", "six"] {
        let page = same_in_halves(&format!("mixed-{period}"), text, period);
        assert!(page.contains("<h2>5 entries do not count</h2>"), "{page}");
    }
}

#[test]
fn a_saved_account_alone_has_its_page() {
    let file = fresh("alone.account");
    let (_, page) = run("alone-run", EXAMPLE, None, Some("alone.account"));
    let (out, again) = command::run(&[], "alone", None, &["--from", &file.display().to_string()]);
    assert_eq!(out.status.code(), Some(0), "{}", said(&out));
    assert!(page.is_some() && page == again, "the page that was written with it");
    stands_alone(&page.unwrap());
    assert!(said(&out).starts_with(&format!("from {}: 60 periods, equity ", file.display())), "{}", said(&out));
}

#[test]
fn without_its_history_the_page_begins_at_the_account() {
    let file = fresh("bare.account");
    let [first, second] = halves(EXAMPLE, "2026-03-27");
    run("bare-first", &first, None, Some("bare.account"));
    let history = format!("{}.history", file.display());
    let kept = std::fs::read_to_string(&history).unwrap();
    std::fs::remove_file(&history).unwrap();
    let (out, page) = run("bare-second", &second, Some("bare.account"), Some("bare.account"));
    assert_eq!(out.status.code(), Some(0), "{}", said(&out));
    let page = page.unwrap();
    assert!(page.contains("in a saved account, before which nothing is shown or counts in a figure"));
    assert!(said(&out).contains(", without all its periods\n"), "{}", said(&out));
    let periods = second.matches("\nperiod ").count();
    assert!(said(&out).contains(&format!("Saved account: {periods} periods, {periods} returns")), "{}", said(&out));
    // What was saved then says so too, and is continued as it is.
    let (out, again) = command::run(&[], "bare-alone", None, &["--from", &file.display().to_string()]);
    assert_eq!((out.status.code(), again.as_ref()), (Some(0), Some(&page)), "{}", said(&out));
    // A history of another moment is another account's.
    std::fs::write(&history, kept).unwrap();
    let (out, page) = run("bare-other", "period x\n", Some("bare.account"), None);
    assert_eq!((out.status.code(), page), (Some(1), None));
    assert!(
        said(&out).contains(".history: it is not the history of the account in ") && out.stdout.is_empty(),
        "{}",
        said(&out)
    );
}

/// The most bytes that a file is read for: every number of ten groups, three rates among them, which are no sound account's.
fn most_numbers() -> Vec<u8> {
    let ten = |count: usize| [[0xff; 9].as_slice(), &[1]].concat().repeat(count);
    let position = [b"\x08SYMBOL00".to_vec(), ten(4)].concat();
    let settings = [vec![1], ten(1 + 4 + 1 + 3), vec![1], ten(1 + 1), vec![1, 1]].concat();
    let file = [settings, ten(4 + 1 + 2 + 1), vec![64], position.repeat(64)].concat();
    assert_eq!(file.len(), 3_331);
    file
}

#[test]
fn a_file_that_is_no_saved_account_is_told() {
    let file = fresh("bad.account");
    run("bad-run", EXAMPLE, None, Some("bad.account"));
    let good = bytes("bad.account").unwrap();
    // The last group of the cash, which begins after the form.
    let cash = 1 + good[1..].iter().position(|group| *group < 0x80).unwrap();
    assert!(cash > 1 && good.len() > 200);
    let longer = [&good[..cash], &[good[cash] | 0x80, 0], &good[cash + 1..]].concat();
    let left_over = format!("18: bytes of the file are left over, from byte {} on; it is damaged", good.len());
    let unsound = "11: the account is not sound; it is damaged, or of a form that is not known here";
    for (name, damaged, why) in [
        ("cut", good[..200].to_vec(), "16: the file ends early, at byte 200; a part of it was lost"),
        ("empty", Vec::new(), "16: the file ends early, at byte 0; a part of it was lost"),
        (
            "longer",
            longer,
            "17: a number of the file is not in its shortest form, or too large, at byte 1; it is damaged, or no saved account",
        ),
        ("added", [&good[..], b"\n\n"].concat(), left_over.as_str()),
        ("form", [&[9], &good[1..]].concat(), unsound),
        ("text", EXAMPLE.into(), unsound),
        ("most", most_numbers(), unsound),
        ("more", [most_numbers(), vec![0; 9_000]].concat(), "18: bytes of the file are left over, from byte 3331 on;"),
        ("less", most_numbers()[..3_330].to_vec(), "16: the file ends early, at byte 3330;"),
    ] {
        std::fs::write(&file, &damaged).unwrap();
        let (out, page) = run(&format!("bad-{name}"), "period x\n", Some("bad.account"), Some("bad.account"));
        assert_eq!((out.status.code(), page), (Some(1), None), "{name}");
        let told = format!("{}: the saved account was refused, {why}", file.display());
        assert!(said(&out).starts_with(&told), "{name}: {}", said(&out));
        assert!(said(&out).ends_with("nothing is run or written\n") && out.stdout.is_empty(), "{}", said(&out));
        assert_eq!(bytes("bad.account"), Some(damaged), "{name}: as found");
    }
    std::fs::write(&file, &good).unwrap();
    let history = format!("{}.history", file.display());
    std::fs::write(&history, "threshcoil history 1\nname A\nopening ten\n").unwrap();
    let (out, page) = run("bad-history", "period x\n", Some("bad.account"), None);
    assert_eq!((out.status.code(), page), (Some(1), None));
    assert!(
        said(&out).starts_with(&format!("{history}:3: the line can't be read; without that file")),
        "{}",
        said(&out)
    );
    let (out, _) = run("bad-missing", "period x\n", Some("no such account"), None);
    assert_eq!(out.status.code(), Some(2));
    assert!(said(&out).contains("no such account: "), "{}", said(&out));
}

#[test]
fn a_saved_account_keeps_its_settings() {
    fresh("kept.account");
    run("kept-run", EXAMPLE, None, Some("kept.account"));
    let (out, page) = run("kept", "cash 1.00\nperiod x\n", Some("kept.account"), None);
    assert_eq!((out.status.code(), page), (Some(1), None));
    assert!(said(&out).contains(":1: 'cash' is a setting, and the saved account has its own\n"), "{}", said(&out));
}

/// An account that was saved elsewhere need not record; a run says so and leaves that as it is.
#[test]
fn an_account_that_does_not_record_says_so() {
    let file = fresh("silent.account");
    run("silent-run", "cash 10.00\nperiod x\nprices A 1.00\n", None, Some("silent.account"));
    let mut bytes = bytes("silent.account").unwrap();
    // The form, the cash, four amounts, the step of 1,000,000, three rates, no cap and no ceiling stand before it.
    let at = 1 + 2 + 4 + 3 + 3 + 2;
    assert_eq!(bytes[at..at + 2], [1, 0]);
    bytes[at] = 0;
    std::fs::write(&file, bytes).unwrap();
    std::fs::remove_file(format!("{}.history", file.display())).unwrap();
    let text = "period y\nprices A 1.00\ntargets A 0.5\n";
    let (out, page) = run("silent", text, Some("silent.account"), Some("silent.account"));
    assert_eq!(out.status.code(), Some(0), "{}", said(&out));
    assert!(said(&out).contains("Recording is off in this account") && !said(&out).contains("buy"), "{}", said(&out));
    assert!(page.unwrap().contains("Recording is off in this account: its fills are not listed."));
    assert_eq!(std::fs::read(&file).unwrap()[at], 0);
}

/// Counts that no series of a run could have: the period is refused, and nothing is allocated for them.
#[test]
fn a_count_that_is_none_is_refused() {
    let file = fresh("counts.account");
    run("counts-run", "cash 1.00\nperiod x\nprices A 1.00\n", None, Some("counts.account"));
    std::fs::remove_file(format!("{}.history", file.display())).unwrap();
    let mut bytes = bytes("counts.account").unwrap();
    // Nothing is traded: the equity count of 2, the return count of 1, the equity of 100 cents and no position stand at the end.
    assert_eq!(bytes[bytes.len() - 5..], [2, 1, 0xc8, 0x01, 0]);
    let at = bytes.len() - 5;
    bytes.splice(at..at + 1, [[0xff; 9].as_slice(), &[1]].concat());
    std::fs::write(&file, bytes).unwrap();
    let (out, page) = run("counts", "period x\nprices A 1.00\n", Some("counts.account"), None);
    assert_eq!(out.status.code(), Some(1));
    assert!(page.unwrap().contains(", line 1: the period's return was refused, 10: "), "{}", said(&out));
}

#[test]
fn the_account_is_saved_though_nobody_reads_the_output() {
    let [heard, unheard] = ["heard.account", "unheard.account"].map(fresh);
    run("heard-saved", EXAMPLE, None, Some("heard.account"));
    let (status, page) = command::unheard(&["--save", &unheard.display().to_string()], "unheard-saved");
    assert!(status == Some(0) && page.is_some());
    assert!(heard.exists() && bytes("heard.account") == bytes("unheard.account"));
}

#[test]
fn a_group_has_no_saved_account() {
    for word in ["--from", "--save"] {
        let (out, _) = command::run(&["house"], "house-saved", None, &[word, "x"]);
        assert_eq!(out.status.code(), Some(2));
        assert!(said(&out).contains(&format!("'{word}' is not known")));
        let (out, _) = command::run(&[], "no-file", None, &[word]);
        assert_eq!(out.status.code(), Some(2));
        assert!(said(&out).contains(&format!("{word} names a file")));
    }
}

/// What is no file is not replaced, and then nothing is written beside it either; a link goes on leading where it did.
#[cfg(unix)]
#[test]
fn only_a_file_is_replaced() {
    let folder = fresh("no-file.account");
    std::fs::create_dir_all(&folder).unwrap();
    let (out, _) = run("no-file", EXAMPLE, None, Some("no-file.account"));
    assert!(!out.status.success() && said(&out).contains("it is no file that could be replaced"), "{}", said(&out));
    assert!(folder.is_dir() && bytes("no-file.account.history").is_none());
    std::fs::remove_dir(&folder).unwrap();

    let (target, link) = (fresh("linked.account"), fresh("link.account"));
    std::fs::write(&target, b"").unwrap();
    std::os::unix::fs::symlink(&target, &link).unwrap();
    run("link", EXAMPLE, None, Some("link.account"));
    assert!(link.is_symlink() && bytes("linked.account").is_some_and(|file| file[0] == 1));
}

/// A run that was stopped is run again from where it began, so its account stays as it was.
#[test]
fn a_stopped_run_is_not_saved() {
    let file = fresh("stopped.account");
    run("stopped-before", "cash 10.00\nperiod x\nprices A 1.00\n", None, Some("stopped.account"));
    let before = (bytes("stopped.account"), bytes("stopped.account.history"));
    let text = "period y\nprices A 1.00\ntargets A 0.5\nperiod z\nprices A 0.00\n";
    let path = file.display().to_string();
    let (out, _) = command::run(&[], "stopped", Some(text), &["--from", &path, "--save", &path, "--stop"]);
    assert_eq!(out.status.code(), Some(1));
    assert!(said(&out).contains(&format!("the run was stopped, so {path} is not written")), "{}", said(&out));
    assert!(before.0.is_some() && before == (bytes("stopped.account"), bytes("stopped.account.history")));
}

/// Where one of the two files can't be written, both stay as they were, and nothing is left beside them.
#[test]
fn account_and_history_are_replaced_together() {
    let file = fresh("pair.account");
    run("pair-before", "cash 10.00\nperiod x\nprices A 1.00\n", None, Some("pair.account"));
    let before = (bytes("pair.account"), bytes("pair.account.history"));
    let blocked = format!("{}.new", file.display());
    std::fs::create_dir_all(&blocked).unwrap();
    let (out, _) = run("pair", "period y\nprices A 2.00\n", Some("pair.account"), Some("pair.account"));
    std::fs::remove_dir(&blocked).unwrap();
    assert_eq!(out.status.code(), Some(2), "{}", said(&out));
    assert!(before.0.is_some() && before == (bytes("pair.account"), bytes("pair.account.history")));
    assert!(!place("pair.account.history.new").exists());
}

/// Two accounts may count the same; a history is one account's.
#[test]
fn another_accounts_history_is_not_taken() {
    let [mine, other] = ["mine.account", "other.account"].map(fresh);
    for (name, floor) in [("mine", "0.10"), ("other", "0.20")] {
        let text = format!("cash 10.00\nmin_commission {floor}\nperiod x\nprices A 1.00\n");
        run(&format!("{name}-run"), &text, None, Some(&format!("{name}.account")));
    }
    std::fs::copy(format!("{}.history", other.display()), format!("{}.history", mine.display())).unwrap();
    let (out, page) = run("mine", "period y\n", Some("mine.account"), None);
    assert_eq!((out.status.code(), page), (Some(1), None));
    assert!(said(&out).contains("it is not the history of the account in "), "{}", said(&out));
}

#[test]
fn what_is_named_twice_is_not_run() {
    for words in [["--from", "a", "--from", "b"], ["--save", "a", "--save", "b"], ["--save", "a", "--page", "a"]] {
        let (out, page) = command::run(&[], "twice", None, &words);
        assert_eq!((out.status.code(), page), (Some(2), None), "{words:?}");
    }
}
