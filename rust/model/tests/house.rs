//! The house command as it is run: the built-in example, files with bad lines, and what the library refuses.

mod command;

use command::{place, said, stands_alone};
use std::process::{Command, Output};

fn house(name: &str, text: Option<&str>, more: &[&str]) -> (Output, Option<String>) {
    command::run(&["house"], &format!("house-{name}"), text, more)
}

/// Whether a line has these words, whatever stands between them.
fn row(said: &str, words: &str) -> bool {
    said.lines().any(|line| line.split_whitespace().eq(words.split_whitespace()))
}

/// A run that must end with status 1, with nothing on the standard output and without a page; what it says.
fn refused(name: &str, text: &str) -> String {
    let (out, page) = house(name, Some(text), &[]);
    let said = said(&out);
    assert_eq!(out.status.code(), Some(1), "{name}: {said}");
    assert!(out.stdout.is_empty() && page.is_none(), "{name}: {said}");
    assert!(said.ends_with("\nthreshcoil: nothing is run or written\n"), "{name}: {said}");
    said
}

/// The numbers were worked out apart from the library, in exact fractions: 269,527.30 over six parts, of which the flagship's
/// 2.01 % carries the most; the trial account, a few hundred of 13 millions, lifts the average of five returns to 22.44 %.
#[test]
fn the_example_shows_what_a_trial_account_does_to_an_average() {
    let (out, page) = house("example", None, &[]);
    let said = said(&out);
    assert_eq!(out.status.code(), Some(0), "{said}");
    assert!(said.contains("  House return                       1.81%   0.01805980618267"), "{said}");
    assert!(said.contains("  Average of account returns        22.44%   as the page showed it before"), "{said}");
    for words in [
        "2026-01 0.54% 72,203.00 13,300,300.00 4 of 5",
        "2026-02 to the 13th -0.23% -31,103.80 13,372,503.00 4 of 5",
        "2026-02 from the 13th 0.41% 62,719.55 15,341,399.20 4 of 5",
        "2026-03 0.42% 61,902.35 14,614,818.75 3 of 5",
        "2026-04 -0.25% -39,412.20 15,901,721.10 4 of 5",
        "2026-05 0.90% 143,218.40 15,862,308.90 4 of 5",
        "All 1.81% 269,527.30",
        "2026-03 leaves out Heritage, Growth, absent at one end.",
        "Flagship 2.01% 231,900.00 6 of 6",
        "Income 1.41% 35,100.00 6 of 6",
        "Heritage -1.34% -10,700.00 3 of 6",
        "Growth 1.03% 12,900.00 2 of 6",
        "Trial 109.10% 327.30 6 of 6",
        "Group 1.81% 269,527.30",
    ] {
        assert!(row(&said, words), "{words}: {said}");
    }
    let page = page.unwrap();
    stands_alone(&page);
    for shown in [
        "<span>House return</span><p class=\"equity\">1.81%</p>",
        "<span>Average of account returns</span><p class=\"equity\">22.44%</p>",
        "2026-01 to 2026-05, 6 parts, 5 accounts",
        "<td>2026-03</td><td>0.42%</td><td>61,902.35</td><td>14,614,818.75</td><td>3 of 5</td>",
        "<td>Trial</td><td>109.10%</td><td>327.30</td><td>6 of 6</td>",
        "<p class=\"none\">2026-03 leaves out Heritage, Growth, absent at one end.</p>",
    ] {
        assert!(page.contains(shown), "{shown}");
    }
    let bars = |side: &str| page.matches(&format!("<i class=\"{side}\" style=\"width:")).count();
    assert_eq!((bars("gain"), bars("loss")), (4, 1), "about a zero line");
    // 10,700.00 of 242,600.00 lies to the left of the line.
    assert!(page.contains("style=\"--zero:4.41%\"") && page.contains("<i class=\"loss\" style=\"width:4.41%\">"));
}

#[test]
fn the_page_is_written_though_nobody_reads_the_output() {
    let (_, page) = house("heard", None, &[]);
    assert!(page.is_some());
    assert_eq!(command::unheard(&["house"], "house-unheard"), (Some(0), page));
}

#[test]
fn the_example_is_a_file_to_begin_from() {
    let (out, page) = house("words", None, &["--example"]);
    let example = include_str!("../house-example.txt");
    assert_eq!((out.status.code(), said(&out).as_str(), page), (Some(0), example, None));
    let (built_in, _) = house("words", None, &[]);
    let (file, _) = house("words", Some(example), &[]);
    assert_eq!(said(&built_in), said(&file));
}

const GOOD: &str = "accounts A B\npart one\nA 1.00 2.00\nB 3.00 2.00\n";

/// Each by itself in a good file, and its line.
#[test]
fn a_bad_line_is_told_with_its_number_and_nothing_is_written() {
    refused("two", &format!("{GOOD}C 1 2\nA 1.00 2.00\n"));
    for (name, text, line, why) in [
        (
            "word",
            "acounts A B\n".to_string() + GOOD,
            1,
            "'acounts' is neither name, accounts nor part, and no part has begun",
        ),
        ("stranger", GOOD.to_string() + "part two\nC 1.00 2.00\n", 6, "'C' is neither part nor one of the accounts"),
        (
            "early",
            "A 1.00 2.00\n".to_string() + GOOD,
            1,
            "'A' is neither name, accounts nor part, and no part has begun",
        ),
        ("twice", "accounts B\n".to_string() + GOOD, 2, "'B' stands twice among the accounts"),
        ("none", "accounts # A\n".to_string() + GOOD, 1, "no account is named"),
        ("no-name", "name # A\n".to_string() + GOOD, 1, "'name' names nothing"),
        ("two-names", "name A\nname A\n".to_string() + GOOD, 2, "the house has a name already, on line 1"),
        (
            "reserved",
            "accounts part\n".to_string() + GOOD,
            1,
            "'part' begins a line of another kind, so no account has that name",
        ),
        ("late", GOOD.to_string() + "accounts C\n", 5, "'accounts' comes before the first part"),
        ("late-name", GOOD.to_string() + "name C\n", 5, "'name' comes before the first part"),
        ("label", GOOD.to_string() + "part\nA 1.00 2.00\n", 5, "a part has a label"),
        ("again", GOOD.to_string() + "A 1.00 2.00\n", 5, "'A' stands twice in the part, first on line 3"),
        (
            "one-end",
            GOOD.to_string() + "part two\nA 1.00\n",
            6,
            "'A' has a first and a last equity in a part, - where it is absent",
        ),
        (
            "three-ends",
            GOOD.to_string() + "part two\nA 1 2 3\n",
            6,
            "'A' has a first and a last equity in a part, - where it is absent",
        ),
        ("decimals", GOOD.to_string() + "part two\nA 1.001 2.00\n", 6, "'1.001' is no number of at most 2 decimals"),
        (
            "grouped",
            GOOD.to_string() + "part two\nA 1.00 1,000.00\n",
            6,
            "'1,000.00' is no number of at most 2 decimals",
        ),
        (
            "far",
            GOOD.to_string() + "part two\nA 1.00 -92233720368547758.09\n",
            6,
            "'-92233720368547758.09' is out of range",
        ),
        ("dashes", GOOD.to_string() + "part two\nA 1.00 --\n", 6, "'--' is no number of at most 2 decimals"),
    ] {
        let said = refused(name, &text);
        assert_eq!(said.lines().count(), 2, "one fault is told once: {said}");
        assert!(said.contains(&format!("house-{name}.txt:{line}: {why}\n")), "{name}: {said}");
    }
}

/// Units whose cents reach 2^63 - 1.
const MAX: &str = "92233720368547758.07";

/// Each refusal with its number, and with its line where it is one line's.
#[test]
fn what_the_library_refuses_is_told_and_nothing_is_written() {
    let many = |count: usize, each: &dyn Fn(usize) -> String| (1..=count).map(each).collect::<String>();
    let names = many(33, &|k| format!("accounts A{k}\n"));
    let parts = many(65, &|k| format!("part p{k}\nA 1.00 2.00\n"));
    let group = "13: a group of accounts is empty or over 32: ";
    let over = "6: a list or return series is over its bound, or parts are not 1 to 64: ";
    let sum = "14: a part's first sum is not positive: ";
    let range = "15: a change or a finished sum leaves the signed 64-bit range: ";
    for (name, text, line, number, why) in [
        ("no-account", "part one\n".into(), "", group, "no account is named"),
        ("33", names + "part one\n", ":33", group, "A33 is one too many"),
        ("no-part", "accounts A\n".into(), "", over, "there is no part"),
        ("65", format!("accounts A\n{parts}"), ":130", over, "part p65 is one too many"),
        (
            "nobody",
            format!("{GOOD}part two\npart three\nA 1 -\nB - 1\n"),
            ":5",
            sum,
            "the first sum of part two is 0.00, nobody being there at both ends",
        ),
        (
            "half",
            format!("{GOOD}part three\nA 1 -\nB - 1\n"),
            ":5",
            sum,
            "the first sum of part three is 0.00, nobody being there at both ends",
        ),
        ("zero", format!("{GOOD}part two\nA 1 2\nB -1.00 9\n"), ":5", sum, "the first sum of part two is 0.00"),
        ("negative", format!("{GOOD}part two\nA 1 2\nB -2.50 9\n"), ":5", sum, "the first sum of part two is -1.50"),
        ("least", format!("{GOOD}part two\nA -92233720368547758.08 0\n"), ":6", range, "the change of A in part two"),
        (
            "lowest",
            format!("{GOOD}part two\nA -92233720368547758.08 -92233720368547758.08\n"),
            ":5",
            sum,
            "the first sum of part two is -92,233,720,368,547,758.08",
        ),
        ("change", format!("{GOOD}part two\nA 1 2\nB -0.01 {MAX}\n"), ":7", range, "the change of B in part two"),
        (
            "first-sum",
            format!("{GOOD}part two\nA {MAX} {MAX}\nB 0.01 0.01\n"),
            ":5",
            range,
            "the first sum or the change of part two",
        ),
        ("total", format!("{GOOD}part two\nA 0.01 {MAX}\n"), ":1", range, "the change of A over its parts"),
        (
            "group",
            format!("accounts A B\npart one\nA 0.01 {MAX}\npart two\nB 1 2\n"),
            "",
            range,
            "the change of the group",
        ),
        (
            "15-before-14",
            format!("{GOOD}part two\npart three\nA -0.01 {MAX}\n"),
            ":7",
            range,
            "the change of A in part three",
        ),
    ] {
        let said = refused(name, &text);
        let told = format!("house-{name}.txt{line}: the house return was refused, {number}{why}\n");
        assert!(said.contains(&told), "{name}: {said}");
    }
}

/// B begins below zero, so that it has no return of its own, while the house has one: (200 - 50 = 150) gains 100 + 60.
#[test]
fn an_account_without_a_return_is_left_out_of_the_average_and_told() {
    let text = "accounts A B Lost\npart one\nA 200.00 300.00\nB -50.00 10.00\n";
    let (out, page) = house("left-out", Some(text), &[]);
    let (said, page) = (said(&out), page.unwrap());
    assert_eq!(out.status.code(), Some(0), "{said}");
    assert!(row(&said, "House return 106.67% 1.0666666666666664, each account weighing what it holds"), "{said}");
    assert!(said.contains("Average of account returns        50.00%"), "{said}");
    assert!(row(&said, "B none 60.00 1 of 1") && row(&said, "Lost none 0.00 0 of 1"), "{said}");
    for left in [
        "B has no return of its own and is left out of the average: its first equity in one is not positive.",
        "Lost has no return of its own and is left out of the average: it is at both ends of no part.",
    ] {
        assert!(said.contains(left) && page.contains(left), "{said}");
    }
    let (out, page) = house(
        "no-average",
        Some("accounts A B\npart one\nA 200.00 300.00\nB -50.00 10.00\npart two\nA 0 1\nB 1 1\n"),
        &[],
    );
    assert!(row(
        &command::said(&out),
        "Average of account returns none as the page showed it before, each account weighing the same"
    ));
    assert!(page.unwrap().contains("<p class=\"equity\">none</p>"));
}

#[test]
fn a_figure_without_a_number_says_so() {
    let leap = "part p\nA 0.01 1441151880758558.72\n".repeat(18);
    let (out, page) = house("leap", Some(&format!("accounts A\n{leap}")), &[]);
    assert_eq!(out.status.code(), Some(0));
    assert!(said(&out).contains("House return                  not finite"), "{}", said(&out));
    assert!(page.unwrap().contains("<p class=\"equity\">not finite</p>"));
}

/// 2^57 times as much seventeen times, and then 2^50 times: of 2^1019 there is a double, of 100 times as much there is none.
#[test]
fn a_figure_whose_percent_has_no_number_says_so() {
    let leap = "part p\nA 0.01 1441151880758558.72\n".repeat(17) + "part p\nA 0.01 11258999068426.24\n";
    let (out, page) = house("high", Some(&format!("accounts A\n{leap}")), &[]);
    assert_eq!(out.status.code(), Some(0));
    assert!(said(&out).contains("House return                above 1e308%"), "{}", said(&out));
    assert!(page.unwrap().contains("<p class=\"equity\">above 1e308%</p>"));
}

/// A name longer than a cell can be padded, and a file that begins with a byte order mark.
#[test]
fn names_of_any_length_and_a_mark_before_the_first_word_are_taken() {
    let long = "x".repeat(65_536);
    let text = format!("\u{feff}accounts {long} B\npart {long}\n{long} 1.00 2.00\nB 1.00 2.00\n");
    let (out, page) = house("long", Some(&text), &[]);
    assert_eq!(out.status.code(), Some(0), "{}", said(&out));
    assert!(row(&said(&out), &format!("{long} 100.00% 1.00 1 of 1")));
    assert!(page.unwrap().contains(&format!("<td>{long}</td>")));
}

/// A cent lost of a million; and nobody lost, so that the zero line is at the left end.
#[test]
fn a_loss_too_small_to_show_is_zero() {
    let (out, page) = house("tiny", Some("accounts A\npart one\nA 1000000.00 999999.99\n"), &[]);
    let (said, page) = (said(&out), page.unwrap());
    assert!(row(&said, "one 0.00% -0.01 1,000,000.00 1 of 1"), "{said}");
    assert!(!said.contains("-0.00%") && !page.contains("-0.00%"), "{said}");
    let (_, page) = house("gains", Some("accounts A\npart one\nA 1.00 2.00\n"), &[]);
    assert!(page.unwrap().contains("style=\"--zero:0.00%\""));
}

#[test]
fn names_are_shown_as_they_are() {
    let text = "name A & <B>\naccounts <i>\"x\" \u{dc}\npart <one>\n<i>\"x\" 1.00 2.00\n\u{dc} 1.00 2.00\n";
    let (out, page) = house("names", Some(text), &[]);
    assert!(row(&said(&out), "<i>\"x\" 100.00% 1.00 1 of 1"), "{}", said(&out));
    let page = page.unwrap();
    for shown in [
        "<h1>A &amp; &lt;B&gt;</h1>",
        "<td>&lt;i&gt;&quot;x&quot;</td>",
        "<td>&lt;one&gt;</td>",
        "&lt;one&gt;, 1 part, 2 accounts",
    ] {
        assert!(page.contains(shown), "{shown}");
    }
    assert!(!page.contains("<i>") && !page.contains("<one>"));
}

#[test]
fn no_word_of_a_file_is_a_command_to_the_terminal() {
    let hidden = ['\u{1b}', '\u{202e}'];
    let text = "name N\u{202e}\naccounts A\u{1b}[1m B\npart one\u{1b}[2J\nA\u{1b}[1m 1.00 2.00\nB 1.00 -\n";
    let (out, page) = house("command", Some(text), &[]);
    let (said, page) = (said(&out), page.unwrap());
    assert!(out.status.success() && !said.contains(hidden) && !page.contains(hidden), "{}", said.escape_debug());
    for shown in ["N\\u{202e}", "A\\u{1b}[1m", "one\\u{1b}[2J"] {
        assert!(said.contains(shown) && page.contains(shown), "{shown}: {said}");
    }
    let bad = refused("command-bad", &format!("{text}\u{1b}c 1.00 2.00\nB\u{202e} 1.00 1.00\nA\u{1b}[1m 1.00\n"));
    assert!(!bad.contains(hidden) && bad.contains(":6: '\\u{1b}c' is neither part"), "{}", bad.escape_debug());
}

#[test]
fn words_are_those_of_the_house() {
    for word in ["--help", "-h"] {
        let (out, page) = house("help", None, &[word]);
        assert_eq!(out.status.code(), Some(0));
        assert!(said(&out).contains("\n       tools/threshcoil house [FILE] ") && page.is_none());
    }
    let two = place("house-two-files.txt");
    std::fs::write(&two, GOOD).unwrap();
    for (word, why) in [
        ("--stop", "'--stop' is not known"),
        ("--hlep", "'--hlep' is not known"),
        (two.to_str().unwrap(), "one file is run at a time"),
    ] {
        let (out, page) = house("bad-word", Some(GOOD), &[word]);
        assert_eq!(out.status.code(), Some(2), "{word}");
        assert!(said(&out).contains(&format!("threshcoil: {why}\nusage: ")) && page.is_none(), "{word}");
    }
    let out = Command::new(env!("CARGO_BIN_EXE_model")).arg("house").arg(place("no such file")).output().unwrap();
    assert_eq!(out.status.code(), Some(2));
}
