//! The house return, document 02's request 2: worked groups, what is left out, and what is refused, in its order.

use threshcoil::{
    Account, AccountId, AnotherGroup, CostModel, ExecutionKind, ExecutionRecord, Group, HouseReturn, PartReturn, Price,
    Refusal, Settings, Symbol, Target, figures,
};
use threshcoil_sys as port;

const MAX: i64 = i64::MAX;
const MIN: i64 = i64::MIN;

/// Where an account was there, its equity at that end.
type Ends = (Option<i64>, Option<i64>);

/// At both ends.
fn both(first: i64, last: i64) -> Ends {
    (Some(first), Some(last))
}

const ABSENT: Ends = (None, None);

/// A group of so many accounts; a part has the ends of the first ones, and the others are absent in it.
fn group(accounts: usize, parts: &[&[Ends]]) -> (Group, Vec<AccountId>) {
    let mut group = Group::new();
    let ids: Vec<_> = (0..accounts).map(|_| group.account()).collect();
    for ends in parts {
        let mut part = group.part();
        for (id, (first, last)) in ids.iter().zip(*ends) {
            part.equities(*id, *first, *last).expect("an account of the group");
        }
    }
    (group, ids)
}

/// What such a group comes to, and each account's change.
fn told(accounts: usize, parts: &[&[Ends]]) -> Result<(HouseReturn, Vec<i64>), Refusal> {
    let (group, ids) = group(accounts, parts);
    let house = group.house_return()?;
    let changes: Vec<i64> = ids.iter().map(|id| house.change_of(*id).expect("an account of the group")).collect();
    assert_eq!(house.parts().len(), parts.len());
    assert_eq!(i128::from(house.change), changes.iter().map(|c| i128::from(*c)).sum(), "changes add up to the group's");
    assert_eq!(i128::from(house.change), house.parts().iter().map(|p| i128::from(p.change)).sum(), "and so do parts'");
    Ok((house, changes))
}

/// The number that such a group is refused with, 0 where it is not.
fn answer(accounts: usize, parts: &[&[Ends]]) -> u64 {
    told(accounts, parts).map_or_else(Refusal::number, |_| 0)
}

/// First sums 100 + 300 = 400 and 150 + 350 = 500; changes 50 + 50 = 100 and -100 - 25 = -125. So 1.25 × 0.75 - 1 = -0.0625, where
/// the accounts' own returns, 1.5 × 1/3 - 1 = -0.5 and 350/300 × 325/350 - 1 = 0.08.., average to some -0.21.
#[test]
fn a_worked_group() {
    let (house, changes) =
        told(2, &[&[both(100, 150), both(300, 350)], &[both(150, 50), both(350, 325)]]).expect("a figure");
    assert_eq!(house.figure, -0.0625);
    assert_eq!((house.change, changes), (-25, vec![-50, 25]));
    let parts = [
        PartReturn { first_sum: 400, change: 100, growth: 0.25 },
        PartReturn { first_sum: 500, change: -125, growth: -0.25 },
    ];
    assert_eq!(house.parts(), parts);
}

/// The flagship falls by 1 in 64 of its 64,000,000 while the trial account doubles its 100: the house falls by (1,000,000 - 100) in
/// 64,000,100, and not by the average's rise of about a half.
#[test]
fn a_trial_account_weighs_what_it_holds() {
    let (house, changes) = told(2, &[&[both(64_000_000, 63_000_000), both(100, 200)]]).expect("a figure");
    assert_eq!(house.figure, 1.0 + -999_900.0 / 64_000_100.0 - 1.0);
    assert!(house.figure < -0.015);
    assert_eq!(changes, [-1_000_000, 100]);
}

/// "An account missing at either end is left out of that part": the first is there throughout; the second lacks its last end
/// in the first part and is whole in the second; the third is never there. Growths 25/100 and (25 + 50)/(125 + 25) = 0.5.
#[test]
fn an_account_missing_at_either_end_is_left_out_of_the_part() {
    for half in [(Some(1_000), None), (None, Some(1_000)), ABSENT] {
        let (house, changes) = told(3, &[&[both(100, 125), half], &[both(125, 150), both(25, 75)]]).expect("a figure");
        assert_eq!((house.figure, house.change), (1.25 * 1.5 - 1.0, 100));
        assert_eq!(changes, [50, 50, 0], "over its own parts alone");
        assert_eq!(house.parts()[0], PartReturn { first_sum: 100, change: 25, growth: 0.25 });
        assert_eq!(house.parts()[1], PartReturn { first_sum: 150, change: 75, growth: 0.5 });
    }
}

/// What was given is replaced, so that no number is left behind an absence; and an account is absent where nothing was given.
#[test]
fn the_last_ends_that_are_given_count() {
    let (mut group, ids) = group(2, &[]);
    let mut part = group.part();
    part.equities(ids[1], Some(MAX), Some(MIN)).expect("of the group");
    part.equities(ids[0], Some(4), Some(7)).expect("of the group");
    part.equities(ids[0], Some(4), Some(5)).expect("of the group");
    part.equities(ids[1], None, Some(MIN)).expect("of the group");
    let house = group.house_return().expect("a figure");
    assert_eq!((house.figure, house.change_of(ids[1])), (0.25, Some(0)));
}

/// Through the C interface too, where a caller can put a number behind a mark of absence.
#[test]
fn numbers_behind_a_mark_of_absence_are_not_read() {
    let marks = [1, 1, 1, 0, 0, 1, 0, 0];
    let ask = |equities: &[i64]| {
        let (mut rates, mut changes, mut firsts, mut gains) = ([7.0; 2], [7; 5], [7; 1], [7; 1]);
        let answer = port::tc_house_return(4, 1, &marks, equities, &mut rates, &mut changes, &mut firsts, &mut gains);
        (answer, rates, changes, firsts, gains)
    };
    let wanted = (0, [0.25, 0.25], [1, 1, 0, 0, 0], [4], [1]);
    for junk in [0, 1, -1, MIN, MAX] {
        assert_eq!(ask(&[4, 5, 9, junk, junk, 9, junk, junk]), wanted, "{junk}");
        assert_eq!(ask(&[4, 5, MIN, junk, junk, MAX, MAX, MIN]), wanted, "{junk}, and ends that have no other");
    }
}

#[test]
fn the_order_of_accounts_changes_nothing() {
    let parts = [[both(70, 91), (Some(5), None), both(-13, 4)], [both(91, 12), both(5, 8), ABSENT]];
    let turned = parts.map(|[a, b, c]| [c, a, b]);
    let (house, changes) = told(3, &[&parts[0], &parts[1]]).expect("a figure");
    let (same, others) = told(3, &[&turned[0], &turned[1]]).expect("a figure");
    assert_eq!((house.figure, house.change, house.parts()), (same.figure, same.change, same.parts()));
    assert_eq!([changes[2], changes[0], changes[1]], *others);
}

/// In a part the sums are rounded once each: 2^53 + 1 is 2^53 as a double, and so is the sum of 2^53 and 1.
#[test]
fn sums_are_exact_and_rounded_once() {
    let big = 1 << 53;
    let (house, changes) = told(3, &[&[both(big, big + 2), both(1, 2), both(0, 0)]]).expect("a figure");
    let part = PartReturn { first_sum: big + 1, change: 3, growth: 3.0 / big as f64 };
    assert_eq!((house.parts()[0], changes), (part, vec![2, 1, 0]));
    assert_eq!(house.figure, 1.0 + part.growth - 1.0);
}

/// An account of its own: a buy at 10.00, and the price afterwards.
fn recorded(prices: &[i64]) -> (Vec<i64>, Vec<f64>) {
    let (mut equity, mut returns) = (vec![0; 1 + prices.len()], vec![0.0; 1 + prices.len()]);
    let fund = Symbol::new("FUND").expect("a good symbol");
    let mut account = Account::open(777_777, &Settings::new(CostModel::default()), &mut equity).expect("good settings");
    let at = |price| [Price { symbol: fund, price }];
    let now = threshcoil::Context { period_index: 0, kind: ExecutionKind::Rebalance };
    let none: &mut [ExecutionRecord] = &mut [];
    account.rebalance_simple(&[Target { symbol: fund, weight: 0.9 }], &at(1_000), now, none).expect("done");
    for price in prices {
        account.record_return(&at(*price), &mut equity, &mut returns).expect("done");
    }
    returns.truncate(account.return_count() as usize);
    (equity, returns)
}

/// One account alone gives, part by part, the returns that it records, and over all parts their total return.
#[test]
fn one_account_alone_gives_its_own_return() {
    let (equity, returns) = recorded(&[1_013, 997, 998, 1_771, 3, 4_211]);
    let parts: Vec<[Ends; 1]> = equity.windows(2).map(|e| [both(e[0], e[1])]).collect();
    let parts: Vec<&[Ends]> = parts.iter().map(|part| &part[..]).collect();
    let (house, _) = told(1, &parts).expect("a figure");
    assert_eq!(house.parts().iter().map(|part| part.growth).collect::<Vec<_>>(), returns);
    assert_eq!(house.figure, figures(&returns).expect("figures").total_return);
    for (part, gain) in parts.iter().zip(returns) {
        assert_eq!(told(1, &[part]).expect("a figure").0.figure, 1.0 + gain - 1.0);
    }
}

/// Each of 32 accounts goes from 31 to 32 in one part and back in the next, 64 parts: first sums 992 and 1,024, changes 32 and -32.
#[test]
fn thirty_two_accounts_and_sixty_four_parts_are_told() {
    let (up, down) = ([both(31, 32); 32], [both(32, 31); 32]);
    let parts: Vec<&[Ends]> = (0..64).map(|k| if k % 2 == 0 { &up[..] } else { &down[..] }).collect();
    let (house, changes) = told(32, &parts).expect("a figure");
    let product = (0..64).fold(1.0, |p, k| p * (1.0 + if k % 2 == 0 { 32.0 / 992.0 } else { -32.0 / 1_024.0 }));
    assert_eq!((house.figure, house.change, changes), (product - 1.0, 0, vec![0; 32]));
    assert!(house.parts().iter().all(|part| [(992, 32), (1_024, -32)].contains(&(part.first_sum, part.change))));
    // Each account has its own place: the k-th gains 2^k in the last part alone.
    let last: Vec<Ends> = (0..32).map(|k| both(1, 1 + (1 << k))).collect();
    let still = [both(1, 1)];
    let parts = [vec![&still[..]; 63], vec![&last[..]]].concat();
    let (house, changes) = told(32, &parts).expect("a figure");
    assert_eq!(changes, (0..32).map(|k| 1 << k).collect::<Vec<i64>>());
    assert_eq!(house.figure, 1.0 + ((1_i64 << 32) - 1) as f64 / 32.0 - 1.0);
}

#[test]
fn an_account_that_is_made_later_is_absent_before() {
    let (mut group, ids) = group(1, &[&[both(4, 5)]]);
    let late = group.account();
    group.part().equities(ids[0], Some(5), Some(5)).and_then(|p| p.equities(late, Some(5), Some(0))).expect("done");
    let house = group.house_return().expect("a figure");
    assert_eq!((house.figure, house.change_of(late)), (1.25 * 0.5 - 1.0, Some(-5)));
    let later = group.account();
    assert_eq!(house.change_of(later), None, "made after the figure was asked for");
}

/// One account more before every second part, up to 32 and 64: as if all had been made at first.
#[test]
fn accounts_are_made_between_parts() {
    let ends = |part: i64| (0..=part / 2).map(move |k| both(100 + 7 * k + part, 90 + (11 + k) * (part + 3) % 57));
    let (mut between, mut ids) = (Group::new(), Vec::new());
    for part in 0..64 {
        if part % 2 == 0 {
            ids.push(between.account());
        }
        let mut filled = between.part();
        for (id, (first, last)) in ids.iter().zip(ends(part)) {
            filled.equities(*id, first, last).expect("of the group");
        }
    }
    let parts: Vec<Vec<Ends>> = (0..64).map(|part| ends(part).collect()).collect();
    let (first, changes) = told(32, &parts.iter().map(Vec::as_slice).collect::<Vec<_>>()).expect("a figure");
    let between = between.house_return().expect("a figure");
    assert_eq!((between.figure, between.change, between.parts()), (first.figure, first.change, first.parts()));
    assert_eq!(
        ids.iter().map(|id| between.change_of(*id)).collect::<Vec<_>>(),
        changes.into_iter().map(Some).collect::<Vec<_>>()
    );
}

#[test]
fn an_account_of_another_group_is_not_taken() {
    let (mut first, ours) = group(1, &[]);
    let (second, theirs) = group(1, &[&[both(8, 10)]]);
    assert_ne!(ours, theirs);
    let mut part = first.part();
    part.equities(ours[0], Some(4), Some(5)).expect("of the group");
    let refused = part.equities(theirs[0], Some(1), Some(1)).map(drop);
    assert_eq!(refused, Err(AnotherGroup));
    assert_eq!(AnotherGroup.to_string(), "the account is of another group");
    let (first, second) = (first.house_return().expect("a figure"), second.house_return().expect("a figure"));
    assert_eq!((first.figure, second.figure), (0.25, 0.25));
    assert_eq!([first.change_of(ours[0]), first.change_of(theirs[0])], [Some(1), None]);
    assert_eq!([second.change_of(ours[0]), second.change_of(theirs[0])], [None, Some(2)]);
}

/// The bounds, each from both sides; what is over one is refused whatever stands in it.
#[test]
fn thirteen_and_six_at_their_bounds() {
    let (good, bad): (&[Ends], &[Ends]) = (&[both(1, 1)], &[both(MIN, MAX)]);
    for (accounts, parts, number) in [
        (0, 0, 13),
        (0, 1, 13),
        (0, 65, 13),
        (33, 0, 13),
        (33, 1, 13),
        (33, 65, 13),
        (1_000, 1_000, 13),
        (1, 0, 6),
        (32, 0, 6),
        (1, 65, 6),
        (32, 65, 6),
        (32, 1_000, 6),
        (1, 1, 0),
        (32, 1, 0),
        (1, 64, 0),
        (32, 64, 0),
    ] {
        assert_eq!(answer(accounts, &vec![good; parts]), number, "{accounts} accounts, {parts} parts");
        let spoiled = if number == 0 && parts > 0 { 15 } else { number };
        assert_eq!(
            answer(accounts, &vec![bad; parts]),
            spoiled,
            "{accounts} accounts, {parts} parts of changes out of range"
        );
    }
}

/// Every number that must stay in range, at its edges and, it alone, one past them; of a sum the finished one alone is asked. A first sum
/// at its lowest is 14, not 15.
#[test]
fn fifteen_for_each_change_and_each_finished_sum() {
    let range: &[(&str, usize, &[&[Ends]], u64)] = &[
        ("a change, highest", 2, &[&[both(2, 2), both(-1, MAX - 1)]], 0),
        ("a change, too high", 2, &[&[both(3, 2), both(-1, MAX)], &[both(1, 1), both(5, 4)]], 15),
        ("a change, lowest", 2, &[&[both(1, 1), both(0, MIN)]], 0),
        ("a change, too low", 2, &[&[both(1, 2), both(1, MIN)], &[both(1, 1), both(4, 5)]], 15),
        ("a first sum, highest", 2, &[&[both(MAX - 1, MAX - 1), both(1, 1)]], 0),
        ("a first sum, too high", 2, &[&[both(MAX, MAX), both(1, 1)]], 15),
        ("a first sum, lowest", 2, &[&[both(MIN + 1, MIN + 1), both(-1, -1)]], 14),
        ("a first sum, too low", 2, &[&[both(MIN, MIN), both(-1, -1)]], 15),
        ("a first sum on the way", 3, &[&[both(MAX, MAX), both(1, 1), both(-1, -1)]], 0),
        ("a part's change, highest", 2, &[&[both(1, MAX), both(1, 2)]], 0),
        ("a part's change, too high", 2, &[&[both(1, MAX), both(1, 3)], &[ABSENT, both(3, 1)]], 15),
        ("a part's change, lowest", 2, &[&[both(1, MIN + 2), both(1, 0)]], 0),
        ("a part's change, too low", 2, &[&[both(1, MIN + 2), both(2, 0)], &[ABSENT, both(1, 3)]], 15),
        ("a part's change on the way", 3, &[&[both(1, MAX), both(1, 3), both(1, 0)]], 0),
        ("the sum of last equities", 2, &[&[both(1, MAX), both(1, 1)]], 0),
        ("an account's total, highest", 1, &[&[both(1, MAX)], &[both(1, 2)]], 0),
        ("an account's total, too high", 2, &[&[both(1, MAX), both(9, 9)], &[both(1, 3), both(9, 7)]], 15),
        ("an account's total, lowest", 1, &[&[both(1, MIN + 2)], &[both(1, 0)]], 0),
        ("an account's total, too low", 2, &[&[both(1, MIN + 2), both(9, 9)], &[both(2, 0), both(9, 11)]], 15),
        ("an account's total on the way", 1, &[&[both(1, MAX)], &[both(1, 3)], &[both(3, 2)]], 0),
        ("the group's total, highest", 2, &[&[both(1, MAX)], &[ABSENT, both(1, 2)]], 0),
        ("the group's total, too high", 2, &[&[both(1, MAX)], &[ABSENT, both(1, 3)]], 15),
        ("the group's total, lowest", 2, &[&[both(1, MIN + 2)], &[ABSENT, both(1, 0)]], 0),
        ("the group's total, too low", 2, &[&[both(1, MIN + 2)], &[ABSENT, both(2, 0)]], 15),
        ("the group's total on the way", 2, &[&[both(1, MAX)], &[ABSENT, both(1, 3)], &[ABSENT, both(3, 2)]], 0),
    ];
    for (what, accounts, parts, number) in range {
        assert_eq!(answer(*accounts, parts), *number, "{what}");
    }
}

/// "14 a part's first sum is not positive"; nobody there is a sum of 0.
#[test]
fn fourteen_for_a_first_sum_that_is_not_positive() {
    for (part, number) in [
        ([both(1, 0), both(0, 0)], 0),
        ([both(0, 9), both(0, 9)], 14),
        ([both(5, 9), both(-5, 9)], 14),
        ([both(5, 9), both(-6, 9)], 14),
        ([both(5, 9), (Some(-6), None)], 0),
        ([(Some(5), None), (None, Some(9))], 14),
        ([ABSENT, ABSENT], 14),
    ] {
        assert_eq!(answer(2, &[&part]), number, "{part:?}");
        assert_eq!(answer(2, &[&[both(1, 1)], &part]), number, "{part:?} as the last part");
        assert_eq!(answer(2, &[&part, &[both(1, 1)]]), number, "{part:?} as the first part");
    }
}

/// "15 ..., 14 ...; in that order": in any part before the other in any part.
#[test]
fn fifteen_comes_before_fourteen_wherever_they_stand() {
    let (nobody, over): (&[Ends], &[Ends]) = (&[ABSENT], &[both(-1, MAX)]);
    assert_eq!((answer(1, &[nobody]), answer(1, &[over])), (14, 15));
    assert_eq!((answer(1, &[nobody, over]), answer(1, &[over, nobody])), (15, 15));
    let mut parts = vec![nobody; 64];
    assert_eq!(answer(1, &parts), 14);
    parts[63] = over;
    assert_eq!(answer(1, &parts), 15);
    // The total alone is out of range, and the last part has nobody.
    assert_eq!(answer(1, &[&[both(1, MAX)], &[both(1, 3)], nobody]), 15);
}

/// A last equity below 0 takes more than all, and 18 parts that grow by 2^57 each leave the doubles; what arises is kept.
#[test]
fn what_the_doubles_make_of_it_is_kept() {
    let (loss, _) = told(1, &[&[both(4, -2)], &[both(4, 6)]]).expect("a figure");
    assert_eq!(loss.figure, -0.5 * 1.5 - 1.0);
    let (leap, end) = ([both(1, 1 << 57)], [both(1, 0)]);
    let parts: Vec<&[Ends]> = [vec![&leap[..]; 18], vec![&end[..]]].concat();
    assert_eq!(told(1, &parts[..18]).expect("a figure").0.figure, f64::INFINITY);
    assert!(told(1, &parts).expect("a figure").0.figure.is_nan(), "an infinity times 0");
}

/// A refusal through the C interface leaves every lent place as found, and lengths are 6 before a mark above 1 is 1.
#[test]
fn a_refusal_of_the_c_entry_leaves_every_place_as_found() {
    let ask = |accounts, parts, marks: &[u8], equities: &[i64], [rate, change, first, gain]: [usize; 4]| {
        let (mut rates, mut changes, mut firsts, mut gains) = ([7.0; 9], [7; 9], [7; 9], [7; 9]);
        let answer = port::tc_house_return(
            accounts,
            parts,
            marks,
            equities,
            &mut rates[..rate],
            &mut changes[..change],
            &mut firsts[..first],
            &mut gains[..gain],
        );
        let found = rates == [7.0; 9] && [changes, firsts, gains] == [[7; 9]; 3];
        assert_eq!(found, answer != 0);
        answer
    };
    let (marks, equities, places) = ([1; 4], [1, 2, 3, 4], [3, 2, 2, 2]);
    assert_eq!(ask(1, 2, &marks, &equities, places), 0);
    assert_eq!(ask(1, 2, &marks[1..], &equities, places), 6);
    assert_eq!(ask(1, 2, &marks, &equities[1..], places), 6);
    for k in 0..4 {
        for other in [places[k] - 1, places[k] + 1] {
            let mut places = places;
            places[k] = other;
            assert_eq!(ask(1, 2, &[2; 4], &equities, places), 6, "place {k} of {other}");
        }
    }
    for k in 0..4 {
        for mark in [2, 255] {
            let mut marks = marks;
            marks[k] = mark;
            assert_eq!(ask(1, 2, &marks, &[MIN, MAX, 0, 0], places), 1, "before 15 and 14");
        }
    }
    assert_eq!(ask(1, 2, &marks, &[MIN, MAX, 0, 0], places), 15);
    assert_eq!(ask(1, 2, &marks, &[1, 1, 0, 0], places), 14);
    assert_eq!(ask(0, 2, &marks, &equities, places), 13);
    assert_eq!(ask(33, 65, &marks, &equities, places), 13);
    assert_eq!(ask(u64::MAX, u64::MAX, &[], &[], [0; 4]), 13);
    assert_eq!(ask(1, u64::MAX, &[], &[], [0; 4]), 6);
    assert_eq!(ask(2, 1 << 63, &[], &[], [1, 3, 0, 0]), 6, "the counts multiply to 0");
}
