//! Leaves that are lent slices of numbers. Each returns the documents' number and 256 times a count of records, or 256 times the place
//! that a refusal tells; a refusal leaves every slice as found.
#![allow(clippy::too_many_arguments)]

crate::entries! {
    "A fill on a position whose quantity, average, realized profit and total cost are the four numbers, before and after."
    tc_apply_fill(symbol: u64, numbers: &mut [i64], quantity: i64, price: i64);

    "The figures of a return series: six rates (total return, maximum drawdown, win rate, profit factor, payoff ratio, Kelly) \
     and three counts (all, winning and losing returns)."
    tc_figures(returns: &[f64], rates: &mut [f64], counts: &mut [u64]);

    "The house return of a group over the parts of a period. Marks, 1 for an equity that is there and 0 for an absent one, and equities \
     stand part by part, in a part account by account, first end and last. The rates are the figure and each part's growth; the changes \
     the group's and each account's; firsts and gains each part's first sum and summed change."
    tc_house_return(
        accounts: u64,
        parts: u64,
        marks: &[u8],
        equities: &[i64],
        rates: &mut [f64],
        changes: &mut [i64],
        firsts: &mut [i64],
        gains: &mut [i64]
    );

    "One fill as an account of at most one position makes it, without a ceiling. The money is cash, shortfall and the position's \
     quantity, average, realized profit and total cost; the tallies are the counts of trimmed fills and of records, before and \
     after; a record takes four words and eight numbers, and is counted."
    tc_fill(
        commission_bps: f64,
        slippage_bps: f64,
        min_commission: i64,
        quantity_step: i64,
        period: u64,
        kind: u64,
        symbol: u64,
        quantity: i64,
        price: i64,
        money: &mut [i64],
        tallies: &mut [u64],
        words: &mut [u64],
        ints: &mut [i64]
    );
    "The same fill under a ceiling, 0 for none."
    tc_fill_with_ceiling(
        commission_bps: f64,
        slippage_bps: f64,
        min_commission: i64,
        max_commission: i64,
        quantity_step: i64,
        period: u64,
        kind: u64,
        symbol: u64,
        quantity: i64,
        price: i64,
        money: &mut [i64],
        tallies: &mut [u64],
        words: &mut [u64],
        ints: &mut [i64]
    );
}
