//! Accounts in lent bytes. Each line stands as in the Rattle source: a slice goes over as its pointer and its count.
//!
//! Every value is eight bytes, little-endian; a symbol stands as its text; `layout` has the words of settings and accounts. What is
//! returned has the documents' number in its low eight bits. Above them stands a count of records or weights, or a file's length;
//! after a refusal the place that it tells: `answer` has the parts. After a refusal every lent byte is as found.

/// Declares an entry and wraps it for slices, one parameter after the other.
#[doc(hidden)]
#[macro_export]
macro_rules! entry {
    ($doc:literal $name:ident [$($taken:tt)*] [$($declared:tt)*] [$($given:tt)*] $slice:ident: &mut [$of:ty], $($rest:tt)*) => {
        $crate::entry!($doc $name [$($taken)* $slice: &mut [$of],] [$($declared)* _: *mut $of, _: usize,]
            [$($given)* $slice.as_mut_ptr(), $slice.len(),] $($rest)*);
    };
    ($doc:literal $name:ident [$($taken:tt)*] [$($declared:tt)*] [$($given:tt)*] $slice:ident: &[$of:ty], $($rest:tt)*) => {
        $crate::entry!($doc $name [$($taken)* $slice: &[$of],] [$($declared)* _: *const $of, _: usize,]
            [$($given)* $slice.as_ptr(), $slice.len(),] $($rest)*);
    };
    ($doc:literal $name:ident [$($taken:tt)*] [$($declared:tt)*] [$($given:tt)*] $number:ident: $of:ty, $($rest:tt)*) => {
        $crate::entry!($doc $name [$($taken)* $number: $of,] [$($declared)* _: $of,] [$($given)* $number,] $($rest)*);
    };
    ($doc:literal $name:ident [$($taken:tt)*] [$($declared:tt)*] [$($given:tt)*]) => {
        #[doc = $doc]
        pub fn $name($($taken)*) -> u64 {
            unsafe extern "C" {
                fn $name($($declared)*) -> u64;
            }
            // SAFETY: each pointer and count are a slice's, lent for the call alone, and no mutable one overlaps another.
            unsafe { $name($($given)*) }
        }
    };
}

/// Entries of proved code, as they stand in the Rattle source.
#[doc(hidden)]
#[macro_export]
macro_rules! entries {
    ($($doc:literal $name:ident($($taken:tt)*);)*) => { $($crate::entry!($doc $name [] [] [] $($taken)*,);)* };
}

entries! {
    "Opens an account under the bytes of settings; the cash is written as the first equity."
    tc_open(cash: i64, settings: &[u8], account: &mut [u8], equities: &mut [i64]);

    "Sets the order sizing granularity, in micro-shares."
    tc_set_quantity_step(account: &mut [u8], step: i64);
    "Sets the notional under which orders are skipped; 0 is off."
    tc_set_min_order_value(account: &mut [u8], value: i64);
    "Sets the notional to which orders are cut down; 0 is off."
    tc_set_max_order_value(account: &mut [u8], value: i64);
    "Sets the drift up to which a position is left alone; 0 is off."
    tc_set_no_trade_band_bps(account: &mut [u8], bps: f64);
    "Sets the most orders of one rebalance: mark 1 and the cap, or mark 0 and 0 for none."
    tc_set_max_trades_per_rebalance(account: &mut [u8], mark: u64, cap: u64);
    "Sets the most notional of one rebalance; 0 is off."
    tc_set_max_rebalance_notional(account: &mut [u8], value: i64);
    "Turns recording on (1) or off (0)."
    tc_set_recording(account: &mut [u8], on: u64);
    "Turns cash-first mode, in which orders that would lower no cash run first, on (1) or off (0)."
    tc_set_cash_first(account: &mut [u8], on: u64);

    "The cash: 8 bytes."
    tc_cash(account: &[u8], out: &mut [u8]);
    "The settings, as they were given."
    tc_settings(account: &[u8], out: &mut [u8]);
    "The counters: `layout::COUNTERS` has their words."
    tc_counters(account: &[u8], out: &mut [u8]);
    "The series: `layout::SERIES` has their words."
    tc_series(account: &[u8], out: &mut [u8]);
    "The position of a symbol, given as its number: present mark, symbol, quantity, average, realized profit, total cost, 48 bytes."
    tc_position(account: &[u8], symbol: u64, out: &mut [u8]);
    "The position at a place in symbol order: 48 bytes."
    tc_position_at(account: &[u8], index: u64, out: &mut [u8]);

    "Cash and the value of the positions: 8 bytes."
    tc_total_equity(account: &[u8], prices: &[u8], out: &mut [u8]);
    "The first open position without a price: present mark, symbol, 16 bytes."
    tc_unpriced_holding(account: &[u8], prices: &[u8], out: &mut [u8]);
    "The weights of open positions: 64 places of symbol and weight, 1,024 bytes. The answer counts those filled."
    tc_current_weights(account: &[u8], prices: &[u8], out: &mut [u8]);
    "Cash, equity, open positions, realized profit, weight count: 40 bytes; and the weights, 1,024 bytes."
    tc_snapshot(account: &[u8], prices: &[u8], figures: &mut [u8], weights: &mut [u8]);

    "Rebalances to target weights. The answer counts the records, of 96 bytes each."
    tc_rebalance_simple(account: &mut [u8], targets: &[u8], prices: &[u8], period: u64, kind: u64, records: &mut [u8]);
    "Closes one position at a price. The answer counts the records."
    tc_close_position_at(account: &mut [u8], symbol: u64, price: i64, period: u64, kind: u64, records: &mut [u8]);
    "Writes the equity and, where one is due, the return at the account's counts."
    tc_record_return(account: &mut [u8], prices: &[u8], equities: &mut [i64], returns: &mut [f64]);

    "Writes the file of an account, at most `layout::FILE_SIZE` bytes. The answer has its length; bytes past it are as found."
    tc_save(account: &[u8], file: &mut [u8]);
    "Reads an account from a whole file."
    tc_load(file: &[u8], account: &mut [u8]);
}
