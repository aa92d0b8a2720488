/* The C interface of Threshcoil. A slice is a pointer and a count of elements; docs/LAYOUT.md has the bytes, and
 * docs/CALLS.md what each function takes, leaves and refuses, in its order, and the line that links with the library.
 *
 * Every function ends with an answer for all inputs, uses no heap, keeps nothing between calls and touches nothing but the
 * slices lent to it, so any thread may make any call. A slice's pointer must be valid for its count (never null, even at
 * count 0) and a slice that is written must overlap no other. */
#ifndef THRESHCOIL_H
#define THRESHCOIL_H

#include <stdbool.h>
#include <stddef.h>
#include <stdint.h>

#ifdef __cplusplus
extern "C" {
#endif

/* ---- bounds and sizes */
#define TC_SCALE 1000000 /* micro-shares a share */
#define TC_MAX_POSITIONS 64
#define TC_MAX_TARGETS 64
#define TC_MAX_PRICES 128
#define TC_MAX_RETURNS 4096
#define TC_MAX_ACCOUNTS 32 /* in a group */
#define TC_MAX_PARTS 64    /* of a period */

/* The words of settings, eight bytes each, by their places. The ceiling, TC_MAX_COMMISSION_AT, is 0 for none, or at least the
 * floor, TC_MIN_COMMISSION_AT. The last two are spare: 0. */
enum tc_settings_word {
    TC_COMMISSION_AT = 0,
    TC_SLIPPAGE_AT = 1,
    TC_MIN_COMMISSION_AT = 2,
    TC_STEP_AT = 3,
    TC_MIN_ORDER_AT = 4,
    TC_MAX_ORDER_AT = 5,
    TC_BAND_AT = 6,
    TC_CAP_MARK_AT = 7,
    TC_CAP_COUNT_AT = 8,
    TC_MAX_NOTIONAL_AT = 9,
    TC_RECORDING_AT = 10,
    TC_CASH_FIRST_AT = 11,
    TC_MAX_COMMISSION_AT = 12,
    TC_CEILING_AT = 12, /* the same word, by its name while it was spare */
    TC_COVER_RULE_AT = 13,
    TC_LONG_ONLY_AT = 14,
    TC_SETTINGS_WORDS = 15
};

/* The words of the counters that tc_counters tells. The last two are spare: 0. */
enum tc_counters_word {
    TC_ORDER_COUNT_AT = 0,
    TC_LAST_NOTIONAL_AT = 1,
    TC_TRIMMED_COUNT_AT = 2,
    TC_SHORTFALL_AT = 3,
    TC_RECORD_COUNT_AT = 4,
    TC_OPEN_COUNT_AT = 5,
    TC_CLOSED_TOTAL_AT = 6,
    TC_COUNTERS_WORDS = 7
};

/* The words of the series that tc_series tells. */
enum tc_series_word { TC_EQUITY_COUNT_AT = 0, TC_RETURN_COUNT_AT = 1, TC_PREV_EQUITY_AT = 2, TC_SERIES_WORDS = 3 };

/* Where the parts of an account begin; its last five are columns of TC_MAX_POSITIONS words. */
enum tc_account_word {
    TC_CASH_AT = 0,
    TC_SETTINGS_AT = 1,
    TC_COUNTERS_AT = 16,
    TC_SERIES_AT = 23,
    TC_COUNT_AT = 26,
    TC_SYMBOLS_AT = 27,
    TC_QUANTITIES_AT = 91,
    TC_AVERAGES_AT = 155,
    TC_REALIZED_AT = 219,
    TC_TOTALS_AT = 283,
    TC_ACCOUNT_WORDS = 347
};

#define TC_ACCOUNT_BYTES (8 * TC_ACCOUNT_WORDS)
#define TC_SETTINGS_BYTES (8 * TC_SETTINGS_WORDS)
#define TC_COUNTERS_BYTES (8 * TC_COUNTERS_WORDS)
#define TC_SERIES_BYTES (8 * TC_SERIES_WORDS)
#define TC_TARGET_BYTES 16
#define TC_PRICE_BYTES 16
#define TC_WEIGHT_BYTES 16
#define TC_RECORD_BYTES 96
#define TC_POSITION_BYTES 48
#define TC_SNAPSHOT_BYTES 40
#define TC_UNPRICED_BYTES 16
#define TC_CENTS_BYTES 8
#define TC_FILE_BYTES 3328 /* the longest file of a saved account */

/* While recording is on, a rebalance asks for this many record places or more, a close for one or more. Record places are
 * any whole number of TC_RECORD_BYTES; other lengths answer 6, recording or not. Weights take exactly this many places. */
#define TC_RECORD_PLACES 64
#define TC_WEIGHT_PLACES 64

/* ---- answers: the low eight bits of what an entry returns, TC_ANSWER. Above them stands, after TC_DONE, a count of records or
 * weights, or a file's length (TC_COUNT); after a refusal the place that it tells, 0 where it tells none. So a refusal is known
 * by TC_ANSWER(r) == TC_BAD_PRICE and not by r == TC_BAD_PRICE, and a count is one after TC_DONE alone. */
enum tc_answer {
    TC_DONE = 0,
    TC_BAD_SETTING = 1,     /* a setting or opening cash is bad, a kind is unknown, or a mark of a group is above 1 */
    TC_BAD_SYMBOL = 2,      /* a symbol is bad */
    TC_TWICE = 3,           /* a symbol stands twice in one list */
    TC_BAD_PRICE = 4,       /* a price is below 1 */
    TC_BAD_WEIGHT = 5,      /* a weight is not finite */
    TC_TOO_LONG = 6,        /* a list or series is over its bound or no whole number of entries, parts are not 1 to TC_MAX_PARTS, or marks, equities or places to write are of another count */
    TC_TOO_MANY = 7,        /* held symbols and target symbols together exceed 64 */
    TC_NO_RECORD_ROOM = 8,  /* recording is on and the record buffer has too few places */
    TC_NOT_HELD = 9,        /* a close names an absent or flat position */
    TC_BUFFER_FULL = 10,    /* the equity or return buffer has no free place */
    TC_UNSOUND = 11,        /* the account is not sound, or its bytes have another length; a file has an unknown form, a flag or cap mark above 1, a negative zero, over 64 positions, a symbol length outside 1 to 8 or no sound account */
    TC_BAD_SERIES = 12,     /* a return series is empty or has a non-finite member */
    TC_BAD_GROUP = 13,      /* a group is empty or over TC_MAX_ACCOUNTS */
    TC_NO_FIRST_SUM = 14,   /* a part's first sum is not positive */
    TC_OUT_OF_RANGE = 15,   /* a change or a finished sum of a group leaves int64_t */
    TC_ENDS_EARLY = 16,     /* a file ends early */
    TC_BAD_NUMBER = 17,     /* a number of a file is not in its shortest form, or too large */
    TC_LEFT_OVER = 18,      /* bytes of a file are left over */
    TC_NO_FILE_ROOM = 19    /* the room for a file is too short */
};
#define TC_ANSWER(r) ((r) & 0xff)
#define TC_COUNT(r) ((r) >> 8)

/* The place of a refusal, of which 56 bits are kept. TC_BAD_SYMBOL, TC_TWICE and TC_BAD_PRICE tell the first entry that is bad:
 * its index in its list, from 0, and whether that list is the prices (1) or the targets (0). Targets are examined before prices;
 * TC_TWICE tells the first entry whose symbol stands earlier in its list. A call with one symbol tells the prices and index 0.
 * TC_ENDS_EARLY, TC_BAD_NUMBER and TC_LEFT_OVER tell a byte of the file, from 0: its end, the first of the number, the first that
 * is left over. No other answer tells a place. */
#define TC_PLACE(r) ((r) >> 8)
#define TC_INDEX(r) (TC_PLACE(r) >> 1)
#define TC_IN_PRICES(r) (TC_PLACE(r) & 1)
#define TC_BYTE(r) TC_PLACE(r)

enum tc_kind { TC_REBALANCE = 0, TC_STOP_EXIT = 1 };

/* ---- the account, as TC_ACCOUNT_BYTES bytes. A refusal leaves every lent place as found. */

/* Opening: settings are TC_SETTINGS_BYTES bytes; the cash becomes the first equity. Account bytes of another length answer 11. */
uint64_t tc_open(int64_t cash, const uint8_t *settings, size_t settings_bytes, uint8_t *account, size_t account_bytes,
                 int64_t *equities, size_t equity_places);

/* Setters. A mark or a flag is 0 or 1. In cash-first mode orders that would lower no cash, filled whole, run before the others,
 * each group by symbol. */
uint64_t tc_set_quantity_step(uint8_t *account, size_t account_bytes, int64_t micro_shares);
uint64_t tc_set_min_order_value(uint8_t *account, size_t account_bytes, int64_t cents);
uint64_t tc_set_max_order_value(uint8_t *account, size_t account_bytes, int64_t cents);
uint64_t tc_set_no_trade_band_bps(uint8_t *account, size_t account_bytes, double bps);
uint64_t tc_set_max_trades_per_rebalance(uint8_t *account, size_t account_bytes, uint64_t mark, uint64_t cap);
uint64_t tc_set_max_rebalance_notional(uint8_t *account, size_t account_bytes, int64_t cents);
uint64_t tc_set_recording(uint8_t *account, size_t account_bytes, uint64_t flag);
uint64_t tc_set_cash_first(uint8_t *account, size_t account_bytes, uint64_t flag);

/* Queries: out has exactly the bytes of what is told. A symbol is a number here, as tc_good_symbol takes it. */
uint64_t tc_cash(const uint8_t *account, size_t account_bytes, uint8_t *out, size_t out_bytes);
uint64_t tc_settings(const uint8_t *account, size_t account_bytes, uint8_t *out, size_t out_bytes);
uint64_t tc_counters(const uint8_t *account, size_t account_bytes, uint8_t *out, size_t out_bytes);
uint64_t tc_series(const uint8_t *account, size_t account_bytes, uint8_t *out, size_t out_bytes);
uint64_t tc_position(const uint8_t *account, size_t account_bytes, uint64_t symbol, uint8_t *out, size_t out_bytes);
uint64_t tc_position_at(const uint8_t *account, size_t account_bytes, uint64_t index, uint8_t *out, size_t out_bytes);
uint64_t tc_total_equity(const uint8_t *account, size_t account_bytes, const uint8_t *prices, size_t price_bytes,
                         uint8_t *out, size_t out_bytes);
uint64_t tc_unpriced_holding(const uint8_t *account, size_t account_bytes, const uint8_t *prices, size_t price_bytes,
                             uint8_t *out, size_t out_bytes);
uint64_t tc_current_weights(const uint8_t *account, size_t account_bytes, const uint8_t *prices, size_t price_bytes,
                            uint8_t *out, size_t out_bytes);
uint64_t tc_snapshot(const uint8_t *account, size_t account_bytes, const uint8_t *prices, size_t price_bytes,
                     uint8_t *figures, size_t figure_bytes, uint8_t *weights, size_t weight_bytes);

/* Calls that trade, and the return of a period. Prices are listed ones; slippage is worked out inside. */
uint64_t tc_rebalance_simple(uint8_t *account, size_t account_bytes, const uint8_t *targets, size_t target_bytes,
                             const uint8_t *prices, size_t price_bytes, uint64_t period, uint64_t kind,
                             uint8_t *records, size_t record_bytes);
uint64_t tc_close_position_at(uint8_t *account, size_t account_bytes, uint64_t symbol, int64_t price, uint64_t period,
                              uint64_t kind, uint8_t *records, size_t record_bytes);
uint64_t tc_record_return(uint8_t *account, size_t account_bytes, const uint8_t *prices, size_t price_bytes,
                          int64_t *equities, size_t equity_places, double *returns, size_t return_places);

/* ---- a saved account: the file that moves between devices (docs/SAVED.md), at most TC_FILE_BYTES bytes. */

/* Saving: the file goes into the first bytes of the room, and the answer counts them; the others are as found. */
uint64_t tc_save(const uint8_t *account, size_t account_bytes, uint8_t *file, size_t file_bytes);

/* Loading: file is the whole file. Account bytes of another length answer 11 before it is looked at. */
uint64_t tc_load(const uint8_t *file, size_t file_bytes, uint8_t *account, size_t account_bytes);

/* ---- the figures of a return series: six rates (total return, maximum drawdown, win rate, profit factor, payoff ratio,
 * Kelly) and three counts (all, winning and losing returns) */
uint64_t tc_figures(const double *returns, size_t return_count, double *rates, size_t rate_places, uint64_t *counts,
                    size_t count_places);

/* ---- the house return: one figure for a group of accounts over the parts of a period. Marks (1: there, 0: absent) and equities
 * stand part by part, in a part account by account, for each its first end and its last: 2 * accounts * parts of either. An
 * account with a mark 0 at either end is left out of that part, and neither of its numbers there matters. Rates are the figure
 * and each part's growth, 1 + parts places; changes the group's and each account's, 1 + accounts places; firsts and gains each
 * part's first sum and summed change, parts places each. Refusals in this order: 13, 6 (parts, or another length anywhere), 1 (a
 * mark above 1), 15, 14. */
uint64_t tc_house_return(uint64_t accounts, uint64_t parts, const uint8_t *marks, size_t mark_count,
                         const int64_t *equities, size_t equity_count, double *rates, size_t rate_places,
                         int64_t *changes, size_t change_places, int64_t *firsts, size_t first_places,
                         int64_t *gains, size_t gain_places);

/* ---- leaves */

/* A symbol as a number: its eight bytes, padded with zeros, the first one highest: "AAPL" is 0x4141504c00000000. From its
 * text: symbol = 0; for (i = 0; i < 8; i++) symbol = symbol << 8 | text[i]. The eight bytes read as a little-endian word
 * are another number. */
bool tc_good_symbol(uint64_t symbol);

/* Two-word products and quotients, values and prices. A divisor, a step or, in tc_price_at, a quantity of 0 gives 0. */
uint64_t tc_mul_high(uint64_t a, uint64_t b);
uint64_t tc_mul_low(uint64_t a, uint64_t b);
uint64_t tc_div_high(uint64_t high, uint64_t low, uint64_t divisor);
uint64_t tc_div_low(uint64_t high, uint64_t low, uint64_t divisor);
uint64_t tc_snap_high(uint64_t high, uint64_t low, uint64_t step);
uint64_t tc_snap_low(uint64_t high, uint64_t low, uint64_t step);
int64_t tc_value(int64_t quantity, int64_t price);
int64_t tc_price_at(int64_t cost, int64_t quantity);

/* Casts and rounding of doubles. */
bool tc_is_finite(double x);
int64_t tc_to_i64(double x);
double tc_i64_to_f64(int64_t n);
double tc_u64_to_f64(uint64_t n);
double tc_round(double x);
int64_t tc_round_to_i64(double x);

/* Share counts, in micro-shares. */
int64_t tc_shares_add(int64_t a, int64_t b);
int64_t tc_shares_sub(int64_t a, int64_t b);
int64_t tc_shares_neg(int64_t a);
int64_t tc_shares_abs(int64_t a);
uint64_t tc_shares_unsigned_abs(int64_t a);
int64_t tc_shares_from_whole(int64_t n);
int64_t tc_shares_whole(int64_t a);
double tc_shares_to_f64(int64_t a);

/* Costs. tc_effective_price takes the listed price and gives the effective one: up for a quantity above 0, down for any
 * other, 0 too. tc_compute_cost uses no slippage. Here and below a leaf with a ceiling takes the most commission of a fill, 0
 * for none; the leaf of the same name without one means none. */
bool tc_good_costs(double commission_bps, double slippage_bps, int64_t min_commission);
int64_t tc_compute_cost(double commission_bps, double slippage_bps, int64_t min_commission, int64_t notional);
int64_t tc_effective_price(double commission_bps, double slippage_bps, int64_t min_commission, int64_t quantity,
                           int64_t price);
bool tc_good_costs_with_ceiling(double commission_bps, double slippage_bps, int64_t min_commission,
                                int64_t max_commission);
int64_t tc_compute_cost_with_ceiling(double commission_bps, double slippage_bps, int64_t min_commission,
                                     int64_t max_commission, int64_t notional);

/* One position. Market value and profit take any price. tc_apply_fill takes the effective price, which may be 0, and four
 * numbers: quantity, average, realized profit and total cost; another count of them answers 11. */
bool tc_sound_position(uint64_t symbol, int64_t quantity, int64_t average, int64_t realized, int64_t total);
int64_t tc_market_value(uint64_t symbol, int64_t quantity, int64_t average, int64_t realized, int64_t total,
                        int64_t price);
int64_t tc_unrealized_pnl(uint64_t symbol, int64_t quantity, int64_t average, int64_t realized, int64_t total,
                          int64_t price);
uint64_t tc_apply_fill(uint64_t symbol, int64_t *numbers, size_t number_count, int64_t quantity, int64_t price);

/* One fill on an account of at most one position, at the listed price. Money is six numbers: cash, trimmed shortfall, and the
 * position's quantity, average, realized profit and total cost; tallies are two: trimmed fills and records; words and ints
 * take the record, four words and eight numbers, and the answer counts it. */
uint64_t tc_fill(double commission_bps, double slippage_bps, int64_t min_commission, int64_t quantity_step, uint64_t period,
                 uint64_t kind, uint64_t symbol, int64_t quantity, int64_t price, int64_t *money, size_t money_count,
                 uint64_t *tallies, size_t tally_count, uint64_t *words, size_t word_count, int64_t *ints,
                 size_t int_count);
uint64_t tc_fill_with_ceiling(double commission_bps, double slippage_bps, int64_t min_commission, int64_t max_commission,
                              int64_t quantity_step, uint64_t period, uint64_t kind, uint64_t symbol, int64_t quantity,
                              int64_t price, int64_t *money, size_t money_count, uint64_t *tallies, size_t tally_count,
                              uint64_t *words, size_t word_count, int64_t *ints, size_t int_count);

/* Sizing. tc_size_qty and tc_truncate_qty_to_max_value take the listed price, what a buy needs and can afford the effective
 * one. A price or a step of 0 gives 0. tc_drift_bps_of at equity 0 is an infinity, or a NaN for the value 0. */
int64_t tc_notional_of(int64_t quantity, int64_t price);
int64_t tc_size_qty(int64_t gap, int64_t price, int64_t step);
int64_t tc_truncate_qty_to_max_value(int64_t quantity, int64_t price, int64_t step, int64_t max_value);
double tc_drift_bps_of(int64_t value, int64_t equity);
int64_t tc_buy_cash_required(int64_t quantity, int64_t price, double commission_bps, double slippage_bps,
                             int64_t min_commission);
int64_t tc_largest_affordable_buy_qty(int64_t requested, int64_t cash, int64_t step, int64_t price, double commission_bps,
                                      double slippage_bps, int64_t min_commission);
int64_t tc_buy_cash_required_with_ceiling(int64_t quantity, int64_t price, double commission_bps, double slippage_bps,
                                          int64_t min_commission, int64_t max_commission);
int64_t tc_largest_affordable_buy_qty_with_ceiling(int64_t requested, int64_t cash, int64_t step, int64_t price,
                                                   double commission_bps, double slippage_bps, int64_t min_commission,
                                                   int64_t max_commission);

#ifdef __cplusplus
}
#endif

#endif
