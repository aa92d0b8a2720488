/* Compiled with the header and linked with the archive: some of document 01's cases, document 02's of request 1, a ceiling of
 * its request 3, a group of its request 2, a saved account of its request 5 and the places of its request 9, asked from C. */
#include "threshcoil.h"

#include <stdio.h>
#include <string.h>

static int failures;

static void held(const char *what, int64_t given, int64_t wanted)
{
    if (given != wanted) {
        printf("%s: %lld, not %lld\n", what, (long long)given, (long long)wanted);
        failures++;
    }
}

static void put(uint8_t *bytes, size_t word, uint64_t value)
{
    for (int i = 0; i < 8; i++)
        bytes[8 * word + i] = (uint8_t)(value >> (8 * i));
}

static uint64_t word(const uint8_t *bytes, size_t word)
{
    uint64_t value = 0;
    for (int i = 7; i >= 0; i--)
        value = value << 8 | bytes[8 * word + i];
    return value;
}

static void put_double(uint8_t *bytes, size_t word, double x)
{
    uint64_t pattern;
    memcpy(&pattern, &x, 8);
    put(bytes, word, pattern);
}

static void leaves(void)
{
    held("a, 1 at 999,999", tc_value(1, 999999), 0);
    held("a, 1 at 1,000,000", tc_value(1, 1000000), 1);
    held("a, -1 at 999,999", tc_value(-1, 999999), 0);
    held("b, on 1,000,000", tc_compute_cost(10, 0, 100, 1000000), 1000);
    held("b, on 10,000", tc_compute_cost(10, 0, 100, 10000), 100);
    held("c, on 5", tc_compute_cost(1000, 0, 0, 5), 1);
    held("c, on 4", tc_compute_cost(1000, 0, 0, 4), 0);
    held("b under a ceiling, on 1,000,000", tc_compute_cost_with_ceiling(10, 0, 100, 500, 1000000), 500);
    held("b under a ceiling, on 300,000", tc_compute_cost_with_ceiling(10, 0, 100, 500, 300000), 300);
    held("b under no ceiling, on 1,000,000", tc_compute_cost_with_ceiling(10, 0, 100, 0, 1000000), 1000);
    held("h, 1,999", tc_size_qty(1999, 1000, TC_SCALE), 1000000);
    held("h, -1,999", tc_size_qty(-1999, 1000, TC_SCALE), -1000000);
    held("h, step 1,000", tc_size_qty(1999, 1000, 1000), 1999000);
}

/* Case d: cash 100,000, 100 shares at 1,000, 10 bps and a floor of 100: 99 fill, shortfall 1,000, cash 900. */
static void case_d(void)
{
    uint8_t settings[TC_SETTINGS_BYTES] = {0};
    put_double(settings, TC_COMMISSION_AT, 10);
    put(settings, TC_MIN_COMMISSION_AT, 100);
    put(settings, TC_STEP_AT, TC_SCALE);
    put(settings, TC_RECORDING_AT, 1);
    uint8_t account[TC_ACCOUNT_BYTES];
    int64_t equities[1];
    held("d, opening", (int64_t)tc_open(100000, settings, sizeof settings, account, sizeof account, equities, 1), TC_DONE);
    held("d, first equity", equities[0], 100000);

    uint8_t target[TC_TARGET_BYTES] = "AAPL";
    put_double(target, 1, 1.0);
    uint8_t price[TC_PRICE_BYTES] = "AAPL";
    put(price, 1, 1000);
    static uint8_t records[TC_RECORD_PLACES * TC_RECORD_BYTES];
    uint64_t r = tc_rebalance_simple(account, sizeof account, target, sizeof target, price, sizeof price, 0, TC_REBALANCE,
                                     records, sizeof records);
    held("d, answer", (int64_t)TC_ANSWER(r), TC_DONE);
    held("d, records", (int64_t)TC_COUNT(r), 1);
    held("d, filled", (int64_t)word(records, 4), 99 * (int64_t)TC_SCALE);

    uint8_t cash[TC_CENTS_BYTES];
    held("d, cash query", (int64_t)tc_cash(account, sizeof account, cash, sizeof cash), TC_DONE);
    held("d, cash", (int64_t)word(cash, 0), 900);
    uint8_t counters[TC_COUNTERS_BYTES];
    held("d, counters query", (int64_t)tc_counters(account, sizeof account, counters, sizeof counters), TC_DONE);
    held("d, trimmed", (int64_t)word(counters, TC_TRIMMED_COUNT_AT), 1);
    held("d, shortfall", (int64_t)word(counters, TC_SHORTFALL_AT), 1000);

    r = tc_rebalance_simple(account, sizeof account, target, sizeof target, price, sizeof price, 0, 2, records,
                            sizeof records);
    held("an unknown kind", (int64_t)r, TC_BAD_SETTING);
    r = tc_rebalance_simple(account, sizeof account, target, sizeof target - 1, price, sizeof price, 0, TC_REBALANCE, records,
                            sizeof records);
    held("a target cut short", (int64_t)r, TC_TOO_LONG);
    r = tc_cash(account, sizeof account - 1, cash, sizeof cash);
    held("an account cut short", (int64_t)r, TC_UNSOUND);
}

/* Document 02: cash 0, floor 15, A sold for 10, B sold for 25: in cash-first mode B, then A, and cash 5. */
static void case_of_cash_first(void)
{
    uint8_t settings[TC_SETTINGS_BYTES] = {0};
    put(settings, TC_MIN_COMMISSION_AT, 15);
    put(settings, TC_STEP_AT, TC_SCALE);
    put(settings, TC_RECORDING_AT, 1);
    put(settings, TC_CASH_FIRST_AT, 1);
    uint8_t account[TC_ACCOUNT_BYTES];
    int64_t equities[1];
    held("02, opening", (int64_t)tc_open(65, settings, sizeof settings, account, sizeof account, equities, 1), TC_DONE);

    uint8_t targets[2 * TC_TARGET_BYTES] = {0}, prices[2 * TC_PRICE_BYTES] = {0};
    targets[0] = prices[0] = 'A';
    targets[TC_TARGET_BYTES] = prices[TC_PRICE_BYTES] = 'B';
    put_double(targets, 1, 10.5 / 65);
    put_double(targets, 3, 25.5 / 65);
    put(prices, 1, 10);
    put(prices, 3, 25);
    static uint8_t records[TC_RECORD_PLACES * TC_RECORD_BYTES];
    uint64_t r = tc_rebalance_simple(account, sizeof account, targets, sizeof targets, prices, sizeof prices, 0, TC_REBALANCE,
                                     records, sizeof records);
    held("02, bought", (int64_t)r, TC_DONE + 2 * 256);
    held("02, cash bought with", (int64_t)word(records + TC_RECORD_BYTES, 11), 0);

    r = tc_rebalance_simple(account, sizeof account, targets, 0, prices, sizeof prices, 1, TC_REBALANCE, records,
                            sizeof records);
    held("02, sold", (int64_t)r, TC_DONE + 2 * 256);
    held("02, first", records[8 * 3], 'B');
    held("02, then", records[TC_RECORD_BYTES + 8 * 3], 'A');
    uint8_t cash[TC_CENTS_BYTES];
    held("02, cash query", (int64_t)tc_cash(account, sizeof account, cash, sizeof cash), TC_DONE);
    held("02, cash", (int64_t)word(cash, 0), 5);
}

/* 100 shares at 1,000, 10 bps, floor and ceiling 50: a commission of 50 and not 100, so that cash of 100,050 buys them all. */
static void ceiling_of_a_fill(void)
{
    int64_t all = 100 * (int64_t)TC_SCALE;
    held("ceiling, a flat fee is good", tc_good_costs_with_ceiling(10, 0, 50, 50), true);
    held("ceiling, none is good", tc_good_costs_with_ceiling(10, 0, 50, 0), true);
    held("ceiling, below the floor it is bad", tc_good_costs_with_ceiling(10, 0, 50, 49), false);
    held("ceiling, needed without it", tc_buy_cash_required(all, 1000, 10, 0, 50), 100100);
    held("ceiling, needed", tc_buy_cash_required_with_ceiling(all, 1000, 10, 0, 50, 50), 100050);
    held("ceiling, afforded without it", tc_largest_affordable_buy_qty(all, 100050, TC_SCALE, 1000, 10, 0, 50),
         99 * (int64_t)TC_SCALE);
    held("ceiling, afforded", tc_largest_affordable_buy_qty_with_ceiling(all, 100050, TC_SCALE, 1000, 10, 0, 50, 50), all);

    int64_t money[6] = {100050}, ints[8];
    uint64_t tallies[2] = {0}, words[4], symbol = 0x4141504c00000000;
    uint64_t r = tc_fill_with_ceiling(10, 0, 50, 50, TC_SCALE, 0, TC_REBALANCE, symbol, all, 1000, money, 6, tallies, 2, words,
                                      4, ints, 8);
    held("ceiling, a fill", (int64_t)r, TC_DONE + 256);
    held("ceiling, filled", ints[0], all);
    held("ceiling, cost", ints[5], 50);
    held("ceiling, cash", money[0], 0);
    held("ceiling, trimmed", (int64_t)tallies[0], 0);
    r = tc_fill_with_ceiling(10, 0, 50, 49, TC_SCALE, 0, TC_REBALANCE, symbol, all, 1000, money, 6, tallies, 2, words, 4, ints,
                             8);
    held("ceiling, a fill under a bad one", (int64_t)r, TC_BAD_SETTING);
}

/* The same of an account. */
static void ceiling_of_an_account(void)
{
    uint8_t settings[TC_SETTINGS_BYTES] = {0};
    put_double(settings, TC_COMMISSION_AT, 10);
    put(settings, TC_MIN_COMMISSION_AT, 50);
    put(settings, TC_STEP_AT, TC_SCALE);
    put(settings, TC_MAX_COMMISSION_AT, 49);
    uint8_t account[TC_ACCOUNT_BYTES];
    int64_t equities[1];
    uint64_t r = tc_open(100050, settings, sizeof settings, account, sizeof account, equities, 1);
    held("ceiling, opening under a bad one", (int64_t)r, TC_BAD_SETTING);
    put(settings, TC_MAX_COMMISSION_AT, 50);
    r = tc_open(100050, settings, sizeof settings, account, sizeof account, equities, 1);
    held("ceiling, opening", (int64_t)r, TC_DONE);

    uint8_t target[TC_TARGET_BYTES] = "AAPL", price[TC_PRICE_BYTES] = "AAPL", told[TC_POSITION_BYTES];
    put_double(target, 1, 1.0);
    put(price, 1, 1000);
    r = tc_rebalance_simple(account, sizeof account, target, sizeof target, price, sizeof price, 0, TC_REBALANCE, told, 0);
    held("ceiling, a rebalance", (int64_t)r, TC_DONE);
    r = tc_position(account, sizeof account, 0x4141504c00000000, told, sizeof told);
    held("ceiling, position query", (int64_t)r, TC_DONE);
    held("ceiling, position", (int64_t)word(told, 2), 100 * (int64_t)TC_SCALE);
    held("ceiling, cash of the account", (int64_t)word(account, TC_CASH_AT), 0);
    put(account + 8 * TC_SETTINGS_AT, TC_MAX_COMMISSION_AT, 49);
    r = tc_position(account, sizeof account, 0, told, sizeof told);
    held("ceiling, an account with a bad one", (int64_t)r, TC_UNSOUND);
}

/* Two accounts over two parts. The first: 100 to 150 and 300 to 350, so 100 over 400. The second: 500 to 375, and one that is
 * absent at its last end, whatever stands there. So 1.25 times 0.75 less 1, in 10,000ths. */
static void house_return(void)
{
    uint8_t marks[8] = {1, 1, 1, 1, 1, 1, 1, 0};
    int64_t equities[8] = {100, 150, 300, 350, 500, 375, 350, INT64_MIN};
    double rates[3] = {7, 7, 7};
    int64_t changes[3] = {7, 7, 7}, firsts[2] = {7, 7}, gains[2] = {7, 7};
    uint64_t r = tc_house_return(2, 2, marks, 8, equities, 8, rates, 3, changes, 2, firsts, 2, gains, 2);
    held("house, a place too few", (int64_t)r, TC_TOO_LONG);
    marks[7] = 2;
    r = tc_house_return(2, 2, marks, 8, equities, 8, rates, 3, changes, 3, firsts, 2, gains, 2);
    held("house, a mark above 1", (int64_t)r, TC_BAD_SETTING);
    marks[7] = 1;
    r = tc_house_return(2, 2, marks, 8, equities, 8, rates, 3, changes, 3, firsts, 2, gains, 2);
    held("house, a change out of range", (int64_t)r, TC_OUT_OF_RANGE);
    marks[7] = marks[4] = 0;
    r = tc_house_return(2, 2, marks, 8, equities, 8, rates, 3, changes, 3, firsts, 2, gains, 2);
    held("house, a part of nobody", (int64_t)r, TC_NO_FIRST_SUM);
    r = tc_house_return(TC_MAX_ACCOUNTS + 1, 2, marks, 8, equities, 8, rates, 3, changes, 3, firsts, 2, gains, 2);
    held("house, an account too many", (int64_t)r, TC_BAD_GROUP);
    held("house, refused", rates[0] == 7 && rates[2] == 7 && changes[0] == 7 && firsts[1] == 7 && gains[1] == 7, true);

    marks[4] = 1;
    r = tc_house_return(2, 2, marks, 8, equities, 8, rates, 3, changes, 3, firsts, 2, gains, 2);
    held("house, answer", (int64_t)r, TC_DONE);
    held("house, figure", (int64_t)(10000 * rates[0]), -625);
    held("house, growth", (int64_t)(10000 * rates[1]), 2500);
    held("house, growth of the second part", (int64_t)(10000 * rates[2]), -2500);
    held("house, change", changes[0], -25);
    held("house, change of an account", changes[1], -75);
    held("house, change of the other", changes[2], 50);
    held("house, first sum", firsts[0], 400);
    held("house, first sum of the second part", firsts[1], 500);
    held("house, change of a part", gains[0], 100);
    held("house, change of the second part", gains[1], -125);
}

/* An account with cash 300 and nothing else: saved, loaded, and every refusal once. The file is in lent bytes of just its length, so
 * that a sanitizer sees a byte read past it. */
static void saved_account(void)
{
    uint8_t settings[TC_SETTINGS_BYTES] = {0};
    put(settings, TC_STEP_AT, TC_SCALE);
    uint8_t account[TC_ACCOUNT_BYTES], loaded[TC_ACCOUNT_BYTES], room[TC_FILE_BYTES], file[27];
    int64_t equities[1];
    held("saved, opening", (int64_t)tc_open(300, settings, sizeof settings, account, sizeof account, equities, 1), TC_DONE);
    memset(room, 7, sizeof room);
    held("saved, no room", (int64_t)tc_save(account, sizeof account, room, sizeof file - 1), TC_NO_FILE_ROOM);
    held("saved, no account", (int64_t)tc_save(account, sizeof account - 1, room, sizeof room), TC_UNSOUND);
    held("saved, refused", room[0], 7);
    uint64_t r = tc_save(account, sizeof account, room, sizeof room);
    held("saved, answer", (int64_t)TC_ANSWER(r), TC_DONE);
    held("saved, length", (int64_t)TC_COUNT(r), sizeof file);
    held("saved, form", room[0], 1);
    held("saved, cash", room[1] | room[2] << 8, 0x04d8);
    held("saved, past the file", room[sizeof file], 7);

    memcpy(file, room, sizeof file);
    memset(loaded, 7, sizeof loaded);
    r = tc_load(file, sizeof file - 1, loaded, sizeof loaded);
    held("loaded, a part", (int64_t)TC_ANSWER(r), TC_ENDS_EARLY);
    held("loaded, a part's end", (int64_t)TC_BYTE(r), sizeof file - 1);
    r = tc_load(room, sizeof file + 1, loaded, sizeof loaded);
    held("loaded, a byte more", (int64_t)TC_ANSWER(r), TC_LEFT_OVER);
    held("loaded, that byte", (int64_t)TC_BYTE(r), sizeof file);
    file[2] |= 0x80;
    file[3] = 0;
    r = tc_load(file, sizeof file, loaded, sizeof loaded);
    held("loaded, a longer form", (int64_t)TC_ANSWER(r), TC_BAD_NUMBER);
    held("loaded, where it begins", (int64_t)TC_BYTE(r), 1);
    file[0] = 2;
    held("loaded, an unknown form", (int64_t)tc_load(file, sizeof file, loaded, sizeof loaded), TC_UNSOUND);
    held("loaded, into too few bytes", (int64_t)tc_load(room, 0, loaded, sizeof loaded - 1), TC_UNSOUND);
    held("loaded, refused", loaded[0], 7);
    memcpy(file, room, sizeof file);
    held("loaded, answer", (int64_t)tc_load(file, sizeof file, loaded, sizeof loaded), TC_DONE);
    held("loaded, the same account", memcmp(loaded, account, sizeof account), 0);
}

/* Three targets and three prices, spoiled one way after the other: which of them C is told. */
static void places(void)
{
    uint8_t settings[TC_SETTINGS_BYTES] = {0}, account[TC_ACCOUNT_BYTES], position[TC_POSITION_BYTES];
    uint8_t targets[3 * TC_TARGET_BYTES] = {0}, prices[3 * TC_PRICE_BYTES] = {0};
    int64_t equities[1];
    put(settings, TC_STEP_AT, TC_SCALE);
    held("place, opening", (int64_t)tc_open(300, settings, sizeof settings, account, sizeof account, equities, 1), TC_DONE);
    for (size_t i = 0; i < 3; i++) {
        targets[i * TC_TARGET_BYTES] = prices[i * TC_PRICE_BYTES] = (uint8_t)('A' + i);
        put(prices, 2 * i + 1, 5);
    }
    struct {
        const char *what;
        uint8_t *entry, text;
        size_t word;
        uint64_t answer, index, in_prices;
    } spoiled[] = {
        {"place, a price below 1", prices + 2 * TC_PRICE_BYTES, 'C', 1, TC_BAD_PRICE, 2, 1},
        {"place, a price twice", prices + 2 * TC_PRICE_BYTES, 'A', 0, TC_TWICE, 2, 1},
        {"place, a target twice", targets + TC_TARGET_BYTES, 'A', 0, TC_TWICE, 1, 0},
        {"place, a price's bad symbol", prices, ' ', 0, TC_BAD_SYMBOL, 0, 1},
        {"place, a target's bad symbol", targets + 2 * TC_TARGET_BYTES, ' ', 0, TC_BAD_SYMBOL, 2, 0},
    };
    /* Each comes before those that stay. */
    for (size_t i = 0; i < sizeof spoiled / sizeof spoiled[0]; i++) {
        put(spoiled[i].entry, spoiled[i].word, spoiled[i].word == 0 ? spoiled[i].text : 0);
        uint64_t r = tc_rebalance_simple(account, sizeof account, targets, sizeof targets, prices, sizeof prices, 0, TC_REBALANCE,
                                         position, 0);
        held(spoiled[i].what, (int64_t)TC_ANSWER(r), (int64_t)spoiled[i].answer);
        held(spoiled[i].what, (int64_t)TC_INDEX(r), (int64_t)spoiled[i].index);
        held(spoiled[i].what, (int64_t)TC_IN_PRICES(r), (int64_t)spoiled[i].in_prices);
        held(spoiled[i].what, (int64_t)TC_PLACE(r), (int64_t)(2 * spoiled[i].index + spoiled[i].in_prices));
    }
    uint64_t r = tc_position(account, sizeof account, 0, position, sizeof position);
    held("place, one symbol", (int64_t)TC_ANSWER(r), TC_BAD_SYMBOL);
    held("place, its index", (int64_t)TC_INDEX(r), 0);
    held("place, its list", (int64_t)TC_IN_PRICES(r), 1);
}

int main(void)
{
    leaves();
    case_d();
    case_of_cash_first();
    ceiling_of_a_fill();
    ceiling_of_an_account();
    house_return();
    saved_account();
    places();
    if (failures == 0)
        printf("header: the cases asked from C are as documents 01 and 02 say\n");
    return failures != 0;
}
