"""Document 01's checked cases, a to l, and its refusals, and document 02's case of request 1 with its like and cases of requests 2, 3,
5 and 9, on the model. Exit status 1 where one fails."""
import sys
from dataclasses import replace

import house
import model
from cases_places import PLACES
from cases_saved import SAVED
from model import Account, Costs, Order, Position, Settings

FREE = Costs(0.0, 0.0, 0)
FLOOR = Costs(0.0, 0.0, 100)
FIFTEEN = Costs(0.0, 0.0, 15)
TEN_BPS = Costs(10.0, 0.0, 100)
FLAT = replace(TEN_BPS, max_commission=100)
WHOLE = model.SCALE


def symbol(name):
    return int.from_bytes(name.encode().ljust(8, b"\0"), "big")


A, B, C, D = map(symbol, "ABCD")


def account(cash, costs=FREE, positions=None, **settings):
    return Account(cash, Settings(costs, **settings), positions or {}, equity_count=1, previous_equity=cash)


def fill(a, quantity, price, name=A):
    return model.filled(a, Order(name, quantity, price, 0.0), 0, "rebalance")[0]


def fills(*steps):
    p = Position()
    for quantity, price in steps:
        p = model.after_fill(p, quantity * WHOLE, price)
    return p.quantity, p.average, p.realized, p.total_cost


def case_d():
    a = fill(account(100_000, TEN_BPS), 100 * WHOLE, 1_000)
    return a.positions[A].quantity, a.trimmed_shortfall, a.cash


def case_e():
    a = fill(account(50, FLOOR), WHOLE, 10)
    return a.positions, a.trimmed_count, a.trimmed_shortfall


def case_f():
    a = fill(account(0, quantity_step=1), 2_000_000, 1)
    return a.positions, model.need(FREE, 999_999, 1)


def case_g():
    held = {A: Position(WHOLE, 20, 0, 20)}
    return [fill(account(cash, FLOOR, held), -WHOLE, 20).cash for cash in (5, 80)]


def case_k(gap):
    a = account(20_000, no_trade_band_bps=2_500.0, quantity_step=1)
    return len(model.plan(a, [(A, gap / 20_000)], {A: 1}, 20_000))


def case_l(cash_first):
    a = account(50, positions={B: Position(WHOLE, 80, 0, 80)}, cash_first=cash_first)
    orders = [Order(A, WHOLE, 100, 0.0), Order(B, -WHOLE, 80, 0.0)]
    for order in model.running_order(a.settings, orders):
        a = model.filled(a, order, 0, "rebalance")[0]
    return a.cash, a.trimmed_count


def cash_first(cash, costs, shares, prices, targets=(), mode=True, **settings):
    """A rebalance in cash-first mode, or by symbol, from whole shares held: the answer, the symbols as they filled, the cash left."""
    held = {s: Position(n * WHOLE, prices[s], 0, n * prices[s]) for s, n in shares.items()}
    a = account(cash, costs, held, recording=True, cash_first=mode, **settings)
    answer, a, records = model.rebalance(a, list(targets), list(prices.items()), 0, "rebalance")
    return answer.number, "".join(chr(r.symbol >> 56) for r in records), a.cash


# Document 02, request 1. At a price of 7 a gap of 1 becomes 142,857 micro-shares, which are worth 0.
CASH_FIRST = [
    ("a sale below the floor", cash_first(0, FIFTEEN, {A: 1, B: 1}, {A: 10, B: 25}), (0, "BA", 5)),
    ("a sale below the floor, by symbol", cash_first(0, FIFTEEN, {A: 1, B: 1}, {A: 10, B: 25}, mode=False), (0, "B", 10)),
    ("a sale for its commission", cash_first(0, FIFTEEN, {A: 1, B: 1, C: 1}, {A: 10, B: 15, C: 25}), (0, "BCA", 5)),
    ("a sale at price 0", cash_first(100, Costs(0.0, 10_000.0, 0), {B: 1}, {A: 25, B: 20}, [(A, 0.25)]), (0, "BA", 50)),
    ("buys worth 0", cash_first(20, FREE, {B: 1}, {A: 7, B: 80, C: 30, D: 7}, [(D, 0.01), (C, 0.3), (A, 0.01)], quantity_step=1),
     (0, "ABDC", 70)),
    ("a buy worth 0 under a floor", cash_first(85, FIFTEEN, {B: 1}, {A: 7, B: 15}, [(A, 0.01)], quantity_step=1), (0, "BA", 70)),
    ("a sale slipped below the floor", cash_first(0, Costs(0.0, 5_000.0, 15), {A: 1, B: 1}, {A: 20, B: 50}), (0, "BA", 5)),
    ("a sale cut below the floor", cash_first(0, FIFTEEN, {A: 2, B: 1}, {A: 13, B: 25}, max_order_value=25), (0, "BA", 8)),
]


def grown(*parts, accounts=None):
    """The answer for a group; done, also the figure, the group's change, each account's, and each part's first sum, change and growth."""
    answer, h = house.house_return(len(parts[0]) if accounts is None else accounts, parts)
    if answer != model.DONE:
        return answer
    return answer, h.figure, h.sums.group, h.sums.own, list(zip(h.sums.firsts, h.sums.gains, h.growths))


def kept(n):
    return n, n


TOP = 2**63 - 1
FAR, LOST = (-1, TOP), (10, 0)
LATE, GONE = (None, 0), (0, None)
# A part of one account that the product of many overflows by.
STEEP = [(1, 2**56)]

# Document 02, request 2. A part is a list of equities at both ends, a pair an account.
HOUSE = [
    # By themselves the accounts grow by 23.2 % and by 100 %: 61.6 % on average.
    ("a trial account", grown([(1_000, 1_232), (24, 48)]), (0, 0.25, 256, [232, 24], [(1_024, 256, 0.25)])),
    ("a deposit between parts", grown([(100, 125)], [(1_000, 1_250)]), (0, 0.5625, 275, [275], [(100, 25, 0.25), (1_000, 250, 0.25)])),
    ("accounts absent at one end", grown([(100, 150), (None, 900), (50, None)]), (0, 0.5, 50, [50, 0, 0], [(100, 50, 0.5)])),
    ("each over its own parts", grown([(100, 150), LATE], [GONE, (80, 60)], [(200, 100), (200, 300)]),
     (0, 0.125, 30, [-50, 80], [(100, 50, 0.5), (80, -20, -0.25), (400, 0, 0.0)])),
    ("1 plus the growth, less 1", grown([(100, 110)]), (0, 0.10000000000000009, 10, [10], [(100, 10, 0.1)])),
    ("sums before doubles", grown([kept(2**53), kept(1), (1, 2**52 + 2)])[4], [(2**53 + 2, 2**52 + 1, 0.5)]),
    ("doubles before the quotient", grown([(3, 2**53 + 4)])[4], [(3, 2**53 + 1, 3002399751580330.5)]),
    ("more than all lost", grown([(4, -8)], [(4, -8)]), (0, 3.0, -24, [-24], [(4, -12, -3.0)] * 2)),
    ("an infinite figure", grown(*[STEEP] * 64)[1], float("inf")),
    ("all lost after infinity", str(grown(*[STEEP] * 63, [LOST])[1]), "nan"),
    ("all lost before infinity", grown([LOST], *[STEEP] * 63)[1], -1.0),
    ("2^63 on the way", grown([kept(TOP), kept(1), kept(-1)]), (0, 0.0, 0, [0, 0, 0], [(TOP, 0, 0.0)])),
    ("a first sum of 2^63", grown([kept(TOP), kept(1)]), 15),
    ("32 accounts at the top", grown([kept(TOP)] * 32), 15),
    ("last equities of 2^63", grown([kept(TOP), (-1, 1)])[3], [0, 2]),
    ("a change of 2^63 alone", grown([FAR, LOST], [LOST, kept(1)]), 15),
    ("a change of 2^63 - 1", grown([(0, TOP), LOST], [LOST, kept(1)])[3], [TOP - 10, -10]),
    ("a part's change of 2^63 alone", grown([(1, TOP), (1, 3)], [LOST, kept(1)]), 15),
    ("a part's change of 2^63 - 1", grown([(1, TOP), (1, 2)], [LOST, kept(1)])[3], [TOP - 11, 1]),
    ("an account's change of 2^63 alone", grown([(1, TOP), LOST], [(1, 3), LOST]), 15),
    ("an account's change of 2^63 - 1", grown([(1, TOP), LOST], [(1, 2), LOST])[3], [TOP, -20]),
    ("the group's change of 2^63 alone", grown([(1, TOP), LATE], [GONE, (1, 3)]), 15),
    ("the group's change of 2^63 - 1", grown([(1, TOP), LATE], [GONE, (1, 2)])[2], TOP),
    ("15 in a later part than 14", grown([kept(0)], [FAR]), 15),
    ("15 of the group, 14 in a part", grown([(1, TOP), LATE], [GONE, (1, 3)], [kept(0), LATE]), 15),
    ("first sums of 0 and -1", [grown([kept(1)], [(n, 1)]) for n in (0, -1)], [14, 14]),
    ("a first sum of 1", grown([kept(1), (0, 2)])[1], 2.0),
    ("a part with nobody", grown([(1, 2), (3, 4)], [GONE, LATE]), 14),
    ("no parts", grown(accounts=1), 6),
    ("64 parts, and 65", [grown(*[[kept(1)]] * 64)[1], grown(*[[FAR]] * 65)], [0.0, 6]),
    ("no accounts, and 33", [grown([]), grown([FAR] * 33)], [13, 13]),
    ("33 accounts in no parts", grown(accounts=33), 13),
]


def bought(cash, ceiling):
    """100 whole shares at 1,000, 10 bps and no floor: shares filled, trims, shortfall, cost, cash left."""
    a = account(cash, Costs(10.0, 0.0, 0, ceiling), recording=True)
    a, record = model.filled(a, Order(A, 100 * WHOLE, 1_000, 0.0), 0, "rebalance")
    return record.quantity // WHOLE, a.trimmed_count, a.trimmed_shortfall, record.cost, a.cash


def sold(ceiling):
    """One share at 20 with cash 5, at 20,000 bps: shares left, trims, cash left."""
    a = account(5, Costs(20_000.0, 0.0, 0, ceiling), {A: Position(WHOLE, 20, 0, 20)})
    a = fill(a, -WHOLE, 20)
    return a.positions[A].quantity // WHOLE, a.trimmed_count, a.cash


def two_sold(ceiling):
    """Two sales in cash-first mode, for 10 and for 25, at 20,000 bps."""
    return cash_first(0, Costs(20_000.0, 0.0, 0, ceiling), {A: 1, B: 1}, {A: 10, B: 25})


def opening(costs, places=1):
    return model.opened(1, costs, places)[0].number


# Document 02, request 3.
CEILING = [
    ("a flat fee", [FLAT.commission(n) for n in (0, 10_000, 1_000_000)], [100, 100, 100]),
    ("the same costs without a ceiling", [TEN_BPS.commission(n) for n in (10_000, 1_000_000)], [100, 1_000]),
    ("below, at and above the ceiling", [Costs(10.0, 0.0, 0, 50).commission(n) for n in (49_499, 49_500, 50_499, 50_500)],
     [49, 50, 50, 50]),
    ("a buy whole by the ceiling", bought(100_050, 50), (100, 0, 0, 50, 0)),
    ("the same without a ceiling", bought(100_050, 0), (99, 1, 1_000, 99, 951)),
    ("a cent less", bought(100_049, 50), (99, 1, 1_000, 50, 999)),
    ("a part that pays the ceiling", bought(60_050, 50), (60, 1, 40_000, 50, 0)),
    ("the same part without a ceiling", bought(60_050, 0), (59, 1, 41_000, 59, 991)),
    ("a part whose next step would pay it", bought(50_049, 50), (49, 1, 51_000, 49, 1_000)),
    ("a sale filled by the ceiling", sold(25), (0, 0, 0)),
    ("the same without a ceiling", sold(0), (1, 0, 5)),
    ("a ceiling a cent higher", sold(26), (1, 0, 5)),
    ("cash first by the ceiling", two_sold(15), (0, "BA", 5)),
    ("both in the first group by the ceiling", two_sold(10), (0, "AB", 15)),
    ("neither without a ceiling", two_sold(0), (0, "", 0)),
    ("a ceiling below the floor", opening(Costs(0.0, 0.0, 100, 99)), 1),
    ("a negative ceiling", [opening(Costs(0.0, 0.0, n, -1)) for n in (0, 100)], [1, 1]),
    ("a ceiling equal to the floor", opening(FLAT), 0),
    ("a ceiling over a floor of 0", opening(Costs(0.0, 0.0, 0, 1)), 0),
    ("a bad ceiling before no place", opening(Costs(0.0, 0.0, 100, 99), 0), 1),
    ("a bad ceiling in an account", model.total_equity(account(1, Costs(0.0, 0.0, 100, 99)), [])[0].number, 11),
]

CASES = [
    ("a", [model.value(1, 999_999), model.value(1, 1_000_000), model.value(-1, 999_999)], [0, 1, 0]),
    ("b", [TEN_BPS.commission(1_000_000), TEN_BPS.commission(10_000)], [1_000, 100]),
    ("c", [Costs(1_000.0, 0.0, 0).commission(n) for n in (5, 4)], [1, 0]),
    ("d", case_d(), (99 * WHOLE, 1_000, 900)),
    ("e", case_e(), ({}, 1, 10)),
    ("f", case_f(), ({}, 0)),
    ("g", case_g(), [5, 0]),
    ("h", [model.sized(*gap) for gap in ((1_999, 1_000, WHOLE), (-1_999, 1_000, WHOLE), (1_999, 1_000, 1_000))],
     [1_000_000, -1_000_000, 1_999_000]),
    ("i, bought", fills((10, 100), (10, 201))[1::2], (150, 3_010)),
    ("i, sold 5", fills((10, 100), (10, 201), (-5, 160))[2:], (50, 2_260)),
    ("i, sold 20", fills((10, 100), (10, 201), (-5, 160), (-20, 140)), (-5 * WHOLE, 140, -100, -700)),
    ("j", fills((-10, 100), (4, 90))[1:], (233, 40, -1_400)),
    ("k", [case_k(5_000), case_k(5_001)], [0, 1]),
    ("l", [case_l(True), case_l(False)[1]], [(30, 0), 1]),
    ("-2^63 covered", model.after_fill(Position(-(2**63), 0, 0, 0), model.clamp(2**63), 1).quantity, -1),
]


def refusals():
    """Every number, and the first of several in the paper's order."""
    good, many = account(1_000), account(1_000, positions={symbol(f"S{k}"): Position() for k in range(64)})
    recording = replace(many, settings=replace(many.settings, recording=True))
    unsound = account(-1)
    call = lambda a, targets, prices, places=64: model.rebalance(a, targets, prices, 0, "rebalance", places)[0]
    nan, bad = float("nan"), symbol(" ")
    yield "opening below 0", model.opened(-1, FREE)[0], 1
    yield "opening with a slippage over 10,000", model.opened(1, Costs(0.0, 10_000.5, 0))[0], 1
    yield "opening with no place", model.opened(1, FREE, 0)[0], 10
    yield "a step of 0", model.with_setting(good, quantity_step=0)[0], 1
    yield "a trade cap of 0", model.with_setting(good, max_trades_per_rebalance=0)[0], 0
    yield "unsound before a bad setting", model.with_setting(unsound, quantity_step=0)[0], 11
    yield "unsound before all", call(unsound, [(bad, nan)] * 65, [(A, 0)]), 11
    yield "a long list before a bad symbol", call(good, [(bad, nan)] * 65, [(A, 0)]), 6
    yield "many prices", call(good, [], [(symbol(f"S{k}"), 1) for k in range(129)]), 6
    yield "a bad symbol before a pair", call(good, [(bad, nan)] * 2, [(A, 0)]), 2
    yield "a pair before a weight", call(good, [(A, nan)] * 2, [(A, 0)]), 3
    yield "one symbol in both lists", call(good, [(A, 0.5)], [(A, 1)]), 0
    yield "a weight before a price", call(good, [(A, nan)], [(A, 0)]), 5
    yield "a price before the places", call(recording, [(A, 0.5)], [(A, 0)], 63), 4
    yield "63 places before the room", call(recording, [(A, 0.5)], [(A, 1)], 63), 8
    yield "65 symbols", call(recording, [(A, 0.5)], [(A, 1)]), 7
    yield "64 symbols", call(recording, [(symbol("S0"), 0.5)], [(A, 1)]), 0
    yield "63 places while nothing is recorded", call(many, [], [], 63), 0
    yield "a close with no place", model.close(recording, symbol("S0"), 1, 0, "stop_exit", 0)[0], 8
    yield "a close of a flat position", model.close(recording, symbol("S0"), 1, 0, "stop_exit")[0], 9
    yield "a close of an absent one", model.close(good, A, 1, 0, "stop_exit")[0], 9
    yield "a close at 0", model.close(good, A, 0, 0, "stop_exit")[0], 4
    yield "a full equity buffer", model.record_return(good, [], 1, 9)[0], 10
    yield "a full return buffer, no return due", model.record_return(account(0), [], 9, 0)[0], 10
    yield "a fill at -1", model.apply_fill(Position(), 1, -1)[0], 4
    yield "a fill at 0", model.apply_fill(Position(), 1, 0)[0], 0
    yield "a fill of an unsound position", model.apply_fill(Position(0, 1, 0, 0), 1, -1)[0], 11


def main():
    failures = 0
    first = CASES + [(name, answer.number, number) for name, answer, number in refusals()]
    second = CASH_FIRST + HOUSE + CEILING + SAVED + PLACES
    for paper, (name, found, expected) in [("01", row) for row in first] + [("02", row) for row in second]:
        if found != expected:
            failures += 1
            print(f"FAILS: {name}: {found}, and document {paper} says {expected}")
    print(f"model: {len(first)} cases of document 01 and {len(second)} of document 02, {failures} failures")
    sys.exit(failures > 0)


if __name__ == "__main__":
    main()
