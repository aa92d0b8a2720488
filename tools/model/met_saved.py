"""What saved accounts and files met, worked out on the model: no answer comes from here, only what a run says that it met. A run must
meet each once in 1,000 calls."""
from collections import Counter
from math import copysign

from model import BOTTOM, MOST_COUNT, TOP

LONGEST = 3_328


def rates(a):
    c = a.settings.costs
    return [c.commission_bps, a.settings.no_trade_band_bps, c.slippage_bps]


def amounts(a):
    return [a.last_notional, a.trimmed_shortfall, a.previous_equity, *(n for p in a.positions.values() for n in vars(p).values())]


def counts(a):
    return [a.last_order_count, a.trimmed_count, a.record_count, a.equity_count, a.return_count]


def lengths(a):
    return {len(symbol.to_bytes(8, "big").rstrip(b"\0")) for symbol in a.positions}


ACCOUNTS = {
    "accounts without positions": lambda a: not a.positions,
    "with 64": lambda a: len(a.positions) == 64,
    "with symbols of 1 and of 8 bytes": lambda a: {1, 8} <= lengths(a),
    "with a negative zero": lambda a: any(x == 0.0 and copysign(1.0, x) < 0.0 for x in rates(a)),
    "without a cap": lambda a: a.settings.max_trades_per_rebalance is None,
    "with a cap of 0": lambda a: a.settings.max_trades_per_rebalance == 0,
    "with a cap of 2^64 - 1": lambda a: a.settings.max_trades_per_rebalance == MOST_COUNT,
    "with a ceiling": lambda a: a.settings.costs.max_commission != 0,
    "with the lowest number": lambda a: BOTTOM in amounts(a),
    "with the highest": lambda a: TOP in amounts(a),
    "with the highest count": lambda a: MOST_COUNT in counts(a),
}
ROOMS = {
    "saved into the longest file": lambda answer, length, room: length == LONGEST,
    "into just enough room": lambda answer, length, room: length == room,
    "refused with 11": lambda answer, length, room: answer == 11,
    "with 19": lambda answer, length, room: answer == 19,
}
FAULTS = [
    "16: the end before the form",
    "16: the end before a number",
    "16: the end within a number",
    "16: the end before a flag",
    "16: the end before a cap mark",
    "16: the end before a symbol length",
    "16: the end within a symbol",
    "16: the end before the position count",
    "16: the end after nine groups of a number",
    "17: a tenth group above 1",
    "17: a number not shortest",
    "17: the form not shortest",
    "17: a flag not shortest",
    "17: the position count not shortest",
    "17: a symbol length not shortest",
    "11: the form below",
    "11: the form above",
    "11: a flag above",
    "11: a cap mark above",
    "11: a negative zero",
    "11: the position count above",
    "11: a symbol length below",
    "11: a symbol length above",
    "11: a symbol length above at the end",
    "18: bytes left over",
    "11: a symbol is bad",
    "11: symbols don't ascend",
    "11: another fault of the account",
]
READ = ["files read", "files that are what their account gives"]
ALL = [*ACCOUNTS, *ROOMS, *READ, *FAULTS]


def account(a, room, answer, length):
    rows = [name for name, holds in ACCOUNTS.items() if holds(a)]
    return Counter(rows + [name for name, holds in ROOMS.items() if holds(answer, length, room)])


def accepted(again):
    return Counter(READ[:1 + again])


def refused(answer, why):
    return Counter([f"{answer}: {why}"])
