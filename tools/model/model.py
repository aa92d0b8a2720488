"""Document 01, and requests 1, 3 and 9 of document 02, as a plain program: each rule once, in the paper's words. It knows nothing
of the Rust nor of the port.

Python's int is exact and its float is binary64. A call takes the account as it was and returns a new one; a refusal
returns its number with its place and the account as given. Quantities are micro-shares, symbols the number of their eight bytes.
"""
from dataclasses import dataclass, field, replace
from math import isfinite, isnan, trunc
from typing import NamedTuple

SCALE = 1_000_000
TOP, BOTTOM = 2**63 - 1, -(2**63)
MOST_COUNT = 2**64 - 1

DONE, BAD_SETTING, BAD_SYMBOL, TWICE, BAD_PRICE, BAD_WEIGHT, OVER_BOUND = range(7)
TOO_MANY, NO_RECORD_ROOM, NOT_HELD, NO_SERIES_ROOM, NOT_SOUND, BAD_SERIES = range(7, 13)

MOST_POSITIONS, MOST_TARGETS, MOST_PRICES = 64, 64, 128


# ---- Sums

def clamp(n):
    return max(BOTTOM, min(TOP, n))


def over(a, b):
    """a / b, truncated toward zero."""
    q = abs(a) // abs(b)
    return q if (a < 0) == (b < 0) else -q


def value(quantity, price):
    """'quantity times price over SCALE, exact product, truncated toward zero, clamped to i64'."""
    return clamp(over(quantity * price, SCALE))


def notional(quantity, price):
    return value(abs(quantity), price)


def snapped(n, step):
    return n // step * step


def to_i64(x):
    """'f64 to i64 truncates, saturates, and gives 0 for NaN.'"""
    if isnan(x):
        return 0
    if not isfinite(x):
        return TOP if x > 0 else BOTTOM
    return clamp(trunc(x))


def rounded(x):
    """'`round` takes halves away from zero.' The difference is exact, so the double just below a half stays 0."""
    if not isfinite(x) or abs(x) >= 2.0**52:
        return x
    whole = trunc(x)
    if abs(x - whole) >= 0.5:
        whole += 1 if x > 0 else -1
    return float(whole)


# ---- What an account is made of

@dataclass(frozen=True)
class Costs:
    commission_bps: float
    slippage_bps: float
    min_commission: int
    max_commission: int = 0

    def commission(self, amount):
        """'round(notional × bps / 10,000), multiplied first, and at least `min_commission`'; 'the lesser of today's commission
        and the ceiling', '0 meaning none'."""
        today = max(to_i64(rounded(float(amount) * self.commission_bps / 10_000.0)), self.min_commission)
        return min(today, self.max_commission) if self.max_commission != 0 else today

    def effective_price(self, price, sign):
        """'round(price × (1 + sign × slippage / 10,000))'."""
        return to_i64(rounded(float(price) * (1.0 + sign * self.slippage_bps / 10_000.0)))


@dataclass(frozen=True)
class Settings:
    costs: Costs
    quantity_step: int = SCALE
    min_order_value: int = 0
    max_order_value: int = 0
    no_trade_band_bps: float = 0.0
    max_trades_per_rebalance: int | None = None
    max_rebalance_notional: int = 0
    recording: bool = False
    cash_first: bool = False

    def good(self):
        """'1 also when a non-zero ceiling is below `min_commission`'; one equal to it is a flat fee."""
        c = self.costs
        return (min(c.min_commission, self.min_order_value, self.max_order_value, self.max_rebalance_notional) >= 0
                and self.quantity_step >= 1
                and (c.max_commission == 0 or c.max_commission >= c.min_commission)
                and isfinite(c.commission_bps) and c.commission_bps >= 0.0
                and isfinite(self.no_trade_band_bps) and self.no_trade_band_bps >= 0.0
                and 0.0 <= c.slippage_bps <= 10_000.0)


@dataclass(frozen=True)
class Position:
    quantity: int = 0
    average: int = 0
    realized: int = 0
    total_cost: int = 0

    def sound(self):
        """'A flat position has average and total cost 0; otherwise the average is at least 0, a long's total cost is at
        least, and a short's at most, its market value at its average.'"""
        if self.quantity == 0:
            return self.average == 0 and self.total_cost == 0
        worth = value(self.quantity, self.average)
        covered = self.total_cost >= worth if self.quantity > 0 else self.total_cost <= worth
        return self.average >= 0 and covered


@dataclass(frozen=True)
class Account:
    cash: int
    settings: Settings
    positions: dict = field(default_factory=dict)
    last_order_count: int = 0
    last_notional: int = 0
    trimmed_count: int = 0
    trimmed_shortfall: int = 0
    record_count: int = 0
    equity_count: int = 0
    return_count: int = 0
    previous_equity: int = 0

    def held(self):
        """The positions in symbol order, flat ones too."""
        return sorted(self.positions.items())

    def sound(self):
        return (self.settings.good() and self.cash >= 0 and len(self.positions) <= MOST_POSITIONS
                and all(good_symbol(s) and p.sound() for s, p in self.positions.items()))


# 'all zeros from a refused opening'; its step of 0 makes it unsound.
ZEROS = Account(0, Settings(Costs(0.0, 0.0, 0), quantity_step=0))


@dataclass(frozen=True)
class Record:
    sequence: int
    period: int
    kind: str
    symbol: int
    quantity: int
    price: int
    reference_price: int
    notional: int
    reference_notional: int
    cost: int
    cash_delta: int
    cash_after: int


@dataclass(frozen=True)
class Order:
    symbol: int
    quantity: int
    price: int
    drift: float

    def effective_price(self, costs):
        return costs.effective_price(self.price, 1.0 if self.quantity > 0 else -1.0)


def good_symbol(symbol):
    """'1 to 8 bytes, each 33 to 126, padded with zeros'."""
    name = symbol.to_bytes(8, "big").rstrip(b"\0")
    return len(name) > 0 and all(33 <= byte <= 126 for byte in name)


# ---- Refusals: 'Check order where several apply: 11, 1, 6, 2, 3, 5, 4, 8, 7, 9, 10, 12.'

class Entry(NamedTuple):
    """'the list, targets or prices, and the first offending index'."""
    list: str
    index: int


# 'Calls with one symbol tell index 0': of prices, since such a call has no targets.
ALONE = Entry("prices", 0)


class Answer(NamedTuple):
    """A number, and the place that it tells: an entry, a byte of a file, or None."""
    number: int
    place: Entry | int | None = None


def first(*checks):
    """The answer of the first check that holds. A check is a number and a test, made only in its turn, that tells whether it holds, or
    at which entry."""
    for number, test in checks:
        found = test()
        if found:
            return Answer(number, None if found is True else found)
    return Answer(DONE)


def unsound(account):
    return (NOT_SOUND, lambda: not account.sound())


def earliest(targets, prices, index):
    """'Targets are examined before prices within each number': the first entry of either that offends, by its index in a list."""
    for name, entries in (("targets", targets), ("prices", prices)):
        k = index(entries)
        if k is not None:
            return Entry(name, k)
    return None


def bad_symbol(entries):
    return next((k for k, (s, _) in enumerate(entries) if not good_symbol(s)), None)


def twice(entries):
    """'the index of the second appearance whose index is smallest'."""
    names = [s for s, _ in entries]
    return next((k for k, s in enumerate(names) if s in names[:k]), None)


def bad_price(entries):
    return next((k for k, (_, p) in enumerate(entries) if p < 1), None)


def lists(targets, prices):
    """The checks on lists that a call is given."""
    return [
        (OVER_BOUND, lambda: len(targets) > MOST_TARGETS or len(prices) > MOST_PRICES),
        (BAD_SYMBOL, lambda: earliest(targets, prices, bad_symbol)),
        (TWICE, lambda: earliest(targets, prices, twice)),
        (BAD_WEIGHT, lambda: not all(isfinite(w) for _, w in targets)),
        (BAD_PRICE, lambda: earliest([], prices, bad_price)),
    ]


def no_room(account, places, needed):
    return (NO_RECORD_ROOM, lambda: account.settings.recording and places < needed)


# ---- Opening and settings

def opened(cash, costs, equity_places=1):
    """The answer and the account; the cash goes to the equity buffer's first place."""
    settings = Settings(costs)
    answer = first((BAD_SETTING, lambda: cash < 0 or not settings.good()), (NO_SERIES_ROOM, lambda: equity_places < 1))
    if answer.number != DONE:
        return answer, ZEROS
    return answer, Account(cash, settings, equity_count=1, previous_equity=cash)


def with_setting(account, **change):
    settings = replace(account.settings, **change)
    answer = first(unsound(account), (BAD_SETTING, lambda: not settings.good()))
    return answer, account if answer.number != DONE else replace(account, settings=settings)


# ---- Queries

def equity_of(account, prices):
    """'cash plus the finished sum of position values in symbol order, each step saturating; a missing price counts 0'."""
    total = 0
    for symbol, p in account.held():
        total = clamp(total + value(p.quantity, prices.get(symbol, 0)))
    return clamp(account.cash + total)


def weights_of(account, prices):
    """'in symbol order, without flat positions and none at equity 0'."""
    equity = equity_of(account, prices)
    if equity == 0:
        return []
    return [(s, float(value(p.quantity, prices.get(s, 0))) / float(equity)) for s, p in account.held() if p.quantity]


def asked(account, prices, query):
    answer = first(unsound(account), *lists([], prices))
    return answer, query(account, dict(prices)) if answer.number == DONE else None


def total_equity(account, prices):
    return asked(account, prices, equity_of)


def current_weights(account, prices):
    return asked(account, prices, weights_of)


def unpriced_holding(account, prices):
    """'tells the first in symbol order'."""
    return asked(account, prices, lambda a, priced: next((s for s, p in a.held() if p.quantity and s not in priced), None))


def snapshot(account, prices):
    """Cash, equity, open positions, realized profit, weights. '`snapshot` adds profits in that order.'"""
    def query(a, priced):
        realized = 0
        for _, p in a.held():
            realized = clamp(realized + p.realized)
        count = sum(1 for _, p in a.held() if p.quantity)
        return a.cash, equity_of(a, priced), count, realized, weights_of(a, priced)
    return asked(account, prices, query)


def position(account, symbol):
    answer = first(unsound(account), (BAD_SYMBOL, lambda: not good_symbol(symbol) and ALONE))
    return answer, account.positions.get(symbol) if answer.number == DONE else None


# ---- Planning

def drift_of(amount, equity):
    """'(absolute value / equity) × 10,000, divided first'."""
    return float(abs(amount)) / float(equity) * 10_000.0


def truncated_to(quantity, price, step, most):
    """'the quantity keeps its sign and becomes maximum × SCALE / price, truncated and snapped to the step'."""
    size = clamp(snapped(most * SCALE // price, step))
    return -size if quantity < 0 else size


def sized(gap, price, step):
    """'the gap becomes shares, truncated, snapped toward zero to the step, then clamped'."""
    size = snapped(abs(gap) * SCALE // price, step)
    return clamp(size if gap > 0 else -size)


def planned(settings, symbol, quantity, price, drift):
    """The order that a close or a target becomes, or None where it is skipped."""
    if settings.no_trade_band_bps > 0.0 and drift <= settings.no_trade_band_bps:
        return None
    if 0 < settings.max_order_value < notional(quantity, price):
        quantity = truncated_to(quantity, price, settings.quantity_step, settings.max_order_value)
    if quantity == 0 or notional(quantity, price) < settings.min_order_value:
        return None
    return Order(symbol, quantity, price, drift)


def plan(account, targets, prices, equity):
    settings, wanted = account.settings, dict(targets)
    orders = []
    # 'Priced open holdings absent from targets are closed, in symbol order, whole, without the step.'
    for symbol, p in account.held():
        if p.quantity and symbol not in wanted and symbol in prices:
            drift = drift_of(value(p.quantity, prices[symbol]), equity)
            orders.append(planned(settings, symbol, clamp(-p.quantity), prices[symbol], drift))
    # 'Then targets in list order; an unpriced one is passed over.'
    for symbol, weight in targets:
        if symbol in prices:
            price = prices[symbol]
            worth = value(account.positions.get(symbol, Position()).quantity, price)
            gap = clamp(to_i64(float(equity) * weight) - worth)
            quantity = sized(gap, price, settings.quantity_step)
            orders.append(planned(settings, symbol, quantity, price, drift_of(gap, equity)))
    return [order for order in orders if order is not None]


def admitted(settings, orders):
    """'With a trade cap or notional cap the plan is sorted by falling drift, then symbol.'"""
    trades, cap = settings.max_trades_per_rebalance, settings.max_rebalance_notional
    if trades is None and cap == 0:
        return orders
    kept, spent = [], 0
    for order in sorted(orders, key=lambda o: (-o.drift, o.symbol)):
        if trades is not None and len(kept) >= trades:
            break
        amount = notional(order.quantity, order.price)
        if cap > 0 and cap == spent:
            break
        if cap > 0 and amount > cap - spent:
            part = truncated_to(order.quantity, order.price, settings.quantity_step, cap - spent)
            if part != 0 and notional(part, order.price) >= settings.min_order_value:
                kept.append(replace(order, quantity=part))
            break
        spent += amount
        kept.append(order)
    return kept


def cash_change(costs, order):
    """'the exact cash change of each order filled whole'. Unclamped: only its sign is asked, and a clamp keeps that."""
    price = order.effective_price(costs)
    return -(value(order.quantity, price) + costs.commission(notional(order.quantity, price)))


def running_order(settings, orders):
    """'those that lower no cash first, then the others, each group by symbol'."""
    if not settings.cash_first:
        return orders
    return sorted(orders, key=lambda o: (cash_change(settings.costs, o) < 0, o.symbol))


def ordered(account, targets, prices):
    """The admitted orders of a rebalance. 'At equity 0 or below the call is done with no orders'."""
    equity = equity_of(account, prices)
    return admitted(account.settings, plan(account, targets, prices, equity)) if equity > 0 else []


# ---- Filling

def after_fill(p, quantity, price):
    """The position after a fill, as in 001."""
    if quantity == 0:
        return p
    worth = value(quantity, price)
    net = clamp(p.quantity + quantity)
    if p.quantity == 0:
        return replace(p, quantity=quantity, average=price, total_cost=worth)
    if (p.quantity > 0) == (quantity > 0):
        total = clamp(p.total_cost + worth)
        return replace(p, quantity=net, average=average(total, net), total_cost=total)
    closed = min(clamp(abs(quantity)), clamp(abs(p.quantity)))
    gain = price - p.average if p.quantity > 0 else p.average - price
    p = replace(p, realized=clamp(p.realized + value(closed, gain)))
    if net == 0:
        return replace(p, quantity=0, average=0, total_cost=0)
    if (net > 0) == (p.quantity > 0):
        # A cover subtracts a positive cost from a negative total, so that a short's average rises.
        total = clamp(p.total_cost - value(closed, p.average))
        return replace(p, quantity=net, average=average(total, net), total_cost=total)
    return replace(p, quantity=net, average=price, total_cost=value(net, price))


def average(total, quantity):
    return clamp(over(total * SCALE, quantity)) if quantity else 0


def apply_fill(p, quantity, price):
    """'called by itself it answers 11 for an unsound position and 4 only below 0'."""
    answer = first((NOT_SOUND, lambda: not p.sound()), (BAD_PRICE, lambda: price < 0 and ALONE))
    return answer, after_fill(p, quantity, price) if answer.number == DONE else p


def need(costs, quantity, price):
    """'notional plus commission, saturating'; 'a zero fill needs 0'."""
    if quantity == 0:
        return 0
    amount = notional(quantity, price)
    return clamp(amount + costs.commission(amount))


def affordable(settings, cash, request, price):
    """'the largest step multiple, not above the request, whose need fits cash'; 'at cash 0 it is nothing'. Nor is it
    anything at a price that no buy has, 0 or below."""
    if cash == 0 or price < 1:
        return 0
    fits, fails = 0, request // settings.quantity_step + 1
    while fails - fits > 1:
        middle = (fits + fails) // 2
        if need(settings.costs, middle * settings.quantity_step, price) <= cash:
            fits = middle
        else:
            fails = middle
    return fits * settings.quantity_step


def filled(account, order, period, kind):
    """The account after one order, and its record, or None where nothing filled or nothing is recorded."""
    settings, quantity = account.settings, order.quantity
    price = order.effective_price(settings.costs)
    if quantity > 0 and need(settings.costs, quantity, price) > account.cash:
        quantity = affordable(settings, account.cash, quantity, price)
        lost = notional(order.quantity, price) - notional(quantity, price)
        account = replace(account, trimmed_count=min(MOST_COUNT, account.trimmed_count + 1),
                          trimmed_shortfall=clamp(account.trimmed_shortfall + lost))
        if quantity == 0:
            return account, None
    amount = notional(quantity, price)
    cost = settings.costs.commission(amount)
    cash = clamp(account.cash - clamp(value(quantity, price) + cost))
    if quantity < 0 and cash < 0:
        return account, None
    held = account.positions.get(order.symbol, Position())
    positions = {**account.positions, order.symbol: after_fill(held, quantity, price)}
    after = replace(account, cash=cash, positions=positions)
    if not settings.recording:
        return after, None
    record = Record(account.record_count, period, kind, order.symbol, quantity, price, order.price, amount,
                    notional(quantity, order.price), cost, cash - account.cash, cash)
    return replace(after, record_count=min(MOST_COUNT, account.record_count + 1)), record


# ---- The calls

def fill(account, order, period, kind):
    """One order by itself: the answer, the account, the record."""
    answer = first(unsound(account), (BAD_PRICE, lambda: order.price < 1 and ALONE))
    return answer, *(filled(account, order, period, kind) if answer.number == DONE else (account, None))


def rebalance(account, targets, prices, period, kind, places=MOST_POSITIONS):
    """The answer, the account, the records."""
    together = lambda: len({s for s, _ in targets} | set(account.positions)) > MOST_POSITIONS
    answer = first(unsound(account), *lists(targets, prices), no_room(account, places, MOST_POSITIONS), (TOO_MANY, together))
    if answer.number != DONE:
        return answer, account, []
    orders = ordered(account, targets, dict(prices))
    total = 0
    for order in orders:
        total = clamp(total + notional(order.quantity, order.price))
    account = replace(account, last_order_count=len(orders), last_notional=total)
    records = []
    for order in running_order(account.settings, orders):
        account, record = filled(account, order, period, kind)
        records += [record] if record is not None else []
    return answer, account, records


def close(account, symbol, price, period, kind, places=1):
    """The answer, the account, the records. 'For closing, 8 asks for one place.'"""
    held = account.positions.get(symbol, Position())
    answer = first(unsound(account), (BAD_SYMBOL, lambda: not good_symbol(symbol) and ALONE), (BAD_PRICE, lambda: price < 1 and ALONE),
                   no_room(account, places, 1), (NOT_HELD, lambda: held.quantity == 0))
    if answer.number != DONE:
        return answer, account, []
    account, record = filled(account, Order(symbol, clamp(-held.quantity), price, 0.0), period, kind)
    return answer, account, [record] if record is not None else []


def record_return(account, prices, equity_places=MOST_COUNT, return_places=MOST_COUNT):
    """The answer, the account, the equity and the return written, None where none is."""
    full = lambda: account.equity_count >= equity_places or account.return_count >= return_places
    answer = first(unsound(account), *lists([], prices), (NO_SERIES_ROOM, full))
    if answer.number != DONE:
        return answer, account, None, None
    equity, before = equity_of(account, dict(prices)), account.previous_equity
    gain = None
    if before > 0:
        gain = float(clamp(equity - before)) / float(before)
    elif account.return_count > 0:
        gain = 0.0
    account = replace(account, equity_count=account.equity_count + 1, previous_equity=equity,
                      return_count=account.return_count + (gain is not None))
    return answer, account, equity, gain
