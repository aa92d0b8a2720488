"""What rebalances in cash-first mode met, worked out on the model: no answer comes from here, only what a run says that it met."""
from collections import Counter
from dataclasses import replace

import model

# A run must meet each ten times in 1,000 scenarios.
ALL = [
    "rebalances",
    "rebalances of 32 orders and more",
    "rebalances with a sale that lowers cash",
    "rebalances in another order than sells before buys",
    "rebalances that leave another account than sells before buys",
    "rebalances filled whole, and not by sells before buys",
    "rebalances with a group planned in another order",
    "orders",
    "orders cut down or skipped",
    "sales that lower cash",
    "sales that change no cash",
    "buys that change no cash",
    "orders that slippage puts into their group",
    "orders that a cap puts into their group",
]


def lowers(costs, order):
    return model.cash_change(costs, order) < 0


def after(account, orders):
    """The cash and positions that orders leave, and how many of them don't fill whole."""
    account, short = replace(account, settings=replace(account.settings, recording=True)), 0
    for order in orders:
        account, record = model.filled(account, order, 0, "rebalance")
        short += record is None or record.quantity != order.quantity
    return (account.cash, account.positions), short


def uncut(account, targets, prices):
    """The orders by symbol, were there no caps."""
    free = replace(account.settings, max_order_value=0, max_trades_per_rebalance=None, max_rebalance_notional=0)
    return {o.symbol: o for o in model.ordered(replace(account, settings=free), targets, prices)}


def rebalance(account, targets, prices):
    """How often a rebalance meets each."""
    costs, met = account.settings.costs, Counter()
    orders = model.ordered(account, targets, prices)
    running = model.running_order(account.settings, orders)
    met["rebalances"] += 1
    met["rebalances of 32 orders and more"] += len(orders) >= 32
    met["rebalances with a group planned in another order"] += running != sorted(orders, key=lambda o: lowers(costs, o))
    left, short = after(account, running)
    met["orders cut down or skipped"] += short
    sells_first = sorted(orders, key=lambda o: (o.quantity > 0, o.symbol))
    if running != sells_first:
        other, other_short = after(account, sells_first)
        met["rebalances in another order than sells before buys"] += 1
        met["rebalances that leave another account than sells before buys"] += left != other
        met["rebalances filled whole, and not by sells before buys"] += short == 0 and other_short > 0
    each(account, orders, uncut(account, targets, prices), met)
    met["rebalances with a sale that lowers cash"] += met["sales that lower cash"] > 0
    return met


def each(account, orders, planned, met):
    costs = account.settings.costs
    unslipped = replace(costs, slippage_bps=0.0)
    for order in orders:
        change, sells = model.cash_change(costs, order), order.quantity < 0
        met["orders"] += 1
        met["sales that lower cash"] += sells and change < 0
        met["sales that change no cash"] += sells and change == 0
        met["buys that change no cash"] += not sells and change == 0
        met["orders that slippage puts into their group"] += lowers(unslipped, order) != (change < 0)
        met["orders that a cap puts into their group"] += lowers(costs, planned[order.symbol]) != (change < 0)


def told(run, names, met, count, least, times):
    """Tells how often each was met, and what was met too seldom, and returns the latter."""
    missed = [name for name in names if met[name] * 1_000 < count * times]
    print(f"{run}: " + ", ".join(f"{name} {met[name]}" for name in names))
    if missed:
        print(f"{run}: met fewer than {least}: {', '.join(missed)}")
    return missed
