"""What accounts with a commission ceiling met, worked out on the model: no answer comes from here, only what a run says that it met."""
from collections import Counter
from dataclasses import replace

import met
import model

# A run of scenarios must meet each ten times in 1,000 of them, a run of single fills those of a fill once in 1,000.
FILLS = [
    "buys that pay the ceiling",
    "sales that pay the ceiling",
    "fills below the ceiling",
    "fills just at the ceiling",
    "flat fees, the ceiling equal to the floor",
    "buys whole by the ceiling alone",
    "buys cut down to a part that pays the ceiling",
    "buys cut down to a part whose next step would reach it",
    "buys cut down to more than without it",
    "buys cut down to nothing",
    "sales filled by the ceiling alone",
    "sales skipped",
]
ALL = [
    "rebalances",
    "rebalances that leave another account than without a ceiling",
    "rebalances in another cash-first order than without a ceiling",
    "closes that pay the ceiling",
    "openings refused for the ceiling",
] + FILLS


def uncapped(settings):
    return replace(settings, costs=replace(settings.costs, max_commission=0))


def fill(account, order, record):
    """What an order met; the record is None where nothing filled."""
    settings, costs = account.settings, account.settings.costs
    ceiling, today = costs.max_commission, uncapped(settings).costs.commission
    if ceiling == 0:
        return {}
    buys = order.quantity > 0
    if record is None:
        return {"buys cut down to nothing": 1} if buys else {"sales skipped": 1}
    found, paid = Counter(), today(record.notional)
    found["buys that pay the ceiling" if buys else "sales that pay the ceiling"] += paid > ceiling
    found["fills below the ceiling"] += paid < ceiling
    found["fills just at the ceiling"] += paid == ceiling > costs.min_commission
    found["flat fees, the ceiling equal to the floor"] += ceiling == costs.min_commission < paid
    _, other = model.filled(replace(account, settings=uncapped(settings)), order, 0, "rebalance")
    filled = 0 if other is None else other.quantity
    if not buys:
        found["sales filled by the ceiling alone"] += other is None
        return found
    if record.quantity == order.quantity:
        found["buys whole by the ceiling alone"] += filled != order.quantity
        return found
    following = model.notional(record.quantity + settings.quantity_step, record.price)
    found["buys cut down to a part that pays the ceiling"] += paid > ceiling
    found["buys cut down to a part whose next step would reach it"] += paid < ceiling <= today(following)
    found["buys cut down to more than without it"] += filled < record.quantity
    return found


def filled(account, orders):
    """What orders met, one after the other, and the account after them."""
    account, found = replace(account, settings=replace(account.settings, recording=True)), Counter()
    for order in orders:
        before, (account, record) = account, model.filled(account, order, 0, "rebalance")
        found.update(fill(before, order, record))
    return found, account


def rebalance(account, targets, prices):
    orders = model.ordered(account, targets, prices)
    free = replace(account, settings=uncapped(account.settings))
    ran, other = (model.running_order(a.settings, orders) for a in (account, free))
    found, _ = filled(account, ran)
    found["rebalances"] += 1
    found["rebalances that leave another account than without a ceiling"] += met.after(account, ran) != met.after(free, other)
    found["rebalances in another cash-first order than without a ceiling"] += ran != other
    return found


def close(account, symbol, price):
    found, _ = filled(account, [model.Order(symbol, model.clamp(-account.positions[symbol].quantity), price, 0.0)])
    found["closes that pay the ceiling"] += found["buys that pay the ceiling"] + found["sales that pay the ceiling"]
    return found


def opening(cash, costs, equity_places, answer):
    """Refused for the ceiling where it is done without one."""
    free = replace(costs, max_commission=0)
    done = model.Answer(model.DONE)
    return {"openings refused for the ceiling": answer != done and model.opened(cash, free, equity_places)[0] == done}
