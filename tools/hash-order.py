"""What the Rust's hash order changes, and why: hash-order.py BY-SYMBOL BY-HASH COUNT.

The two files (or pipes) have the same scenarios as nanobook played them, over a map in symbol order and over its own hash
map. The calls of a scenario are read side by side for as long as both plays hold the same account. Each play is held to the
model of document 01 (tools/model), which here walks the positions in the order in which that play's map has them; so what
the model did on the way tells why two plays end otherwise. Exit status 1 where a play is not the model's, where a difference
has no cause that is known, where a half of condition 3 speaks and does not hold, or where scenarios are missing.
"""
import sys
from collections import Counter
from dataclasses import replace
from pathlib import Path

sys.path.insert(0, str(Path(__file__).parent / "model"))
import compare  # noqa: E402
import model  # noqa: E402

CUT = "cash ran short: a buy is cut down"
SKIPPED = "cash ran short: a sale is skipped"
EQUITY = "equity saturated"
REALIZED = "a realized total saturated"
CASH = "cash saturated"
SEVERAL = "several holdings without a price"
UNEXPLAINED = "unexplained"
CAUSES = [CUT, SKIPPED, EQUITY, REALIZED, CASH, SEVERAL, UNEXPLAINED]


class AsHeld(model.Account):
    """An account whose positions stand in the order of its map."""

    def held(self):
        return list(self.positions.items())


def scenarios(path):
    """Each scenario as its name and its calls, a call as its line and the lines that it gave."""
    name, calls = None, []
    with open(path, encoding="ascii") as lines:
        for line in lines:
            mark, text = line[0], line[2:].rstrip("\n")
            if mark == "<":
                calls[-1][1].append(text)
            elif mark == ">":
                calls.append((text, []))
            else:
                if name is not None:
                    yield name, calls
                name, calls = text, []
    if name is not None:
        yield name, calls


def split(lines):
    """What a call gave, and the positions after it."""
    given = [line for line in lines if not line.startswith("position ")]
    return given, [line for line in lines if line.startswith("position ")]


def in_map_order(account, positions):
    symbols = [int(line.split(" ", 2)[1], 16) for line in positions]
    return replace(account, positions={symbol: account.positions[symbol] for symbol in symbols})


def played(account, call, lines):
    """The account after the call as the play's map holds it, or None where the play is not the model's."""
    after, _, said = compare.played(account, call)
    if call.startswith("open "):
        after = AsHeld(**vars(after))
    ours, theirs = split(said), split(lines)
    if ours[0] != theirs[0] or sorted(ours[1]) != sorted(theirs[1]):
        return None
    return in_map_order(after, theirs[1])


def in_order(accounts):
    """Whether both maps have the positions in the same order."""
    one, other = accounts
    return one is other or list(one.positions) == list(other.positions)


def without_order(lines):
    """What a call gave, without what the order of a list or of records decides: their places, and the cash between fills."""
    kept, any_order = [], []
    for line in lines:
        words = line.split(" ")
        if words[0] == "record":
            any_order.append((words[0], *words[2:-1]))
        elif words[0] == "position":
            any_order.append(tuple(words))
        elif words[0] in ("weights", "snapshot"):
            kept.append(sorted(words, key=lambda word: word if "=" in word else ""))
        else:
            kept.append(words)
    return kept, sorted(any_order)


# ---- What happened on the way

def saturates(amounts):
    """Whether a sum leaves i64 on its way."""
    total = 0
    for amount in amounts:
        total += amount
        if total != model.clamp(total):
            return True
    return False


def equity_saturates(account, prices):
    values = [model.value(p.quantity, prices.get(symbol, 0)) for symbol, p in account.held()]
    return saturates(values) or saturates([account.cash, sum(values)])


def lists_of(call):
    """The targets and prices of a call."""
    if call.startswith("rebalance "):
        _, targets, prices = compare.lists(call)
        return targets, dict(prices)
    return [], dict(compare.pairs([word for word in call.split(" ") if "=" in word], int))


def fates(account, targets, prices):
    """The orders of a rebalance as they ran, each with what was filled of it."""
    account = replace(account, settings=replace(account.settings, recording=True))
    found = []
    for order in model.running_order(account.settings, model.ordered(account, targets, prices)):
        account, record = model.filled(account, order, 0, "rebalance")
        found.append((order, record.quantity if record else 0))
    return found


def whole(ran):
    return all(filled == order.quantity for order, filled in ran)


def raised(costs, order):
    """How much cash an order that fills whole brings."""
    return max(0, -model.clamp(-model.cash_change(costs, order)))


def lowers_last(costs, ran):
    """Whether behind an order that lowers cash stand only such."""
    lowering = [model.cash_change(costs, order) < 0 for order, _ in ran]
    return lowering == sorted(lowering)


def orders_of(ran):
    return sorted((order.symbol, order.quantity, order.price) for order, _ in ran)


def cash_in_range(account, ran):
    return account.cash + sum(raised(account.settings.costs, order) for order, _ in ran) <= model.TOP


def one_batch(account, runs):
    """Whether both runs are running orders of one batch as condition 3 asks for it: the same orders, and cash in its range."""
    one, other = runs
    return orders_of(one) == orders_of(other) and cash_in_range(account, one)


def says_same(account, runs):
    """Whether condition 3 says that both runs leave the same: the same orders, each filled whole in both, cash in its range."""
    return all(map(whole, runs)) and one_batch(account, runs)


def says_whole(account, runs):
    """The runs that condition 3 says fill each whole, since the other run does and this one has those that lower cash last."""
    if not any(map(whole, runs)) or not one_batch(account, runs):
        return []
    return [ran for ran, other in (runs, runs[::-1]) if whole(other) and lowers_last(account.settings.costs, ran)]


def cause(call, accounts, runs):
    """Why the two plays of a call from the same account end otherwise."""
    verb, (_, prices) = call.split(" ", 1)[0], lists_of(call)
    if verb == "unpriced_holding":
        unpriced = [s for s, p in accounts[0].held() if p.quantity and s not in prices]
        return SEVERAL if len(unpriced) > 1 else UNEXPLAINED
    if verb in ("total_equity", "current_weights", "record_return", "snapshot", "rebalance"):
        equities = {model.equity_of(account, prices) for account in accounts}
        if len(equities) > 1 and any(equity_saturates(account, prices) for account in accounts):
            return EQUITY
    if verb == "snapshot" and any(saturates(p.realized for _, p in account.held()) for account in accounts):
        return REALIZED
    if verb == "rebalance" and orders_of(runs[0]) == orders_of(runs[1]):
        filled = [{order.symbol: filled for order, filled in ran} for ran in runs]
        otherwise = [order for order, _ in runs[0] if filled[0][order.symbol] != filled[1][order.symbol]]
        if otherwise:
            return CUT if any(order.quantity > 0 for order in otherwise) else SKIPPED
        return UNEXPLAINED if cash_in_range(accounts[0], runs[0]) else CASH
    return UNEXPLAINED


# ---- An example that can be read

def cents(n):
    sign, n = ("-", -n) if n < 0 else ("", n)
    return f"{sign}{n // 100:,}.{n % 100:02}"


def shares(n):
    sign, n = ("-", -n) if n < 0 else ("", n)
    part = f"{n % model.SCALE:06}".rstrip("0")
    return f"{sign}{n // model.SCALE:,}" + (f".{part}" if part else "")


def conditions(account):
    """The settings that bear on a fill, where they are not off."""
    s = account.settings
    c = s.costs
    yield f"commission {c.commission_bps:g} bps, at least {cents(c.min_commission)}"
    if c.slippage_bps:
        yield f"slippage {c.slippage_bps:g} bps"
    if s.quantity_step != model.SCALE:
        yield f"step {shares(s.quantity_step)}"
    if s.no_trade_band_bps:
        yield f"band {s.no_trade_band_bps:g} bps"
    for name in ("min_order_value", "max_order_value"):
        if getattr(s, name):
            yield f"{name} {cents(getattr(s, name))}"


def fill(order, filled, named):
    verb = "buy" if order.quantity > 0 else "sell"
    if filled == order.quantity:
        return f"{verb} {shares(abs(filled))} {named[order.symbol]}"
    return f"{verb} {shares(abs(filled))} of {shares(abs(order.quantity))} {named[order.symbol]}"


def shown(account, lines, ran, named):
    """What one screen shows of a call."""
    if ran is not None:
        return f"{', '.join(fill(*one, named) for one in ran) or 'no order'}; cash {cents(account.cash)}"
    word, *words = lines[1].split(" ")
    if word == "unpriced":
        return f"unpriced {named[int(words[0], 16)]}"
    if word == "weights":
        return "weights " + ", ".join(f"{named[s]} {w:.4g}" for s, w in compare.pairs(words, compare.double))
    if word == "snapshot":
        return f"equity {cents(int(words[1]))}, realized {cents(int(words[3]))}"
    return f"equity {cents(int(words[0]))}"


def example(call, accounts, after, lines, runs):
    """The call for a reader, the symbols named A, B, .. in their order; and how much there is to read."""
    verb, (targets, prices), account = call.split(" ", 1)[0], lists_of(call), accounts[0]
    held = [(s, p) for s, p in sorted(account.held()) if p.quantity or p.realized and verb == "snapshot"]
    asked = [(s, w) for s, w in targets if s in prices]
    bearing = sorted({s for s, _ in held} | {s for s, _ in asked})
    named = {s: f"{chr(ord('A') + k % 26)}{k // 26 or ''}" for k, s in enumerate(bearing)}
    profit = lambda p: f" (realized {cents(p.realized)})" if verb == "snapshot" else ""
    priced = ", ".join(f"{named[s]} {cents(prices[s])}" for s in bearing if s in prices)
    told = ["; ".join([f"cash {cents(account.cash)}", *(conditions(account) if runs else [])]),
            "holds " + ", ".join(f"{named[s]} {shares(p.quantity)}{profit(p)}" for s, p in held),
            f"{verb} at {priced or 'no price'}"
            + ("; targets " + (", ".join(f"{named[s]} {w:g}" for s, w in asked) or "none") if runs else "")]
    for how, *one in zip(("by symbol", "by hash"), after, lines, runs or (None, None)):
        told.append(f"{how}: {shown(*one, named)}")
    # An example in which one screen shows every order filled whole tells most.
    size = runs is not None and not any(map(whole, runs)), len(bearing), len("".join(told))
    return size, told


# ---- The count

class Count:
    def __init__(self):
        self.scenarios, self.calls, self.rebalances = Counter(), Counter(), Counter()
        self.otherwise, self.parted = Counter(), Counter()
        self.examples, self.faults = {}, []

    def scenario(self, name, plays):
        """Both plays of a scenario, read until their accounts part."""
        found = set()
        accounts = (None, None)
        for k, ((call, one), (_, other)) in enumerate(zip(*plays)):
            if one == other and in_order(accounts):
                after = (played(accounts[0], call, one),) * 2
            else:
                after = tuple(played(account, call, lines) for account, lines in zip(accounts, (one, other)))
            if None in after:
                self.fault(name, call, "a play is not the model's")
                found.add(UNEXPLAINED)
                break
            found.add(self.call(f"{name}, call {k}", call, accounts, after, (one, other)))
            if after[0] != after[1]:
                break
            accounts = after
        else:
            if len(plays[0]) != len(plays[1]):
                found.add(self.cut_short(name, plays, accounts))
        causes = [cause for cause in CAUSES if cause in found]
        for cause in causes:
            self.otherwise[cause] += 1
        self.scenarios["another outcome" if causes else "order alone" if "order" in found else "the same"] += 1

    def call(self, name, call, accounts, after, lines):
        """'same', 'order', or the cause for which the call's two plays end otherwise."""
        self.calls["read"] += 1
        runs = None
        if call.startswith("rebalance "):
            lists = lists_of(call)
            runs = (fates(accounts[0], *lists),) * 2 if in_order(accounts) else tuple(fates(a, *lists) for a in accounts)
            self.rebalance(name, call, accounts, after, runs)
        if lines[0] == lines[1]:
            return "same"
        if without_order(lines[0]) == without_order(lines[1]):
            return "order"
        why = cause(call, accounts, runs)
        self.calls[why] += 1
        self.parted[why] += after[0] != after[1]
        if why == UNEXPLAINED:
            self.fault(name, call, "no cause is known")
        size, told = example(call, accounts, after, lines, runs)
        if why not in self.examples or size < self.examples[why][0]:
            self.examples[why] = size, [f"{why} ({name})"] + told
        return why

    def rebalance(self, name, call, accounts, after, runs):
        """Condition 3, each half, held to both plays of a rebalance from the same account."""
        one, other = runs
        self.rebalances["read"] += 1
        reordered = [order.symbol for order, _ in one] != [order.symbol for order, _ in other]
        self.rebalances["in another order"] += reordered
        same = after[0].cash == after[1].cash and dict(after[0].held()) == dict(after[1].held())
        if reordered:
            self.first_half(name, call, accounts[0], runs)
        if says_same(accounts[0], runs):
            self.rebalances["said the same"] += 1
            self.rebalances["said the same, in another order"] += reordered
            if not same:
                self.rebalances["said the same, other cash or positions"] += 1
                self.fault(name, call, "condition 3 says that both leave the same, and cash or positions differ")
        elif reordered:
            self.rebalances["others, in another order, the same left" if same else "others, in another order, another left"] += 1

    def first_half(self, name, call, account, runs):
        """Where one run fills each whole, a run of the same orders that has those that lower cash last does so too."""
        self.rebalances["whole in one alone"] += one_batch(account, runs) and whole(runs[0]) != whole(runs[1])
        said = says_whole(account, runs)
        self.rebalances["said whole"] += len(said) > 0
        if not all(map(whole, said)):
            self.rebalances["said whole, and not"] += 1
            self.fault(name, call, "condition 3 says that each order fills whole, and one does not")

    def cut_short(self, name, plays, accounts):
        """The Rust's search would run for ever in one play's next call, not in the other's."""
        longer = max(plays, key=len)
        call = longer[min(map(len, plays))][0]
        _, prices = lists_of(call)
        if call.startswith("rebalance ") and any(equity_saturates(account, prices) for account in accounts):
            self.calls[EQUITY] += 1
            return EQUITY
        self.fault(name, call, "one play ends here, and no cause is known")
        return UNEXPLAINED

    def fault(self, name, call, why):
        self.faults.append(why)
        if len(self.faults) <= 5:
            print(f"FAULT in {name}: {why}\n  {call[:300]}")

    def tell(self):
        print(f"hash order: {self.scenarios.total()} scenarios; the same to the last number {self.scenarios['the same']}; "
              f"only lists and records in another order {self.scenarios['order alone']}; "
              f"another outcome {self.scenarios['another outcome']}")
        print(f"{'cause':<34}{'scenarios':>10}{'calls':>10}{'accounts that part':>20}")
        for why in CAUSES:
            print(f"{why:<34}{self.otherwise[why]:>10}{self.calls[why]:>10}{self.parted[why]:>20}")
        r = self.rebalances
        print(f"condition 3: of {r['read']} rebalances from the same account {r['said the same']} are such that it says both leave "
              f"the same, {r['said the same, in another order']} of them run in another order; "
              f"{r['said the same, other cash or positions']} leave other cash or positions")
        print(f"  the others, run in another order: {r['others, in another order, the same left']} leave the same cash and positions, "
              f"{r['others, in another order, another left']} do not")
        print(f"  run in another order, and such that it says a play fills each whole, since the other does: {r['said whole']}; "
              f"{r['said whole, and not']} do not")
        print(f"  filled whole in one play alone, the same orders and cash in its range: {r['whole in one alone']}; "
              f"{r['said whole, and not']} of them have those that lower cash last in the other")
        for why in CAUSES:
            if why in self.examples:
                print("\n" + "\n  ".join(self.examples[why][1]))


def main():
    by_symbol, by_hash, expected = sys.argv[1], sys.argv[2], int(sys.argv[3])
    count = Count()
    for (name, one), (other_name, other) in zip(scenarios(by_symbol), scenarios(by_hash)):
        if name != other_name:
            sys.exit(f"hash-order: {name} stands beside {other_name}")
        count.scenario(name, (one, other))
        done = count.scenarios.total()
        if sys.stderr.isatty() and done % 500 == 0:
            print(f"\rscenario {done} of {expected}", end="" if done < expected else "\n", file=sys.stderr, flush=True)
    count.tell()
    if count.scenarios.total() != expected:
        sys.exit(f"hash-order: {count.scenarios.total()} scenarios, and {expected} were asked for")
    if count.faults:
        sys.exit(f"hash-order: FAILED, {len(count.faults)} faults")


main()
