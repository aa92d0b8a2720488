"""Plays the scenarios on standard input on the model and holds its answers to those written beside them.

usage: harness scenarios SEED COUNT | python3 tools/model/compare.py                  the Rust's answers
       harness spoiled SEED COUNT | python3 tools/model/compare.py spoiled            the port's, cash-first mode among them, and the places of refusals
       harness cash-first SEED COUNT | python3 tools/model/compare.py cash-first      the port's in cash-first mode, and what they meet
       harness ceiling SEED COUNT | python3 tools/model/compare.py ceiling            the port's under a commission ceiling, and what they meet

The text is that of rust/scenario: a call after '>', what it gave and the account after it after '<'. A refusal is written as the C
interface returns it, its place above its number. A call with no answer beside it is played and its answer number counted. Exit status
1 where an answer differs, nothing was played, or, of all but the first, something was met too seldom.
"""
import struct
import sys
from collections import Counter

import met
import met_ceiling
import met_places
import model
from model import Costs


def double(word):
    return struct.unpack(">d", bytes.fromhex(word))[0]


def digits(x):
    return "7ff8000000000000" if x != x else struct.pack(">d", x).hex()


def word(answer):
    """The number in the lowest byte; above it twice the index, plus 1 for prices, or the byte of a file as it is."""
    number, place = answer
    if isinstance(place, model.Entry):
        place = 2 * place.index + ["targets", "prices"].index(place.list)
    return number + 256 * (place or 0)


def pairs(words, number):
    return [(int(s, 16), number(n)) for s, n in (word.split("=") for word in words)]


def written(entries):
    return " ".join(f"{s:016x}={digits(w)}" for s, w in entries)


def held(symbol, p):
    return f"{symbol:016x} {p.quantity} {p.average} {p.realized} {p.total_cost}"


def settings_line(s):
    c = s.costs
    costs = f"{digits(c.commission_bps)} {digits(c.slippage_bps)} {c.min_commission} {c.max_commission}"
    limits = f"{s.quantity_step} {s.min_order_value} {s.max_order_value} {digits(s.no_trade_band_bps)}"
    cap = "none" if s.max_trades_per_rebalance is None else s.max_trades_per_rebalance
    return f"settings {costs} {limits} {cap} {s.max_rebalance_notional} {int(s.recording)} {int(s.cash_first)}"


def account_lines(a):
    counters = f"{a.last_order_count} {a.last_notional} {a.trimmed_count} {a.trimmed_shortfall} {a.record_count}"
    yield f"account {a.cash} {counters} {a.equity_count} {a.return_count} {a.previous_equity}"
    yield settings_line(a.settings)
    for symbol, p in a.held():
        yield f"position {held(symbol, p)}"


def record_line(r):
    figures = f"{r.quantity} {r.price} {r.reference_price} {r.notional} {r.reference_notional}"
    return f"record {r.sequence} {r.period} {r.kind} {r.symbol:016x} {figures} {r.cost} {r.cash_delta} {r.cash_after}"


def setting(name, word):
    if name == "no_trade_band_bps":
        return double(word)
    if name == "max_trades_per_rebalance" and word == "none":
        return None
    return bool(int(word)) if name in ("recording", "cash_first") else int(word)


def lists(line):
    """The context, the targets and the prices of a rebalance."""
    context, targets, prices = (part.split() for part in line.removeprefix("rebalance ").split("|"))
    return context, pairs(targets, double), pairs(prices, int)


def opening(words):
    """The cash, the costs and the equity places of an opening."""
    cash, commission, slippage, floor, ceiling, places = words
    return int(cash), Costs(double(commission), double(slippage), int(floor), int(ceiling)), int(places)


def call(account, line):
    """The account after the call on a line, its answer, and the lines that tell what it gave."""
    verb, *words = line.split(" ")
    words = [word for word in words if word]
    if verb == "open":
        answer, account = model.opened(*opening(words))
        return account, answer, []
    if verb == "set":
        answer, account = model.with_setting(account, **{words[0]: setting(*words)})
        return account, answer, []
    if verb == "rebalance":
        context, *given = lists(line)
        answer, account, records = model.rebalance(account, *given, int(context[0]), context[1], int(context[2]))
        return account, answer, [*map(record_line, records)]
    if verb == "close":
        context = int(words[0]), words[1], int(words[2])
        answer, account, records = model.close(account, int(words[3], 16), int(words[4]), *context)
        return account, answer, [*map(record_line, records)]
    if verb == "record_return":
        answer, account, equity, gain = model.record_return(account, pairs(words[2:], int), int(words[0]), int(words[1]))
        return account, answer, told(answer, lambda: f"recorded {equity} {'none' if gain is None else digits(gain)}")
    return account, *query(account, verb, words)


def told(answer, figures):
    """A refusal tells nothing beside its number and place."""
    return [figures()] if answer.number == model.DONE else []


def query(account, verb, words):
    if verb == "position":
        symbol = int(words[0], 16)
        answer, p = model.position(account, symbol)
        return answer, told(answer, lambda: f"found {'none' if p is None else held(symbol, p)}")
    answer, found = getattr(model, verb)(account, pairs(words, int))
    return answer, told(answer, lambda: FIGURES[verb](found))


def played(account, line):
    """The account after the call on a line, its answer, and all that it gives as text."""
    account, answer, lines = call(account, line)
    return account, answer, [f"answer {word(answer)}", *lines, *account_lines(account)]


FIGURES = {
    "total_equity": lambda equity: f"equity {equity}",
    "current_weights": lambda weights: f"weights {written(weights)}",
    "unpriced_holding": lambda symbol: f"unpriced {'none' if symbol is None else f'{symbol:016x}'}",
    "snapshot": lambda s: f"snapshot {' '.join(map(str, s[:4]))} {written(s[4])}",
}


def exchanges(lines):
    """Each call with its answers, and the scenario that it stands in."""
    name, asked, answers = "", None, []
    for line in lines:
        mark, text = line[0], line[2:].rstrip("\n")
        if mark == "<":
            answers.append(text)
            continue
        if asked is not None:
            yield name, asked, answers
            asked, answers = None, []
        if mark == ">":
            asked = text
        else:
            name = text
    if asked is not None:
        yield name, asked, answers


def met_in_mode(account, line, answer):
    """What a call met, where it is a rebalance of an account in cash-first mode."""
    if not line.startswith("rebalance ") or answer.number != model.DONE or not account.settings.cash_first:
        return {}
    _, targets, prices = lists(line)
    return met.rebalance(account, targets, dict(prices))


def met_under_ceiling(account, line, answer):
    """What a call met, where it is an opening with a ceiling, or fills under one."""
    verb, *words = line.split()
    if verb == "open":
        return met_ceiling.opening(*opening(words), answer)
    if answer.number != model.DONE or account.settings.costs.max_commission == 0:
        return {}
    if verb == "rebalance":
        _, targets, prices = lists(line)
        return met_ceiling.rebalance(account, targets, dict(prices))
    return met_ceiling.close(account, int(words[3], 16), int(words[4])) if verb == "close" else {}


def met_refused(account, line, answer):
    """What a call met, where it is refused at an entry."""
    verb, *words = line.split()
    if answer.place is None:
        return {}
    if verb in ("position", "close"):
        return met_places.alone(answer)
    targets, prices = lists(line)[1:] if verb == "rebalance" else ([], pairs([word for word in words if "=" in word], int))
    return met_places.entry(answer, targets, prices)


# What a run must meet, how a call is looked at for it, and how often in 1,000 scenarios it must be met.
RUNS = {
    "spoiled": (met_places.ENTRIES, met_refused, ("once", 1)),
    "cash-first": (met.ALL, met_in_mode, ("ten times", 10)),
    "ceiling": (met_ceiling.ALL, met_under_ceiling, ("ten times", 10)),
}


def main():
    run = sys.argv[1] if len(sys.argv) > 1 else None
    if len(sys.argv) > 2 or run not in [None, *RUNS]:
        sys.exit(__doc__)
    names, met_by, (least, times) = RUNS.get(run, ([], None, ("", 0)))
    account, scenarios, compared, placed, differences, answers, found = None, 0, 0, 0, 0, Counter(), Counter()
    for name, asked, expected in exchanges(sys.stdin):
        if asked.startswith("open "):
            account = None
            scenarios += 1
        elif account is None:
            continue  # the rest of a scenario in which something differed
        before, (account, answer, lines) = account, played(account, asked)
        answers[answer.number] += 1
        if run:
            found.update(met_by(before, asked, answer))
        compared += len(expected) > 0
        placed += answer.place is not None
        if expected and lines != expected:
            differences += 1
            account = None
            if differences <= 3:
                ours, theirs = next((a, b) for a, b in zip(lines + ["-"], expected + ["-"]) if a != b)
                print(f"DIFFERS in {name}\n  asked: {asked}\n  model: {ours}\n  given: {theirs}")
    given = ", ".join(f"{n} {answers[n]} times" for n in sorted(answers))
    print(f"model: {scenarios} scenarios, {answers.total()} calls; answers {given}")
    print(f"model: {compared} calls compared, {differences} differences; {placed} refusals told a place")
    missed = met.told(run, names, found, scenarios, f"{least} in 1,000 scenarios", times) if run else []
    sys.exit(differences > 0 or scenarios == 0 or len(missed) > 0)


if __name__ == "__main__":
    main()
