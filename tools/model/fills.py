"""Plays the single fills on standard input on the model and holds what they leave to what is written beside them.

usage: harness ceiling-fills SEED COUNT | python3 tools/model/fills.py     the port's under a commission ceiling, and what they meet

A fill after '>' with the account of at most one position that it finds; what it gave, the account that it left and its record after
'<', a refusal with its place. Exit status 1 where something differs, nothing was played, or something was met too seldom.
"""
import sys
from collections import Counter

import compare
import met
import met_ceiling
import met_places
import model
from model import Account, Costs, Order, Position, Settings

REFUSED = "4 of one symbol"


def read(line):
    """The account and the order of a line, its period and its kind."""
    asked, found = (part.split() for part in line.removeprefix("fill ").split("|"))
    commission, slippage, floor, ceiling, step, period, kind, symbol, quantity, price = asked
    cash, shortfall, trimmed, records, *numbers = map(int, found)
    costs = Costs(compare.double(commission), compare.double(slippage), int(floor), int(ceiling))
    order = Order(int(symbol, 16), int(quantity), int(price), 0.0)
    positions = {order.symbol: Position(*numbers)} if any(numbers) else {}
    account = Account(cash, Settings(costs, int(step), recording=True), positions, trimmed_count=trimmed,
                      trimmed_shortfall=shortfall, record_count=records)
    return account, order, int(period), kind


def left(account, symbol):
    p = account.positions.get(symbol, Position())
    money = f"{account.cash} {account.trimmed_shortfall} {account.trimmed_count} {account.record_count}"
    return f"left {money} {p.quantity} {p.average} {p.realized} {p.total_cost}"


def main():
    if len(sys.argv) > 1:
        sys.exit(__doc__)
    played, differences, found = 0, 0, Counter()
    for _, asked, expected in compare.exchanges(sys.stdin):
        account, order, period, kind = read(asked)
        answer, after, record = model.fill(account, order, period, kind)
        told = [f"answer {compare.word(answer)}", left(after, order.symbol)]
        lines = told + ([compare.record_line(record)] if record is not None else [])
        found.update(met_ceiling.fill(account, order, record) if answer.place is None else met_places.alone(answer))
        played += 1
        if lines != expected:
            differences += 1
            if differences <= 3:
                ours, theirs = next((a, b) for a, b in zip(lines + ["-"], expected + ["-"]) if a != b)
                print(f"DIFFERS\n  asked: {asked}\n  model: {ours}\n  given: {theirs}")
    print(f"ceiling-fills: {played} fills compared, {differences} differences")
    missed = met.told("ceiling-fills", [*met_ceiling.FILLS, REFUSED], found, played, "once in 1,000 fills", 1)
    sys.exit(differences > 0 or played == 0 or len(missed) > 0)


if __name__ == "__main__":
    main()
