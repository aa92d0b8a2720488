"""Request 2 of document 02, the house return over a group of accounts, as a plain program that knows nothing of the port. Run, it plays
the groups on standard input and holds what they give to what is written beside them.

usage: harness house-groups SEED COUNT | python3 tools/model/house.py     the port's answers, and what the groups meet

A group after '>': the number of accounts, then each part after a '|', every account's equity at both ends, '-' for absent; what it
gave after '<'. Exit status 1 where something differs, nothing was played, or something was met too seldom.
"""
import sys
from collections import Counter
from dataclasses import dataclass

import compare
import met
import met_house
import model
from model import BOTTOM, DONE, OVER_BOUND, TOP

BAD_GROUP, NO_FIRST_SUM, OUT_OF_RANGE = 13, 14, 15
MOST_ACCOUNTS, MOST_PARTS = 32, 64


@dataclass(frozen=True)
class Sums:
    """Exact. A part's changes stand by the places of the accounts that are there."""
    changes: list
    firsts: list
    gains: list
    own: list
    group: int

    def kinds(self):
        """'a change or a finished sum (not a partial one)', each kind of them by itself."""
        changes = [change for part in self.changes for change in part.values()]
        return [changes, self.firsts, self.gains, self.own, [self.group]]


@dataclass(frozen=True)
class House:
    figure: float
    growths: list
    sums: Sums


def leaves_i64(n):
    return not BOTTOM <= n <= TOP


def sums_of(accounts, parts):
    # 'An account missing at either end is left out of that part.'
    there = [{k: ends for k, ends in enumerate(part) if None not in ends} for part in parts]
    changes = [{k: last - first for k, (first, last) in part.items()} for part in there]
    firsts = [sum(first for first, _ in part.values()) for part in there]
    gains = [sum(part.values()) for part in changes]
    # 'each account's change, defined over its own parts alone'.
    own = [sum(part[k] for part in changes if k in part) for k in range(accounts)]
    return Sums(changes, firsts, gains, own, sum(gains))


def house_return(accounts, parts):
    """The answer, and the report of a call that is done. A part has every account's equities at both ends, None for absent."""
    return answered(accounts, len(parts), sums_of(accounts, parts))


def answered(accounts, parts, sums):
    answer = model.first((BAD_GROUP, lambda: not 1 <= accounts <= MOST_ACCOUNTS),
                         (OVER_BOUND, lambda: not 1 <= parts <= MOST_PARTS),
                         (OUT_OF_RANGE, lambda: any(leaves_i64(n) for kind in sums.kinds() for n in kind)),
                         (NO_FIRST_SUM, lambda: any(first <= 0 for first in sums.firsts)))
    if answer.number != DONE:
        return answer.number, None
    # 'its summed change over its first sum', each a double before they are divided.
    growths = [float(gain) / float(first) for gain, first in zip(sums.gains, sums.firsts)]
    return DONE, House(product(growths) - 1.0, growths, sums)


def product(growths):
    """'1 plus each growth is multiplied in part order, in binary64'."""
    result = 1.0
    for growth in growths:
        result *= 1.0 + growth
    return result


def read(line):
    """The number of accounts and the parts of a line."""
    accounts, *parts = line.removeprefix("house ").split("|")
    ends = [[None if word == "-" else int(word) for word in part.split()] for part in parts]
    return int(accounts), [list(zip(part[::2], part[1::2])) for part in ends]


def told(answer, house):
    if answer != DONE:
        return [f"answer {answer}"]
    sums = house.sums
    changes = " ".join(map(str, [sums.group, *sums.own]))
    parts = [f"part {first} {gain} {compare.digits(growth)}" for first, gain, growth in zip(sums.firsts, sums.gains, house.growths)]
    return [f"answer {answer}", f"figure {compare.digits(house.figure)}", f"changes {changes}", *parts]


def main():
    if len(sys.argv) > 1:
        sys.exit(__doc__)
    played, differences, answers, found = 0, 0, Counter(), Counter()
    for _, asked, expected in compare.exchanges(sys.stdin):
        accounts, parts = read(asked)
        sums = sums_of(accounts, parts)
        answer, house = answered(accounts, len(parts), sums)
        lines = told(answer, house)
        answers[answer] += 1
        found.update(met_house.group(met_house.Seen(accounts, parts, sums, house)))
        played += 1
        if lines != expected:
            differences += 1
            if differences <= 3:
                ours, theirs = next((a, b) for a, b in zip(lines + ["-"], expected + ["-"]) if a != b)
                print(f"DIFFERS\n  asked: {asked}\n  model: {ours}\n  given: {theirs}")
    given = ", ".join(f"{n} {answers[n]} times" for n in sorted(answers))
    print(f"house-groups: {played} groups compared, {differences} differences; answers {given}")
    missed = met.told("house-groups", met_house.ALL, found, played, "once in 1,000 groups", 1)
    sys.exit(differences > 0 or played == 0 or len(missed) > 0)


if __name__ == "__main__":
    main()
