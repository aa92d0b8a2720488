"""What groups of accounts met, worked out on the model: no answer comes from here, only what a run says that it met. A run must meet
each once in 1,000 groups."""
from collections import Counter
from dataclasses import dataclass
from functools import cached_property
from itertools import accumulate
from math import isinf, isnan

from model import BOTTOM, TOP


@dataclass(frozen=True)
class Seen:
    """A group with the model's sums, and its report where there is one."""
    accounts: int
    parts: list
    sums: object
    house: object

    @cached_property
    def absent(self):
        """How many ends of each account in each part are."""
        return [[ends.count(None) for ends in part] for part in self.parts]

    @cached_property
    def out(self):
        """Which kinds of number leave i64."""
        return [leaves(numbers) for numbers in self.sums.kinds()]

    def alone(self, kind):
        return self.out[kind] and sum(self.out) == 1

    def at_an_end(self, kind):
        numbers = self.sums.kinds()[kind]
        return not any(self.out) and (TOP in numbers or BOTTOM in numbers)

    def later_15(self):
        """Something within a part leaves i64 after a part whose first sum is not positive."""
        s = self.sums
        out = [leaves([first, gain, *part.values()]) for first, gain, part in zip(s.firsts, s.gains, s.changes)]
        bad = [first <= 0 for first in s.firsts]
        return True in bad and any(out[bad.index(True) + 1:])

    def there(self):
        """The ends of those who are there, part by part."""
        return [[self.parts[p][k] for k in changes] for p, changes in enumerate(self.sums.changes)]

    def by_account(self):
        return [[part[k] for part in self.sums.changes if k in part] for k in range(self.accounts)]

    def rounded_early(self):
        """Growths were equities doubles before they are added."""
        sums = [(sum(float(first) for first, _ in part), sum(float(last) - float(first) for first, last in part)) for part in self.there()]
        return [gain / first if first else None for first, gain in sums]

    def backwards(self):
        product = 1.0
        for growth in reversed(self.house.growths):
            product *= 1.0 + growth
        return product - 1.0


def leaves(numbers):
    return max(numbers, default=0) > TOP or min(numbers, default=0) < BOTTOM


def on_the_way(sums):
    return any(leaves(list(accumulate(numbers))) for numbers in sums)


def of_each(kinds, name, holds):
    """A row for each kind that 15 asks of, in the order of the model's sums."""
    return {name.format(kind): lambda s, k=k: holds(s, k) for k, kind in enumerate(kinds)}


KINDS = ["an account's change in a part", "a first sum", "a part's change", "an account's change", "the group's change"]
SHAPES = {
    "of 0 accounts": lambda s: s.accounts == 0,
    "of 33": lambda s: s.accounts == 33,
    "over 0 parts": lambda s: len(s.parts) == 0,
    "over 65": lambda s: len(s.parts) == 65,
    "bad in both": lambda s: s.accounts in (0, 33) and len(s.parts) in (0, 65),
    "of 32 accounts over 64 parts": lambda s: (s.accounts, len(s.parts)) == (32, 64),
}
SORTS = {
    "with an account absent at one end": lambda s: any(1 in part for part in s.absent),
    "with an account absent throughout": lambda s: any(map(all, zip(*s.absent))),
    "with a part that has nobody": lambda s: any(map(all, s.absent)),
    "with a first sum of 0": lambda s: 0 in s.sums.firsts,
    "with a first sum of -1": lambda s: -1 in s.sums.firsts,
    "with 15 in a later part than 14": Seen.later_15,
    **of_each(KINDS, "in which {} alone leaves i64", Seen.alone),
    **of_each(KINDS, "in which {} is at an end of i64", Seen.at_an_end),
}
REPORTS = {
    "done with a first sum of 1": lambda s: 1 in s.sums.firsts,
    "done though a first sum leaves i64 on the way": lambda s: on_the_way([first for first, _ in part] for part in s.there()),
    "though a part's change does": lambda s: on_the_way(part.values() for part in s.sums.changes),
    "though an account's change does": lambda s: on_the_way(s.by_account()),
    "though the group's does by accounts": lambda s: on_the_way([s.sums.own]),
    "though the group's does by parts": lambda s: on_the_way([s.sums.gains]),
    "with another growth were equities doubles before they are added": lambda s: s.rounded_early() != s.house.growths,
    "with another figure in another order of parts": lambda s: not isnan(s.house.figure) and s.backwards() != s.house.figure,
    "with an infinite figure": lambda s: isinf(s.house.figure),
    "with a NaN figure": lambda s: isnan(s.house.figure),
}
ALL = [*SHAPES, *SORTS, *REPORTS]


def group(seen):
    """Of a group of a bad shape no more than that is asked."""
    good = 1 <= seen.accounts <= 32 and 1 <= len(seen.parts) <= 64
    rows = {**SHAPES, **(SORTS if good else {}), **(REPORTS if seen.house is not None else {})}
    return Counter(name for name, holds in rows.items() if holds(seen))
