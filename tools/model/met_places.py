"""Which places refusals told, and among what else, worked out on the model: no answer comes from here, only what a run says that it met."""
from collections import Counter

import model
from model import BAD_PRICE, BAD_SYMBOL, MOST_PRICES, MOST_TARGETS, TWICE

# A refusal tells one of these kinds of place. A run of scenarios must meet each once in 1,000 of them, as the sorts below.
KINDS = [
    "2 in targets",
    "2 in prices",
    "3 in targets",
    "3 in prices",
    "4 in prices",
    "2 of one symbol",
    "4 of one symbol",
]
SORTS = [
    "2 in both lists",
    "2 in prices and a pair in targets",
    "3 in both lists",
    "3 of a symbol that stands three times",
    "3 within another pair",
    "later entries as bad",
    "at the last of 64 targets",
    "at the last of 128 prices",
]
ENTRIES = KINDS + SORTS
# Of a file each stands for its number.
BYTES = ["16 at the end of the file", "17 at a number's first byte", "18 at the first byte left over"]


def alone(answer):
    return Counter([f"{answer.number} of one symbol"])


def byte(answer):
    return Counter(name for name in BYTES if name.startswith(f"{answer.number} "))


def bad_symbols(entries):
    return {k for k, (s, _) in enumerate(entries) if not model.good_symbol(s)}


def seconds(entries):
    """Every appearance of a symbol but its first."""
    names = [s for s, _ in entries]
    return {k for k, s in enumerate(names) if names.index(s) < k}


def bad_prices(entries):
    return {k for k, (_, p) in enumerate(entries) if p < 1}


OFFEND = {BAD_SYMBOL: bad_symbols, TWICE: seconds, BAD_PRICE: bad_prices}


def entry(answer, targets, prices):
    number, (name, index) = answer
    told, bound = (targets, MOST_TARGETS) if name == "targets" else (prices, MOST_PRICES)
    found = Counter([f"{number} in {name}"])
    found["later entries as bad"] += len(OFFEND[number](told)) > 1
    found[f"at the last of {bound} {name}"] += index == bound - 1
    both = number != BAD_PRICE and all(map(OFFEND[number], (targets, prices)))
    found[f"{number} in both lists"] += both
    if number == BAD_SYMBOL:
        found["2 in prices and a pair in targets"] += name == "prices" and len(seconds(targets)) > 0
    if number == TWICE:
        names = [s for s, _ in told]
        found["3 of a symbol that stands three times"] += names.count(names[index]) > 2
        # As A B B A tells 2: the other pair begins before this one.
        found["3 within another pair"] += any(s in names[index + 1:] for s in names[:names.index(names[index])])
    return found
