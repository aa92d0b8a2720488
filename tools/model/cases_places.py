"""Cases of document 02's request 9 on the model: where refused calls say that their fault is, in lists and in files."""
import model
import saved
from cases_saved import CASE_D, LONGEST, NINE, beginning, file, loaded
from model import Account, Answer, Costs, Entry, Order, Position, Settings


def symbol(name):
    return int.from_bytes(name.encode().ljust(8, b"\0"), "big")


GOOD, UNSOUND = (Account(cash, Settings(Costs(0.0, 0.0, 0))) for cash in (1_000, -1))
A, B, SPACE = map(symbol, "AB ")
MANY = [symbol(f"S{k}") for k in range(128)]
NAN = float("nan")


def names(text):
    """A symbol of each letter; '?' is a bad one."""
    return [SPACE if letter == "?" else symbol(letter) for letter in text]


def rebalanced(targets, prices, a=GOOD, weight=0.01, price=1):
    """The answer to a rebalance to symbols, each at one weight, with symbols each at one price."""
    return model.rebalance(a, [(s, weight) for s in names(targets)], [(s, price) for s in names(prices)], 0, "rebalance")[0]


def priced(*prices):
    """The answer of a query at prices of the first symbols of many."""
    return model.total_equity(GOOD, list(zip(MANY, prices)))[0]


def listed(text):
    return model.snapshot(GOOD, [(s, 1) for s in names(text)])[0]


def closed(name, price):
    return model.close(GOOD, name, price, 0, "stop_exit")[0]


def of_targets(number, index):
    return Answer(number, Entry("targets", index))


def of_prices(number, index):
    return Answer(number, Entry("prices", index))


ENTRIES = [
    ("the first bad target", rebalanced("AB?C?", "A"), of_targets(2, 2)),
    ("the first bad symbol of prices", rebalanced("AB", "ABC??"), of_prices(2, 3)),
    ("bad targets before bad prices", rebalanced("ABC?", "?"), of_targets(2, 3)),
    ("three appearances tell the second", listed("BACADA"), of_prices(3, 3)),
    ("A B B A tells 2", listed("ABBA"), of_prices(3, 2)),
    ("A B A B tells 2", listed("ABAB"), of_prices(3, 2)),
    ("the second of a list", [listed("AA"), rebalanced("AA", "")], [of_prices(3, 1), of_targets(3, 1)]),
    ("a pair in targets before an earlier one in prices", rebalanced("ABCDA", "AA"), of_targets(3, 4)),
    ("a pair in prices alone", rebalanced("AB", "ABCB"), of_prices(3, 3)),
    ("one symbol in both lists is no pair", rebalanced("AB", "BA").number, 0),
    ("2 in prices before 3 in targets", rebalanced("AAB", "ABC?"), of_prices(2, 3)),
    ("3 in prices before 4 in prices", rebalanced("AB", "ABB", price=0), of_prices(3, 2)),
    ("3 in prices before 5", rebalanced("AB", "ABA", weight=NAN), of_prices(3, 2)),
    ("5 tells no place", rebalanced("AB", "AB", weight=NAN, price=0), Answer(5)),
    ("the first of several bad prices", priced(1, 2, 0, 3, -1), of_prices(4, 2)),
    ("4 at the last of 128", priced(*[1] * 127, 0), of_prices(4, 127)),
    ("2 at the last of 64 targets", rebalanced("".join(map(chr, range(64, 127))) + "?", ""), of_targets(2, 63)),
    ("3 at the last of 128", model.current_weights(GOOD, [(s, 1) for s in [*MANY[:127], MANY[126]]])[0], of_prices(3, 127)),
    ("65 targets, all of them bad, tell no place", rebalanced("?" * 65, "?"), Answer(6)),
    ("an unsound account tells no place", rebalanced("?", "?", UNSOUND), Answer(11)),
    ("a return's prices", model.record_return(GOOD, [(A, 1), (B, 0)])[0], of_prices(4, 1)),
    ("an unpriced holding's prices", model.unpriced_holding(GOOD, [(A, 1), (SPACE, 0)])[0], of_prices(2, 1)),
    ("a position's symbol", model.position(GOOD, SPACE)[0], of_prices(2, 0)),
    ("a close's symbol, and its price", [closed(SPACE, 0), closed(A, 0)], [of_prices(2, 0), of_prices(4, 0)]),
    ("a close of none", closed(A, 1), Answer(9)),
    ("a fill's price", model.apply_fill(Position(), 1, -1)[0], of_prices(4, 0)),
    ("an order's price", model.fill(GOOD, Order(A, 1, 0, 0.0), 0, "rebalance")[0], of_prices(4, 0)),
]

# The cash begins at byte 1, and the small file has 29 bytes: the recording stands at byte 12, the position count at 22.
FILES = [
    ("16 of nothing", loaded(b""), Answer(16, 0)),
    ("16 between numbers", loaded(beginning("cash")), Answer(16, 2)),
    ("16 within a number", loaded(beginning("cash", cash="8080")), Answer(16, 3)),
    ("16 after nine continuing groups", loaded(beginning("cash", cash=NINE)), Answer(16, 10)),
    ("16 before a symbol", loaded(beginning("length", length="08")), Answer(16, 24)),
    ("16 within a symbol", loaded(beginning("symbol", length="08", symbol="414243")), Answer(16, 27)),
    ("16 of every part of the longest file", [loaded(LONGEST[:n]) for n in range(len(LONGEST))],
     [Answer(16, n) for n in range(len(LONGEST))]),
    ("17 of the form", loaded(file(form="8100")), Answer(17, 0)),
    ("17 at the number's first byte, not at its group of 0", loaded(file(cash="80808000")), Answer(17, 1)),
    ("17 at the number's first byte, not at its tenth group", loaded(file(cash=NINE + "02")), Answer(17, 1)),
    ("17 of a tenth group that continues", loaded(file(recording="ff" * 10)), Answer(17, 12)),
    ("17 of a tenth group of 0", loaded(file(recording=NINE + "00")), Answer(17, 12)),
    ("17 of the position count", loaded(file(positions="8100")), Answer(17, 22)),
    ("17 of a symbol length", loaded(file(length="8100")), Answer(17, 23)),
    ("17 of the last number, at the end of the file", loaded(file(total="8000")), Answer(17, 28)),
    ("17 before the end of the file", loaded(beginning("recording", recording="8000")), Answer(17, 12)),
    ("18 of one byte", loaded(file("00")), Answer(18, 29)),
    ("18 of several bytes", loaded(file("ff" * 9)), Answer(18, 29)),
    ("18 before an unsound account", loaded(file("00", cash="01")), Answer(18, 29)),
    ("18 after longer numbers", loaded(file("00", cash="8001", records="ff01")), Answer(18, 31)),
    ("11 as the bytes are met tells no place", loaded(file(recording="02")), Answer(11)),
    ("11 for an unsound account tells no place", loaded(file(cash="01")), Answer(11)),
    ("19 tells no place", saved.save(CASE_D, 54)[0], Answer(19)),
]

PLACES = ENTRIES + FILES
