"""Request 5 of document 02, the saved form of an account, with request 9's places in a file, as a plain program that knows nothing of the
port. Run, it saves and loads what is on standard input and holds what that gives to what is written beside it.

usage: harness saved-files SEED COUNT | python3 tools/model/saved.py     the port's answers, and what the files meet

After '>' stand 'save', the room and an account, whose lines are compare.py's with '|' between, or 'load' and a file's digits; what it
gave after '<'. Exit status 1 where something differs, nothing was played, or something was met too seldom.
"""
import struct
import sys
from collections import Counter
from dataclasses import replace

import compare
import met
import met_places
import met_saved
from model import DONE, MOST_POSITIONS, NOT_SOUND, Account, Answer, Costs, Position, Settings

ENDS_EARLY, BAD_NUMBER, LEFT_OVER, NO_FILE_ROOM = 16, 17, 18, 19
FORM = 1
MOST_GROUPS, MOST_TENTH = 10, 1
PLACES = {0: "before", MOST_GROUPS - 1: "after nine groups of"}
MOST_SYMBOL = 8
NEGATIVE_ZERO = 2**63


# ---- Numbers

def written(n):
    """'groups of seven bits, lowest first, the top bit set on all but the last group, shortest form only'."""
    groups = []
    while n >= 128:
        groups.append(n % 128 + 128)
        n //= 128
    return bytes([*groups, n])


def of_signed(n):
    """'A signed n is stored as 2n, or as -2n-1 when negative.'"""
    return 2 * n if n >= 0 else -2 * n - 1


def to_signed(n):
    return n // 2 if n % 2 == 0 else -((n + 1) // 2)


def of_float(x):
    """'A float is stored as its bit pattern'; 'Floating zero settings are written with positive sign.'"""
    return 0 if x == 0.0 else int.from_bytes(struct.pack(">d", x), "big")


def to_float(n):
    return struct.unpack(">d", n.to_bytes(8, "big"))[0]


# ---- Writing: '11, then 19 output room short'

def save(account, room=sys.maxsize):
    """The answer, and the file of a call that is done."""
    if not account.sound():
        return Answer(NOT_SOUND), None
    file = file_of(account)
    return (Answer(DONE), file) if len(file) <= room else (Answer(NO_FILE_ROOM), None)


def file_of(a):
    """'Order: form number ..., cash, settings ..., counters in `Portfolio`'s field order, record count, equity and return counts,
    previous equity, position count, positions ascending'."""
    counters = [a.last_order_count, of_signed(a.last_notional), a.trimmed_count, of_signed(a.trimmed_shortfall), a.record_count]
    series = [a.equity_count, a.return_count, of_signed(a.previous_equity)]
    head = [FORM, of_signed(a.cash), *settings_of(a.settings), *counters, *series, len(a.positions)]
    return b"".join([*map(written, head), *(position_of(symbol, p) for symbol, p in a.held())])


def settings_of(s):
    """'settings in document 01's order without opening cash, the ceiling, recording and cash-first as 0 or 1'; 'A trade cap is 0, or
    1 and the count'."""
    c, cap = s.costs, s.max_trades_per_rebalance
    amounts = [c.min_commission, s.min_order_value, s.max_order_value, s.max_rebalance_notional, s.quantity_step]
    rates = [c.commission_bps, s.no_trade_band_bps, c.slippage_bps]
    caps = [0] if cap is None else [1, cap]
    return [*map(of_signed, amounts), *map(of_float, rates), *caps, of_signed(c.max_commission), int(s.recording), int(s.cash_first)]


def position_of(symbol, p):
    """'each in `Position`'s field order'; 'a symbol is its length and bytes'."""
    name = symbol.to_bytes(8, "big").rstrip(b"\0")
    numbers = [p.quantity, p.average, p.realized, p.total_cost]
    return written(len(name)) + name + b"".join(written(of_signed(n)) for n in numbers)


# ---- Reading: '16 ..., 17 ..., 11 for an unknown form, a flag or cap mark above 1, a negative zero, over 64 positions or a symbol
# length outside 1 to 8, as the bytes are met', 18 after the last of them, 'then 11 for an unsound account'; 'the byte place for 16, 17
# and 18: the end of the file, the number's first byte, and the first byte left over'

class Fault(Exception):
    """What is met first: its answer, and in words which of those that its number stands for."""


class Reader:
    """'a reader over the lent bytes and its place'."""

    def __init__(self, file):
        self.file, self.place = file, 0

    def byte(self, k, what):
        """The byte after k of what is being read."""
        if self.place == len(self.file):
            raise Fault(Answer(ENDS_EARLY, len(self.file)), f"the end {PLACES.get(k, 'within')} {what}")
        self.place += 1
        return self.file[self.place - 1]

    def number(self, what="a number"):
        """'shortest form only, at most ten groups, the tenth at most 1'."""
        n, begins = 0, self.place
        for k in range(MOST_GROUPS):
            group = self.byte(k, what)
            n += group % 128 * 128**k
            if k == MOST_GROUPS - 1 and group > MOST_TENTH:
                raise Fault(Answer(BAD_NUMBER, begins), "a tenth group above 1")
            if k > 0 and group == 0:
                raise Fault(Answer(BAD_NUMBER, begins), f"{what} not shortest")
            if group < 128:
                return n

    def within(self, least, most, what):
        n = self.number(what)
        if not least <= n <= most:
            last = " at the end" if self.place == len(self.file) else ""
            raise Fault(Answer(NOT_SOUND), f"{what} {'below' if n < least else 'above'}{last}")
        return n

    def signed(self):
        return to_signed(self.number())

    def rate(self):
        """The number is looked at: as floats the two zeros are equal."""
        n = self.number()
        if n == NEGATIVE_ZERO:
            raise Fault(Answer(NOT_SOUND), "a negative zero")
        return to_float(n)

    def flag(self, what="a flag"):
        return self.within(0, 1, what) == 1

    def cap(self):
        return self.number() if self.flag("a cap mark") else None

    def symbol(self):
        """Its bytes as they stand: a zero at their end would not be seen once they are padded."""
        length = self.within(1, MOST_SYMBOL, "a symbol length")
        return bytes(self.byte(k + 1, "a symbol") for k in range(length))

    def position(self):
        return self.symbol(), Position(self.signed(), self.signed(), self.signed(), self.signed())

    def settings(self):
        floor, min_order, max_order, max_notional, step = (self.signed() for _ in range(5))
        commission, band, slippage = (self.rate() for _ in range(3))
        cap, ceiling, recording, cash_first = self.cap(), self.signed(), self.flag(), self.flag()
        costs = Costs(commission, slippage, floor, ceiling)
        return Settings(costs, step, min_order, max_order, band, cap, max_notional, recording, cash_first)

    def account(self):
        """The account without its positions, and these as they stand in the file."""
        self.within(FORM, FORM, "the form")
        cash, settings = self.signed(), self.settings()
        counters = self.number(), self.signed(), self.number(), self.signed(), self.number()
        series = self.number(), self.number(), self.signed()
        positions = [self.position() for _ in range(self.within(0, MOST_POSITIONS, "the position count"))]
        if self.place < len(self.file):
            raise Fault(Answer(LEFT_OVER, self.place), "bytes left over")
        return Account(cash, settings, {}, *counters, *series), positions


def read(file):
    """The account of a file, or a fault."""
    account, positions = Reader(file).account()
    names = [name for name, _ in positions]
    if not all(33 <= byte <= 126 for name in names for byte in name):
        raise Fault(Answer(NOT_SOUND), "a symbol is bad")
    if not all(a < b for a, b in zip(names, names[1:])):
        raise Fault(Answer(NOT_SOUND), "symbols don't ascend")
    loaded = replace(account, positions={int.from_bytes(name.ljust(8, b"\0"), "big"): p for name, p in positions})
    if not loaded.sound():
        raise Fault(Answer(NOT_SOUND), "another fault of the account")
    return loaded


def load(file):
    """The answer, and the account of a call that is done."""
    try:
        return Answer(DONE), read(file)
    except Fault as fault:
        return fault.args[0], None


# ---- What a run gives, beside what is written

def read_account(lines):
    """The account of lines as compare.py writes them."""
    (_, *numbers), (_, *words), *rows = (line.split() for line in lines)
    cash, *counters = map(int, numbers)
    commission, slippage, floor, ceiling, step, min_order, max_order, band, cap, notional, *flags = words
    costs = Costs(compare.double(commission), compare.double(slippage), int(floor), int(ceiling))
    cap = None if cap == "none" else int(cap)
    limits = int(step), int(min_order), int(max_order), compare.double(band), cap, int(notional)
    positions = {int(symbol, 16): Position(*map(int, figures)) for _, symbol, *figures in rows}
    return Account(cash, Settings(costs, *limits, *(flag == "1" for flag in flags)), positions, *counters)


def asked_save(words):
    """The answer, its lines, and what the account met."""
    room, *lines = words.split("|")
    account = read_account(lines)
    answer, file = save(account, int(room))
    told = [f"answer {compare.word(answer)}"] + ([f"file {file.hex()}"] if answer.number == DONE else [])
    return answer, told, met_saved.account(account, int(room), answer.number, len(file or b""))


def asked_load(words):
    file = bytes.fromhex(words)
    try:
        account = read(file)
    except Fault as fault:
        answer, why = fault.args
        return answer, [f"answer {compare.word(answer)}"], met_saved.refused(answer.number, why) + met_places.byte(answer)
    again = file_of(account) == file
    return Answer(DONE), [f"answer {DONE}", *compare.account_lines(account)], met_saved.accepted(again)


def main():
    if len(sys.argv) > 1:
        sys.exit(__doc__)
    played, differences, answers, found = Counter(), 0, Counter(), Counter()
    for _, asked, expected in compare.exchanges(sys.stdin):
        verb, _, words = asked.partition(" ")
        answer, lines, met_here = {"save": asked_save, "load": asked_load}[verb](words)
        played[verb] += 1
        answers[verb, answer.number] += 1
        found.update(met_here)
        if lines != expected:
            differences += 1
            if differences <= 3:
                ours, theirs = next((a, b) for a, b in zip(lines + ["-"], expected + ["-"]) if a != b)
                print(f"DIFFERS\n  asked: {asked}\n  model: {ours}\n  given: {theirs}")
    given = ", ".join(f"{verb} {n} {answers[verb, n]} times" for verb, n in sorted(answers))
    print(f"saved-files: {played['save']} accounts and {played['load']} files compared, {differences} differences; answers {given}")
    missed = met.told("saved-files", met_places.BYTES + met_saved.ALL, found, played.total(), "once in 1,000 calls", 1)
    sys.exit(differences > 0 or played.total() == 0 or len(missed) > 0)


if __name__ == "__main__":
    main()
