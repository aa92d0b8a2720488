"""Cases of document 02's request 5 on the model: numbers, files and every refusal with one of its smallest files."""
from dataclasses import replace
from pathlib import Path

import saved
from model import DONE, SCALE, TOP, Account, Answer, Costs, Position, Settings

AAPL = int.from_bytes(b"AAPL".ljust(8, b"\0"), "big")
MOST = 2**64 - 1

# Document 01's case d, recorded, as docs/LAYOUT.md has it in bytes.
CASE_D = Account(900, Settings(Costs(10.0, 0.0, 100), recording=True), {AAPL: Position(99 * SCALE, 1_000, 0, 99_000)},
                 last_order_count=1, last_notional=100_000, trimmed_count=1, trimmed_shortfall=1_000, record_count=1, equity_count=1,
                 previous_equity=100_000)
CASE_D_FILE = """01 880e  c801 00 00 00 80897a  80808080808080 9240 00 00  00  00 01 00  01 c09a0c 01 d00f  01  01 00  c09a0c
                 01  04 4141504c 80fbb45e d00f 00 f08a0c"""

# The parts of a small file in their order: cash 0, no costs, a step of 1, one flat position.
SMALL = dict(form="01", cash="00", floor="00", min_order="00", max_order="00", notional="00", step="02", commission="00", band="00",
             slippage="00", cap="00", ceiling="00", recording="00", cash_first="00", orders="00", last="00", trims="00", shortfall="00",
             records="00", equities="00", returns="00", previous="00", positions="01", length="01", symbol="41", quantity="00",
             average="00", realized="00", total="00")
ZEROS_AFTER = "00000000"


def file(after="", **parts):
    return bytes.fromhex("".join({**SMALL, **parts}.values()) + after)


def loaded(file):
    return saved.load(file)[0]


def answer(after="", **parts):
    return loaded(file(after, **parts)).number


def beginning(part, **parts):
    """A file that ends after a part."""
    names = list(SMALL)
    kept = {**SMALL, **parts}
    return bytes.fromhex("".join(kept[name] for name in names[:names.index(part) + 1]))


def cut(part, **parts):
    return loaded(beginning(part, **parts)).number


def full():
    """An account whose file is the longest."""
    costs = Costs(1e300, 9_999.9, TOP, TOP)
    settings = Settings(costs, TOP, TOP, TOP, 1e300, MOST, TOP, True, True)
    names = [b"SYMBOL%02d" % k for k in range(64)]
    held = {int.from_bytes(name, "big"): Position(TOP, TOP, TOP, TOP) for name in names}
    return Account(TOP, settings, held, MOST, TOP, MOST, TOP, MOST, MOST, MOST, TOP)


def negative_zeros(a):
    costs = replace(a.settings.costs, slippage_bps=-0.0)
    return replace(a, settings=replace(a.settings, costs=costs, no_trade_band_bps=-0.0))


# A file that was written while form 1 was the newest.
STORED = (Path(__file__).resolve().parents[2] / "rust/threshcoil/tests/files/form-1").read_bytes()
LONGEST = saved.file_of(full())
NINE = "80" * 9
GIVEN = Answer(DONE)
SAVED = [
    ("numbers", [saved.written(n).hex() for n in (0, 127, 128, 300, 16_383, 16_384)], ["00", "7f", "8001", "ac02", "ff7f", "808001"]),
    ("numbers of nine and ten groups", [saved.written(n).hex() for n in (2**63 - 1, 2**63, MOST)],
     ["ff" * 8 + "7f", NINE + "01", "ff" * 9 + "01"]),
    ("signed numbers", [saved.of_signed(n) for n in (0, -1, 1, -2, TOP, -TOP - 1)], [0, 1, 2, 3, MOST - 1, MOST]),
    ("signed numbers back", [saved.to_signed(n) for n in (0, 1, 2, 3, MOST - 1, MOST)], [0, -1, 1, -2, TOP, -TOP - 1]),
    ("case d", saved.save(CASE_D), (GIVEN, bytes.fromhex(CASE_D_FILE))),
    ("case d back", saved.load(bytes.fromhex(CASE_D_FILE)), (GIVEN, CASE_D)),
    ("the stored file of form 1", saved.save(saved.load(STORED)[1]), (GIVEN, STORED)),
    ("the longest file", (len(LONGEST), saved.load(LONGEST)), (3_328, (GIVEN, full()))),
    ("negative zeros in settings", saved.save(negative_zeros(CASE_D)), saved.save(CASE_D)),
    ("an unsound account before the room", saved.save(replace(CASE_D, cash=-1), 0)[0].number, 11),
    ("a room of the file, and one less", [saved.save(CASE_D, n)[0].number for n in (55, 54)], [0, 19]),
    ("a small file", [answer(), len(file())], [0, 29]),
    ("every part of the longest file", {loaded(LONGEST[:n]).number for n in range(len(LONGEST))}, {16}),
    ("nothing", loaded(b"").number, 16),
    ("form 0 and form 2", [answer(form="00"), answer(form="02")], [11, 11]),
    ("form 1 in two groups, and form 0", [answer(form="8100"), answer(form="8000")], [17, 17]),
    ("nine continuing groups and the end", cut("cash", cash=NINE), 16),
    ("a tenth group of 0, 1 and 2", [cut("cash", cash=NINE + tenth) for tenth in ("00", "01", "02")], [17, 16, 17]),
    ("a tenth group that continues", cut("cash", cash=NINE + "81"), 17),
    ("flags of 2", [cut(flag, **{flag: "02"}) for flag in ("cap", "recording", "cash_first")], [11, 11, 11]),
    ("a flag of 2^64 - 1", cut("recording", recording="ff" * 9 + "01"), 11),
    ("negative zeros in a file", [cut(rate, **{rate: NINE + "01"}) for rate in ("commission", "band", "slippage")], [11, 11, 11]),
    ("64 and 65 positions", [cut("positions", positions=n) for n in ("40", "41")], [16, 11]),
    ("lengths of 0 and 9 at the end", [cut("length", length=n) for n in ("00", "09")], [11, 11]),
    ("a length of 8 at the end", cut("length", length="08"), 16),
    ("a byte left over", answer("00"), 18),
    ("a byte left over after an unsound account", [answer("00", cash="01"), answer(cash="01")], [18, 11]),
    ("a symbol with a zero at its end", answer(length="02", symbol="4100"), 11),
    ("a symbol with a space", answer(symbol="20"), 11),
    ("a symbol twice", answer("0141" + ZEROS_AFTER, positions="02"), 11),
    ("symbols that fall", answer("0140" + ZEROS_AFTER, positions="02"), 11),
    ("symbols that ascend", answer("0142" + ZEROS_AFTER, positions="02"), 0),
    ("a symbol after its beginning", answer("024141" + ZEROS_AFTER, positions="02"), 0),
    ("an infinity and a NaN", [answer(band="80808080808080f87f"), answer(band="80808080808080fc7f")], [11, 11]),
    ("a rate below 0", answer(band="80808080808080f8bf01"), 11),
    ("a step of 0", answer(step="00"), 11),
    ("a ceiling below the floor", answer(floor="04", ceiling="02"), 11),
    ("a flat position with an average", answer(average="02"), 11),
    ("a trade cap of 0", saved.load(file(cap="0100"))[1].settings.max_trades_per_rebalance, 0),
]
