"""Holds the numbers of the saved form to another program's: protobuf's varints, and its ZigZag for signed ones (Debian's python3-protobuf).

usage: python3 tools/model/varints.py [COUNT]     COUNT numbers of either kind, half a million where none is given, edges among them

What the model writes is read by protobuf and the other way round, byte for byte. Longer forms of a number, which protobuf takes, the model
refuses with 17, and so it does tenth groups above 1, of which protobuf drops what has no place. Skipped, and said so, where python3 has no
protobuf. Exit status 1 where something differs.
"""
import random
import sys

import saved
from model import BOTTOM, MOST_COUNT, TOP

SEED = 20261116
EDGES = sorted({n for k in range(65) for n in (2**k - 2, 2**k - 1, 2**k, 2**k + 1) if 0 <= n <= MOST_COUNT})
# Field 1, and field 2, each as bytes of its own length.
COUNTS_KEY, AMOUNTS_KEY = b"\x0a", b"\x12"


def message_type():
    """A message of counts and of signed amounts, each field packed: its numbers stand one after the other."""
    from google.protobuf import descriptor_pb2, descriptor_pool, message_factory

    file = descriptor_pb2.FileDescriptorProto(name="numbers.proto", package="saved", syntax="proto3")
    message = file.message_type.add(name="Numbers")
    kinds = descriptor_pb2.FieldDescriptorProto
    message.field.add(name="counts", number=1, type=kinds.TYPE_UINT64, label=kinds.LABEL_REPEATED)
    message.field.add(name="amounts", number=2, type=kinds.TYPE_SINT64, label=kinds.LABEL_REPEATED)
    pool = descriptor_pool.DescriptorPool()
    pool.AddSerializedFile(file.SerializeToString())
    descriptor = pool.FindMessageTypeByName("saved.Numbers")
    newer = getattr(message_factory, "GetMessageClass", None)
    return newer(descriptor) if newer else message_factory.MessageFactory(pool).GetPrototype(descriptor)


def of_any_length(source):
    return source.getrandbits(64) >> source.randrange(64)


def drawn(count):
    """Counts, and signed amounts."""
    source = random.Random(SEED)
    counts = EDGES + [of_any_length(source) for _ in range(count - len(EDGES))]
    amounts = [saved.to_signed(n) for n in EDGES] + [saved.to_signed(of_any_length(source)) for _ in range(count - len(EDGES))]
    return counts, amounts


def field(key, numbers):
    return key + saved.written(len(numbers)) + numbers


def ours(counts, amounts):
    written = (b"".join(map(saved.written, numbers)) for numbers in (counts, map(saved.of_signed, amounts)))
    return b"".join(map(field, (COUNTS_KEY, AMOUNTS_KEY), written))


def read(message):
    """The numbers of a message by the model's reader."""
    reader, fields = saved.Reader(message), []
    for signed in (False, True):
        reader.place += 1
        end, numbers = reader.number() + reader.place, []
        while reader.place < end:
            numbers.append(reader.signed() if signed else reader.number())
        fields.append(numbers)
    return fields


def is_refused(groups):
    """Whether the model refuses a number with 17, which tells its first byte."""
    try:
        saved.Reader(groups).number()
    except saved.Fault as fault:
        return fault.args[0] == (saved.BAD_NUMBER, 0)
    return False


def longer(n):
    """A number with a group of 0 more, as long as ten groups allow."""
    groups = saved.written(n)
    return groups[:-1] + bytes([groups[-1] + 128, 0]) if len(groups) < saved.MOST_GROUPS else None


def taken(numbers, groups):
    """What protobuf reads in bytes that are no shortest form; None where it refuses them."""
    message = numbers()
    try:
        message.ParseFromString(field(COUNTS_KEY, groups))
    except Exception:  # of a type that is another in each of its implementations
        return None
    return list(message.counts)


def check(count):
    numbers = message_type()
    counts, amounts = drawn(count)
    assert (min(amounts), max(amounts), max(counts)) == (BOTTOM, TOP, MOST_COUNT)
    mine = ours(counts, amounts)
    parsed = numbers()
    parsed.ParseFromString(mine)
    theirs = numbers(counts=counts, amounts=amounts).SerializeToString()
    forms = [(n, longer(n)) for n in counts[:20_000] if longer(n)]
    tenths = [bytes([128] * 9 + [tenth]) for tenth in range(2, 128)]
    yield "it reads what the model writes", (list(parsed.counts), list(parsed.amounts)) == (counts, amounts)
    yield "it writes the same bytes", theirs == mine
    yield "the model reads what it writes", read(theirs) == [counts, amounts]
    yield f"it takes {len(forms)} longer forms", all(taken(numbers, groups) == [n] for n, groups in forms)
    yield "which the model refuses with 17", all(is_refused(groups) for _, groups in forms)
    yield f"of {len(tenths)} tenth groups above 1 it takes {sum(taken(numbers, t) is not None for t in tenths)}", True
    yield "and the model refuses all with 17", all(is_refused(t) for t in tenths)


def main():
    words = sys.argv[1:] or ["500000"]
    if len(words) > 1 or not words[0].isdigit() or int(words[0]) < len(EDGES):
        sys.exit(__doc__)
    count = int(words[0])
    try:
        import google.protobuf
        from google.protobuf.internal import api_implementation
    except ImportError:
        print("varints: SKIPPED, since this python3 has no protobuf (Debian's python3-protobuf)")
        return
    which = f"protobuf {google.protobuf.__version__} ({api_implementation.Type()})"
    rows = list(check(count))
    said = "; ".join(what if holds else f"{what}: NO" for what, holds in rows)
    print(f"varints: {which}, {count} counts and {count} signed numbers: {said}")
    sys.exit(not all(holds for _, holds in rows))


if __name__ == "__main__":
    main()
