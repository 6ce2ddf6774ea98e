"""Random batches for comparison, by named cases.

Each case makes batches of one sort: good ones, those at the edges of what
is good, and those that are refused, for each way of being wrong. Each batch
is judged by codec.py before it is given out: one that is not what the name
of its case says stops the run.
"""

import struct
from typing import NamedTuple

import codec
import fields
from codec import ACCEPTED, CALLS, FIELDS, KINDS, Record


class Made(NamedTuple):
    """A batch, and whether it is what the name of its case says."""

    kind: str
    batch: bytes
    holds: bool


# Records. A maker of records is a function of a kind and random numbers.


def good_record(kind, code, rng):
    """A record of the call with this code that is in order."""
    used = {field: fields.good_field(kind, field, rng)
            for field in codec.uses(code)}
    return Record(code, **used)


def good_records(kind, count, rng):
    """Records of calls chosen at random."""
    codes = [rng.choice(tuple(CALLS)) for _ in range(count)]
    return [good_record(kind, code, rng) for code in codes]


def record_using(kind, needed, rng):
    """A good record of some call that uses all these fields."""
    codes = [code for code in CALLS if set(needed) <= set(codec.uses(code))]
    return good_record(kind, rng.choice(codes), rng)


def unused_fields(record):
    """The fields that the call of this record does not use."""
    return [field for field in FIELDS if field not in codec.uses(record.code)]


def with_field(field, value):
    """A maker of records whose call uses this field, with a value for it."""
    def make(kind, rng):
        record = record_using(kind, (field,), rng)
        return record._replace(**{field: value(rng)})
    return make


def with_unused(field, value):
    """A maker of records with a value in a field that is not used."""
    codes = [code for code in CALLS if field not in codec.uses(code)]

    def make(kind, rng):
        record = good_record(kind, rng.choice(codes), rng)
        return record._replace(**{field: value(kind, rng)})
    return make


def with_two_unused(kind, rng):
    """A record with two unused fields that are not zero."""
    record = record_using(kind, (), rng)
    unused = unused_fields(record)
    rng.shuffle(unused)
    values = {field: fields.not_zero(field, rng) for field in unused[:2]}
    return record._replace(**values)


def with_code(codes):
    """A maker of records that are good but for a code out of these."""
    def make(kind, rng):
        return record_using(kind, (), rng)._replace(code=rng.choice(codes))
    return make


def with_numbers(value):
    """A maker of records in which the field decides the used numbers."""
    def make(kind, rng):
        record = record_using(kind, rng.choice((("n1", "n2"), ("n3",))), rng)
        numbers = {field: value(field) for field in codec.uses(record.code)
                   if field in fields.LARGEST}
        return record._replace(**numbers)
    return make


def with_faults(*refusals):
    """A maker of records to which all these refusals apply.

    Where 5 is one of them, the others apply to the call that the record had
    before its code was replaced.
    """
    needed = [field for refusal, field in ((7, "name"), (8, "message"))
              if refusal in refusals]

    def make(kind, rng):
        record = record_using(kind, needed, rng)
        changes = {}
        if 5 in refusals:
            changes["code"] = rng.choice((0, 19, rng.randrange(20, 256)))
        if 6 in refusals:
            field = rng.choice(unused_fields(record))
            changes[field] = fields.not_zero(field, rng)
        if 7 in refusals:
            changes["name"] = fields.bad_name(rng)
        if 8 in refusals:
            changes["message"] = fields.bad_message(kind, rng)
        return record._replace(**changes)
    return make


# Batches. A maker of batches is a function of random numbers; it also checks
# that the batch is of its case.


def some_calls(rng):
    """How many calls a batch has where the case leaves that open."""
    return rng.randrange(3, 6)


def row_at(place, count, rng):
    """A row that is the first, the last, between them, or any."""
    return {"first": 0, "last": count - 1, "any": rng.randrange(count),
            "middle": rng.randrange(1, count - 1)}[place]


def good(kind, least, most):
    """A maker of good batches of so many calls."""
    def make(rng):
        count = rng.randrange(least, most + 1)
        batch = codec.pack(good_records(kind, count, rng))
        holds = (codec.verdict(kind, batch) == ACCEPTED
                 and len(batch) == 4 + 25 * count)
        return Made(kind, batch, holds)
    return make


def all_calls(kind):
    """A maker of good batches with each of the 18 calls once."""
    def make(rng):
        codes = list(range(1, 19))
        rng.shuffle(codes)
        records = [good_record(kind, code, rng) for code in codes]
        batch = codec.pack(records)
        holds = (codec.verdict(kind, batch) == ACCEPTED
                 and sorted(batch[4:22]) == list(range(1, 19)))
        return Made(kind, batch, holds)
    return make


def one_row(refusal, record, place="any", kinds=KINDS, count=some_calls):
    """A maker of good batches in which one record was replaced.

    The refusal is that of the new record, 0 for a good one. It must carry
    the row of that record, since all others are in order.
    """
    def make(rng):
        kind = rng.choice(kinds)
        records = good_records(kind, count(rng), rng)
        before = codec.records_verdict(kind, records)
        row = row_at(place, len(records), rng)
        records[row] = record(kind, rng)
        batch = codec.pack(records)
        expected = (refusal, row) if refusal else ACCEPTED
        holds = (before == ACCEPTED
                 and codec.verdict(kind, batch) == expected)
        return Made(kind, batch, holds)
    return make


def reported_record(made):
    """The record that the refusal of a batch speaks of."""
    _, row = codec.verdict(made.kind, made.batch)
    return codec.unpack(made.batch)[row]


def one_unused(field, value):
    """A maker of batches in which 6 is given for this unused field."""
    plain = one_row(6, with_unused(field, value))

    def make(rng):
        made = plain(rng)
        named = codec.unused_field(reported_record(made))
        return made._replace(holds=made.holds and named == field)
    return make


def two_unused(rng):
    """A batch in which one row has two unused fields that are not zero."""
    made = one_row(6, with_two_unused)(rng)
    record = reported_record(made)
    filled = [field for field in unused_fields(record)
              if getattr(record, field) != getattr(codec.NO_FIELDS, field)]
    holds = len(filled) == 2 and codec.unused_field(record) == filled[0]
    return made._replace(holds=made.holds and holds)


def faults(kind, record):
    """All of the refusals 6 to 8 that apply to a record of a known call."""
    used = codec.uses(record.code)
    bad_name = codec.read_name(record.name) is None
    bad_message = codec.read_message(kind, record.message) is None
    found = {6: codec.unused_field(record) is not None,
             7: "name" in used and bad_name,
             8: "message" in used and bad_message}
    return {refusal for refusal in found if found[refusal]}


def several_faults(refusals):
    """A maker of batches with several faults in a row; the least is given.

    Without a code that is known, the other faults must apply to some call.
    """
    plain = one_row(min(refusals), with_faults(*refusals))

    def make(rng):
        made = plain(rng)
        record = reported_record(made)
        codes = [record.code] if record.code in CALLS else list(CALLS)
        found = [faults(made.kind, record._replace(code=code))
                 for code in codes]
        holds = set(refusals) - {5} in found
        return made._replace(holds=made.holds and holds)
    return make


def two_rows(first, second):
    """A maker of batches with two bad rows, of which the first is reported."""
    def make(rng):
        kind = rng.choice(KINDS)
        records = good_records(kind, some_calls(rng), rng)
        row = rng.randrange(len(records) - 1)
        later = rng.randrange(row + 1, len(records))
        records[row] = with_faults(first)(kind, rng)
        records[later] = with_faults(second)(kind, rng)
        alone = codec.row_refusal(kind, records[later])
        batch = codec.pack(records)
        holds = (alone == second
                 and codec.verdict(kind, batch) == (first, row))
        return Made(kind, batch, holds)
    return make


def misshapen(fault, spoil, count=some_calls):
    """A maker of good batches, each then given this fault as a whole."""
    def make(rng):
        kind = rng.choice(KINDS)
        whole = codec.pack(good_records(kind, count(rng), rng))
        batch = spoil(whole, rng)
        holds = (codec.verdict(kind, batch) == (3, None)
                 and codec.shape_fault(batch) == fault)
        return Made(kind, batch, holds)
    return make


def cut_to(length):
    """A change that leaves so many bytes of a batch."""
    return lambda batch, rng: batch[:length]


def with_header(batch, count=None, width=None):
    """The batch with another number of calls or row width in its header."""
    old_count, old_width = struct.unpack_from("<HH", batch)
    header = struct.pack("<HH", old_count if count is None else count,
                         old_width if width is None else width)
    return header + batch[4:]


def counting(difference):
    """A change after which the header counts so many calls more."""
    return lambda batch, rng: with_header(batch, count=batch[0] + difference)


def low_width(batch, rng):
    """The batch with a row width below 256 that is not 24."""
    return with_header(batch, width=rng.choice(
        (0, 23, 25, rng.randrange(24), rng.randrange(25, 256))))


def high_width(batch, rng):
    """The batch with a row width whose low byte alone is 24."""
    return with_header(batch, width=24 + 256 * rng.randrange(1, 256))


def too_many(batch, rng):
    """The batch with a header that counts over 1,024 calls."""
    count = rng.choice((1025, 65535, rng.randrange(1025, 65536)))
    return with_header(batch, count=count)


def wide_and_too_many(batch, rng):
    """The batch with a wrong width and over 1,024 calls in its header."""
    return low_width(too_many(batch, rng), rng)


def short_and_bad_code(batch, rng):
    """The batch one byte short and with 0 for its first code."""
    return batch[:4] + b"\0" + batch[5:-1]


def random_bytes(rng):
    """Any bytes."""
    batch = rng.randbytes(rng.randrange(150))
    return Made(rng.choice(KINDS), batch, len(batch) < 150)


def random_rows(codes):
    """A maker of random rows with such codes, in the shape of a batch."""
    def make(rng):
        count = some_calls(rng)
        batch = (struct.pack("<HH", count, 24)
                 + bytes(rng.choice(codes) for _ in range(count))
                 + rng.randbytes(24 * count))
        holds = (codec.shape_fault(batch) is None
                 and all(r.code in codes for r in codec.unpack(batch)))
        return Made(rng.choice(KINDS), batch, holds)
    return make


def one_byte_changed(rng):
    """A good batch in which one byte, anywhere, has another value."""
    kind = rng.choice(KINDS)
    before = codec.pack(good_records(kind, rng.randrange(1, 5), rng))
    batch = bytearray(before)
    batch[rng.randrange(len(batch))] ^= rng.randrange(1, 256)
    changed = sum(old != new for old, new in zip(before, batch, strict=True))
    holds = codec.verdict(kind, before) == ACCEPTED and changed == 1
    return Made(kind, bytes(batch), holds)


# The cases, as pairs of a name and a maker of batches.


def good_cases():
    """Good batches of each length and with each edge of the fields."""
    for kind in KINDS:
        yield f"good {kind}: 0 calls", good(kind, 0, 0)
        yield f"good {kind}: 1 call", good(kind, 1, 1)
        yield f"good {kind}: 2 to 10 calls", good(kind, 2, 10)
        yield f"good {kind}: all 18 calls", all_calls(kind)
        yield f"good {kind}: 1024 calls", good(kind, 1024, 1024)
        for way, value in fields.GOOD_MESSAGES[kind].items():
            yield f"good {kind}: {way}", one_row(
                0, with_field("message", value), kinds=(kind,))
    for way, value in fields.GOOD_NAMES.items():
        yield f"good: {way}", one_row(0, with_field("name", value))
    yield "good: numbers all 0", one_row(0, with_numbers(lambda field: 0))
    yield "good: numbers all largest", one_row(
        0, with_numbers(fields.LARGEST.get))


def shape_cases():
    """Refusal 3 for each of its reasons."""
    for length in range(4):
        yield f"3: {length} bytes", misshapen("header", cut_to(length))
    yield "3: width not 24, low byte", misshapen("width", low_width)
    yield "3: width not 24, high byte", misshapen("width", high_width)
    yield "3: 1025 calls of the right length", misshapen(
        "count", lambda batch, rng: batch, count=lambda rng: 1025)
    yield "3: over 1024 calls, few bytes", misshapen("count", too_many)
    yield "3: width and count", misshapen("width", wide_and_too_many)
    yield "3: one byte short", misshapen("length", cut_to(-1))
    yield "3: one byte long", misshapen(
        "length", lambda batch, rng: batch + rng.randbytes(1))
    yield "3: header counts one more", misshapen("length", counting(1))
    yield "3: header counts one fewer", misshapen("length", counting(-1))
    yield "3: length and a bad row", misshapen("length", short_and_bad_code)


def place_cases():
    """The refusals 5 to 8 in each place of a batch."""
    for refusal in (5, 6, 7, 8):
        for place in ("first", "middle", "last"):
            yield f"{refusal}: in the {place} row", one_row(
                refusal, with_faults(refusal), place)
    yield "8: in row 1023", one_row(
        8, with_faults(8), "last", count=lambda rng: 1024)


def code_cases():
    """Refusal 5 for each sort of code."""
    yield "5: code 0", one_row(5, with_code((0,)))
    yield "5: code 19", one_row(5, with_code((19,)))
    yield "5: code 20 to 255", one_row(5, with_code(range(20, 256)))


def unused_cases():
    """Refusal 6 for each field, and for values that would be good if used."""
    for field in FIELDS:
        yield f"6: unused {field}", one_unused(
            field, lambda kind, rng, f=field: fields.not_zero(f, rng))
    yield "6: unused name of eight spaces", one_unused(
        "name", lambda kind, rng: fields.SPACES)
    yield "6: unused name that is a service name", one_unused(
        "name", lambda kind, rng: fields.good_name(rng))
    yield "6: unused message that is a message", one_unused(
        "message", fields.good_message)
    for field in ("name", "message"):
        yield f"6: one byte of an unused {field}", one_unused(
            field, lambda kind, rng: fields.one_byte(rng))
    yield "6: two unused fields", two_unused


def name_and_message_cases():
    """The refusals 7 and 8 for each way to be bad."""
    for way, value in fields.BAD_NAMES.items():
        yield f"7: {way}", one_row(7, with_field("name", value))
    for kind in KINDS:
        for way, value in fields.BAD_MESSAGES[kind].items():
            yield f"8 {kind}: {way}", one_row(
                8, with_field("message", value), kinds=(kind,))


def several_fault_cases():
    """Several faults in one row, and faults in two rows."""
    for refusals in ((6, 7), (6, 8), (7, 8), (6, 7, 8),
                     (5, 6), (5, 7), (5, 8), (5, 6, 7, 8)):
        text = " and ".join(map(str, refusals))
        yield f"one row: {text}", several_faults(refusals)
    for first, second in ((6, 5), (7, 5), (8, 5), (7, 6), (8, 6), (8, 7),
                          (5, 8), (6, 7), (8, 8)):
        yield f"two rows: {first} before {second}", two_rows(first, second)


def random_cases():
    """Batches of which only the shape, or not even that, is chosen."""
    yield "random bytes", random_bytes
    yield "random codes and rows", random_rows(range(256))
    yield "random rows under good codes", random_rows(tuple(CALLS))
    yield "good but for one byte", one_byte_changed


CASES = {
    **dict(good_cases()),
    **dict(shape_cases()),
    **dict(place_cases()),
    **dict(code_cases()),
    **dict(unused_cases()),
    **dict(name_and_message_cases()),
    **dict(several_fault_cases()),
    **dict(random_cases()),
}

NAMES = tuple(CASES)

LONG = ("good docks: 1024 calls", "good forms: 1024 calls",
        "3: 1025 calls of the right length", "8: in row 1023")


def case(name, rng):
    """The kind and the bytes of a random batch of the case so named."""
    made = CASES[name](rng)
    if not made.holds:
        raise AssertionError(
            f"case {name}: not so for {made.kind} {made.batch.hex()}")
    return made.kind, made.batch
