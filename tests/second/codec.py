"""Batches of calls: reading, judging and writing them.

This is the second program's own codec. It is written from docs/FORMATS.md
and docs/REFUSALS.md alone and shares no code with the first, so that an
error shows unless both make it. Reading turns bytes into values and writing
turns the values into bytes again, so that writing back is no mere copy.
"""

import re
import struct
from typing import NamedTuple

KINDS = ("docks", "forms")
EVENTS = ("hire", "return", "fault", "report")
FIELDS = ("n1", "n2", "n3", "name", "message")

CALLS = {
    1: ("Start", ("n1", "n2")),
    2: ("Open", ("n1",)),
    3: ("Close", ("n1",)),
    4: ("Register", ("n1", "name")),
    5: ("Strike", ("name",)),
    6: ("Post", ("n1", "message")),
    7: ("Tick", ()),
    8: ("Send", ("n1", "message")),
    9: ("Wait", ("n1",)),
    10: ("Check", ("n1",)),
    11: ("Request", ("n1", "name", "message")),
    12: ("Respond", ("n1", "n3")),
    13: ("Move", ("n1", "n2")),
    14: ("Alarm", ("n1", "n3", "message")),
    15: ("Cancel", ("n1",)),
    16: ("Priority", ("n1",)),
    17: ("End", ()),
    18: ("Tray", ()),
}

HEADER = struct.Struct("<HH")
ROW = struct.Struct("<HHI8s8s")
MESSAGE = struct.Struct("<BBHI")
NAME = re.compile(rb"[A-Z][A-Z0-9]* *")

ROW_WIDTH = 24
MOST_CALLS = 1024
MOST_DOCK = 500
MOST_TABLE = 9999
ACCEPTED = (0, None)


class Refused(Exception):
    """A batch that is refused, with the number and the row or None."""

    def __init__(self, number, row):
        super().__init__(f"refusal {number}, row {row}")
        self.number = number
        self.row = row


class DockMessage(NamedTuple):
    """A message of the kind docks; the event is one of EVENTS."""

    event: str
    dock: int
    bicycle: int

    def pack(self):
        """The eight bytes of this message."""
        event = EVENTS.index(self.event) + 1
        return MESSAGE.pack(event, 0, self.dock, self.bicycle)


class Tariff(NamedTuple):
    """A form that is a tariff table for a day."""

    table: int
    day: int

    def pack(self):
        """The eight bytes of this message."""
        return MESSAGE.pack(1, 0, self.table, self.day)


class Cancellation(NamedTuple):
    """A form that cancels an amount of a hire."""

    cents: int
    hire: int

    def pack(self):
        """The eight bytes of this message."""
        return MESSAGE.pack(2, 0, self.cents, self.hire)


class Record(NamedTuple):
    """A code and the five fields of a row, whether good or bad."""

    code: int
    n1: int = 0
    n2: int = 0
    n3: int = 0
    name: bytes = bytes(8)
    message: bytes = bytes(8)


class Call(NamedTuple):
    """A code and the values of the fields that the call uses, in order."""

    code: int
    values: tuple


NO_FIELDS = Record(0)


def call(name, *values):
    """The call with this name, so that callers need not know its code."""
    codes = {called: code for code, (called, _) in CALLS.items()}
    return Call(codes[name], values)


def uses(code):
    """The fields that the call with this code uses."""
    return CALLS[code][1]


def read_dock_message(eight):
    """The dock message in eight bytes, or None."""
    event, zero, dock, bicycle = MESSAGE.unpack(eight)
    if zero or not 1 <= event <= len(EVENTS) or not 1 <= dock <= MOST_DOCK:
        return None
    return DockMessage(EVENTS[event - 1], dock, bicycle)


def read_form(eight):
    """The form in eight bytes, or None."""
    sort, zero, small, large = MESSAGE.unpack(eight)
    if zero == 0 and sort == 1 and 1 <= small <= MOST_TABLE:
        return Tariff(small, large)
    if zero == 0 and sort == 2:
        return Cancellation(small, large)
    return None


def read_message(kind, eight):
    """The message of this kind in eight bytes, or None."""
    return read_dock_message(eight) if kind == "docks" else read_form(eight)


def read_name(eight):
    """The text of the service name in eight bytes, or None."""
    if not NAME.fullmatch(eight):
        return None
    return eight.decode("ascii").rstrip(" ")


def read_value(kind, field, raw):
    """What a used field of a row means; None if it means nothing."""
    if field == "name":
        return read_name(raw)
    if field == "message":
        return read_message(kind, raw)
    return raw


def write_value(field, value):
    """The reverse of read_value: the field of a row for a value."""
    if field == "name":
        return value.encode("ascii").ljust(8, b" ")
    if field == "message":
        return value.pack()
    return value


def call_of(kind, record):
    """The call that a good record stands for."""
    values = (read_value(kind, field, getattr(record, field))
              for field in uses(record.code))
    return Call(record.code, tuple(values))


def record_of(made):
    """The record of a call, with zeros where the call uses no field."""
    used = zip(uses(made.code), made.values, strict=True)
    fields = {field: write_value(field, value) for field, value in used}
    return Record(made.code, **fields)


def unused_field(record):
    """The first field that is not used and not zero, or None."""
    for field in FIELDS:
        is_zero = getattr(record, field) == getattr(NO_FIELDS, field)
        if field not in uses(record.code) and not is_zero:
            return field
    return None


def row_refusal(kind, record):
    """The smallest of the numbers 5 to 8 that applies, or 0."""
    if record.code not in CALLS:
        return 5
    if unused_field(record):
        return 6
    used = uses(record.code)
    if "name" in used and read_name(record.name) is None:
        return 7
    if "message" in used and read_message(kind, record.message) is None:
        return 8
    return 0


def shape_fault(batch):
    """Which reason for refusal 3 applies first, or None.

    The reasons are told apart because the listing words them differently.
    """
    if len(batch) < HEADER.size:
        return "header"
    count, width = HEADER.unpack_from(batch)
    if width != ROW_WIDTH:
        return "width"
    if count > MOST_CALLS:
        return "count"
    if len(batch) != batch_length(count):
        return "length"
    return None


def batch_length(count):
    """The number of bytes that a batch of so many calls has."""
    return HEADER.size + (1 + ROW_WIDTH) * count


def unpack(batch):
    """The records of bytes that have the shape of a batch."""
    count, _ = HEADER.unpack_from(batch)
    first_row = HEADER.size + count
    codes = batch[HEADER.size:first_row]
    rows = ROW.iter_unpack(batch[first_row:])
    return [Record(code, *row) for code, row in zip(codes, rows)]


def pack(records):
    """The bytes of records, unjudged, so that bad batches can be made."""
    header = HEADER.pack(len(records), ROW_WIDTH)
    codes = bytes(record.code for record in records)
    return header + codes + b"".join(ROW.pack(*r[1:]) for r in records)


def records_verdict(kind, records):
    """The number and row of the first bad record, or ACCEPTED."""
    for row, record in enumerate(records):
        number = row_refusal(kind, record)
        if number:
            return number, row
    return ACCEPTED


def verdict(kind, batch):
    """The number and the row (or None) with which a batch is judged."""
    if shape_fault(batch):
        return 3, None
    return records_verdict(kind, unpack(batch))


def read_batch(kind, batch):
    """The calls of a batch; raises Refused."""
    judged = verdict(kind, batch)
    if judged != ACCEPTED:
        raise Refused(*judged)
    return [call_of(kind, record) for record in unpack(batch)]


def write_batch(kind, calls):
    """The bytes of a batch of these calls; raises Refused."""
    if len(calls) > MOST_CALLS:
        raise Refused(3, None)
    records = [record_of(made) for made in calls]
    judged = records_verdict(kind, records)
    if judged != ACCEPTED:
        raise Refused(*judged)
    return pack(records)
