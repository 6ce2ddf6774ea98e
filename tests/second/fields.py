"""Random fields of rows: numbers, names and messages, good and bad.

The bytes are put together from numbers, not by the writer of codec.py, so
that what a field is does not depend on what is compared by means of it.

Only randrange, choice, shuffle and randbytes of the random numbers are used,
here and in batches.py, so that a seed gives the same with every Python.
"""

import string
import struct

LETTERS = string.ascii_uppercase.encode()
SMALL_LETTERS = string.ascii_lowercase.encode()
DIGITS = string.digits.encode()
NAME_BYTES = LETTERS + DIGITS
OTHER_BYTES = bytes(byte for byte in range(256)
                    if byte not in NAME_BYTES + SMALL_LETTERS + b" ")
NEIGHBOUR_BYTES = b"@[/:\x1f!"  # just outside A to Z, 0 to 9 and the space
SPACES = b" " * 8
ZEROS = bytes(8)

LARGEST = {"n1": 0xffff, "n2": 0xffff, "n3": 0xffffffff}


def number(largest, rng):
    """A number up to the largest one, often small or at an edge."""
    return rng.choice((0, largest, rng.randrange(10),
                       rng.randrange(largest + 1)))


def long_name(rng):
    """A service name of 8 characters."""
    rest = (rng.choice(NAME_BYTES) for _ in range(7))
    return bytes((rng.choice(LETTERS), *rest))


def short_name(rng):
    """A service name of 1 to 7 characters, so with spaces at the end."""
    return long_name(rng)[:inside(rng)].ljust(8)


def good_name(rng):
    """A service name."""
    return rng.choice((long_name, short_name))(rng)


def inside(rng):
    """A place in a name that is not the first."""
    return rng.randrange(1, 8)


def name_with(place, choices, rng):
    """A name of 8 characters with one byte replaced."""
    name = bytearray(long_name(rng))
    name[place] = rng.choice(choices)
    return bytes(name)


def name_with_gap(choices, rng):
    """A name in which one byte stands after a space."""
    space = rng.randrange(1, 7)
    name = bytearray(long_name(rng)[:space].ljust(8))
    name[rng.randrange(space + 1, 8)] = rng.choice(choices)
    return bytes(name)


GOOD_NAMES = {
    "name of one letter":
        lambda rng: long_name(rng)[:1].ljust(8),
    "name with spaces at the end":
        short_name,
    "name of 8 characters":
        long_name,
    "name of A, Z, 0 and 9":
        lambda rng: bytes((rng.choice(b"AZ"),
                           *(rng.choice(b"AZ09") for _ in range(7)))),
}

BAD_NAMES = {
    "first byte a digit":
        lambda rng: name_with(0, DIGITS, rng),
    "first byte a space":
        lambda rng: name_with(0, b" ", rng),
    "first byte a small letter":
        lambda rng: name_with(0, SMALL_LETTERS, rng),
    "first byte another":
        lambda rng: name_with(0, OTHER_BYTES, rng),
    "small letter":
        lambda rng: name_with(inside(rng), SMALL_LETTERS, rng),
    "other byte":
        lambda rng: name_with(inside(rng), OTHER_BYTES, rng),
    "byte next to a range":
        lambda rng: name_with(rng.randrange(8), NEIGHBOUR_BYTES, rng),
    "letter after a space":
        lambda rng: name_with_gap(LETTERS, rng),
    "digit after a space":
        lambda rng: name_with_gap(DIGITS, rng),
    "eight spaces":
        lambda rng: SPACES,
    "eight zero bytes":
        lambda rng: ZEROS,
    "filled up with zeros":
        lambda rng: long_name(rng)[:inside(rng)].ljust(8, b"\0"),
}


def eight(first, second, middle, last):
    """Eight bytes with numbers in the bytes 0, 1, 2 to 3 and 4 to 7."""
    return struct.pack("<BBHI", first, second, middle, last)


def docks(rng, event=None, zero=0, dock=None, bicycle=None):
    """The bytes of a dock message, random but for what is given."""
    return eight(
        rng.randrange(1, 5) if event is None else event, zero,
        rng.randrange(1, 501) if dock is None else dock,
        number(0xffffffff, rng) if bicycle is None else bicycle)


def tariff(rng, sort=1, zero=0, table=None, day=None):
    """The bytes of a tariff table, random but for what is given."""
    return eight(
        sort, zero,
        rng.randrange(1, 10000) if table is None else table,
        number(0xffffffff, rng) if day is None else day)


def cancellation(rng, sort=2, zero=0, cents=None, hire=None):
    """The bytes of a cancellation, random but for what is given."""
    return eight(
        sort, zero,
        number(0xffff, rng) if cents is None else cents,
        number(0xffffffff, rng) if hire is None else hire)


def good_message(kind, rng):
    """The bytes of a message of this kind."""
    if kind == "docks":
        return docks(rng)
    return rng.choice((tariff, cancellation))(rng)


GOOD_MESSAGES = {
    "docks": {
        "dock 1": lambda rng: docks(rng, dock=1),
        "dock 500": lambda rng: docks(rng, dock=500),
        "bicycle 0": lambda rng: docks(rng, bicycle=0),
        "bicycle 4294967295": lambda rng: docks(rng, bicycle=0xffffffff),
        "hire": lambda rng: docks(rng, event=1),
        "return": lambda rng: docks(rng, event=2),
        "fault": lambda rng: docks(rng, event=3),
        "report": lambda rng: docks(rng, event=4),
        "also a form": lambda rng: docks(rng, event=rng.randrange(1, 3)),
    },
    "forms": {
        "table 1": lambda rng: tariff(rng, table=1),
        "table 9999": lambda rng: tariff(rng, table=9999),
        "day 0": lambda rng: tariff(rng, day=0),
        "day 4294967295": lambda rng: tariff(rng, day=0xffffffff),
        "cents 0": lambda rng: cancellation(rng, cents=0),
        "cents 65535": lambda rng: cancellation(rng, cents=0xffff),
        "hire 0": lambda rng: cancellation(rng, hire=0),
        "hire 4294967295": lambda rng: cancellation(rng, hire=0xffffffff),
        "also a dock message":
            lambda rng: cancellation(rng, cents=rng.randrange(1, 501)),
    },
}

BAD_MESSAGES = {
    "docks": {
        "event 0": lambda rng: docks(rng, event=0),
        "event 5": lambda rng: docks(rng, event=5),
        "event 6 to 255": lambda rng: docks(rng, event=rng.randrange(6, 256)),
        "second byte not zero":
            lambda rng: docks(rng, zero=rng.randrange(1, 256)),
        "dock 0": lambda rng: docks(rng, dock=0),
        "dock 501": lambda rng: docks(rng, dock=501),
        "dock 502 to 65535":
            lambda rng: docks(rng, dock=rng.randrange(502, 65536)),
        "a form only":
            lambda rng: tariff(rng, table=rng.randrange(501, 10000)),
        "eight zero bytes": lambda rng: ZEROS,
    },
    "forms": {
        "form byte 0": lambda rng: cancellation(rng, sort=0),
        "form byte 3": lambda rng: cancellation(rng, sort=3),
        "form byte 4 to 255":
            lambda rng: tariff(rng, sort=rng.randrange(4, 256)),
        "tariff, second byte not zero":
            lambda rng: tariff(rng, zero=rng.randrange(1, 256)),
        "cancellation, second byte not zero":
            lambda rng: cancellation(rng, zero=rng.randrange(1, 256)),
        "table 0": lambda rng: tariff(rng, table=0),
        "table 10000": lambda rng: tariff(rng, table=10000),
        "table 10001 to 65535":
            lambda rng: tariff(rng, table=rng.randrange(10001, 65536)),
        "a dock message only":
            lambda rng: docks(rng, event=rng.randrange(3, 5)),
        "eight zero bytes": lambda rng: ZEROS,
    },
}


def bad_name(rng):
    """A name that is bad in one of the ways."""
    return rng.choice(tuple(BAD_NAMES.values()))(rng)


def bad_message(kind, rng):
    """A message that is bad in one of the ways for this kind."""
    return rng.choice(tuple(BAD_MESSAGES[kind].values()))(rng)


def good_field(kind, field, rng):
    """What a call may have in a field that it uses."""
    if field == "name":
        return good_name(rng)
    if field == "message":
        return good_message(kind, rng)
    return number(LARGEST[field], rng)


def not_zero(field, rng):
    """What makes an unused field bad."""
    if field in LARGEST:
        return 1 + number(LARGEST[field] - 1, rng)
    return rng.choice((SPACES, rng.randbytes(7) + b"\1", one_byte(rng)))


def one_byte(rng):
    """Eight bytes of which one is not zero."""
    value = bytearray(8)
    value[rng.randrange(8)] = rng.randrange(1, 256)
    return bytes(value)
