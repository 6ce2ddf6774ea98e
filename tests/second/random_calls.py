"""Random calls for a station, most of them such that they can be accepted.

What fits is read off the picture of the station. A mood, kept for some
calls, makes some of the 18 calls more frequent: without it no run would
register 16 names, or leave the running task out for long.

Only randrange and choice of the random numbers are used, and what fields.py
uses, so that a seed gives the same with every Python.
"""

import codec
import fields
import listing
from station import NO_NUMBER, PRIORITIES
from station_calls import CODES, FIRST_OF_TASKS

NAMES = tuple(f"SERVICE{letter}".encode() for letter in "ABCDEFGHIJKLMNOPQRST")

USUAL = {"Start": 4, "Open": 4, "Close": 3, "Register": 3, "Strike": 2,
         "Post": 4, "Tick": 4, "Send": 4, "Wait": 6, "Check": 8, "Request": 7,
         "Respond": 6, "Move": 7, "Alarm": 4, "Cancel": 5, "Priority": 3,
         "End": 4, "Tray": 3}

MOODS = {
    "usual": {},
    "naming": {"Register": 60, "Strike": 1},
    "serving": {"Request": 25, "Check": 25, "Respond": 15, "Move": 15,
                "End": 15},
    "timing": {"Alarm": 20, "Tick": 16, "Cancel": 14, "Wait": 10},
    "waiting": {"Wait": 25, "Post": 8},
    "leaving": {"Check": 20, "Respond": 10, "Cancel": 10, "Strike": 12,
                "Close": 15, "End": 8, "Request": 1, "Alarm": 1},
}

WEIGHTED = {mood: tuple(name for name, weight in {**USUAL, **more}.items()
                        for _ in range(weight))
            for mood, more in MOODS.items()}


def can_fit(name, picture):
    """Whether the station has what the call is about at the moment."""
    if CODES[name] < FIRST_OF_TASKS:
        return True
    if picture.running is None:
        return False
    match name:
        case "Respond" | "Move":
            return bool(picture.tasks[picture.running].in_hand)
        case "Cancel":
            return bool(picture.alarms)
        case "Request":
            return bool(picture.names)
    return True


def call_name(mood, picture, rng):
    """The name of a call, mostly of one that can fit."""
    name = rng.choice(WEIGHTED[mood])
    while not can_fit(name, picture) and rng.randrange(12):
        name = rng.choice(WEIGHTED[mood])
    return name


def number_below(size, fitting, rng):
    """A number below a size, mostly a fitting one; at times too large."""
    chance = rng.randrange(20)
    if chance == 0:
        return rng.choice((size, size + 1, NO_NUMBER,
                           rng.randrange(size, NO_NUMBER)))
    if fitting and chance < 16:
        return rng.choice(fitting)
    return rng.randrange(size)


def task(name, picture, rng):
    """A task for Start, mostly an absent one."""
    absent = [number for number, record in enumerate(picture.tasks)
              if record is None]
    return number_below(len(picture.tasks), absent, rng)


def exchange(name, picture, rng):
    """An exchange, mostly one that suits the call."""
    opened = picture.open_exchanges()
    fitting = [number for number, _ in opened]
    if name == "Open":
        fitting = [number for number in range(len(picture.exchanges))
                   if number not in fitting]
    elif name == "Close":
        fitting = [number for number, there in opened
                   if not there.items and not there.waiting]
    elif name == "Check":
        fitting = [number for number, there in opened if there.items]
    elif name == "Post" and picture.running is None:
        fitting = [number for number, there in opened if there.waiting]
    return number_below(len(picture.exchanges), fitting, rng)


def block(name, picture, blocks, rng):
    """A block, mostly one of an alarm or in the caller's hand."""
    if name == "Cancel":
        fitting = [alarm.block for alarm in picture.alarms]
    elif picture.running is None:
        fitting = []
    else:
        fitting = sorted(picture.tasks[picture.running].in_hand)
    return number_below(blocks, fitting, rng)


def priority(rng):
    """A priority, often one that others have too."""
    return number_below(PRIORITIES, (0, 8, 9, 9, 9, 10, 31), rng)


def ticks(rng):
    """A number of ticks, mostly small."""
    return rng.choice((0, 1, 1, 1, 2, 2, 2, 3, 3, 4, 5, 6, 7,
                       fields.number(fields.LARGEST["n3"], rng)))


def service_name(name, picture, rng):
    """A name, mostly one that is registered, or for Register is not."""
    chance = rng.randrange(20)
    if chance == 0:
        return fields.bad_name(rng)
    if chance == 1:
        return fields.good_name(rng)
    fitting = [known for known in NAMES
               if (known in picture.names) != (name == "Register")]
    return rng.choice(fitting if fitting and chance < 17 else NAMES)


def message(kind, rng):
    """A message, mostly one of the kind in use."""
    if rng.randrange(20) == 0:
        return fields.bad_message(kind, rng)
    return fields.good_message(kind, rng)


def random_call(kind, blocks, picture, mood, rng):
    """A call on the station with this picture, in a mood."""
    name = call_name(mood, picture, rng)
    makers = {
        "task": lambda: task(name, picture, rng),
        "exchange": lambda: exchange(name, picture, rng),
        "reply exchange": lambda: exchange(name, picture, rng),
        "block": lambda: block(name, picture, blocks, rng),
        "priority": lambda: priority(rng),
        "ticks": lambda: ticks(rng),
        "status": lambda: fields.number(fields.LARGEST["n3"], rng),
        "name": lambda: service_name(name, picture, rng),
        "message": lambda: message(kind, rng),
    }
    used = {field: makers[word]() for word, field in zip(
        listing.FIELD_WORDS[name], codec.uses(CODES[name]), strict=True)}
    return codec.Record(CODES[name], **used)
