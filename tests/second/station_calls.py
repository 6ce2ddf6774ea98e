"""The 18 calls on a station, made singly: when refused, and what they do.

Each refusal of docs/REFUSALS.md is a reason that holds or does not, whatever
the others do; the least that holds is given. A call is a record of codec.py
with zeros in the fields that it does not use, so 5 and 6 never hold.
"""

import struct
from typing import NamedTuple

import codec
import listing
from station import (CLOSED, MESSAGE, MOST_NAMES, NO_NUMBER, PRIORITIES, REPLY,
                     REQUEST, Alarm, Exchange, Item, Task)

NO_TASK = 255
FIRST_OF_TASKS = 8  # the owner makes the calls with smaller codes
CODES = {name: code for code, (name, _) in codec.CALLS.items()}
ANSWER = struct.Struct("<BBHB3xI8s")


class Answer(NamedTuple):
    """The six values that a call answers."""

    refusal: int
    running: int
    number: int = NO_NUMBER
    kind: int = 0
    status: int = 0
    message: bytes = bytes(8)

    def pack(self):
        """The twenty bytes of this answer."""
        return ANSWER.pack(*self)


class Shown(NamedTuple):
    """The values of an answer that the call itself decides."""

    number: int = NO_NUMBER
    kind: int = 0
    status: int = 0
    message: bytes = bytes(8)


def name_of(call):
    """The name of a call, such as Start."""
    return codec.CALLS[call.code][0]


def fields_of(call):
    """What the used fields of a call stand for, with their values."""
    words = zip(listing.FIELD_WORDS[name_of(call)], codec.uses(call.code),
                strict=True)
    return [(word, getattr(call, field)) for word, field in words]


def call_text(call):
    """A call in words; its name and message, good or bad, as bytes."""
    return " ".join([name_of(call), *(f"{word} {value}"
                                      for word, value in fields_of(call))])


def caller(station):
    """The record of the running task."""
    return station.tasks[station.running]


def exchange_at(station, number):
    """The exchange with this number; closed where it is out of range."""
    if number >= station.sizes.exchanges:
        return CLOSED
    return station.exchanges[number]


def is_in_range(station, exchange):
    """Whether an exchange has this number.

    A reason about an exchange that is out of range does not hold.
    """
    return exchange < station.sizes.exchanges


# The reasons, one for each refusal, in the order of their numbers.


def table_length(station, tables, call):
    """2: a table has not exactly a place for each block or task."""
    return (len(tables.messages) != station.sizes.blocks
            or len(tables.trays) != station.sizes.tasks)


def bad_name(station, tables, call):
    """7: the name that the call uses is not a service name."""
    return ("name" in codec.uses(call.code)
            and codec.read_name(call.name) is None)


def bad_message(station, tables, call):
    """8: the message that the call uses is not of the kind in use."""
    return ("message" in codec.uses(call.code)
            and codec.read_message(station.kind, call.message) is None)


def none_running(station, tables, call):
    """9: a call of the running task while no task runs."""
    return call.code >= FIRST_OF_TASKS and station.running is None


def out_of_range(station, tables, call):
    """10: a number not below the size, a priority above 31, or 0 ticks."""
    ends = {"task": station.sizes.tasks, "exchange": station.sizes.exchanges,
            "reply exchange": station.sizes.exchanges,
            "block": station.sizes.blocks, "priority": PRIORITIES}
    return any(word in ends and value >= ends[word]
               or word == "ticks" and value == 0
               for word, value in fields_of(call))


def already_there(station, tables, call):
    """11: the task is live, the exchange open or the name registered."""
    match name_of(call):
        case "Start":
            return station.is_live(call.n1)
        case "Open":
            return exchange_at(station, call.n1) is not CLOSED
        case "Register":
            return call.name in station.names
    return False


def exchange_closed(station, tables, call):
    """12: an exchange that the call names by number is closed."""
    named = [value for word, value in fields_of(call)
             if word in ("exchange", "reply exchange")]
    return name_of(call) != "Open" and any(
        is_in_range(station, exchange)
        and station.exchanges[exchange] is CLOSED for exchange in named)


def unknown_name(station, tables, call):
    """13: the name to strike or to request is not registered."""
    return (name_of(call) in ("Strike", "Request")
            and call.name not in station.names)


def exchange_bound(station, tables, call):
    """14: something is bound to the exchange to close."""
    return (name_of(call) == "Close"
            and exchange_at(station, call.n1) is not CLOSED
            and any(bindings(station, call.n1).values()))


def bindings(station, exchange):
    """The five that bind an open exchange, and whether each of them does."""
    there = station.exchanges[exchange]
    return {
        "an item": bool(there.items),
        "a task": bool(there.waiting),
        "an alarm": any(alarm.exchange == exchange
                        for alarm in station.alarms),
        "a name": exchange in station.names.values(),
        "an owed reply": exchange in station.reply_exchanges.values(),
    }


def register_full(station, tables, call):
    """15: a name is to be registered while 16 are."""
    return name_of(call) == "Register" and len(station.names) == MOST_NAMES


def no_free_block(station, tables, call):
    """16: the call needs a block and none is free."""
    return not station.pool.free and needs_block(station, call)


def needs_block(station, call):
    """Whether the call takes a block from the pool."""
    if name_of(call) in ("Post", "Send"):
        there = exchange_at(station, call.n1)
        return there is CLOSED or not there.waiting
    return name_of(call) in ("Request", "Alarm")


def no_item(station, tables, call):
    """17: no item waits at the exchange to check."""
    there = exchange_at(station, call.n1)
    return (name_of(call) == "Check" and is_in_range(station, call.n1)
            and (there is CLOSED or not there.items))


def not_held(station, tables, call):
    """18: the block is not in the caller's hand, or not of an alarm."""
    match name_of(call):
        case "Respond" | "Move":
            return (station.running is None
                    or call.n1 not in caller(station).in_hand)
        case "Cancel":
            return call.n1 not in [alarm.block for alarm in station.alarms]
    return False


def request_in_hand(station, tables, call):
    """19: the task to end has a request in hand."""
    return (name_of(call) == "End" and station.running is not None
            and bool(caller(station).in_hand))


REASONS = {
    2: table_length, 7: bad_name, 8: bad_message, 9: none_running,
    10: out_of_range, 11: already_there, 12: exchange_closed,
    13: unknown_name, 14: exchange_bound, 15: register_full,
    16: no_free_block, 17: no_item, 18: not_held, 19: request_in_hand,
}


def refusals(station, tables, call):
    """The numbers of all reasons that hold for a call."""
    return [number for number, reason in REASONS.items()
            if reason(station, tables, call)]


def least_refusal(station, tables, call):
    """The refusal that a call is given, or 0."""
    return min(refusals(station, tables, call), default=0)


# The effects of accepted calls, but for the settling. Those that show
# something in their answer give it.


def message_of(station, call):
    """The message that a call gives."""
    return codec.read_message(station.kind, call.message)


def change_caller(station, **changes):
    """Changes the record of the running task."""
    station.tasks[station.running] = caller(station)._replace(**changes)


def start(station, tables, call):
    """The task becomes live, with an empty tray and nothing in hand."""
    station.tasks[call.n1] = Task(call.n2)
    station.join(call.n1)


def open_exchange(station, tables, call):
    """The exchange is open, with no item and no waiting task."""
    station.exchanges[call.n1] = Exchange()


def close_exchange(station, tables, call):
    """The exchange is closed."""
    station.exchanges[call.n1] = CLOSED


def register(station, tables, call):
    """The name is tied to the exchange."""
    station.names[call.name] = call.n1


def strike(station, tables, call):
    """The name is removed."""
    del station.names[call.name]


def post(station, tables, call):
    """Puts a message; it takes a block exactly when no task waits."""
    message = message_of(station, call)
    block = None
    if needs_block(station, call):
        block = station.take_block(message, tables)
    station.put(call.n1, Item(MESSAGE, block), message, tables)


def tick(station, tables, call):
    """Lowers the alarms, puts those due and gives an equal task its turn."""
    station.tick(tables)


def wait(station, tables, call):
    """The caller takes the first item, or joins the waiting tasks."""
    there = station.exchanges[call.n1]
    if there.items:
        return check(station, tables, call)
    station.exchanges[call.n1] = Exchange(
        waiting=(*there.waiting, station.running))
    station.running = None
    return None


def check(station, tables, call):
    """The caller takes the first item."""
    first, *others = station.exchanges[call.n1].items
    station.exchanges[call.n1] = Exchange(items=tuple(others))
    station.take(station.running, first, tables.messages[first.block], tables)
    return Shown(kind=first.kind)


def request(station, tables, call):
    """Takes a block, notes its reply exchange and puts a request."""
    message = message_of(station, call)
    block = station.take_block(message, tables)
    station.reply_exchanges[block] = call.n1
    station.put(station.names[call.name], Item(REQUEST, block), message,
                tables)
    return Shown(number=block)


def respond(station, tables, call):
    """The request leaves the caller's hand; its reply is put."""
    change_caller(station, in_hand=caller(station).in_hand - {call.n1})
    station.put(station.reply_exchanges.pop(call.n1),
                Item(REPLY, call.n1, call.n3), tables.messages[call.n1],
                tables)


def move(station, tables, call):
    """The request leaves the caller's hand and is put again."""
    change_caller(station, in_hand=caller(station).in_hand - {call.n1})
    station.put(call.n2, Item(REQUEST, call.n1), tables.messages[call.n1],
                tables)


def alarm(station, tables, call):
    """Takes a block and starts an alarm, which stands last."""
    block = station.take_block(message_of(station, call), tables)
    station.alarms += (Alarm(block, call.n1, call.n3),)
    return Shown(number=block)


def cancel(station, tables, call):
    """Ends the alarm and gives its block back."""
    station.alarms = tuple(running for running in station.alarms
                           if running.block != call.n1)
    station.pool.give_back(call.n1)


def priority(station, tables, call):
    """Changes the caller's priority."""
    change_caller(station, priority=call.n1)


def end(station, tables, call):
    """The caller becomes absent."""
    station.running = None


def tray(station, tables, call):
    """Shows the caller's tray; an empty one shows no message."""
    kind, number, status = caller(station).tray
    if not kind:
        return Shown()
    return Shown(number, kind, status, tables.trays[station.running].pack())


EFFECTS = {
    "Start": start, "Open": open_exchange, "Close": close_exchange,
    "Register": register, "Strike": strike, "Post": post, "Tick": tick,
    "Send": post, "Wait": wait, "Check": check, "Request": request,
    "Respond": respond, "Move": move, "Alarm": alarm, "Cancel": cancel,
    "Priority": priority, "End": end, "Tray": tray,
}


def running_shown(station):
    """The running task as an answer shows it."""
    return NO_TASK if station.running is None else station.running


def make(station, tables, call):
    """Makes a call: accepted and done completely, or refused."""
    refusal = least_refusal(station, tables, call)
    if refusal:
        return Answer(refusal, running_shown(station))
    shown = EFFECTS[name_of(call)](station, tables, call) or Shown()
    station.settle()
    return Answer(0, running_shown(station), *shown)
