"""Bugs to plant in the station, to show that the checks would find them.

Each replaces one function of the station by one with a likely mistake, for
as long as its patch is in force.
"""

from unittest.mock import patch

import station_calls
from parts import ReadyQueue
from station import (ALARM, MESSAGE, MOST_NAMES, REQUEST, Exchange, Item,
                     Station)
from station_calls import CODES, EFFECTS, REASONS

BINDINGS = ("an item", "a task", "an alarm", "a name", "an owed reply")

right_bindings = station_calls.bindings
right_close = Station.close
right_count_down = Station.count_down
right_join = ReadyQueue.join
right_least = station_calls.least_refusal
right_put = Station.put
right_take = Station.take


def take_and_free(self, task, item, message, tables):
    """Gives back the block of a request as well."""
    right_take(self, task, item, message, tables)
    if item.kind == REQUEST:
        self.pool.give_back(item.block)


def take_for_running(self, task, item, message, tables):
    """Writes the message to the running task's tray place."""
    own = tables.trays[task]
    right_take(self, task, item, message, tables)
    if self.running is not None:
        tables.trays[task] = own
        tables.trays[self.running] = message


def due_by_block(self):
    """Gives the due alarms by their block numbers."""
    return sorted(right_count_down(self))


def due_late(self):
    """Ends an alarm only when it has been at 0 for a Tick."""
    due = [alarm for alarm in self.alarms if not alarm.ticks]
    self.alarms = tuple(alarm._replace(ticks=alarm.ticks - 1)
                        for alarm in self.alarms if alarm.ticks)
    return due


def join_worst_first(self, task, priority):
    """Takes 31 for the best priority."""
    done = right_join(self, task, priority)
    self.pairs.sort(key=lambda pair: -pair[1])
    return done


def put_in_front(self, exchange, item, message, tables):
    """Queues an item before all others."""
    right_put(self, exchange, item, message, tables)
    items = self.exchanges[exchange].items
    if items:
        self.exchanges[exchange] = Exchange((items[-1], *items[:-1]))


def put_and_lose(self, exchange, item, message, tables):
    """Lets the first waiting task take, but never makes it ready."""
    waiting = self.exchanges[exchange].waiting
    if waiting:
        self.exchanges[exchange] = Exchange(waiting=waiting[1:])
        self.take(waiting[0], item, message, tables)
    else:
        right_put(self, exchange, item, message, tables)


def put_to_best(self, exchange, item, message, tables):
    """Lets the best of the waiting tasks take, not the first."""
    waiting = sorted(self.exchanges[exchange].waiting,
                     key=lambda task: self.tasks[task].priority)
    if waiting:
        self.exchanges[exchange] = Exchange(waiting=tuple(waiting))
    right_put(self, exchange, item, message, tables)


def block_without_message(self, message, tables):
    """Leaves the block's place as it is."""
    return self.pool.take()


def settle_equal(self):
    """Lets an equal task displace the running one."""
    _, best = self.ready.first()
    if None not in (self.running, best):
        if best <= self.tasks[self.running].priority:
            self.stop()
    if self.running is None:
        self.running, _ = self.ready.take_best()


def tick_without_turn(self, tables):
    """Puts the due alarms, but gives an equal task no turn."""
    for alarm in self.count_down():
        self.put(alarm.exchange, Item(ALARM, alarm.block),
                 tables.messages[alarm.block], tables)


def close_without_hands(self):
    """Forgets to count the requests in hand."""
    return right_close(self)._replace(in_hand=0)


def bindings_without(ignored):
    """The bindings of an exchange without this one."""
    return lambda station, exchange: {
        **right_bindings(station, exchange), ignored: False}


def never(station, tables, call):
    """A reason that is forgotten."""
    return False


def too_short(station, tables, call):
    """Takes tables that are too long."""
    return (len(tables.messages) < station.sizes.blocks
            or len(tables.trays) < station.sizes.tasks)


def answer_for_others(station, tables, call):
    """Lets any task answer or move any unanswered request."""
    if call.code == CODES["Cancel"]:
        return station_calls.not_held(station, tables, call)
    return (call.code in (CODES["Respond"], CODES["Move"])
            and call.n1 not in station.reply_exchanges)


def seventeen_names(station, tables, call):
    """Lets one name more be registered."""
    return (call.code == CODES["Register"]
            and len(station.names) > MOST_NAMES)


def largest_refusal(station, tables, call):
    """Gives the largest of several numbers."""
    return max(station_calls.refusals(station, tables, call), default=0)


def refuse_and_settle(station, tables, call):
    """Gives an equal task its turn after a refused call."""
    refusal = right_least(station, tables, call)
    if refusal and station.running is not None:
        station.stop()
        station.settle()
    return refusal


def request_with_service(station, tables, call):
    """Notes the service's exchange as the one for the reply."""
    return station_calls.request(
        station, tables, call._replace(n1=station.names[call.name]))


def respond_with_zero(station, tables, call):
    """Forgets the status."""
    station_calls.respond(station, tables, call._replace(n3=0))


def move_and_keep(station, tables, call):
    """Leaves the moved request in the caller's hand."""
    running, hand = station.running, station_calls.caller(station).in_hand
    station_calls.move(station, tables, call)
    station.tasks[running] = station.tasks[running]._replace(in_hand=hand)


def post_with_block(station, tables, call):
    """Takes a block also where a task waits, if one is free."""
    message = station_calls.message_of(station, call)
    block = None
    if station.pool.free:
        block = station.take_block(message, tables)
    station.put(call.n1, Item(MESSAGE, block), message, tables)


def cancel_and_leak(station, tables, call):
    """Does not give the block back."""
    station.alarms = tuple(alarm for alarm in station.alarms
                           if alarm.block != call.n1)


def start_with_tray(station, tables, call):
    """Keeps the tray of the task that had the number before."""
    record = station.tasks[call.n1]
    station.tasks[call.n1] = record._replace(priority=call.n2)
    station.join(call.n1)


def check_last(station, tables, call):
    """Takes the last item in place of the first."""
    items = station.exchanges[call.n1].items
    station.exchanges[call.n1] = Exchange((items[-1], *items[:-1]))
    return station_calls.check(station, tables, call)


class OneForAll:
    """A dict of names that all stations share."""

    shared = {}

    def __get__(self, station, owner):
        """The same names for every station."""
        return self.shared

    def __set__(self, station, names):
        """Opening a station sets its names; here that has no effect."""


def method(name, wrong):
    """A patch of a method of the station."""
    return patch.object(Station, name, wrong)


def reason(number, wrong):
    """A patch of the reason for a refusal."""
    return patch.dict(REASONS, {number: wrong})


def effect(name, wrong):
    """A patch of the effect of a call."""
    return patch.dict(EFFECTS, {name: wrong})


BUGS = {
    "a request's block is freed when its server takes it":
        method("take", take_and_free),
    "due alarms are put by block number":
        method("count_down", due_by_block),
    "31 is the best priority":
        patch.object(ReadyQueue, "join", join_worst_first),
    "items are put in front":
        method("put", put_in_front),
    "the message place of a block is not written":
        method("take_block", block_without_message),
    **{f"Close does not look for {ignored}":
       patch.object(station_calls, "bindings", bindings_without(ignored))
       for ignored in BINDINGS},
    "End is accepted with a request in hand":
        reason(19, never),
    "an equal task displaces the running one in settling":
        method("settle", settle_equal),
    "a reply goes to the service's exchange":
        effect("Request", request_with_service),
    "a woken task is lost":
        method("put", put_and_lose),
    "a message is written to the tray place of the running task":
        method("take", take_for_running),
    "alarms are due one Tick late":
        method("count_down", due_late),
    "waiting tasks leave by priority":
        method("put", put_to_best),
    "Tick gives an equal task no turn":
        method("tick", tick_without_turn),
    "the largest refusal is given":
        patch.object(station_calls, "least_refusal", largest_refusal),
    "a refused call gives an equal task its turn":
        patch.object(station_calls, "least_refusal", refuse_and_settle),
    "tables may be too long":
        reason(2, too_short),
    "17 names can be registered":
        reason(15, seventeen_names),
    "any task can answer any unanswered request":
        reason(18, answer_for_others),
    "Respond forgets the status":
        effect("Respond", respond_with_zero),
    "a moved request stays in hand":
        effect("Move", move_and_keep),
    "Post takes a block although a task waits":
        effect("Post", post_with_block),
    "Cancel does not give the block back":
        effect("Cancel", cancel_and_leak),
    "Start keeps the old tray":
        effect("Start", start_with_tray),
    "Check takes the last item":
        effect("Check", check_last),
    "two stations share their names":
        patch.object(Station, "names", OneForAll(), create=True),
    "closing does not count the requests in hand":
        method("close", close_without_hands),
}
