"""The history of a station, read off its calls by the books.

The station writes no log. Each accepted call is entered with its answer, and
what it puts and who takes are worked out from the history so far and from
what was seen before the call. What the station then shows is held against
this by books.py.
"""

from typing import NamedTuple

from station import ALARM, MESSAGE, NO_NUMBER, REPLY, REQUEST, ClosingCounts


class BrokenLaw(Exception):
    """A law that does not hold, and what was found instead."""

    def __init__(self, law, found):
        super().__init__(f"{law}: {found}")
        self.law = law


def require(holds, law, found):
    """Raises BrokenLaw unless the law holds."""
    if not holds:
        raise BrokenLaw(law, found)


class Item(NamedTuple):
    """An item as the books know it, with the bytes of its message."""

    kind: int
    number: int
    status: int
    message: bytes


class Put(NamedTuple):
    """An item that a call puts at an exchange."""

    exchange: int
    item: Item


class Take(NamedTuple):
    """A task that takes an item of an exchange in a call."""

    exchange: int
    task: int


class Owed(NamedTuple):
    """An unanswered request: where its reply goes, and its message."""

    exchange: int
    message: bytes


class Timer(NamedTuple):
    """A running alarm as the books know it."""

    block: int
    exchange: int
    ticks: int
    message: bytes


class History:
    """What is known of a station from its calls since its opening."""

    def __init__(self):
        self.priorities = {}  # of each live task, the one last given
        self.trays = {}       # of each live task, the item taken last
        self.hands = {}       # of each block in hand, its task
        self.queues = {}      # of each open exchange, what is not taken yet
        self.names = {}
        self.timers = []      # the running alarms in the order set
        self.owed = {}        # the unanswered requests by block

    def enter(self, step):
        """Enters an accepted call; gives what it puts, in order."""
        return ENTRIES[step.name](self, step) or []

    def closing_counts(self):
        """The closing counts as the history gives them."""
        return ClosingCounts(
            len(self.priorities), sum(map(len, self.queues.values())),
            len(self.timers), len(self.hands))

    # What each call makes of the history. Those that put give their puts.

    def enter_start(self, step):
        """A task is live, with a priority and an empty tray."""
        self.priorities[step.call.n1] = step.call.n2
        self.trays[step.call.n1] = None

    def enter_open(self, step):
        """From here on the items of the exchange are counted."""
        self.queues[step.call.n1] = []

    def enter_close(self, step):
        """What was left at the exchange would now be nowhere."""
        del self.queues[step.call.n1]

    def enter_register(self, step):
        """A name is tied to an exchange."""
        self.names[step.call.name] = step.call.n1

    def enter_strike(self, step):
        """A name is removed."""
        del self.names[step.call.name]

    def enter_message(self, step):
        """Post and Send put the message given."""
        return [Put(step.call.n1,
                    Item(MESSAGE, NO_NUMBER, 0, step.call.message))]

    def enter_tick(self, step):
        """The due alarms are put in the order in which they were set."""
        lowered = [timer._replace(ticks=timer.ticks - 1)
                   for timer in self.timers]
        self.timers = [timer for timer in lowered if timer.ticks]
        return [Put(timer.exchange,
                    Item(ALARM, timer.block, 0, timer.message))
                for timer in lowered if not timer.ticks]

    def enter_nothing(self, step):
        """Wait, Check and Tray put nothing; takes are entered elsewhere."""

    def enter_request(self, step):
        """A request is owed a reply from here on."""
        block = step.answer.number
        require(block not in self.owed, "answered at most once",
                f"a second Request of block {block} without a Respond")
        self.owed[block] = Owed(step.call.n1, step.call.message)
        return [Put(self.names[step.call.name],
                    Item(REQUEST, block, 0, step.call.message))]

    def enter_respond(self, step):
        """The reply has the status given and the request's message."""
        block = step.call.n1
        self.leave_hand(step, block)
        exchange, message = self.owed.pop(block)
        return [Put(exchange, Item(REPLY, block, step.call.n3, message))]

    def enter_move(self, step):
        """A moved request counts as put again."""
        block = step.call.n1
        self.leave_hand(step, block)
        return [Put(step.call.n2,
                    Item(REQUEST, block, 0, self.owed[block].message))]

    def leave_hand(self, step, block):
        """A request leaves the caller's hand, where it must be."""
        require(block in self.owed, "answered at most once",
                f"{step.name} of block {block}, which is owed no reply")
        holder = self.hands.pop(block, None)
        require(holder == step.caller, "in hand",
                f"{step.name} of block {block} in the hand of {holder}")

    def enter_alarm(self, step):
        """A new alarm stands last."""
        self.timers.append(Timer(step.answer.number, step.call.n1,
                                 step.call.n3, step.call.message))

    def enter_cancel(self, step):
        """An alarm ends without being due."""
        found = [timer for timer in self.timers
                 if timer.block == step.call.n1]
        require(len(found) == 1, "alarms",
                f"Cancel of block {step.call.n1}, which is no alarm's")
        self.timers.remove(found[0])

    def enter_priority(self, step):
        """The caller has another priority."""
        self.priorities[step.caller] = step.call.n1

    def enter_end(self, step):
        """The caller is absent, and nobody sees its record."""
        del self.priorities[step.caller]
        del self.trays[step.caller]

    def enter_taken(self, taken):
        """Tasks have these items in their trays, and requests in hand."""
        for task, item in taken:
            self.trays[task] = item
            if item.kind == REQUEST:
                self.hands[item.number] = task


ENTRIES = {
    "Start": History.enter_start, "Open": History.enter_open,
    "Close": History.enter_close, "Register": History.enter_register,
    "Strike": History.enter_strike, "Post": History.enter_message,
    "Tick": History.enter_tick, "Send": History.enter_message,
    "Wait": History.enter_nothing, "Check": History.enter_nothing,
    "Request": History.enter_request, "Respond": History.enter_respond,
    "Move": History.enter_move, "Alarm": History.enter_alarm,
    "Cancel": History.enter_cancel, "Priority": History.enter_priority,
    "End": History.enter_end, "Tray": History.enter_nothing,
}


def takes_of(step, puts):
    """The takes of a call, in order, from who waited before it."""
    if step.name in ("Wait", "Check"):
        there = step.before.exchanges[step.call.n1]
        return [Take(step.call.n1, step.caller)] if there.items else []
    waiting = {number: list(exchange.waiting)
               for number, exchange in step.before.open_exchanges()}
    return [Take(put.exchange, waiting[put.exchange].pop(0))
            for put in puts if waiting.get(put.exchange)]
