"""The second program's station: its record, and how items move in it.

It is written from docs/RULES.md alone, a function for each rule and under
the rule's name. Records and queues are plain tuples that are replaced, never
changed, so that a picture of a station stays what it was. What the calls
check and do is in station_calls.py.
"""

from typing import NamedTuple

CLOSED = None  # what stands for an exchange that is not open
NO_NUMBER = 65535
MOST_NAMES = 16
PRIORITIES = 32

MESSAGE, REQUEST, REPLY, ALARM = 1, 2, 3, 4


class Sizes(NamedTuple):
    """How many tasks, exchanges and blocks a station has."""

    tasks: int = 1
    exchanges: int = 1
    blocks: int = 1


MOST = Sizes(64, 64, 256)


class Draft:
    """The sizes of a station to come."""

    def __init__(self):
        self.sizes = Sizes()

    def change(self, sort, size):
        """Changes the size of a sort; gives 0, or 1 for a bad size."""
        if not 1 <= size <= getattr(MOST, sort):
            return 1
        self.sizes = self.sizes._replace(**{sort: size})
        return 0


class Tables(NamedTuple):
    """The two tables brought to a call: lists of messages."""

    messages: list
    trays: list


class Item(NamedTuple):
    """An item but for its message, which stands in a table.

    The block is None where a message goes straight to a waiting task.
    """

    kind: int
    block: object
    status: int = 0

    @property
    def number(self):
        """The number that a tray shows for this item."""
        return NO_NUMBER if self.kind == MESSAGE else self.block


class Tray(NamedTuple):
    """Kind, number and status of the item that a task took last."""

    kind: int
    number: int
    status: int


EMPTY_TRAY = Tray(0, NO_NUMBER, 0)


class Task(NamedTuple):
    """The record of a task."""

    priority: int
    tray: Tray = EMPTY_TRAY
    in_hand: frozenset = frozenset()


class Exchange(NamedTuple):
    """An open exchange: its items or its waiting tasks, the first in front."""

    items: tuple = ()
    waiting: tuple = ()


class Alarm(NamedTuple):
    """A running alarm."""

    block: int
    exchange: int
    ticks: int


class ClosingCounts(NamedTuple):
    """What is left of a closed station."""

    live: int
    items: int
    alarms: int
    in_hand: int


class Station:
    """An open station.

    The free blocks and the ready pairs are those of its pool and its ready
    queue; whether a task is live is seen from where it stands.
    """

    def __init__(self, draft, kind, pool, ready):
        """The opening, which resets the pool and the ready queue."""
        self.sizes = draft.sizes
        self.kind = kind
        self.pool = pool
        self.pool.reset(self.sizes.blocks)
        self.ready = ready
        self.ready.reset()
        self.running = None
        self.tasks = [Task(0)] * self.sizes.tasks
        self.exchanges = [CLOSED] * self.sizes.exchanges
        self.names = {}
        self.alarms = ()
        self.reply_exchanges = {}

    def close(self):
        """The closing counts. The owner makes no call after this one."""
        live = [task for number, task in enumerate(self.tasks)
                if self.is_live(number)]
        return ClosingCounts(
            len(live),
            sum(len(exchange.items) for exchange in self.open_exchanges()),
            len(self.alarms),
            sum(len(task.in_hand) for task in live))

    def open_exchanges(self):
        """The exchanges that are open."""
        return [exchange for exchange in self.exchanges
                if exchange is not CLOSED]

    def is_live(self, task):
        """Whether a task is running, ready or waiting."""
        return (task == self.running
                or any(task == listed for listed, _ in self.ready.pairs)
                or any(task in exchange.waiting
                       for exchange in self.open_exchanges()))

    def take_block(self, message, tables):
        """A block from the pool, with the message written to its place."""
        block = self.pool.take()
        tables.messages[block] = message
        return block

    def put(self, exchange, item, message, tables):
        """Gives an item to the first waiting task, or else queues it."""
        there = self.exchanges[exchange]
        if there.waiting:
            first, *others = there.waiting
            self.exchanges[exchange] = Exchange(waiting=tuple(others))
            self.take(first, item, message, tables)
            self.join(first)
        else:
            self.exchanges[exchange] = Exchange(items=(*there.items, item))

    def take(self, task, item, message, tables):
        """Fills a task's tray; the item's block is then in hand or free."""
        record = self.tasks[task]
        in_hand = record.in_hand
        if item.kind == REQUEST:
            in_hand |= {item.block}
        elif item.block is not None:
            self.pool.give_back(item.block)
        tray = Tray(item.kind, item.number, item.status)
        self.tasks[task] = Task(record.priority, tray, in_hand)
        tables.trays[task] = message

    def join(self, task):
        """Puts a task into the ready queue with its own priority."""
        self.ready.join(task, self.tasks[task].priority)

    def stop(self):
        """The running task stops and joins the ready queue."""
        self.join(self.running)
        self.running = None

    def settle(self):
        """What ends every accepted call: the best task runs."""
        _, best = self.ready.first()
        if None not in (self.running, best):
            if best < self.tasks[self.running].priority:
                self.stop()
        if self.running is None:
            self.running, _ = self.ready.take_best()

    def tick(self, tables):
        """A Tick but for its settling: due alarms, and an equal's turn."""
        for alarm in self.count_down():
            self.put(alarm.exchange, Item(ALARM, alarm.block),
                     tables.messages[alarm.block], tables)
        _, best = self.ready.first()
        if None not in (self.running, best):
            if best <= self.tasks[self.running].priority:
                self.stop()

    def count_down(self):
        """Takes a tick off every alarm; ends and gives those that are due."""
        lowered = [alarm._replace(ticks=alarm.ticks - 1)
                   for alarm in self.alarms]
        self.alarms = tuple(alarm for alarm in lowered if alarm.ticks)
        return [alarm for alarm in lowered if not alarm.ticks]
