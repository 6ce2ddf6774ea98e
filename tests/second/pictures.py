"""What can be seen of a station and its tables before and after a call.

The record of an absent task is left out, since nobody can see what it holds.
"""

from typing import NamedTuple

from station import CLOSED
from station_calls import Answer, name_of


class Picture(NamedTuple):
    """The record of a station at one moment.

    Absent tasks and closed exchanges are None. The free blocks stand in the
    order in which the pool keeps them.
    """

    running: object
    ready: tuple
    tasks: tuple
    exchanges: tuple
    names: dict
    alarms: tuple
    reply_exchanges: dict
    free: tuple

    def open_exchanges(self):
        """Number and queues of each open exchange."""
        return [(number, exchange)
                for number, exchange in enumerate(self.exchanges)
                if exchange is not CLOSED]

    def waiting_at(self, number):
        """The tasks that wait at an exchange; none where it is closed."""
        exchange = self.exchanges[number]
        return () if exchange is CLOSED else exchange.waiting


class Places(NamedTuple):
    """The bytes of the messages in both tables at one moment."""

    messages: tuple
    trays: tuple


class Step(NamedTuple):
    """A call with its answer and what could be seen before and after it."""

    call: object
    answer: Answer
    before: Picture
    after: Picture
    places_before: Places
    places_after: Places

    @property
    def name(self):
        """The name of the call."""
        return name_of(self.call)

    @property
    def caller(self):
        """The running task, which makes the calls 8 to 18."""
        return self.before.running


def picture_of(station):
    """The picture of a station."""
    tasks = tuple(task if station.is_live(number) else None
                  for number, task in enumerate(station.tasks))
    return Picture(station.running, tuple(station.ready.pairs), tasks,
                   tuple(station.exchanges), dict(station.names),
                   station.alarms, dict(station.reply_exchanges),
                   tuple(station.pool.free))


def places_of(tables):
    """The places of both tables."""
    return Places(*(tuple(message.pack() for message in table)
                    for table in tables))
