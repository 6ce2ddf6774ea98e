"""Random runs of calls at two stations, with the books checked after each.

The two stations of a round differ in sizes, kind of message and block pool.
Their calls are mixed; one is closed when it has had its calls, and the other
goes on alone. Then a new round begins with two new stations.
"""

from collections import Counter

import codec
import fields
import parts
import random_calls
import refusal_page
import station_calls
from books import Books
from history import BrokenLaw, require
from pictures import Step, picture_of, places_of
from station import MOST, PRIORITIES, Draft, Sizes, Station, Tables

STATIONS = 2
POOLS = (parts.FreeList, parts.Bitmap)
REFUSALS_OF_CALLS = refusal_page.refusals_of_calls()
PAIRS = refusal_page.pairs()


class Counts:
    """What a run met so far."""

    def __init__(self):
        self.calls = Counter()   # by name and refusal, 0 for accepted
        self.drafts = Counter()  # by refusal, 0 for accepted
        self.pairs = Counter()   # of reasons from 7 on that held together
        self.closed = 0          # stations


class Watched:
    """A station with its own two tables, its books and a mood."""

    def __init__(self, draft, kind, pool, rng):
        self.station = Station(draft, kind, pool, used_queue(rng))
        self.tables = Tables(random_messages(kind, draft.sizes.blocks, rng),
                             random_messages(kind, draft.sizes.tasks, rng))
        self.books = Books(draft.sizes, picture_of(self.station),
                           places_of(self.tables))
        self.mood = "usual"
        self.calls_left = rng.randrange(100, 500)

    def next_call(self, rng):
        """A random call; the mood changes now and then."""
        if rng.randrange(40) == 0:
            self.mood = rng.choice(tuple(random_calls.MOODS))
        return random_calls.random_call(
            self.station.kind, self.station.sizes.blocks,
            picture_of(self.station), self.mood, rng)

    def make(self, call, tables):
        """Makes a call with the tables brought, and checks the books."""
        before, places_before = picture_of(self.station), places_of(tables)
        answer = station_calls.make(self.station, tables, call)
        self.books.check(Step(call, answer, before, picture_of(self.station),
                              places_before, places_of(tables)))
        self.calls_left -= 1
        return answer

    def close(self):
        """Closes the station; its counts must be those of the books."""
        found = self.station.close()
        expected = self.books.history.closing_counts()
        require(found == expected, "closing counts",
                f"{found}, should be {expected}")


def random_messages(kind, number, rng):
    """What the places of a table hold at the opening; nobody reads it."""
    return [codec.read_message(kind, fields.good_message(kind, rng))
            for _ in range(number)]


def used_pool(build, rng):
    """A block pool that was in use, since an opening resets it."""
    pool = build()
    pool.reset(rng.randrange(1, MOST.blocks + 1))
    pool.take()
    return pool


def used_queue(rng):
    """A ready queue that was in use, since an opening resets it."""
    queue = parts.ReadyQueue()
    queue.join(rng.randrange(MOST.tasks), rng.randrange(PRIORITIES))
    return queue


def wrong_length(table, rng):
    """A copy of a table with a place too many or too few."""
    return rng.choice((table[:-1], table + table[:1]))


def brought(tables, rng):
    """The tables for a call; now and then copies of a wrong length."""
    messages, trays = tables
    match rng.randrange(150):
        case 0:
            return Tables(wrong_length(messages, rng), trays)
        case 1:
            return Tables(messages, wrong_length(trays, rng))
        case 2:
            return Tables(wrong_length(messages, rng),
                          wrong_length(trays, rng))
    return tables


def random_sizes(rng):
    """Sizes of a station: small, so that all refusals are met often."""
    if rng.randrange(10) == 0:
        return Sizes(*(rng.choice((1, most)) for most in MOST))
    return Sizes(rng.randrange(2, 6), rng.randrange(2, 6),
                 rng.randrange(1, 10))


def draft_of(sizes, counts, rng):
    """A draft of these sizes, which is offered bad ones too."""
    draft = Draft()
    for sort, size in sizes._asdict().items():
        bad = rng.choice((0, getattr(MOST, sort) + 1, 65535))
        for tried, refusal in ((size, 0), (bad, 1)):
            found = draft.change(sort, tried)
            require(found == refusal and getattr(draft.sizes, sort) == size,
                    "draft", f"{tried} {sort}: {found}, {draft.sizes}")
            counts.drafts[found] += 1
    require(draft.sizes == sizes, "draft", f"{draft.sizes}, not {sizes}")
    return draft


def new_round(counts, rng):
    """Two stations that differ in all that can differ."""
    pools = rng.choice((POOLS, POOLS[::-1]))
    first = second = random_sizes(rng)
    while first == second:
        second = random_sizes(rng)
    return [Watched(draft_of(sizes, counts, rng), kind, used_pool(pool, rng),
                    rng)
            for sizes, kind, pool in zip((first, second), codec.KINDS, pools,
                                         strict=True)]


def check_page(call, reasons, counts):
    """What holds for a call is on the page of refusals; counts the pairs."""
    name = station_calls.name_of(call)
    require(set(reasons) <= REFUSALS_OF_CALLS[name],
            "which call can give which", f"{name} with {reasons}")
    found = [number for number in reasons if number >= 7]
    for place, least in enumerate(found):
        for other in found[place + 1:]:
            require((least, other) in PAIRS, "pairs that can hold together",
                    f"{name} with {least} and {other}")
            counts.pairs[least, other] += 1


def make_random_call(watched, counts, rng):
    """Makes one random call and counts it."""
    call, tables = watched.next_call(rng), brought(watched.tables, rng)
    try:
        reasons = station_calls.refusals(watched.station, tables, call)
        check_page(call, reasons, counts)
        answer = watched.make(call, tables)
        require(answer.refusal == min(reasons, default=0), "least refusal",
                f"{answer.refusal} of {reasons}")
    except BrokenLaw as broken:
        broken.add_note(f"the call: {station_calls.call_text(call)}")
        raise
    counts.calls[station_calls.name_of(call), answer.refusal] += 1


def run(number, counts, rng):
    """Makes so many random calls; raises BrokenLaw where a law is broken."""
    stations = []
    for _ in range(number):
        if not stations:
            stations = new_round(counts, rng)
        watched = rng.choice(stations)
        make_random_call(watched, counts, rng)
        if watched.calls_left == 0:
            stations.remove(watched)
            watched.close()
            counts.closed += 1
