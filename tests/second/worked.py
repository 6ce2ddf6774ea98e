"""The worked examples of docs/RULES.md and docs/REFUSALS.md, run as tests.

Each example of RULES.md stands under its heading on that page, and a heading
without an example here is an error. All are run with both kinds of message
and both block pools. The worked run of docs/FORMATS.md is read from its
page and compared answer by answer.
"""

import re
import struct
from functools import partial
from itertools import product
from pathlib import Path

import codec
import page
import parts
import refusal_page
from station import EMPTY_TRAY, MOST, NO_NUMBER, Draft, Sizes, Station, Tables
from station_calls import CODES, NO_TASK, call_text, make, refusals

DOCS = Path(__file__).resolve().parents[2] / "docs"


class WrongExample(Exception):
    """An example that does not go as the page says."""


def same(found, expected, what):
    """Raises WrongExample unless the two are the same."""
    if found != expected:
        raise WrongExample(f"{what}: {found}, should be {expected}")


def message(number):
    """A message of both kinds, told from others by its number."""
    return struct.pack("<BBHI", 2, 0, number, 300)


HELLO = message(7)


def record(name, *values):
    """The record of a call; a name may be given as text."""
    values = [value.encode().ljust(8) if isinstance(value, str) else value
              for value in values]
    used = zip(codec.uses(CODES[name]), values, strict=True)
    return codec.Record(CODES[name], **dict(used))


class Trial:
    """A new station with its tables, on which an example is tried."""

    def __init__(self, kind, pool, tasks=8, exchanges=8, blocks=16):
        draft = Draft()
        for sort, size in Sizes(tasks, exchanges, blocks)._asdict().items():
            same(draft.change(sort, size), 0, f"{size} {sort}")
        self.station = Station(draft, kind, pool(), parts.ReadyQueue())
        filler = codec.read_message(kind, HELLO)
        self.tables = Tables([filler] * blocks, [filler] * tasks)

    def ok(self, name, *values, **shown):
        """A call that is accepted and shows these values."""
        self.expect(0, record(name, *values), shown)

    def no(self, refusal, name, *values):
        """A call that is refused with this number."""
        self.expect(refusal, record(name, *values), {})

    def expect(self, refusal, call, shown):
        """Makes a call and compares what is known of its answer."""
        answer = make(self.station, self.tables, call)
        same(answer.refusal, refusal, f"the refusal of {call_text(call)}")
        for value, expected in shown.items():
            same(getattr(answer, value), expected,
                 f"{value} after {call_text(call)}")

    def opened(self, *exchanges):
        """Opens exchanges; gives the trial."""
        for exchange in exchanges:
            self.ok("Open", exchange)
        return self

    def stands(self, running, *ready):
        """Compares who runs and who is ready."""
        found = [task for task, _ in self.station.ready.pairs]
        same((self.station.running, found), (running, list(ready)),
             "running and ready")

    def waits(self, exchange, *numbers):
        """Compares the numbers of the items that wait at an exchange."""
        items = self.station.exchanges[exchange].items
        same([item.number for item in items], list(numbers),
             f"the items at exchange {exchange}")


# The examples of RULES.md. A maker of trials is given to each.


def sizes(new):
    """Drafts at and beyond their limits."""
    draft = Draft()
    for sort, most in MOST._asdict().items():
        same(draft.change(sort, most), 0, sort)
        for bad in (0, most + 1):
            same(draft.change(sort, bad), 1, sort)
    same(draft.sizes, Sizes(64, 64, 256), "the draft")


def no_calls(new):
    """The shortest batch, and bytes too short for one."""
    for kind in codec.KINDS:
        same(codec.verdict(kind, bytes.fromhex("00 00 18 00")),
             codec.ACCEPTED, "four bytes")
        same(codec.verdict(kind, bytes(3)), (3, None), "three bytes")


def messages_and_names(new):
    """The largest dock, one more, and two spellings of a name."""
    trial = new(kind="docks").opened(0)
    trial.ok("Post", 0, message(500))
    trial.no(8, "Post", 0, message(501))
    trial.no(7, "Register", 0, "BILL ING")
    trial.ok("Register", 0, "BILLING ")


def better_displaces(new):
    """Only a better task displaces the running one."""
    trial = new()
    trial.ok("Start", 4, 9, running=4)
    trial.stands(4)
    trial.ok("Start", 1, 9, running=4)
    trial.stands(4, 1)
    trial.ok("Start", 2, 8, running=2)
    trial.stands(2, 1, 4)


def equal_turn(new):
    """Each Tick gives the other of two equal tasks its turn."""
    trial = new()
    trial.ok("Start", 4, 9)
    trial.ok("Start", 1, 9)
    trial.ok("Tick", running=1)
    trial.stands(1, 4)
    trial.ok("Tick", running=4)
    trial.stands(4, 1)


def just_woken(new):
    """The turn goes to the task that the same Tick woke."""
    trial = new().opened(0)
    trial.ok("Start", 3, 9)
    trial.ok("Alarm", 0, 1, HELLO)
    trial.ok("Wait", 0, running=NO_TASK)
    trial.ok("Start", 4, 9, running=4)
    trial.ok("Tick", running=3)
    trial.stands(3, 4)
    trial.ok("Tray", kind=4)


def priority_settles(new):
    """A worse priority lets the other task run, an equal one does not."""
    trial = new()
    trial.ok("Start", 4, 9)
    trial.ok("Start", 1, 9)
    trial.ok("Priority", 9, running=4)
    trial.ok("Priority", 10, running=1)


def no_free_block(new):
    """A message for a waiting task needs no block."""
    trial = new(blocks=1).opened(0, 1)
    trial.ok("Start", 3, 5)
    trial.ok("Wait", 1)
    trial.ok("Start", 4, 9, running=4)
    trial.ok("Send", 0, HELLO)
    trial.no(16, "Send", 0, HELLO)
    trial.ok("Send", 1, HELLO, running=3)


def service(new, **more):
    """A trial with BILLING at exchange 0, replies at 1 and task 4."""
    trial = new(**more).opened(0, 1)
    trial.ok("Register", 0, "BILLING")
    trial.ok("Start", 4, 9)
    return trial


def request_and_reply(new):
    """A task that answers its own request."""
    trial = service(new)
    trial.ok("Request", 1, "BILLING", message(12), number=0)
    trial.waits(0, 0)
    trial.ok("Check", 0, kind=2)
    same(trial.station.tasks[4].in_hand, {0}, "in hand")
    trial.ok("Respond", 0, 7)
    trial.waits(1, 0)
    trial.no(18, "Respond", 0, 7)
    trial.ok("Check", 1, kind=3)
    same(0 in trial.station.pool.free, True, "block 0 is free")
    trial.ok("Tray", number=0, kind=3, status=7, message=message(12))


def request_keeps_block(new):
    """The same with one block, which is free only after the reply."""
    trial = service(new, blocks=1)
    trial.ok("Request", 1, "BILLING", HELLO)
    trial.no(16, "Send", 0, HELLO)
    trial.ok("Check", 0, kind=2)
    trial.no(16, "Send", 0, HELLO)
    trial.no(19, "End")
    trial.no(14, "Close", 1)
    trial.ok("Respond", 0, 7)
    trial.no(16, "Send", 0, HELLO)
    trial.ok("Check", 1, kind=3)
    trial.ok("Send", 0, HELLO)


def alarms_in_order(new):
    """Alarms are put in the order set, whatever their blocks."""
    trial = new().opened(0)
    trial.ok("Start", 4, 9)
    for number, ticks in enumerate((5, 2, 2)):
        trial.ok("Alarm", 0, ticks, HELLO, number=number)
    trial.ok("Tick")
    trial.waits(0)
    trial.ok("Cancel", 0)
    trial.ok("Alarm", 0, 1, HELLO, number=0)
    trial.ok("Tick")
    trial.waits(0, 1, 2, 0)
    trial.no(18, "Cancel", 1)


def move_to_end(new):
    """A request moved to where it came from stands last there."""
    trial = service(new)
    trial.ok("Request", 1, "BILLING", HELLO, number=0)
    trial.ok("Request", 1, "BILLING", HELLO, number=1)
    trial.ok("Check", 0, kind=2)
    trial.ok("Move", 0, 0)
    trial.waits(0, 1, 0)


def waiting_order(new):
    """The task that waits longest takes, though another is better."""
    trial = new().opened(0)
    trial.ok("Start", 3, 9)
    trial.ok("Wait", 0)
    trial.ok("Start", 4, 1)
    trial.ok("Wait", 0, running=NO_TASK)
    trial.ok("Post", 0, HELLO, running=3)


def nobody_runs(new):
    """What is refused and what is not while no task runs."""
    trial = new().opened(0)
    trial.ok("Start", 4, 9)
    trial.ok("Wait", 0, running=NO_TASK)
    trial.no(9, "Tray")
    trial.no(9, "Priority", 40)
    trial.ok("Tick", running=NO_TASK)
    trial.ok("Post", 0, HELLO, running=4)


EXAMPLES = {
    "Sizes": sizes,
    "Batches": no_calls,
    "Messages and names": messages_and_names,
    "A better task displaces, an equal one does not": better_displaces,
    "Tick gives an equal task its turn": equal_turn,
    "A task just woken by an alarm counts in the same Tick": just_woken,
    "Priority settles": priority_settles,
    "No free block": no_free_block,
    "Request and reply": request_and_reply,
    "A request keeps its block until its reply is taken":
        request_keeps_block,
    "Due alarms in the order set": alarms_in_order,
    "Move goes to the end": move_to_end,
    "Waiting tasks leave in the order of joining": waiting_order,
    "Nobody runs": nobody_runs,
}


def headings():
    """The headings of the worked examples on the page of rules."""
    text = (DOCS / "RULES.md").read_text("utf-8")
    section = text.split("## Edges, worked as examples\n")[1].split("\n## ")[0]
    return re.findall(r"^\*\*(.+?)\.\*\*", section, re.MULTILINE)


# Examples for sentences of the pages that have none under a heading.


def queue_once_more(new):
    """A queue that was filled and emptied works as before."""
    trial = new(blocks=3).opened(0)
    trial.ok("Start", 4, 9)
    for _ in range(2):
        for number in (1, 2, 3):
            trial.ok("Post", 0, message(number))
        for number in (1, 2, 3):
            trial.ok("Check", 0, kind=1)
            trial.ok("Tray", message=message(number))
        trial.no(17, "Check", 0)


def blocks_go_back(new):
    """The blocks of several takes go back in the order of the puts.

    So a free list hands out the block of the last put first.
    """
    trial = new().opened(0, 1)
    trial.ok("Start", 4, 9)
    trial.ok("Alarm", 1, 1, HELLO, number=0)
    trial.ok("Alarm", 0, 1, HELLO, number=1)
    trial.ok("Wait", 0)
    trial.ok("Start", 5, 9)
    trial.ok("Wait", 1)
    trial.ok("Tick", running=5)
    trial.stands(5, 4)
    first = {parts.FreeList: 1, parts.Bitmap: 0}[type(trial.station.pool)]
    trial.ok("Alarm", 0, 1, HELLO, number=first)


def no_block_needed(new):
    """Tick, Respond and Move work while no block is free."""
    trial = service(new, blocks=2)
    trial.ok("Request", 1, "BILLING", HELLO)
    trial.ok("Alarm", 0, 1, HELLO)
    trial.no(16, "Post", 0, HELLO)
    trial.ok("Check", 0, kind=2)
    trial.ok("Move", 0, 1)
    trial.ok("Tick")
    trial.ok("Check", 1, kind=2)
    trial.ok("Respond", 0, 3)
    trial.waits(0, 1)
    trial.waits(1, 0)


def start_empties_tray(new):
    """A task that is started again has an empty tray."""
    trial = new().opened(0)
    trial.ok("Start", 4, 9)
    trial.ok("Post", 0, HELLO)
    trial.ok("Wait", 0, kind=1)
    trial.ok("End", running=NO_TASK)
    trial.ok("Start", 4, 9)
    same(trial.station.tasks[4].tray, EMPTY_TRAY, "the tray")
    trial.ok("Tray", number=NO_NUMBER, kind=0, status=0, message=bytes(8))


def not_bound_by_hand(new):
    """A request in hand does not bind the exchange it came from."""
    trial = service(new)
    trial.ok("Request", 1, "BILLING", HELLO)
    trial.ok("Strike", "BILLING")
    trial.no(14, "Close", 0)
    trial.ok("Check", 0, kind=2)
    trial.ok("Close", 0)
    trial.ok("Respond", 0, 0)


FURTHER = {
    "a queue filled, emptied and used once more": queue_once_more,
    "blocks go back in the order of the puts": blocks_go_back,
    "no block needed": no_block_needed,
    "Start empties the tray": start_empties_tray,
    "a request in hand does not bind where it came from": not_bound_by_hand,
}


# The instances in the table of pairs of REFUSALS.md. Each is a call to which
# both reasons apply; the smaller number is given.


def idle(new):
    """Exchange 0 is open, no task runs, and the only block is free."""
    return new(blocks=1).opened(0)


def idle_full(new):
    """The same, but a message waits at exchange 0 in the only block."""
    trial = idle(new)
    trial.ok("Post", 0, HELLO)
    return trial


def busy(new):
    """Task 4 runs, BILLING is exchange 0, and blocks are free."""
    return service(new)


def busy_full(new):
    """The same with no free block."""
    trial = service(new, blocks=1)
    trial.ok("Post", 0, HELLO)
    return trial


def full_register(new):
    """16 names are registered, BILLING among them."""
    trial = service(new)
    for letter in "ABCDEFGHIJKLMNO":
        trial.ok("Register", 0, letter)
    return trial


PAIRS = (
    (9, 10, idle, ("Priority", 40)),
    (9, 12, idle, ("Wait", 3)),
    (9, 13, idle, ("Request", 0, "TARIFF", HELLO)),
    (9, 16, idle_full, ("Alarm", 0, 1, HELLO)),
    (9, 17, idle, ("Check", 0)),
    (9, 18, idle, ("Cancel", 0)),
    (10, 11, busy, ("Start", 4, 32)),
    (10, 11, busy, ("Register", 8, "BILLING")),
    (10, 12, busy, ("Alarm", 3, 0, HELLO)),
    (10, 12, busy, ("Move", 16, 3)),
    (10, 13, busy, ("Request", 8, "TARIFF", HELLO)),
    (10, 15, full_register, ("Register", 8, "TARIFF")),
    (10, 16, busy_full, ("Alarm", 0, 0, HELLO)),
    (10, 18, busy, ("Respond", 16, 0)),
    (11, 12, busy, ("Register", 3, "BILLING")),
    (11, 15, full_register, ("Register", 0, "BILLING")),
    (12, 13, busy, ("Request", 3, "TARIFF", HELLO)),
    (12, 15, full_register, ("Register", 3, "TARIFF")),
    (12, 16, busy_full, ("Send", 3, HELLO)),
    (12, 17, busy, ("Check", 3)),
    (12, 18, busy, ("Move", 0, 3)),
    (13, 16, busy_full, ("Request", 1, "TARIFF", HELLO)),
)


def least_refusals(new):
    """Each pair of the page, in a call to which both reasons apply."""
    on_page = {pair for pair in refusal_page.pairs() if min(pair) >= 9}
    same({pair[:2] for pair in PAIRS}, on_page, "the pairs")
    for smaller, larger, scene, words in PAIRS:
        trial = scene(new)
        found = refusals(trial.station, trial.tables, record(*words))
        same({smaller, larger} <= set(found), True, f"{words} with {found}")
        trial.no(smaller, *words)


# The worked run of FORMATS.md.


def dash(value, none):
    """A value as the programs print it, with - for none."""
    return "-" if value == none else str(value)


def answer_line(row, answer):
    """The line that the programs docks and forms print for an answer."""
    return (f"{row} {answer.refusal} {dash(answer.running, NO_TASK)} "
            f"{dash(answer.number, NO_NUMBER)} {answer.kind} "
            f"{answer.status} {answer.message.hex()}")


def worked_run(new):
    """The run printed on the page, its lines and the bytes it shows."""
    text = page.PAGE.read_text("utf-8")
    section = text.split("### A worked run\n")[1].split("\n## ")[0]
    batch, printed = page.blocks(section)
    heading, *lines = printed.splitlines()
    same(heading, "row no running number kind status message", "the heading")
    trial = new()
    answers = [make(trial.station, trial.tables, call)
               for call in codec.unpack(bytes.fromhex(batch))]
    found = [answer_line(*row) for row in enumerate(answers)]
    same(found, lines, "the lines")
    fourth, fifth = re.findall(r"the answer to row \d is `([^`]+)`", section)
    same(answers[4].pack(), bytes.fromhex(fourth), "the answer to row 4")
    same(answers[5].pack(), bytes.fromhex(fifth) + bytes(16),
         "the answer to row 5")


def all_examples():
    """All examples by name; those of the page under its headings."""
    return {**EXAMPLES, **FURTHER, "least refusals": least_refusals,
            "the worked run of FORMATS.md": worked_run}


def failed_examples():
    """The names of the examples that do not go as the pages say, and why."""
    failed = {}
    if headings() != list(EXAMPLES):
        failed["headings"] = f"the page has {headings()}"
    for (name, example), kind, pool in product(
            all_examples().items(), codec.KINDS,
            (parts.FreeList, parts.Bitmap)):
        try:
            example(partial(Trial, kind=kind, pool=pool))
        except Exception as error:  # a planted bug may stop the station
            failed[name] = f"{type(error).__name__}: {error}"
    return failed
