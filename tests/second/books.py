"""The books of a station, kept apart from it and checked after every call.

The laws are those of docs/RULES.md. Some need only the picture of a station
after a call; the others hold the pictures before and after it, and the
answer, against the history that the books keep.
"""

from collections import Counter

from history import History, Item, require, takes_of
from pictures import Picture
from station import EMPTY_TRAY, MOST_NAMES, REQUEST, Tray
from station_calls import NO_TASK, Answer


class Books:
    """The history of one station and the laws it is held against."""

    def __init__(self, sizes, opened, places):
        """The books of a station that has just been opened."""
        self.sizes = sizes
        self.last = opened    # the picture after the last call
        self.places = places  # what the last call left in the tables
        self.history = History()
        require(opened == Picture(
            None, (), (None,) * sizes.tasks, (None,) * sizes.exchanges, {},
            (), {}, tuple(range(sizes.blocks))), "opening", opened)

    def check(self, step):
        """Enters a call and checks all laws; raises BrokenLaw."""
        self.check_untouched(step)
        check_blocks(self.sizes.blocks, step.after)
        check_one_side(step.after)
        check_best(step.after)
        check_bound(step.after)
        if step.answer.refusal:
            check_refused(step)
        else:
            check_accepted(self.history, step)
            self.places = step.places_after
        check_places_of_tasks(self.history, step.after)
        check_requests(self.history, step.after)
        check_tasks(self.history, step.after)
        check_rest(self.history, step.after)
        self.last = step.after

    def check_untouched(self, step):
        """Station and tables are as the station's last call left them.

        Tables of a wrong length are others, and are refused with 2.
        """
        require(step.before == self.last, "several stations",
                "the station is not as its last call left it")
        lengths = tuple(map(len, step.places_before))
        fit = lengths == (self.sizes.blocks, self.sizes.tasks)
        require((step.answer.refusal == 2) != fit, "tables",
                f"lengths {lengths}, refusal {step.answer.refusal}")
        require(not fit or step.places_before == self.places, "own tables",
                "the tables are not as the last call left them")


# Laws that the picture of a station after a call is enough for.


def check_blocks(blocks, seen):
    """One place per block."""
    places = Counter(seen.free)
    places.update(item.block for _, exchange in seen.open_exchanges()
                  for item in exchange.items)
    places.update(alarm.block for alarm in seen.alarms)
    places.update(blocks_in_hand(seen))
    require(places == Counter(range(blocks)), "one place per block",
            f"places of each block: {dict(sorted(places.items()))}")


def blocks_in_hand(seen):
    """The blocks in the hands of live tasks."""
    return [block for task in seen.tasks if task is not None
            for block in task.in_hand]


def check_one_side(seen):
    """Items and waiting tasks are never at an exchange together."""
    for number, exchange in seen.open_exchanges():
        require(not (exchange.items and exchange.waiting), "one side",
                f"items and waiting tasks at exchange {number}")


def check_best(seen):
    """The best task runs; while none runs, none is ready."""
    if seen.running is None:
        require(not seen.ready, "best task runs",
                f"none runs, ready {seen.ready}")
    else:
        own = seen.tasks[seen.running].priority
        require(all(own <= priority for _, priority in seen.ready),
                "best task runs",
                f"task {seen.running} runs at {own}, ready {seen.ready}")


def check_bound(seen):
    """Bound exchanges stay open."""
    found = {number for number, _ in seen.open_exchanges()}
    bound = {*seen.names.values(), *seen.reply_exchanges.values(),
             *(alarm.exchange for alarm in seen.alarms)}
    require(bound <= found, "bound exchanges stay open",
            f"open {sorted(found)}, bound {sorted(bound)}")


# Laws of one call.


def check_refused(step):
    """A refused call changes nothing and answers nothing but its number."""
    require(step.before == step.after, "all or nothing",
            "a refused call changed the station")
    require(step.places_before == step.places_after, "all or nothing",
            "a refused call wrote to a table")
    expected = Answer(step.answer.refusal, running_after(step))
    require(step.answer == expected, "answer",
            f"{step.answer}, should be {expected}")


def check_accepted(history, step):
    """Enters an accepted call; its effect is what the history says."""
    puts = history.enter(step)
    takes = takes_of(step, puts)
    check_waiting(step, takes)
    check_places_of_tasks(history, step.after)  # takers show their trays
    check_frame(step, takes)
    check_items(history, step, puts, takes)
    check_kept(history, step.places_after.messages)
    check_turn(history, step, takes)
    check_answer(history, step, takes)


def check_waiting(step, takes):
    """Waiting tasks leave first in, first out; a new one stands last."""
    for exchange, queues in step.after.open_exchanges():
        left = [take.task for take in takes if take.exchange == exchange]
        expected = [task for task in step.before.waiting_at(exchange)
                    if task not in left]
        if step.name == "Wait" and step.call.n1 == exchange and not takes:
            expected.append(step.caller)
        require(list(queues.waiting) == expected, "waiting tasks",
                f"{queues.waiting} at exchange {exchange}, "
                f"should be {expected}")


def changed(before, after):
    """The numbers of the places in which two tables differ."""
    pairs = zip(before, after, strict=True)
    return {number for number, (old, new) in enumerate(pairs) if old != new}


def check_frame(step, takes):
    """A call takes a block where it should, and writes no other place."""
    handed_out = set(step.before.free) - set(step.after.free)
    if step.name in ("Request", "Alarm"):
        require(handed_out == {step.answer.number}, "block pool",
                f"{step.answer.number} answered, {handed_out} handed out")
    else:
        needed = step.name in ("Post", "Send") and not takes
        require(len(handed_out) == needed, "block pool",
                f"{handed_out} handed out to {step.name}")
    written = changed(step.places_before.messages,
                      step.places_after.messages)
    require(written <= handed_out, "frame",
            f"message places {written} written, {handed_out} handed out")
    written = changed(step.places_before.trays, step.places_after.trays)
    takers = {take.task for take in takes}
    require(written <= takers, "frame",
            f"tray places {written} written, {takers} took an item")


def check_items(history, step, puts, takes):
    """In order and complete, for each open exchange.

    What was taken in earlier calls has been compared then, so the lists
    begin with the first item that had not been taken before this call.
    """
    for put in puts:
        require(put.exchange in history.queues, "in order and complete",
                f"{put.item} is put at closed exchange {put.exchange}")
    for exchange, queue in history.queues.items():
        queue += [put.item for put in puts if put.exchange == exchange]
        takers = [take.task for take in takes if take.exchange == exchange]
        taken = [item_in_tray(step, task) for task in takers]
        waiting = waiting_items(step, exchange)
        require(taken + waiting == queue, "in order and complete",
                f"exchange {exchange}: put {queue}, "
                f"taken {taken}, waiting {waiting}")
        history.queues[exchange] = waiting
        history.enter_taken(zip(takers, taken, strict=True))


def item_in_tray(step, task):
    """The item that a task took in this call, as tray and place show it."""
    return Item(*step.after.tasks[task].tray, step.places_after.trays[task])


def waiting_items(step, exchange):
    """The items that wait at an open exchange after the call."""
    return [Item(item.kind, item.number, item.status,
                 step.places_after.messages[item.block])
            for item in step.after.exchanges[exchange].items]


def check_kept(history, messages):
    """The message of an alarm or a request in hand is in its place."""
    kept = {timer.block: timer.message for timer in history.timers}
    kept |= {block: history.owed[block].message for block in history.hands}
    for block, message in kept.items():
        require(messages[block] == message, "where a message is",
                f"block {block}: {messages[block].hex()}, "
                f"should be {message.hex()}")


def check_turn(history, step, takes):
    """The task that should run does, and the others stand in order.

    Those who took an item while they waited join in the order of the puts;
    the running one joins last if it must stop.
    """
    joined = [take.task for take in takes if take.task != step.caller]
    if step.name == "Start":
        joined.append(step.call.n1)
    ready = [task for task, _ in step.before.ready]
    line = in_running_order(history, ready + joined)
    running = step.before.running
    if running is not None and left_running(step, takes):
        running = None
    if running is not None and line:
        gap = history.priorities[running] - history.priorities[line[0]]
        if gap > 0 or gap == 0 and step.name == "Tick":
            line = in_running_order(history, [*line, running])
            running = None
    if running is None and line:
        running, *line = line
    found = step.after.running, [task for task, _ in step.after.ready]
    require(found == (running, line), "settle",
            f"runs and ready {found}, should be {(running, line)}")


def in_running_order(history, tasks):
    """Tasks by their priorities; equal ones keep their order."""
    return sorted(tasks, key=history.priorities.__getitem__)


def left_running(step, takes):
    """Whether the caller has stopped by its own call."""
    return step.name == "End" or step.name == "Wait" and not takes


def check_answer(history, step, takes):
    """The six values of an accepted call."""
    expected = Answer(0, running_after(step))
    match step.name:
        case "Request" | "Alarm":
            expected = expected._replace(number=step.answer.number)
        case "Wait" | "Check" if takes:
            kind = history.trays[step.caller].kind
            expected = expected._replace(kind=kind)
        case "Tray" if history.trays[step.caller]:
            expected = expected._replace(
                **history.trays[step.caller]._asdict())
    require(step.answer == expected, "answer",
            f"{step.answer}, should be {expected}")


def running_after(step):
    """The running task after the call as an answer shows it."""
    return NO_TASK if step.after.running is None else step.after.running


# Laws that hold what is seen against the history.


def check_places_of_tasks(history, seen):
    """One place per task, with the priority last given to it."""
    places = Counter(task for task, _ in seen.ready)
    places.update(task for _, exchange in seen.open_exchanges()
                  for task in exchange.waiting)
    if seen.running is not None:
        places[seen.running] += 1
    require(places == Counter(history.priorities.keys()),
            "one place per task",
            f"places of each task: {dict(places)}, "
            f"live {list(history.priorities)}")
    for task, priority in seen.ready:
        require(priority == history.priorities[task], "priority",
                f"task {task} is ready at {priority}")


def check_requests(history, seen):
    """An unanswered request is at an exchange or in a live task's hand.

    Nothing else is, and its reply goes where its Request said.
    """
    waiting = [item.block for _, exchange in seen.open_exchanges()
               for item in exchange.items if item.kind == REQUEST]
    found = Counter(waiting + blocks_in_hand(seen))
    require(found == Counter(history.owed.keys()), "answered at most once",
            f"requests of blocks {dict(found)}, "
            f"unanswered {list(history.owed)}")
    replies = {block: owed.exchange for block, owed in history.owed.items()}
    require(seen.reply_exchanges == replies, "reply exchanges",
            f"{seen.reply_exchanges}, should be {replies}")


def check_tasks(history, seen):
    """Each task's record is what the calls made of it, and no other."""
    for task, record in enumerate(seen.tasks):
        if record is not None:
            item = history.trays[task]
            tray = Tray(*item[:3]) if item else EMPTY_TRAY
            hand = {block for block, holder in history.hands.items()
                    if holder == task}
            expected = history.priorities[task], tray, hand
            require(record == expected, "record",
                    f"task {task}: {record}, should be {expected}")


def check_rest(history, seen):
    """Alarms, names and open exchanges are what the calls made them."""
    alarms = [timer[:3] for timer in history.timers]
    require(list(seen.alarms) == alarms, "alarms",
            f"{seen.alarms}, should be {alarms}")
    require(seen.names == history.names and len(seen.names) <= MOST_NAMES,
            "names", f"{seen.names}, should be {history.names}")
    found = [number for number, _ in seen.open_exchanges()]
    require(found == sorted(history.queues), "open exchanges",
            f"{found}, should be {sorted(history.queues)}")
