"""Random operations for the program parts, by named cases.

Each case makes operations of one sort and says which answer they get. What
is free or listed at the moment decides that, so the model of parts.py is
moved along; an operation that it answers otherwise stops the run.

Only randrange and choice of the random numbers are used, so that a seed
gives the same with every Python.
"""

import random
import re
import sys
from itertools import islice
from typing import NamedTuple

sys.dont_write_bytecode = True  # leave no compiled files beside the sources

import parts

NO_OPERATION = "no operation"

POOL_ANSWERS = ("reset: yes", "reset: no", "take: number N", "take: none",
                "return: yes", "return: no", "count: N", "free: yes",
                "free: no", NO_OPERATION)

QUEUE_ANSWERS = ("reset: done", "join: yes", "join: no",
                 "take best: task N priority N", "take best: none",
                 "best: priority N", "best: none", "length: N", NO_OPERATION)


class Case(NamedTuple):
    """A sort of operation: the answer that it gets, and its maker.

    A maker is a function of a part and random numbers. It gives a line, or
    None where the part has no such operation at the moment.
    """

    answer: str
    make: object


class Made(NamedTuple):
    """An operation and the name of its case."""

    case: str
    line: str


def answer_sort(printed):
    """Operation and answer of a printed line, with N for each number."""
    _, rest = printed.split(" ", 1)
    if rest.startswith("is no operation: "):
        return NO_OPERATION
    operation, answer = rest.rsplit(",", 1)[0].split(": ")
    return re.sub(" [0-9]+", "", operation) + ": " + re.sub(
        "[0-9]+", "N", answer)


def digits(number, rng):
    """The number in decimal, at times with zeros in front."""
    width = rng.choice((1, 1, 1, 1, 1, 1, 1, rng.randrange(2, 6)))
    return str(number).zfill(width)


def with_numbers(word, numbers):
    """A maker of operations of this word with numbers.

    A function of a part and random numbers gives these, or None.
    """
    def make(part, rng):
        chosen = numbers(part, rng)
        if chosen is None:
            return None
        return " ".join((word, *(digits(number, rng) for number in chosen)))
    return make


def only_if(holds, line):
    """A maker of a line that is made where the part is as it must be."""
    return lambda part, rng: line if holds(part) else None


def always(part):
    """Holds for every part."""
    return True


# Block pools.


def one_of(numbers, rng):
    """One of the numbers by itself, or None if there are none."""
    return (rng.choice(numbers),) if numbers else None


def a_free_number(pool, rng):
    """A number that is free."""
    return one_of(pool.free, rng)


def a_taken_number(pool, rng):
    """A number below the size that is not free."""
    free = set(pool.free)
    taken = [number for number in range(pool.size) if number not in free]
    return one_of(taken, rng)


def the_size(pool, rng):
    """The first number that the pool does not have."""
    return (pool.size,)


def a_number_beyond(pool, rng):
    """A number above the size, often at an edge."""
    edges = [edge for edge in (255, 256, 257, 511, 512) if edge > pool.size]
    return one_of([pool.size + 1, 65535, *edges,
                   rng.randrange(pool.size + 1, 65536)], rng)


def fixed(*numbers):
    """A function that gives always the same numbers."""
    return lambda part, rng: numbers


def between(least, most):
    """A function that gives a number between the two, both included."""
    return lambda part, rng: (rng.randrange(least, most + 1),)


def pool_cases():
    """The operations of a block pool."""
    for size in (1, 256):
        yield f"reset to {size}", Case(
            "reset: yes", with_numbers("reset", fixed(size)))
    for least, most in ((2, 9), (2, 255)):
        yield f"reset to {least} to {most}", Case(
            "reset: yes", with_numbers("reset", between(least, most)))
    for size in (0, 257, 65535):
        yield f"reset to {size}", Case(
            "reset: no", with_numbers("reset", fixed(size)))
    yield "reset to 258 to 65534", Case(
        "reset: no", with_numbers("reset", between(258, 65534)))
    yield "take, some free", Case(
        "take: number N", only_if(lambda pool: pool.free, "take"))
    yield "take, none free", Case(
        "take: none", only_if(lambda pool: not pool.free, "take"))
    for word, of_free, of_taken in (("return", "no", "yes"),
                                    ("free", "yes", "no")):
        yield f"{word}: a free number", Case(
            f"{word}: {of_free}", with_numbers(word, a_free_number))
        yield f"{word}: a taken number", Case(
            f"{word}: {of_taken}", with_numbers(word, a_taken_number))
        yield f"{word}: the size", Case(
            f"{word}: no", with_numbers(word, the_size))
        yield f"{word}: beyond the size", Case(
            f"{word}: no", with_numbers(word, a_number_beyond))
    yield "count", Case("count: N", only_if(always, "count"))


# Ready queues.


def listed_pairs(queue):
    """The pairs of a ready queue, first to last."""
    return queue.pairs


def a_new_task(queue, rng):
    """A task that is not listed, or None."""
    listed = {task for task, _ in queue.pairs}
    new = [task for task in range(64) if task not in listed]
    return rng.choice(new) if new else None


def a_priority(rng):
    """A priority, often the best, the worst or one that others have."""
    return rng.choice((0, 31, 9, 9, rng.randrange(32), rng.randrange(32)))


def new_pair(queue, rng):
    """A task that is not listed, and a priority."""
    task = a_new_task(queue, rng)
    return None if task is None else (task, a_priority(rng))


def new_pair_at(priority):
    """A function that gives a task that is not listed at this priority."""
    def numbers(queue, rng):
        task = a_new_task(queue, rng)
        return None if task is None else (task, priority)
    return numbers


def task_63(queue, rng):
    """The largest task, if it is not listed, and a priority."""
    listed = {task for task, _ in queue.pairs}
    return None if 63 in listed else (63, a_priority(rng))


def listed_pair(queue, rng):
    """A task that is listed, with its own priority or another."""
    if not queue.pairs:
        return None
    task, priority = rng.choice(queue.pairs)
    return task, rng.choice((priority, a_priority(rng)))


def too_large(least, rng):
    """A number from the least one to 255, often at an edge."""
    return rng.choice((least, 255, 128, rng.randrange(least, 256)))


def large_task(queue, rng):
    """A task above 63, and a priority."""
    return too_large(64, rng), a_priority(rng)


def large_priority(queue, rng):
    """A task, and a priority above 31."""
    return rng.choice((63, rng.randrange(64))), too_large(32, rng)


def both_large(queue, rng):
    """A task above 63, and a priority above 31."""
    return too_large(64, rng), too_large(32, rng)


def queue_cases():
    """The operations of a ready queue."""
    yield "reset", Case("reset: done", only_if(always, "reset"))
    for name, answer, numbers in (
            ("a new task", "yes", new_pair),
            ("a new task, priority 0", "yes", new_pair_at(0)),
            ("a new task, priority 31", "yes", new_pair_at(31)),
            ("task 63", "yes", task_63),
            ("a listed task", "no", listed_pair),
            ("task 64", "no", fixed(64, 0)),
            ("task above 63", "no", large_task),
            ("priority 32", "no", new_pair_at(32)),
            ("priority above 31", "no", large_priority),
            ("task and priority", "no", both_large)):
        yield f"join: {name}", Case(f"join: {answer}",
                                    with_numbers("join", numbers))
    for word, answer in (("take best", "task N priority N"),
                         ("best", "priority N")):
        yield f"{word}, some listed", Case(
            f"{word}: {answer}", only_if(listed_pairs, word))
        yield f"{word}, none listed", Case(
            f"{word}: none", only_if(lambda queue: not queue.pairs, word))
    yield "length", Case("length: N", only_if(always, "length"))


# Lines that are no operation.


def is_number(word):
    """Whether a word of a form stands for a number."""
    return word.isupper()


def good_line(part, rng, least_words=1, spoilt=None):
    """An operation of so many words at least, with numbers in range.

    Where text for a spoilt number is given, the operation has a number and
    the text stands in place of one.
    """
    forms = [form.split(" ") for form in part.operations]
    words = list(rng.choice([
        form for form in forms
        if len(form) >= least_words
        and (spoilt is None or is_number(form[-1]))]))
    places = [place for place, word in enumerate(words) if is_number(word)]
    for place in places:
        words[place] = str(rng.choice((0, 1, rng.randrange(256))))
    if spoilt is not None:
        words[rng.choice(places)] = spoilt
    return " ".join(words)


def spoilt_number(text):
    """A maker of operations with a text in place of a number.

    A function of a part and random numbers gives the text.
    """
    return lambda part, rng: good_line(part, rng, spoilt=text(part, rng))


def any_text(*texts):
    """A function of part and random numbers that gives one of the texts."""
    return lambda part, rng: rng.choice(texts)


def change(alter, least_words=1):
    """A maker of operations that a function of a line and random numbers
    has altered.
    """
    return lambda part, rng: alter(good_line(part, rng, least_words), rng)


def with_text_for_blank(*texts):
    """A maker of operations with one of the texts in place of a blank."""
    def alter(line, rng):
        words = line.split(" ")
        place = rng.randrange(1, len(words))
        return (" ".join(words[:place]) + rng.choice(texts)
                + " ".join(words[place:]))
    return change(alter, least_words=2)


def with_capital(line, rng):
    """A line with a capital letter, or several, in its words."""
    return rng.choice((line.upper(), line.capitalize()))


def with_mark(*marks):
    """A maker of operations with one of the marks before, in or behind."""
    def alter(line, rng):
        place = rng.choice((0, len(line), rng.randrange(len(line))))
        return line[:place] + rng.choice(marks) + line[place:]
    return change(alter)


def missing_number(part, rng):
    """An operation with numbers that lacks the last one or all."""
    words = good_line(part, rng, spoilt="1").split(" ")
    return " ".join(words[:rng.randrange(1, len(words))])


def other_operation(part, rng):
    """An operation that the other sort of part has, and this one has not."""
    other = next(make() for make in parts.BUILDS.values()
                 if make.operations is not part.operations)
    return good_line(other, rng)


def over(part, rng):
    """The smallest number that is too large."""
    return str(part.largest_number + 1)


def far_over(part, rng):
    """A number of 3 to 5 digits that is too large."""
    return str(rng.randrange(part.largest_number + 1, 100000))


def six_digits(part, rng):
    """A number of 6 digits, which may have zeros in front."""
    return str(rng.choice((0, 1, 65535, 65536, 100000,
                           rng.randrange(1000000)))).zfill(6)


BAD_LINES = {
    "empty line": any_text(""),
    "blanks alone": any_text(" ", "  "),
    "unknown word": any_text("put", "put 1", "tak", "takes", "give 1",
                             "best take", "all", "help", "number 0", "yes"),
    "part line": any_text(*parts.PART_LINES, "part", "part all"),
    "operation of the other sort": other_operation,
    "missing number": missing_number,
    "surplus number": change(lambda line, rng: line + " 1"),
    "surplus word": change(lambda line, rng: line + " now"),
    "two blanks": with_text_for_blank("  "),
    "blank in front": change(lambda line, rng: " " + line),
    "blank at the end": change(lambda line, rng: line + " "),
    "no blank between": with_text_for_blank(""),
    "tab for a blank": with_text_for_blank("\t"),
    "comma for a blank": with_text_for_blank(",", ", "),
    "number one too large": spoilt_number(over),
    "number too large": spoilt_number(far_over),
    "number of 6 digits": spoilt_number(six_digits),
    "number of many digits": spoilt_number(any_text(
        "4294967296", "4294967297", "18446744073709551616",
        "18446744073709551617", "0" * 20, "9" * 300)),
    "letters for a number": spoilt_number(any_text("x", "one", "N", "T")),
    "letter in a number": spoilt_number(any_text(
        "1x", "x1", "0x1", "1e1", "1_0", "0b1")),
    "sign": spoilt_number(any_text("+1", "-1", "-0", "+0")),
    "point or comma": spoilt_number(any_text("1.0", "1,0", "1.", ".1")),
    "capital letter": change(with_capital),
    "other mark": with_mark(":", ";", "'", '"', "#", "\\", "%"),
    "digit of another script": spoilt_number(any_text(
        "\u0663", "\uff13", "\u00b2", "1\u0663", "\U0001d7d8")),
    "letter beyond ASCII": with_mark("\u00e9", "\u0430", "\U0001f6b2"),
    "other blank": with_text_for_blank("\u00a0", "\u3000", "\u200b"),
    "byte order mark": change(lambda line, rng: "\ufeff" + line),
    "other line end": with_mark("\v", "\f", "\u0085", "\u2028"),
    "zero byte": with_mark("\0"),
    "long line": change(
        lambda line, rng: line + "x" * rng.randrange(1, 5000)),
}


def bad_cases():
    """The lines that are no operation of the part."""
    for way, make in BAD_LINES.items():
        yield f"bad: {way}", Case(NO_OPERATION, make)


# Lists of operations.


class Plan(NamedTuple):
    """The cases of a sort of part and how they are mixed.

    A run of operations begins with one of the starts, and goes on with one
    of the mixes: names of cases, the frequent ones repeated.
    """

    answers: tuple
    cases: dict
    starts: tuple
    mixes: tuple


def plan(answers, sound, starting, *frequent):
    """A plan; each of the tuples of frequent cases gives one of its mixes.

    The cases with the starting answer only begin a run, since in between
    they would empty or fill the part too soon.
    """
    cases = {**dict(sound), **dict(bad_cases())}
    starts = tuple(name for name in cases if cases[name].answer == starting)
    rest = tuple(name for name in cases if name not in starts)
    operations = tuple(name for name in rest
                       if cases[name].answer != NO_OPERATION)
    mixes = [operations + names * (60 // len(names)) for names in frequent]
    return Plan(answers, cases, starts, (rest, operations, *mixes))


POOL_PLAN = plan(
    POOL_ANSWERS, pool_cases(), "reset: yes",
    ("take, some free",),
    ("return: a taken number",),
    ("take, some free", "return: a taken number"))

QUEUE_PLAN = plan(
    QUEUE_ANSWERS, queue_cases(), "reset: done",
    ("join: a new task",),
    ("take best, some listed",),
    ("join: a new task", "take best, some listed"))

PLANS = {
    "free-list": POOL_PLAN,
    "bitmap": POOL_PLAN,
    "priority-lines": QUEUE_PLAN,
    "sorted-line": QUEUE_PLAN,
}

LENGTHS = (1, 5, 30, 100, 400)


def make_one(part, cases, names, rng):
    """One operation out of these cases; the part has then done it."""
    line = None
    while line is None:
        name = rng.choice(names)
        line = cases[name].make(part, rng)
    found = answer_sort(parts.output_line(part, 1, line))
    if found != cases[name].answer:
        raise AssertionError(f"case {name}: {line!r} gets {found}")
    return Made(name, line)


def endless(build, rng):
    """Operations of a build without an end."""
    part = parts.BUILDS[build]()
    _, cases, starts, mixes = PLANS[build]
    while True:
        mix = rng.choice(mixes)
        for _ in range(rng.choice(LENGTHS)):
            yield make_one(part, cases, mix, rng)
        if rng.randrange(3):
            yield make_one(part, cases, starts, rng)


def operations(build, count, seed):
    """So many operations of a build; the seed alone decides which."""
    return list(islice(endless(build, random.Random(f"{seed} {build}")),
                       count))


USAGE = """\
usage: tests/second/operations.py BUILD N SEED
Prints the N operations that tests/compare_parts N SEED does on the build.
"""


def main(words):
    """Prints operations; gives the exit status."""
    if len(words) != 3 or words[0] not in PLANS:
        print(USAGE, end="")
        return 2
    made = operations(words[0], int(words[1]), int(words[2]))
    text = parts.joined(line for _, line in made)
    sys.stdout.buffer.write(text.encode("utf-8"))
    return 0


if __name__ == "__main__":
    sys.exit(main(sys.argv[1:]))
