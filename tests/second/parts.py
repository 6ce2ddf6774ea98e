"""The second program parts: operations on a block pool or a ready queue.

It prints what docs/PARTS.md says the program parts prints, so that
tests/compare_parts can hold the two outputs against each other. The parts
are models: plain lists, searched from one end to the other, so that reading
is enough to check them.
"""

import functools
import re
import sys

USAGE = """\
usage: parts BUILD < operations
BUILD is free-list, bitmap, priority-lines or sorted-line.
pools: reset N, take, return N, count, free N
queues: reset, join T P, take best, best, length
"""

LARGEST_SIZE = 256
LARGEST_TASK = 63
LARGEST_PRIORITY = 31


def yes_or_no(done):
    """The answer of an operation that is either done or not."""
    return "yes" if done else "no"


def or_none(form, *values):
    """The answer in this form, or none where there are no values."""
    return "none" if None in values else form.format(*values)


class Pool:
    """A block pool: its size and its free numbers in the order of a stack.

    The number returned last stands first; after a reset 0 does. A build
    says which of them is taken.
    """

    largest_number = 65535
    operations = {
        "reset N": lambda pool, size: yes_or_no(pool.reset(size)),
        "take": lambda pool: or_none("number {}", pool.take()),
        "return N": lambda pool, number: yes_or_no(pool.give_back(number)),
        "count": lambda pool: str(len(pool.free)),
        "free N": lambda pool, number: yes_or_no(number in pool.free),
    }

    def __init__(self):
        self.reset(1)

    def reset(self, size):
        """Makes all numbers below the size free; says whether it did."""
        if not 1 <= size <= LARGEST_SIZE:
            return False
        self.size = size
        self.free = list(range(size))
        return True

    def take(self):
        """A number that was free and no longer is, or None."""
        if not self.free:
            return None
        number = self.chosen()
        self.free.remove(number)
        return number

    def give_back(self, number):
        """Makes a taken number free; says whether it was one."""
        if number >= self.size or number in self.free:
            return False
        self.free.insert(0, number)
        return True

    def left(self):
        """What a line ends with."""
        return f"{len(self.free)} free"


class FreeList(Pool):
    """The pool that gives the number returned last."""

    def chosen(self):
        """The free number to take."""
        return self.free[0]


class Bitmap(Pool):
    """The pool that gives the lowest free number."""

    def chosen(self):
        """The free number to take."""
        return min(self.free)


class ReadyQueue:
    """A ready queue: pairs of task and priority in running order.

    The rules fix each of its answers, so one model stands for both builds.
    """

    largest_number = 255
    operations = {
        "reset": lambda queue: queue.reset(),
        "join T P": lambda queue, *pair: yes_or_no(queue.join(*pair)),
        "take best": lambda queue: or_none("task {} priority {}",
                                           *queue.take_best()),
        "best": lambda queue: or_none("priority {}", queue.first()[1]),
        "length": lambda queue: str(len(queue.pairs)),
    }

    def __init__(self):
        self.reset()

    def reset(self):
        """Empties the queue; gives the answer, which is always the same."""
        self.pairs = []
        return "done"

    def join(self, task, priority):
        """Adds a pair behind its priority; says whether it did."""
        if task > LARGEST_TASK or priority > LARGEST_PRIORITY:
            return False
        if task in (listed for listed, _ in self.pairs):
            return False
        self.pairs.append((task, priority))
        self.pairs.sort(key=lambda pair: pair[1])  # equal ones keep order
        return True

    def first(self):
        """The first pair, with None twice where the queue is empty."""
        return self.pairs[0] if self.pairs else (None, None)

    def take_best(self):
        """The first pair, which is then removed."""
        pair = self.first()
        self.pairs = self.pairs[1:]
        return pair

    def left(self):
        """What a line ends with."""
        return f"{len(self.pairs)} ready"


class NoPart:
    """What stands for the part before the first part line of `all`."""

    operations = {}


BUILDS = {
    "free-list": FreeList,
    "bitmap": Bitmap,
    "priority-lines": ReadyQueue,
    "sorted-line": ReadyQueue,
}

PART_LINES = {f"part {build}": make for build, make in BUILDS.items()}


@functools.cache
def pattern(form):
    """The pattern of an operation; capital letters stand for numbers."""
    return re.compile(re.sub("[A-Z]", "([0-9]{1,5})", form))


def read_operation(part, line):
    """The operation in a line and its numbers, or None if it is none."""
    for form, operation in part.operations.items():
        found = pattern(form).fullmatch(line)
        if found:
            numbers = [int(digits) for digits in found.groups()]
            if max(numbers, default=0) <= part.largest_number:
                return operation, numbers
    return None


def output_line(part, number, line):
    """Does the operation of a line, if it is one; gives what is printed."""
    found = read_operation(part, line)
    if found is None:
        return f"{number} is no operation: {line}"
    operation, numbers = found
    answer = operation(part, *numbers)
    return f"{number} {line}: {answer}, {part.left()}"


def input_lines(text):
    """The lines of a text; a last one without a line feed counts too.

    A carriage return before the line feed belongs to the end of the line.
    """
    *ended, last = text.split("\n")
    lines = [line[:-1] if line.endswith("\r") else line for line in ended]
    return lines + [last] if last else lines


def joined(lines):
    """The text of lines that each end with a line feed."""
    return "".join(line + "\n" for line in lines)


def transcript(build, text):
    """The whole text that the program prints for a build."""
    part = BUILDS[build]()
    return joined(output_line(part, number, line)
                  for number, line in enumerate(input_lines(text), 1))


def transcript_all(text):
    """The whole text that the program prints for the word all."""
    part, number, printed = NoPart(), 0, []
    for line in input_lines(text):
        if line in PART_LINES:
            part, number = PART_LINES[line](), 0
            printed.append(line)
        else:
            number += 1
            printed.append(output_line(part, number, line))
    return joined(printed)


def program(words):
    """The function from input to output that the words ask for, or None."""
    if words == ["all"]:
        return transcript_all
    if len(words) == 1 and words[0] in BUILDS:
        return functools.partial(transcript, words[0])
    return None


def main(words):
    """Prints the output for standard input; gives the exit status."""
    chosen = program(words)
    if chosen is None:
        sys.stdout.write(USAGE)
        return 0
    try:
        text = sys.stdin.buffer.read().decode("utf-8")
    except UnicodeDecodeError:
        return 1
    sys.stdout.buffer.write(chosen(text).encode("utf-8"))
    return 0


if __name__ == "__main__":
    sys.exit(main(sys.argv[1:]))
