"""The second program listing: the calls of a batch in words.

It prints what docs/FORMATS.md says the program listing prints, so that
tests/compare can hold the two outputs against each other.
"""

import sys

sys.dont_write_bytecode = True  # leave no compiled files beside the sources

import codec

USAGE = """\
usage: listing docks < batch
       listing forms < batch
Lists the calls of a batch of dock messages or of forms, \
or says what is wrong with it.
"""

FIELD_WORDS = {
    "Start": ("task", "priority"),
    "Open": ("exchange",),
    "Close": ("exchange",),
    "Register": ("exchange", "name"),
    "Strike": ("name",),
    "Post": ("exchange", "message"),
    "Tick": (),
    "Send": ("exchange", "message"),
    "Wait": ("exchange",),
    "Check": ("exchange",),
    "Request": ("reply exchange", "name", "message"),
    "Respond": ("block", "status"),
    "Move": ("block", "exchange"),
    "Alarm": ("exchange", "ticks", "message"),
    "Cancel": ("block",),
    "Priority": ("priority",),
    "End": (),
    "Tray": (),
}

MESSAGE_WORDS = {"docks": "a dock message", "forms": "a form"}


def value_text(value):
    """A number, a service name or a message as the listing prints it."""
    if isinstance(value, codec.DockMessage):
        bicycle = f"bicycle {value.bicycle}" if value.bicycle else "no bicycle"
        return f"{value.event} dock {value.dock} {bicycle}"
    if isinstance(value, codec.Tariff):
        return f"tariff {value.table} day {value.day}"
    if isinstance(value, codec.Cancellation):
        return f"cancellation {value.cents} cents hire {value.hire}"
    return str(value)


def call_line(row, call):
    """The line for one call of an accepted batch."""
    name, _ = codec.CALLS[call.code]
    parts = [str(row), name]
    for word, value in zip(FIELD_WORDS[name], call.values, strict=True):
        parts += [word, value_text(value)]
    return " ".join(parts)


def accepted_lines(kind, batch):
    """The lines for an accepted batch.

    The last line states that the calls were written back, so they are.
    """
    calls = codec.read_batch(kind, batch)
    if codec.write_batch(kind, calls) != batch:
        raise RuntimeError(f"written back to other bytes: {batch.hex()}")
    lines = [call_line(row, call) for row, call in enumerate(calls)]
    lines.append(f"{len(calls)} calls, "
                 f"written back to the same {len(batch)} bytes")
    return lines


def shape_line(batch):
    """The second line for refusal 3."""
    fault = codec.shape_fault(batch)
    length = len(batch)
    if fault == "header":
        return f"the batch has {length} bytes; its header takes 4"
    count, width = codec.HEADER.unpack_from(batch)
    if fault == "width":
        return f"the row width is {width}; it must be 24"
    if fault == "count":
        return (f"the header counts {count} calls; "
                "a batch has at most 1024")
    return (f"the header counts {count} calls, which take "
            f"{codec.batch_length(count)} bytes; the batch has {length}")


def row_line(kind, number, row, record):
    """The second line for the refusals 5 to 8."""
    if number == 5:
        what = f"{record.code} is no call's code; the codes are 1 to 18"
    elif number == 6:
        name, _ = codec.CALLS[record.code]
        field = codec.unused_field(record)
        what = f"{name} does not use {field}, which is not zero"
    elif number == 7:
        what = f"{record.name.hex()} is not a service name"
    else:
        what = f"{record.message.hex()} is not {MESSAGE_WORDS[kind]}"
    return f"row {row}: {what}"


def refused_lines(kind, batch, number, row):
    """The two lines for a refused batch."""
    if row is None:
        return [f"batch {number} -", shape_line(batch)]
    record = codec.unpack(batch)[row]
    return [f"batch {number} {row}", row_line(kind, number, row, record)]


def listing(kind, batch):
    """The whole text that the program prints for a batch."""
    judged = codec.verdict(kind, batch)
    if judged == codec.ACCEPTED:
        lines = accepted_lines(kind, batch)
    else:
        lines = refused_lines(kind, batch, *judged)
    return "".join(line + "\n" for line in lines)


def main(words):
    """Prints the listing of standard input, or how to use the program."""
    if len(words) == 1 and words[0] in codec.KINDS:
        text = listing(words[0], sys.stdin.buffer.read())
    else:
        text = USAGE
    sys.stdout.write(text)
    return 0


if __name__ == "__main__":
    sys.exit(main(sys.argv[1:]))
