"""The bytes of event files and frames, as docs/FORMATS.md has them, good and bad ones. The second reader has its own, and no part in it."""

import hashlib

START, START_2 = b"EGWFILE\x01", b"EGWFILE\x02"
INSERT, DELETE, MARK, FALLING = 0, 1, 2, 3
HAVE, EVENTS, DONE, TOOK, CLASH, BYE = range(1, 7)


def number(value, size=4):
    return value.to_bytes(size, "little")


def numbers(values):
    return b"".join(map(number, values))


def counted(items):
    """Some items behind their number."""
    items = list(items)
    return number(len(items)) + b"".join(items)


def sized(name):
    return number(len(name), 1) + name


def operation(kind, what, ch):
    """What an event does: at which index, and of an insertion the code point of its character; or the label of a mark."""
    if kind == MARK:
        return number(kind, 1) + sized(what)
    return number(kind, 1) + number(what) + (b"" if ch is None else number(ch))


# Journals


def batch(events):
    """An open gate, the length of a body, and the body of an Events frame."""
    body = counted(events)
    return b"\1" + number(len(body)) + body


# Files


def record(agent, seq, parents, kind, what, ch=None):
    """An event in a file: the agent and the parents are numbers."""
    return number(agent) + number(seq) + number(len(parents), 1) + numbers(parents) + operation(kind, what, ch)


def content(agents, records, count=None):
    """A file without its digest; it may tell of another number of events than it has."""
    return START + counted(map(sized, agents)) + (counted(records) if count is None else number(count) + b"".join(records))


def run(agent, seq, parents, kind, at, what):
    """A run in a file of version 2: what are the code points of insertions, or how many deletions there are, or a label.

    Where a run of insertions is to tell of another length than it has, what is a pair of that and the code points.
    """
    start = number(agent) + number(seq) + number(len(parents), 1) + numbers(parents)
    if kind == MARK:
        return start + operation(MARK, what, None)
    length, chars = what if isinstance(what, tuple) else (what, []) if isinstance(what, int) else (len(what), what)
    return start + number(kind, 1) + number(at) + number(length) + numbers(chars)


def content_2(agents, runs, count):
    """A file of version 2 without its digest, which tells of so many events."""
    return START_2 + counted(map(sized, agents)) + number(count) + b"".join(runs)


def with_digest(content):
    return content + hashlib.sha256(content).digest()


# Frames


def id_bytes(id):
    """An id is a name and a number."""
    name, seq = id
    return sized(name) + number(seq)


def event_bytes(id, parents, kind, what, ch=None):
    """An event in a frame; its parents are ids."""
    return id_bytes(id) + number(len(parents), 1) + b"".join(map(id_bytes, parents)) + operation(kind, what, ch)


def frame(kind, body=b""):
    return number(kind, 1) + number(len(body)) + body


def events_frame(events):
    return frame(EVENTS, counted(events))
