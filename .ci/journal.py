"""The rows of journals in crates/journal_trials/stdin, with answers that are worked out here.

    journal.py REPOSITORY          compares the answer of each row of the groups `journal`
    journal.py REPOSITORY write    writes the answers there

It reads a journal's bytes in the plainest way. A disk is a list of calls, and a crash is told by making them again. The program has no
part in it.
"""

import pathlib
import re
import sys

sys.dont_write_bytecode = True
sys.path.insert(0, str(pathlib.Path(__file__).parent.parent / "tools"))

from egw_bytes import counted, id_bytes, number, sized  # noqa: E402

ROWS = pathlib.Path(sys.argv[1]) / "crates" / "journal_trials" / "stdin"
NAME = re.compile(rb"[A-Za-z0-9_.][A-Za-z0-9_.-]{0,31}")


# Events, as a row writes them: `b:1 X@3 <a:0,b:0`, `b:2 del@3`, `b:3 mark@save`.


def identity(text):
    name, seq = text.split(":")
    return name.encode(), int(seq)


def event(text):
    words = text.split()
    what, at = words[1].rsplit("@", 1)
    parents = [identity(word) for word in words[2][1:].split(",")] if len(words) > 2 else []
    if what == "mark":
        does = number(2, 1) + sized(at.encode())
    elif what == "del":
        does = number(1, 1) + number(int(at))
    else:
        does = number(0, 1) + number(int(at)) + number(ord(what))
    return id_bytes(identity(words[0])) + counted_parents(parents) + does


def counted_parents(parents):
    return number(len(parents), 1) + b"".join(map(id_bytes, parents))


# What a journal's bytes hold.


class Bad(Exception):
    """These bytes are no body."""


class Bytes:
    def __init__(self, data):
        self.data, self.place = data, 0

    def take(self, count):
        if len(self.data) - self.place < count:
            raise Bad
        self.place += count
        return self.data[self.place - count : self.place]

    def number(self, size=4):
        return int.from_bytes(self.take(size), "little")

    def name(self):
        name = self.take(self.number(1))
        if not NAME.fullmatch(name):
            raise Bad
        return name

    def identity(self):
        self.name()
        self.number()

    def event(self):
        start = self.place
        self.identity()
        for _ in range(self.number(1)):
            self.identity()
        kind = self.number(1)
        if kind > 2:
            raise Bad
        if kind == 2:
            self.name()
        else:
            self.number()
        if kind == 0:
            scalar = self.number()
            if scalar > 0x10FFFF or 0xD800 <= scalar <= 0xDFFF:
                raise Bad
        return self.data[start : self.place]


def events_of(body):
    left = Bytes(body)
    events = [left.event() for _ in range(left.number())]
    if left.place < len(body) or not events:
        raise Bad
    return events


def opening(data, limits, given):
    """What a journal of these bytes is answered: how many events, and whether they are others than the first of these; or a fault."""
    most_events, most_body = limits
    events, place = [], 0
    while len(data) >= 2 and data[place] == 1:
        try:
            head = Bytes(data[place + 1 :])
            size = head.number()
            if size > most_body:
                raise Bad
            batch = events_of(head.take(size))
            head.take(1)
        except Bad:
            return f"byte {place}: bad batch"
        if len(events) + len(batch) > most_events:
            return f"{len(events) + len(batch)} events are too many"
        events += batch
        place += 5 + size
    return str(len(events)) + ("" if events == given[: len(events)] else " others")


# A disk, and the calls that a journal makes of it.


class Failed(Exception):
    """A call of the disk failed."""


def over(data, at, piece):
    return data[:at] + piece + data[at + len(piece) :]


class Disk:
    """A call is its name, whether it failed, and of a write the place, the bytes and those that stand there."""

    def __init__(self, failing=None, front=0):
        self.data, self.made, self.failing, self.front = b"", [], failing, front

    def call(self, name, at=0, piece=b""):
        failed = len(self.made) == self.failing
        stands = piece[: self.front] if failed else piece
        self.made.append((name, failed, at, piece, stands))
        if name == "write":
            self.data = over(self.data, at, stands)
        if failed:
            raise Failed

    def image(self, count, tear):
        """What a crash leaves after so many calls: of each write that isn't synced stands what `tear` makes of its bytes."""
        data = image = b""
        for name, failed, at, piece, stands in self.made[:count]:
            if name == "write":
                data = over(data, at, stands)
                image = over(image, at, tear(piece)) if at <= len(image) else image
            if name == "sync" and not failed:
                image = data
        return image


def told_call(call):
    name, failed, at, piece, stands = call
    if name == "write":
        return f"write {at}+{len(piece)}" + (f" failed with {len(stands)}" if failed else "")
    return name + (" failed" if failed else "")


def append_all(disk, batches):
    """Opens a journal on an empty disk and appends the batches. What each call answers."""
    try:
        for call in [("sync",), ("len",), ("write", 0, b"\0"), ("sync",)]:
            disk.call(*call)
    except Failed:
        return "the disk failed"
    told, gate, count, closed = "0", 0, 0, False
    for batch in batches:
        body = counted(batch)
        piece = number(len(body)) + body + b"\0"
        if closed:
            told += ", the journal is closed"
            continue
        try:
            for call in [("write", gate + 1, piece), ("sync",), ("write", gate, b"\1"), ("sync",)]:
                disk.call(*call)
        except Failed:
            told += ", the disk failed"
            closed = True
            continue
        gate += len(piece)
        count += len(batch)
        told += f" {count}"
    return told


# Rows.


def runs(answers):
    """Answers, each with how often it comes in a row."""
    told = []
    for answer in answers:
        if told and told[-1][0] == answer:
            told[-1][1] += 1
        else:
            told.append([answer, 1])
    return " ".join(f"{answer}*{count}" for answer, count in told)


def changed(data, words):
    for word in words:
        if word.startswith("<"):
            data = data[: int(word[1:])]
        else:
            place, digits = word.split("=")
            data = over(data, int(place), bytes.fromhex(digits))
    return data


def answer(head, asked):
    """The answer to a row of the group whose batches and limits these words tell."""
    most_events, most_body, texts = head.split(" ", 2)
    limits = int(most_events), int(most_body)
    batches = [[event(text) for text in batch.split(";")] for batch in texts.split(" | ")]
    given = [event for batch in batches for event in batch]

    def read(data):
        return opening(data, limits, given)

    def crashes(disk, count):
        return runs(read(disk.image(count, lambda piece: piece[:front])) for front in range(most))

    disk = Disk()
    append_all(disk, batches)
    most = len(disk.data)
    verb, *words = asked.split()
    if verb == "bytes":
        return disk.data.hex()
    if verb == "calls":
        return ", ".join(map(told_call, disk.made))
    if verb == "torn":
        return crashes(disk, int(words[0]))
    if verb == "noise":
        return runs(read(disk.image(int(words[0]), lambda piece: bytes([byte]) * len(piece))) for byte in bytes.fromhex(words[1]))
    if verb == "cuts":
        return runs(read(disk.data[:length]) for length in range(len(disk.data) + 1))
    if verb == "each":
        return runs(read(over(disk.data, place, bytes.fromhex(words[0]))) for place in range(len(disk.data)))
    if verb == "given":
        return read(changed(disk.data, words))
    if verb == "other":
        return read(bytes.fromhex(words[0]) if words else b"")
    if verb == "fail":
        disk = Disk(*map(int, words))
        told = append_all(disk, batches)
        faults = sum(call[1] for call in disk.made)
        calls = ", ".join(map(told_call, disk.made))
        return f"{told}; faults {faults}; calls {calls}; again {read(disk.data)}; crashes {crashes(disk, len(disk.made))}"
    raise ValueError(asked)


def main():
    rows = different = 0
    out = []
    for group in ROWS.read_text().rstrip("\n").split("\n\n"):
        head, *lines = group.split("\n")
        if head.startswith("journal "):
            words = head.split(": ", 1)[0].split(" ", 1)[1]
            for place, line in enumerate(lines):
                asked, given = line.split(" =", 1)
                right = answer(words, asked)
                rows += 1
                if right != given.strip():
                    different += 1
                    if sys.argv[2:] != ["write"]:
                        print(f"differs: {line}\n     is: {right}")
                lines[place] = f"{asked} = {right}"
        out.append("\n".join([head, *lines]))
    if sys.argv[2:] == ["write"]:
        ROWS.write_text("\n\n".join(out) + "\n")
    elif different or not rows:
        sys.exit(f"journals: {different} of {rows} rows differ")
    print(f"journals: {rows} rows have the answers that were worked out beside the program")


main()
