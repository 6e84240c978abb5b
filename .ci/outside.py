"""The rows of command_trials, carried out by the second reader: what .ci/rows.py computes answers with.

It runs tools/second_reader.py over files, a journal, an input and outputs in memory, of which single calls fail, and knows nothing of the
program. What a row may say stands at the head of crates/command_trials/src/main.rt.
"""

import errno
import importlib.util
import os
import re
import sys
import types

from egw_bytes import with_digest

OBJECTS = ("shelf", "disk", "source", "out", "err")
ROOM = 100_000  # what an output takes at most
DISK_PIECE = 65_536  # what a read of the disk takes at most
# What the system says of a file in memory: nothing changes it during a run.
FOUND = types.SimpleNamespace(st_dev=0, st_ino=0, st_size=0, st_mtime_ns=0)


class Opened:
    """A file that is open for reading."""

    def __init__(self, data):
        self.left = data

    def __enter__(self):
        return self

    def __exit__(self, *_):
        pass

    def fileno(self):
        return self


class Outside:
    """Files, a journal, an input and outputs in memory: for each object the numbers of the calls that fail, and what was made of it."""

    def __init__(self, files):
        self.files, self.journal, self.next = files, b"", {}
        self.begin_run()

    def begin_run(self):
        """Takes over what was made ready for this run."""
        self.failing = {what: self.next.pop(what, ()) for what in OBJECTS}
        self.landing, self.tear = self.next.pop("land", ()), self.next.pop("tear", 0)
        self.left, self.given = self.next.pop("in", b""), self.next.pop("slow", ROOM)
        self.piece = {"out": self.next.pop("piece", ROOM), "err": self.next.pop("err_piece", ROOM)}
        self.room = {"out": min(self.next.pop("room", ROOM), ROOM), "err": ROOM}
        self.made = dict.fromkeys(OBJECTS, 0)
        self.stores = []  # the numbers of the shelf's calls that were stores
        self.writes = {}  # the numbers of the disk's calls that were writes, and of how many bytes
        self.taken = {"out": b"", "err": b""}
        self.flushed = 0

    def call(self, what):
        """One call more of this object; says whether it fails."""
        number = self.made[what]
        self.made[what] += 1
        return number in self.failing[what]

    def refuse(self, fails):
        if fails:
            raise OSError(errno.EIO, "this call fails")

    def open(self, path, *_mode, **_how):
        self.refuse(self.call("shelf"))
        if path.decode() not in self.files:
            raise FileNotFoundError
        return Opened(self.files[path.decode()])

    def store(self, file, data):
        number = self.made["shelf"]
        self.stores.append(number)
        fails = self.call("shelf")
        if not fails or number in self.landing:
            self.files[file] = data
        self.refuse(fails)

    def read(self, handle, count):
        """Reads from an open file, or from the input."""
        if isinstance(handle, Opened):
            data, handle.left = handle.left[:count], handle.left[count:]
            return data
        self.refuse(self.call("source"))
        count = min(count, self.given)
        data, self.left = self.left[:count], self.left[count:]
        return data

    def write_all(self, handle, data):
        """Writes all to an output, in pieces, and flushes it behind that."""
        what = "out" if handle == 1 else "err"
        while data:
            room = self.room[what] - len(self.taken[what])
            piece = data[: min(self.piece[what], room)]
            self.refuse(self.call(what) or not room)
            self.taken[what] += piece
            data = data[len(piece) :]
        self.refuse(self.call(what))
        if what == "out":
            self.flushed = len(self.taken[what])


class Disk:
    """The journal in memory. A disk is asked for its length, read by pieces, written at a place and synced."""

    def __init__(self, outside):
        self.outside = outside

    def call(self):
        self.outside.refuse(self.outside.call("disk"))

    def sync(self):
        self.call()

    def read(self):
        self.call()
        data, whole = b"", self.outside.journal
        while len(data) < len(whole):
            self.call()
            data += whole[len(data) : len(data) + DISK_PIECE]
        return data

    def write(self, at, data):
        """Writes a piece and syncs it. Of one that fails there stand its first bytes, as many as the row says."""
        outside = self.outside
        outside.writes[outside.made["disk"]] = len(data)
        fails = outside.call("disk")
        left = data[: outside.tear] if fails else data
        outside.journal = outside.journal[:at] + left + outside.journal[at + len(left) :]
        outside.refuse(fails)
        self.sync()


class Reader:
    """The second reader, over what is in memory."""

    def __init__(self, path):
        spec = importlib.util.spec_from_file_location("second_reader", path)
        self.code = importlib.util.module_from_spec(spec)
        spec.loader.exec_module(self.code)
        self.program = self.limits()

    def limits(self):
        return {name: value for name, value in vars(self.code).items() if name.startswith("MAX_")}

    def set_limits(self, events, waiting, body, input):
        self.code.MAX_EVENTS, self.code.MAX_WAITING, self.code.MAX_BODY, self.code.MAX_INPUT = events, waiting, body, input
        self.code.MAX_FILE, self.code.MAX_HAVE = 48 + 140 * events, 4 + 37 * events

    def set_program_limits(self):
        vars(self.code).update(self.program)

    def run(self, outside, words):
        """Runs a command line; gives its status."""
        outside.begin_run()

        def store(file, events):
            with self.code.using("shelf"):
                outside.store(file, self.code.file_bytes(events))

        edges = {"open": outside.open, "store": store, "write_all": outside.write_all, "Disk": lambda: Disk(outside)}
        edges["os"] = types.SimpleNamespace(read=outside.read, fsencode=os.fsencode, fstat=lambda _: FOUND)
        vars(self.code).update(edges)
        sys.argv = ["second_reader.py", *map(os.fsdecode, words)]
        return self.code.main()


# Rows


def unescaped(text):
    return re.sub(rb"%([0-9a-f]{2})", lambda found: bytes([int(found[1], 16)]), text.encode())


def escaped(data):
    return "".join(chr(byte) if 0x20 <= byte < 0x7F and byte != 0x25 else f"%{byte:02x}" for byte in data)


def words_of(line):
    """The words of a command line, as bytes."""
    return [unescaped(word) for word in line.split("|" if "|" in line else " ")] if line else []


class Rows:
    """What groups of rows run over. Named bytes stay from group to group."""

    def __init__(self, reader):
        self.reader, self.bytes = reader, {}

    def begin(self, head):
        """Begins a group: an empty shelf and an empty journal, under these limits."""
        if head == "program":
            self.reader.set_program_limits()
        else:
            events, waiting, input, body = map(int, head.split())
            self.reader.set_limits(events, waiting, body, input)
        self.outside, self.status = Outside({}), None

    def make_ready(self, row):
        """Carries out a row that has no answer, and says whether it is one."""
        verb, _, rest = row.partition(" ")
        first, _, more = rest.partition(" ")
        if verb == "bytes":
            self.bytes[first] = unescaped(more)
        elif verb == "more":
            count, text = more.split(" ", 1)
            self.bytes[first] = self.bytes.get(first, b"") + int(count) * unescaped(text)
        elif verb == "front":
            of, count = more.split()
            self.bytes[first] = self.bytes[of][: int(count)]
        elif verb == "sealed":
            self.bytes[first] = with_digest(self.bytes[more])
        elif verb == "file":
            self.outside.files[first] = self.bytes[more]
        elif verb == "journal":
            self.outside.journal = self.bytes[rest]
        elif verb == "in":
            self.outside.next["in"] = unescaped(rest)
        elif verb == "in_bytes":
            self.outside.next["in"] = self.bytes[rest]
        elif verb == "fail":
            self.outside.next[first] = [int(number) for number in more.split()]
        elif verb == "land":
            self.outside.next["land"] = [int(number) for number in rest.split()]
        elif verb in ("slow", "piece", "err_piece", "room", "tear"):
            self.outside.next[verb] = int(rest)
        else:
            return False
        return True

    def answer(self, asked):
        """The answer to a row."""
        verb, _, rest = asked.partition(" ")
        outside = self.outside
        if verb == "run":
            self.status = self.reader.run(outside, words_of(rest))
            told = [f" {what} {escaped(outside.taken[what])}" for what in ("out", "err") if outside.taken[what]]
            return str(self.status) + "".join(told)
        if verb == "calls":
            made = " ".join(f"{what} {outside.made[what]}" for what in OBJECTS)
            return f"{made} left {len(outside.left)}"
        if verb == "flushed":
            return str(outside.flushed)
        if verb == "ends":
            self.status = self.reader.run(outside, words_of(rest))
            return str(self.status)
        if verb == "printed":
            return "yes" if outside.taken["out"] == self.bytes[rest] else "no"
        if verb == "kept":
            return "yes" if outside.journal == self.bytes[rest] else "no"
        file, name = rest.split()
        if verb != "same" or name not in self.bytes:
            raise ValueError(asked)
        if file not in outside.files:
            return "no file"
        return "yes" if outside.files[file] == self.bytes[name] else "no"
