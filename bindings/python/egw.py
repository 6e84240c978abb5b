"""Collaborative plain text: documents that several people change apart, and that show the same text once they hold the same events.

    from egw import Document, Peer
    tea = Document()
    tea.insert("ada", 0, "tea")
    print(tea.text())

Indices count characters, as Python's strings do. It needs the shared library of egw, and nothing else: it is looked for under the name
that EGW_LIBRARY has, beside this file, where `make install` puts it, in the release of this repository, and where the system keeps
libraries. A document is used by one thread at a time.
"""

import ctypes
import ctypes.util
import glob
import os
import platform

__all__ = ["Change", "Document", "Peer", "Refused", "SessionEnded"]

STATUSES = [
    "ok", "out of memory", "out of range", "too many heads", "full", "awaited", "empty name", "long name", "bad name", "bad text",
    "no version", "unknown event", "short file", "no event file", "unknown file version", "bad digest", "bad field",
    "too many events", "bad event", "long frame", "no kind of frame", "bad frame", "clash", "bye", "no id", "closed", "no caret",
    "no character", "empty label", "long label", "bad label", "no index",
]
OK = 0


class Refused(Exception):
    """A call that didn't do what it says. `status` names the reason, and `number` is what belongs to it, as include/egw.h says. Nothing
    is changed by it, unless it is a `SessionEnded`."""

    def __init__(self, status, number):
        self.status = STATUSES[status] if status < len(STATUSES) else str(status)
        self.number = number
        super().__init__(f"{self.status} ({number})" if number else self.status)


class SessionEnded(Refused):
    """The session with a peer is over: end the peer. `reply` is still to be sent to it. What was received by then is held, so take its
    changes."""

    reply = b""


class Change:
    """One change of a text: `kind` is "insert", "delete" or "nothing"."""

    def __init__(self, kind, at, ch):
        self.kind, self.at, self.ch = kind, at, ch

    def __repr__(self):
        return f"Change({self.kind!r}, {self.at}, {self.ch!r})"

    def done_to(self, characters):
        """Does the change to a list of characters."""
        if self.kind == "insert":
            characters.insert(self.at, self.ch)
        elif self.kind == "delete":
            del characters[self.at]


class _Answer(ctypes.Structure):
    _fields_ = [("number", ctypes.c_uint64), ("status", ctypes.c_uint32)]


class _Handle(ctypes.Structure):
    _fields_ = [("at", ctypes.c_void_p)]


def _fitting(kind):
    """The numbers of a type of C, for the words of a call. ctypes would cut others to it, and an index would be another one."""

    class Fitting(kind):
        @classmethod
        def from_param(cls, number):
            if kind(number).value != number:
                raise OverflowError(f"{number} is no number of {8 * ctypes.sizeof(kind)} bits")
            return kind(number)

    return Fitting


class _Change(ctypes.Structure):
    _fields_ = [("kind", ctypes.c_uint32), ("at", ctypes.c_uint32), ("ch", ctypes.c_uint32)]


def _load():
    here = os.path.dirname(os.path.abspath(__file__))
    beside, installed = os.path.join(here, "libegw.so"), os.path.join(here, "..", "..", "..", "lib", "libegw.so")
    released = glob.glob(os.path.join(here, "..", "..", "release", platform.machine() + "-linux", "libegw.so.*"))
    for name in (os.environ.get("EGW_LIBRARY"), beside, installed, *released, ctypes.util.find_library("egw")):
        if name and (os.sep not in name or os.path.exists(name)):
            # No other thread of Python runs during a call: two calls on one document at once would spoil its memory.
            return _with_types(ctypes.PyDLL(name))
    raise ImportError("the library libegw.so isn't found: name it in EGW_LIBRARY")


def _with_types(library):
    handle, back, bytes_, size = [_Handle], [ctypes.POINTER(ctypes.c_void_p)], [ctypes.c_char_p, ctypes.c_size_t], ctypes.c_size_t
    length, number, long = ctypes.c_uint32, _fitting(ctypes.c_uint32), _fitting(ctypes.c_uint64)
    calls = {
        "new": (back, _Answer),
        "open": (back + bytes_, _Answer),
        "free": (handle, None),
        "length": (handle + back, length),
        "count": (handle + back, length),
        "insert": (handle + back + bytes_ + [number] + bytes_, _Answer),
        "delete": (handle + back + bytes_ + [number, number], _Answer),
        "mark": (handle + back + bytes_ + bytes_, _Answer),
        "undo": (handle + back + bytes_ + bytes_ + [number], _Answer),
        "text": (handle + back, _Answer),
        "range": (handle + back + [number, number], _Answer),
        "to_utf16": (handle + back + [number], _Answer),
        "from_utf16": (handle + back + [long], _Answer),
        "to_bytes": (handle + back + [number], _Answer),
        "from_bytes": (handle + back + [long], _Answer),
        "text_at": (handle + back + bytes_, _Answer),
        "heads": (handle + back, _Answer),
        "save": (handle + back, _Answer),
        "ask": (handle + back, _Answer),
        "events": (handle + back + [number], _Answer),
        "marks": (handle + back, _Answer),
        "caret": (handle + back + [number], _Answer),
        "caret_index": (handle + back + bytes_, _Answer),
        "blame": (handle + back + bytes_ + [number], _Answer),
        "receive": (handle + back + handle + back + bytes_, _Answer),
        "changes": (handle + back + [number], _Answer),
        "copy": (handle + back + [ctypes.c_char_p, size], size),
        "copy_changes": (handle + back + [ctypes.POINTER(_Change), size], size),
        "peer_new": (back, _Answer),
        "peer_free": (handle, None),
    }
    for name, (words, answer) in calls.items():
        call = getattr(library, "egw_raw_" + name)
        call.argtypes, call.restype = words, answer
    return library


_library = _load()


def _checked(answer):
    if answer.status != OK:
        raise Refused(answer.status, answer.number)
    return answer.number


class _Held:
    """What stands behind a handle: the pointer goes in, and comes back, with each call."""

    _free = None

    def __init__(self):
        self._at = ctypes.c_void_p()

    def _handle(self):
        if not self._at:
            raise ValueError("it is closed")
        return _Handle(self._at.value)

    def close(self):
        """Gives its memory back. Nothing else can be done with it then."""
        if self._at:
            getattr(_library, self._free)(self._handle())
            self._at = ctypes.c_void_p()

    def __enter__(self):
        return self

    def __exit__(self, *_):
        self.close()

    def __del__(self):
        if getattr(self, "_at", None):
            self.close()


class Peer(_Held):
    """What came from one connection and is no whole frame yet."""

    _free = "egw_raw_peer_free"

    def __init__(self):
        super().__init__()
        _checked(_library.egw_raw_peer_new(ctypes.byref(self._at)))


class Document(_Held):
    """A text with its whole history."""

    _free = "egw_raw_free"

    def __init__(self, file=None):
        """A document without events, or that of an event file's bytes."""
        super().__init__()
        back = ctypes.byref(self._at)
        if file is None:
            _checked(_library.egw_raw_new(back))
        else:
            _checked(_library.egw_raw_open(back, bytes(file), len(file)))

    def _ask(self, name, *words):
        return getattr(_library, "egw_raw_" + name)(self._handle(), ctypes.byref(self._at), *words)

    def _found(self, count):
        out = ctypes.create_string_buffer(count or 1)
        self._ask("copy", out, count)
        return out.raw[:count]

    def __len__(self):
        """How many characters the text has."""
        return self._ask("length")

    def count(self):
        """How many events are held."""
        return self._ask("count")

    def insert(self, agent, at, text):
        """Inserts a text at an index, as an agent: the name of this copy. Answers how many events were made."""
        name, text = agent.encode(), text.encode()
        return _checked(self._ask("insert", name, len(name), at, text, len(text)))

    def delete(self, agent, at, count=1):
        """Deletes characters from an index on, as an agent. Answers how many events were made."""
        name = agent.encode()
        return _checked(self._ask("delete", name, len(name), at, count))

    def mark(self, agent, label):
        """Makes a save under a label, which joins all heads, as an agent. Answers how many events were made."""
        name, label = agent.encode(), label.encode()
        return _checked(self._ask("mark", name, len(name), label, len(label)))

    def undo(self, agent, of, count=1):
        """Undoes events of one agent, from the one with the id `of` on, as "ada:4", by new events of an agent. Answers how many."""
        name, first = agent.encode(), of.encode()
        return _checked(self._ask("undo", name, len(name), first, len(first), count))

    def text(self, version=None):
        """The text, or that of a version: the words that `heads` answered once."""
        if version is None:
            return self._found(_checked(self._ask("text"))).decode()
        words = version.encode()
        return self._found(_checked(self._ask("text_at", words, len(words)))).decode()

    def range(self, start, count):
        """So many characters of the text from an index on. All of them have to be there."""
        return self._found(_checked(self._ask("range", start, count))).decode()

    def to_utf16(self, at):
        """How many code units of UTF-16 stand before an index."""
        return _checked(self._ask("to_utf16", at))

    def from_utf16(self, units):
        """The index before which just so many code units of UTF-16 stand. There is none inside a character, nor past the end."""
        return _checked(self._ask("from_utf16", units))

    def to_bytes(self, at):
        """How many bytes of UTF-8 stand before an index."""
        return _checked(self._ask("to_bytes", at))

    def from_bytes(self, count):
        """The index before which just so many bytes of UTF-8 stand. There is none inside a character, nor past the end."""
        return _checked(self._ask("from_bytes", count))

    def heads(self):
        """The version that the document is at now."""
        return self._found(_checked(self._ask("heads"))).decode()

    def save(self):
        """The bytes of an event file."""
        return self._found(_checked(self._ask("save")))

    def ask(self):
        """The bytes of a question for what this document lacks. Send them to a peer."""
        return self._found(_checked(self._ask("ask")))

    def events(self, since):
        """The events from number `since` on, as the bytes that a peer is sent who lacks them."""
        return self._found(_checked(self._ask("events", since)))

    def marks(self):
        """The marks, oldest first: the id and the label of each."""
        return [tuple(line.split(" ")) for line in self._found(_checked(self._ask("marks"))).decode().splitlines()]

    def caret(self, at):
        """The caret at an index of the text, for `caret_index`."""
        return self._found(_checked(self._ask("caret", at))).decode()

    def caret_index(self, caret):
        """The index at which a caret is now, whatever came since."""
        words = caret.encode()
        return _checked(self._ask("caret_index", words, len(words)))

    def blame(self, version="", columns=80):
        """Who inserted which part of the text: lines with an id, a number of characters, and as many of these as fit."""
        words = version.encode()
        return self._found(_checked(self._ask("blame", words, len(words), columns))).decode()

    def receive(self, peer, data):
        """Takes bytes that a peer sent, cut anywhere. Answers the bytes that are to be sent back, or raises `SessionEnded`."""
        peer_at = ctypes.byref(peer._at)
        answer = self._ask("receive", peer._handle(), peer_at, bytes(data), len(data))
        if answer.status != OK:
            ended = SessionEnded(answer.status, answer.number)
            ended.reply = self._found(self._ask("copy", ctypes.create_string_buffer(1), 0))
            raise ended
        return self._found(answer.number)

    def changes(self, since):
        """What the events from number `since` on do to the text: done in turn to the text as it was then, they leave the text."""
        room = _checked(self._ask("changes", since))
        out = (_Change * (room or 1))()
        self._ask("copy_changes", out, room)
        return [self._change(out[i]) for i in range(room)]

    @staticmethod
    def _change(change):
        kind = ("nothing", "insert", "delete")[change.kind]
        return Change(kind, change.at, chr(change.ch) if kind == "insert" else "")
