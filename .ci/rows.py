"""The table of calls that fail: for each command each call of the shelf, the disk, the input and the outputs fails once. And bytes changed.

    rows.py REPOSITORY          compares: the second reader has to give the answer of each row of crates/command_trials/stdin, and
                                the table has to stand at its end, whole
    rows.py REPOSITORY write    writes the table there, with the answers of the second reader, and how many rows each group has

Of each case of CASES the call number k of an object fails, for k from 0 to the number of calls that the case makes, which is the
run in which nothing fails. A store that fails is tried twice: its bytes don't land, and do. A write to the disk that fails is tried with
none, some and all of its bytes. What the journal then holds is told by an export. Behind them come files, journals, frames and scripts
with one byte changed, or cut at each place, and runs of events in files of version 2. The program has no part in it.
"""

import pathlib
import sys
from collections import namedtuple

sys.dont_write_bytecode = True
sys.path[:0] = [str(pathlib.Path(__file__).parent), str(pathlib.Path(__file__).parent.parent / "tools")]

from egw_bytes import DELETE, FALLING, INSERT, MARK, batch, content, content_2, event_bytes, frame, number, record, run, sized  # noqa: E402
from outside import OBJECTS, Reader, Rows, escaped  # noqa: E402

ROOT = pathlib.Path(sys.argv[1])
TRIALS = ROOT / "crates" / "command_trials"
FIRST = "named bytes of the table of calls that fail"
# Groups that the second reader would take hours for.
TOO_LONG = {"one event is merged into a history of a hundred thousand"}

# What a case runs: its title, the words, which named bytes each file has, the input, and what the next run meets besides. NEW in the
# words is a name that no run before has used. The limits are those of the program, or events, waiting, input and body. The journal is
# named bytes, where the line has use for it.
Case = namedtuple("Case", "title words files input more limits journal", defaults=({}, b"", (), "program", None))


def typed(agent, text, position=0):
    """The records of a text that one agent types at the start of a file, or behind so many records."""
    return [record(agent, n, [position + n - 1] if n else [], INSERT, n, ord(ch)) for n, ch in enumerate(text)]


def inserts(agent, seq, parents, at, ch):
    """An insertion in a frame."""
    return event_bytes((agent, seq), parents, INSERT, at, ord(ch))


# Two words typed apart, what comes of them, and files that are refused.
ABC, XYZ = typed(0, "abc"), typed(0, "xyz")
LATER = record(1, 0, [2], INSERT, 3, ord("Q"))
FILES = {
    "empty": content([], []),
    "abc": content([b"a"], ABC),
    "xyz": content([b"b"], XYZ),
    "both": content([b"a", b"b"], ABC + typed(1, "xyz", 3)),
    "abcQ": content([b"a", b"b"], ABC + [LATER]),
    "other_abc": content([b"a"], typed(0, "Abc")),
    "marked": content([b"a", b"b"], [*typed(0, "a"), record(0, 1, [0], MARK, b"m_1"), record(1, 0, [1], INSERT, 1, ord("Q"))]),
    "unreduced": content([b"a", b"b"], [*typed(0, "ab"), record(1, 0, [0, 1], INSERT, 0, ord("X"))]),
    "unlike": bytes(20),
    # All kinds of records, in both versions.
    "kinds": content([b"a", b"b"], [*typed(0, "abcd"), *(record(0, 4 + n, [3 + n], DELETE, at) for n, at in enumerate([3, 2, 0, 0])), record(0, 8, [7], MARK, b"m"), record(1, 0, [8], INSERT, 0, ord("Z"))]),
    "kinds_2": content_2([b"a", b"b"], [run(0, 0, [], INSERT, 0, b"abcd"), run(0, 4, [3], FALLING, 3, 2), run(0, 6, [5], DELETE, 0, 2), run(0, 8, [7], MARK, None, b"m"), run(1, 0, [8], INSERT, 0, b"Z")], 10),
    # The files of version 2 of those above, and what is stored.
    "empty_2": content_2([], [], 0),
    "abc_2": content_2([b"a"], [run(0, 0, [], INSERT, 0, b"abc")], 3),
    "xyz_2": content_2([b"b"], [run(0, 0, [], INSERT, 0, b"xyz")], 3),
    "both_2": content_2([b"a", b"b"], [run(0, 0, [], INSERT, 0, b"abc"), run(1, 0, [], INSERT, 0, b"xyz")], 6),
    "abcQ_2": content_2([b"a", b"b"], [run(0, 0, [], INSERT, 0, b"abc"), run(1, 0, [2], INSERT, 3, b"Q")], 4),
    "abcxy_2": content_2([b"a", b"b"], [run(0, 0, [], INSERT, 0, b"abc"), run(1, 0, [2], INSERT, 3, b"xy")], 5),
    "marked_2": content_2([b"a", b"b"], [run(0, 0, [], INSERT, 0, b"a"), run(0, 1, [0], MARK, None, b"m_1"), run(1, 0, [1], INSERT, 1, b"Q")], 3),
    "ac_2": content_2([b"a", b"b"], [run(0, 0, [], INSERT, 0, b"abc"), run(1, 0, [2], DELETE, 1, 1)], 4),
    "kinds_undone_2": content_2([b"a", b"b"], [run(0, 0, [], INSERT, 0, b"abcd"), run(0, 4, [3], FALLING, 3, 2), run(0, 6, [5], DELETE, 0, 2), run(0, 8, [7], MARK, None, b"m"), run(1, 0, [8], INSERT, 0, b"Zcd")], 12),
    "unreduced_2": content_2([b"a", b"b"], [run(0, 0, [], INSERT, 0, b"ab"), run(1, 0, [0, 1], INSERT, 0, b"X")], 3),
}
# Journals: two words in a batch each, what ends them, and such that are refused.
BATCH_ABC = batch([inserts(b"a", n, [(b"a", n - 1)] if n else [], n, ch) for n, ch in enumerate("abc")])
BATCH_XY = batch([inserts(b"b", 0, [(b"a", 2)], 3, "x"), inserts(b"b", 1, [(b"b", 0)], 4, "y")])
SHUT = bytes(1)
JOURNALS = {
    "none": b"",
    "begun": SHUT,
    "abc": BATCH_ABC + SHUT,
    "abcxy": BATCH_ABC + BATCH_XY + SHUT,
    "torn": BATCH_ABC + SHUT + BATCH_XY[1:9],
    "cut": BATCH_ABC + BATCH_XY[:-1],
    "unready": BATCH_ABC + batch([inserts(b"b", 1, [(b"a", 2)], 3, "x")]) + SHUT,
}
HAVE = frame(1, number(1) + b"\x01a" + number(2))
EVENTS = frame(2, number(1) + inserts(b"b", 0, [(b"a", 2)], 3, "Q"))
MARKS = frame(2, number(2) + event_bytes((b"b", 0), [(b"a", 2)], MARK, b"m-1") + inserts(b"b", 1, [(b"b", 0)], 3, "Q"))
WAITING = frame(2, number(1) + inserts(b"c", 0, [(b"z", 0)], 0, "w"))
CLASH = frame(2, number(1) + inserts(b"a", 0, [], 0, "A"))
BYE = frame(6)
NET = b"peer a\npeer b\nins a 0 abc\npush a b\ndeliver 0\nshow b\nagree\n"
F, FG, F_2 = {"F": "abc"}, {"F": "abc", "G": "xyz"}, {"F": "abc_2"}

# The cases of a command stand together. A command that has none is told.
CASES = [
    Case("new", "new NEW"),
    Case("new, where the file is there", "new F", F),
    Case("edit", "edit F --agent b", F, b"ins 3 Q"),
    Case("edit, in pieces", "edit F --agent b", F, b"\nins 3 Q\n", ("slow 4", "piece 3")),
    Case("edit of a file of version 2", "edit F --agent b", F_2, b"ins 3 Q"),
    Case("edit of a file of version 2, of no events", "edit F --agent b", F_2, b"del 3 0"),
    Case("edit of no events", "edit F --agent b", F, b"del 3 0"),
    Case("edit of no lines", "edit F --agent b", F),
    Case("edit by a line that is unreadable", "edit F --agent b", F, b"ins 0 x\nins 00 x"),
    Case("edit by a line that is out of range", "edit F --agent b", F, b"ins 0 x\nins 9 x"),
    Case("edit past the limit of events", "edit F --agent b", F, b"ins 0 x", (), "3 1 64 668"),
    Case("edit past the limit of the input", "edit F --agent b", F, b"ins 0 " + b"x" * 60, (), "3 1 64 668"),
    Case("edit of no file", "edit F --agent b", {}, b"ins 3 Q"),
    Case("cat", "cat F", F),
    Case("cat of a file of version 2", "cat F", {"F": "kinds_2"}),
    Case("cat, in pieces", "cat F", F, b"", ("piece 1",)),
    Case("cat of no events", "cat F", {"F": "empty"}),
    Case("cat of no file", "cat F"),
    Case("cat of a file with a bad event", "cat F", {"F": "unreduced"}),
    Case("cat of a file of version 2 with a bad event", "cat F", {"F": "unreduced_2"}),
    Case("cat at a version", "cat F --at a:1", F),
    Case("cat of a file of version 2 at a version", "cat F --at a:5", {"F": "kinds_2"}),
    Case("cat at a version that is unknown", "cat F --at a:1,z:9", F),
    Case("heads", "heads F", FG | {"F": "both"}),
    Case("heads of a file of version 2", "heads F", {"F": "kinds_2"}),
    Case("heads, in pieces", "heads F", {"F": "both"}, b"", ("piece 3",)),
    Case("log", "log F", F),
    Case("log of a file of version 2", "log F", {"F": "kinds_2"}),
    Case("log, in pieces", "log F", F, b"", ("piece 16",)),
    Case("marks", "marks F", {"F": "marked"}),
    Case("marks of a file of version 2", "marks F", {"F": "kinds_2"}),
    Case("marks, in pieces", "marks F", {"F": "marked"}, b"", ("piece 3",)),
    Case("marks of no marks", "marks F", F),
    Case("marks of no file", "marks F"),
    Case("replay", "replay F", F),
    Case("replay of a file of version 2", "replay F", {"F": "kinds_2"}),
    Case("replay, in pieces", "replay F", F, b"", ("piece 8",)),
    Case("check", "check F", F),
    Case("check of a file of version 2", "check F", {"F": "kinds_2"}),
    Case("check, in pieces", "check F", F, b"", ("piece 11",)),
    Case("ask", "ask F", F),
    Case("ask of a file of version 2", "ask F", {"F": "kinds_2"}),
    Case("ask, in pieces", "ask F", F, b"", ("piece 4",)),
    Case("merge", "merge F G", FG),
    Case("merge of version 2", "merge F G", {"F": "abc_2", "G": "xyz_2"}),
    Case("merge of version 2 into version 1", "merge F G", {"F": "abc", "G": "xyz_2"}),
    Case("merge of version 1 into version 2", "merge F G", {"F": "abc_2", "G": "xyz"}),
    Case("merge of repeats in the other version", "merge F G", {"F": "both", "G": "abc_2"}),
    Case("merge, in pieces", "merge F G", FG, b"", ("piece 9",)),
    Case("merge of repeats", "merge F G", {"F": "both", "G": "xyz"}),
    Case("merge with itself", "merge F F", F),
    Case("merge that meets a clash", "merge F G", {"F": "abc", "G": "other_abc"}),
    Case("merge with no file", "merge F G", F),
    Case("merge with a file that is none", "merge F G", {"F": "abc", "G": "unlike"}),
    Case("merge past the limit of events", "merge F G", FG, b"", (), "5 1 64 668"),
    Case("serve: what is lacking", "serve F", F, HAVE),
    Case("serve: events, up to the end of the input", "serve F", F, EVENTS),
    Case("serve: events, and a Bye", "serve F", F, EVENTS + BYE),
    Case("serve: events, and a Bye, to a file of version 2", "serve F", F_2, EVENTS + BYE),
    Case("serve: what is lacking of a file of version 2", "serve F", {"F": "kinds_2"}, HAVE),
    Case("serve: repeats, to a file of version 2", "serve F", {"F": "abcQ_2"}, EVENTS + BYE),
    Case("serve: events and more, in pieces", "serve F", F, HAVE + EVENTS + HAVE + BYE, ("slow 9", "piece 13")),
    Case("serve: events that wait", "serve F", F, WAITING + BYE),
    Case("serve: repeats", "serve F", {"F": "abcQ"}, EVENTS + BYE),
    Case("serve: a clash", "serve F", F, EVENTS + CLASH),
    Case("serve: a clash that is told", "serve F", F, frame(5, b"\x01z" + number(9))),
    Case("serve: a frame that is cut", "serve F", F, EVENTS + BYE[:4]),
    Case("serve: a frame of no kind", "serve F", F, EVENTS + b"\x07"),
    Case("serve: no frames", "serve F", F),
    Case("serve past the limit of the input", "serve F", F, EVENTS + BYE, (), "8 1 33 668"),
    Case("serve of no file", "serve F", {}, EVENTS),
    Case("upgrade", "upgrade F", F),
    Case("upgrade of a file of version 2", "upgrade F", F_2),
    Case("upgrade, in pieces", "upgrade F", F, b"", ("piece 7",)),
    Case("upgrade of no events", "upgrade F", {"F": "empty"}),
    Case("upgrade of all kinds", "upgrade F", {"F": "kinds"}),
    Case("upgrade of no file", "upgrade F"),
    Case("upgrade of a file that is none", "upgrade F", {"F": "unlike"}),
    Case("upgrade of a file with a bad event", "upgrade F", {"F": "unreduced"}),
    Case("upgrade past the limit of events", "upgrade F", F, b"", (), "2 1 64 668"),
    Case("undo", "undo F --agent b --of a:1 --count 1", F),
    Case("undo of a file of version 2", "undo F --agent b --of a:4 --count 2", {"F": "kinds_2"}),
    Case("undo, in pieces", "undo F --agent b --of a:1 --count 1", F, b"", ("piece 3",)),
    Case("undo of nothing", "undo F --agent b --of a:1 --count 1", {"F": "marked"}),
    Case("undo of an event that is lacking", "undo F --agent b --of a:1 --count 3", F),
    Case("undo past the limit of events", "undo F --agent b --of a:1 --count 1", F, b"", (), "3 1 64 668"),
    Case("undo of no file", "undo F --agent b --of a:1 --count 1"),
    Case("undo of a file with a bad event", "undo F --agent b --of a:0 --count 1", {"F": "unreduced"}),
    Case("caret", "caret F --at a:2 --index 3", {"F": "both"}),
    Case("caret of a file of version 2", "caret F --at a:3 --index 2", {"F": "kinds_2"}),
    Case("caret, in pieces", "caret F --at a:2 --index 3", {"F": "both"}, b"", ("piece 1",)),
    Case("caret at a version that is unknown", "caret F --at a:1,z:9 --index 0", F),
    Case("caret behind the end", "caret F --at a:1 --index 3", F),
    Case("caret of no file", "caret F --at a:1 --index 0"),
    Case("blame", "blame F --columns 2", {"F": "both"}),
    Case("blame of a file of version 2", "blame F --columns 80 --at a:5", {"F": "kinds_2"}),
    Case("blame, in pieces", "blame F --columns 2", {"F": "both"}, b"", ("piece 4",)),
    Case("blame of no events", "blame F --columns 80", {"F": "empty"}),
    Case("blame at a version that is unknown", "blame F --columns 80 --at a:1,z:9", F),
    Case("blame of no file", "blame F --columns 80"),
    Case("net", "net", {}, NET),
    Case("net, in pieces", "net", {}, NET, ("slow 9", "piece 20")),
    Case("net of no lines", "net"),
    Case("net by a line that is unreadable", "net", {}, b"deliver 0\nagree "),
    Case("net by a line that is refused", "net", {}, b"peer a\nins a 0 x\nshow b\n"),
    Case("net past the limit of events", "net", {}, b"peer a\nins a 0 abc\nins a 0 x\n", (), "3 1 64 668"),
    Case("net past the limit of the input", "net", {}, b"peer a\n" + b"agree\n" * 10, (), "3 1 64 668"),
    Case("watch", "watch --agent b", {}, b"ins 3 Q\ndel 0 0\n\nins 0 RS\n", journal="abc"),
    Case("watch, in pieces", "watch --agent b", {}, b"ins 3 Q\nmark m\n", ("slow 4", "piece 3"), journal="abcxy"),
    Case("watch over no journal", "watch --agent a", {}, b"ins 0 ab\n", journal="none"),
    Case("watch over a journal without a batch", "watch --agent a", {}, b"ins 0 a\n", journal="begun"),
    Case("watch over the rest of a torn batch", "watch --agent a", {}, b"ins 0 a\n", journal="torn"),
    Case("watch of a line of three batches", "watch --agent a", {}, b"ins 0 abcde\ndel 0 1\n", (), "9 1 64 1332", "none"),
    Case("watch of no lines", "watch --agent b", journal="abc"),
    Case("watch of lines that make no events", "watch --agent b", {}, b"ins 0 \ndel 3 0\n", journal="none"),
    Case("watch of a line that is unreadable", "watch --agent b", {}, b"ins 0 x\nins 00 x", journal="abc"),
    Case("watch of a line that is out of range", "watch --agent b", {}, b"ins 0 x\nins 9 x\nins 0 y", journal="abc"),
    Case("watch past the limit of events", "watch --agent b", {}, b"ins 0 x\nins 0 yz", (), "5 1 64 2000", "abc"),
    Case("watch past the limit of the input", "watch --agent b", {}, b"ins 0 " + b"x" * 60, (), "9 1 64 2000", "abc"),
    Case("watch over a journal that is cut", "watch --agent b", {}, b"ins 0 x", journal="cut"),
    Case("watch over a journal with a bad event", "watch --agent b", {}, b"ins 0 x", journal="unready"),
    Case("watch over a journal past the limit of events", "watch --agent b", {}, b"ins 0 x", (), "4 1 64 2000", "abcxy"),
    Case("export", "export NEW", journal="abcxy"),
    Case("export of no journal", "export NEW", journal="none"),
    Case("export, where the file is there", "export F", F, journal="none"),
    Case("export of a journal that is cut", "export NEW", journal="cut"),
    Case("export of a journal with a bad event", "export NEW", journal="unready"),
    Case("export of a journal past the limit of events", "export NEW", {}, b"", (), "4 1 64 2000", "abcxy"),
    Case("make", "make --seed 7 --count 3"),
    Case("make, in pieces", "make --seed 7 --count 3", {}, b"", ("piece 9",)),
    Case("make of no events", "make --seed 18446744073709551615 --count 0"),
    Case("make past the limit of events", "make --seed 1 --count 6", {}, b"", (), "3 1 64 668"),
    Case("make of a number that is too great", "make --seed 7 --count 1000001"),
    Case("words that are not taken", "cat F G", F),
    Case("an error text, in pieces", "cat G", F, b"", ("err_piece 7",)),
    Case("a clash that is told, in pieces", "serve F", F, EVENTS + CLASH, ("err_piece 7", "piece 11")),
]

# Lines that are tried with each room up to the one that is enough.
ROOMED = [Case("cat", "cat F", F), Case("merge", "merge F G", FG), Case("serve", "serve F", F, EVENTS + BYE), Case("watch", "watch --agent b", {}, b"ins 3 Q\nins 0 RS\n", journal="abc")]

# A change of one byte of the file of one letter, and what has to be told of it: worked out by hand.
CHANGES = [
    (12, 0, "byte 12: bad name"), (13, 0x20, "byte 12: bad name"), (8, 2, "byte 14: bad name"), (18, 1, "byte 18: agent number"),
    (26, 17, "byte 26: parent count"), (26, 1, "byte 27: parent position"), (14, 2, "byte 36: cut"), (14, 0, "byte 18: trailing bytes"),
    (33, 0xD8, "byte 32: scalar"), (27, 3, "byte 27: kind"), (27, 2, "byte 28: bad name"), (31, 1, "event 0: out of range, length 0"),
    (22, 1, "event 0: skipped"), (7, 2, "byte 32: run length"), (7, 3, "version 3"), (7, 0, "version 0"), (0, 0x65, "not an event file"), (8, 0, "byte 16: agent number"),
]

# The same of the file of version 2 of three letters, with another field of four bytes, or another kind: as docs/FORMATS.md has them.
CHANGES_2 = [
    (32, 0, "byte 32: run length"), (32, 4, "byte 32: run length"), (32, 2, "byte 44: agent number"), (14, 2, "byte 32: run length"), (14, 4, "byte 48: cut"),
    (28, 4294967293, "event 0: out of range, length 0"), (28, 4294967294, "byte 32: run length"), (28, 4294967295, "byte 32: run length"),
    (22, 4294967293, "event 0: skipped"), (22, 4294967294, "byte 32: run length"), (22, 4294967295, "byte 32: run length"), (40, 0xD800, "byte 40: scalar"),
    (36, 0x110000, "byte 36: scalar"), (32, 4294967295, "byte 32: run length"), (18, 1, "byte 18: agent number"), (14, 0, "byte 18: trailing bytes"),
]
KINDS_2 = [(4, "byte 27: kind"), (3, "byte 32: run length"), (2, "byte 28: bad name"), (1, "byte 36: trailing bytes")]

# Deletions of `a` in two records, the first without parents and the second on its last event: of each the kind, the first index, the length
# and the number; and what is found, as docs/FORMATS.md has it. What is read has a deletion from no text.
READ = "event 0: out of range, length 0"
DELETIONS = [
    ((1, 5, 1, 0), (1, 4, 1, 1), "byte 50: run join"), ((1, 5, 1, 0), (3, 4, 2, 1), "byte 50: run join"), ((1, 5, 1, 0), (3, 5, 2, 1), "byte 50: run join"),
    ((1, 5, 2, 0), (1, 4, 1, 2), READ), ((3, 5, 2, 0), (1, 3, 1, 2), "byte 50: run join"), ((3, 5, 2, 0), (1, 4, 1, 2), READ),
    ((1, 5, 1, 0), (1, 5, 1, 0), "byte 40: id twice"), ((1, 5, 1, 2), (1, 5, 3, 0), "byte 54: id twice"), ((1, 5, 1, 2), (1, 5, 2, 0), "event 0: skipped"),
    ((1, 5, 1, 2), (3, 5, 3, 0), "byte 54: id twice"), ((3, 9, 4, 3), (1, 9, 3, 0), "event 0: skipped"), ((3, 9, 4, 3), (1, 9, 4, 0), "byte 54: id twice"),
    ((3, 9, 4, 3), (1, 9, 9, 0), "byte 54: id twice"), ((3, 9, 4, 3), (1, 9, 1, 6), "byte 40: id twice"), ((3, 9, 4, 3), (1, 9, 1, 8), "event 0: skipped"),
    ((1, 0, 1, 4294967295), (1, 0, 1, 0), "event 0: skipped"), ((1, 0, 2, 4294967294), (1, 1, 2, 4294967293), "byte 54: id twice"), ((1, 0, 1, 0), (1, 0, 2, 4294967295), "byte 54: run length"),
    ((1, 4294967295, 2, 0), (1, 4294967294, 1, 2), READ), ((3, 4294967295, 2, 0), (1, 4294967293, 1, 2), "byte 50: run join"), ((1, 0, 1, 0), (3, 0, 2, 4), "byte 54: run length"),
    ((1, 0, 1, 0), (3, 1, 2, 4), READ), ((1, 0, 1, 0), (3, 2, 4, 4), "byte 54: run length"), ((3, 1, 2, 0), (1, 0, 1, 2), READ), ((1, 0, 1, 0), (1, 0, 1, 1), "byte 50: run join"),
]

# Runs behind thirty letters of `a`, by the agent `b`: each kind, of one event and of two, from the index 10 on.
ENDS = [(INSERT, b"X"), (INSERT, b"XY"), (DELETE, 1), (DELETE, 2), (FALLING, 2), (MARK, b"m")]


def spelled(data):
    """Bytes in a row that has no answer: a space at the end is spelled out."""
    text = escaped(data)
    return text[:-1] + "%20" if text.endswith(" ") else text


class Table:
    """The rows of the table, with the answers of the second reader."""

    def __init__(self, reader):
        self.rows, self.groups, self.fresh = Rows(reader), [], 0

    def begin(self, limits, title):
        self.rows.begin(limits)
        self.groups.append([f"{limits}: {title}"])

    def ready(self, row):
        assert self.rows.make_ready(row), row
        self.groups[-1].append(row)

    def ask(self, asked):
        self.groups[-1].append(f"{asked} = {self.rows.answer(asked)}")

    def name_files(self):
        self.begin("program", FIRST)
        for name, data in FILES.items():
            self.ready(f"bytes {name}_undigested {spelled(data)}")
            self.ready(f"sealed {name}_file {name}_undigested")
        for name, data in JOURNALS.items():
            self.ready(f"bytes {name}_journal {spelled(data)}".rstrip(" "))

    def run(self, case, *settings):
        """A run of a case, and all that is asked of it."""
        words = case.words.replace("NEW", f"N{self.fresh}")
        self.fresh += 1
        for file, name in case.files.items():
            self.ready(f"file {file} {name}_file")
        if case.journal:
            self.ready(f"journal {case.journal}_journal")
        for row in [*case.more, *settings, *([f"in {spelled(case.input)}"] if case.input else [])]:
            self.ready(row)
        self.ask(f"run {words}")
        self.made = dict(self.rows.outside.made), self.rows.outside.stores, self.rows.outside.writes
        self.ask("calls")
        self.printed = len(self.rows.outside.taken["out"])
        if self.printed:
            self.ask("flushed")
        named = {data: name for name, data in self.rows.bytes.items() if name.endswith("_file")}
        for file in case.files or [word for word in words.split(" ")[1:] if word[0] in "NFG"]:
            found = self.rows.outside.files.get(file, self.rows.bytes["empty_file"])
            self.ask(f"same {file} {named[found]}")
        if case.journal:
            self.ask(f"kept {case.journal}_journal")
            self.show_journal()

    def show_journal(self):
        """What the journal holds, shown by an export."""
        self.ask(f"run export J{self.fresh}")
        if f"J{self.fresh}" in self.rows.outside.files:
            self.ask(f"run log J{self.fresh}")

    def add(self, case):
        """All rows of a case: each call fails, and then none of them. Nothing tells that number of the error output's calls."""
        self.begin(case.limits, f"each call fails: {case.title}")
        self.run(case)
        made, stores, writes = self.made
        for what in OBJECTS:
            for k in range(made[what] + 1):
                self.run(case, f"fail {what} {k}")
                if what == "shelf" and k in stores:
                    self.run(case, f"fail {what} {k}", f"land {k}")
                if what == "disk" and k in writes:
                    for tear in sorted({1, writes[k] // 2, writes[k]} - {0}):
                        self.run(case, f"fail {what} {k}", f"tear {tear}")

    def file_bytes(self, name, data, asked="cat F"):
        """A file of these bytes, with their digest behind them."""
        self.ready(f"bytes {name} {spelled(data)}")
        self.ready(f"sealed {name}_digested {name}")
        self.ready(f"file F {name}_digested")
        self.ask(f"run {asked}")

    def add_rooms(self):
        """Outputs that have room for less than what is printed, up to one that has enough."""
        for case in ROOMED:
            self.begin("program", f"an output without room: {case.title}")
            self.run(case)
            for room in range(self.printed + 1):
                self.run(case, f"room {room}")

    def add_changes(self):
        """Files with one byte changed, each with its digest; first those whose faults were worked out by hand."""
        letter = content([b"a"], typed(0, "a"))
        self.begin("program", "a file with one byte changed, as worked out by hand")
        for place, value, fault in CHANGES:
            self.file_bytes("changed", letter[:place] + number(value, 1) + letter[place + 1 :])
            assert self.groups[-1][-1] == f"run cat F = 4 err egw: F: {fault}%0a", (place, self.groups[-1][-1])
        self.file_bytes("changed", content([b"a"], []))
        assert self.groups[-1][-1].endswith("byte 18: unused agent%0a")
        marked = FILES["marked"]
        self.begin("program", "a file with a mark, and with each byte made 255 in turn")
        for place in range(len(marked)):
            self.file_bytes("changed", marked[:place] + b"\xff" + marked[place + 1 :], "check F")

    def add_cuts(self):
        """The file of three letters cut at each place, and one with a mark so and with its digest right again."""
        whole, marked = self.rows.bytes["abc_file"], self.rows.bytes["marked_undigested"]
        self.begin("program", "a file that is cut at each place")
        for size in range(len(whole)):
            self.ready(f"front cut abc_file {size}")
            self.ready("file F cut")
            self.ask("run cat F")
        self.begin("program", "a file with a mark that is cut at each place, with a digest behind it")
        for size in range(16, len(marked)):
            self.ready(f"front cut marked_undigested {size}")
            self.ready("sealed cut_digested cut")
            self.ready("file F cut_digested")
            self.ask("run cat F")

    def add_changes_2(self):
        """The same of files of version 2: changed as the page has them, two records of deletions, and all kinds with each byte changed."""
        abc, kinds, magic = FILES["abc_2"], FILES["kinds_2"], FILES["empty_2"][:8]
        self.begin("program", "a file of version 2, changed as the page has it")
        for place, value, fault in CHANGES_2:
            self.faulty(abc[:place] + number(value) + abc[place + 4 :], fault)
        for kind, fault in KINDS_2:
            self.faulty(abc[:27] + number(kind, 1) + abc[28:], fault)
        self.faulty(abc[:32] + number(1) + abc[36:40] + run(0, 1, [0], INSERT, 1, b"bc"), "byte 54: run join")
        self.faulty(abc[:7] + b"\1" + abc[8:], "byte 36: agent number")
        self.faulty(abc[:7] + b"\3" + abc[8:], "version 3")
        self.faulty(magic + number(1) + sized(b"a") + number(0), "byte 18: unused agent")
        self.faulty(content([b"a"], [*typed(0, "a"), record(0, 1, [0], FALLING, 0)]), "byte 49: kind")
        self.begin("program", "two records of deletions in a file of version 2")
        for one, other, fault in DELETIONS:
            records = [run(0, seq, parents, kind, at, length) for (kind, at, length, seq), parents in ((one, []), (other, [one[2] - 1]))]
            self.faulty(content_2([b"a"], records, one[2] + other[2]), fault)
        self.faulty(content_2([b"a"], [run(0, 2, [], 1, 5, 1), run(0, 0, [0], 1, 5, 4)], 4), "byte 54: run length")
        self.faulty(content_2([b"a"], [run(0, 0, [], 1, 5, 2), run(0, 2, [2], 1, 4, 1)], 3), "byte 45: parent position")
        self.faulty(content_2([b"a"], [run(0, 0, [], FALLING, 5, 1)], 1), "byte 32: run length")
        self.faulty(content_2([b"a"], [run(0, 0, [], FALLING, 1, 3)], 3), "byte 32: run length")
        self.faulty(content_2([b"a"], [run(0, 0, [], FALLING, 1, 2)], 2), READ)
        for value in (255, 1):
            self.begin("program", f"a file of version 2 with all kinds, and with {'each byte made 255' if value == 255 else 'one added to each byte'} in turn")
            for place, byte in enumerate(kinds):
                changed = value if value == 255 else (byte + 1) % 256
                self.file_bytes("changed", kinds[:place] + number(changed, 1) + kinds[place + 1 :], "check F")
        self.begin("program", "a file of version 2 with all kinds that is cut at each place, with a digest behind it")
        for size in range(16, len(kinds)):
            self.ready(f"front cut kinds_2_undigested {size}")
            self.ready("sealed cut_digested cut")
            self.ready("file F cut_digested")
            self.ask("run cat F")

    def faulty(self, data, fault):
        """A file of these bytes, whose fault was worked out by hand."""
        self.file_bytes("changed", data)
        assert self.groups[-1][-1] == f"run cat F = 4 err egw: F: {fault}%0a", (fault, self.groups[-1][-1])

    def add_boundaries(self):
        """Two runs in a record of each, with a step between them: those that are one run are told. Then what parts such runs otherwise."""
        letters = run(0, 0, [], INSERT, 0, b"abcdefghijklmnopqrstuvwxyzABCD")
        self.begin("program", "two records of version 2 that are one run, or two")
        joined = []
        for kind, what in ENDS:
            size = 1 if kind == MARK else what if isinstance(what, int) else len(what)
            last = 10 + (size - 1) * {INSERT: 1, FALLING: -1}.get(kind, 0)
            for other, more in ENDS:
                for step in (-1, 0, 1) if MARK not in (kind, other) else (0,):
                    count = 30 + size + (1 if other == MARK else more if isinstance(more, int) else len(more))
                    first = run(1, 0, [29], kind, 10, what)
                    self.file_bytes("pair", content_2([b"a", b"b"], [letters, first, run(1, size, [29 + size], other, last + step, more)], count), "check F")
                    if "run join" in self.groups[-1][-1]:
                        joined.append((first, size, other, last + step, more, count))
        assert len(joined) == 2 * 2 + 3 * 2 + 3 + 3, len(joined)
        self.begin("program", "two records of version 2 that another agent, number or parents part")
        for first, size, other, at, more, count in joined:
            for agent, seq, parents in ((0, 30, [29 + size]), (2, 0, [29 + size]), (1, size + 1, [29 + size]), (1, size, []), (1, size, [29]), (1, size, [28 + size]), (1, size, [29, 29 + size])):
                names = [b"a", b"b", b"c"][: 3 if agent == 2 else 2]
                self.file_bytes("pair", content_2(names, [letters, first, run(agent, seq, parents, other, at, more)], count), "check F")

    def add_upgrades(self):
        """Each good file in version 1 is upgraded twice: the second time nothing is stored, and each text stays."""
        self.begin("program", "upgrade twice")
        for name in FILES:
            if f"{name}_2" not in FILES:
                continue
            self.ready(f"file F {name}_file")
            for asked in ("run cat F", "run log F", "run upgrade F", "calls", f"same F {name}_2_file", "run upgrade F", "calls", f"same F {name}_2_file", "run log F", "run cat F"):
                self.ask(asked)

    def add_inputs(self):
        """Frames and scripts with each byte made 255, and cut at each place. Where the status isn't 0 the file stays as it was."""
        script, net = b"del 0 1\nins 2 Q\\n", b"peer a\nins a 0 x\\n\nsend a a 0 1\ndeliver 0\nshow a"
        inputs = ("an Events frame with a mark", "serve F", MARKS), ("a Have", "serve F", HAVE), ("a script", "edit F --agent b", script), ("a net script", "net", net)
        for title, words, data in inputs:
            changed = [data[:place] + b"\xff" + data[place + 1 :] for place in range(len(data))]
            for how, givens in (("with each byte made 255", changed), ("that is cut at each place", [data[:size] for size in range(1, len(data))])):
                self.begin("program", f"{title} {how}")
                for given in givens:
                    self.ready("file F abc_file")
                    self.ready(f"in {spelled(given)}")
                    self.ask(f"run {words}")
                    self.ask("same F abc_file")

    def add_journals(self):
        """A journal with each byte made 255, with one added to each byte, and cut at each place: what an export finds."""
        whole = JOURNALS["abcxy"]
        for how, journals in (
            ("with each byte made 255", [whole[:place] + b"\xff" + whole[place + 1 :] for place in range(len(whole))]),
            ("with one added to each byte", [whole[:place] + number((whole[place] + 1) % 256, 1) + whole[place + 1 :] for place in range(len(whole))]),
            ("that is cut at each place", [whole[:size] for size in range(len(whole))]),
        ):
            self.begin("program", f"a journal {how}")
            for journal in journals:
                self.fresh += 1
                self.ready(f"bytes changed_journal {spelled(journal)}".rstrip(" "))
                self.ready("journal changed_journal")
                self.show_journal()

    def text(self):
        return "\n\n".join("\n".join(group) for group in self.groups) + "\n"


def make_table(reader):
    table = Table(reader)
    table.name_files()
    for case in CASES:
        table.add(case)
    table.add_rooms()
    table.add_changes()
    table.add_cuts()
    table.add_changes_2()
    table.add_boundaries()
    table.add_upgrades()
    table.add_inputs()
    table.add_journals()
    return table.text()


def counts_of(text):
    """What the program has to print of groups in which no row differs."""
    told = []
    for group in text.rstrip("\n").split("\n\n"):
        head, *rows = group.split("\n")
        told.append(f"{head.split(': ', 1)[1]}: {sum(' =' in row for row in rows)}\n")
    return "".join(told)


def compare(reader, text):
    """Carries out all rows of a text; gives how many, and the rows that the second reader answers otherwise."""
    rows, count, wrong = Rows(reader), 0, []
    for group in text.rstrip("\n").split("\n\n"):
        head, *asked = group.split("\n")
        kind, title = head.split(": ", 1)
        if title in TOO_LONG:
            continue
        rows.begin(kind)
        for row in asked:
            if not rows.make_ready(row):
                asking, _, wanted = row.partition(" =")
                count += 1
                answer = rows.answer(asking)
                if answer != wanted.removeprefix(" "):
                    wrong.append(f"{row}\n   the second reader: {answer}")
    return count, wrong


def main():
    writes = sys.argv[2:] == ["write"]
    reader = Reader(ROOT / "tools" / "second_reader.py")
    text = (TRIALS / "stdin").read_text()
    by_hand, _, _ = text.partition(f"program: {FIRST}\n")
    table = make_table(reader)
    whole = by_hand.rstrip("\n") + "\n\n" + table
    if writes:
        (TRIALS / "stdin").write_text(whole)
        (TRIALS / "stdout").write_text(counts_of(whole))
        return 0
    count, wrong = compare(reader, text)
    if text != whole:
        wrong.append("the table of calls that fail isn't the one that .ci/rows.py writes")
    if (TRIALS / "stdout").read_text() != counts_of(text):
        wrong.append("the numbers of rows in crates/command_trials/stdout are others")
    lacking = sorted(set(reader.code.COMMANDS) - {case.words.split(" ")[0] for case in CASES})
    if lacking:
        wrong.append(f"the table has no case of {', '.join(lacking)}")
    for told in wrong:
        print(told)
    in_table = sum(" =" in row for row in table.split("\n"))
    runs = sum(row.startswith("run ") for row in table.split("\n"))
    print(f"the rows of command lines: {count} compared with the second reader, {in_table} of them made by rule: {len(CASES)} cases, {runs} runs")
    return 1 if wrong else 0


if __name__ == "__main__":
    sys.exit(main())
