"""Random sessions of three documents through the class for Python: what is shown by the changes is the text at each step, parts of it and
its indices in UTF-16 and in bytes are as Python counts them, and the second reader finds the same text, changes, marks, carets and blame
in the saved bytes, and undoes the same.

    library.py SECOND_READER [STEPS]
"""

import ctypes
import os
import random
import subprocess
import sys
import tempfile

sys.path.insert(0, os.path.join(os.path.dirname(os.path.abspath(__file__)), "..", "bindings", "python"))
from egw import Document, Peer, Refused, SessionEnded  # noqa: E402

LETTERS = "ab \n\\é€🍵"


class Editor:
    """A document, with the characters that its user sees."""

    def __init__(self, name):
        self.name, self.document, self.shown, self.count, self.pushed = name, Document(), [], 0, 0

    def type(self, draw):
        kind = draw.randrange(40)
        if kind == 0:
            self.document.mark(self.name, draw.choice(("tea", "noon")))
            self.catch_up()
        elif kind == 1 and self.document.count():
            agent = draw.choice(("ada", "bob", "eve"))
            try:
                self.document.undo(self.name, f"{agent}:{draw.randrange(20)}", draw.randrange(1, 6))
            except Refused as fault:
                assert fault.status == "unknown event", fault
            self.catch_up()
        elif self.shown and draw.randrange(3) == 0:
            at = draw.randrange(len(self.shown))
            many = min(draw.randrange(1, 4), len(self.shown) - at)
            del self.shown[at : at + many]
            self.count += self.document.delete(self.name, at, many)
        else:
            at = draw.randrange(len(self.shown) + 1)
            text = "".join(draw.choice(LETTERS) for _ in range(draw.randrange(1, 5)))
            self.shown[at:at] = text
            self.count += self.document.insert(self.name, at, text)

    def catch_up(self):
        changes = self.document.changes(self.count)
        for change in changes:
            change.done_to(self.shown)
        self.count += len(changes)

    def hear(self, peer, data, draw):
        """Takes bytes in drawn pieces, and answers what is to be sent back."""
        reply = b""
        while data:
            cut = draw.randrange(1, 40)
            reply += self.document.receive(peer, data[:cut])
            data = data[cut:]
            self.catch_up()
        return reply

    def push(self, other, draw):
        """Hands another what came in here since it was pushed last. What it isn't ready for waits there."""
        with Peer() as there:
            other.hear(there, self.document.events(self.pushed), draw)
        self.pushed = self.document.count()

    def fetch(self, other, draw):
        """Asks the other for what this one lacks. Each side has a peer for the connection."""
        with Peer() as there, Peer() as here:
            answer = other.hear(there, self.document.ask(), draw)
            other.hear(there, self.hear(here, answer, draw), draw)


def bounds(characters, code):
    """What stands before each index of a text, in units of a code: as Python writes the characters."""
    size = 2 if code == "utf-16-le" else 1
    places = [0]
    for ch in characters:
        places.append(places[-1] + len(ch.encode(code)) // size)
    return places


def counted(document, characters):
    """Each index, and each place that is none, as Python counts them."""
    length = len(characters)
    ways = (("utf-16-le", document.to_utf16, document.from_utf16), ("utf-8", document.to_bytes, document.from_bytes))
    for code, there, back in ways:
        places = bounds(characters, code)
        assert [there(at) for at in range(length + 1)] == places
        refused(lambda: there(length + 1), "out of range", length)
        refused(lambda: there(2**32 - 1), "out of range", length)
        index = {much: at for at, much in enumerate(places)}
        for much in range(places[-1] + 3):
            if much in index:
                assert back(much) == index[much], (code, much)
            else:
                refused(lambda: back(much), "no index", 0)
        refused(lambda: back(2**64 - 1), "no index", 0)


def cut(document, characters, draw):
    """A drawn part of the text, and one that goes past its end."""
    length = len(characters)
    start = draw.randrange(length + 1)
    count = draw.randrange(length - start + 1)
    assert document.range(start, count) == "".join(characters[start : start + count]), (start, count)
    assert document.range(0, length) == "".join(characters)
    assert document.range(length, 0) == ""
    assert document.range(start, 0) == ""
    over = draw.choice((length - start + 1, 2**32 - 1))
    refused(lambda: document.range(start, over), "out of range", length)
    refused(lambda: document.range(length + 1, 0), "out of range", length)
    refused(lambda: document.range(2**32 - 1, 2**32 - 1), "out of range", length)


def second(reader, command, file, *words):
    return subprocess.run([sys.executable, reader, command, file, *words], check=True, stdout=subprocess.PIPE).stdout.decode()


def lines_of(changes):
    spell = {"\n": "\\n", "\\": "\\\\"}
    for change in changes:
        if change.kind == "insert":
            yield f"ins {change.at} {spell.get(change.ch, change.ch)}\n"
        else:
            yield f"del {change.at}\n" if change.kind == "delete" else "nothing\n"


def refused(call, status, number):
    try:
        call()
    except Refused as fault:
        assert (fault.status, fault.number) == (status, number), (fault.status, fault.number)
        return
    raise AssertionError(f"not refused: {status}")


def refusals(editor):
    """Each refusal, with its number; and nothing is changed by any."""
    document, text, length = editor.document, editor.document.text(), len(editor.document)
    refused(lambda: document.insert("ada", length + 1, "x"), "out of range", length)
    refused(lambda: document.delete("ada", length, 1), "out of range", length)
    refused(lambda: document.insert("", 0, "x"), "empty name", 0)
    refused(lambda: document.insert("x" * 33, 0, "x"), "long name", 0)
    refused(lambda: document.insert("a b", 0, "x"), "bad name", 1)
    refused(lambda: document.changes(document.count() + 1), "out of range", document.count())
    refused(lambda: document.text("no version"), "no version", 0)
    refused(lambda: document.text("zoe:7"), "unknown event", 0)
    refused(lambda: document.text(document.heads() + ",zoe:7"), "unknown event", document.heads().count(",") + 1)
    refused(lambda: document.blame("zoe:7"), "unknown event", 0)
    refused(lambda: document.blame("no version"), "no version", 0)
    refused(lambda: document.mark("ada", ""), "empty label", 0)
    refused(lambda: document.mark("ada", "x" * 33), "long label", 0)
    refused(lambda: document.mark("ada", "a b"), "bad label", 1)
    refused(lambda: document.mark("a b", "a b"), "bad name", 1)
    refused(lambda: document.undo("ada", "root", 1), "no id", 0)
    refused(lambda: document.undo("ada", "ada:0,bob:0", 1), "no id", 0)
    refused(lambda: document.undo("ada", "zoe:7", 1), "unknown event", 7)
    refused(lambda: document.undo("", "zoe:7", 1), "empty name", 0)
    refused(lambda: document.events(document.count() + 1), "out of range", document.count())
    refused(lambda: document.caret(length + 1), "out of range", length)
    refused(lambda: document.caret_index("zoe:7"), "unknown event", 0)
    refused(lambda: document.caret_index("ada:0,bob:0"), "no caret", 0)
    refused(lambda: document.caret_index("caret"), "no version", 0)
    refused(lambda: document.caret_index(document.marks()[0][0]), "no character", 0)
    refused(lambda: Document(b"x" * 40), "short file", 40)
    refused(lambda: Document(b"x" * 80), "no event file", 0)
    for at in (-1, 2**32):
        try:
            document.insert("ada", at, "x")
        except ctypes.ArgumentError:
            continue
        raise AssertionError(f"{at} is taken for an index")
    # A bad frame ends the session; what came before it is answered all the same.
    try:
        document.receive(Peer(), document.ask() + b"\7")
        raise AssertionError("a bad frame is taken")
    except SessionEnded as end:
        assert (end.status, end.number, end.reply != b"") == ("no kind of frame", 7, True), (end, end.reply)
    assert document.text() == text


def session(reader, steps, seed, file):
    draw = random.Random(seed)
    editors = [Editor(name) for name in ("ada", "bob", "eve")]
    carets = []  # words, and the version and the index that they were taken at
    for _ in range(steps):
        one, other = draw.sample(editors, 2)
        if draw.randrange(6) == 0:
            one.fetch(other, draw)
        elif draw.randrange(6) == 0:
            one.push(other, draw)
        else:
            one.type(draw)
        if draw.randrange(100) == 0:
            at = draw.randrange(len(one.shown) + 1)
            carets.append((one.document.caret(at), one.document.heads(), at))
        assert one.document.text() == "".join(one.shown), (seed, one.document.text(), one.shown)
        assert len(one.document) == len(one.shown)
        cut(one.document, one.shown, draw)
        if draw.randrange(20) == 0:
            counted(one.document, one.shown)
    for one in editors:
        for other in editors:
            if one is not other:
                one.fetch(other, draw)
    for one in editors:
        for other in editors:
            if one is not other:
                one.fetch(other, draw)
    assert len({e.document.text() for e in editors}) == 1
    first = editors[0].document
    saved = first.save()
    with open(file, "wb") as out:
        out.write(saved)
    assert second(reader, "cat", file) == first.text()
    assert second(reader, "replay", file) == "".join(lines_of(first.changes(0)))
    first.mark("ada", "end")
    saved = first.save()
    with open(file, "wb") as out:
        out.write(saved)
    assert second(reader, "marks", file) == "".join(f"{x} {label}\n" for x, label in first.marks())
    assert second(reader, "blame", file, "--columns", "20") == first.blame("", 20)
    for words, version, at in carets:
        assert second(reader, "caret", file, "--at", version, "--index", str(at)) == f"{first.caret_index(words)}\n"
        assert second(reader, "blame", file, "--columns", "9", "--at", version) == first.blame(version, 9)
    second(reader, "undo", file, "--agent", "ada", "--of", "bob:0", "--count", "20")
    undone = Document(saved)
    undone.undo("ada", "bob:0", 20)
    assert second(reader, "cat", file) == undone.text()
    again = Document(saved)
    counted(again, list(first.text()))
    assert (again.text(), again.heads(), again.count()) == (first.text(), first.heads(), first.count())
    assert first.text(first.heads()) == first.text()
    assert first.text("root") == ""
    refusals(editors[0])


def main():
    reader, steps = sys.argv[1], int(sys.argv[2]) if len(sys.argv) > 2 else 400
    with tempfile.TemporaryDirectory() as folder:
        for seed in range(5):
            session(reader, steps, seed, os.path.join(folder, "file.egw"))
    print(f"Python: 5 sessions of {steps} steps show the texts of their documents")


main()
