"""Histories to measure with, as event files. The same bytes each time.

    python3 bench/histories.py NAME EVENTS FOLDER [VERSION]

Each maker answers the histories that one measurement needs, by name, for about so many events. They are written in version 2 of the
file, or in the one that is named. An index that an author may use is below
the length of the text that the author sees. Where several write at once, the first of them alone deletes: so that length is always
the number of insertions seen, less the number of deletions seen, and no text has to be kept.
"""
import bisect
import pathlib
import random
import sys

sys.dont_write_bytecode = True
sys.path.insert(0, str(pathlib.Path(__file__).parent.parent / "tools"))

from egw_bytes import DELETE, FALLING, INSERT, content, content_2, record, run, with_digest  # noqa: E402

LETTERS = "etaoin shrdlu etaoin shrdlu\n"


class Run:
    """Events of one agent that follow one another and take one step: the first has these parents, by position."""

    def __init__(self, agent, seq, parents, kind, index):
        self.agent, self.seq, self.parents, self.kind, self.index = agent, seq, parents, kind, index
        self.count = 0
        self.characters = []

    def takes(self, kind, index):
        """Whether one more such operation takes the step of those before it."""
        if kind == INSERT or self.kind == INSERT:
            return kind == self.kind and index == self.index + self.count
        if self.kind == DELETE and index == self.index:
            return True
        return (self.kind == FALLING or self.count == 1) and index + self.count == self.index

    def add(self, kind, index, character):
        """One more operation."""
        if kind == INSERT:
            self.characters.append(ord(character))
        elif index != self.index:
            self.kind = FALLING
        self.count += 1

    def copy(self):
        other = Run(self.agent, self.seq, self.parents, self.kind, self.index)
        other.count = self.count
        other.characters = list(self.characters)
        return other

    def record(self):
        """The record of all, in version 2."""
        return run(self.agent, self.seq, self.parents, self.kind, self.index, self.characters if self.kind == INSERT else self.count)

    def records(self, start):
        """The records of each, in version 1, where the first stands at a position."""
        step = {INSERT: 1, DELETE: 0, FALLING: -1}[self.kind]
        for place in range(self.count):
            parents = [start + place - 1] if place else self.parents
            character = self.characters[place] if self.kind == INSERT else None
            yield record(self.agent, self.seq + place, parents, INSERT if self.kind == INSERT else DELETE, self.index + step * place, character)


class History:
    """Events in runs. An event has an agent by number, parents by position, and an operation."""

    def __init__(self, agents):
        self.agents = agents
        self.count = 0
        self.numbers = [0] * len(agents)
        self.runs = []
        self.starts = []

    def copy(self, agents):
        """The same history with more agents, to go on apart."""
        other = History(agents)
        other.count = self.count
        other.numbers = self.numbers + [0] * (len(agents) - len(self.agents))
        # The last run alone may grow.
        other.runs = self.runs[:-1] + [self.runs[-1].copy()]
        other.starts = list(self.starts)
        return other

    def id_at(self, position):
        """The agent's name and the number of an event."""
        place = bisect.bisect_right(self.starts, position) - 1
        found = self.runs[place]
        return self.agents[found.agent], found.seq + position - self.starts[place]

    def add(self, agent, parents, kind, index, character=None):
        """One more event. Answers its position."""
        last = self.runs[-1] if self.runs else None
        if not (last and last.agent == agent and parents == [self.count - 1] and last.takes(kind, index)):
            last = Run(agent, self.numbers[agent], sorted(parents, key=self.id_at), kind, index)
            self.runs.append(last)
            self.starts.append(self.count)
        last.add(kind, index, character)
        self.numbers[agent] += 1
        self.count += 1
        return self.count - 1

    def file(self, version):
        """The bytes of its file. Agents stand there in the order of their first events, and each has one."""
        agents = [name.encode() for name in self.agents]
        if version == 2:
            return with_digest(content_2(agents, (one.record() for one in self.runs), self.count))
        records = (each for one, start in zip(self.runs, self.starts) for each in one.records(start))
        return with_digest(content(agents, records, self.count))


class Author:
    """One who writes behind a version, with the number of characters that stand there."""

    def __init__(self, history, agent, heads=(), length=0):
        self.history = history
        self.agent = agent
        self.heads = list(heads)
        self.length = length

    def insert(self, index, character):
        self.heads = [self.history.add(self.agent, self.heads, INSERT, index, character)]
        self.length += 1

    def delete(self, index):
        self.heads = [self.history.add(self.agent, self.heads, DELETE, index)]
        self.length -= 1

    def type(self, index, count, draw):
        """So many characters, each behind the one before it."""
        for place in range(index, index + count):
            self.insert(place, draw.choice(LETTERS))


def forward(size, draw):
    """One author types forward in long bursts, takes back a few characters, and seldom goes elsewhere."""
    history = History(["ada"])
    author = Author(history, 0)
    place = 0
    while history.count < size:
        burst = min(draw.randint(20, 400), size - history.count)
        author.type(place, burst, draw)
        place += burst
        for _ in range(min(draw.randint(0, 5), place, size - history.count)):
            place -= 1
            author.delete(place)
        if draw.random() < 0.02:
            place = draw.randint(0, author.length)
    return {"file": history}


def jump(author, place, size, draw):
    """An author goes on in short bursts, with many jumps to places nearby, and deletions back and forth. Answers where."""
    history = author.history
    while history.count < size:
        burst = min(draw.randint(1, 12), size - history.count)
        author.type(place, burst, draw)
        place += burst
        if draw.random() < 0.4:
            backwards = draw.random() < 0.5
            for _ in range(min(draw.randint(1, 8), place, size - history.count)):
                if backwards:
                    place -= 1
                    author.delete(place)
                elif place < author.length:
                    author.delete(place)
        place = max(0, min(author.length, place + draw.randint(-200, 200)))
    return place


def near(size, draw):
    """One author who does so."""
    history = History(["ada"])
    jump(Author(history, 0), 0, size, draw)
    return {"file": history}


def blocks(size, draw):
    """One author cuts blocks and puts them elsewhere."""
    history = History(["ada"])
    author = Author(history, 0)
    author.type(0, size // 10, draw)
    while history.count < size:
        block = min(draw.randint(10, 200), (size - history.count) // 2)
        if block == 0:
            author.insert(0, "a")
            continue
        place = draw.randint(0, author.length - block)
        for _ in range(block):
            author.delete(place)
        author.type(draw.randint(0, author.length), block, draw)
    return {"file": history}


def together(size, draw):
    """Two authors at once: each types a little without what the other types, and then both see all."""
    history = History(["ada", "ben"])
    heads, length = [], 0
    while history.count < size:
        ends, grown = [], 0
        for agent in (0, 1):
            author = Author(history, agent, heads, length)
            author.type(draw.randint(0, length), draw.randint(1, 10), draw)
            if agent == 0 and draw.random() < 0.5:
                author.delete(draw.randrange(author.length))
            grown += author.length - length
            ends += author.heads
        heads, length = ends, length + grown
    return {"file": history}


def branches(size, draw):
    """Ten authors, each on a branch of a hundredth of the history, which are merged ten times."""
    history = History(["author-%d" % number for number in range(10)])
    heads, length = [], 0
    share = max(1, size // 100)
    while history.count < size:
        ends, grown = [], 0
        for agent in range(10):
            author = Author(history, agent, heads, length)
            place = draw.randint(0, length)
            for written in range(share):
                if written % 20 == 0:
                    place = draw.randint(0, author.length)
                author.insert(place, draw.choice(LETTERS))
                place += 1
            grown += author.length - length
            ends += author.heads
        heads, length = ends, length + grown
    return {"file": history}


def tail(size, draw):
    """A long history, and the same without its last 50 events and with 100 of another author's behind it."""
    history = History(["ada"])
    author = Author(history, 0)
    place = jump(author, 0, size - 50, draw)
    short = history.copy(["ada", "ben"])
    other = Author(short, 1, author.heads, author.length)
    jump(author, place, size, draw)
    other.type(draw.randint(0, other.length), 100, draw)
    return {"file": history, "other": short}


def apart(size, draw):
    """Two authors on one base of a hundredth, each with half of the rest."""
    base = History(["ada"])
    first = Author(base, 0)
    first.type(0, max(1, size // 100), draw)
    share = (size - base.count) // 2
    files = {}
    for name, agents in (("file", ["ada"]), ("other", ["ada", "ben"])):
        history = base.copy(agents)
        author = Author(history, len(agents) - 1, first.heads, first.length)
        place = 0
        for written in range(share):
            if written % 40 == 0:
                place = draw.randint(0, author.length)
            author.insert(place, draw.choice(LETTERS))
            place += 1
        files[name] = history
    return files


HISTORIES = {
    "forward": forward,
    "near": near,
    "blocks": blocks,
    "together": together,
    "branches": branches,
    "tail": tail,
    "apart": apart,
}


def main(name, size, folder, version="2"):
    """Writes the files of one measurement."""
    for file, history in HISTORIES[name](int(size), random.Random(name + " " + size)).items():
        (pathlib.Path(folder) / file).write_bytes(history.file(int(version)))


if __name__ == "__main__":
    main(*sys.argv[1:])
