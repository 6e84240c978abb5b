#!/usr/bin/env python3
"""A second implementation of `egw`, written from docs/FORMATS.md alone.

It has new, edit, cat, heads, log, replay, check, merge, ask, serve, net, make, marks, upgrade, watch,
export, undo, caret and blame. Its authors had never seen the program, but for those of `serve`, `net`, `make`, `marks`, `watch`,
`export`, `undo`, `caret` and `blame`. It reads and writes event files of both versions, and stores version 2.
The sections follow those of the page. Python 3, nothing else.
"""

import bisect
import collections
import contextlib
import errno
import fcntl
import hashlib
import itertools
import os
import re
import stat
import struct
import sys
import unicodedata

MAX_EVENTS, MAX_FILE, MAX_INPUT, MAX_PARENTS, MAX_MADE = 16777216, 2348810288, 16777216, 16, 1000000
MAX_NUMBER, MAX_COLUMNS = 4294967295, 1000
MAX_WAITING, MAX_BODY, MAX_HAVE, PIECE = 65536, 1048576, 4 + 37 * MAX_EVENTS, 4096
EVENT_ROOM = 664
ESCAPE = re.compile(r'\\(.?)', re.DOTALL)
PLAIN = {'n': '\n', '\\': '\\'}
INSERT, DELETE, MARK, FALLING, LEFT, RIGHT = 0, 1, 2, 3, 0, 1
# Of each version of the event file its greatest kind, and of each kind of a run how its indices go on.
LAST_KIND = {1: MARK, 2: FALLING}
STEP = {INSERT: 1, DELETE: 0, FALLING: -1}
STORED = 2
HAVE, EVENTS, DONE, TOOK, CLASH, BYE = range(1, 7)
NAME = re.compile('[a-zA-Z0-9_][a-zA-Z0-9_-]{0,31}')
NUMBER = '(0|[1-9][0-9]{0,9})'
IDENT = re.compile('(%s):%s' % (NAME.pattern, NUMBER))
LINE = re.compile('ins %s (.*)|del %s %s|mark (%s)' % (NUMBER, NUMBER, NUMBER, NAME.pattern), re.DOTALL)
USAGE = 'usage: egw ' + '\n       egw '.join((
    'new FILE', 'edit FILE --agent NAME', 'cat FILE [--at VERSION]', 'heads FILE', 'log FILE',
    'replay FILE', 'check FILE', 'merge FILE OTHER', 'ask FILE', 'serve FILE', 'net',
    'make --seed N --count N', 'marks FILE', 'upgrade FILE', 'watch --agent NAME', 'export FILE',
    'undo FILE --agent NAME --of ID --count N', 'caret FILE --at VERSION --index N',
    'blame FILE --columns N [--at VERSION]'))


# An id is a pair (name, number), so ids compare as the page orders them.
# The parents of an event are ids. What an insertion has is its character, and a mark its label;
# a deletion has ''. The index of a mark is None.
Event = collections.namedtuple('Event', 'id parents kind index what')


class Refusal(Exception):
    """The first thing that stands in the way: a status and a text."""


class Unknown(Exception):
    """An id that no event has."""


class OutOfRange(Exception):
    """An index above this length."""


def spell(ident):
    """An id as it is written."""
    return '%s:%d' % ident


def name_bytes(name):
    """A name as it stands in files and frames."""
    return bytes([len(name)]) + name.encode()


def spell_operation(kind, index, what):
    """An operation as it is written."""
    if kind == MARK:
        return 'mark ' + what
    if kind == DELETE:
        return 'del %d' % index
    return 'ins %d %s' % (index, {'\n': '\\n', '\\': '\\\\'}.get(what, what))


def spell_change(kind, index, what):
    """A change as it is written; one without an index is nothing."""
    return 'nothing' if index is None else spell_operation(kind, index, what)


def operation_bytes(event):
    """What an event does, as it stands in files and frames."""
    kind = bytes([event.kind])
    if event.kind == MARK:
        return kind + name_bytes(event.what)
    char = struct.pack('<I', ord(event.what)) if event.kind == INSERT else b''
    return kind + struct.pack('<I', event.index) + char


# Events, histories, texts


class Node:
    """A node of the tree, which is also a link of the walk."""
    __slots__ = ('id', 'char', 'children', 'before', 'after', 'deleters')

    def __init__(self, ident, char):
        self.id, self.char = ident, char
        self.children = ([], [])
        self.before = self.after = None
        self.deleters = []

    def edge(self, side):
        """The first or the last node of all that is below this one, itself counted."""
        node = self
        while node.children[side]:
            node = node.children[side][-side]
        return node

    def hang(self, parent, side):
        """Become a child on this side of the parent, and a link of the walk."""
        siblings = parent.children[side]
        at = bisect.bisect([child.id for child in siblings], self.id)
        if side == LEFT:
            self.after = siblings[at].edge(LEFT) if at < len(siblings) else parent
            self.before = self.after.before
        else:
            self.before = siblings[at - 1].edge(RIGHT) if at > 0 else parent
            self.after = self.before.after
        siblings.insert(at, self)
        self.before.after = self
        if self.after:
            self.after.before = self


def knows(known, ident):
    """Whether the event is among the known ones; None knows all."""
    return known is None or known.get(ident[0], 0) > ident[1]


class History:
    """A good history with its tree.

    In a good history an agent's events are a chain, so a set of ancestors
    is told by a count for each agent: clocks[p] has those of the event at
    position p, with that event itself. reach[p] is the first position that
    isn't one of its ancestors. touched[p] is the node that it inserts or
    deletes, None for a mark. shown has the nodes of the text, or None.
    file_version is that of the file that was read.
    """

    def __init__(self, file):
        self.file, self.file_version = file, STORED
        self.events, self.where, self.by_agent, self.heads = [], {}, {}, set()
        self.clocks, self.reach, self.touched = [], [], []
        self.root, self.shown = Node(None, ''), []

    def walk(self):
        """All nodes but the root, which comes first, in the order of the walk."""
        node = self.root.after
        while node:
            yield node
            node = node.after

    def visible(self, known=None):
        """The nodes that are visible to one who knows these events; None knows all."""
        if known is None and self.shown is not None:
            return self.shown
        return [node for node in self.walk()
                if knows(known, node.id) and not any(knows(known, by) for by in node.deleters)]

    def not_good(self, words):
        """The refusal for the event that comes next."""
        return Refusal(4, '%s: event %d: %s' % (self.file, len(self.events), words))

    def add(self, event):
        """Judge one event and place it behind the others."""
        name, number = event.id
        position = len(self.events)
        known = self.known_to(event)
        if known.get(name, 0) < number:
            raise self.not_good('skipped')
        self.place(event, None if set(event.parents) == self.heads else known)
        missing = [places[known.get(agent, 0)] for agent, places in self.by_agent.items()
                   if known.get(agent, 0) < len(places)]
        self.reach.append(min(missing, default=position))
        known[name] = number + 1
        self.clocks.append(known)
        self.by_agent.setdefault(name, []).append(position)
        self.where[event.id] = position
        self.heads.difference_update(event.parents)
        self.heads.add(event.id)
        self.events.append(event)

    def known_to(self, event):
        """How many events of each agent are ancestors of a reduced event."""
        clocks = [self.clocks[self.where[parent]] for parent in event.parents]
        for parent in event.parents:
            if sum(knows(clock, parent) for clock in clocks) > 1:
                raise self.not_good('not reduced')
        return self.version(event.parents)

    def version(self, idents):
        """How many events of each agent a version of these ids knows."""
        clocks = [self.clocks[self.where[ident]] for ident in idents]
        known = dict(clocks[0]) if clocks else {}
        for clock in clocks[1:]:
            for name, count in clock.items():
                known[name] = max(count, known.get(name, 0))
        return known

    def place(self, event, known):
        """Do what the event does on the tree."""
        if event.kind == MARK:
            self.touched.append(None)
            return
        seen = self.visible(known)
        if event.index > len(seen) - event.kind:
            raise self.not_good('out of range, length %d' % len(seen))
        if event.kind == DELETE:
            node = seen.pop(event.index)
            node.deleters.append(event.id)
        else:
            parent, side = seen[event.index - 1] if event.index else self.root, RIGHT
            if any(knows(known, child.id) for child in parent.children[RIGHT]):
                parent, side = parent.after, LEFT
                while not knows(known, parent.id):
                    parent = parent.after
            node = Node(event.id, event.what)
            node.hang(parent, side)
            seen.insert(event.index, node)
        self.touched.append(node)
        self.shown = seen if known is None else None

    def changes(self):
        """What each event does to the text of all before it: kind, index or None, what."""
        places = {node: place for place, node in enumerate(self.walk())}
        text = []  # the places of its nodes, ascending: no node moves in the walk
        for event, node in zip(self.events, self.touched):
            if event.kind == MARK:
                yield event.kind, None, event.what
                continue
            place = places[node]
            index = bisect.bisect_left(text, place)
            if event.kind == INSERT:
                text.insert(index, place)
            elif place in text[index:index + 1]:
                del text[index]
            else:
                index = None
            yield event.kind, index, event.what

    def cuts(self):
        """The critical cuts, from the greatest to the least."""
        count = len(self.events)
        reached = itertools.accumulate([count] + self.reach[::-1], min)
        return [cut for cut, least in zip(range(count, -1, -1), reached) if least >= cut]


# The event file, versions 1 and 2


def continues(run, event):
    """Whether an event continues the run, a list of events, that it stands behind."""
    name, number = run[-1].id
    if event.id != (name, number + 1) or event.parents != (run[-1].id,):
        return False
    if event.kind != run[-1].kind or event.kind == MARK:
        return False
    step = event.index - run[-1].index
    if event.kind == INSERT:
        return step == 1
    return step in (0, -1) if len(run) == 1 else step == run[1].index - run[0].index


def longest_runs(events):
    """The runs of a list of events, each as long as it can be."""
    run = []
    for event in events:
        if run and not continues(run, event):
            yield run
            run = []
        run.append(event)
    if run:
        yield run


class Fields:
    """The fields of a file between its version and its digest. In version 1 each record is a run of one event."""

    def __init__(self, data, file):
        self.data, self.file, self.version = data, file, data[7]
        self.start, self.at, self.end = 8, 8, len(data) - 32

    def refuse_if(self, holds, words, offset=None):
        """Where it holds, refuse with the words of a fault, at the field taken last."""
        if holds:
            raise Refusal(4, '%s: byte %d: %s' % (self.file, offset or self.start, words))

    def number(self, size=4):
        """Take a number of one byte or four."""
        self.start = self.at
        self.refuse_if(self.at + size > self.end, 'cut')
        self.at += size
        return int.from_bytes(self.data[self.start:self.at], 'little')

    def name(self, names=()):
        """Take a name that isn't among the names."""
        size = self.number(1)
        self.refuse_if(not 1 <= size <= 32, 'bad name')
        self.refuse_if(self.at + size > self.end, 'cut')
        name = self.data[self.at:self.at + size].decode('latin-1')
        self.refuse_if(not NAME.fullmatch(name), 'bad name')
        self.refuse_if(name in names, 'name twice')
        self.at += size
        return name

    def parents(self, events):
        """Take the parents of a record."""
        parents = []
        count = self.number(1)
        self.refuse_if(count > MAX_PARENTS, 'parent count')
        for _ in range(count):
            position = self.number()
            self.refuse_if(position >= len(events), 'parent position')
            ident = events[position].id
            self.refuse_if(parents and ident <= parents[-1], 'parent order')
            parents.append(ident)
        return tuple(parents)

    def length(self, ident, kind, index, room):
        """Take the length of a run, where there is room for so many events."""
        length = self.number()
        more = length - 1
        self.refuse_if(length == 0 or kind == FALLING and length == 1, 'run length')
        self.refuse_if(length > room or ident[1] + more > MAX_NUMBER, 'run length')
        self.refuse_if(kind == INSERT and index + more > MAX_NUMBER, 'run length')
        self.refuse_if(kind == FALLING and more > index, 'run length')
        return length

    def character(self):
        """Take a character."""
        scalar = self.number()
        self.refuse_if(scalar > 0x10FFFF or 0xD800 <= scalar <= 0xDFFF, 'scalar')
        return chr(scalar)

    def run(self, ident, parents, before, ids, room):
        """Take what stands behind the parents of a record: the kind, and the index and the characters, or the label.

        Gives the events of the record. Before has those of the record before, and the ids are those of all earlier records.
        """
        kind = self.number(1)
        self.refuse_if(kind > LAST_KIND[self.version], 'kind')
        if kind == MARK:
            return [Event(ident, parents, kind, None, self.name())]
        index, length, does = self.number(), 1, INSERT if kind == INSERT else DELETE
        if self.version == 2:
            self.refuse_if(before and continues(before, Event(ident, parents, does, index, '')), 'run join')
            length = self.length(ident, kind, index, room)
        run, (name, number) = [], ident
        idents = [(name, number + step) for step in range(length)]
        self.refuse_if(not ids.isdisjoint(idents), 'id twice')
        for step, ident in enumerate(idents):
            what = self.character() if kind == INSERT else ''
            run.append(Event(ident, parents, does, index + step * STEP[kind], what))
            parents = (ident,)
        return run

    def events(self):
        """Take all fields; gives the events."""
        names, positions = [], {}
        for position in range(self.number()):
            names.append(self.name(positions))
            positions[names[-1]] = position
        number = self.number()
        if number > MAX_EVENTS:
            raise Refusal(7, '%s: more than %d events' % (self.file, MAX_EVENTS))
        events, ids, used, run = [], set(), 0, []
        while len(events) < number:
            agent = self.number()
            self.refuse_if(agent > used or agent >= len(names), 'agent number')
            used = max(used, agent + 1)
            ident = (names[agent], self.number())
            self.refuse_if(ident in ids, 'id twice')
            run = self.run(ident, self.parents(events), run, ids, number - len(events))
            ids.update(event.id for event in run)
            events.extend(run)
        self.refuse_if(self.at < self.end, 'trailing bytes', self.at)
        self.refuse_if(used < len(names), 'unused agent', self.end)
        return events


def parse_file(data, file):
    """The events of a file, or the first thing that is wrong with it."""
    if len(data) < 48:
        raise Refusal(4, '%s: short, %d bytes' % (file, len(data)))
    if data[:7] != b'EGWFILE':
        raise Refusal(4, '%s: not an event file' % file)
    if data[7] not in LAST_KIND:
        raise Refusal(4, '%s: version %d' % (file, data[7]))
    stored, found = data[-32:].hex(), hashlib.sha256(data[:-32]).hexdigest()
    if stored != found:
        raise Refusal(4, '%s: digest %s, found %s' % (file, stored, found))
    return Fields(data, file).events()


def run_bytes(run):
    """What the events of a run do, as it stands in a file of version 2."""
    first = run[0]
    if first.kind == MARK:
        return operation_bytes(first)
    falls = len(run) > 1 and run[1].index < first.index
    chars = [struct.pack('<I', ord(event.what)) for event in run if event.kind == INSERT]
    return struct.pack('<BII', FALLING if falls else first.kind, first.index, len(run)) + b''.join(chars)


def file_bytes(events, version=STORED):
    """The one file of this version of a list of events."""
    agents, where, records = {}, {}, []
    for run in longest_runs(events) if version == 2 else ([event] for event in events):
        name, number = run[0].id
        agent = agents.setdefault(name, len(agents))
        records.append(struct.pack('<IIB', agent, number, len(run[0].parents)))
        records.extend(struct.pack('<I', where[parent]) for parent in run[0].parents)
        records.append(run_bytes(run) if version == 2 else operation_bytes(run[0]))
        for event in run:
            where[event.id] = len(where)
    body = b''.join([b'EGWFILE', bytes([version]), struct.pack('<I', len(agents)), *map(name_bytes, agents),
                     struct.pack('<I', len(events)), *records])
    return body + hashlib.sha256(body).digest()


# Edit scripts


def parse_line(line):
    """A line as (kind, index, count, text), or None where it is bad."""
    try:
        words = LINE.fullmatch(line.decode('utf-8'))
        text = words and ESCAPE.sub(lambda found: PLAIN[found[1]], words[2] or '')
    except (UnicodeDecodeError, KeyError):
        return None
    if not words or any(int(number or 0) > MAX_NUMBER for number in words.group(1, 3, 4)):
        return None
    if words[5]:
        return MARK, 0, 0, words[5]
    if words[1] is None:
        return DELETE, int(words[3]), int(words[4]), ''
    return INSERT, int(words[1]), len(text), text


def parse_script(data, parse):
    """What the lines of a script mean, each with the number of its line."""
    meant = [(n, parse(line)) for n, line in enumerate(data.split(b'\n'), 1) if line]
    for number, meaning in meant:
        if meaning is None:
            raise Refusal(5, 'line %d: unreadable' % number)
    return meant


def do_edit(history, agent, number, edit):
    """Do the edit of one line on the history."""
    kind, index, count, text = edit
    if kind == MARK:
        return do_mark(history, agent, text)
    length = len(history.visible())
    if (index if kind == INSERT else index + count) > length:
        raise Refusal(5, 'line %d: out of range, length %d' % (number, length))
    if count and len(history.heads) > MAX_PARENTS:
        raise Refusal(7, '%d heads, more than %d' % (len(history.heads), MAX_PARENTS))
    if count and len(history.events) + count > MAX_EVENTS:
        raise Refusal(7, 'more than %d events' % MAX_EVENTS)
    for step in range(count):
        ident = (agent, len(history.by_agent.get(agent, ())))
        at = index if kind == DELETE else index + step
        parents = tuple(sorted(history.heads))
        history.add(Event(ident, parents, kind, at, text[step:step + 1]))


def undone(history, whose, first, count):
    """The ids of so many events of an agent; each has to be held."""
    held = len(history.by_agent.get(whose, ()))
    if count and first + count > held:
        raise Unknown((whose, max(first, held)))
    return {(whose, first + step) for step in range(count)}


def do_undo(history, agent, ids):
    """Make the events that undo these, by what is visible now; gives their number."""
    edits, index = [], 0
    for node in history.walk():
        wanted = node.id not in ids and ids.issuperset(node.deleters)
        if node.deleters and wanted:
            edits.append((INSERT, index, node.char))
        elif not node.deleters and not wanted:
            edits.append((DELETE, index, ''))
        index += wanted
    if edits and len(history.heads) > MAX_PARENTS:
        raise Refusal(7, '%d heads, more than %d' % (len(history.heads), MAX_PARENTS))
    if edits and len(history.events) + len(edits) > MAX_EVENTS:
        raise Refusal(7, 'more than %d events' % MAX_EVENTS)
    for kind, at, what in edits:
        ident = (agent, len(history.by_agent.get(agent, ())))
        history.add(Event(ident, tuple(sorted(history.heads)), kind, at, what))
    return len(edits)


def caret_at(history, known, index):
    """The node left of an index of a version's text; the root at its start."""
    seen = history.visible(known)
    if index > len(seen):
        raise OutOfRange(len(seen))
    return seen[index - 1] if index else history.root


def side(history, caret):
    """How many characters of the text stand at the caret's node or before it."""
    index, node = 0, history.root
    while node is not caret:
        node = node.after
        index += not node.deleters
    return index


def pieces(nodes):
    """Nodes cut where the agent changes, a number is left out, or a line ends."""
    cut = []
    for node in nodes:
        last = cut[-1][-1] if cut else None
        if last and last.char != '\n' and node.id == (last.id[0], last.id[1] + 1):
            cut[-1].append(node)
        else:
            cut.append([node])
    return cut


def shown(text, columns):
    """As much of a text, as it is written, as is at most so many columns wide."""
    return next(written(text[:count]) for count in range(len(text), -1, -1) if width(written(text[:count])) <= columns)


def written(text):
    """A text with its newlines and backslashes escaped."""
    return text.replace('\\', '\\\\').replace('\n', '\\n')


def width(text):
    """The columns of a text of which each character takes the same whatever stands beside it: all that this program is asked for."""
    return sum(0 if unicodedata.combining(char) else 2 if unicodedata.east_asian_width(char) in 'WF' else 1 for char in text)


def do_mark(history, agent, label):
    """Join all heads by marks of the agent."""
    heads = sorted(history.heads)
    number = len(history.by_agent.get(agent, ()))
    own = [head for head in heads if number and history.clocks[history.where[head]].get(agent, 0) == number]
    order = own[:1] + [head for head in heads if head not in own[:1]]
    groups = [order[:MAX_PARENTS]]
    groups += [order[at:at + MAX_PARENTS - 1] for at in range(MAX_PARENTS, len(order), MAX_PARENTS - 1)]
    if len(history.events) + len(groups) > MAX_EVENTS:
        raise Refusal(7, 'more than %d events' % MAX_EVENTS)
    before = []
    for place, group in enumerate(groups):
        ident = (agent, number + place)
        history.add(Event(ident, tuple(sorted(before + group)), MARK, None, label))
        before = [ident]


# Frames


def frame(kind, body=b''):
    """A frame of this kind and body."""
    return struct.pack('<BI', kind, len(body)) + body


def ident_bytes(ident):
    """An id as it stands in frames."""
    return name_bytes(ident[0]) + struct.pack('<I', ident[1])


def have_frame(counts):
    """The Have of how many events of each agent there are."""
    held = [ident_bytes(pair) for pair in sorted(counts.items())]
    return frame(HAVE, struct.pack('<I', len(held)) + b''.join(held))


def event_bytes(event):
    """An event as it stands in frames."""
    parents = b''.join(map(ident_bytes, event.parents))
    return ident_bytes(event.id) + bytes([len(event.parents)]) + parents + operation_bytes(event)


def events_frames(events):
    """The Events frames of a list of events, one behind the other."""
    count = (MAX_BODY - 4) // EVENT_ROOM
    parts = [events[at:at + count] for at in range(0, len(events), count)]
    return b''.join(frame(EVENTS, struct.pack('<I', len(part)) + b''.join(map(event_bytes, part)))
                    for part in parts)


class BadBody(Exception):
    """A body that no frame of its kind has."""


class Body:
    """The fields of a frame's body."""

    def __init__(self, data):
        self.data, self.at = data, 0

    def take(self, size):
        """Take so many bytes."""
        self.at += size
        if self.at > len(self.data):
            raise BadBody
        return self.data[self.at - size:self.at]

    def number(self, size=4):
        """Take a number of one byte or four."""
        return int.from_bytes(self.take(size), 'little')

    def name(self):
        """Take a name."""
        name = self.take(self.number(1)).decode('latin-1')
        if not NAME.fullmatch(name):
            raise BadBody
        return name

    def ident(self):
        """Take an id, or a name and a count."""
        return self.name(), self.number()

    def counts(self):
        """Take the content of a Have: how many events of each agent."""
        pairs = [self.ident() for _ in range(self.number())]
        names = [name for name, _ in pairs]
        if names != sorted(set(names)) or not all(count for _, count in pairs):
            raise BadBody
        return dict(pairs)

    def event(self):
        """Take an event."""
        ident = self.ident()
        parents = tuple(self.ident() for _ in range(self.number(1)))
        return Event(ident, parents, *self.operation())

    def operation(self):
        """Take the kind, and the index and the character, or the label."""
        kind = self.number(1)
        if kind > MARK:
            raise BadBody
        if kind == MARK:
            return kind, None, self.name()
        index = self.number()
        if kind == DELETE:
            return kind, index, ''
        scalar = self.number()
        if scalar > 0x10FFFF or 0xD800 <= scalar <= 0xDFFF:
            raise BadBody
        return kind, index, chr(scalar)

    def events(self):
        """Take the content of an Events frame."""
        return [self.event() for _ in range(self.number())]

    def numbers(self):
        """Take the content of a Took."""
        return [self.number() for _ in range(4)]

    def nothing(self):
        """Take what a Done and a Bye have."""


CONTENTS = {HAVE: Body.counts, EVENTS: Body.events, DONE: Body.nothing, TOOK: Body.numbers,
            CLASH: Body.ident, BYE: Body.nothing}


def first_frame(data, number):
    """The kind, the content and the end of the frame at the front of the bytes; None where it isn't whole yet."""
    if data and data[0] not in CONTENTS:
        raise Refusal(5, 'frame %d: bad kind %d' % (number, data[0]))
    if len(data) < 5:
        return None
    size = int.from_bytes(data[1:5], 'little')
    if size > (MAX_HAVE if data[0] == HAVE else MAX_BODY):
        raise Refusal(5, 'frame %d: too long, %d' % (number, size))
    if len(data) < 5 + size:
        return None
    body = Body(bytes(data[5:5 + size]))
    try:
        content = CONTENTS[data[0]](body)
    except BadBody:
        content = BadBody
    if content is BadBody or body.at < size:
        raise Refusal(5, 'frame %d: bad body' % number)
    return data[0], content, 5 + size


# Journals


JOURNAL = 'egw.journal'
OPEN_GATE, CLOSED_GATE = b'\1', b'\0'


def read_batches(data):
    """The events of a journal's batches, and the place of the gate behind the last one."""
    events, gate = [], 0
    while len(data) > 1 and data[gate:gate + 1] == OPEN_GATE:
        size = int.from_bytes(data[gate + 1:gate + 5], 'little')
        end = gate + 5 + size
        body = Body(data[gate + 5:end])
        try:
            batch = body.events() if size <= MAX_BODY and end < len(data) else []
        except BadBody:
            batch = []
        if not batch or body.at < size:
            raise Refusal(4, 'journal: byte %d: bad batch' % gate)
        events += batch
        if len(events) > MAX_EVENTS:
            raise Refusal(7, 'journal: more than %d events' % MAX_EVENTS)
        gate = end
    return events, gate


def judge_journal(events):
    """The history of a journal's events, each of which has to be good."""
    history = History('journal')
    for event in events:
        unknown = [parent for parent in event.parents if parent not in history.where]
        if event.id in history.where:
            raise history.not_good('repeat' if history.events[history.where[event.id]] == event else 'clash')
        if event.id in event.parents:
            raise history.not_good('own parent')
        if len(event.parents) > MAX_PARENTS:
            raise history.not_good('too many parents')
        if list(event.parents) != sorted(set(event.parents)):
            raise history.not_good('parents unsorted')
        if unknown:
            raise history.not_good('unknown %s' % spell(unknown[0]))
        history.add(event)
    return history


class Disk:
    """The journal's file in this folder, made where it isn't there, and locked until the program ends."""

    def __init__(self):
        self.file = os.open(JOURNAL, os.O_RDWR | os.O_CREAT, 0o666)
        fcntl.flock(self.file, fcntl.LOCK_EX | fcntl.LOCK_NB)
        folder = os.open('.', os.O_RDONLY)
        os.fsync(folder)
        os.close(folder)

    def sync(self):
        """Wait until what was written is kept."""
        os.fsync(self.file)

    def read(self):
        """All bytes."""
        return os.pread(self.file, os.fstat(self.file).st_size, 0)

    def write(self, at, data):
        """Write all bytes at a place, and wait until they are kept."""
        while data:
            count = os.pwrite(self.file, data, at)
            at, data = at + count, data[count:]
        self.sync()


class Journal:
    """A journal that was opened: its history, and the place of its last gate."""

    def __init__(self):
        with using('disk'):
            self.disk = Disk()
            self.disk.sync()
            data = self.disk.read()
        events, self.gate = read_batches(data)
        if len(data) < 2:
            with using('disk'):
                self.disk.write(0, CLOSED_GATE)
        self.history = judge_journal(events)

    def keep(self, events):
        """Append these events, in batches as full as they may be."""
        count = (MAX_BODY - 4) // EVENT_ROOM
        for at in range(0, len(events), count):
            part = events[at:at + count]
            body = struct.pack('<I', len(part)) + b''.join(map(event_bytes, part))
            with using('disk'):
                self.disk.write(self.gate + 1, struct.pack('<I', len(body)) + body + CLOSED_GATE)
                self.disk.write(self.gate, OPEN_GATE)
            self.gate += 5 + len(body)


# Serving a peer


class Desk:
    """A history, and the events that wait for their parents, in the order in which they came."""

    def __init__(self, history):
        self.history, self.waiting = history, {}

    def there(self, ident):
        """The event of this id that is held or waits, if there is one."""
        if ident in self.history.where:
            return self.history.events[self.history.where[ident]]
        return self.waiting.get(ident)

    def is_ready(self, event):
        """Whether all parents of an event are held."""
        return all(parent in self.history.where for parent in event.parents)

    def receive(self, events):
        """Receive events; gives the frame that tells of it, and the id of the first clash or None."""
        told, clash = collections.Counter(), None
        for event in events:
            there = self.there(event.id)
            if there:
                told['repeats' if there == event else 'refused'] += 1
                clash = clash or (None if there == event else event.id)
            elif event.id in event.parents or len(event.parents) > MAX_PARENTS or \
                    list(event.parents) != sorted(set(event.parents)):
                told['refused'] += 1
            elif self.is_ready(event):
                self.settle(event, told)
            elif len(self.waiting) == MAX_WAITING:
                told['refused'] += 1
            else:
                self.waiting[event.id] = event
        if clash:
            return frame(CLASH, ident_bytes(clash)), clash
        numbers = told['accepted'], len(self.waiting), told['repeats'], told['refused']
        return frame(TOOK, struct.pack('<4I', *numbers)), None

    def settle(self, event, told):
        """Judge an event whose parents are held, and behind it those that waited for it."""
        while event:
            told['accepted' if self.append(event) else 'refused'] += 1
            event = next(filter(self.is_ready, self.waiting.values()), None)
            if event:
                del self.waiting[event.id]

    def append(self, event):
        """Append an event if there is room and it is good; says whether it was."""
        if len(self.history.events) == MAX_EVENTS:
            return False
        try:
            self.history.add(event)
        except Refusal:
            return False
        return True

    def missing(self, counts):
        """The events that are lacking where there are so many of each agent."""
        return [event for event in self.history.events if event.id[1] >= counts.get(event.id[0], 0)]

    def answer(self, kind, content):
        """The bytes that answer a frame, and the id of a clash or None."""
        if kind == HAVE:
            return events_frames(self.missing(content)) + frame(DONE), None
        if kind == EVENTS:
            return self.receive(content)
        return b'', content if kind == CLASH else None


def talk(desk):
    """Answer the frames of the input up to its end, or up to a Bye; gives the bytes to print behind the store."""
    pending, number, left = bytearray(), 1, MAX_INPUT
    while True:
        found = first_frame(pending, number)
        if not found:
            with using('source'):
                piece = os.read(0, min(left, PIECE) or 1)
            if piece and not left:
                raise Refusal(7, 'input: more than %d bytes' % MAX_INPUT)
            if not piece and pending:
                raise Refusal(5, 'frame %d: cut' % number)
            if not piece:
                return b''
            pending += piece
            left -= len(piece)
            continue
        kind, content, end = found
        del pending[:end]
        number += 1
        if kind == BYE:
            return frame(BYE)
        reply, clash = desk.answer(kind, content)
        with using('sink'):
            write_all(1, reply)
        if clash:
            raise Refusal(5, 'clash %s' % spell(clash))


# Nets

# What stands behind the first word of a line: names of peers, other names, numbers, a text, a label.
STEPS = {'peer': 'N', 'ins': 'N#T', 'del': 'N##', 'mark': 'NL', 'push': 'NN', 'send': 'NN##', 'ask': 'NN',
         'deliver': '#', 'restart': 'N', 'show': 'N', 'agree': '', 'undo': 'Nn##', 'caret': 'N#', 'where': 'N'}


def parse_part(kind, part):
    """A name, a number, a text or a label; None where it is none."""
    if kind in 'NnL':
        return parse_name(part)
    if kind == '#':
        return int(part) if re.fullmatch(NUMBER, part) and int(part) <= MAX_NUMBER else None
    try:
        return ESCAPE.sub(lambda found: PLAIN[found[1]], part)
    except KeyError:
        return None


def parse_step(line):
    """A line of a net script as its first word and the others, or None where it is bad."""
    try:
        text = line.decode('utf-8')
    except UnicodeDecodeError:
        return None
    shape = STEPS.get(text.split(' ')[0], '')
    word, *parts = text.split(' ', len(shape))
    values = [parse_part(kind, part) for kind, part in zip(shape, parts)]
    if word not in STEPS or len(parts) != len(shape) or None in values:
        return None
    return word, values


class Net:
    """Peers, by their names, and packets: a sender, a receiver and the bytes of the frames."""

    def __init__(self):
        self.desks, self.packets, self.carets = {}, [], {}

    def step(self, number, word, values):
        """Do what a line does; gives what it prints."""
        names = [value for value, kind in zip(values, STEPS[word]) if kind == 'N']
        for name in names:
            if word != 'peer' and name not in self.desks:
                raise Refusal(5, 'line %d: no peer %s' % (number, name))
        if word == 'peer' and names[0] in self.desks:
            raise Refusal(5, 'line %d: peer %s is there' % (number, names[0]))
        if word == 'deliver' and values[0] >= len(self.packets):
            raise Refusal(5, 'line %d: no packet %d' % (number, values[0]))
        if word in ('ins', 'del', 'mark'):
            return self.edit(number, word, *values)
        try:
            return getattr(self, word)(*values)
        except Unknown as unknown:
            raise Refusal(5, 'line %d: unknown %s' % (number, spell(unknown.args[0])))
        except OutOfRange as refused:
            raise Refusal(5, 'line %d: out of range, length %d' % (number, refused.args[0]))

    def peer(self, name):
        """Add a peer that holds nothing."""
        self.desks[name] = Desk(History(''))
        self.carets[name] = self.desks[name].history.root
        return 'peer %s\n' % name

    def undo(self, name, whose, first, count):
        """Undo some events of an agent at a peer."""
        history = self.desks[name].history
        return '%s made %d\n' % (name, do_undo(history, name, undone(history, whose, first, count)))

    def caret(self, name, index):
        """Set the caret of a peer."""
        self.carets[name] = caret_at(self.desks[name].history, None, index)
        return '%s caret %d\n' % (name, index)

    def where(self, name):
        """Where the caret of a peer stands."""
        return '%s caret %d\n' % (name, side(self.desks[name].history, self.carets[name]))

    def edit(self, number, word, name, *values):
        """An edit of a peer's history."""
        history = self.desks[name].history
        before = len(history.events)
        if word == 'ins':
            edit = INSERT, values[0], len(values[1]), values[1]
        elif word == 'del':
            edit = DELETE, *values, ''
        else:
            edit = MARK, 0, 0, *values
        do_edit(history, name, number, edit)
        return '%s made %d\n' % (name, len(history.events) - before)

    def packet(self, sender, receiver, frames):
        """Make a packet."""
        self.packets.append((sender, receiver, frames))
        return 'packet %d %s %s\n' % (len(self.packets) - 1, sender, receiver)

    def push(self, sender, receiver):
        """Make a packet of all events."""
        return self.packet(sender, receiver, events_frames(self.desks[sender].history.events))

    def send(self, sender, receiver, skip, count):
        """Make a packet of some events."""
        events = self.desks[sender].history.events[skip:skip + count]
        return self.packet(sender, receiver, events_frames(events))

    def ask(self, sender, receiver):
        """Make a packet of a Have."""
        by_agent = self.desks[sender].history.by_agent
        counts = {name: len(places) for name, places in by_agent.items()}
        return self.packet(sender, receiver, have_frame(counts))

    def deliver(self, number):
        """Give the frames of a packet to its receiver."""
        sender, receiver, frames = self.packets[number]
        desk, printed, replies = self.desks[receiver], '', b''
        while frames:
            kind, content, end = first_frame(frames, 0)
            frames, before = frames[end:], len(desk.history.events)
            reply, _ = desk.answer(kind, content)
            if kind == EVENTS:
                told = (receiver, *first_frame(reply, 0)[1])
                cut = next(cut for cut in desk.history.cuts() if cut <= before)
                printed += '%s accepted %d waiting %d repeats %d refused %d' % told + ' cut %d\n' % cut
            replies += reply
        return printed + (self.packet(receiver, sender, replies) if replies else '')

    def restart(self, name):
        """Lose the events that wait."""
        self.desks[name].waiting = {}
        return '%s restarted\n' % name

    def show(self, name):
        """The text of a peer."""
        text = ''.join(node.char for node in self.desks[name].history.visible())
        return '%s %s\n' % (name, text.replace('\\', '\\\\').replace('\n', '\\n'))

    def agree(self):
        """Whether all hold equal events."""
        held = [set(desk.history.events) for desk in self.desks.values()]
        return 'agree %s\n' % ('yes' if all(events == held[0] for events in held) else 'no')


# Files, input and output


@contextlib.contextmanager
def using(what, passed=()):
    """Refuse what the system refuses inside of it, but for the errors passed on."""
    try:
        yield
    except passed:
        raise
    except OSError as error:
        if error.errno == errno.ENOMEM:
            raise MemoryError
        raise Refusal(6, '%s failed' % what)


def read_all(handle, limit, what):
    """Read to the end; one byte more than the limit is read and no further."""
    parts, left = [], limit + 1
    while left:
        parts.append(os.read(handle, min(left, 1 << 20)))
        left -= len(parts[-1])
        if not parts[-1]:
            return b''.join(parts)
    raise Refusal(7, '%s: more than %d bytes' % (what, limit))


def write_all(handle, data):
    """Write all bytes."""
    data = memoryview(data)
    while data:
        data = data[os.write(handle, data):]


# Of each file that was loaded: which one it was, how long, and when it was changed last.
loaded = {}


def state_of(found):
    return found.st_dev, found.st_ino, found.st_size, found.st_mtime_ns


def load(file):
    """The good history of a file."""
    try:
        with using('shelf', FileNotFoundError), open(file.encode(), 'rb', buffering=0) as opened:
            loaded[file] = state_of(os.fstat(opened.fileno()))
            data = read_all(opened.fileno(), MAX_FILE, file)
    except FileNotFoundError:
        raise Refusal(3, 'no file %s' % file)
    history = History(file)
    for event in parse_file(data, file):
        history.add(event)
    history.file_version = data[7]
    return history


def lock(path, old):
    """Open the file that was loaded, take its lock, and give it with what the system says of it."""
    held = open(path, 'r+b', buffering=0)
    try:
        fcntl.flock(held, fcntl.LOCK_EX | fcntl.LOCK_NB)
        found = os.fstat(held.fileno())
        if not stat.S_ISREG(found.st_mode) or state_of(found) != old or state_of(os.stat(path)) != old:
            raise OSError(errno.ESTALE, 'not the file that was loaded')
    except OSError:
        held.close()
        raise
    return held, found


def make_beside(path, rights):
    """A new file beside that of the path, and its name."""
    number = 0
    while os.path.lexists(path + b'.%d.new' % number):
        number += 1
    beside = path + b'.%d.new' % number
    return beside, open(beside, 'xb', buffering=0, opener=lambda name, flags: os.open(name, flags, rights))


def store(file, events):
    """Put the file of these events in the place of the one that was loaded; where there was none, make it."""
    path, data, old = file.encode(), file_bytes(events), loaded.get(file)
    with using('shelf'), contextlib.ExitStack() as opened:
        if old:
            path = os.path.realpath(path)
            held, found = lock(path, old)
            opened.enter_context(held)
        beside, new = make_beside(path, 0o600 if old else 0o666)
        opened.enter_context(new)
        try:
            if old:
                os.fchown(new.fileno(), found.st_uid, found.st_gid)
                os.fchmod(new.fileno(), found.st_mode & 0o777)
            write_all(new.fileno(), data)
            os.fsync(new.fileno())
            if old:
                os.rename(beside, path)
            else:
                os.link(beside, path)
                os.unlink(beside)
        except OSError:
            with contextlib.suppress(OSError):
                os.unlink(beside)
            raise


# Commands: each takes the files and the values of its option, and gives what is printed, a text or bytes


def expect_none(file):
    """Refuse a file that is there."""
    loaded.pop(file, None)
    with using('shelf'), contextlib.suppress(FileNotFoundError), open(file.encode(), 'rb', buffering=0) as there:
        os.read(there.fileno(), 1)
        raise Refusal(3, 'file %s is there' % file)


def run_new(files, _values):
    """Make the file of no events."""
    expect_none(files[0])
    store(files[0], [])
    return ''


def run_edit(files, values):
    """Do the edits of a script."""
    history = load(files[0])
    before = len(history.events)
    with using('source'):
        script = read_all(0, MAX_INPUT, 'input')
    for number, edit in parse_script(script, parse_line):
        do_edit(history, values[0], number, edit)
    if len(history.events) > before:
        store(files[0], history.events)
    return 'made %d\n' % (len(history.events) - before)


def run_cat(files, values):
    """Print the text, or that of a version."""
    history, known = load(files[0]), None
    for idents in values:
        for ident in idents:
            if ident not in history.where:
                raise Refusal(5, 'unknown %s' % spell(ident))
        known = history.version(idents)
    return ''.join(node.char for node in history.visible(known))


def run_heads(files, _values):
    """Print the heads."""
    return ''.join(spell(head) + '\n' for head in sorted(load(files[0]).heads))


def run_log(files, _values):
    """Print the events."""
    lines = []
    for event in load(files[0]).events:
        parents = ','.join(map(spell, event.parents)) or 'root'
        operation = spell_operation(event.kind, event.index, event.what)
        lines.append('%s %s %s\n' % (spell(event.id), parents, operation))
    return ''.join(lines)


def run_marks(files, _values):
    """Print the marks."""
    return ''.join('%s %s\n' % (spell(event.id), event.what) for event in load(files[0]).events if event.kind == MARK)


def run_replay(files, _values):
    """Print the changes."""
    return ''.join(spell_change(*change) + '\n' for change in load(files[0]).changes())


def run_check(files, _values):
    """Print the numbers of a history."""
    history = load(files[0])
    counted = {'events': history.events, 'agents': history.by_agent, 'heads': history.heads,
               'cuts': history.cuts(), 'length': history.visible()}
    return ''.join('%s %d\n' % (word, len(things)) for word, things in counted.items())


def run_ask(files, _values):
    """Print the Have of the events."""
    by_agent = load(files[0]).by_agent
    return have_frame({name: len(places) for name, places in by_agent.items()})


def run_serve(files, _values):
    """Serve a peer, and store the history if it grew."""
    history = load(files[0])
    before = len(history.events)
    printed = talk(Desk(history))
    if len(history.events) > before:
        store(files[0], history.events)
    return printed


def run_merge(files, _values):
    """Add the events of the other file that the first one lacks."""
    history, other = load(files[0]), load(files[1])
    before, accepted = len(history.events), []
    for event in other.events:
        if event.id not in history.where:
            accepted.append(event)
        elif history.events[history.where[event.id]] != event:
            raise Refusal(5, 'clash %s' % spell(event.id))
    if before + len(accepted) > MAX_EVENTS:
        raise Refusal(7, 'more than %d events' % MAX_EVENTS)
    for event in accepted:
        history.add(event)
    if accepted:
        store(files[0], history.events)
    cut = next(cut for cut in history.cuts() if cut <= before)
    return 'accepted %d waiting 0 repeats %d refused 0 cut %d\n' % (
        len(accepted), len(other.events) - len(accepted), cut)


def run_upgrade(files, _values):
    """Store the file of version 2 where one of version 1 was read."""
    history = load(files[0])
    if history.file_version == 1:
        store(files[0], history.events)
    return 'version %d events %d\n' % (history.file_version, len(history.events))


def run_watch(_files, values):
    """Do the edits of a script, keep the events of each line in the journal, and tell of each line that is kept."""
    journal = Journal()
    with using('source'):
        script = read_all(0, MAX_INPUT, 'input')
    for number, edit in parse_script(script, parse_line):
        before = len(journal.history.events)
        do_edit(journal.history, values[0], number, edit)
        made = journal.history.events[before:]
        journal.keep(made)
        if made:
            with using('sink'):
                write_all(1, b'kept %d\n' % len(made))
    return ''


def run_export(files, _values):
    """Store the file of the journal's events."""
    expect_none(files[0])
    store(files[0], Journal().history.events)
    return ''


def run_undo(files, values):
    """Undo some events of an agent."""
    agent, (whose, first), count = values
    history = load(files[0])
    try:
        made = do_undo(history, agent, undone(history, whose, first, count))
    except Unknown as unknown:
        raise Refusal(5, 'unknown %s' % spell(unknown.args[0]))
    if made:
        store(files[0], history.events)
    return 'made %d\n' % made


def run_caret(files, values):
    """Print where a caret of a version stands now."""
    idents, index = values
    history = load(files[0])
    for ident in idents:
        if ident not in history.where:
            raise Refusal(5, 'unknown %s' % spell(ident))
    try:
        caret = caret_at(history, history.version(idents), index)
    except OutOfRange as refused:
        raise Refusal(5, 'index %d: out of range, length %d' % (index, refused.args[0]))
    return '%d\n' % side(history, caret)


def run_blame(files, values):
    """Print who wrote what, of the text or of that of a version."""
    (columns, *versions), known = values, None
    history = load(files[0])
    for idents in versions:
        for ident in idents:
            if ident not in history.where:
                raise Refusal(5, 'unknown %s' % spell(ident))
        known = history.version(idents)
    printed = ''
    for piece in pieces(history.visible(known)):
        text = ''.join(node.char for node in piece)
        printed += '%s %d %s\n' % (spell(piece[0].id), len(piece), shown(text, columns))
    return printed


def run_net(_files, _values):
    """Run a net script; nothing is printed unless all lines were run."""
    with using('source'):
        script = read_all(0, MAX_INPUT, 'input')
    net = Net()
    return ''.join([net.step(number, *step) for number, step in parse_script(script, parse_step)])


class Draws:
    """A row of drawn numbers that a seed begins."""

    def __init__(self, seed):
        self.state = seed

    def draw(self):
        """The next number."""
        self.state = (self.state * 6364136223846793005 + 1442695040888963407) % 2 ** 64
        return self.state >> 33


def do_drawn_edit(history, agent, draws):
    """Do the edit that is drawn next."""
    length = len(history.visible())
    deletes, place = draws.draw() % 4 == 0, draws.draw()
    if deletes and length:
        edit = DELETE, place % length, 1, ''
    else:
        edit = INSERT, place % (length + 1), 1, chr(ord('a') + draws.draw() % 26)
    do_edit(history, agent, 0, edit)


def run_make(_files, values):
    """Make a history by a seed and a number of edits, and print its numbers."""
    seed, count = values
    draws, peers = Draws(seed), [History('') for _ in range(3)]
    desks = [Desk(peer) for peer in peers]

    def give(giver, taker):
        lacked = [event for event in peers[giver].events if event.id not in peers[taker].where]
        desks[taker].receive(lacked)

    for step in range(count):
        peer = draws.draw() % 3
        do_drawn_edit(peers[peer], 'p%d' % peer, draws)
        if step % 64 == 63:
            give(step // 64 % 3, (step // 64 + 1) % 3)
    for giver, taker in (0, 1), (1, 2), (2, 0), (0, 1):
        give(giver, taker)
    first = peers[0]
    text = ''.join(node.char for node in first.visible()).encode('utf-8')
    agree = all(set(peer.events) == set(first.events) for peer in peers)
    return 'events %d\nlength %d\nheads %d\ncuts %d\nsha256 %s\nagree %s\n' % (
        len(first.events), len(first.visible()), len(first.heads), len(first.cuts()),
        hashlib.sha256(text).hexdigest(), 'yes' if agree else 'no')


def parse_name(word):
    """A name, or None where it is none."""
    return word if NAME.fullmatch(word) else None


def parse_ident(word):
    """An id, or None where it is none."""
    found = IDENT.fullmatch(word)
    return (found[1], int(found[2])) if found and int(found[2]) <= MAX_NUMBER else None


def parse_version(word):
    """The ids of a version, or None where it is none."""
    if word == 'root':
        return []
    found = [IDENT.fullmatch(ident) for ident in word.split(',')]
    if not all(found) or any(int(ident[2]) > MAX_NUMBER for ident in found):
        return None
    return [(ident[1], int(ident[2])) for ident in found]


def parse_up_to(most, minus='', least=0):
    """What reads a number up to another, which may have a plus and zeros in front; zeros alone may have `minus` there."""
    def parse(word):
        digits = re.fullmatch(f'[+]?0*([0-9]{{1,20}})|[{minus}+]0*(0)', word)
        number = int(digits[1] or digits[2]) if digits else most + 1
        return number if least <= number <= most else None
    return parse


# The command, the number of its files, and its options: how often each has to be there, and what reads its value.
COMMANDS = {'new': (run_new, 1, {}), 'edit': (run_edit, 1, {'--agent': (1, parse_name)}),
            'cat': (run_cat, 1, {'--at': (0, parse_version)}), 'heads': (run_heads, 1, {}),
            'log': (run_log, 1, {}), 'marks': (run_marks, 1, {}), 'replay': (run_replay, 1, {}),
            'check': (run_check, 1, {}), 'ask': (run_ask, 1, {}), 'serve': (run_serve, 1, {}),
            'upgrade': (run_upgrade, 1, {}), 'merge': (run_merge, 2, {}), 'net': (run_net, 0, {}),
            'watch': (run_watch, 0, {'--agent': (1, parse_name)}), 'export': (run_export, 1, {}),
            'undo': (run_undo, 1, {'--agent': (1, parse_name), '--of': (1, parse_ident), '--count': (1, parse_up_to(MAX_MADE, least=1))}),
            'blame': (run_blame, 1, {'--columns': (1, parse_up_to(MAX_COLUMNS, least=1)), '--at': (0, parse_version)}),
            'caret': (run_caret, 1, {'--at': (1, parse_version), '--index': (1, parse_up_to(MAX_NUMBER, '-'))}),
            'make': (run_make, 0, {'--seed': (1, parse_up_to(2 ** 64 - 1)), '--count': (1, parse_up_to(MAX_MADE, '-'))})}


def take(words):
    """The command, the files and the options' values of words that are taken, in the order of the options."""
    if words[0] not in COMMANDS:
        raise Refusal(2, USAGE)
    command, count, options = COMMANDS[words[0]]
    files, given, rest = [], {option: [] for option in options}, iter(words[1:])
    for word in rest:
        name, equals, value = word.partition('=')
        if word == '--':
            files.extend(rest)
        elif name in options:
            value = value if equals else next(rest, '-')
            if not equals and value.startswith('-'):
                raise Refusal(2, USAGE)
            given[name].append(options[name][1](value))
        elif word.startswith('-') and word != '-':
            raise Refusal(2, USAGE)
        else:
            files.append(word)
    values = [value for option in options for value in given[option]]
    if len(files) != count or None in values or any(not options[option][0] <= len(given[option]) <= 1 for option in options):
        raise Refusal(2, USAGE)
    return command, files, values


def main():
    """Run one command; gives the status."""
    try:
        words = [os.fsencode(word).decode('utf-8') for word in sys.argv[1:]]
        command, files, values = take(words or [''])
        printed = command(files, values)
        with using('sink'):
            write_all(1, printed if isinstance(printed, bytes) else printed.encode('utf-8'))
        return 0
    except UnicodeDecodeError:
        status, text = 2, USAGE
    except Refusal as refusal:
        status, text = refusal.args
    except MemoryError:
        status, text = 8, 'out of memory'
    with contextlib.suppress(OSError):
        write_all(2, (text + '\n' if status == 2 else 'egw: %s\n' % text).encode('utf-8'))
    return status

if __name__ == '__main__':
    sys.exit(main())
