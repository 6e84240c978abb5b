"""Histories that .ci/second.py makes up, and the one file of each."""

from bisect import insort
from collections import namedtuple

from egw_bytes import DELETE, FALLING, INSERT, MARK, content, content_2, record, run, with_digest

MOST_EVENTS = 16_777_216
MOST_INPUT = 16_777_216
MOST_FILE = 48 + 140 * MOST_EVENTS

USAGE = b"""usage: egw new FILE
       egw edit FILE --agent NAME
       egw cat FILE [--at VERSION]
       egw heads FILE
       egw log FILE
       egw replay FILE
       egw check FILE
       egw merge FILE OTHER
       egw ask FILE
       egw serve FILE
       egw net
       egw make --seed N --count N
       egw marks FILE
       egw upgrade FILE
       egw watch --agent NAME
       egw export FILE
       egw undo FILE --agent NAME --of ID --count N
       egw caret FILE --at VERSION --index N
       egw blame FILE --columns N [--at VERSION]
"""

Id = namedtuple("Id", "agent seq")  # a name's bytes and a number: compared in this order, as the page wants it
Op = namedtuple("Op", "at ch label", defaults=(None,))  # an insertion has a code point, a mark a label
Event = namedtuple("Event", "id parents op")


class Draws:
    """Numbers from a seed: the same on every machine."""

    def __init__(self, seed):
        self.last = seed

    def below(self, bound):
        self.last = (self.last * 6364136223846793005 + 1442695040888963407) % 2**64
        return (self.last >> 33) % bound

    def one_of(self, items):
        return items[self.below(len(items))]


# Histories and texts. A set of events is a number, in which bit p stands for the event at position p.


class Node:
    """A node of the tree: its id, its character, the event that inserted it, and those that delete it."""

    def __init__(self, id=None, ch=None, event=0):
        self.id, self.ch, self.event = id, ch, event
        self.left, self.right, self.deleters = [], [], 0

    def __lt__(self, other):
        return self.id < other.id


class History:
    """The events of a good history, the ancestors of each, and the tree."""

    def __init__(self):
        self.events, self.position, self.ancestors, self.root = [], {}, [], Node()

    def version(self, ids):
        """The events of these ids and all their ancestors."""
        known = 0
        for id in ids:
            known |= self.ancestors[self.position[id]] | 1 << self.position[id]
        return known

    def walk(self):
        """For each node its left children, the node, its right children."""
        to_do = [(self.root, False)]
        while to_do:
            node, is_its_turn = to_do.pop()
            if is_its_turn:
                yield node
            else:
                to_do += [(child, False) for child in reversed(node.right)] + [(node, True)]
                to_do += [(child, False) for child in reversed(node.left)]

    def append(self, event):
        """Appends an event, or says in words why it isn't good."""
        parents = [self.position[parent] for parent in event.parents]
        if any(self.ancestors[p] >> q & 1 for p in parents for q in parents):
            return "not reduced"
        known = self.version(event.parents)
        before = self.position.get(Id(event.id.agent, event.id.seq - 1), len(self.events))
        if event.id.seq and not known >> before & 1:
            return "skipped"
        fault = None if event.op.label else self.place(event, known)
        if not fault:
            self.position[event.id] = len(self.events)
            self.ancestors.append(known)
            self.events.append(event)
        return fault

    def place(self, event, known):
        """Does on the tree what an insertion or a deletion does, or says why it can't."""
        walk = [node for node in self.walk() if node is self.root or node.event & known]
        visible = [node for node in walk if node.event & known and not node.deleters & known]
        at, ch, _ = event.op
        if at > len(visible) or ch is None and at == len(visible):
            return f"out of range, length {len(visible)}"
        bit = 1 << len(self.events)
        if ch is None:
            visible[at].deleters |= bit
        else:
            left = visible[at - 1] if at else self.root
            has_right_child = any(child.event & known for child in left.right)
            insort(walk[walk.index(left) + 1].left if has_right_child else left.right, Node(event.id, ch, bit))
        return None

    def text(self):
        return "".join(chr(node.ch) for node in self.walk() if node is not self.root and not node.deleters)

    def heads(self):
        parents = {parent for event in self.events for parent in event.parents}
        return sorted(event.id for event in self.events if event.id not in parents)

    def count_of(self, agent):
        return sum(event.id.agent == agent for event in self.events)

    def is_critical(self, cut):
        below = (1 << cut) - 1
        return all(known & below == below for known in self.ancestors[cut:])


def file_of(events, version=1):
    """The one file of events, of this version."""
    agents = list(dict.fromkeys(event.id.agent for event in events))
    number_of = {agent: n for n, agent in enumerate(agents)}
    position = {event.id: p for p, event in enumerate(events)}

    def start_of(event):
        return number_of[event.id.agent], event.id.seq, [position[parent] for parent in event.parents]

    if version == 1:
        return with_digest(content(agents, [record(*start_of(event), *parts_of(event.op)) for event in events]))
    return with_digest(content_2(agents, [run(*start_of(events[start]), *run_of(events[start:end])) for start, end in places_of_runs(events)], len(events)))


def way_from(before, after):
    """The kind of a run in which the one event may stand right before the other, None where no run has them so. Two deletions at one index are DELETE."""
    if after.id != Id(before.id.agent, before.id.seq + 1) or after.parents != (before.id,) or before.op.label or after.op.label:
        return None
    typed = before.op.ch is not None, after.op.ch is not None
    ways = {((True, True), 1): INSERT, ((False, False), 0): DELETE, ((False, False), -1): FALLING}
    return ways.get((typed, after.op.at - before.op.at))


def places_of_runs(events):
    """Where the runs start and end: each goes on for as long as the way from event to event stays the same."""
    start = 0
    while start < len(events):
        end, first = start + 1, None
        while end < len(events):
            way = way_from(events[end - 1], events[end])
            if way is None or first not in (None, way):
                break
            first, end = way, end + 1
        yield start, end
        start = end


def run_of(events):
    """What stands of a run behind its parents: the kind, and the index and the code points or how many, or the label."""
    op = events[0].op
    if op.label:
        return MARK, None, op.label
    if op.ch is not None:
        return INSERT, op.at, [event.op.ch for event in events]
    kind = way_from(*events[:2]) if len(events) > 1 else DELETE
    return kind, op.at, len(events)


def parts_of(op):
    """What stands of an operation in files and frames: the kind, and the index and the code point, or the label."""
    if op.label:
        return MARK, op.label
    return (DELETE, op.at) if op.ch is None else (INSERT, op.at, op.ch)
