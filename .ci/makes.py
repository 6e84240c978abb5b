"""What .ci/makes runs: `make` for each seed, twice, and the same edits and gifts done here. Words: the program, an empty folder, the
number of edits, the seeds.

A peer finds once what its new character hangs on in the tree, and each other peer puts it there when it is given the event: nothing
is found again by replay. That is exact, since whoever is given an event holds all that its maker held. From tools/second_reader.py come
the draws, the form of an event and the writer of files; it has no part in the rest.
"""

import hashlib
import os
import pathlib
import subprocess
import sys
from bisect import bisect
from collections import Counter, defaultdict, namedtuple
from concurrent.futures import ThreadPoolExecutor
from itertools import accumulate, islice

sys.dont_write_bytecode = True
sys.path.insert(0, str(pathlib.Path(__file__).parent.parent / "tools"))

from second_reader import DELETE, INSERT, LEFT, MAX_MADE, RIGHT, Draws, Event, file_bytes, parse_up_to  # noqa: E402

PROGRAM, FOLDER = map(pathlib.Path, sys.argv[1:3])
NAMES = ("p0", "p1", "p2")
BETWEEN = 64  # edits between two gifts
LONGEST = 256  # nodes of a block


# The tree


class Node:
    """A character, and what it hangs on: the same for all peers, since no node moves."""

    def __init__(self, id, char, parent, side):
        self.id, self.char, self.parent, self.side = id, char, parent, side


ROOT = Node(None, "", None, None)


class Block:
    """Some nodes of a walk, one behind the other, and how many of them are visible."""

    def __init__(self, nodes, visible):
        self.nodes, self.visible = nodes, visible


class Walk:
    """The nodes that a peer knows, tombstones too, in the order of the walk. They stand in blocks, so that nothing goes through all."""

    def __init__(self):
        first = Block([ROOT], 0)
        self.blocks, self.block_of = [first], {ROOT: first}
        self.children = defaultdict(list)  # of a node and a side, by rising ids
        self.hidden, self.length = {ROOT}, 0

    def visible(self, index):
        """The node at an index of the text."""
        for block in self.blocks:
            if index < block.visible:
                break
            index -= block.visible
        return next(islice((node for node in block.nodes if node not in self.hidden), index, None))

    def behind(self, node):
        """The next node, which has to be there."""
        block = self.block_of[node]
        rest = islice(block.nodes, block.nodes.index(node) + 1, None)
        return next(rest, None) or self.blocks[self.blocks.index(block) + 1].nodes[0]

    def edge(self, node, side):
        """The outermost node on a side of all that hangs on this one, itself counted."""
        while children := self.children.get((node, side)):
            node = children[-1 if side == RIGHT else 0]
        return node

    def place(self, index):
        """What a new character at an index of the text hangs on, and on which side."""
        left = self.visible(index - 1) if index else ROOT
        return (self.behind(left), LEFT) if self.children.get((left, RIGHT)) else (left, RIGHT)

    def put(self, node):
        """Put in a node: next to all that hangs on the sibling between it and the parent, or next to the parent."""
        siblings = self.children[node.parent, node.side]
        at = bisect([sibling.id for sibling in siblings], node.id)
        between = siblings[at - 1 : at] if node.side == RIGHT else siblings[at : at + 1]
        neighbour = self.edge(between[0], node.side) if between else node.parent
        siblings.insert(at, node)
        block = self.block_of[neighbour]
        block.nodes.insert(block.nodes.index(neighbour) + (node.side == RIGHT), node)
        block.visible += 1
        self.block_of[node] = block
        self.length += 1
        if len(block.nodes) > LONGEST:
            self.part(block)

    def part(self, block):
        """Make two blocks of one."""
        front, back = block.nodes[: LONGEST // 2], block.nodes[LONGEST // 2 :]
        new = Block(back, sum(node not in self.hidden for node in back))
        block.nodes, block.visible = front, block.visible - new.visible
        self.blocks.insert(self.blocks.index(block) + 1, new)
        self.block_of.update(dict.fromkeys(back, new))

    def hide(self, node):
        """Delete a character. Another may have deleted it before."""
        if node not in self.hidden:
            self.hidden.add(node)
            self.block_of[node].visible -= 1
            self.length -= 1

    def text(self):
        return "".join(node.char for block in self.blocks for node in block.nodes if node not in self.hidden)


# The peers


class Peer:
    """The events that a peer holds, each with the node that it puts in or deletes, and the walk over what it knows."""

    def __init__(self, name):
        self.name, self.walk = name, Walk()
        self.held, self.heads, self.counts = [], set(), Counter()
        self.given = Counter()  # how many of the events held, from the first on, were given to each other peer

    def events(self):
        return [event for event, _ in self.held]

    def edit(self, draws):
        """Make the edit that is drawn next."""
        id, parents = (self.name, self.counts[self.name]), tuple(sorted(self.heads))
        deletes, place = draws.draw() % 4 == 0, draws.draw()
        if deletes and self.walk.length:
            index = place % self.walk.length
            self.take(Event(id, parents, DELETE, index, ""), self.walk.visible(index))
        else:
            index, char = place % (self.walk.length + 1), chr(ord("a") + draws.draw() % 26)
            self.take(Event(id, parents, INSERT, index, char), Node(id, char, *self.walk.place(index)))

    def take(self, event, node):
        """Hold an event, and do what it does."""
        self.held.append((event, node))
        self.counts[event.id[0]] += 1
        self.heads.difference_update(event.parents)
        self.heads.add(event.id)
        if event.kind == INSERT:
            self.walk.put(node)
        else:
            self.walk.hide(node)

    def give(self, taker):
        """Give the events that another peer lacks, in the order in which this one came to hold them. So their parents come first."""
        for event, node in self.held[self.given[taker.name] :]:
            name, number = event.id
            if number >= taker.counts[name]:
                taker.take(event, node)
        self.given[taker.name] = len(self.held)


def make_peers(seed, count):
    """The three peers, once so many edits are made and all is given."""
    draws, peers = Draws(seed), [Peer(name) for name in NAMES]
    for step in range(count):
        peers[draws.draw() % 3].edit(draws)
        if step % BETWEEN == BETWEEN - 1:
            giver = step // BETWEEN % 3
            peers[giver].give(peers[(giver + 1) % 3])
    for giver, taker in ((0, 1), (1, 2), (2, 0), (0, 1)):
        peers[giver].give(peers[taker])
    return peers


# What is told of them


def count_heads(events):
    """How many events are no event's parent."""
    return len({event.id for event in events}.difference(*(event.parents for event in events)))


def count_cuts(events):
    """How many cuts are critical: those where each event behind has all events before among its ancestors.

    An agent's events are a chain, so an event's ancestors are told by how many of each agent there are.
    """
    places = {event.id: place for place, event in enumerate(events)}
    known, lacking = {}, []
    for event in events:
        name, number = event.id
        ancestors = Counter()
        for parent in event.parents:
            ancestors |= known[parent]
        # The first event that isn't an ancestor of this one, which may be itself.
        lacking.append(min(places.get((agent, ancestors[agent]), len(events)) for agent in NAMES))
        known[event.id] = ancestors | Counter({name: number + 1})
    least = accumulate([len(events)] + lacking[::-1], min)
    return sum(cut <= lowest for cut, lowest in zip(range(len(events), -1, -1), least))


def printed_of(peers):
    """What `make` has to print of the peers."""
    events, text = peers[0].events(), peers[0].walk.text()
    first, second, third = (set(peer.events()) for peer in peers)
    numbers = f"events {len(events)}\nlength {len(text)}\nheads {count_heads(events)}\ncuts {count_cuts(events)}\n"
    return f"{numbers}sha256 {digest(text.encode())}\nagree {'yes' if first == second == third else 'no'}\n".encode()


def digest(text):
    return hashlib.sha256(text).hexdigest()


# The program beside it

Run = namedtuple("Run", "words status output seconds")


def run(*words):
    """Runs the program, and tells its processor time."""
    with subprocess.Popen([PROGRAM, *words], stdin=subprocess.DEVNULL, stdout=subprocess.PIPE) as running:
        output = running.stdout.read()
        _, status, used = os.wait4(running.pid, 0)
        running.returncode = os.waitstatus_to_exitcode(status)
    return Run(words, running.returncode, output, used.ru_utime + used.ru_stime)


def run_make(seed, count):
    return run("make", "--seed", str(seed), "--count", str(count))


def simulate(seed, count):
    """What `make` has to print, how many agents have events, and the runs of `check` and `cat` over the file of the first peer's events."""
    peers = make_peers(seed, count)
    file = FOLDER / f"{seed}.egw"
    file.write_bytes(file_bytes(peers[0].events()))
    return printed_of(peers), len(peers[0].counts), run("check", str(file)), run("cat", str(file))


def differences(first, second, wanted, agents, check, cat):
    """What is wrong with the runs, in sentences."""
    ended = [f"egw {' '.join(one.words)} ended with status {one.status}" for one in (first, second, check, cat) if one.status]
    if ended:
        yield from ended
        return
    if first.output != second.output:
        yield f"the first run of make printed {first.output}, the second {second.output}"
    if first.output != wanted:
        yield f"make printed {first.output}, and .ci/makes.py computes {wanted}"
    told = numbers_of(first) | {"agents": agents}
    listed = "".join(f"{word} {told.get(word)}\n" for word in ("events", "agents", "heads", "cuts", "length")).encode()
    if check.output != listed:
        yield f"check of a file of the same events printed {check.output}, and by the numbers of make it is {listed}"
    if digest(cat.output) != told.get("sha256"):
        yield f"what cat printed of a file of the same events has the digest {digest(cat.output)}, and make printed {told.get('sha256')}"


def numbers_of(run):
    """What stands behind the first word of each line of an output."""
    return dict(line.partition(" ")[::2] for line in run.output.decode(errors="replace").splitlines())


def report(seed, count, first, second, simulated):
    """Prints what came of a seed; gives how many things differ."""
    wrong = list(differences(first, second, *simulated))
    for text in wrong:
        print(f"seed {seed}, {count} edits: {text}", flush=True)
    if not wrong:
        _, _, check, cat = simulated
        numbers = ", ".join(f"{word} {value}" for word, value in numbers_of(first).items())
        seconds = f"{first.seconds:.1f} and {second.seconds:.1f}, check {check.seconds:.1f}, cat {cat.seconds:.1f} seconds of processor time"
        print(f"seed {seed}, {count} edits: both runs, .ci/makes.py, check and cat tell {numbers}; make took {seconds}", flush=True)
    return len(wrong)


def main():
    count, seeds = parse_up_to(MAX_MADE)(sys.argv[3]), list(dict.fromkeys(map(parse_up_to(2**64 - 1), sys.argv[4:])))
    if None in (count, *seeds):
        print("made histories: the words are the number of edits, at most 1000000, and seeds below 2^64")
        return 2
    with ThreadPoolExecutor(os.cpu_count()) as pool:
        begun = [[pool.submit(task, seed, count) for seed in seeds] for task in (run_make, run_make, simulate)]
        wrong = sum(report(seed, count, *(one.result() for one in three)) for seed, *three in zip(seeds, *begun))
    if wrong:
        print(f"made histories: {len(seeds)} compared, and {wrong} comparisons failed")
        return 1
    print(f"made histories: {len(seeds)} compared, of {count} edits each")
    return 0


if __name__ == "__main__":
    sys.exit(main())
