"""How many runs the events, the ids and the critical cuts of event files make, by the definitions alone: nothing is kept in runs
here. Words: the files. A line for each has its name and the three numbers."""

import pathlib
import sys

sys.dont_write_bytecode = True
sys.path.insert(0, str(pathlib.Path(__file__).parent.parent / "tools"))

from second_reader import DELETE, INSERT, parse_file  # noqa: E402

# How an operation goes on with the one before it, one way for a whole run.
WAYS = (
    lambda before, after: before.kind == after.kind == INSERT and after.index == before.index + 1,
    lambda before, after: before.kind == after.kind == DELETE and after.index == before.index,
    lambda before, after: before.kind == after.kind == DELETE and after.index == before.index - 1,
)


def event_runs(events):
    """Each run goes on for as long as each event has the one before it as its only parent, and one way fits all neighbours."""
    count, ways, before = 0, (), None
    for event in events:
        ways = [way for way in ways if list(event.parents) == [before.id] and way(before, event)]
        if not ways:
            count, ways = count + 1, WAYS
        before = event
    return count


def id_runs(events):
    """A run goes on with the next id of its agent."""
    ids = [event.id for event in events]
    return len(ids) - sum(after == (before[0], before[1] + 1) for before, after in zip(ids, ids[1:]))


def cut_runs(events):
    """A cut is critical where each event behind it has all events before it among its ancestors."""
    position = {event.id: place for place, event in enumerate(events)}
    known = []
    for event in events:
        parents = [position[parent] for parent in event.parents]
        known.append(set(parents).union(*(known[parent] for parent in parents)))
    # The lowest event that each of them doesn't have among its ancestors.
    missing = [next(place for place in range(len(events)) if place not in ancestors) for ancestors in known]
    cuts = [cut for cut in range(len(events) + 1) if all(cut <= lowest for lowest in missing[cut:])]
    return sum(cut - 1 not in cuts for cut in cuts)


for path in map(pathlib.Path, sys.argv[1:]):
    history = parse_file(path.read_bytes(), path.name)
    print(path.stem, event_runs(history), id_runs(history), cut_runs(history))
