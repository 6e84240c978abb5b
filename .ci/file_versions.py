"""Event files of both versions, by the second reader alone. The program has no part in it.

    file_versions.py REPOSITORY

Histories that are drawn are written in both versions, by the second reader and by .ci/histories.py, and read again. Files are changed
and cut: what the second reader accepts has to be the one file of what it read, and the fields before a fault have to be right. And the
rows of docs/FORMATS.md on version 2.
"""

import itertools
import pathlib
import re
import sys
from collections import Counter

sys.dont_write_bytecode = True
sys.path[:0] = [str(pathlib.Path(__file__).parent), str(pathlib.Path(__file__).parent.parent / "tools")]

import second_reader as reader  # noqa: E402
from egw_bytes import DELETE, FALLING, INSERT, MARK, content_2, number, run, with_digest  # noqa: E402
from histories import Draws, Event, Id, Op, file_of  # noqa: E402

PAGE = (pathlib.Path(sys.argv[1]) / "docs" / "FORMATS.md").read_text()
GREATEST = 4294967295
SEED = 1618033988
RECORDS = 10000

wrong = []
told = Counter()


def holds(truth, *text):
    if not truth:
        wrong.append(" ".join(map(str, text)))


# Histories that are drawn


NAMES = [b"a", b"b", b"aa", b"0", b"Z-_9" * 8]
LABELS = [b"m", b"9-_Z", b"m" * 32]
CHARS = [97, 98, 0, 0xD7FF, 0xE000, 0x10FFFF]
ENDS = [0, 0, 0, 1, 2, 5, GREATEST - 3, GREATEST - 2, GREATEST - 1, GREATEST]


def near(draws, value):
    """A number near another, or at an end."""
    found = value + draws.below(5) - 2 if draws.below(4) else draws.one_of(ENDS)
    return min(max(found, 0), GREATEST)


def draw_op(draws, before):
    """An operation that often goes on with the one before."""
    if draws.below(12) == 0:
        return Op(None, None, draws.one_of(LABELS))
    if before is None or before.label or draws.below(6) == 0:
        return Op(draws.one_of(ENDS), draws.one_of([None, None, *CHARS]))
    if before.ch is None:
        at = before.at - draws.below(2) if draws.below(5) else near(draws, before.at)
        return Op(max(at, 0), None)
    return Op(min(before.at + 1, GREATEST) if draws.below(6) else near(draws, before.at), draws.one_of(CHARS))


def draw_id(draws, before, held):
    """An id that no event has: often the next one of the agent before."""
    id = Id(draws.one_of(NAMES), draws.one_of(ENDS))
    if before and draws.below(8):
        id = Id(before.id.agent, before.id.seq + 1 if draws.below(8) else near(draws, before.id.seq))
    while id in held or id.seq > GREATEST:
        id = Id(draws.one_of(NAMES), draws.below(40) if draws.below(2) else GREATEST - draws.below(40))
    return id


def draw_events(draws, most):
    """A list of events with different ids and earlier parents. They need not be good."""
    events, held = [], set()
    for _ in range(draws.below(most + 1)):
        before = events[-1] if events else None
        id = draw_id(draws, before, held)
        parents = {before.id} if before else set()
        if draws.below(8) == 0:
            parents = {draws.one_of(events).id for _ in range(draws.below(18))} if events else set()
        events.append(Event(id, tuple(sorted(parents)[:16]), draw_op(draws, before and before.op)))
        held.add(id)
    return events


def read_event(event):
    """The event as the second reader has it."""
    agent, seq = event.id
    parents = tuple((parent.agent.decode(), parent.seq) for parent in event.parents)
    at, ch, label = event.op
    does = (MARK, None, label.decode()) if label else (DELETE, at, "") if ch is None else (INSERT, at, chr(ch))
    return reader.Event((agent.decode(), seq), parents, *does)


# Files


def judge(data):
    """What the second reader finds in a file. What it accepts is the one file of it, and what stands before a fault is right."""
    try:
        events = reader.parse_file(data, "F")
    except reader.Refusal as refusal:
        status, text = refusal.args
        fault = text.removeprefix("F: ")
        told[re.sub(r"\d+|[0-9a-f]{64}", "N", fault)] += 1
        place = re.fullmatch(r"byte (\d+): (.*)", fault)
        if place and place[2] != "cut" and int(place[1]) >= 16:
            check_place(data, int(place[1]), place[2])
        return fault
    holds(reader.file_bytes(events, data[7]) == data, "another file is that of what was read:", data.hex())
    return events


def check_place(data, place, words):
    """The fields before a fault are right: of the bytes before it nothing but the end is told."""
    try:
        reader.parse_file(with_digest(data[:place]), "F")
        found = "nothing"
    except reader.Refusal as refusal:
        found = refusal.args[1].removeprefix("F: ")
    wanted = {"trailing bytes": ("nothing", f"byte {place}: unused agent"), "unused agent": (f"byte {place}: unused agent",)}
    holds(found in wanted.get(words, (f"byte {place}: cut",)), f"before the fault at byte {place}, {words}, stands {found}:", data.hex())


def check_history(events):
    """Both writers write one file of each version, and it is read again."""
    wanted = list(map(read_event, events))
    for version in (1, 2):
        data = reader.file_bytes(wanted, version)
        holds(data == file_of(events, version), f"two files of version {version}:", data.hex())
        holds(len(data) <= 48 + 140 * len(events), "a file that is too long:", data.hex())
        holds(judge(data) == wanted, f"another history is read of version {version}:", data.hex())
        # The same bytes, under the other version's number.
        judge(with_digest(data[:7] + number(3 - version, 1) + data[8:-32]))
    return data


def change_bytes(data, values):
    """Each byte of a file changed, each cut, and each byte left out or put in, with the digest made right."""
    count, whole = 0, data[:-32]
    for place, byte in enumerate(whole):
        for value in values(byte):
            judge(with_digest(whole[:place] + number(value, 1) + whole[place + 1 :]))
            count += 1
        judge(with_digest(whole[:place]))
        judge(with_digest(whole[:place] + whole[place + 1 :]))
        judge(with_digest(whole[:place] + b"\0" + whole[place:]))
        count += 3
    return count


def change_fields(draws, data):
    """Two or three fields of four bytes that are others: small numbers, and such at an end."""
    whole = bytearray(data[:-32])
    for _ in range(1 + draws.below(3)):
        place = 8 + draws.below(len(whole) - 8)
        size = draws.one_of([1, 1, 4])
        whole[place : place + size] = number(draws.one_of([0, 1, 2, 3, 4, 5, 255]) if size == 1 else near(draws, 2), size)
    judge(with_digest(bytes(whole)))


def draw_runs(draws):
    """Records as they come: of few agents, with numbers that often meet those before, and lengths that often are too great."""
    records, count = [], 0
    for place in range(1 + draws.below(5)):
        kind = draws.one_of([INSERT, DELETE, DELETE, FALLING, FALLING, MARK])
        parents = sorted({draws.below(count + 1) for _ in range(draws.below(3))}) if draws.below(3) else [count - 1] if count else []
        length = 1 + draws.below(4)
        what = {INSERT: [97 + n for n in range(length)], MARK: b"m"}.get(kind, length)
        seq, at = draws.one_of([count, count, draws.below(6), draws.one_of(ENDS)]), draws.one_of([draws.below(6), draws.below(6), draws.one_of(ENDS)])
        records.append(run(min(draws.below(3), place), seq, parents, kind, at, what))
        count += 1 if kind == MARK else length
    count += draws.one_of([0, 0, 0, 0, 1, -1])
    return with_digest(content_2([b"a", b"b", b"c"][: 1 + draws.below(3)], records, max(count, 0)))


# The rows of the page


def cells_between(start, end):
    """The rows of the tables between two texts of the page, each as its cells."""
    part = PAGE[PAGE.index(start) : PAGE.index(end, PAGE.index(start))]
    return [[cell.strip() for cell in line.strip("| ").split("|")] for line in part.split("\n") if line.startswith("|") and "---" not in line]


def ends_as(found, words, *text):
    """What is found is what the page says of it."""
    counts = {"two": 2, "three": 3}
    place = re.match(r"byte \d+: [a-z ]+", words.replace(" (", "("))
    if place:
        holds(found == place[0], *text, "the page has", place[0], "and found is", found)
        return
    count = re.fullmatch(r"(\w+) events", words)
    holds(count and isinstance(found, list) and len(found) == counts[count[1]], *text, "the page has", words, "and found is", found)


def abc(at=0, seq=0):
    return [Event(Id(b"a", seq + n), (Id(b"a", seq + n - 1),) if n else (), Op(at + n, 97 + n)) for n in range(3)]


ABC = file_of(abc(), 2)
SECOND = bytes.fromhex("00000000 01000000 01 00000000 00 01000000 02000000 62000000 63000000")


def with_number(place, *values):
    return [with_digest(ABC[:place] + number(value) + ABC[place + 4 : -32]) for value in values]


def with_byte(place, value):
    return [with_digest(ABC[:place] + number(value, 1) + ABC[place + 1 : -32])]


def cut_to(*places):
    """For each place the file cut to it, and up to three bytes behind it."""
    return [with_digest(ABC[: place + more]) for place in places for more in range(4)]


# The files of the table of changes, in its order. Of the words behind a row of several places each holds for four files.
CHANGES = [
    with_number(32, 0, 4), with_number(32, 2), with_number(14, 2), with_number(14, 4), with_byte(27, 4), with_byte(27, 3), with_byte(27, 2), with_byte(27, 1),
    with_number(28, 4294967293), with_number(28, 4294967294, 4294967295), with_number(22, 4294967293), with_number(22, 4294967294, 4294967295),
    with_number(40, 0xD800), cut_to(28, 32, 36, 44), [with_digest(ABC[:32] + number(1) + ABC[36:40] + SECOND)], with_byte(7, 1),
]


def page_changes():
    rows = cells_between("The file of `abc`, changed:", "Two records of `a`, without parents")[1:]
    holds(len(rows) == len(CHANGES), f"the page has {len(rows)} changes of abc, not {len(CHANGES)}")
    greatest = {"the file of `abc` at that index": abc(at=4294967293), "the file of `a:4294967293` to `a:4294967295`": abc(seq=4294967293)}
    for (change, words), files in zip(rows, CHANGES):
        places = re.fullmatch(r"byte ([0-9, ]+): cut", words)
        if words in greatest:
            holds(files == [file_of(greatest[words], 2)], change)
            holds(judge(files[0]) == list(map(read_event, greatest[words])), change)
        elif places:
            wanted = [f"byte {place}: cut" for place in places[1].split(", ") for _ in range(len(files) // len(places[1].split(", ")))]
            holds(list(map(judge, files)) == wanted, change, list(map(judge, files)))
        else:
            for data in files:
                ends_as(judge(data), words, change)
    return len(rows)


def deletions_of(text):
    """A record of the table of deletions: its kind, its first index, its length, its number, its parent and the number of events."""
    found = re.fullmatch(r"kind (\d)(?:: ([0-9, ]+?))?(?:, numbered (\d)(?: (?:to|and) \d)?)?(?:, of length (\d))?(?:, where the number of events is (\d))?(?:, on position (\d))?", text.replace(" from 1 on,", " 1,"))
    kind, indices, seq, length, count, parent = found.groups()
    indices = [int(index) for index in (indices or "0").split(", ")]
    return int(kind), indices[0], int(length or len(indices)), int(seq or -1), int(parent or -1), int(count or -1)


def page_deletions():
    rows = cells_between("Two records of `a`, without parents", "## Edit scripts")[1:]
    for one, other, words in rows:
        kind, at, length, seq, _, _ = deletions_of(one)
        seq = max(seq, 0)
        records, count = [run(0, seq, [], kind, at, length)], length
        if other:
            kind, at, more, next_seq, parent, told_count = deletions_of(other)
            records.append(run(0, seq + length if next_seq < 0 else next_seq, [length - 1 if parent < 0 else parent], kind, at, more))
            count = count + more if told_count < 0 else told_count
        data = with_digest(content_2([b"a"], records, count))
        ends_as(judge(data), words, f"the deletions {one} and {other}:")
    return len(rows)


def page_files():
    """The files that the page has whole: their bytes, sizes and one digest."""
    part = PAGE[PAGE.index("`a` inserts `abc` at 0:") :]
    texts = re.findall(r"`(45475746494c4502[0-9a-f ]*)`", part)
    digest = re.search(r"The digest is `([0-9a-f]{64})`", part)[1]
    holds(bytes.fromhex(texts[0]) == ABC[:-32] and len(ABC) == 80 and ABC[-32:].hex() == digest, "the page has another file of abc:", ABC.hex())
    holds(bytes.fromhex(texts[1]) == file_of([], 2)[:-32] and len(file_of([], 2)) == 48, "the page has another file of no events")
    mark = [Event(Id(b"a", 0), (), Op(None, None, b"m"))]
    one, two = file_of(mark, 1), file_of(mark, 2)
    holds(len(two) == 62 and two[:-32] == one[:7] + b"\2" + one[8:-32], "the page has another file of a mark")
    rows = cells_between("All kinds: `a` inserts", "The file of `abc`, changed:")[1:]
    data = b""
    for offset, text, _ in rows:
        holds(len(data) == int(offset), f"the page has the offset {offset} in place of {len(data)}")
        data += bytes.fromhex(text.strip("`"))
    data = with_digest(data)
    events = judge(data)
    holds(data == file_of(ALL_KINDS, 2) and len(data) == 172 and len(file_of(ALL_KINDS)) == 246, "the page has another file of all kinds:", data.hex())
    holds(events == list(map(read_event, ALL_KINDS)), "another history is read of the file of all kinds")
    return len(rows) + 3


def chain(*ops):
    """Events of `a`, each on the one before."""
    return [Event(Id(b"a", n), (Id(b"a", n - 1),) if n else (), op) for n, op in enumerate(ops)]


ALL_KINDS = chain(*(Op(n, 97 + n) for n in range(4)), Op(3, None), Op(2, None), Op(0, None), Op(0, None), Op(None, None, b"m"))
ALL_KINDS.append(Event(Id(b"b", 0), (Id(b"a", 8),), Op(0, ord("Z"))))


# Whether an event goes on with the run before it


def kind_of(events):
    """The kind of a record that has these events, and what stands of them behind its index."""
    op = events[0].op
    if op.label:
        return MARK, op.label
    if op.ch is not None:
        return INSERT, [event.op.ch for event in events]
    return FALLING if len(events) > 1 and events[1].op.at < op.at else DELETE, len(events)


def records_found(names, parts):
    """What is found where each part stands in a record of its own."""
    ids = [event.id for part in parts for event in part]
    records = []
    for part in parts:
        agent, seq = part[0].id
        kind, what = kind_of(part)
        records.append(run(names.index(agent), seq, [ids.index(id) for id in part[0].parents], kind, part[0].op.at, what))
    return judge(with_digest(content_2(names, records, len(ids))))


# The operations of a run of one or two events, from an index on.
OPS = {
    "insertions": lambda at: [Op(at, 97), Op(at + 1, 98)],
    "deletions at one index": lambda at: [Op(at, None), Op(at, None)],
    "deletions that fall": lambda at: [Op(at, None), Op(at - 1, None)],
    "marks": lambda at: [Op(None, None, b"m")],
}
# The steps by which a run goes on, where its agent, its number and its parent do.
STEPS = {("insertions", 1): (1,), ("insertions", 2): (1,), ("deletions at one index", 1): (0, -1), ("deletions at one index", 2): (0,),
         ("deletions that fall", 1): (0, -1), ("deletions that fall", 2): (-1,), ("marks", 1): ()}
ROOT = Event(Id(b"Z", 0), (), Op(0, 122))


def listed(agent, seq, parents, ops):
    """Events of one agent, each on the one before."""
    events = []
    for op in ops:
        events.append(Event(Id(agent, seq + len(events)), (events[-1].id,) if events else parents, op))
    return events


def boundaries():
    """Pairs of runs of one or two events in two records: what goes on by agent, number, parent and step is told, and all else is read."""
    count = 0
    sizes = list(STEPS)
    for (one, size), (other, more), step in itertools.product(sizes, sizes, (-2, -1, 0, 1, 2)):
        first = listed(b"a", 9 - size, (ROOT.id,), OPS[one](20)[:size])
        last = first[-1]
        ops = OPS[other]((last.op.at or 20) + step)[:more]
        for agent, seq, parents in ((b"a", 9, (last.id,)), (b"b", 9, (last.id,)), (b"a", 10, (last.id,)), (b"a", 4, (last.id,)), (b"a", 9, ()), (b"a", 9, (ROOT.id,)), (b"a", 9, (ROOT.id, last.id))):
            second = listed(agent, seq, parents, ops)
            follows = (agent, seq, parents) == (b"a", 9, (last.id,)) and other.split(" ")[0] == one.split(" ")[0] and step in STEPS[one, size]
            found = records_found(list(dict.fromkeys([b"Z", b"a", agent])), [[ROOT], first, second])
            text = f"{size} {one}, then {more} {other} of {agent} {seq} on {parents} at a step of {step}: {found}"
            if follows:
                holds(isinstance(found, str) and found.endswith(": run join"), text)
            else:
                holds(found == list(map(read_event, [ROOT, *first, *second])), text)
            count += 1
    return count


WANTED = ["byte N: " + fault for fault in ("cut", "bad name", "name twice", "agent number", "id twice", "parent count", "parent position", "parent order", "kind", "scalar", "trailing bytes",
                                           "unused agent", "run join", "run length")] + ["version N", "not an event file", "short, N bytes", "more than N events"]


def main():
    draws = Draws(SEED)
    histories, changed = 0, 0
    for most in [6] * 2000 + [14] * 1500 + [40] * 100:
        data = check_history(draw_events(draws, most))
        histories += 1
        for _ in range(4):
            change_fields(draws, data)
        changed += 4
    for _ in range(RECORDS):
        judge(draw_runs(draws))
    changed += change_bytes(file_of(ALL_KINDS, 1), lambda byte: {0, 1, 2, 3, 255, byte ^ 1, byte ^ 128} - {byte})
    changed += change_bytes(file_of(ALL_KINDS, 2), lambda byte: set(range(256)) - {byte})
    for _ in range(20):
        changed += change_bytes(file_of(draw_events(draws, 10), 2), lambda byte: {0, 1, 2, 3, 255, byte ^ 1, byte ^ 128} - {byte})
    pairs = boundaries()
    rows = page_files() + page_changes() + page_deletions()
    for wanted in WANTED:
        holds(told[wanted], "never found:", wanted)
    for text in wrong[:20]:
        print(text)
    if wrong:
        print(f"files of both versions: {len(wrong)} comparisons fail")
        return 1
    print(f"files of both versions: {histories} histories, {pairs} pairs of runs, {changed} changed files and {RECORDS} rows of records are read as they must, and {rows} rows of the page hold")
    return 0


if __name__ == "__main__":
    sys.exit(main())
