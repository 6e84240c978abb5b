"""What .ci/second runs: the program and the second reader side by side. Words: the repository, the program, an empty
folder, and 'whole' for three times as much."""

import hashlib
import itertools
import pathlib
import re
import sys

sys.dont_write_bytecode = True
sys.path[:0] = [str(pathlib.Path(__file__).parent), str(pathlib.Path(__file__).parent.parent / "tools")]

from beside import FOLDER, ROOT, Alone, Beside, list_all, reader  # noqa: E402
from egw_bytes import DELETE, FALLING, INSERT, MARK, batch, content, content_2, counted, event_bytes, frame, id_bytes, number, record, run, with_digest  # noqa: E402
from histories import MOST_EVENTS, MOST_FILE, MOST_INPUT, USAGE, Draws, Event, History, Id, Op, file_of, parts_of  # noqa: E402

SEED = 2718281828
WHOLE = "whole" in sys.argv[4:]


def share(count):
    """How many of so many are made."""
    return count if WHOLE else count // 3


# The examples


def examples(beside, draws):
    beside.part = "examples"
    paths = sorted((ROOT / "examples").rglob("*.egw"))
    for path in paths:
        events = reader.parse_file(path.read_bytes(), path.name)
        for version, list_it in ((1, list_versions), (2, lambda beside, _, name: list_all(beside, name))):
            beside.file(path.name, reader.file_bytes(events, version))
            list_it(beside, draws, path.name)
            beside.run("merge", path.name, path.name)
            beside.run("merge", path.name, "letter.egw")
        beside.file("2_" + path.name, reader.file_bytes(events, 2))
        beside.file(path.name, path.read_bytes())
    for line in (ROOT / "examples" / "histories" / "merged").read_text().splitlines():
        one, other = (name + ".egw" for name in line.split()[:2])
        answers = set()
        for first, second in itertools.product((one, "2_" + one), (other, "2_" + other)):
            beside.copy(first, "whole")
            answers.add((beside.run("merge", "whole", second), beside.run("cat", "whole")))
        if len(answers) != 1:
            beside.wrong(f"{one} and {other} in different versions are merged otherwise")
        list_versions(beside, draws, "whole")
    for line in (ROOT / "examples" / "histories" / "past").read_text().splitlines():
        name, version = line.split()[:2]
        beside.run("cat", name + ".egw", "--at", version)
    for path in sorted((ROOT / "examples").rglob("*.script")):
        beside.run("new", path.stem)
        beside.run("edit", path.stem, "--agent", "ada", input=path.read_bytes())
        list_versions(beside, draws, path.stem)
    beside.clear()
    return len(paths)


# Versions of a file


NO_VERSIONS = ["", ",", "a", "a:", ":0", ":", "a:0,", ",a:0", "a:0,,a:1", "a:0, a:1", "a:0 ,a:1", " a:0", "a:0 ", "a:0\n", "\na:0", "root\n", "root ", "root,", ",root",
               "root,root", "root,a:0", "a:0,root", "Root", "ROOT", "roots", "root:", "a:00", "a:01", "a:+1", "a:-0", "a:-1", "a: 0", "a :0", "a:4294967296", "a:9999999999",
               "a:18446744073709551616", "a:" + "9" * 5000, "a:0x0", "a:1e0", "a:0.0", "a:1_0", "a:0:0", "a::0", "-a:0", "-", "a.b:0", "ä:0", "a:٣", "a:0;a:1", "a:0a:1", "0",
               "a" * 33 + ":0", "a:0\r", "a:0\t", "a:0,a:1,a:", "b:0,a"]


def concurrent(draws, lines):
    """Two ids of what `log` prints, neither of them an ancestor of the other; none where there are no two."""
    ids, known = [], []
    for line in lines:
        id, parents = line.split(" ")[:2]
        above = 0
        for parent in parents.split(",") if parents != "root" else ():
            place = ids.index(parent)
            above |= known[place] | 1 << place
        ids.append(id)
        known.append(above)
    start = draws.below(len(ids))
    for one in [*range(start, len(ids)), *range(start)]:
        apart = [other for other in range(len(ids)) if other != one and not (known[one] >> other | known[other] >> one) & 1]
        if apart:
            return [ids[one], ids[draws.one_of(apart)]]
    return []


def list_versions(beside, draws, name):
    """All that tells of a file, and the texts of several of its versions. It need not be a good file."""
    answers = list_all(beside, name)
    heads, lines = (answer[1].decode().split("\n")[:-1] for answer in answers[1:3])
    ids = [line.split(" ")[0] for line in lines] or ["a:0"]
    old, several = draws.one_of(ids), [draws.one_of(ids) for _ in range(2 + draws.below(3))]
    agent = old.split(":")[0]
    unknown = [f"{agent}:{len(ids) + draws.below(3)}", f"{agent}:4294967295", f"nobody:{draws.below(10)}"]

    def at(*ids):
        version = ",".join(ids) or "root"
        option = draws.one_of([["--at", version], ["--at=" + version]])
        return beside.run("cat", *draws.one_of([option + [name], [name] + option, option + ["--", name]]))

    # Two versions that know the same events: all of them; an id that stands twice; ids in two orders; an id and an ancestor of it.
    same = [(answers[0], at(*heads)), (answers[0], at(*reversed(heads), *several)), (at(old), at(old, old)), (at(*several), at(*reversed(several))), (at(old), at(f"{agent}:0", old))]
    apart = concurrent(draws, lines) if lines else []
    if apart:
        same.append((at(*apart), at(*reversed(apart), apart[0])))
    if lines and any(one != other for one, other in same):
        beside.wrong(f"two versions of {name} that know the same events have two texts")
    at()
    at(draws.one_of(unknown))
    at(old, draws.one_of(unknown), draws.one_of(unknown))
    at(draws.one_of(unknown), old)
    at(draws.one_of(NO_VERSIONS))
    for version in (old, ",".join(several), draws.one_of(unknown), ",".join(reversed(heads)) or "root"):
        place_carets(beside, draws, name, version, len(ids))
    place_carets(beside, draws, name, draws.one_of(NO_VERSIONS), 1)
    tell_authors(beside, draws, name, answers[0][1], [old, ",".join(several), draws.one_of(unknown), draws.one_of(NO_VERSIONS)])
    undo_and_back(beside, draws, name, answers, [old, *several, draws.one_of(unknown), draws.one_of(NO_VERSIONS)])
    upgrade_twice(beside, name, answers)
    return answers


def place_carets(beside, draws, name, version, most):
    """Where carets of a version stand: the first, the last and others, and such that are behind its end."""
    for index in {0, draws.below(most + 1), draws.below(4), most + draws.below(2)}:
        beside.run("caret", *draws.one_of([[name, "--at", version, "--index", str(index)], [f"--index={index}", "--at=" + version, name]]))


def tell_authors(beside, draws, name, text, versions):
    """Who wrote what. A text with characters whose width depends on others beside them is shown whole."""
    plain = all(char == 10 or 32 <= char < 127 for char in text)
    for version in [[], *(["--at", version] for version in versions)]:
        beside.run("blame", name, *version, "--columns", str(draws.one_of([1, 2, 3, 7, 80, 1000] if plain else [1000])))


def undo_and_back(beside, draws, name, answers, firsts):
    """Undoes events of copies of a file. An undo of what an undo made gives the text back."""
    for first in firsts:
        beside.copy(name, "undone")
        agent = draws.one_of(["undoer", first.split(":")[0] or "a"])
        made = beside.run("undo", "undone", "--agent", agent, "--of", first, "--count", str(draws.one_of([1, 1, 2, 3, 10])))
        told = list_all(beside, "undone")
        lines = told[2][1].decode().split("\n")[:-1]
        if made[0] or made[1] == b"made 0\n":
            if told[:3] != answers[:3]:
                beside.wrong(f"an undo of {name} that made nothing changed it")
            continue
        own = [line.split(" ")[0] for line in lines][-int(made[1].split()[1]) :]
        beside.run("undo", "undone", "--agent", "other", "--of", own[0], "--count", str(len(own)))
        if beside.run("cat", "undone") != answers[0]:
            beside.wrong(f"an undo of an undo of {name} doesn't give the text back")


def upgrade_twice(beside, name, answers):
    """Upgrades a copy of a file twice. It says which version it read, and tells the same as the file."""
    beside.copy(name, "upgraded")
    first, again = beside.run("upgrade", "upgraded"), beside.run("upgrade", "upgraded")
    told = f"events {answers[2][1].decode().count(chr(10))}\n"
    texts = [(0, f"version {version} {told}".encode()) for version in (1, 2)]
    if first[0] == 0 and (first not in texts or again != texts[1] or any(beside.run(listing, "upgraded") != answers[place] for listing, place in (("cat", 0), ("log", 2)))):
        beside.wrong(f"{name} tells otherwise where it is upgraded")
    if first[0] and again != first:
        beside.wrong(f"{name} is upgraded although it was refused")


def versions(beside, draws):
    """Words that are a version or nearly one."""
    beside.part = "versions"
    beside.run("new", "F")
    beside.run("edit", "F", "--agent", "a", input=b"ins 0 abc\ndel 1 1")
    beside.run("edit", "F", "--agent", "root", input=b"ins 2 d")
    beside.file("bad", b"")
    good = ["root", "a:0", "a:1", "a:2", "a:3", "a:4", "a:0,a:3", "a:3,a:0", "a:2,a:2", "root:0", "root:1", "root:0,a:0", "a:3,root:0", "a:1,root:1,a:9", "b:0,a:9,a:0", "A:0",
            "a:4294967295", "a" * 32 + ":0", "0:0", "_-:0", "root-:0", "a:10", "a:1000000000", ",".join(["a:0"] * 20), ",".join(["a:0"] * 30000), ",".join(["a:0"] * 30000) + ",b:7"]
    tried = good + NO_VERSIONS
    for _ in range(200):
        version = list(draws.one_of(good[:-3]))
        place = draws.below(len(version))
        version[place : place + draws.below(2)] = draws.one_of("a:,-01r 9=")
        tried.append("".join(version))
    for version in tried:
        for line in (["F", "--at", version], ["--at=" + version, "F"]):
            beside.run("cat", *line)
        for file in ("nowhere", "bad"):
            beside.run("cat", file, "--at", version)
    beside.clear()
    return len(tried)


# Histories of several agents who edit apart and merge


def draw_text(draws):
    letters = "abcdefghijklmnopqrstuvwxyz     \n\\" + "äß√𝄞\u0000\r\U0010ffff"
    return "".join(draws.one_of(letters) for _ in range(1 + draws.below(8)))


def draw_script(draws, length):
    """A script of a few lines that are in range."""
    lines = []
    for _ in range(1 + draws.below(3)):
        if length and draws.below(3) == 0:
            at = draws.below(length)
            count = draws.below(min(4, length - at) + 1)
            lines.append(f"del {at} {count}")
            length -= count
        else:
            text = draw_text(draws)
            escaped = text.replace("\\", "\\\\").replace("\n", "\\n")
            lines.append(f"ins {draws.below(length + 1)} {escaped}")
            length += len(text)
    return ("\n".join(lines) + draws.one_of(["", "\n", "\n\n"])).encode()


def edit_once(beside, draws, name, agent):
    text = beside.run("cat", name)[1].decode()
    beside.run("edit", name, "--agent", agent, input=draw_script(draws, len(text)))


def mark_once(beside, draws, name, agent):
    """Marks a file, and then perhaps goes on with an insertion."""
    beside.run("edit", name, "--agent", agent, input=b"mark " + draws.one_of(LABELS) + draws.one_of([b"", b"\n", b"\nins 0 x"]))


def people(beside, draws):
    """Three people edit apart, set marks, merge now and then, and at the end in all orders."""
    agents = [draws.one_of(["a", "ab", "b", "B", "0", "_x", "z-9"]) + str(n) for n in range(3)]
    beside.run("new", "start")
    if draws.below(2):
        edit_once(beside, draws, "start", "base")
    for agent in agents:
        beside.copy("start", agent)
    for _ in range(2 + draws.below(3)):
        for agent in agents:
            if draws.below(4):
                edit_once(beside, draws, agent, agent)
            if draws.below(4) == 0:
                mark_once(beside, draws, agent, agent)
        if draws.below(2):
            beside.run("merge", draws.one_of(agents), draws.one_of(agents))
    for agent in agents:
        list_all(beside, agent)
    texts, haves = set(), set()
    for order in itertools.permutations(agents):
        beside.copy("start", "whole")
        for agent in order:
            beside.run("merge", "whole", agent)
        texts.add(beside.run("cat", "whole"))
        haves.add(beside.run("ask", "whole"))
        beside.run("check", "whole")
        beside.run("replay", "whole")
    if len(texts) != 1:
        beside.wrong("the orders of merging came to several texts")
    if len(haves) != 1:
        beside.wrong("the orders of merging came to several Haves")
    list_versions(beside, draws, "whole")
    beside.run("merge", agents[0], "whole")
    beside.run("merge", "whole", agents[0])
    beside.clear()
    return 4


# Event graphs of any form, and files that are damaged


LABELS = [b"m", b"draft", b"_", b"9-_Z", b"m" * 32]


def draw_version(draws):
    """A version of the event file."""
    return 1 + draws.below(2)


def draw_graph(draws, size):
    """Events with any reduced parents, each behind its agent's last. One of six is a mark, and some of these join all heads.

    Each second event is on the one before it alone, and then often goes on with what that one did.
    """
    history, last = History(), {}
    while len(history.events) < size:
        before = draws.one_of([None, history.events[-1]]) if history.events else None
        agent = before.id.agent if before else draws.one_of([b"a", b"b", b"c", b"d", b"ab"])
        parents = {last[agent]} if agent in last else set()
        for _ in range(0 if before else draws.below(3)):
            if history.events:
                parents.add(draws.one_of(history.events).id)
        is_mark = draws.below(6) == 0
        if is_mark and draws.below(2):
            parents |= set(history.heads()[:13])
        known = history.version(parents)
        covered = 0
        for parent in parents:
            covered |= history.ancestors[history.position[parent]]
        parents = tuple(sorted(p for p in parents if not covered >> history.position[p] & 1))
        length = sum(node.event & known != 0 and not node.deleters & known for node in history.walk())
        if is_mark:
            op = Op(None, None, draws.one_of(LABELS))
        elif before and before.op.ch is not None and draws.below(4):
            op = Op(before.op.at + 1, ord(draws.one_of("abc")))
        elif before and not before.op.label and before.op.ch is None and 0 < before.op.at < length and draws.below(4):
            op = Op(before.op.at - draws.below(2), None)
        elif length and draws.below(4) == 0:
            op = Op(draws.below(length), None)
        else:
            op = Op(draws.below(length + 1), ord(draws.one_of("abcdefghijklmnopqrstuvwxyz")))
        event = Event(Id(agent, history.count_of(agent)), parents, op)
        history.append(event)
        last[agent] = event.id
    return history.events


def graphs(beside, draws):
    """Two parts of one graph, each the version of a few ids, merged both ways."""
    events = draw_graph(draws, 3 + draws.below(22))
    # A part is a set of events with all their ancestors, in the same order.
    history = History()
    for event in events:
        history.append(event)
    parts, asked = [], []
    for _ in range(2):
        ids = [draws.one_of(events).id for _ in range(3)]
        known = history.version(set(ids))
        parts.append([event for position, event in enumerate(events) if known >> position & 1])
        asked.append(",".join(f"{id.agent.decode()}:{id.seq}" for id in ids))
    beside.files(**{name: file_of(part, draw_version(draws)) for name, part in (("graph", events), ("one", parts[0]), ("other", parts[1]))})
    list_versions(beside, draws, "graph")
    for name, version in zip(("one", "other"), asked):
        answers = list_versions(beside, draws, name)
        if beside.run("cat", "graph", "--at", version) != answers[0]:
            beside.wrong(f"the version {version} has another text than a file of its events alone")
    beside.copy("one", "kept")
    beside.run("merge", "one", "other")
    beside.run("merge", "other", "kept")
    beside.run("merge", "one", "graph")
    texts = {list_all(beside, name)[0] for name in ("one", "graph")}
    if len(texts) != 1:
        beside.wrong("two orders of one history came to several texts")
    beside.clear()
    return 3


def other_op(draws, op, more):
    """The operation with another index, or with another label."""
    return op._replace(label=draws.one_of(LABELS)) if op.label else op._replace(at=op.at + more)


def other_kind(op):
    """An operation of another kind."""
    if op.label:
        return Op(0, 65)
    return Op(None, None, b"m") if op.ch is None else Op(op.at, None)


def bad_events(draws, events):
    """One event changed, so that it may not be good any more, or clash with the one that it was."""
    place = draws.below(len(events))
    event = events[place]
    earlier = sorted(e.id for e in events[:place])
    choice = draws.below(4)
    if choice == 0:
        event = event._replace(op=other_op(draws, event.op, draws.below(40)))
    elif choice == 1:
        event = event._replace(parents=tuple(sorted({draws.one_of(earlier) for _ in range(3)} if earlier else ())))
    elif choice == 2:
        event = event._replace(id=Id(event.id.agent, event.id.seq + draws.below(3)))
    else:
        event = event._replace(op=other_kind(event.op))
    changed = events[:place] + [event] + events[place + 1 :]
    ids = [e.id for e in changed]
    held = set()
    for e in changed:
        if not held.issuperset(e.parents):
            return None
        held.add(e.id)
    return changed if len(set(ids)) == len(ids) else None


def damaged(beside, draws):
    """One file in which something is wrong, or perhaps nothing; and a good one to merge it with."""
    events, version = draw_graph(draws, 2 + draws.below(10)), draw_version(draws)
    good = file_of(events, version)
    content = bytearray(good[:-32])
    choice = draws.below(10)
    if choice == 0:
        data = good[: draws.below(len(good))]
    elif choice == 1:
        data = bytearray(good)
        data[draws.below(len(data))] ^= 1 << draws.below(8)
    elif choice == 2:
        data = with_digest(content[: 16 + draws.below(len(content) - 15)])
    elif choice == 3:
        data = with_digest(content + bytes(1 + draws.below(5)))
    elif choice < 7:
        place = 8 + draws.below(len(content) - 8)
        content[place] = draws.one_of([0, 1, 2, 3, 16, 17, 33, 45, 216, 255, content[place] ^ 1])
        data = with_digest(content)
    else:
        changed = bad_events(draws, events)
        data = good if changed is None else file_of(changed, version)
    beside.files(good=good, bad=bytes(data))
    list_versions(beside, draws, "bad")
    beside.run("edit", "bad", "--agent", "a", input=b"ins 0 x")
    beside.run("merge", "good", "bad")
    beside.run("merge", "bad", "good")
    beside.clear()
    return 1


def by_hand(beside, draws):
    """A file for each fault of a field, and the rows of docs/FORMATS.md."""
    beside.part = "files by hand"

    first, second = record(0, 0, [], 0, 0, 97), record(0, 1, [0], 0, 1, 98)
    other = record(1, 0, [], 0, 0, 99)
    files = [
        content([], []),
        content([b""], []),
        content([b"a" * 33], []),
        content([b"a" * 32], [first]),
        content([b"-a"], [first]),
        content([b"a b"], [first]),
        content([b"a", b"a"], [first, other]),
        content([b"b", b"a"], [first, other]),
        content([b"a"], [other]),
        content([b"a", b"b"], [other, first]),
        content([b"a", b"b"], [first]),
        content([b"a", b"b"], [first]) + b"\0",
        content([b"a"], [first, first]),
        content([b"a"], [first, record(0, 1, [0] * 17, 0, 1, 98)]),
        content([b"a"], [first, record(0, 1, [1], 0, 1, 98)]),
        content([b"a"], [first, record(0, 1, [0, 0], 0, 1, 98)]),
        content([b"b", b"a"], [first, other, record(0, 1, [0, 1], 0, 1, 98)]),
        content([b"b", b"a"], [first, other, record(0, 1, [1, 0], 0, 2, 98)]),
        content([b"a"], [first, record(0, 1, [0], 3, 1, 98)]),
        content([b"a"], [first, record(0, 1, [0], MARK, b"m" * 32), record(0, 2, [1], 1, 0)]),
        content([b"a"], [first, record(0, 1, [0], MARK, b"")]),
        content([b"a"], [first, record(0, 1, [0], MARK, b"m" * 33)]),
        content([b"a"], [first, record(0, 1, [0], MARK, b"-m")]),
        content([b"a"], [first, record(0, 1, [0], MARK, b"m")])[:-1],
        content([b"a"], [first, record(0, 1, [0], MARK, b"m")])[:-2],
        content([b"a"], [first, record(0, 1, [0], MARK, b"m")]) + b"m",
        content([b"b", b"a"], [first, record(0, 1, [0], MARK, b"a"), record(1, 0, [1], MARK, b"a")]),
        content([b"a"], [first, record(0, 1, [0], MARK, b"m"), record(0, 2, [0, 1], MARK, b"m")]),
        content([b"a"], [first, record(0, 2, [0], MARK, b"m")]),
        content([b"%c" % (97 + n) for n in range(17)], [*(record(n, 0, [], 0, 0, 97) for n in range(16)), record(16, 0, range(16), MARK, b"m")]),
        content([b"%c" % (97 + n) for n in range(18)], [*(record(n, 0, [], 0, 0, 97) for n in range(17)), record(17, 0, range(17), MARK, b"m")]),
        content([b"a"], [record(0, 0, [], 0, 0, 0xD800)]),
        content([b"a"], [record(0, 0, [], 0, 0, 0xDFFF)]),
        content([b"a"], [record(0, 0, [], 0, 0, 0xE000)]),
        content([b"a"], [record(0, 0, [], 0, 0, 0x10FFFF)]),
        content([b"a"], [record(0, 0, [], 0, 0, 0x110000)]),
        content([b"a"], [record(0, 0, [], 1, 0)]),
        content([b"a"], [record(0, 0, [], 0, 1, 97)]),
        content([b"a"], [record(0, 1, [], 0, 0, 97)]),
        content([b"a"], [record(0, 4294967295, [], 0, 4294967295, 97)]),
        content([b"a"], [first, second, record(0, 2, [0, 1], 0, 0, 97)]),
        content([b"a", b"b"], [first, second, record(1, 0, [0, 1], 0, 9, 97)]),
        content([b"a", b"b"], [first, second, record(1, 1, [0], 0, 9, 97)]),
        content([b"a"], [first], count=MOST_EVENTS),
        content([b"a"], [first], count=MOST_EVENTS + 1),
        content([b"a"], [first, second])[:8] + b"\xff\xff\xff\xff",
        content([b"a"], [first, second])[:-1],
        *files_2(),
    ]
    for number, data in enumerate(files):
        name = f"file{number}"
        beside.file(name, with_digest(data))
        list_versions(beside, draws, name)
        beside.clear()
    good = with_digest(content([b"a"], [first, second]))
    for data in (b"", good[:47], good[:48], good[:-1], good + b"\0", b"EGWFILF" + good[7:], b"EGWFILE\x02" + good[8:], b"EGWFILE\x03" + good[8:]):
        beside.file("bytes", data)
        list_versions(beside, draws, "bytes")
    beside.clear()
    return len(files) + 8 + page_rows(beside, draws)


def files_2():
    """Files of version 2 for each fault of a record, and good ones; each run begins behind the letters of `a`."""
    letters = run(0, 0, [], INSERT, 0, b"abcdefgh")

    def of(*runs, names=(b"a", b"b"), count=None, letters=letters):
        """A file of the letters and these runs, each with the number of its events."""
        return content_2(names, [letters, *(one for one, _ in runs)], 8 + sum(size for _, size in runs) if count is None else count)

    def b(seq, parent, kind, at, what):
        """A run of `b` on one event, and the number of its events."""
        return run(1, seq, [parent], kind, at, what), 1 if kind == MARK else what if isinstance(what, int) else len(what)

    return [
        content_2([], [], 0),
        of(names=[b"a"]),
        of(b(0, 7, INSERT, 3, b"xyz")),
        of(b(0, 2, INSERT, 3, b"xyz")),
        of(b(0, 7, DELETE, 3, 1)),
        of(b(0, 7, DELETE, 3, 4)),
        of(b(0, 7, DELETE, 3, 6)),
        of(b(0, 7, FALLING, 7, 8)),
        of(b(0, 7, FALLING, 7, 9)),
        of(b(0, 7, FALLING, 7, 1)),
        of(b(0, 7, MARK, None, b"m")),
        of(b(0, 7, MARK, None, b"")),
        of(b(0, 7, MARK, None, b"-")),
        of(b(0, 7, INSERT, 3, (0, b""))),
        of(b(0, 7, INSERT, 3, (2, b"x"))),
        of(b(0, 7, INSERT, 3, (2, b"x")), count=10),
        of(b(0, 7, INSERT, 3, (1, b"xy"))),
        of(b(0, 7, INSERT, 3, [0xD7FF, 0xD800])),
        of(b(0, 7, INSERT, 3, [0x110000])),
        of(b(0, 7, DELETE, 3, 0), count=9),
        of(b(0, 7, DELETE, 3, 4294967295), count=9),
        of(b(0, 7, 4, 3, 1), count=9),
        of(b(0, 7, DELETE, 3, 1), b(1, 8, DELETE, 3, 1)),
        of(b(0, 7, DELETE, 3, 1), b(1, 8, FALLING, 2, 2)),
        of(b(0, 7, DELETE, 3, 1), b(1, 8, DELETE, 4, 1)),
        of(b(0, 7, DELETE, 3, 2), b(2, 9, DELETE, 2, 1)),
        of(b(0, 7, FALLING, 3, 2), b(2, 9, DELETE, 1, 1)),
        of(b(0, 7, FALLING, 3, 2), b(2, 9, DELETE, 2, 2)),
        of(b(0, 7, INSERT, 3, b"x"), b(1, 8, INSERT, 4, b"y")),
        of(b(0, 7, INSERT, 3, b"x"), b(1, 8, INSERT, 3, b"y")),
        of(b(0, 7, INSERT, 3, b"x"), b(1, 8, DELETE, 3, 1)),
        of(b(0, 7, INSERT, 3, b"x"), b(1, 8, MARK, None, b"m"), b(2, 9, INSERT, 4, b"y")),
        of(b(0, 7, INSERT, 3, b"x"), b(2, 8, INSERT, 4, b"y")),
        of(b(0, 7, INSERT, 3, b"x"), b(1, 7, INSERT, 4, b"y")),
        of(b(2, 7, INSERT, 3, b"x"), b(0, 8, INSERT, 4, b"yz")),
        of(b(2, 7, INSERT, 3, b"x"), b(0, 8, INSERT, 4, b"xyz")),
        of(b(2, 7, INSERT, 3, b"x"), b(2, 8, INSERT, 4, b"xyz")),
        of(b(4294967294, 7, DELETE, 3, 2)),
        of(b(4294967295, 7, DELETE, 3, 2)),
        of(b(0, 7, INSERT, 4294967294, b"xy")),
        of(b(0, 7, INSERT, 4294967295, b"xy")),
        of(b(0, 7, FALLING, 4294967295, 8)),
        of(b(0, 8, DELETE, 3, 1)),
        of((run(2, 0, [7], DELETE, 3, 1), 1)),
        of((run(0, 8, [7], INSERT, 8, b"i"), 1)),
        of((run(0, 9, [7], INSERT, 8, b"i"), 1)),
        of((run(0, 8, [6], INSERT, 7, b"i"), 1)),
        of((run(1, 0, [3, 7], DELETE, 3, 1), 1)),
        of((run(1, 0, [7, 3], DELETE, 3, 1), 1)),
        of((run(1, 0, [7] * 17, DELETE, 3, 1), 1)),
        of(b(0, 7, DELETE, 3, 1))[:-1],
        of(b(0, 7, DELETE, 3, 1))[:-5],
        of(b(0, 7, DELETE, 3, 1)) + b"\0",
        of(count=7),
        of(count=9),
        of(count=MOST_EVENTS),
        of(count=MOST_EVENTS + 1),
        content_2([b"a"], [run(0, 0, [], DELETE, 0, 10_000)], 10_000),
        content_2([b"a"], [run(0, 0, [], FALLING, 4294967295, 10_000)], 10_000),
        content([b"a", b"b"], [record(0, 0, [], INSERT, 0, 97), record(1, 0, [0], FALLING, 0)]),
    ]


def page_rows(beside, draws):
    """The rows of the page: what each says of the text and the cuts, and of versions and changes."""
    page = (ROOT / "docs" / "FORMATS.md").read_text()
    rows = re.findall(r"^\| (`.*) \| `(\w+)` \| ([0-9, ]+) \|$", page, re.MULTILINE)
    if not rows:
        beside.wrong("docs/FORMATS.md has no rows")
    histories = []
    for lines, text, cuts in rows:
        events = [event_of(line) for line in re.findall(r"`([^`]*)`", lines)]
        beside.file("row", file_of(events))
        answers = list_versions(beside, draws, "row")
        if answers[0] != (0, text.encode()) or f"cuts {len(cuts.split(', '))}\n" not in answers[3][1].decode():
            beside.wrong(f"the row with the text {text} of docs/FORMATS.md is another")
        histories.append(events)
    told = re.findall(r"^\| .* \| (`.*(?: `\w+`| nothing)) \| (`ins .*`) \|$", page, re.MULTILINE)
    if len(told) != len(TOLD):
        beside.wrong(f"docs/FORMATS.md has {len(told)} rows of versions and changes, not {len(TOLD)}")
    for (texts, changes), (place, *orders) in zip(told, TOLD):
        page_versions(beside, histories[place - 1], texts, changes, orders)
    beside.clear()
    return len(rows)


# Which of the histories of the page each row of versions and changes is about, and the orders of its agents, one for each list of changes.
TOLD = [(2, b"ab", b"ba"), (5, b"abcd"), (6, b"abc", b"acb"), (10, b"abcd", b"bacd")]


def page_versions(beside, events, texts, changes, orders):
    """One row of the page of versions and changes."""
    beside.file("row", file_of(events))
    for version, text in re.findall(r"`([^`]*)` (?:`([^`]*)`|nothing)", texts):
        if beside.run("cat", "row", "--at", version) != (0, text.encode()):
            beside.wrong(f"the text of {version} in docs/FORMATS.md is another")
    haves = set()
    for told, order in itertools.zip_longest(changes.split("; with "), orders):
        beside.file("row", file_of(sorted(events, key=lambda event: order.index(event.id.agent))))
        haves.add(beside.run("ask", "row"))
        wanted = re.findall(r"`(ins [^`]*|del [^`]*|nothing)`", told)
        if beside.run("replay", "row")[1].decode().splitlines()[-len(wanted) :] != wanted:
            beside.wrong(f"the changes {told} of docs/FORMATS.md are others")
    if len(haves) != 1:
        beside.wrong("two orders of one history came to several Haves")


def event_of(line):
    """The event of a line as `log` prints it."""

    def id_of(text):
        agent, seq = text.split(":")
        return Id(agent.encode(), int(seq))

    id, parents, kind, what, *ch = line.split(" ")
    known = () if parents == "root" else tuple(id_of(parent) for parent in parents.split(","))
    op = Op(None, None, what.encode()) if kind == "mark" else Op(int(what), ord(ch[0]) if kind == "ins" else None)
    return Event(id_of(id), known, op)


# Sessions


def sent(event):
    """An event as it stands in a frame."""
    return event_bytes(event.id, event.parents, *parts_of(event.op))


def draw_event(draws, events):
    """One of the events, perhaps changed in one thing."""
    event = draws.one_of(events)
    choice = draws.below(24)
    if choice == 0:
        event = event._replace(op=other_op(draws, event.op, draws.below(30)))
    elif choice == 1:
        event = event._replace(parents=tuple(draws.one_of(events).id for _ in range(draws.below(4))))
    elif choice == 2:
        event = event._replace(id=Id(b"new", draws.below(3)))
    elif choice == 3:
        event = event._replace(parents=tuple(Id(b"p%02d" % n, 0) for n in range(16 + draws.below(2))))
    elif choice == 4:
        event = event._replace(parents=(*event.parents, event.id))
    elif choice == 5:
        event = event._replace(op=other_kind(event.op))
    return event


def draw_frame(draws, events):
    """A frame of any kind, most of them with events."""
    kind = draws.below(20)
    if kind < 4:
        agents = sorted({draws.one_of(events).id.agent for _ in range(draws.below(4))})
        return frame(1, counted([id_bytes(Id(agent, 1 + draws.below(5))) for agent in agents]))
    if kind < 7:
        start = draws.below(len(events))
        return frame(2, counted([sent(event) for event in events[start : start + 1 + draws.below(8)]]))
    if kind < 15:
        return frame(2, counted([sent(draw_event(draws, events)) for _ in range(draws.below(7))]))
    if kind < 17:
        return draws.one_of([frame(3), frame(4, bytes(16))])
    return draws.one_of([frame(6), frame(6), frame(5, id_bytes(events[0].id)), frame(draws.below(9), bytes(draws.below(3)))])


def sessions(beside, draws):
    """Peers who send frames of all kinds, some of them damaged, to one who holds a part of the events."""
    beside.part = "sessions"
    count = share(400)
    for _ in range(count):
        events = draw_graph(draws, 2 + draws.below(12))
        beside.file("F", file_of(events[: draws.below(len(events) + 1)], draw_version(draws)))
        data = bytearray(b"".join(draw_frame(draws, events) for _ in range(1 + draws.below(6))))
        choice = draws.below(8)
        if choice == 0:
            del data[draws.below(len(data)) :]
        elif choice == 1:
            data[draws.below(len(data))] ^= 1 << draws.below(8)
        elif choice < 4:
            data += frame(6)
        beside.run("serve", "F", input=bytes(data))
        beside.run("log", "F")
        beside.clear()
    return count + session_rows(beside)


def session_rows(beside):
    """The rows of the page on sessions."""
    page = (ROOT / "docs" / "FORMATS.md").read_text()
    rows = re.findall(r"^\| (?:`([0-9a-f ]+)`|the output of the first row) \| (?:`([0-9a-f ]+)`|none) \| (\d)(?:, `(egw: .*)`)? \|$", page, re.MULTILINE)
    if len(rows) != 9:
        beside.wrong(f"docs/FORMATS.md has {len(rows)} rows of sessions, not 9")
    first, second, third = (Event(Id(b"a", n), (Id(b"a", n - 1),) if n else (), Op(n, 97 + n)) for n in range(3))
    for asked, answered, status, _ in rows:
        beside.file("F", file_of([first, second, third]))
        got = beside.run("serve", "F", input=bytes.fromhex(asked or rows[0][1]))
        if got != (int(status), bytes.fromhex(answered)):
            beside.wrong(f"the row of docs/FORMATS.md on the frames {asked} is another")
    beside.file("F", file_of([]))
    beside.run("serve", "F", input=bytes.fromhex(rows[0][1]))
    beside.run("log", "F")
    beside.clear()
    return len(rows)


# Scripts with bad lines


LINES = [b"", b"ins 0 x", b"ins 0 ", b"ins 0", b"ins  0 x", b" ins 0 x", b"ins 0  x ", b"ins 00 x", b"ins 1 \\n\\\\", b"ins 0 \\", b"ins 0 a\\t",
         b"ins 0 a\\\\\\n", b"ins 4 x", b"ins 4 ", b"ins 3 x", b"ins +1 x", b"ins -1 x", b"ins 4294967295 x", b"ins 4294967296 x", b"ins 1\tx",
         b"ins 18446744073709551616 x", b"ins " + b"9" * 5000 + b" x", b"ins 0 \xc3\xa4\xf0\x9d\x84\x9e", b"ins 0 \xc3", b"ins 0 \xed\xa0\x80",
         b"ins 0 \xc0\x80", b"ins 0 \xf4\x90\x80\x80", b"ins 0 a\rb\0c", b"ins 0 x\r", b"INS 0 x", b"ins x 0", b"del 0 1", b"del 0 0", b"del 3 0", b"del 4 0",
         b"del 2 1", b"del 2 2", b"del 0 4", b"del 0 3", b"del 0", b"del 0 ", b"del 0 1 ", b"del 0  1", b"del 01 1", b"del 0 01", b"del 0 4294967295",
         b"del 4294967295 4294967295", b"del 0 4294967296", b"del 0 -1", b"del 0 1\r", b"del a 1", b"dele 0 1", b"del", b"ins", b"x", b" ", b"\xff",
         b"mark m", b"mark", b"mark ", b"mark  m", b" mark m", b"mark m ", b"mark m\r", b"mark a b", b"mark -x", b"mark x-", b"mark " + b"m" * 32,
         b"mark " + b"m" * 33, b"MARK m", b"marks m", b"mark \\n", b"mark \xc3\xa4", b"mark 0", b"mark _", b"\xef\xbb\xbfins 0 x", "del ٣ ٤".encode(), "ins ١ x".encode()]


def scripts(beside, draws):
    beside.part = "scripts"
    beside.run("new", "text")
    beside.run("edit", "text", "--agent", "a", input=b"ins 0 abc")
    inputs = LINES + [line + b"\n" for line in LINES] + [b"ins 0 y\n" + line + b"\n" for line in LINES] + [b"\n\n" + line + b"\n\nnonsense" for line in LINES]
    for _ in range(200):
        line = bytearray(draws.one_of(LINES))
        if line:
            line[draws.below(len(line))] = draws.one_of(b"0 \\n1\n-x9")
        inputs.append(b"\n".join([draws.one_of(LINES), bytes(line), draws.one_of(LINES)]))
    beside.copy("text", "kept")
    for script in inputs:
        beside.copy("kept", "text")
        beside.run("edit", "text", "--agent", "b", input=script)
    beside.run("log", "text")
    beside.clear()
    return len(inputs)


# Lines of words


WORDS = ["undo", "caret", "blame", "watch", "export", "new", "edit", "cat", "heads", "log", "check", "merge", "replay", "ask", "serve", "make", "net", "marks", "upgrade", "F", "F", "F", "G", "--agent", "--agent", "--agent=a", "--agent=", "--agent==a", "a",
         "-", "--", "--", "", "-h", "--help", "help", "-V", "--version", "--at", "--at", "--at=", "--at=root", "--at=a:1", "root", "a:0", "a:2,a:0", "b:0", "--seed", "--seed=7", "--count", "--count=3", "--of", "--of=a:1", "--index", "--index=1", "--columns", "--columns=9", "7", "-F", "--agents", "--agen", "-agent", "---", "--=", "a" * 32, "a" * 33, "-1", "ä", "-ä", "=", "a b"]
TAKEN = [["edit", "F", "--agent", "a"], ["edit", "--agent", "a", "F"], ["edit", "--agent=a", "--", "F"], ["edit", "F", "--agent=a"], ["edit", "--agent", "a", "--", "-F"],
         ["edit", "F", "--", "--agent", "a"], ["edit", "F", "--agent", "--", "a"], ["edit", "F", "--agent", "a", "--agent", "a"], ["edit", "F", "--agent", "a", "--agent=a"],
         ["edit", "--agent", "--agent", "a", "F"], ["edit", "F", "--agent", "-"], ["edit", "F", "--agent", ""], ["edit", "F", "--agent", "a", "--"], ["edit", "--", "F"],
         ["cat", "--", "F"], ["cat", "--", "--"], ["cat", "F", "--"], ["cat", "-"], ["cat", ""], ["cat", "--", "-F"], ["cat", "-F"], ["merge", "F", "--", "G"], ["merge", "--", "F", "G"],
         ["merge", "F", "G", "--"], ["merge", "F"], ["merge", "F", "G", "H"], ["merge", "F", "F"], ["merge", "F", "--agent", "G"], ["cat", "F", "G"], ["--", "cat", "F"], [],
         ["help"], ["help", "cat"], ["cat", "help"], ["cat", "--help"], ["cat", "F", "--help"], ["--help"], ["-h"], ["cat", "F", "-h"], ["edit", "F", "--agent", "-h"],
         ["edit", "F", "--agent", "a" * 32], ["edit", "F", "--agent", "a" * 33], ["edit", "F", "--agent", "a.b"], ["edit", "F", "--agent", "_-"], ["new", "G"], ["new", "F"],
         ["Cat", "F"], ["cat ", "F"], ["heads", "G"], ["log", "G"], ["check", "G"], ["merge", "F", "nothing"], ["merge", "nothing", "F"], ["cat", "F", "--at", "a:0"], ["replay", "F"],
         ["cat", "F", "--at", "root"], ["cat", "--at", "root", "F"], ["cat", "F", "--at=a:0"], ["cat", "--at=a:0", "F"], ["cat", "--at=a:0", "--", "F"], ["cat", "--at", "a:0", "--", "F"],
         ["cat", "F", "--at", "a:0", "--"], ["cat", "--at", "a:0", "--", "-F"], ["cat", "--at", "a:0", "-F"], ["cat", "F", "--", "--at", "a:0"], ["cat", "F", "--", "--at=a:0"],
         ["cat", "--", "F", "--at", "a:0"], ["cat", "--", "--at"], ["cat", "--", "--at=a:0"], ["cat", "--at", "--", "F"], ["cat", "F", "--at"], ["cat", "--at", "F"], ["cat", "--at"],
         ["cat", "F", "--at="], ["cat", "F", "--at", ""], ["cat", "F", "--at", "--", "a:0"], ["cat", "F", "--at", "--"], ["cat", "F", "--at", "-"], ["cat", "F", "--at", "-a:0"],
         ["cat", "F", "--at=-a:0"], ["cat", "F", "--at==a:0"], ["cat", "F", "--at=a:0="], ["cat", "F", "--at", "=a:0"], ["cat", "F", "--at", "a:0", "--at", "a:0"],
         ["cat", "F", "--at=a:0", "--at", "a:0"], ["cat", "F", "--at=a:0", "--at=a:0"], ["cat", "F", "--at", "--at", "a:0"], ["cat", "F", "--at", "--at=a:0"], ["cat", "F", "--at", "x", "--at", "a:0"],
         ["cat", "F", "--at a:0"], ["cat", "F", "--at:a:0"], ["cat", "F", "-at", "a:0"], ["cat", "F", "-at=a:0"], ["cat", "F", "--a", "a:0"], ["cat", "F", "--att", "a:0"], ["cat", "F", "--AT", "a:0"],
         ["cat", "F", "--agent", "a"], ["cat", "F", "--agent=a"], ["cat", "F", "--at", "a:0", "--agent", "a"], ["edit", "F", "--agent", "a", "--at", "a:0"], ["edit", "F", "--at", "a:0"],
         ["heads", "F", "--at", "a:0"], ["log", "F", "--at", "a:0"], ["check", "F", "--at", "a:0"], ["replay", "F", "--at", "a:0"], ["replay", "F", "--at=a:0"], ["merge", "F", "G", "--at", "a:0"],
         ["new", "H", "--at", "root"], ["cat", "F", "G", "--at", "a:0"], ["cat", "--at", "a:0"], ["cat", "--at=a:0"], ["cat", "nowhere", "--at", "a:0"], ["cat", "nowhere", "--at", "x"],
         ["cat", "nowhere", "--at", "b:0"], ["cat", "", "--at", "a:0"], ["cat", "-", "--at", "a:0"], ["cat", "F", "--at", "a:0", "--help"], ["cat", "F", "--at", "--help"], ["cat", "F", "--at", "-h"],
         ["cat", "F", "--at", "help"], ["cat", "F", b"--at=\xff"], ["cat", "F", "--at", b"a:0\xff"], ["cat", b"\xff", "--at", "a:0"], ["--at", "a:0", "cat", "F"],
         ["replay"], ["replay", "F", "G"], ["replay", "--", "F"], ["replay", "F", "--"], ["replay", "--", "-F"], ["replay", "-F"], ["replay", "G"], ["replay", "nowhere"], ["replay", ""], ["replay", "-"],
         ["replay", "F", "--agent", "a"], ["replay", "--agent=a", "F"], ["replay", "F", "--help"], ["Replay", "F"], ["replay ", "F"], ["replays", "F"], [b"replay", b"\xff"], ["help", "replay"],
         ["ask", "F"], ["ask"], ["ask", "F", "G"], ["ask", "F", "F"], ["ask", "--", "F"], ["ask", "F", "--"], ["ask", "--", "--"], ["ask", "--"], ["ask", "--", "-F"], ["ask", "--", "F", "G"], ["ask", "-F"],
         ["ask", "G"], ["ask", "nowhere"], ["ask", ""], ["ask", "-"], ["ask", "F", "--agent", "a"], ["ask", "--agent=a", "F"], ["ask", "F", "--at", "a:0"], ["ask", "F", "--at=a:0"],
         ["ask", "--at", "root", "F"], ["ask", "F", "--", "--at"], ["ask", "F", "--help"], ["ask", "F", "-h"], ["ask", "help"], ["help", "ask"], ["Ask", "F"], ["ASK", "F"], ["ask ", "F"], [" ask", "F"],
         ["ask\n", "F"], ["asks", "F"], ["as", "F"], ["--", "ask", "F"], [b"ask", b"\xff"],
         ["marks", "F"], ["marks"], ["marks", "F", "G"], ["marks", "F", "F"], ["marks", "--", "F"], ["marks", "F", "--"], ["marks", "--", "-F"], ["marks", "-F"], ["marks", "G"], ["marks", "nowhere"], ["marks", ""],
         ["marks", "F", "--agent", "a"], ["marks", "F", "--at", "a:0"], ["marks", "F", "--help"], ["help", "marks"], ["Marks", "F"], ["mark", "F"], ["marks ", "F"], [b"marks", b"\xff"],
         ["upgrade", "F"], ["upgrade"], ["upgrade", "F", "G"], ["upgrade", "F", "F"], ["upgrade", "--", "F"], ["upgrade", "F", "--"], ["upgrade", "--", "-F"], ["upgrade", "-F"], ["upgrade", "G"], ["upgrade", "nowhere"],
         ["upgrade", ""], ["upgrade", "F", "--agent", "a"], ["upgrade", "F", "--at", "a:0"], ["upgrade", "F", "--help"], ["help", "upgrade"], ["Upgrade", "F"], ["upgrades", "F"], ["upgrade ", "F"], [b"upgrade", b"\xff"],
         ["watch", "--agent", "a"], ["watch"], ["watch", "--agent"], ["watch", "--agent=a"], ["watch", "--agent=a", "--"], ["watch", "--", "--agent", "a"], ["watch", "--agent", "a", "F"], ["watch", "F", "--agent", "a"],
         ["watch", "--agent", "a", "--", "F"], ["watch", "--agent", "-a"], ["watch", "--agent=-a"], ["watch", "--agent", ""], ["watch", "--agent="], ["watch", "--agent", "-"], ["watch", "--agent", "a" * 32], ["watch", "--agent", "a" * 33],
         ["watch", "--agent", "a.b"], ["watch", "--agent", "a", "--agent", "a"], ["watch", "--agent=a", "--agent=b"], ["watch", "--at", "root"], ["watch", "--agent", "a", "--at", "root"], ["watch", "--agent", "a", "--help"], ["watch", ""],
         ["watch", "-"], ["help", "watch"], ["Watch", "--agent", "a"], ["watches", "--agent", "a"], ["--agent", "a", "watch"], [b"watch", b"--agent", b"\xff"],
         ["export", "E"], ["export", "E"], ["export"], ["export", "F"], ["export", "E2", "F"], ["export", "--", "E3"], ["export", "E4", "--"], ["export", "--", "-E"], ["export", "-E"], ["export", ""], ["export", "-"],
         ["export", "nowhere/E"], ["export", "F/E"], ["export", "E5", "--agent", "a"], ["export", "E5", "--at", "root"], ["export", "E5", "--help"], ["help", "export"], ["Export", "E5"], ["exports", "E5"], [b"export", b"\xff"],
         ["undo", "F", "--agent", "b", "--of", "a:0", "--count", "1"], ["undo", "--count=1", "--of=a:0", "--agent=b", "F"], ["undo", "--count=1", "--of=a:0", "--agent=b", "--", "F"], ["undo", "F"], ["undo"],
         ["undo", "F", "--agent", "b", "--of", "a:0"], ["undo", "F", "--agent", "b", "--count", "1"], ["undo", "F", "--of", "a:0", "--count", "1"], ["undo", "F", "--agent", "b", "--of", "a", "--count", "1"],
         ["undo", "F", "--agent", "b", "--of", "a:00", "--count", "1"], ["undo", "F", "--agent", "b", "--of", "root", "--count", "1"], ["undo", "F", "--agent", "b", "--of", "a:0,a:1", "--count", "1"],
         ["undo", "F", "--agent", "b", "--of=", "--count", "1"], ["undo", "F", "--agent", "b", "--of", "a:4294967295", "--count", "1000000"], ["undo", "F", "--agent", "b", "--of", "a:4294967296", "--count", "1"],
         ["undo", "F", "--agent", "-b", "--of", "a:0", "--count", "1"], ["undo", "F", "--agent", "b", "--of", "a:0", "--of", "a:0", "--count", "1"], ["undo", "F", "G", "--agent", "b", "--of", "a:0", "--count", "1"],
         *(["undo", "F", "--agent", "b", "--of", "a:0", f"--count={count}"] for count in ("0", "-0", "+1", "++1", "01", "1000000", "1000001", "", "-", "x", "-1", "4294967297", "1 ")),
         ["undo", "nowhere", "--agent", "b", "--of", "a:0", "--count", "1"], ["undo", "F", "--at", "a:0", "--agent", "b", "--of", "a:0", "--count", "1"], ["undo", "F", "--help"], ["Undo", "F"], ["help", "undo"],
         ["caret", "F", "--at", "a:0", "--index", "0"], ["caret", "--index=1", "--at=a:0", "F"], ["caret", "--index=1", "--at=a:0", "--", "F"], ["caret", "F"], ["caret"], ["caret", "F", "--at", "a:0"], ["caret", "F", "--index", "0"],
         ["caret", "F", "--at", "x", "--index", "0"], ["caret", "F", "--at", "a:0", "--at", "a:0", "--index", "0"], ["caret", "F", "--at", "a:0", "--index", "0", "--index", "0"], ["caret", "F", "G", "--at", "a:0", "--index", "0"],
         *(["caret", "F", "--at", "a:2", f"--index={index}"] for index in ("-0", "-00", "+3", "++3", "03", "3", "4", "4294967295", "4294967296", "", "-", "x", "-1", " 1")),
         ["caret", "nowhere", "--at", "a:0", "--index", "0"], ["caret", "F", "--agent", "a", "--at", "a:0", "--index", "0"], ["caret", "F", "--help"], ["Caret", "F"], ["help", "caret"],
         ["blame", "F", "--columns", "80"], ["blame", "--columns=80", "F"], ["blame", "--columns=80", "--", "F"], ["blame", "F"], ["blame"], ["blame", "F", "--columns", "80", "--at", "a:0"], ["blame", "F", "--at", "a:0"],
         ["blame", "F", "--at", "x", "--columns", "80"], ["blame", "F", "--columns", "80", "--columns", "80"], ["blame", "F", "--columns", "80", "--at", "a:0", "--at", "a:0"], ["blame", "F", "G", "--columns", "80"],
         *(["blame", "F", f"--columns={columns}"] for columns in ("0", "-0", "1", "+1", "++1", "01", "1000", "1001", "", "-", "x", "-1", "4294967297")),
         ["blame", "nowhere", "--columns", "80"], ["blame", "F", "--agent", "a", "--columns", "80"], ["blame", "F", "--help"], ["Blame", "F"], ["help", "blame"],
         ["make", "--seed", "1", "--count", "1"], ["make", "--count", "1", "--seed", "1"], ["make", "--seed=1", "--count=1"], ["make", "--seed=1", "--count", "1"], ["make", "--count=1", "--seed", "1"],
         ["make", "--seed", "1"], ["make", "--count", "1"], ["make"], ["make", "--seed", "1", "--count"], ["make", "--seed", "--count", "1"], ["make", "--seed=", "--count=1"], ["make", "--seed=1", "--count="],
         ["make", "--seed=1", "--seed=1", "--count=1"], ["make", "--seed=1", "--count=1", "--count=1"], ["make", "--seed=1", "--count=1", "--"], ["make", "--", "--seed=1", "--count=1"],
         ["make", "F", "--seed=1", "--count=1"], ["make", "--seed=1", "F", "--count=1"], ["make", "--seed=1", "--count=1", "F"], ["make", "--seed=1", "--count=1", "--", "F"], ["make", "--seed=1", "--count=1", "-"],
         ["make", "--seed=1", "--count=1", ""], ["make", "--seed=1", "--count=1", "--agent=a"], ["make", "--seed=1", "--count=1", "--at", "root"], ["make", "--seed=1", "--count=1", "--help"],
         ["make", "--seed", "-1", "--count=1"], ["make", "--seed=-1", "--count=1"], ["make", "--seed=1", "--count", "-1"], ["make", "--seed=1", "--count=-1"], ["make", "--seed=1", "--count=-0"],
         ["make", "--seed=1", "--count=-000"], ["make", "--seed=1", "--count=-01"], ["make", "--seed=1", "--count=--0"], ["make", "--seed=1", "--count=+-0"], ["make", "--seed=1", "--count=-+0"],
         ["make", "--seed=1", "--count=-"], ["make", "--seed=1", "--count", "-0"], ["make", "--seed=1", "--count", "-"], ["make", "--seed=-0", "--count=1"], ["make", "--seed", "-0", "--count=1"],
         ["make", "--seed=1", "--count=-" + "0" * 5000],
         ["make", "--seed=+1", "--count=+1"], ["make", "--seed=++1", "--count=1"], ["make", "--seed=1", "--count=+"], ["make", "--seed=+", "--count=1"], ["make", "--seed=0", "--count=0"], ["make", "--seed=01", "--count=1"],
         ["make", "--seed=1", "--count=0001"], ["make", "--seed=1", "--count=" + "0" * 5000 + "2"], ["make", "--seed=" + "0" * 5000 + "7", "--count=2"], ["make", "--seed=+007", "--count=002"],
         ["make", "--seed=18446744073709551615", "--count=3"], ["make", "--seed=18446744073709551616", "--count=3"], ["make", "--seed=" + "9" * 5000, "--count=3"], ["make", "--seed=4294967296", "--count=3"],
         ["make", "--seed=1", "--count=1000001"], ["make", "--seed=1", "--count=4294967296"], ["make", "--seed=1", "--count=4294967297"], ["make", "--seed=1", "--count=18446744073709551617"], ["make", "--seed=1", "--count=" + "9" * 5000],
         ["make", "--seed= 1", "--count=1"], ["make", "--seed=1 ", "--count=1"], ["make", "--seed=1\n", "--count=1"], ["make", "--seed=1", "--count=1_0"], ["make", "--seed=1", "--count=1e1"], ["make", "--seed=0x1", "--count=1"],
         ["make", "--seed=1.0", "--count=1"], ["make", "--seed=a", "--count=1"], ["make", "--seed=1", "--count=b"], ["make", "--seed=٣", "--count=1"], ["make", "--seed=1", "--count=٣"], ["make", b"--seed=\xff", "--count=1"],
         ["make", "--seed=1", b"--count=1\xff"], ["make", "--see=1", "--count=1"], ["make", "--seeds=1", "--count=1"], ["make", "-seed=1", "--count=1"], ["--seed=1", "make", "--count=1"], ["Make", "--seed=1", "--count=1"],
         ["make ", "--seed=1", "--count=1"], ["help", "make"], ["cat", "F", "--seed=1"], ["new", "H", "--count=1"], ["merge", "F", "G", "--seed=1", "--count=1"], ["edit", "F", "--agent=a", "--count=1"],
         ["serve", "F"], ["serve"], ["serve", "F", "G"], ["serve", "--", "F"], ["serve", "F", "--"], ["serve", "-F"], ["serve", "--", "-F"], ["serve", "nowhere"], ["serve", ""], ["serve", "F", "--agent", "a"],
         ["serve", "F", "--at", "a:0"], ["serve", "F", "--help"], ["help", "serve"], ["Serve", "F"], ["serves", "F"], [b"serve", b"\xff"], ["net"], ["net", "F"], ["net", "--"], ["net", "--", "F"], ["net", ""], ["net", "-"], ["net", "--agent", "a"], ["net", "--at", "root"], ["net", "--help"], ["help", "net"], ["Net"], ["nets"], ["net", "net"], [b"cat", b"\xff"], [b"\xff", b"F"]]


def words(beside, draws):
    beside.part = "words"
    beside.run("new", "F")
    beside.run("edit", "F", "--agent", "a", input=b"ins 0 abc")
    beside.copy("F", "kept")
    lines = TAKEN + [[draws.one_of(WORDS[:19])] + [draws.one_of(WORDS) for _ in range(draws.below(6))] for _ in range(400)]
    lines += [["edit"] + [draws.one_of(["F", "--agent", "--agent=a", "a", "--", "-", "-x", ""]) for _ in range(1 + draws.below(5))] for _ in range(200)]
    lines += [["cat"] + [draws.one_of(["F", "F", "--at", "--at=a:1", "a:0", "root", "b:0", "--", "-", "-x", ""]) for _ in range(1 + draws.below(5))] for _ in range(200)]
    lines += [["make"] + [draws.one_of(["--seed", "--seed=7", "--count", "--count=3", "5", "5", "+4", "-", "--", "F"]) for _ in range(1 + draws.below(5))] for _ in range(200)]
    for one, least in (("undo", ["--agent=b", "--of=a:0", "--count=1"]), ("caret", ["--at=a:2", "--index=1"]), ("blame", ["--columns=9", "--at=a:1"])):
        lines += [[one] + [draws.one_of(["F", "F", *least, *least, *(word.split("=")[0] for word in least), "a:0", "2", "b", "--", "-"]) for _ in range(1 + draws.below(6))] for _ in range(200)]
    for line in lines:
        beside.run(*line, input=b"ins 0 x")
    beside.clear()
    return len(lines)


# Journals


def letter(agent, seq, parents, at=0, ch="x"):
    """An insertion in a batch."""
    return event_bytes((agent, seq), parents, INSERT, at, ord(ch))


ROOT_A, ROOT_B = letter(b"a", 0, []), letter(b"b", 0, [])
ONE_A, ONE_B = (b"a", 0), (b"b", 0)
# Of each journal its batches, each a list of events.
JUDGED = [
    [[ROOT_A], [ROOT_A]], [[ROOT_A, letter(b"a", 0, [], 0, "y")]], [[letter(b"a", 0, [ONE_A])]], [[ROOT_A, ROOT_B], [letter(b"c", 0, [ONE_B, ONE_A])]], [[ROOT_A], [letter(b"c", 0, [ONE_A, ONE_A])]],
    [[letter(b"b", 0, [(b"a", n) for n in range(17)])]], [[letter(b"b", 0, [(b"a", n) for n in range(255)])]], [[ROOT_A, letter(b"b", 0, [ONE_A, (b"z", 9)])]], [[ROOT_A, letter(b"a", 1, [ONE_A]), letter(b"b", 0, [ONE_A, (b"a", 1)])]],
    [[ROOT_A, letter(b"a", 2, [ONE_A])]], [[ROOT_A, letter(b"a", 1, [])]], [[ROOT_A], [letter(b"b", 0, [ONE_A], 2)]], [[ROOT_A], [ROOT_B], [event_bytes((b"c", 0), [ONE_A, ONE_B], MARK, b"m")]],
    [[ROOT_A], [event_bytes((b"b", 0), [ONE_A], DELETE, 1)]], [[letter(b"p%02d" % n, 0, []) for n in range(17)]], [[], [ROOT_A]], [[ROOT_A], []],
]


def journals(beside, draws):
    """Scripts that are kept one after another, and what exports make of them; then journals with bytes that are changed, cut or put behind."""
    beside.part = "journals"
    count = 0
    for _ in range(12):
        letters = 0
        for n in range(1 + draws.below(5)):
            script = draw_script(draws, letters) if draws.below(4) else draws.one_of([b"mark m\nins 0 x", b"ins 0 x\nnonsense", b"ins 0 ab\ndel 9999 1\nins 0 y", b"", b"del 0 0", b"ins 0 " + b"x" * 1700])
            beside.run("watch", "--agent", draws.one_of(["a", "b", "ab"]), input=script)
            beside.run("export", f"E{n}")
            letters = len(beside.run("cat", f"E{n}")[1].decode())
        list_all(beside, f"E{n}")
        whole = (beside.sides[0][0] / "egw.journal").read_bytes()
        for _ in range(12):
            place, byte = draws.below(len(whole) + 1), bytes([draws.below(256)])
            changed = draws.one_of([whole[:place], whole[:place] + byte + whole[place + 1 :], whole + byte * draws.below(9), whole[:place] + byte + whole[place:]])
            count += 1
            exported(beside, changed)
        beside.clear()
    for batches in JUDGED:
        count += 1
        exported(beside, b"".join(map(batch, batches)) + b"\0")
    for line in LINES:
        exported(beside, batch([ROOT_A]) + b"\2rest", line + b"\nins 0 z")
    beside.clear()
    return count


def exported(beside, journal, script=b"ins 0 y"):
    """What an export makes of a journal, and a watch of it."""
    beside.file("egw.journal", journal)
    if beside.run("export", "X")[0] == 0:
        list_all(beside, "X")
    beside.run("watch", "--agent", "c", input=script)
    beside.run("export", "Y")
    for folder, _ in beside.sides:
        for name in ("X", "Y"):
            (folder / name).unlink(missing_ok=True)


# Made histories


def make_with_files(beside, seed, count):
    """What `make` is to print, by the files of three people who do what it does."""
    draws, people = Draws(seed), ["p0", "p1", "p2"]
    lengths, scripts = [0] * 3, [[], [], []]
    for name in people:
        beside.run("new", name)

    def give(giver, taker):
        for name, lines in zip(people, scripts):
            if lines:
                beside.run("edit", name, "--agent", name, input="\n".join(lines).encode())
                lines.clear()
        beside.run("merge", people[taker], people[giver])
        lengths[taker] = len(beside.run("cat", people[taker])[1])

    for step in range(count):
        peer, quarter, place = draws.below(3), draws.below(4), draws.below(2**31)
        if quarter == 0 and lengths[peer]:
            scripts[peer].append(f"del {place % lengths[peer]} 1")
            lengths[peer] -= 1
        else:
            scripts[peer].append(f"ins {place % (lengths[peer] + 1)} {chr(ord('a') + draws.below(26))}")
            lengths[peer] += 1
        if step % 64 == 63:
            give(step // 64 % 3, (step // 64 + 1) % 3)
    for giver, taker in ((0, 1), (1, 2), (2, 0), (0, 1)):
        give(giver, taker)
    numbers = dict(line.split(" ") for line in beside.run("check", "p0")[1].decode().splitlines())
    lines = [f"{word} {numbers[word]}\n" for word in ("events", "length", "heads", "cuts")]
    lines.append(f"sha256 {hashlib.sha256(beside.run('cat', 'p0')[1]).hexdigest()}\n")
    lines.append(f"agree {'yes' if len({beside.run('ask', name) for name in people}) == 1 else 'no'}\n")
    beside.clear()
    return "".join(lines).encode()


def made(beside, draws):
    """Histories that `make` makes, and the same edits done with files; the longer ones by the program alone."""
    beside.part = "made histories"
    tried = [(1, count) for count in (0, 1, 2, 63, 64, 65, 127, 128, 192, 193, 400)]
    tried += [(seed, 100) for seed in (0, 7, 2**63, 2**64 - 1)]
    tried += [(draws.below(2**31), draws.below(300)) for _ in range(10)]
    alone = Alone()
    for runs, seed, count in [(beside, *one) for one in tried] + [(alone, seed, 2000) for seed in (0, 7, 2**64 - 1)]:
        wanted = make_with_files(runs, seed, count)
        if runs.run("make", "--seed", str(seed), "--count", str(count)) != (0, wanted):
            beside.wrong(f"three people who do what `make` does with the seed {seed} and {count} edits come to other numbers")


# Nets


NAMES = ["a", "b", "c", "B", "_-", "9", "aa", "a" * 32]
BAD_LINES = ["show", "show ", "show z ", "peer -a", "peer " + "a" * 33, "peer ä", "push a", "push a b ", "push  a b", "ask a", "send a b 1", "send a b 01 1", "send a b 1 4294967296", "deliver", "deliver +1",
             "deliver 1 ", "restart", "agree ", " agree", "agree\r", "agree\0", "ins a 0", "ins a  x", "ins 0 x", "ins a 0 \\x", "ins a 0 \\", "del a 0", "del a 0 1 ", "del a 0 -1", "deliver 0x1", "Agree", "net", "\t", "mark", "mark a", "mark a ",
             "mark  m", "mark a m ", "mark a -m", "mark a  m", "mark a " + "m" * 33, "mark a ä", "mark a m n", "mark a \\n", "mark -a m", "MARK a m", "marks a m", "undo a", "undo a b", "undo a b 0", "undo a b 0 ", "undo a b 00 1", "undo a b 0 4294967296", "undo a -b 0 1", "undo a b 0 1 ", "undo  b 0 1", "undo a:0 1",
             "caret a", "caret a ", "caret a 01", "caret a 4294967296", "caret a 0 ", "caret -a 0", "caret 0", "where", "where ", "where a ", "where a b", "where -a", "Where a"]
REFUSED_LINES = ["peer a", "show nobody", "push a nobody", "push nobody a", "push nobody none", "send nobody a 0 0", "ask a nobody", "restart nobody", "ins nobody 0 x", "del nobody 9 9", "deliver 4294967295",
                 "deliver 9999", "ins a 4294967295 ", "ins a 999 x", "del a 0 4294967295", "del a 4294967295 4294967295", "mark nobody m", "mark nobody a",
                 "undo nobody a 0 1", "undo nobody nobody 0 0", "undo a nobody 0 1", "undo a nobody 4294967295 4294967295", "undo a a 4294967295 1", "undo a a 0 9999", "caret nobody 0", "caret a 9999", "caret a 4294967295", "where nobody"]


class NetScript:
    """A net script that is drawn, and the net of the second reader that it makes: so no line of it is refused."""

    def __init__(self, draws, lines):
        self.draws, self.net, self.lines = draws, reader.Net(), []
        self.names = ["a"] + [name for name in NAMES[1:] if draws.below(2)]
        for name in self.names:
            self.put(f"peer {name}")
        for _ in range(lines):
            self.put(self.line())

    def put(self, line):
        self.net.step(0, *reader.parse_step(line.encode()))
        self.lines.append(line)

    def line(self):
        draws, name, other = self.draws, self.draws.one_of(self.names), self.draws.one_of(self.names)
        length, kind, packets = len(self.net.desks[name].history.visible()), self.draws.below(21), len(self.net.packets)
        heads = len(self.net.desks[name].history.heads)
        if kind < 5 and heads <= 16:
            return f"ins {name} {draws.below(length + 1)} " + "".join(draws.one_of(["a", "b", " ", "\\n", "\\\\", "é", "🦀"]) for _ in range(draws.below(5)))
        if kind == 5 and heads <= 16:
            at = draws.below(length + 1)
            return f"del {name} {at} {draws.below(min(length - at, 3) + 1)}"
        if kind == 16:
            return f"mark {name} {draws.one_of(LABELS).decode()}"
        if kind == 17 and heads <= 16:
            whose = draws.one_of(self.names + ["z"])
            first = draws.below(len(self.net.desks[name].history.by_agent.get(whose, ())) + 1)
            return f"undo {name} {whose} {first} {draws.below(min(len(self.net.desks[name].history.by_agent.get(whose, ())) - first, 4) + 1)}"
        if kind == 18:
            return f"caret {name} {draws.below(length + 1)}"
        if kind > 18:
            return f"where {name}"
        if kind < 12 and packets:
            return f"deliver {draws.below(packets)}"
        words = ["push", "push", "send", "ask", "restart", "show", "agree"]
        word = draws.one_of(words)
        if word == "send":
            return f"send {name} {other} {draws.below(8)} {draws.below(6)}"
        return {"agree": "agree", "restart": f"restart {name}", "show": f"show {name}"}.get(word, f"{word} {name} {other}")


def nets(beside, draws):
    """Net scripts as they are drawn, with a line that is bad or refused somewhere, and with a byte changed."""
    beside.part = "nets"
    beside.run("net")
    for line in BAD_LINES + REFUSED_LINES:
        beside.run("net", input=f"peer a\n\n{line}\nagree".encode())
        beside.run("net", input=f"{line}\nshow nobody\nagree ".encode())
    for size in (5, 20, 60):
        for _ in range(40):
            script = NetScript(draws, size).lines
            beside.run("net", input="\n".join(script).encode())
            at = draws.below(len(script))
            beside.run("net", input="\n".join(script + [draws.one_of(REFUSED_LINES)]).encode())
            beside.run("net", input="\n".join(script[:at] + [draws.one_of(REFUSED_LINES)] + script[at:]).encode())
            beside.run("net", input="\n".join(script[:at] + [draws.one_of(BAD_LINES)] + script[at:] + ["show nobody"]).encode())
            changed = bytearray("\n".join(script).encode())
            changed[draws.below(len(changed))] = draws.below(256)
            beside.run("net", input=bytes(changed))
    beside.clear()


# Limits, and what the system refuses


def limits(beside):
    beside.part = "limits"
    beside.run("new", "F")
    for agents in (16, 17):
        events = [Event(Id(b"p%d" % n, 0), (), Op(0, 97 + n)) for n in range(agents)]
        beside.file("heads", file_of(events))
        beside.copy("heads", "kept")
        for script in (b"ins 0 x", b"ins 0 ", b"del 0 1", b"del 0 0", b"ins 99 x", b"ins 99 ", b"mark m", b"mark m\nins 0 x"):
            beside.copy("kept", "heads")
            beside.run("edit", "heads", "--agent", "a", input=script)
        for first in ("p0:0", "p0:1", "a:0"):
            beside.copy("kept", "heads")
            beside.run("undo", "heads", "--agent", "a", "--of", first, "--count", "1")
        beside.copy("kept", "heads")
        beside.run("replay", "heads")
        beside.run("ask", "heads")
        beside.run("cat", "heads", "--at", ",".join(f"p{n}:0" for n in reversed(range(agents))))
    for heads in (1, 2, 15, 16, 17, 31, 32, 46, 47):
        letters = sorted(b"p%d" % n for n in range(heads))
        events = [Event(Id(name, 0), (), Op(0, 97 + n % 26)) for n, name in enumerate(letters)]
        beside.file("kept", file_of(events))
        for agent in (letters[0], letters[-1], letters[heads // 2], b"a", b"z"):
            beside.copy("kept", "heads")
            beside.run("edit", "heads", "--agent", agent.decode(), input=b"mark m\nins 0 x\nmark n")
            beside.run("log", "heads")
            beside.run("check", "heads")
            beside.run("marks", "heads")
            beside.run("upgrade", "heads")
    for heads in (16, 17):
        script = [f"peer p{n}\nins p{n} 0 x\npush p{n} p0" for n in range(heads)] + [f"deliver {n}" for n in range(1, heads)]
        for edit in ("ins p0 0 x", "ins p0 0 ", "del p0 0 1", "del p0 0 0", "ins p0 99 x", "mark p0 m\nins p0 0 x", "mark p0 m\nmark p0 n\npush p0 p1"):
            beside.run("net", input="\n".join([*script, edit, "show p0"]).encode())
    for more in (0, 1):
        beside.run("net", input=b"\n" * (MOST_INPUT + more))
        beside.run("net", input=b"peer a\nins a 1 x\nins a 0 " + b"x" * (MOST_INPUT - 24 + more))
        beside.run("net", input=b"peer a\nins a 0 \nshow " + b"a" * (31 + more) + b"\nins a 0 " + b"x" * 1_000_000)
    for more in (0, 1):
        beside.run("watch", "--agent", "a", input=b"\n" * (MOST_INPUT + more))
    beside.run("edit", "F", "--agent", "a", input=b"\n" * MOST_INPUT)
    beside.run("edit", "F", "--agent", "a", input=b"\n" * (MOST_INPUT + 1))
    beside.run("edit", "F", "--agent", "a", input=b"ins 1 " + b"x" * (MOST_INPUT - 6))
    beside.run("edit", "F", "--agent", "a", input=b"ins 0 " + b"x" * (MOST_INPUT - 5))
    for more in (0, 1):
        beside.run("serve", "F", input=b"\x01" + number(4 + 37 * MOST_EVENTS) + bytes(MOST_INPUT - 5 + more))
    for folder, _ in beside.sides:
        with open(folder / "large", "wb") as file:
            file.truncate(MOST_FILE + 1)
    beside.run("cat", "large")
    beside.run("cat", "large", "--at", "a:00")
    beside.run("new", "large")
    beside.file("zeros", bytes(48))
    beside.run("serve", "zeros", input=frame(6))
    beside.clear()


def refusals(beside):
    beside.part = "what the system refuses"
    beside.run("new", "F")
    beside.run("edit", "F", "--agent", "a", input=b"ins 0 abc")
    for folder, _ in beside.sides:
        (folder / "folder").mkdir()
        (folder / "link").symlink_to("F")
        (folder / "dangling").symlink_to("nothing")
        (folder / "loop").symlink_to("loop")
    for name in ("folder", "F/x", "folder/x", "nowhere/x", "loop", "dangling", "link", "n" * 250, "n" * 255, "n" * 256, "."):
        beside.run("cat", name)
        beside.run("cat", name, "--at", "a:0")
        beside.run("cat", name, "--at", "b:0")
        beside.run("replay", name)
        beside.run("marks", name)
        beside.run("upgrade", name)
        beside.run("undo", name, "--agent", "a", "--of", "z:0", "--count", "1")
        beside.run("caret", name, "--at", "a:0", "--index", "1")
        beside.run("blame", name, "--columns", "3")
        beside.run("ask", name)
        beside.run("serve", name, input=frame(6))
        beside.run("edit", name, "--agent", "a", input=b"ins 0 x")
        beside.run("merge", name, "F")
        beside.run("merge", "F", name)
        beside.run("new", name)
    beside.file("F.0.new", b"another file")
    beside.file("old.0.new", b"another file")
    beside.file("old", file_of([Event(Id(b"a", 0), (), Op(0, 97))]))
    for folder, _ in beside.sides:
        (folder / "link_to_old").symlink_to("old")
    beside.run("upgrade", "link_to_old")
    beside.run("upgrade", "old")
    beside.run("edit", "F", "--agent", "a", input=b"ins 0 y")
    beside.run("edit", "F", "--agent", "a", input=b"mark m")
    with open("/dev/full", "wb") as full:
        beside.run("cat", "F", out=full)
        for version in ("a:2", "root", "b:0", "b"):
            beside.run("cat", "F", "--at", version, out=full)
        beside.run("replay", "F", out=full)
        beside.run("marks", "F", out=full)
        beside.run("upgrade", "F", out=full)
        beside.file("old", file_of([Event(Id(b"a", 0), (), Op(0, 97))]))
        beside.run("upgrade", "old", out=full)
        beside.run("upgrade", "old")
        beside.run("upgrade", "nowhere", err=full)
        beside.run("caret", "F", "--at", "a:2", "--index", "1", out=full)
        beside.run("caret", "F", "--at", "a:2", "--index", "9", err=full)
        beside.run("blame", "F", "--columns", "3", out=full)
        beside.run("blame", "F", "--columns", "3", "--at", "b:0", err=full)
        beside.run("undo", "F", "--agent", "b", "--of", "a:1", "--count", "1", out=full)
        beside.run("undo", "F", "--agent", "b", "--of", "a:1", "--count", "1", out=full)
        beside.run("undo", "F", "--agent", "b", "--of", "b:9", "--count", "1", err=full)
        beside.run("ask", "F", out=full)
        beside.run("serve", "F", input=frame(1, bytes(4)), out=full)
        beside.run("serve", "F", input=frame(3), out=full)
        beside.run("serve", "F", input=frame(6), out=full)
        beside.run("serve", "F", input=b"\7", err=full)
        beside.run("new", "unseen", out=full)
        beside.run("replay", "unseen", out=full)
        beside.run("ask", "unseen", out=full)
        beside.run("cat", "F", "--at", "b:0", err=full)
        beside.run("edit", "F", "--agent", "a", input=b"ins 0 z", out=full)
        beside.run("make", "--seed", "1", "--count", "5", out=full)
        beside.run("make", "--seed", "1", err=full)
        beside.run("net", input=b"agree", out=full)
        beside.run("net", out=full)
        beside.run("net", input=b"show a", out=full)
        beside.run("net", input=b"show a", err=full)
        beside.run("cat", "nowhere", err=full)
        beside.run("ask", "nowhere", err=full)
        beside.run("cat", err=full)
    beside.run("edit", "F", "--agent", "a", input=FOLDER)
    beside.run("edit", "nowhere", "--agent", "a", input=FOLDER)
    beside.run("cat", "F", input=FOLDER)
    beside.run("cat", "F", "--at", "a:0", input=FOLDER)
    beside.run("replay", "F", input=FOLDER)
    beside.run("ask", "F", input=FOLDER)
    beside.run("serve", "F", input=FOLDER)
    beside.run("serve", "nowhere", input=FOLDER)
    beside.run("make", "--seed", "1", "--count", "5", input=FOLDER)
    beside.run("net", input=FOLDER)
    beside.run("watch", "--agent", "a", input=FOLDER)
    with open("/dev/full", "wb") as full:
        beside.run("watch", "--agent", "a", input=b"ins 0 x\nins 0 y", out=full)
        beside.run("watch", "--agent", "a", input=b"ins 9 x", err=full)
        beside.run("export", "E", out=full)
        beside.run("export", "F", err=full)
    for name in ("folder", "F/x", "nowhere/x", "loop", "dangling", "link", "n" * 250, "n" * 256, "."):
        beside.run("export", name)
    for folder, _ in beside.sides:
        (folder / "egw.journal").unlink()
        (folder / "egw.journal").mkdir()
    beside.run("watch", "--agent", "a", input=b"ins 0 x")
    beside.run("watch", "--agent", "a", input=FOLDER)
    beside.run("export", "G")
    beside.run("export", "F")
    for target in ("kept_elsewhere", "nowhere/x", "/dev/full"):
        for folder, _ in beside.sides:
            path = folder / "egw.journal"
            path.unlink() if path.is_symlink() else path.rmdir()
            path.symlink_to(target)
        beside.run("watch", "--agent", "a", input=b"ins 0 x")
        beside.run("export", "H" + target[:1].replace("/", "d"))
    beside.clear()


# Each text that a run may give, without its names and numbers, has to come at least once.
WANTED = [(0, "")] + [(2, USAGE.decode().strip())]
WANTED += [(3, "egw: no file NAME"), (3, "egw: file NAME is there"), (4, "egw: F: short, N bytes"), (4, "egw: F: not an event file"), (4, "egw: F: version N"), (4, "egw: F: digest N, found N")]
WANTED += [(4, f"egw: F: byte N: {fault}") for fault in ("cut", "bad name", "name twice", "agent number", "id twice", "parent count", "parent position", "parent order", "kind", "scalar", "trailing bytes", "unused agent", "run join", "run length")]
WANTED += [(4, f"egw: F: event N: {fault}") for fault in ("not reduced", "skipped", "out of range, length N")]
WANTED += [(5, "egw: line N: unreadable"), (5, "egw: line N: out of range, length N"), (5, "egw: clash NAME"), (5, "egw: unknown NAME")]
WANTED += [(5, f"egw: line N: {fault}") for fault in ("no peer NAME", "peer NAME is there", "no packet N")]
WANTED += [(5, "egw: index N: out of range, length N")]
WANTED += [(5, f"egw: frame N: {fault}") for fault in ("cut", "bad kind N", "too long, N", "bad body")]
WANTED += [(4, "egw: journal: byte N: bad batch")]
WANTED += [(4, f"egw: journal: event N: {fault}") for fault in ("repeat", "clash", "own parent", "too many parents", "parents unsorted", "unknown NAME", "not reduced", "skipped", "out of range, length N")]
WANTED += [(6, f"egw: {what} failed") for what in ("shelf", "disk", "source", "sink")]
WANTED += [(7, "egw: F: more than N bytes"), (7, "egw: F: more than N events"), (7, "egw: input: more than N bytes"), (7, "egw: N heads, more than N")]
# (`egw: more than N events` wants a history at the limit, and `egw: journal: more than N events` a journal beyond it: the rows of command_trials have it at small limits.)
# And each status that a command may come to, but for memory.
STATUSES = {"cat --at": (0, 2, 3, 4, 5, 6, 7), "replay": (0, 2, 3, 4, 6, 7), "ask": (0, 2, 3, 4, 6, 7), "serve": (0, 2, 3, 4, 5, 6, 7), "make": (0, 2, 6), "net": (0, 2, 5, 6, 7), "marks": (0, 2, 3, 4, 6, 7), "upgrade": (0, 2, 3, 4, 6, 7), "watch": (0, 2, 4, 5, 6, 7), "export": (0, 2, 3, 4, 6), "undo": (0, 2, 3, 4, 5, 6, 7), "caret": (0, 2, 3, 4, 5, 6), "blame": (0, 2, 3, 4, 5, 6)}


def main():
    beside = Beside()
    draws = Draws(SEED)
    files = examples(beside, draws)
    beside.fork_reader()
    for part, make, count in (("people", people, share(20)), ("graphs", graphs, share(40)), ("damaged files", damaged, share(160))):
        beside.part = part
        files += sum(make(beside, draws) for _ in range(count))
    files += by_hand(beside, draws)
    served = sessions(beside, draws)
    asked = versions(beside, draws)
    scripts_run = scripts(beside, draws)
    lines = words(beside, draws)
    kept = journals(beside, draws)
    made(beside, draws)
    nets(beside, draws)
    limits(beside)
    refusals(beside)
    beside.part = "texts"
    for wanted in WANTED:
        if not beside.texts[wanted]:
            beside.wrong(f"never seen: status {wanted[0]} with the text {wanted[1]!r}")
    for command, statuses in STATUSES.items():
        for status in statuses:
            if not beside.statuses[command, status]:
                beside.wrong(f"never seen: status {status} of {command}")
    parts = ", ".join(f"{part} {count}" for part, count in beside.parts.items())
    print(f"the second reader: {sum(beside.parts.values())} runs compared ({parts}), over {files} files, {asked} words for a version, {served} sessions, {scripts_run} scripts, {lines} lines of words and {kept} journals")
    told = ", ".join(f"{command} {sum(beside.statuses[command, status] for status in statuses)}" for command, statuses in STATUSES.items())
    print(f"the second reader: of these {told}")
    if beside.failing:
        print(f"the second reader: {beside.failing} comparisons fail")
    return 1 if beside.failing else 0


sys.exit(main())
