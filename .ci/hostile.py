"""Writes the files, the frames and the scripts of .ci/hostile into the working folder."""

import itertools
import pathlib
import sys

sys.dont_write_bytecode = True
sys.path.insert(0, str(pathlib.Path(__file__).parent.parent / "tools"))

from egw_bytes import DELETE, FALLING, INSERT, MARK, START, START_2, counted, event_bytes, events_frame, frame, id_bytes, number, record, run, sized, with_digest  # noqa: E402

GREATEST = 4294967295
MOST_INPUT = 16_777_216
MOST_EVENTS = 16_777_216
BODY = 1_048_576


def put(name, *parts):
    with open(name, "wb") as file:
        file.writelines(parts)


def put_file(name, *parts):
    """A file with its digest behind it."""
    put(name, with_digest(START + b"".join(parts)))


def put_file_2(name, *parts):
    """A file of version 2 with its digest behind it."""
    put(name, with_digest(START_2 + b"".join(parts)))


def names(agents):
    return counted(map(sized, agents))


def chain(count, ch, agent=0):
    """What one agent types, each event on the one before."""
    return (record(agent, n, [n - 1] if n else [], INSERT, n, ch) for n in range(count))


LETTERS = sorted(b"0123456789ABCDEFGHIJKLMNOPQRSTUVWXYZ_abcdefghijklmnopqrstuvwxyz")
FOUR = (bytes(letters) for letters in itertools.product(LETTERS, repeat=4))
LONG = b"n" * 31
BYE = frame(6)


def make_files():
    """Files that only claim, files with a number at its end, and large ones."""
    a, first = [b"a"], record(0, 0, [], 0, 0, 97)
    put("zeros", bytes(MOST_INPUT))
    put_file("agents", number(GREATEST), b"\x03abc")
    put_file("agents_named", number(GREATEST), b"\x01a", b"\x01b")
    put_file("events", names(a), number(GREATEST))
    put_file("events_one", names(a), number(GREATEST), first)
    put_file("many", names(a), number(MOST_EVENTS))
    put_file("many_one", names(a), number(MOST_EVENTS), first)
    put_file("above", names(a), number(MOST_EVENTS + 1), first)
    put_file("names", names(list(itertools.islice(FOUR, 1_000_000))), number(0))
    put_file("agent_number", names(a), counted([record(GREATEST, 0, [], 0, 0, 97)]))
    put_file("sequence", names(a), counted([record(0, GREATEST, [], 0, 0, 97)]))
    put_file("sequence_behind", names(a), counted([first, record(0, GREATEST, [0], 0, 1, 97)]))
    put_file("index", names(a), counted([record(0, 0, [], 0, GREATEST, 97)]))
    put_file("index_deleted", names(a), counted([first, record(0, 1, [0], 1, GREATEST)]))
    put_file("parents", names(a), counted([first, record(0, 1, [0] * 255, 0, 0, 97)]))
    put_file("position", names(a), counted([first, record(0, 1, [GREATEST], 0, 0, 97)]))
    put_file("scalar", names(a), counted([record(0, 0, [], 0, 0, GREATEST)]))
    put_file("twice", names([b"b", b"a", b"b"]), number(0))
    put_file("ab", names([b"a", b"b"]), counted([first, record(1, 0, [], 0, 0, 98)]))
    put_file("ba", names([b"b", b"a"]), counted([record(0, 0, [], 0, 0, 98), record(1, 0, [], 0, 0, 97)]))
    put_file("ab_other", names([b"a", b"b"]), counted([first, record(1, 0, [], 0, 0, 99)]))
    for heads in (16, 17):
        agents = [b"p%02d" % n for n in range(heads)]
        put_file(f"heads{heads}", names(agents), counted(record(n, 0, [], 0, 0, 97 + n) for n in range(heads)))
    put_file("clash_one", names(a), counted(chain(100_000, 97)))
    put_file("clash_other", names(a), counted(chain(100_000, 98)))
    agents = [b"f%d" % n for n in range(2000)]
    put_file("fan_one", names(agents), counted(record(n, 0, [], 0, 0, 97) for n in range(2000)))
    put_file("fan_other", names(agents), counted(record(n, 0, [], 0, 0, 98) for n in range(2000)))
    for name, count in (("forks", 40_000), ("forks_all", 999_999)):
        forks = [b"d%d" % n for n in range(count)]
        put_file(name, names(a + forks), counted([first, *(record(1 + n, 0, [0], 1, 0) for n in range(count))]))
    put_file("letter", names(a), counted([first]))
    put_file("seven", names(a), counted(chain(7, 97)))


def joins(heads):
    """Marks that join the heads of that many agents at positions from 0 on: 16 of them in the first, and then 15 and the one before."""
    yield 0, list(range(min(heads, 16)))
    for seq, start in enumerate(range(16, heads, 15), 1):
        yield seq, [*range(start, min(start + 15, heads)), heads + seq - 1]


def make_marks():
    """Files of marks, and a file and a frame with marks of which one byte is changed."""
    a, first, label = [b"a"], record(0, 0, [], INSERT, 0, 97), b"m" * 32
    put_file("marks", names(a), counted([first, *(record(0, n, [n - 1], MARK, label) for n in range(1, 1_000_000))]))
    thousand = [record(0, n, [n - 1], MARK, label) for n in range(1, 1001)]
    put_file("marks_thousand", names(a), counted([first, *thousand]))
    put_file_2("marks_thousand_2", names(a), number(1001), run(0, 0, [], INSERT, 0, b"a"), *thousand)
    heads = [b"h%05d" % n for n in range(10_000)]
    apart = [record(n, 0, [], INSERT, 0, 97) for n in range(10_000)]
    put_file("heads_apart", names(heads), counted(apart))
    joined = [record(10_000, seq, parents, MARK, label) for seq, parents in joins(10_000)]
    put_file("heads_joined", names([*heads, b"j"]), counted([*apart, *joined]))
    put_file_2("heads_joined_2", names([*heads, b"j"]), number(10_667), *(run(n, 0, [], INSERT, 0, b"a") for n in range(10_000)), *joined)
    ids = [*((name, 0) for name in heads), *((b"j", seq) for seq in range(667))]
    put("heads_marks", events_frame(event_bytes((b"j", seq), [ids[p] for p in parents], MARK, label) for seq, parents in joins(10_000)), BYE)
    put("heads_marks_backwards", events_frame(reversed([event_bytes((b"j", seq), [ids[p] for p in parents], MARK, label) for seq, parents in joins(10_000)])), BYE)
    parents = [(b"p" * 30 + b"%02d" % n, n) for n in range(16)]
    greatest = [event_bytes((b"n" * 32, n), parents, MARK, label) for n in range(15 * 1579)]
    put("marks_unknown", *(events_frame(greatest[at : at + 1579]) for at in range(0, len(greatest), 1579)))
    for name, kind, size in (("label_none", 2, 0), ("label_long", 2, 33), ("label_claimed", 2, 255), ("label_cut", 2, 32), ("kind", 3, 1)):
        operation = number(kind, 1) + number(size, 1) + b"m" * (size if size in (0, 1, 33) else 2)
        put_file(name, names(a), counted([first[:9] + operation]))
        put(f"{name}_sent", frame(2, counted([id_bytes((b"a", 1)) + number(1, 1) + id_bytes((b"a", 0)) + operation])))


def make_runs():
    """Files of version 2 that claim long runs, with a number at its end, or have many events in few bytes."""
    a = [b"a"]

    def bomb(name, events, *parts):
        put_file_2(name, names(a), number(events), *parts)

    for what, length in (("many", MOST_EVENTS), ("above", MOST_EVENTS + 1), ("most", GREATEST), ("million", 1_000_000)):
        for kind, at in ((DELETE, 0), (FALLING, GREATEST)):
            way = "falling" if kind == FALLING else "deleted"
            claim = run(0, 0, [], kind, at, length)
            bomb(f"runs_{what}_{way}", length, claim)
            bomb(f"run_{what}_{way}", 1, claim)
            if length > 1_000_000:
                bomb(f"run_{what}_{way}_of_million", 1_000_000, claim)
    bomb("run_typed_most", 1_000_000, run(0, 0, [], INSERT, 0, (GREATEST, b"a")))
    bomb("run_typed_million", 1_000_000, run(0, 0, [], INSERT, 0, (1_000_000, b"a")))
    bomb("run_of_none", 1, run(0, 0, [], DELETE, 0, 0))
    bomb("run_falls_below", 3, run(0, 0, [], FALLING, 1, 3))
    bomb("run_numbered_past", 2, run(0, GREATEST, [], DELETE, 0, 2))
    bomb("run_typed_past", 2, run(0, 0, [], INSERT, GREATEST, b"ab"))
    bomb("run_numbered_last", 2, run(0, GREATEST - 1, [], DELETE, 0, 2))
    # Ids far apart, each between two that stand there, and a range that covers them.
    apart = [run(0, 2 * n + 1, [n - 1] if n else [], DELETE, 2 * (n % 2), 1) for n in range(100_000)]
    bomb("ids_apart", 100_000, *apart)
    bomb("ids_covered", 1_000_000, *apart, run(0, 0, [99_999], DELETE, 5, 900_000))
    bomb("ids_backwards", 100_000, *(run(0, GREATEST - 2 * n, [n - 1] if n else [], DELETE, 2 * (n % 2), 1) for n in range(100_000)))
    ends = [run(0, GREATEST - 499_999, [], DELETE, 0, 500_000), run(0, 0, [499_999], DELETE, 0, 499_999)]
    bomb("ids_at_ends", 999_999, *ends)
    bomb("ids_at_ends_and_once_more", 1_000_000, *ends, run(0, GREATEST, [999_998], DELETE, 5, 1))
    bomb("run_joins", 200_001, run(0, 0, [], INSERT, 0, b"a" * 100_000), run(0, 100_000, [99_999], INSERT, 100_000, (100_001, b"")))
    # A thousand letters of one, which each of 999 others deletes, from the first on and from the last on.
    letters, others = run(0, 0, [], INSERT, 0, b"x" * 1000), [b"d%03d" % n for n in range(999)]
    ways = [(DELETE, 0), (FALLING, 999)]
    put_file_2("deleted_by_all", names([*a, *others]), number(1_000_000), letters, *(run(1 + n, 0, [999], *ways[n % 2], 1000) for n in range(999)))
    put_file_2("deleted_by_ten", names([*a, *others[:10]]), number(11_000), letters, *(run(1 + n, 0, [999], *ways[n % 2], 1000) for n in range(10)))
    put_file_2("typed_million", names(a), number(1_000_000), run(0, 0, [], INSERT, 0, b"x" * 1_000_000))
    put_file_2("typed_full", names(a), number(MOST_EVENTS), run(0, 0, [], INSERT, 0, (MOST_EVENTS, b"")), number(ord("x")) * MOST_EVENTS)
    # A million records of one letter each, none of which goes on with the one before.
    put_file_2("typed_apart", names(a), number(1_000_000), run(0, 0, [], INSERT, 0, b"x"), *(run(0, n, [n - 1], INSERT, 0, b"x") for n in range(1, 1_000_000)))


def make_inputs():
    """Scripts and frames."""
    put("line", b"ins 0 ", b"x" * (MOST_INPUT - 6))
    put("line_longer", b"ins 0 ", b"x" * (MOST_INPUT - 5))
    put("line_unreadable", b"x" * MOST_INPUT)
    put("line_escaped", b"ins 0 ", b"\\n" * 500_000)
    put("lines_empty", b"\n" * MOST_INPUT)
    put("lines", b"ins 0 x\n" * 100_000)
    put("lines_full", b"ins 0 x\n" * (MOST_INPUT // 8))
    put("lines_of_nothing", b"ins 0 \n" * (MOST_INPUT // 7))
    put("lines_deleting", b"del 0 1\n" * 100_000)
    put("letters", b"ins 0 ", b"x" * 100_000)
    put("letters_million", b"ins 0 ", b"x" * 1_000_000)
    put("have_claimed", frame(1, number(GREATEST)))
    put("events_claimed", frame(2, number(GREATEST)))
    put("events_claimed_full", frame(2, number(GREATEST) + bytes(BODY - 4)))
    put("events_longer", frame(2, number(GREATEST) + bytes(BODY - 3)))
    put("have_cut", b"\x01", number(37 * MOST_EVENTS + 4), number(GREATEST))
    held = [id_bytes((bytes(name), GREATEST)) for name in itertools.islice(itertools.product(LETTERS, repeat=4), 1_864_134)]
    put("have_full", frame(1, number(len(held)) + b"".join(held)))
    per = (BODY - 4) // 22
    one = [events_frame(event_bytes((b"b", n), [(b"z", 0)], 0, 0, 120) for n in range(at, at + per)) for at in range(0, 16 * per, per)]
    put("unknown_one", one[0])
    put("unknown", *one)
    backwards = [event_bytes((b"b", n), [(b"b", n - 1)], 0, n, 120) for n in range(65_536, 0, -1)]
    parts = [events_frame(backwards[at : at + 40_000]) for at in range(0, 65_536, 40_000)]
    put("backwards", *parts, events_frame([event_bytes((b"b", 0), [], 0, 0, 120)]), BYE)
    forks = [event_bytes((b"d%d" % n, 0), [(b"a", 0)], 1, 0) for n in range(20_000)]
    put("forks_sent", events_frame(forks), BYE)
    many = [(b"p%03d" % n, 0) for n in range(255)]
    refused = [event_bytes((b"b", 0), many, 0, 0, 120), event_bytes((b"b", 0), [(b"a", 0)], 0, GREATEST, 120), event_bytes((b"b", GREATEST), [(b"a", 0)], 0, 0, 120)]
    waits = [event_bytes((b"b", GREATEST), [(b"b", GREATEST - 1)], 0, 0, 120), event_bytes((b"c", 0), [(b"b", GREATEST)], 1, GREATEST)]
    put("edges", events_frame(refused), events_frame(waits), frame(1, number(1) + id_bytes((b"a", GREATEST))), BYE)
    put("one_more", events_frame([event_bytes((b"b", 0), [(b"a", 999_999)], 0, 0, 120)]))
    put("one_above", events_frame([event_bytes((b"b", 0), [(b"a", MOST_EVENTS - 1)], 0, 0, 120)]))
    put("net_said", b"agree\n")
    put("net_ends", b"peer a\ndel a 4294967295 4294967295\n")
    put("net_late", b"peer a\npeer b\npush a b\n", b"agree\n" * 1000, b"deliver 4294967295\n")
    put("net_deliveries", b"peer a\npush a a\n", b"deliver 0\n" * 100_000)
    put("net_bad_at_last", b"deliver 0\n" * 1_000_000, b"agree ")
    put("net_peers", *(b"peer n%d\n" % n for n in range(2_000)), b"peer n0\n")
    put("net_typed", b"peer a\npeer b\nins a 0 ", b"x" * 20_000, b"\npush a b\ndeliver 0\ndel b 0 19999\npush b a\ndeliver 2\nagree\nshow a\n")
    back = (b"send a b %d 1\ndeliver %d\n" % (1999 - n, 2 * n) for n in range(2_000))
    put("net_backwards", b"peer a\npeer b\nins a 0 ", b"x" * 2_000, b"\n", *back, b"agree\n")
    put("net_marks", b"peer a\npeer b\n", b"mark a m\n" * 3_000, b"mark b n\n" * 3_000, b"push a b\ndeliver 0\nmark b all\npush b a\ndeliver 2\nagree\n")
    put("net_waiting", b"peer a\npeer b\nins a 0 ", b"x" * 70_000, b"\nsend a b 1 70000\ndeliver 0\nrestart b\npush a b\ndeliver 2\nagree\n")
    put("bye", BYE)
    put("script", b"ins 0 x\n")
    put("nothing")


make_files()
make_marks()
make_runs()
make_inputs()
