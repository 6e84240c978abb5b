"""What `egw watch` keeps and `egw export` finds again, over a file of the system, of which no proof speaks.

    keep.py PROGRAM CALLS FOLDER

CALLS is .ci/file_calls.c, built to stand before the C library. The calls of some runs are noted. After each of them the machine stops in
thought: the journal's file is then what was synced, with nothing of what was written since, all of it, each first part of it, or noise
in its place. `export` of each such file has to hold all that was printed by then, and no more than was being appended. Then each call is
refused once, the program is killed at random moments, and the file is one that can't be used. Python 3, nothing else.
"""

import fcntl
import os
import pathlib
import random
import re
import subprocess
import sys
import time

PROGRAM, CALLS, FOLDER = sys.argv[1:]
HOME = pathlib.Path(FOLDER)
JOURNAL, FILE, MADE = HOME / "egw.journal", HOME / "F", HOME.parent / "made"
EVENTS_IN_BATCH = 1579
DRAWS = random.Random(20261130)
KILLS = 500
wrong = []
runs = 0


def holds(truth, *text):
    if not truth:
        wrong.append(" ".join(map(str, text)))


def run(*words, script=b"", user=None, **environment):
    """Runs the program; gives its status, its output and its error text."""
    global runs
    runs += 1
    given = {**os.environ, **{name: str(value) for name, value in environment.items()}}
    ended = subprocess.run([PROGRAM, *words], input=script, capture_output=True, cwd=HOME, env=given, user=user, check=False)
    return ended.returncode, ended.stdout.decode(), ended.stderr.decode()


def noted(*words, script=b"", **environment):
    """The same, with the calls that were made."""
    MADE.unlink(missing_ok=True)
    told = run(*words, script=script, LD_PRELOAD=CALLS, FILE_CALLS=MADE, FILE_PRINTS=1, **environment)
    return told, MADE.read_text().splitlines() if MADE.exists() else []


def fresh(data=None):
    """A folder with a journal of these bytes, or with none."""
    for path in (JOURNAL, FILE):
        path.unlink(missing_ok=True)
    if data is not None:
        JOURNAL.write_bytes(data)


def exported(what):
    """The log of the journal's events."""
    FILE.unlink(missing_ok=True)
    status, out, err = run("export", "F")
    holds((status, out, err) == (0, "", ""), what, "export:", status, err)
    return run("log", "F")[1].splitlines() if status == 0 else []


def kept(out):
    """The numbers of the lines that were printed."""
    holds(re.fullmatch(r"(kept [1-9][0-9]*\n)*", out), "printed:", out)
    return [int(number) for number in re.findall(r"[0-9]+", out)]


def batches(counts):
    """The numbers of events that stand after each batch of lines that make so many."""
    ends = [0]
    for count in counts:
        left = count
        while left:
            ends.append(ends[-1] + min(left, EVENTS_IN_BATCH))
            left -= min(left, EVENTS_IN_BATCH)
    return ends


def parts(length):
    """How much of a write may stand: each length of a short one, and some of a long one."""
    if length <= 130:
        return range(length + 1)
    return sorted({*range(24), *range(length - 24, length + 1), *(DRAWS.randrange(length) for _ in range(24))})


def images(synced, at, data):
    """The bytes that a stop may leave where these were written at a place and not synced."""
    for length in parts(len(data)):
        yield synced[:at] + data[:length] + synced[at + length:]
    for noise in (bytes(len(data)), DRAWS.randbytes(len(data)), DRAWS.randbytes(len(data)), data[:len(data) // 2] + DRAWS.randbytes(len(data) - len(data) // 2)):
        yield synced[:at] + noise + synced[at + len(data):]


def stops(before, script, counts):
    """Each stop of a run of `watch` over a journal."""
    fresh(before)
    old = exported("before a run")
    fresh(before)
    told, calls = noted("watch", "--agent", "ada", script=script)
    holds(told == (0, "".join(f"kept {count}\n" for count in counts if count), ""), "a run prints", told)
    after = JOURNAL.read_bytes()
    whole = exported("after a run")
    ends = [len(old) + end for end in batches(counts)]
    holds(whole[:len(old)] == old and len(whole) == ends[-1], "a run keeps", len(whole), "events, not", ends[-1])
    now = synced = before or b""
    printed, opened, tried, lines = len(old), 0, set(), iter([count for count in counts if count])
    for call in calls:
        words = call.split()
        pending = None
        if words[:2] == ["write", "egw.journal"]:
            at, length = map(int, words[2].split("+"))
            is_gate = length == 1
            data = (b"\1" if at < len(now) and len(now) > 1 else b"\0") if is_gate else after[at:at + length - 1] + b"\0"
            opened += is_gate and data == b"\1"
            now = now[:at] + data + now[at + length:]
            pending = at, data
        elif words[:2] == ["sync", "egw.journal"]:
            synced = now
        elif words[0] == "print":
            printed += next(lines)
        for image in images(synced, *pending) if pending else [now]:
            if (image, printed) in tried:
                continue
            tried.add((image, printed))
            fresh(image)
            found = exported(f"a stop after '{call}'")
            may = [end for end in ends[max(0, opened - 1):opened + 1] if end >= printed]
            holds(len(found) in may and found == whole[:len(found)], f"after '{call}':", len(found), "events, not", may)
    holds(now == after, "the calls make other bytes than the journal has")
    return len(tried)


def refusals(before, script, counts):
    """Each call of a run is refused once."""
    fresh(before)
    old = exported("before refusals")
    fresh(before)
    wanted, calls = noted("watch", "--agent", "ada", script=script)
    ends = [len(old) + end for end in batches(counts)]
    for number, call in enumerate(calls, 1):
        for how in ("failed", "full", "interrupted", "short"):
            fresh(before)
            told, _ = noted("watch", "--agent", "ada", script=script, REFUSED_CALL=number, REFUSED_AS=how)
            lines = kept(told[1])
            stands = len(old) + sum(lines)
            holds(wanted[1].startswith(told[1]), how, call, "printed", told[1])
            if (how, call.split()[0]) in (("interrupted", "read"), ("interrupted", "write"), ("short", "read"), ("short", "write"), ("short", "print")):
                holds(told == wanted, f"'{call}' is {how}:", told)
            elif how in ("failed", "full"):
                text = "egw: sink failed\n" if call.startswith("print ") else "egw: disk failed\n"
                holds((told[0], told[2]) == (6, text), f"'{call}' is {how}:", told)
            found = len(exported(f"'{call}' was {how}"))
            lacks = counts[len(lines)] if len(lines) < len(counts) else 0
            holds(found in ends and stands <= found <= stands + lacks, f"'{call}' was {how}:", found, "events,", stands, "told")


def kills():
    """The program is killed at random moments."""
    counts = [1 + DRAWS.randrange(5) for _ in range(60)]
    script = "".join(f"ins 0 {'abcde'[:count]}\n" for count in counts).encode()
    fresh()
    begun = time.monotonic()
    told = run("watch", "--agent", "ada", script=script)
    lasts = time.monotonic() - begun
    holds(told[0] == 0, "a run of many lines:", told[0], told[2])
    whole, ends = exported("many lines"), batches(counts)
    (HOME.parent / "script").write_bytes(script)
    stands = []
    for number in range(KILLS):
        if number % 5 == 0:
            fresh()
            stands = []
        with open(HOME.parent / "script", "rb") as given, open(HOME.parent / "out", "wb") as out:
            child = subprocess.Popen([PROGRAM, "watch", "--agent", f"ada{number % 5}"], stdin=given, stdout=out, cwd=HOME)
            time.sleep(DRAWS.random() * lasts * 1.1)
            child.kill()
            child.wait()
        lines = kept((HOME.parent / "out").read_text().rpartition("\n")[0] + "\n" if (HOME.parent / "out").stat().st_size else "")
        found = exported(f"kill {number}")
        here = [line for line in found if line.startswith(f"ada{number % 5}:")]
        wanted = ["".join((f"ada{number % 5}", line[line.index(":"):line.index(" ")])) for line in whole[:len(here)]]
        holds([line.split()[0] for line in here] == wanted, f"kill {number}: other events")
        holds(found[:len(stands)] == stands, f"kill {number}: earlier events are lost")
        holds(sum(lines) <= len(here) and len(here) in ends[len(lines):len(lines) + 2], f"kill {number}:", len(here), "events,", sum(lines), "told")
        stands = found


def others():
    """Files that can't be a journal's, and another program that uses it."""
    failed = (6, "", "egw: disk failed\n")
    fresh()
    JOURNAL.mkdir()
    holds(run("watch", "--agent", "a", script=b"ins 0 a") == failed, "a folder of the journal's name")
    holds(run("export", "F") == failed, "a folder of the journal's name, exported")
    JOURNAL.rmdir()
    JOURNAL.symlink_to("/dev/full")
    holds(run("watch", "--agent", "a", script=b"ins 0 a") == failed, "a full disk")
    JOURNAL.unlink()
    if os.getuid() == 0:
        HOME.chmod(0o555)
        holds(run("watch", "--agent", "a", script=b"ins 0 a", user=65534) == failed, "a folder that can't be written")
        HOME.chmod(0o777)
    with subprocess.Popen([PROGRAM, "watch", "--agent", "a"], stdin=subprocess.PIPE, stdout=subprocess.PIPE, cwd=HOME) as first:
        for _ in range(2000):
            time.sleep(0.005)
            if JOURNAL.exists() and is_locked():
                break
        holds(run("watch", "--agent", "b", script=b"ins 0 b") == failed, "a second watch")
        holds(run("export", "F") == failed, "an export beside a watch")
        out, _ = first.communicate(b"ins 0 a")
        holds((first.returncode, out) == (0, b"kept 1\n"), "the first watch of two:", first.returncode, out)
    holds(exported("two watches") == ["a:0 root ins 0 a"], "two watches: other events")
    for words in (["cat", "F"], ["new", "G"], ["edit", "F", "--agent", "a"], ["heads", "F"], ["net"], ["upgrade", "F"]):
        (told, calls) = noted(*words, script=b"")
        holds(told[0] == 0 and not any("egw.journal" in call for call in calls), " ".join(words), "touches the journal")
        (HOME / "G").unlink(missing_ok=True)


def is_locked():
    """Whether another program holds the journal's lock."""
    with open(JOURNAL, "rb") as file:
        try:
            fcntl.flock(file, fcntl.LOCK_EX | fcntl.LOCK_NB)
        except OSError:
            return True
    return False


HOME.mkdir()
HOME.chmod(0o777)
SHORT = b"ins 0 ab\n\ndel 1 1\nmark m\nins 0 z\ndel 0 0\n", [2, 1, 1, 1]
LONG = b"ins 0 " + b"x" * 3200 + b"\nins 1 y\n", [3200, 1]
fresh()
run("watch", "--agent", "ben", script=b"ins 0 hello\ndel 4 1\n")
KEPT = JOURNAL.read_bytes()
tried = stops(None, *SHORT) + stops(KEPT, *SHORT) + stops(KEPT + DRAWS.randbytes(40), *SHORT) + stops(KEPT, *LONG)
refusals(None, *SHORT)
refusals(KEPT, *LONG)
kills()
others()
if wrong:
    print("\n".join(wrong[:40]))
    sys.exit(f"watch and export: {runs} runs, and {len(wrong)} comparisons failed")
print(f"watch and export: {tried} files that a stop may leave, {KILLS} kills, {runs} runs in all, and nothing that was told as kept is lost")
