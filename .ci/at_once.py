"""at_once.py PROGRAM: files of the system that programs change at once, or behind one another's back, and the rights of what is stored.

It works in a folder of its own, and writes a line for each thing that isn't as it must be; the status is 1 where there is one.
"""

import fcntl
import hashlib
import os
import pathlib
import shutil
import stat
import subprocess
import sys
import tempfile
import threading
import time

ROUNDS, WRITERS = 100, 8
SHELF_FAILED = (6, "", "egw: shelf failed\n")
# The file of version 1 of one letter, without its digest.
LETTER = bytes.fromhex("45475746494c4501 01000000 0161 01000000 00000000 00000000 00 00 00000000 61000000")
PROGRAM = os.path.realpath(sys.argv[1])
wrong = []


def check(is_so, said):
    """Keeps what is said where it isn't so."""
    if not is_so:
        wrong.append(said)


def start(*words, **how):
    """Starts the program over these words. It waits for its input."""
    return subprocess.Popen([PROGRAM, *words], stdin=-1, stdout=-1, stderr=-1, text=True, **how)


def end(run, script=""):
    """Gives a run its input; its status, its output and its error text."""
    out, err = run.communicate(script)
    return run.returncode, out, err


def egw(*words, script=""):
    return end(start(*words), script)


def ids(name):
    """The ids of the events of a file."""
    status, out, err = egw("log", name)
    check(status == 0, f"{name} can't be listed: {err}")
    return sorted(line.split(" ")[0] for line in out.splitlines())


def fresh(name):
    """A file of no events."""
    pathlib.Path(name).unlink(missing_ok=True)
    check(egw("new", name) == (0, "", ""), f"no new file {name}")


def is_alone(*names):
    """No more lies in the folder than these."""
    check(sorted(os.listdir()) == sorted(names), f"{sorted(os.listdir())}, not {names}")


# At once


def edit_at_once(script):
    """Eight people edit one file at once. Who is told that the file changed does so again; no edit that was made is lost."""
    fresh("F")
    left, tries = {f"w{number}" for number in range(WRITERS)}, 0
    while left and tries < 100:
        tries += 1
        runs = {name: subprocess.Popen([PROGRAM, "edit", "F", "--agent", name], stdin=open(script), stdout=-1, stderr=-1, text=True) for name in left}
        ended = {name: end(run, None) for name, run in runs.items()}
        made = {name for name, told in ended.items() if told == (0, "made 1\n", "")}
        check(all(told == SHELF_FAILED for name, told in ended.items() if name not in made), f"edits at once: {ended}")
        check(made, "of edits at once none was made")
        left -= made
        check(set(ids("F")) == {f"w{number}:0" for number in range(WRITERS)} - {f"{name}:0" for name in left}, "an edit is lost, or not refused")
    check(not left, "an edit is never made")


def make_at_once():
    """Eight people make one new file at once: one does."""
    pathlib.Path("G").unlink(missing_ok=True)
    ended = [end(run) for run in [start("new", "G") for _ in range(WRITERS)]]
    others = [told for told in ended if told != (0, "", "")]
    check(len(others) == WRITERS - 1, f"new files at once: {ended}")
    check(all(told in (SHELF_FAILED, (3, "", "egw: file G is there\n")) for told in others), f"new files at once: {others}")
    check(os.stat("G").st_size == 48, "a new file isn't whole")


def upgrade_at_once():
    """Eight people upgrade one file at once: one does, and who comes later finds version 2, or is told that the file changed."""
    pathlib.Path("H").write_bytes(LETTER + hashlib.sha256(LETTER).digest())
    ended = [end(run) for run in [start("upgrade", "H") for _ in range(WRITERS)]]
    others = [told for told in ended if told != (0, "version 1 events 1\n", "")]
    check(len(others) == WRITERS - 1, f"upgrades at once: {ended}")
    check(all(told in (SHELF_FAILED, (0, "version 2 events 1\n", "")) for told in others), f"upgrades at once: {others}")
    check(ids("H") == ["a:0"] and os.stat("H").st_size == 72, "an upgraded file isn't whole")


# Behind one another's back


def opened(run, name):
    """Waits until the program has this file open."""
    file = os.path.realpath(name)
    for _ in range(2000):
        for number in pathlib.Path(f"/proc/{run.pid}/fd").iterdir():
            if os.path.realpath(number) == file:
                return
        time.sleep(0.005)
    check(False, f"{name} isn't opened")


def changed_meanwhile(change, is_left):
    """A file is changed while an edit waits for its script. The edit is refused, and what is there stays."""
    fresh("F")
    run = start("edit", "F", "--agent", "a")
    opened(run, "F")
    change()
    check(end(run, "ins 0 a\n") == SHELF_FAILED, f"{change.__name__}: an edit isn't refused")
    check(is_left(), f"{change.__name__}: another file is left")


def another_edit():
    check(egw("edit", "F", "--agent", "b", script="ins 0 b\n") == (0, "made 1\n", ""), "another edit isn't made")


def written_in_place():
    with open("F", "ab") as file:
        file.write(b"more")


def touched():
    os.utime("F", ns=(0, 0))


def replaced():
    egw("new", "other")
    os.rename("other", "F")


def removed():
    os.unlink("F")


def made_a_folder():
    os.unlink("F")
    os.mkdir("F")


def locked():
    """Who holds the lock keeps the file. It is free where the lock is."""
    fresh("F")
    with open("F", "rb") as file:
        fcntl.flock(file, fcntl.LOCK_EX)
        check(egw("edit", "F", "--agent", "a", script="ins 0 a\n") == SHELF_FAILED, "the file of another's lock is stored")
    another_edit()
    check(ids("F") == ["b:0"], "behind a lock another file is left")


def left_over():
    """What a program that was ended left beside the file, or another put there, stays and isn't in the way."""
    fresh("F")
    pathlib.Path("F.0.new").write_text("left")
    os.symlink("nowhere", "F.1.new")
    os.mkdir("F.2.new")
    another_edit()
    check(ids("F") == ["b:0"] and pathlib.Path("F.0.new").read_text() == "left", "what was left over is in the way, or is lost")
    is_alone("F", "F.0.new", "F.1.new", "F.2.new")


# Links and rights


def links():
    """A link stays, and what it leads to is stored, in its folder."""
    os.makedirs("far/away")
    fresh("far/away/F")
    os.symlink("away/F", "far/link")
    os.symlink("far/link", "F")
    another_edit()
    check(os.readlink("F") == "far/link" and os.readlink("far/link") == "away/F", "a link gave way")
    check(ids("far/away/F") == ["b:0"] and os.listdir("far/away") == ["F"], "what a link leads to isn't stored")
    os.symlink("nowhere", "G")
    check(egw("new", "G") == SHELF_FAILED and os.readlink("G") == "nowhere", "a link to nothing gave way")
    is_alone("F", "G", "far")


class Watch(threading.Thread):
    """Looks all the time whether a file in the folder gives others a right that they may not have."""

    def __init__(self, allowed):
        super().__init__()
        self.allowed, self.looks, self.seen, self.ends = allowed, 0, set(), False

    def run(self):
        while not self.ends:
            for name in os.listdir():
                try:
                    found = os.lstat(name)
                except FileNotFoundError:
                    continue
                self.looks += 1
                if stat.S_IMODE(found.st_mode) & ~self.allowed:
                    self.seen.add(f"{name} {stat.S_IMODE(found.st_mode):o}")

    def stop(self):
        self.ends = True
        self.join()


def private(mode, umask):
    """A note keeps its rights, and what stands beside it while it is stored has no others."""
    fresh("F")
    egw("edit", "F", "--agent", "a", script="ins 0 " + 20_000 * "a" + "\n")
    os.chmod("F", mode)
    os.umask(umask)
    watch = Watch(mode)
    watch.start()
    for _ in range(10):
        egw("edit", "F", "--agent", "a", script="ins 0 b\n")
    watch.stop()
    os.umask(0o022)
    check(len(ids("F")) == 20_010, f"rights {mode:o}: an edit isn't made")
    check(stat.S_IMODE(os.stat("F").st_mode) == mode, f"rights {mode:o} under {umask:03o} are {os.stat('F').st_mode:o}")
    check(watch.looks > 100 and not watch.seen, f"rights {mode:o} under {umask:03o}: {watch.looks} looks, and {watch.seen} seen")


def owners():
    """Root keeps owner and group. Another user may not give them away, nor write what is for reading alone, and then nothing is stored."""
    if os.getuid() != 0:
        return
    fresh("F")
    os.chown("F", 65533, 65532)
    os.chmod("F", 0o640)
    another_edit()
    found = os.stat("F")
    check((found.st_uid, found.st_gid, stat.S_IMODE(found.st_mode)) == (65533, 65532, 0o640), "owner, group or rights are lost")
    os.chmod(".", 0o777)
    shutil.copy(PROGRAM, "egw")
    for owner, mode in ((0, 0o666), (65534, 0o444)):
        fresh("F")
        os.chown("F", owner, owner)
        os.chmod("F", mode)
        other = {"executable": "./egw", "user": 65534, "group": 65534, "extra_groups": []}
        run = start("edit", "F", "--agent", "a", **other)
        check(end(run, "ins 0 a\n") == SHELF_FAILED, f"{owner}'s file of rights {mode:o} is stored by 65534")
        check(ids("F") == [] and os.stat("F").st_uid == owner, f"{owner}'s file of rights {mode:o} isn't as it was")
    is_alone("F", "egw")


def in_folder(act, *given):
    """Does this in a folder of its own."""
    with tempfile.TemporaryDirectory() as folder:
        os.chdir(folder)
        try:
            act(*given)
        except OSError as error:
            check(False, f"{act.__name__}: {error}")
        os.chdir("/")


def all_at_once():
    pathlib.Path("script").write_text("ins 0 x\n")
    for _ in range(ROUNDS):
        edit_at_once("script")
        make_at_once()
        upgrade_at_once()
    is_alone("F", "G", "H", "script")


def all_changes():
    changed_meanwhile(another_edit, lambda: ids("F") == ["b:0"])
    changed_meanwhile(written_in_place, lambda: os.stat("F").st_size == 52)
    changed_meanwhile(touched, lambda: ids("F") == [])
    changed_meanwhile(replaced, lambda: ids("F") == [])
    changed_meanwhile(removed, lambda: not os.path.exists("F"))
    changed_meanwhile(made_a_folder, lambda: os.listdir("F") == [])
    is_alone("F")


os.umask(0o022)
in_folder(all_at_once)
in_folder(all_changes)
in_folder(locked)
in_folder(left_over)
in_folder(links)
for mode in (0o600, 0o640):
    for umask in (0o022, 0o000):
        in_folder(private, mode, umask)
in_folder(owners)
print("\n".join(wrong[:20]), end="\n" if wrong else "")
sys.exit(1 if wrong else 0)
