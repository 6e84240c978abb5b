"""Two programs side by side over folders that are alike: what .ci/second.py compares with."""

import importlib.util
import os
import pathlib
import re
import subprocess
import sys
import traceback
from collections import Counter

ROOT, PROGRAM, FOLDER = map(pathlib.Path, sys.argv[1:4])
READER_FILE = ROOT / "tools" / "second_reader.py"
READER_COMMAND = [sys.executable, "-I", "-S", str(READER_FILE)]

spec = importlib.util.spec_from_file_location("second_reader", READER_FILE)
reader = importlib.util.module_from_spec(spec)
spec.loader.exec_module(reader)


def put(path, data):
    """Writes a file anew: never through a link."""
    if path.is_symlink() or path.exists():
        path.unlink()
    path.write_bytes(data)


def contents(folder):
    """What lies in a folder: each name with what is there."""
    found = {}
    for path in sorted(folder.rglob("*")):
        name = str(path.relative_to(folder))
        if path.is_symlink():
            found[name] = "link to " + os.readlink(path)
        elif path.is_dir():
            found[name] = "folder"
        else:
            size = path.stat().st_size
            found[name] = path.read_bytes() if size < 10**8 else f"{size} bytes"
    return found


class Beside:
    """Two folders that are alike. Each command line is run in both: by the program in one, by the reader in the other."""

    def __init__(self):
        self.sides = [
            (FOLDER / "first", [str(PROGRAM)]),
            (FOLDER / "second", READER_COMMAND),
        ]
        for folder, _ in self.sides:
            folder.mkdir()
        self.parts = Counter()
        self.part = ""
        self.failing = 0
        self.texts = Counter()
        self.statuses = Counter()

    def fork_reader(self):
        """From now on the reader is run in forks of this process: the same text, read once."""
        self.sides[1] = (self.sides[1][0], None)

    def files(self, **named):
        for name, data in named.items():
            self.file(name, data)

    def file(self, name, data):
        for folder, _ in self.sides:
            put(folder / name, data)

    def copy(self, name, target):
        for folder, _ in self.sides:
            put(folder / target, (folder / name).read_bytes())

    def clear(self):
        for folder, _ in self.sides:
            for path in sorted(folder.rglob("*"), reverse=True):
                path.rmdir() if path.is_dir() and not path.is_symlink() else path.unlink()

    def run(self, *words, input=b"", out=None, err=None):
        """Compares one command line. Gives the status and the output of the program."""
        if isinstance(input, bytes):
            put(FOLDER / "input", input)
        path = FOLDER / "input" if isinstance(input, bytes) else input
        seen = [self.one_side(side, words, path, out, err) for side in self.sides]
        self.parts[self.part] += 1
        status, output, text, _ = seen[0]
        self.texts[status, shape_of(text)] += 1
        self.statuses[command_of(words), status] += 1
        if seen[0] != seen[1]:
            self.fail(words, input, seen)
        return status, output

    def one_side(self, side, words, path, out, err):
        folder, command = side
        source = os.open(path, os.O_RDONLY)
        with open(FOLDER / "out", "wb") as got_out, open(FOLDER / "err", "wb") as got_err:
            streams = [source, (out or got_out).fileno(), (err or got_err).fileno()]
            status = run_command(command + list(words), folder, streams) if command else run_reader(words, folder, streams)
        os.close(source)
        return status, (FOLDER / "out").read_bytes(), (FOLDER / "err").read_bytes(), contents(folder)

    def fail(self, words, input, seen):
        self.failing += 1
        shown = input[:80] if isinstance(input, bytes) else input
        print(f"{self.part}: egw {' '.join(map(repr, words))} over the input {shown}: another answer", flush=True)
        for what, one, other in zip(("status", "output", "error text"), seen[0], seen[1]):
            if one != other:
                print(f"  {what}: the program {str(one)[:200]}, the second reader {str(other)[:200]}")
        for name in sorted(seen[0][3].keys() | seen[1][3].keys()):
            if seen[0][3].get(name) != seen[1][3].get(name):
                print(f"  the file {name} is another")

    def wrong(self, text):
        self.failing += 1
        print(f"{self.part}: {text}", flush=True)


class Alone:
    """The program by itself, in a folder of its own, where the reader would take too long."""

    def __init__(self):
        self.folder = FOLDER / "alone"
        self.folder.mkdir()

    def clear(self):
        for path in self.folder.iterdir():
            path.unlink()

    def run(self, *words, input=b""):
        """Gives the status and the output of the program."""
        done = subprocess.run([str(PROGRAM), *words], cwd=self.folder, input=input, capture_output=True)
        return done.returncode, done.stdout


def run_command(command, folder, streams):
    source, out, err = streams
    return subprocess.run(command, cwd=folder, stdin=source, stdout=out, stderr=err).returncode


def run_reader(words, folder, streams):
    """The second reader in a process of its own, which has read its text already."""
    child = os.fork()
    if child:
        status = os.waitpid(child, 0)[1]
        return os.WEXITSTATUS(status) if os.WIFEXITED(status) else -os.WTERMSIG(status)
    try:
        os.chdir(folder)
        for number, stream in enumerate(streams):
            os.dup2(stream, number)
        sys.argv = ["second_reader.py", *map(os.fsdecode, words)]
        os._exit(reader.main())
    except BaseException:
        traceback.print_exc()
        os._exit(101)


def command_of(words):
    """The first word, and the option `--at` where `cat` has it."""
    texts = [os.fsencode(word) for word in words]
    has_version = texts[:1] == [b"cat"] and any(re.match(rb"--at(=|$)", text) for text in texts[1:])
    return b" ".join(texts[:1] + [b"--at"] * has_version).decode(errors="replace")


def shape_of(text):
    """An error text without its names and numbers."""
    text = re.sub(rb"^egw: (?!line|frame|input|index|journal|file |no file|clash|unknown|more than|\d+ heads|shelf|disk|source|sink)[^:]*: ", b"egw: F: ", text)
    text = re.sub(rb"(no file|file|clash|unknown|no peer|peer) [^\n]*?( is there)?\n", rb"\1 NAME\2\n", text)
    return re.sub(rb"[0-9a-f]{64}|[0-9]+", b"N", text).decode(errors="replace").strip()


LISTINGS = ("cat", "heads", "log", "check", "replay", "ask", "marks")


def list_all(beside, name):
    """All that tells of a file. Its changes, one after another, have to leave its text, and its marks are those of its log."""
    answers = [beside.run(listing, name) for listing in LISTINGS]
    if answers[4][0] == 0 and text_after(answers[4][1].decode()) != answers[0][1].decode():
        beside.wrong(f"the changes of {name} don't leave its text")
    if answers[2][0] == 0 and marks_in(answers[2][1].decode()) != answers[6][1].decode():
        beside.wrong(f"the marks of {name} aren't those of its log")
    return answers


def marks_in(log):
    """The lines of the marks of a log, as `marks` prints them."""
    lines = [line.split(" ", 3) for line in log.split("\n")[:-1]]
    return "".join(f"{id} {what}\n" for id, _, kind, what in lines if kind == "mark")


def text_after(changes):
    """The text that changes, as `replay` prints them, leave."""
    text = []
    for change in changes.split("\n")[:-1]:
        kind, at, ch = (change.split(" ", 2) + [None, None])[:3]
        if kind == "ins":
            text.insert(int(at), {"\\n": "\n", "\\\\": "\\"}.get(ch, ch))
        elif kind == "del":
            del text[int(at)]
    return "".join(text)
