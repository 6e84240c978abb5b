"""Tries examples/save with texts that are drawn from one seed: the note's text is the saved one, and two who save apart merge.

    python3 .ci/save.py ROOT PROGRAM

Runs in a folder of its own. Each difference is printed; the last line tells how many there were of how many.
"""

import pathlib
import random
import shutil
import subprocess
import sys

ROOT, PROGRAM = sys.argv[1:]
SAVE = pathlib.Path(ROOT, "examples", "save")
PIECES = ["tea", "cake", "a", "b", " ", "  ", "\n", "\n\n", "\\", "\\n", "é", "\U0010ffff", "\r\n", "\0", "\t", ".", "ins 0 x", "\u2028"]


def drawn(draw, most):
    return "".join(draw.choice(PIECES) for _ in range(draw.randrange(most)))


def changed(draw, text):
    """The text after some edits as an editor makes them: something typed, taken out, replaced, or moved."""
    for _ in range(draw.randrange(1, 5)):
        begin = draw.randint(0, len(text))
        end = min(len(text), begin + draw.choice([0, 0, 1, 2, 9]))
        held = text[begin:end]
        text = text[:begin] + drawn(draw, 4) + text[end:]
        if draw.random() < 0.2:
            place = draw.randint(0, len(text))
            text = text[:place] + held + text[place:]
    return text


def applied(text, script):
    """A text after an edit script, worked out here."""
    for line in script.split("\n")[:-1]:
        kind, at, rest = line.split(" ", 2)
        at = int(at)
        if kind == "del":
            assert at + int(rest) <= len(text)
            text = text[:at] + text[at + int(rest) :]
        else:
            assert at <= len(text)
            text = text[:at] + rest.replace("\\\\", "\1").replace("\\n", "\n").replace("\1", "\\") + text[at:]
    return text


def run(*words):
    ran = subprocess.run([PROGRAM, *words], stdout=subprocess.PIPE)
    if ran.returncode:
        sys.exit(f"save: egw {words}: status {ran.returncode}")
    return ran.stdout.decode()


def save(note, text, agent, *more):
    """Runs the example; the text stands in a file of an awkward name. Answers how many events were made."""
    pathlib.Path("-a text").write_bytes(text.encode())
    words = [sys.executable, "-I", "-S", str(SAVE), f"--agent={agent}", *more, "--", note, "-a text"]
    ran = subprocess.run(words, stdout=subprocess.PIPE)
    if ran.returncode:
        sys.exit(f"save: examples/save: status {ran.returncode}")
    return int(ran.stdout.split()[1])


def main():
    draw = random.Random(60)
    compared = wrong = 0

    def holds(what, good):
        nonlocal compared, wrong
        compared += 1
        if not good:
            wrong += 1
            print(f"save: {what}")

    # The scripts alone, carried out here.
    parts = {"__name__": "save", "__file__": str(SAVE)}
    exec(compile(SAVE.read_text(), str(SAVE), "exec"), parts)
    for number in range(50):
        old = drawn(draw, 60)
        new = drawn(draw, 60) if number % 10 == 0 else changed(draw, old)
        script = parts["script"](old, new, pathlib.Path("."))
        holds(f"{old!r} does not become {new!r}", applied(old, script) == new)
        if number % 10 == 0:
            holds("the same text needs edits", parts["script"](new, new, pathlib.Path(".")) == "")
    small = parts["script"]("one two three\n" * 1000, "one two three\n" * 500 + "one 2wo three\n" + "one two three\n" * 499, pathlib.Path("."))
    holds(f"one letter of many: {small!r}", small == "del 7004 1\nins 7004 2\n")

    # Two who save what their editors made of it, and merge.
    notes = ["-one note.egw", "other.egw"]
    run("new", "--", notes[0])
    holds("a first text makes another number of events", save(notes[0], "tea\n\U0010ffff", "first") == 5)
    shutil.copyfile(notes[0], notes[1])
    for _ in range(3):
        for number, note in enumerate(notes):
            text = changed(draw, run("cat", "--", note))
            save(note, text, f"editor-{number}")
            holds("the note has another text than was saved", run("cat", "--", note) == text)
            holds("saving it again makes events", save(note, text, f"editor-{number}") == 0)
        run("merge", "--", *notes)
        run("merge", "--", *reversed(notes))
        holds("two who merged have two texts", run("cat", "--", notes[0]) == run("cat", "--", notes[1]))
    # What came in while somebody had the text open in an editor: with the old copy both stay, without it the later one wins.
    run("new", "note.egw")
    save("note.egw", "tea and cake\n", "first")
    shutil.copyfile("note.egw", "old.egw")
    save("note.egw", "tea and cake at noon\n", "second")
    save("note.egw", "green tea and cake\n", "third", "--base=old.egw")
    holds("with the old copy something was lost", run("cat", "note.egw") == "green tea and cake at noon\n")
    save("note.egw", "green tea\n", "fourth")
    holds("without the old copy the saved text isn't the text", run("cat", "note.egw") == "green tea\n")
    print(f"save: {compared} comparisons of texts drawn from one seed, {wrong} wrong")
    return 1 if wrong else 0


sys.exit(main())
