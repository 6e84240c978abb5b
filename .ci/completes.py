"""Types lines in a shell with a terminal, and a tab behind each, and compares what then stands on the line.

    python3 .ci/completes.py SHELL COMPLETION

SHELL is bash or zsh, COMPLETION the file that is installed for it. It goes by the files of the working directory, which .ci/uses makes:
an event file `a note.egw` with the events ada:0 to ada:4, of which ada:2 is a mark with the label lunch, and a file `a text`.
"""
import os
import pathlib
import pty
import select
import shutil
import sys
import time

ROWS = [
    ("egw mer", "egw merge "),
    ("egw cat a", r"egw cat a\ note.egw "),
    (r"egw cat a\ t", r"egw cat a\ t"),
    (r"egw merge a\ note.egw f", r"egw merge a\ note.egw folder/"),
    (r"egw cat a\ note.egw --at lu", r"egw cat a\ note.egw --at ada:2 "),
    (r"egw cat a\ note.egw --at=lu", r"egw cat a\ note.egw --at=ada:2 "),
    (r"egw cat a\ note.egw --at r", r"egw cat a\ note.egw --at root "),
    (r"egw cat a\ note.egw --at ada:4,lu", r"egw cat a\ note.egw --at ada:4,ada:2 "),
    (r"egw cat a\ note.egw --at=ada:4,lu", r"egw cat a\ note.egw --at=ada:4,ada:2 "),
    (r"egw undo a\ note.egw --agent ada --of ada:4", r"egw undo a\ note.egw --agent ada --of ada:4 "),
    (r"egw undo a\ note.egw --of a", r"egw undo a\ note.egw --of ada:"),
    (r"egw undo a\ note.egw --agent a", r"egw undo a\ note.egw --agent a"),
    ("egw cat away.egw --at lu", "egw cat away.egw --at lu"),
]
BEGINS = {
    "bash": ["bash --norc --noprofile -i", ". {completion}", """bind -x '"\\C-o": printf "%s\\n" "$READLINE_LINE" >>lines'"""],
    "zsh": [
        "zsh -f -i",
        "fpath=({folder} $fpath); autoload -Uz compinit; compinit -u -D; bindkey '^I' complete-word",
        "show() {{ print -r -- $BUFFER >>lines }}; zle -N show; bindkey '^O' show; bindkey '^U' kill-whole-line",
    ],
}


def lines_of(file):
    return file.read_text().splitlines() if file.exists() else []


def main(shell, completion):
    folder = pathlib.Path("of_the_shell")
    folder.mkdir(exist_ok=True)
    shutil.copy(completion, folder / "_egw")
    lines = pathlib.Path("lines")
    words, *commands = [line.format(completion=folder / "_egw", folder=folder) for line in BEGINS[shell]]
    child, terminal = pty.fork()
    if child == 0:
        os.environ.update(TERM="dumb", HOME=os.getcwd())
        os.execvp(words.split()[0], words.split())

    def waits_for(count):
        """What the shell prints is read away until so many lines were noted."""
        end = time.monotonic() + 30
        while len(lines_of(lines)) < count and time.monotonic() < end:
            if select.select([terminal], [], [], 0.1)[0]:
                os.read(terminal, 65536)

    for command in [*commands, "echo ready >>lines"]:
        os.write(terminal, command.encode() + b"\n")
    waits_for(1)
    wrong = 0
    for count, (typed, wanted) in enumerate(ROWS, 2):
        os.write(terminal, typed.encode() + b"\t\x0f\x15")
        waits_for(count)
        found = (lines_of(lines) + [None] * count)[count - 1]
        if found != wanted:
            wrong += 1
            print(f"{shell}: {typed!r} becomes {found!r}, not {wanted!r}")
    os.close(terminal)
    lines.unlink(missing_ok=True)
    return min(wrong, 1)


sys.exit(main(*sys.argv[1:]))
