"""imports.py [all]: texts of git repositories, imported by examples/git/import and exported by examples/git/export.

It works in a folder of its own, and writes a line for each thing that isn't as it must be; the status is 1 where there is one.
"""

import importlib.machinery
import importlib.util
import os
import pathlib
import random
import subprocess
import sys
import tempfile

TOP = pathlib.Path.cwd()
EGW = os.environ["EGW"]
TOOLS = TOP / "examples/git"
SAMPLE = 200  # commits of this repository
CLASHES = 50  # pairs of commits whose imports are merged
ENVIRONMENT = {
    **os.environ,
    "GIT_AUTHOR_NAME": "Ada Lovelace", "GIT_AUTHOR_EMAIL": "ada@example.org", "GIT_AUTHOR_DATE": "2001-02-03T04:05:06Z",
    "GIT_COMMITTER_NAME": "Ada Lovelace", "GIT_COMMITTER_EMAIL": "ada@example.org", "GIT_COMMITTER_DATE": "2001-02-03T04:05:06Z",
    "GIT_CONFIG_GLOBAL": "/dev/null", "GIT_CONFIG_SYSTEM": "/dev/null",
}
wrong = []


def check(is_so, said):
    """Keeps what is said where it isn't so."""
    if not is_so:
        wrong.append(said)


def run(*words, given=None, fails=False):
    """What a program prints. A status other than 0 is kept as wrong, unless it is awaited."""
    ran = subprocess.run([str(word) for word in words], input=given, stdout=subprocess.PIPE, stderr=subprocess.PIPE, env=ENVIRONMENT)
    check(fails == (ran.returncode != 0), f"{words}: status {ran.returncode}, {ran.stderr.decode(errors='replace')}")
    return ran.stderr.decode() if fails else ran.stdout


def importer():
    """examples/git/import as a module."""
    loader = importlib.machinery.SourceFileLoader("importer", str(TOOLS / "import"))
    module = importlib.util.module_from_spec(importlib.util.spec_from_loader("importer", loader))
    loader.exec_module(module)
    return module


IMPORT = importer()


def commits_of(out):
    return [line.split("\t")[:2] for line in out.with_suffix(".commits").read_text().splitlines()]


def compare(repository, path, out, sample=None, revision="HEAD"):
    """Compares the text at the mark of each commit, or of some, with git's file. Answers how many were compared."""
    told = IMPORT.Repository(repository, revision)
    files = IMPORT.names_of(told, path)
    commits = commits_of(out)
    if sample is not None and len(commits) > sample:
        commits = random.Random(7).sample(commits, sample)
    for mark, commit in commits:
        text = b"" if files[commit] is None else told.bytes(files[commit])
        check(run(EGW, "cat", "--at", mark, "--", out) == text, f"{path} at {commit}: another text")
    told.objects.stdin.close()
    told.objects.wait()
    return len(commits)


def made_repository(folder):
    """A repository with a merge of three parents, a text that is deleted and comes back, one with bytes that are no UTF-8, newlines of
    two bytes, a text that one branch renames, a conflict that a person mended, and letters above U+FFFF."""
    git = ["git", "-C", folder]

    def commit(message, **files):
        for name, text in files.items():
            (folder / name).write_bytes(text.encode())
        run(*git, "add", "-A")
        run(*git, "commit", "-qm", message)

    run("git", "init", "-q", "-b", "main", folder)
    commit("first", note="one\ntwo\nthree\n", crlf="a\r\nb\r\n", moved="some lines\nthat stay\nas they are\nin this text\n")
    for branch, line in (("left", "one left"), ("right", "three right"), ("middle", "two middle")):
        run(*git, "checkout", "-qb", branch, "main")
        old = line.split(" ")[0]
        commit(branch, note="one\ntwo\nthree\n".replace(old, line))
    run(*git, "checkout", "-q", "main")
    # git's own merge of three can't put neighbouring lines together, so the tree is written here.
    (folder / "note").write_bytes("one left\ntwo middle\nthree right \U0001f600\n".encode())
    run(*git, "add", "-A")
    tree = run(*git, "write-tree").decode().strip()
    parents = [word for branch in ("main", "left", "right", "middle") for word in ("-p", branch)]
    octopus = run(*git, "commit-tree", tree, *parents, "-m", "four sides").decode().strip()
    run(*git, "reset", "-q", "--hard", octopus)
    run(*git, "checkout", "-qb", "names")
    run(*git, "mv", "moved", "renamed")
    commit("renamed", renamed="some lines\nthat stay\nas they are\nin this text, renamed\n")
    run(*git, "checkout", "-q", "main")
    commit("not renamed", moved="Some lines\nthat stay\nas they are\nin this text\n")
    run(*git, "merge", "-q", "-m", "names", "names")
    run(*git, "rm", "-q", "crlf")
    run(*git, "commit", "-qm", "crlf goes")
    commit("crlf comes back", crlf="a\r\nbe\r\nc\r\n")
    run(*git, "checkout", "-qb", "other")
    commit("one side", note="ONE left\ntwo middle\nthree right\n")
    run(*git, "checkout", "-q", "main")
    commit("the other side", note="Eins left\ntwo middle\nthree right\n")
    subprocess.run([*git, "merge", "-q", "other"], env=ENVIRONMENT, stdout=subprocess.DEVNULL, stderr=subprocess.DEVNULL)
    commit("a conflict, mended", note="Un left\ntwo middle\nthree right\n")
    (folder / "bytes").write_bytes(b"\xff\xfe no text")
    run(*git, "add", "-A")
    run(*git, "commit", "-qm", "no text")
    commit("a text now", bytes="a text\n")
    commit("empty", note="")
    commit("last", note="again\n", wide="\U00010348\u00e9\n")


def made(folder):
    """Imports of the repository that is made here."""
    repository, outs = folder / "made", folder / "outs"
    made_repository(repository)
    told = run(TOOLS / "import", repository, "*", f"{outs}/", fails=True)
    check("bytes is no UTF-8 text in commit " in told and not (outs / "bytes.egw").exists(), f"bytes that are no text: {told}")
    compared = 0
    for path in ("note", "crlf", "renamed", "wide"):
        compared += compare(repository, path, outs / f"{path}.egw")
    listed = (outs / "note.commits").read_text()
    check(listed.count("\n") == 10 and "\tAda Lovelace\tfour sides\n" in listed, f"the commits of note: {listed}")
    check(len(commits_of(outs / "renamed.egw")) == 4, "the text that was renamed has another number of commits")
    missing = run(TOOLS / "import", repository, "nothing", folder / "nothing.egw", fails=True)
    check(missing == "import: there is no file nothing in HEAD\n", f"a path that isn't there: {missing}")

    # A second import takes what is new, and what was typed meanwhile stays.
    note = outs / "note.egw"
    run(EGW, "edit", note, "--agent", "me", given=b"ins 0 typed \nmark mine\n")
    (repository / "note").write_bytes(b"again, and again\n")
    run("git", "-C", repository, "commit", "-qam", "more")
    told = run(TOOLS / "import", repository, "note", note).decode()
    check(told == f"{note}: commits 11, of these new 1\n", f"a second import: {told}")
    check(run(EGW, "cat", note) == b"typed again, and again\n", "a second import lost what was typed")
    compared += compare(repository, "note", note)

    # Back to git: the commits that are there are used, the mark becomes one more.
    run(EGW, "edit", note, "--agent", "me", given=b"mark both\n")
    told = run(TOOLS / "export", note, repository, "note", "--branch", "typed").decode()
    check(told == "typed: marks 13, of these made into new commits 2\n", f"an export: {told}")
    shown = run("git", "-C", repository, "log", "--format=%s", "typed", "--", "note").decode().split("\n")
    check(shown[:1] == ["both"] and "mine" in shown and "four sides" in shown, f"the commits of the export: {shown}")
    check(run("git", "-C", repository, "show", "typed:note") == b"typed again, and again\n", "the text of the export")
    check(run("git", "-C", repository, "show", "typed:wide") == "\U00010348\u00e9\n".encode(), "another file of the export")
    run("git", "init", "-q", "-b", "main", folder / "empty")
    run(TOOLS / "export", note, folder / "empty", "a note", "--branch", "all")
    again = folder / "again.egw"
    run(TOOLS / "import", folder / "empty", "a note", again, "--revision", "all")
    check(run(EGW, "cat", again) == b"typed again, and again\n", "the text of an import of an export")
    compared += compare(folder / "empty", "a note", again, revision="all")
    return compared


def own(folder, everything):
    """Imports of this repository: the text at each commit, and merges of imports that were made at different commits."""
    texts = ["README.md", "crates.txt", "CHANGELOG.md"]
    if everything:
        texts = [path for path in IMPORT.Repository(TOP, "HEAD").files("HEAD") if not path.startswith("release/")]
    compared = clashes = 0
    for path in texts:
        out = folder / "own.egw"
        if everything:
            number = len(run("git", "log", "--format=%h", "--", path).split())
            if number <= 10:
                continue
        run(TOOLS / "import", TOP, path, out)
        compared += compare(TOP, path, out, None if everything else SAMPLE - compared)
        out.unlink()
    commits = run("git", "log", "--full-history", "--format=%h", "--", "README.md").decode().split()
    draw = random.Random(11)
    for _ in range(CLASHES if everything else 2):
        sides = []
        for name, commit in zip(("one", "other"), draw.sample(commits, 2)):
            sides.append(folder / f"{name}.egw")
            sides[-1].unlink(missing_ok=True)
            if run("git", "ls-tree", commit, "README.md"):
                run(TOOLS / "import", TOP, "README.md", sides[-1], "--revision", commit)
            else:
                run(EGW, "new", sides[-1])
        run(EGW, "merge", *sides)
        clashes += 1
    return compared, clashes


def main():
    with tempfile.TemporaryDirectory() as name:
        folder = pathlib.Path(name)
        compared = made(folder)
        own_compared, merged = own(folder, sys.argv[1:] == ["all"])
    for said in wrong:
        print(said)
    print(f"imports: {compared + own_compared} commits compared with git's files, {merged} pairs of imports merged")
    return 1 if wrong else 0


if __name__ == "__main__":
    sys.exit(main())
