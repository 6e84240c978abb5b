"""Which calls of the system an adapter makes without counting what fails.

An adapter is a file of the program's libraries that brings in the file system, or std's readers and writers. In it every call of the
system has to be what `counted` or `counted_or_starved` is given: then a clause of the function ties its answer to the system's. `unless` may
stand between, and `uncounted` in their place, for the few calls below. A function that is one call of the system and nothing else is
taken for such a call itself.
"""

import re

from rattle_source import functions_of

SYSTEM = re.compile(r"^use std::(?:fs|io|os|rt|env|net|process|time|\{[^}]*\b(?:fs|io|os|rt|env|net|process|time)\b)", re.M)
# What reaches no system: the helpers themselves, and how a process ends.
HELPERS, HARMLESS = "ew_outside/src/answers.rt", re.compile(r"^use std::process::ExitCode;$", re.M)
# The calls of std's files, folders, readers and writers.
NAMES = """canonicalize chown copy create create_dir create_dir_all create_new fchown flush hard_link lchown lock lock_shared metadata open
open_dir open_file pipe read read_at read_dir read_exact read_exact_at read_link read_to_end read_to_string read_vectored remove_dir
remove_dir_all remove_file rename rewind seek seek_relative set_len set_modified set_permissions set_times stream_position symlink
symlink_metadata sync_all sync_data try_clone try_lock try_lock_shared unlock write write_all write_all_at write_at write_fmt
write_vectored""".split()
ONE_CALL = re.compile(rf"\{{\s*self\.(?:{'|'.join(NAMES)})\([^;?]*\)\s*\}}")
# The functions that may make a call uncounted, and which one.
UNCOUNTED = {
    ("followed", "symlink_metadata"),
    ("replace", "remove_file"),
    ("create", "remove_file"),
    ("sync_folder", "open"),
    ("sync_folder", "sync_all"),
}
# The functions of which a call may be refused in one way without a fault, and in which.
EXPECTED = {
    ("load", "open", "NotFound"),
    ("read_front", "read", "Interrupted"),
    ("read_once", "try_to_read", "Interrupted"),
    ("new_neighbour", "open", "AlreadyExists"),
}
COUNTING = {"counted", "counted_or_starved"}


def calls_in(body, names, brought_in):
    """The calls of the system in a body: where each stands, and its name. What an option of an opening is set to is none, and neither
    is a function that stands alone, unless it was brought in from std."""
    for found in re.finditer(rf"(\.|::|(?<!\w))({'|'.join(sorted(names))})\((?!true\))", body):
        if found[1] or found[2] in brought_in:
            yield found.start(), found[2]


def given_to(body, at):
    """The call in whose arguments a place stands, and the kind of `unless`, where it stands between."""
    depth, kind = 0, None
    for place in range(at - 1, -1, -1):
        if body[place] in ")]}":
            depth += 1
        elif body[place] in "([{":
            depth -= 1
            if depth < 0:
                depth = 0
                name = re.search(r"\w*$", body[:place])[0] if body[place] == "(" else ""
                if name != "unless" or kind:
                    return name, kind
                kind = (re.match(r"\(\s*ErrorKind::(\w+),", body[place:]) or ["", "another"])[1]
    return "", kind


def adapters(root, crates):
    for crate in crates:
        for file in sorted((root / "crates" / crate / "src").rglob("*.rt")):
            place = str(file.relative_to(root / "crates"))
            text = re.sub(r"//[^\n]*", "", file.read_text())
            if SYSTEM.search(HARMLESS.sub("", text)) and place != HELPERS:
                yield place, text


def system_calls(root, crates):
    """How many calls of the system are counted, and a line for each that isn't."""
    counted, wrong, uncounted = 0, [], set()
    for place, text in adapters(root, crates):
        functions = list(functions_of(text))
        brought_in = {name for line in re.findall(r"^use std::([^;]*);", text, re.M) for name in re.findall(r"\w+", line)}
        handing = {call.name for call in functions if ONE_CALL.fullmatch(call.body)}
        for call in functions:
            if call.name in handing:
                continue
            if "io::Result" in call.returns and call.body:
                wrong.append(f"{place}: {call.name} hands on what the system answers")
            for at, name in calls_in(call.body, {*NAMES, *handing}, brought_in):
                to, kind = given_to(call.body, at)
                if to in COUNTING and (not kind or (call.name, name, kind) in EXPECTED):
                    counted += 1
                elif to == "uncounted" and (call.name, name) in UNCOUNTED:
                    uncounted.add((call.name, name))
                else:
                    wrong.append(f"{place}: {call.name} calls {name} of the system, and counts no failure")
    wrong += [f"{call} doesn't call {name} uncounted any more" for call, name in sorted(UNCOUNTED - uncounted)]
    return counted, wrong
