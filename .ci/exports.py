"""Each function that C calls has one of a few bodies, so that it can do nothing else.

    exports.py REPOSITORY

No clause can speak of what stands behind a pointer that is handed back. So of each exported function of the library for C the body is
compared with its form, word for word: the document is taken from its handle, one call is made of it, with what the caller gave, and the
very same document is handed back. What that call leaves and answers is a contract of `KeptDocument`. A document or a peer that is made
is handed out as it was made, and one that is ended is dropped. No other function of the crate makes a handle, or takes one.
"""

import pathlib
import re
import sys

ROOT = pathlib.Path(sys.argv[1])
SOURCES = ROOT / "crates" / "egw_c" / "src"

# What each call of a document comes to.
CALLS = {
    "length": "document.length()",
    "count": "document.count()",
    "insert": "edited(document.insert(agent, at, text))",
    "delete": "edited(document.delete(agent, at, count))",
    "mark": "marked(document.mark(agent, label))",
    "undo": "undone(document.undo(agent, of, count))",
    "text": "counted(document.text())",
    "range": "found(document.range(from, count))",
    "to_utf16": "measured(document.extent_before(Measure::Utf16, at))",
    "from_utf16": "indexed(document.index_behind(Measure::Utf16, units))",
    "to_bytes": "measured(document.extent_before(Measure::Utf8, at))",
    "from_bytes": "indexed(document.index_behind(Measure::Utf8, bytes))",
    "text_at": "found(document.text_at(version))",
    "heads": "counted(document.heads())",
    "save": "counted(document.save())",
    "ask": "counted(document.ask())",
    "events": "found(document.later_events(from))",
    "marks": "counted(document.marks())",
    "caret": "found(document.caret(at))",
    "caret_index": "found(document.caret_index(caret))",
    "blame": "found(document.blame(version, columns))",
    "receive": "talked(document.receive(&mut peer, bytes))",
    "changes": "found(document.find_changes(from))",
    "copy": "document.copy_bytes(out)",
    "copy_changes": "document.copy_changes(out)",
}
CALL = re.compile(
    r"let (?:mut )?document = into_document\(alloc, handle\); (let mut peer = into_peer\(alloc, peer\); )?let (\w+) = (.*?); "
    r"(\*peer_back = Box::into_raw\(peer\) as \*mut u8; )?\*back = Box::into_raw\(document\) as \*mut u8; (\w+)"
)
# The bodies of all others, of those too that the exported ones call.
KEEP = "match Box::new(alloc, {}) {{ Ok(boxed) => {{ *out = Box::into_raw(boxed) as *mut u8; done(0) }} Err(_) => no_memory(), }}"
MADE = "match {} {{ Ok({}) => {}(alloc, {}, out), Err({}) => {}, }}"
OTHERS = {
    "new": MADE.format("KeptDocument::new(alloc)", "document", "keep", "document", "_", "no_memory()"),
    "open": MADE.format("KeptDocument::open(alloc, file)", "document", "keep", "document", "fault", "not_opened(fault)"),
    "free": "drop(into_document(alloc, handle));",
    "peer_new": MADE.format("new_peer(alloc)", "peer", "keep_peer", "peer", "_", "no_memory()"),
    "peer_free": "drop(into_peer(alloc, handle));",
}
HELPERS = {
    "keep": KEEP.format("document"),
    "keep_peer": KEEP.format("peer"),
    "into_document": "let DocumentHandle { at } = handle; unsafe { Box::from_raw(alloc, at as *mut KeptDocument) }",
    "into_peer": "let PeerHandle { at } = handle; unsafe { Box::from_raw(alloc, at as *mut FrameReader) }",
}
FUNCTION = re.compile(r'^(pub extern "C" )?fn (\w+)\((?:[^\n]*|(?:(?!^\{$|^fn |^pub ).)*?)\{$\n(.*?)^\}$', re.M | re.S)
# What makes or takes a handle's pointer.
POINTER = re.compile(r"\binto_raw\b|\bfrom_raw\b|\bunsafe\b|\bDocumentHandle\b|\bPeerHandle\b|\bforget\b|\bleak\b")


def plain(text):
    """A body without comments, with one space for each white space."""
    return " ".join(re.sub(r"//[^\n]*", "", text).split())


def is_call(body, name):
    found = CALL.fullmatch(body)
    if not found:
        return False
    peer, answer, call, peer_back, given = found.groups()
    return answer == given and call == CALLS[name] and bool(peer) == bool(peer_back) == (name == "receive")


def main():
    library = (SOURCES / "lib.rt").read_text()
    functions = {}
    for exported, name, body in FUNCTION.findall(library):
        functions[name] = bool(exported), plain(body)
    wrong = []
    for name, (exported, body) in functions.items():
        short = name.removeprefix("egw_raw_")
        if not exported:
            right = HELPERS.get(name) == body
        elif short in CALLS:
            right = is_call(body, short)
        else:
            right = OTHERS.get(short) == body
        if not right:
            wrong.append(f"egw_c/lib.rt: {name} has another body than its form")
    wanted = {f"egw_raw_{name}" for name in (*CALLS, *OTHERS)} | set(HELPERS)
    wrong += [f"egw_c/lib.rt: there is no {name}" for name in sorted(wanted - set(functions))]
    if library.count("fn ") != len(functions):
        wrong.append("egw_c/lib.rt: functions that aren't read here")
    for file in sorted(SOURCES.glob("*.rt")):
        if file.name != "lib.rt" and POINTER.search(file.read_text()):
            wrong.append(f"egw_c/{file.name}: it makes or takes the pointer of a handle")
    for line in wrong:
        print(line)
    if wrong:
        return 1
    print(f"the exports: {len(CALLS) + len(OTHERS)}, each with the body of its form")
    return 0


if __name__ == "__main__":
    sys.exit(main())
