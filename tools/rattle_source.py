"""Reads what .rt and .antt files promise: functions with their contracts, what impls and traits say of themselves, definitions."""

import re
from collections import namedtuple

# A function: the block that it stands in, whether a crate above may name it, and what is written of it. A clause is a kind (`ensures`
# or `requires`), a name and a text.
Function = namedtuple("Function", "block is_pub name takes returns signature clauses body")
Clause = namedtuple("Clause", "kind name text")
Definition = namedtuple("Definition", "name text comment")

BLOCK = re.compile(r"^(?:unsafe )?(impl|(?:pub )?trait)\b(?:<(?:[^{<>]|<[^{<>]*>)*>)? ?([^{]*)\{", re.M)
FUNCTION = re.compile(r"^ *(pub(?:\(\w+\))? )?(?:const )?fn (\w+)", re.M)
CLAUSE = re.compile(r"\b(ensures|requires)(?:\s+\*)?(?:\s+(\w+))?\s+\{")
BODY = re.compile(r"^ *\{\}?$|(?:\{|\{\}|;)$", re.M)
GHOST = re.compile(r"^ *ghost (\w+) ?[:=] ?\{", re.M)
PAIRS = {pair: re.compile("[" + re.escape(pair) + "]") for pair in ("{}", "()", "<>")}


def plain(text):
    """A text with one space for each white space."""
    return " ".join(text.split())


def matching(text, at, pair="{}"):
    """The place behind the bracket that closes the one at this place."""
    depth = 0
    for found in PAIRS[pair].finditer(text, at):
        depth += 1 if found[0] == pair[0] else -1
        if not depth:
            return found.end()
    return len(text)


class Block:
    """An impl or a trait: of which type, and of which trait for a type."""

    def __init__(self, begin=0, end=0, kind="", head=""):
        self.begin, self.end = begin, end
        self.in_trait = kind.endswith("trait")
        head = re.sub(r"\bwhere\b.*", "", head, flags=re.S).strip()
        self.trait, between, owner = head.rpartition(" for ") if kind == "impl" else ("", "", head)
        self.of_trait = bool(between)
        self.owner = re.match(r"\w*(?:::\w+)*", owner)[0]
        # The type with its arguments, as a tuple has no name.
        self.title = plain(f"impl {head}" if kind == "impl" else f"trait {head}") if kind else ""


def blocks_of(text):
    return [Block(found.start(), matching(text, found.end() - 1), found[1], found[2]) for found in BLOCK.finditer(text)]


def functions_of(text):
    """All functions of a file."""
    blocks = blocks_of(text)
    for found in FUNCTION.finditer(text):
        block = next((block for block in blocks if block.begin < found.start() < block.end), Block())
        opened = text.index("(", found.end()) if text[found.end()] != "<" else text.index("(", matching(text, found.end(), "<>"))
        closed = matching(text, opened, "()")
        clauses, place, end = [], closed, None
        while True:
            clause = CLAUSE.search(text, place)
            body = BODY.search(text, place)
            if not clause or body and body.start() < clause.start():
                break
            end = end or clause.start()
            place = matching(text, clause.end() - 1)
            clauses.append(Clause(clause[1], clause[2] or "this", plain(text[clause.end() : place - 1])))
        arrow = re.match(r" -> ([^\n{;]*)", text[closed:])
        returns = re.sub(r"\s*(\bwhere\b.*)?$", "", arrow[1]) if arrow else ""
        begin = re.compile(r"[{;]").search(text, place)
        body = text[begin.start() : matching(text, begin.start())] if begin and begin[0] == "{" else ""
        head = re.sub(r"//[^\n]*", "", text[found.start() : end or (begin.start() if begin else len(text))])
        signature = re.sub(r",? ?\)", ")", plain(head)).replace("( ", "(")
        yield Function(block, found[1] == "pub ", found[2], text[opened:closed], returns, signature, clauses, body)


def ghosts_of(text):
    """Each impl and each trait that says something of itself, with what it says: a view, an invariant, what a trait leaves to say."""
    for block in blocks_of(text):
        said = [
            Clause("ghost", found[1], plain(text[found.end() : matching(text, found.end() - 1) - 1]))
            for found in GHOST.finditer(text, block.begin, block.end)
        ]
        if said:
            yield block, said


def handed_on(library):
    """The names that a crate hands on in the text of its lib.rt, and its public modules."""
    names = set()
    for found in re.finditer(r"^pub use (?:\w+::)*(?:\{([^}]*)\}|(\w+))(?: as \w+)?;", library, re.M):
        names |= set(re.findall(r"\w+", found[1] or found[2]))
    return names, set(re.findall(r"^pub mod (\w+);", library, re.M))


IMPORT = re.compile(r"^ *(?:ghost |pub )*use Rattle\.([\w.]+?)(?:\.\{([^}]*)\})?(?: as (\w+))?;?$", re.M)


def imports_of(text):
    """Where the words of a file come from: each word with a module and its name there, or with a module alone."""
    words = {}
    for module, names, other in IMPORT.findall(text):
        if other:
            words[other] = module, ""
        for name in filter(None, map(str.strip, names.split(","))):
            first, _, other = name.partition(" as ")
            words[other or first] = module, first
    return words


COMMENT = re.compile(r"(.*?)(?:(?<!\S)--(?: (.*))?)?$")
HEAD = re.compile(r"(?:(?:abbrev|unfoldable)(?: pub)?|(?:pub )?(?:record|data)|pub) (?!mod )(\S+)|(\S+)(?= : )")


def definitions_of(text):
    """The definitions of an .antt file, each with the comment above it. What stands in a module has the head of that before it."""
    base, module, comment, name, lines = 0, "", [], None, []
    for line in [*text.split("\n"), "use"]:
        code, said = COMMENT.match(line).groups()
        indent = len(line) - len(line.lstrip())
        begins = HEAD.match(code.strip()) if indent == (base if indent else 0) and code.strip() else None
        other = re.match(r"(use|module|pub mod)\b", line)
        if name and (begins or other or (line.strip() and not code.strip() and indent <= base) or (module and line.strip() and not indent)):
            yield Definition(name, plain(module + " " + " ".join(lines)), plain(" ".join(comment)))
            name, comment, lines = None, [], []
        if line.strip() and not indent:
            base, module = (2, plain(code)) if line.startswith("module ") else (0, "")
        if begins:
            name = begins[1] or begins[2]
        if name:
            lines.append(code)
        if not name and (other or not line.strip()):
            comment = []
        elif said:
            comment.append(said)
