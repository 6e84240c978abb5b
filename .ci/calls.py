"""What a call leaves open, and which functions call themselves.

    calls.py REPOSITORY

Of each public function of each library crate it tells what no clause tells: what is returned, or Ok, or an error other than want of
memory, or what becomes of what is given to be changed. Public is what a crate above can name: what stands in a public module, or what
the crate hands on by `pub use`. And it finds the functions of the program's crates that call themselves, or one another in a ring:
docs/MAP.md has to list these, and no others. At last it refuses a call of the system whose failure isn't counted (`system_calls.py`).
"""

import pathlib
import re
import sys

sys.dont_write_bytecode = True
ROOT = pathlib.Path(sys.argv[1])
sys.path[:0] = [str(ROOT / "tools"), str(ROOT / ".ci")]

from rattle_source import functions_of, handed_on, matching  # noqa: E402
from system_calls import system_calls  # noqa: E402

MAP = ROOT / "docs" / "MAP.md"
# Crates of the programs of trials: nothing is claimed of them.
UNCLAIMED = {"trial_rows"}
# Where a search begins, which changes no answer.
HINT = ("near", "Near")
# What is lent to a call and isn't used any more where it is refused, and steps of which nothing is claimed, those of a net.
LENT = {("walk", "state"), ("walk_runs", "state"), ("go_on", "self"), ("step", "steps"), ("run_script", "steps"), ("net", "steps")}
OK, ERR = re.compile(r"\b(IfOk|OnOk|IsOkAnd|IsOk)\b"), re.compile(r"\b(IfErr|OnErr|IsErr|IsErrAnd)\b")


def libraries():
    for library in sorted((ROOT / "crates").glob("*/src/lib.rt")):
        if library.parent.parent.name not in UNCLAIMED:
            yield library.parent.parent.name, library


def public_calls(library):
    names, modules = handed_on(library.read_text())
    for file in sorted(library.parent.rglob("*.rt")):
        is_open = file == library or file.relative_to(library.parent).with_suffix("").parts[0] in modules
        for call in functions_of(file.read_text()):
            is_of_trait = call.block.of_trait
            if (call.is_pub or call.block.in_trait) and not is_of_trait and (is_open or (call.block.owner or call.name) in names):
                yield file, call


# Who calls whom

RECEIVER = re.compile(r"((?:\bself|\b\w+)(?:\.\w+(?:\(\))?)*|[)\]?])\s*\.(\w+)(?:::<[^(]*>)?\(|(?<![\w.])(?:(\w+)::(?:<[^>]*>::)?)?(\w+)(?:::<[^(]*>)?\(")


def base_of(type_text):
    """The name of a type without references, of what it may be answered with."""
    inner = re.sub(r"^(?:Result|Option)<(.*?)(?:, \w+)?>$", r"\1", type_text.strip())
    found = re.match(r"(?:&(?:'\w+ )?)?(?:mut )?(\w+)", inner.strip())
    return found[1] if found else inner


class Crate:
    """The functions of a crate, the fields of its types, and who calls whom."""

    def __init__(self, library):
        files = sorted(library.parent.rglob("*.rt"))
        whole = "\n".join(re.sub(r"//[^\n]*", "", file.read_text()) for file in files)
        self.own = {"crate", "self", "super", *(file.stem for file in files)}
        self.nested = set(re.findall(r"#\[cycle\(\w+\)\]\s*(?:#\[[^\n]*\]\s*)*(?:pub )?(?:struct|enum) (\w+)", whole))
        self.fields = {}
        for found in re.finditer(r"\bstruct (\w+)[^{;]*\{", whole):
            inside = whole[found.end() : matching(whole, found.end() - 1)]
            self.fields[found[1]] = dict(re.findall(r"(\w+): ([^\n]*?),?\n", inside))
        self.calls = {}
        for call in functions_of(whole):
            # A method of a trait may stand beside one of its own by the same name.
            self.calls.setdefault((call.block.owner, f"{call.name} of a trait" if call.block.of_trait else call.name), []).append(call)
        for owner, name in [key for key in self.calls if key[1].endswith(" of a trait")]:
            if (owner, name.split(" ")[0]) not in self.calls:
                self.calls[owner, name.split(" ")[0]] = self.calls.pop((owner, name))

    def type_of(self, call, path):
        """The type of `self.a.b` or of an argument, where it is told."""
        first, *rest = path.split(".")
        told = call.block.owner if first == "self" else base_of((re.search(rf"\b{first}: ([^,)]*)", call.takes) or ["", ""])[1])
        for step in rest:
            if step.endswith("()"):
                answers = self.calls.get((told, step[:-2]))
                told = base_of(answers[0].returns) if answers else None
            else:
                told = base_of(self.fields[told][step]) if step in self.fields.get(told, ()) else None
            told = call.block.owner if told == "Self" else told
        return told

    def called(self, call):
        """What a function calls, as owners and names."""
        for path, method, owner, name in RECEIVER.findall(call.body):
            if method:
                # A receiver of which no type is told may be of the same type, where such a type has others of itself below it.
                known = self.type_of(call, path) if path not in ")]?" else ""
                yield (call.block.owner if known == "" and call.block.owner in self.nested else known or "?", method)
            else:
                yield (call.block.owner if owner == "Self" else "" if owner in self.own else owner, name)

    def rings(self):
        """The functions that come back to themselves."""
        goes = {key: {to for call in same for to in self.called(call) if to in self.calls} for key, same in self.calls.items()}

        def reached(key):
            seen, left = set(), [key]
            while left:
                for to in goes[left.pop()] - seen:
                    seen.add(to)
                    left.append(to)
            return seen

        return sorted(key for key in goes if key in reached(key))


def program_crates():
    """The crates that the program is made of, as crates.txt has them."""
    below = dict(line.split(":") for line in (ROOT / "crates.txt").read_text().splitlines() if ":" in line)
    found, left = ["egw"], ["egw"]
    while left:
        for crate in below[left.pop()].split():
            if crate in below and crate not in found:
                found.append(crate)
                left.append(crate)
    return sorted(found)


def recursion():
    """The functions that come back to themselves, a line for each crate that has some."""
    for crate in program_crates():
        source = ROOT / "crates" / crate / "src"
        library = source / "lib.rt" if (source / "lib.rt").exists() else source / "main.rt"
        named = [f"`{owner}::{name}`" if owner else f"`{name}`" for owner, name in Crate(library).rings()]
        if named:
            yield f"- `{crate}`: {', '.join(named)}"


# What is left open


def open_points(call):
    said = [clause.text for clause in call.clauses if clause.kind == "ensures"]
    of_both = [text for text in said if re.search(r"\bresult\b", text) and not OK.search(text) and not ERR.search(text)]
    refuses = call.returns.startswith("Result")
    if call.returns and call.returns not in HINT and not any(re.search(r"\bresult\b", text) for text in said):
        yield "nothing tells what it returns"
    if refuses and not of_both and not any(OK.search(text) for text in said):
        yield "nothing tells Ok"
    fault = call.returns.rstrip(">").split(", ")[-1].strip()
    if refuses and fault not in ("NoMem", "AllocError", "Failed") and not of_both and not any(ERR.search(text) for text in said):
        yield f"nothing tells {fault}"
    for given in re.findall(r"(?:&mut (self)\b|(\w+): &mut )", call.takes):
        name = given[0] or given[1]
        if name not in HINT and (call.name, name) not in LENT and not any(f"{name}.new" in text and not (refuses and OK.search(text)) for text in said):
            yield f"nothing tells {name}" + (" behind a refusal" if refuses else "")


def main():
    count, wrong = 0, []
    for crate, library in libraries():
        for file, call in public_calls(library):
            count += 1
            place = f"{crate}/{file.relative_to(library.parent)}: {call.block.owner or 'the function'} {call.name}"
            wrong += [f"{place}: {point}" for point in open_points(call)]
    found = list(recursion())
    listed = re.search(r"^## Loops and recursion\n(.*?)(?=^## |\Z)", MAP.read_text(), re.M | re.S)
    if not listed or re.findall(r"^- .*", listed[1], re.M) != found:
        wrong += ["docs/MAP.md lists other functions that call themselves; they are:", *found]
    counted, uncounted = system_calls(ROOT, (crate for crate in program_crates() if crate != "egw"))
    wrong += uncounted
    for line in wrong:
        print(line)
    if wrong:
        print(f"the calls: {count}, and something is open")
        return 1
    print(
        f"the calls: {count}, and the clauses of each tell all of it; none calls itself but those that docs/MAP.md lists; "
        f"each of the {counted} calls of the system counts its failure"
    )
    return 0


if __name__ == "__main__":
    sys.exit(main())
