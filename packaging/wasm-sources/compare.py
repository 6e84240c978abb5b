#!/usr/bin/env python3
"""compare.py OWN.ll KIT.ll: whether each function of a module that lower.py made is the one of the toolchain's module for WebAssembly, but
for the names of values and labels. Both have the check of the stack at their entry, behind the locals; it may stand before or behind the
stores of what the function was handed. The exports aren't compared: the toolchain guards its own, and calls.c those of the library."""
import re
import sys

FUNCTION = re.compile(r'^(define internal [^\n]*?(@"[^"]*"|@[\w.]+)\([^\n]*)\n(.*?)^\}\n', re.M | re.S)
CHECK = re.compile(
    r"""  (%[\w.]+) = call ptr @llvm\.frameaddress\.p0\(i32 0\)
  (%[\w.]+) = ptrtoaddr ptr \1 to i64
  (%[\w.]+) = icmp slt i64 \2, 16
  br i1 \3, label %([\w.]+), label %([\w.]+)
"""
)


def without_check(name, code):
    """The code without the check and the block that it goes to, where no call of a function or branch stands before it."""
    check = CHECK.search(code)
    if not check or re.search(r"^  (br|%\w+ = call|call void @(?!llvm\.mem(set|move)\.))", code[: check.start()], flags=re.M):
        sys.exit(f"compare.py: {name} doesn't begin with a check of the stack")
    trap, went_on = re.escape(check[4]), re.escape(check[5])
    code = code[: check.start()] + code[check.end() :]
    code, traps = re.subn(rf"^{trap}:\n  call void @llvm\.trap\(\)\n  unreachable\n", "", code, flags=re.M)
    code, labels = re.subn(rf"^{went_on}:\n", "", code, flags=re.M)
    if (traps, labels) != (1, 1):
        sys.exit(f"compare.py: {name} has another check of the stack")
    # What branched to the block behind the check belongs to the first block now.
    return re.sub(rf"%{went_on}\b", "%start", code)


def functions(file):
    """Of each function its text, with numbers for the names of values and labels, and words for the numbers of attributes."""
    with open(file, encoding="utf-8", errors="surrogateescape") as opened:
        text = opened.read()
    words = dict(re.findall(r"^attributes (#\d+) = \{(.*)\}$", text, flags=re.M))
    found = {}
    for head, name, body in FUNCTION.findall(text):
        if name.startswith('@"rattle::export '):
            continue
        names = {}

        def renamed(match):
            word = match[0]
            if word[0] == '"':
                return word
            if word[0] == "#":
                return words.get(word, word)
            return names.setdefault(word.strip("%:"), f"%{len(names)}")

        code = re.sub(r"\s*; preds = .*|^\n", "", body, flags=re.M)
        found[name] = re.sub(r'"[^"]*"|#\d+|%[\w.]+|^[\w.]+:$', renamed, head + "\n" + without_check(name, code), flags=re.M)
    return found


if __name__ == "__main__":
    own, kit = functions(sys.argv[1]), functions(sys.argv[2])
    differ = sorted(name for name in own.keys() | kit.keys() if own.get(name) != kit.get(name))
    for name in differ:
        print("differs:", name)
    print(f"the lowering: {len(own)} functions, {len(own) - len(differ)} of them as the toolchain writes them for WebAssembly")
    sys.exit(1 if differ or not own else 0)
