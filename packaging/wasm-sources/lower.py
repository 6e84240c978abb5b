#!/usr/bin/env python3
"""lower.py IN.ll OUT.ll: makes of the toolchain's module for x86-64 the one that the toolchain itself makes for wasm64.

Both have addresses of 64 bits, and the toolchain writes the same functions for both. It writes three things differently: the target with
its attributes; what a compiler may take for built in (there is no C library to call); and a check at the entry of each function that the
stack isn't used up, since no guard page lies below it. Where a function begins in another way than is known here, this stops."""
import re
import sys

ATTRIBUTES = '"no-builtin-bcmp" "no-builtin-memcmp" "no-builtin-strlen" "probe-stack"="inline-asm" "stack-probe-size"="3072" "target-cpu"="lime1"'
CHECK = """\
  %stack.at = call ptr @llvm.frameaddress.p0(i32 0)
  %stack.number = ptrtoaddr ptr %stack.at to i64
  %stack.below = icmp slt i64 %stack.number, 16
  br i1 %stack.below, label %stack.trap, label %stack.ok

stack.ok:"""
TRAP = """
stack.trap:
  call void @llvm.trap()
  unreachable
}
"""
DECLARED = {
    "llvm.frameaddress.p0": "declare ptr @llvm.frameaddress.p0(i32 immarg)",
    "llvm.trap": "declare void @llvm.trap() cold noreturn nounwind",
}


def with_check(match):
    """A function with the check behind its locals. An export calls one function alone, which has the check."""
    head, body = match.groups()
    if not head.startswith("define internal"):
        return match.group(0)
    start, _, rest = body.partition("\n\n")
    lines = start.split("\n")
    behind = max((n + 1 for n, line in enumerate(lines) if " = alloca " in line), default=0)
    lines.insert(behind, CHECK)
    rest = re.sub(r"%start\b", "%stack.ok", rest)
    return head + "\nstart:\n" + "\n".join(lines) + ("\n\n" + rest if rest else "") + TRAP


def lowered(text):
    text = re.sub(r"^target datalayout.*\n", "", text, flags=re.M)
    text = re.sub(r"^target triple.*$", 'target triple = "wasm64-unknown-unknown"', text, flags=re.M)
    text = re.sub(
        r'^(attributes #\d+ = \{[^}]*?)"probe-stack"="inline-asm" "stack-probe-size"="3072" "target-cpu"="[^"]*"',
        lambda match: match.group(1) + ATTRIBUTES,
        text,
        flags=re.M,
    )
    functions = len(re.findall(r"^define ", text, flags=re.M))
    text, found = re.subn(r"^(define [^\n]*\{)\nstart:\n(.*?)^\}\n", with_check, text, flags=re.M | re.S)
    if found != functions or 'target-cpu"="x86' in text or "@llvm.x86." in text:
        sys.exit("lower.py: the toolchain writes its modules in another way than is known here")
    for name, line in DECLARED.items():
        if f"@{name}(" in text and not re.search(rf"^declare [^\n]*@{re.escape(name)}\(", text, flags=re.M):
            text += line + "\n"
    return text


if __name__ == "__main__":
    with open(sys.argv[1], encoding="utf-8", errors="surrogateescape") as file:
        module = file.read()
    with open(sys.argv[2], "w", encoding="utf-8", errors="surrogateescape") as file:
        file.write(lowered(module))
