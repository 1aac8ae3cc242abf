#!/usr/bin/env python3
"""The stack that the calls of an archive can need at most, by the frames in its object code.

    frames.py LIB

For each function, how much stack its own frame and the arguments of a call take where it makes that
call. The readers call one another back: `next_simple` and `next_script_func` of either pass read one
deeper, and find nothing at depth 256, so the longest way down is a walk over pairs of a function and a
depth. The printing recursion is bounded by the tree and is left out here: run.sh measures it.
"""
import functools
import re
import subprocess
import sys

MAX_DEPTH = 256
DEEPER = {"next_simple", "next_script_func"}


def frames(lines):
    """name -> {callee: stack in use at the call}, with "" for the most that its own code uses"""
    sites, name, height, body, call, pages = {}, None, 0, None, None, None
    for line in lines:
        if m := re.match(r"^[0-9a-f]+ <(.*)>:", line):
            name, height, body, call, pages = m[1], 8, None, None, None
            sites[name] = {"": 8}
        elif name is None:
            continue
        elif call and (m := re.search(r"R_X86_64_\w+\s+(\S+?)(?:[-+]0x[0-9a-f]+)?$", line)):
            callee = m[1].removeprefix(".text.")
            sites[name][callee] = max(sites[name].get(callee, 0), call)
            call = None
        else:
            call = None
            # a large frame is taken step by step, down to what %r11 says, and then the rest of it
            steps, pages = pages, None
            if m := re.search(r"\ssub\s+\$0x([0-9a-f]+),%r11", line):
                pages = int(m[1], 16)
            elif steps and re.search(r"\ssub\s+\$0x[0-9a-f]+,%rsp", line):
                height += steps
            elif m := re.search(r"\s(sub|add)\s+\$0x([0-9a-f]+),%rsp", line):
                number = int(m[2], 16)
                number -= 1 << 64 if number >> 63 else 0
                height += number if m[1] == "sub" else -number
                body = height if body is None else body
            elif re.search(r"\spush\s", line):
                height += 8
            elif re.search(r"\spop\s", line):
                height -= 8
            elif m := re.search(r"\scall\s+[0-9a-f]+ <([^>]*)>", line):
                call = height
                if m[1] == name:
                    sites[name][name] = max(sites[name].get(name, 0), height)
            elif re.search(r"\sret", line):
                height = body or 8
            sites[name][""] = max(sites[name][""], height)
    return sites


def main():
    if len(sys.argv) != 2:
        sys.exit("usage: frames.py LIB")
    dump = ["objdump", "-dr", "--no-show-raw-insn", sys.argv[1]]
    sites = frames(subprocess.run(dump, capture_output=True, text=True, check=True).stdout.splitlines())
    sys.setrecursionlimit(100000)

    @functools.cache
    def need(name, depth):
        if name not in sites or depth > MAX_DEPTH + 1:
            return 0
        inner = depth + (name.split("::")[-1] in DEEPER)
        return max(use + need(callee, inner) for callee, use in sites[name].items())

    for name in ("asciimath_parse", "asciimath_parse_tokens", "asciimath_closers", "asciimath_closers_text"):
        print(f"stack of {name} by its frames: {need(name, 0)} bytes at most")


main()
