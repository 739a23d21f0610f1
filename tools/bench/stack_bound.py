#!/usr/bin/env python3
"""Prints, for each export of a static library, the most stack that any call of it can take, read from its machine code by objdump:
tools/bench/stack_bound.py LIBRARY
The deepest stack pointer of each function along its paths, and of the functions that it calls; from the return address on, without the
arguments that the caller put on the stack. It refuses recursion, calls through pointers, and stack pointers that it cannot follow. Of the C
library's memcpy, memmove and memset only the return address is counted."""

import re
import subprocess
import sys

WORD = 8
C_LIBRARY = {"memcpy", "memmove", "memset"}
FUNCTION = re.compile(r"^[0-9a-f]+ <(.*)>:$")
INSTRUCTION = re.compile(r"^ *([0-9a-f]+):\t(\S+) *(.*?) *(?:#.*)?$")
CALLEE = re.compile(r"R_X86_64_(?:PLT32|PC32)\t(?:\.text\.)?(.*?)-0x4$")


def fail(message):
    sys.exit(f"tools/bench/stack_bound.py: {message}")


def functions_of(library):
    """of each function: address, operation, operands and callee of each instruction"""
    functions, body = {}, None
    text = subprocess.run(["objdump", "-dr", "--no-show-raw-insn", library], capture_output=True, text=True, check=True).stdout
    for line in text.splitlines():
        if named := FUNCTION.match(line):
            body = functions[named[1]] = []
        elif found := INSTRUCTION.match(line):
            body.append([int(found[1], 16), found[2], found[3], None])
        elif (callee := CALLEE.search(line)) and body:
            body[-1][3] = callee[1]
    return functions


def change(name, operation, operands):
    """what an instruction adds to the depth"""
    if operation == "push":
        return WORD
    if operation == "pop":
        return -WORD
    if not operands.endswith(",%rsp") or operation.startswith(("cmp", "test")):
        return 0
    if (number := re.match(r"\$(-?0x[0-9a-f]+),%rsp$", operands)) and operation in ("sub", "add"):
        return int(number[1], 16) * (1 if operation == "sub" else -1)
    return fail(f"{name}: {operation} {operands}")


def frame(name, body):
    """the deepest point of a function, and its calls, each with the depth there"""
    at = {address: i for i, (address, *_) in enumerate(body)}
    depths, calls, tables = {}, [], []

    def walk(i, depth):
        work = [(i, depth)]
        while work:
            i, depth = work.pop()
            if depths.get(i, depth) != depth:
                fail(f"{name}: two depths at {body[i][0]:x}")
            if i in depths or i >= len(body):
                continue
            depths[i] = depth
            _, operation, operands, callee = body[i]
            # a function that calls none may use what lies below its stack pointer
            deepest.extend(depth + int(offset, 16) for offset in re.findall(r"-(0x[0-9a-f]+)\(%rsp", operands))
            after = depth + change(name, operation, operands)
            if operation == "ret":
                continue
            jump = operation.startswith("j")
            if jump and operands.startswith("*"):
                tables.append(after)
                continue
            if operation == "call" or jump and callee:
                if not callee:
                    fail(f"{name}: {operation} {operands}")
                calls.append((callee, after if operation == "call" else after - WORD))
            elif jump:
                work.append((at[int(operands.split()[0], 16)], after))
            if operation != "jmp":
                work.append((i + 1, after))
            deepest.append(after)

    deepest = [WORD]
    walk(0, WORD)
    # what no path reaches by itself is reached by a table of jumps, as deep as the jump is
    for i in range(len(body)):
        if i not in depths and tables and body[i][1] not in ("nop", "nopw", "nopl", "int3", "cs", "data16", "xchg"):
            walk(i, max(tables))
    return max(deepest), calls


def main():
    functions = functions_of(sys.argv[1])
    frames = {name: frame(name, body) for name, body in functions.items()}
    bounds = {}

    def bound(name, above):
        if name in C_LIBRARY:
            return WORD
        if name not in frames or name in above:
            fail(f"{name} is {'called by itself' if name in above else 'not in the library'}")
        if name not in bounds:
            deepest, calls = frames[name]
            bounds[name] = max([deepest] + [depth + bound(callee, above | {name}) for callee, depth in calls])
        return bounds[name]

    for name in functions:
        if name.startswith("kbuckets_"):
            print(name, bound(name, frozenset()))


main()
