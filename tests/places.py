"""The places where a program allocates memory, read from its machine code.

A place is a call that can lead to the allocator: a call of a function that is the allocator, or that calls or jumps to such a function.
Running out of memory returns there, and the code after it passes the error on. The code is compiled without frame pointers and doesn't say
how to unwind its stack, so this module determines for each call how far the top of the stack is from the function's own return address.
With that, tests/growths.c finds all calls that lead to an allocation.

Needs `objdump`.
"""

import re
import struct
import subprocess
import sys

FUNCTION = re.compile(r"([0-9a-f]+) <(.*)>:")
INSTRUCTION = re.compile(r" +([0-9a-f]+):\t(?:(?:notrack|bnd|data16|cs|rep|repz|repnz|lock) )*(\S+) *([^#]*)")
STEP = re.compile(r"\$0x([0-9a-f]+),%rsp")
BOTTOM = re.compile(r"\$0x([0-9a-f]+),%r11")
FROM_FRAME = re.compile(r"-0x([0-9a-f]+)\(%rbp\),%rsp")
ALLOCATOR = {f"{name}@plt" for name in ("malloc", "realloc", "calloc", "aligned_alloc", "posix_memalign")}
ENDS = {"ret", "ud2", "int3", "hlt"}
FILLING = {"nop", "nopw", "nopl", "int3", "xchg", "ud2"}
HASH = re.compile(r"::<#[0-9a-f]+>")


def signed(digits):
    """The number that a constant of 64 bits stands for."""
    value = int(digits, 16)
    return value - (1 << 64) if value >> 63 else value


def functions_of(program):
    """The functions of a program, each with its start, its name and its instructions, and these with address, word and operands."""
    words = ["objdump", "-d", "--no-show-raw-insn", "-j", ".text", "-j", ".plt", program]
    found = []
    for line in subprocess.run(words, capture_output=True, text=True, check=True).stdout.split("\n"):
        if match := FUNCTION.fullmatch(line):
            found.append((int(match[1], 16), match[2], []))
        elif match := INSTRUCTION.match(line):
            found[-1][2].append((int(match[1], 16), match[2], match[3].strip()))
    return found


def moved(state, word, rest):
    """The state after an instruction: how far the top of the stack is below the function's return address, how far %rbp is if it was made a
    frame pointer, and how far %r11 is, to which a loop lowers the top step by step if a frame is larger than a page."""
    depth, frame, bottom = state
    if (word, rest) == ("mov", "%rsp,%r11"):
        return depth, frame, depth
    if word == "sub" and (match := BOTTOM.fullmatch(rest)):
        return depth, frame, bottom + int(match[1], 16)
    if (word, rest) == ("cmp", "%r11,%rsp"):
        return bottom, frame, bottom
    depth, frame = moved_top(depth, frame, word, rest)
    return depth, frame, bottom


def moved_top(depth, frame, word, rest):
    """The same for the top of the stack and %rbp, if no loop moves the top."""
    if word.startswith("push"):
        return depth + 8, frame
    if word.startswith("pop"):
        return depth - 8, frame
    if word in ("sub", "add") and (match := STEP.fullmatch(rest)):
        return depth + (signed(match[1]) if word == "sub" else -signed(match[1])), frame
    if word == "lea" and (match := FROM_FRAME.fullmatch(rest)):
        return frame + int(match[1], 16), frame
    if word == "leave":
        return frame - 8, frame
    return depth, depth if (word, rest) == ("mov", "%rsp,%rbp") else frame


class Function:
    """A function: its calls, each with its return address, the depth of the stack and the callee, and its jumps."""

    def __init__(self, start, name, instructions):
        self.start, self.name, self.instructions = start, name, instructions
        self.index = {address: at for at, (address, _, _) in enumerate(instructions)}
        self.states, self.calls, self.jumps, self.tables = {}, [], set(), []
        self.walk(0, (0, 0, 0))
        # code that no jump names is reached through a jump table
        for at, (_, word, _) in enumerate(instructions):
            if at not in self.states and self.tables and word not in FILLING:
                self.walk(at, self.tables[0])

    def walk(self, at, state):
        """Follows the code from an instruction."""
        todo = [(at, state)]
        while todo:
            at, state = todo.pop()
            if at < len(self.instructions) and at not in self.states:
                self.states[at] = state
                todo += self.step(at, state)

    def step(self, at, state):
        """The instructions that follow an instruction, with their states."""
        _, word, rest = self.instructions[at]
        state = moved(state, word, rest)
        following = [(at + 1, state)]
        if word in ENDS:
            return []
        if word == "call":
            self.calls.append((self.return_of(at), state[0], self.target(rest)))
        if not word.startswith("j"):
            return following
        following = [] if word == "jmp" else following
        target = self.target(rest)
        if target is None:
            self.tables.append(state)
            return following
        if target not in self.index:
            self.jumps.add(target)
            return following
        return [*following, (self.index[target], state)]

    def return_of(self, at):
        """Where a call returns to."""
        return self.instructions[at + 1][0] if at + 1 < len(self.instructions) else self.instructions[at][0] + 5

    @staticmethod
    def target(rest):
        """The address that a call or a jump names, if it names one."""
        return None if rest.startswith("*") else int(rest.split()[0], 16)


def leading(functions):
    """The starts of the functions that are the allocator or lead to it."""
    callers = {}
    for it in functions:
        for target in {target for _, _, target in it.calls} | it.jumps:
            callers.setdefault(target, []).append(it.start)
    found = {it.start for it in functions if it.name in ALLOCATOR}
    todo = list(found)
    while todo:
        new = set(callers.get(todo.pop(), ())) - found
        found |= new
        todo += new
    return found


class Places:
    """The places of a program by the return address of their call, with the name of the function; and the depth of the stack at each call,
    for tests/growths.c. `main` jumps to the program's first function."""

    def __init__(self, program):
        functions = [Function(*it) for it in functions_of(program)]
        growing = leading(functions)
        self.names = {back: HASH.sub("", it.name) for it in functions for back, _, target in it.calls if target in growing}
        first = next(it.jumps for it in functions if it.name == "main")
        depths = sorted((back, depth, it.start in first) for it in functions for back, depth, _ in it.calls)
        self.frames = b"".join(struct.pack("<III", *it) for it in depths)
        unnamed = [it.name for it in functions if any(target is None for _, _, target in it.calls)]
        if unnamed != ["_start"]:
            sys.exit(f"these functions call what they don't name, and so more calls may be places: {unnamed}")
