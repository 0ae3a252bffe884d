#!/usr/bin/env python3
"""Looks through a static library's object code for what a kernel can't have, and tells how much stack each exported call needs and how long it can be.

    inspect.py LIBRARY      the faults, a line each, and status 1; or a line for each exported function: its name, its bytes of stack,
                            its instructions at most, or - if it has a loop, and which of memmove and memset it calls, itself or by
                            what it calls

An interrupt on the stack of what it interrupts writes below the stack pointer; its handler may change every register that it need not save;
a kernel has no dynamic linker, no C library but memmove and memset, and may call with any stack. So of every function this asks:
  - instructions of the general registers only, each one of a list of plain ones (no vector or x87 register, no segment, no system instruction, none
    that wants its operand aligned);
  - no use of memory below the stack pointer: every path through the function is followed, with the stack pointer and each register that holds an
    address of the stack; what can't be followed (a computed jump, an aligned or unknown stack pointer) is a fault too. An address of the stack that
    goes through memory or to a callee is not followed there: it is looked at when it is made, and must then be at the stack pointer or above it. An
    index into an array on the stack, which is a number from 0 on, is taken to lead upwards;
of each exported one, with all that it calls:
  - no call of memmove or memset but those of MAY_CALL, so that no head goes through memory by one; and those copy the caller's bytes and clear what
    it lent only. A copy or a fill of a record, such as a head, differs from these in one of two ways: it goes to or from the function's own stack, or
    its length is a constant. Both are followed to the call, the constant through registers; either on any path is a fault, but for a fill of the
    function's own stack in those of MAY_CLEAR_OWN;
  - no loop but in those of MAY_LOOP: a jump back is one if control can come from its target to it again (others lead to a common end);
and of the library: no writable data, no thread's or constructors' sections, no relocation but R_X86_64_PLT32, no undefined name but memmove and memset.
The bytes of stack of a function are those below its caller's stack pointer at the call: its return address, its frame and the deepest of its callees.
memmove and memset are counted with their return address alone. The instructions are those of the longest path, callees included.
"""
import re
import subprocess
import sys
from collections import namedtuple

KERNEL_HAS = {"memmove", "memset"}
# What an exported function may call of these, itself or by what it calls. All others: nothing.
MAY_CALL = {"corwystal_start": {"memset"}, "corwystal_touch": {"memset"}, "corwystal_read": {"memmove"}, "corwystal_write": {"memmove", "memset"},
            "corwystal_read_map": {"memset"}}
# Exported functions that keep a set of numbers on their stack, so many that it is cleared by memset.
MAY_CLEAR_OWN = {"corwystal_read_map"}
# Exported functions that go over regions or pages. All others: no loop, so a longest path, whatever the memory.
MAY_LOOP = {"corwystal_list", "corwystal_read", "corwystal_write", "corwystal_write_map", "corwystal_read_map"}
WIDTHS = {
    "rax": "eax ax al ah", "rbx": "ebx bx bl bh", "rcx": "ecx cx cl ch", "rdx": "edx dx dl dh",
    "rsi": "esi si sil", "rdi": "edi di dil", "rbp": "ebp bp bpl", "rsp": "esp sp spl",
    **{f"r{n}": f"r{n}d r{n}w r{n}b" for n in range(8, 16)},
}
WHOLE = {part: name for name, parts in WIDTHS.items() for part in [name, *parts.split()]}
CONDITIONS = "a ae b be e ne g ge l le s ns o no p np".split()
JUMPS = {"j" + c for c in CONDITIONS}
TWO = {"mov", "movabs", "lea", "add", "sub", "adc", "sbb", "and", "or", "xor", "cmp", "test", "imul", "shl", "shr", "sar", "rol", "ror",
       "bt", "bts", "btr", "btc", "bsf", "bsr", "tzcnt", "shld", "shrd"}
MOVES = {"movzbl", "movzwl", "movzbw", "movzbq", "movzwq", "movsbl", "movswl", "movslq", "movsbq", "movswq"}
ONE = {"inc", "dec", "neg", "not", "mul", "div", "bswap"} | {"set" + c for c in CONDITIONS}
PLAIN = TWO | MOVES | ONE | {"cmov" + c for c in CONDITIONS} | {"cltq", "cltd", "cqto", "cwtl"}
NOTHING = {"nop", "nopw", "nopl", "data16", "cs"}
KEEPS = {"cmp", "test", "bt"}  # these change no register
FIXED = {"mul": {"rax", "rdx"}, "div": {"rax", "rdx"}, "cltq": {"rax"}, "cwtl": {"rax"}, "cltd": {"rdx"}, "cqto": {"rdx"}}
CALL_CHANGES = {"rax", "rcx", "rdx", "rsi", "rdi", "r8", "r9", "r10", "r11"}
LOST = "lost"  # an address of the stack, nobody knows which
Above = namedtuple("Above", "offset")  # an address of the stack at this offset or above it: one in an array, by an index

MEMORY = re.compile(r"^(?:%[a-z]s:)?(?P<shift>-?0x[0-9a-f]+|-?\d+)?\((?P<base>%\w+)?(?:,(?P<index>%\w+)(?:,\d)?)?\)$")


def run(*words):
    return subprocess.run(words, check=True, capture_output=True, text=True).stdout


def operands(text):
    """Splits at the commas outside parentheses."""
    return [part for part in re.split(r",(?![^(]*\))", text) if part]


class Function:
    def __init__(self, name, section):
        self.name, self.section = name, section
        self.code = {}    # address: (mnemonic, operands)
        self.follows = {}  # address: the next one
        self.reaches = {}  # address of a call or jump: what its relocation names

    def last(self, address):
        if self.code:
            self.follows[max(self.code)] = address


def functions_of(library):
    """Every function of the library with its instructions, as objdump tells them."""
    found, section, at = [], None, None
    for line in run("objdump", "-dr", "--no-show-raw-insn", "-M", "att", library).splitlines():
        if m := re.match(r"Disassembly of section (\S+):", line):
            section = m[1]
        elif m := re.match(r"[0-9a-f]+ <(.+)>:$", line):
            found.append(Function(m[1], section))
        elif m := re.match(r"\s+([0-9a-f]+): (R_\S+)\s+(\S+)", line):
            found[-1].reaches[at] = re.sub(r"[-+]0x[0-9a-f]+$", "", m[3])
        elif m := re.match(r"\s*([0-9a-f]+):\t(\S+)\s*(.*)$", line):
            at = int(m[1], 16)
            found[-1].last(at)
            text = re.sub(r"\s*(<[^>]*>|#.*)$", "", m[3]).strip()
            found[-1].code[at] = (m[2], operands(text))
    return found


class Walk:
    """One function, followed along every path. State: for the stack pointer and each register its offset from the stack pointer at entry, if
    it holds an address of the stack, or Above that offset; and under "#" and its name the constant that a register holds, LOST for one of several
    or one on some paths."""

    def __init__(self, function, faults):
        self.f, self.faults = function, faults
        self.calls, self.deepest, self.seen, self.next = [], 0, {}, {}
        self.records = {}  # address of a call of memmove or memset: why it copies or fills nothing of the caller's

    def fault(self, at, what):
        mnemonic, words = self.f.code[at]
        self.faults.add(f"{self.f.name}+{at:#x}: {what}: {mnemonic} {','.join(words)}")

    def whole(self):
        start = min(self.f.code)
        todo = [(start, {"rsp": 0})]
        while todo:
            at, state = todo.pop()
            known = self.seen.get(at)
            if known is not None:
                if known["rsp"] != state["rsp"]:
                    self.fault(at, "the stack pointer depends on the path")
                    continue
                met = {r: known.get(r) if known.get(r) == state.get(r) else LOST for r in known.keys() | state.keys()}
                if met == known:
                    continue
                state = met
            self.seen[at] = dict(state)
            if at not in self.f.code:
                self.faults.add(f"{self.f.name}: a path leaves the function at {at:#x}")
                continue
            self.next[at] = self.step(at, state)
            todo += [(next_at, dict(state)) for next_at in self.next[at]]
        for at, (mnemonic, _) in self.f.code.items():
            if at not in self.seen and mnemonic not in NOTHING | {"xchg"}:
                self.fault(at, "no path comes here")

    def memory(self, at, word, state, uses):
        """A memory operand: the stack's address that it names (None: another's)."""
        m = MEMORY.match(word)
        if not m:
            self.fault(at, "an operand that can't be followed")
            return None
        base, index = (WHOLE.get(m[k][1:], m[k][1:]) if m[k] else None for k in ("base", "index"))
        shift = int(m["shift"] or "0", 0)
        if index and state.get(index) is not None:
            base, index = index, base
        held = state.get(base)
        if held is None:
            return None
        if held is LOST:
            if uses:
                self.fault(at, "an address of the stack that can't be followed")
            return LOST
        lowest = (held.offset if isinstance(held, Above) else held) + shift
        if lowest < state["rsp"]:
            self.fault(at, "memory below the stack pointer")
        return Above(lowest) if index or isinstance(held, Above) else lowest

    def deeper(self, state, n):
        state["rsp"] -= n
        self.deepest = max(self.deepest, -state["rsp"])

    def call(self, at, state, jump):
        target = self.f.reaches.get(at)
        if target is None:
            self.fault(at, "a computed jump or call")
            return
        if state["rsp"] % 8:
            self.fault(at, "a call with a stack pointer that is no multiple of 8")
        if not jump:
            self.deepest = max(self.deepest, 8 - state["rsp"])
        self.calls.append((target, (0 if jump else 8) - state["rsp"]))
        if target in KERNEL_HAS:
            what = {"memmove": "a copy", "memset": "a fill"}[target]
            if any(state.get(r) is not None for r in ("rdi", "rsi")):
                self.records[at] = f"{what} to or from the stack"
            elif "#rdx" in state:
                self.records[at] = f"{what} with a length that is a constant"
        for r in CALL_CHANGES:
            state.pop(r, None)
            state.pop("#" + r, None)

    def step(self, at, state):
        """The instruction's effect on the state; where control goes from it."""
        mnemonic, words = self.f.code[at]
        after = self.f.follows.get(at, max(self.f.code) + 1)
        for word in words:
            for register in re.findall(r"%(\w+)", word):
                if register not in WHOLE:
                    self.fault(at, f"register {register}")
        if mnemonic in NOTHING or (mnemonic == "xchg" and words == ["%ax", "%ax"]):
            return [after]
        if mnemonic in ("jmp", "call", *JUMPS):
            if at in self.f.reaches or not re.match(r"^[0-9a-f]+$", words[0]):
                self.call(at, state, mnemonic != "call")
                if mnemonic != "call" and state["rsp"] != 0:
                    self.fault(at, "a jump out of the function with a frame")
                return [] if mnemonic == "jmp" else [after]
            if mnemonic == "call":
                self.fault(at, "a call inside the function")
            return [int(words[0], 16)] + ([] if mnemonic == "jmp" else [after])
        if mnemonic == "ret":
            if state["rsp"] != 0:
                self.fault(at, "a return with a frame")
            return []
        if mnemonic == "push":
            if "(" in words[0]:
                self.memory(at, words[0], state, True)
            self.deeper(state, 8)
            return [after]
        if mnemonic == "pop":
            if "(" in words[0]:
                self.fault(at, "an operand that can't be followed")
            state["rsp"] += 8
            self.set(at, words[0], None, state)
            return [after]
        plain = mnemonic if mnemonic in PLAIN else mnemonic[:-1]  # a width may be named: movl, cmpb
        if plain not in PLAIN or (plain != mnemonic and mnemonic[-1] not in "bwlq"):
            self.fault(at, "an instruction that isn't a plain one")
            return [after]
        place = None
        for word in words:
            if "(" in word:
                place = self.memory(at, word, state, plain != "lea")
            elif word[0] not in "%$":
                self.fault(at, "an operand that can't be followed")
        for register in FIXED.get(plain, ()):
            state.pop(register, None)
            state.pop("#" + register, None)
        if words and words[-1].startswith("%") and plain not in KEEPS:
            self.set(at, words[-1], self.result(plain, words, place, state), state, self.constant(plain, words, state))
        return [after]

    def constant(self, plain, words, state):
        """The constant that a register holds after an instruction that changes it: a number, LOST or None."""
        of = lambda word: int(word[1:], 0) if word[0] == "$" else state.get("#" + WHOLE.get(word[1:], "")) if word[0] == "%" else None
        if plain in ("mov", "movabs") or plain in MOVES:
            return of(words[0])
        if plain.startswith("cmov"):
            return LOST if of(words[0]) is not None or of(words[-1]) is not None else None
        if plain in ONE and of(words[-1]) is not None:
            return LOST
        if plain in TWO and plain != "lea" and of(words[0]) is not None and of(words[-1]) is not None:
            return LOST
        return None

    def result(self, plain, words, place, state):
        """What a register holds after an instruction that changes it: an offset, Above one, LOST or None."""
        source, target = words[0], WHOLE.get(words[-1][1:])
        of = lambda word: state.get(WHOLE.get(word[1:])) if word.startswith("%") else None
        if plain == "lea":
            return place
        if plain == "mov":
            return of(source)
        if plain.startswith("cmov"):
            return state.get(target) if of(source) == state.get(target) else LOST
        if plain in ("add", "sub") and source.startswith("$") and isinstance(state.get(target), (int, Above)):
            n = int(source[1:], 0)
            n -= (n >> 63) << 64
            n = n if plain == "add" else -n
            return Above(state[target].offset + n) if isinstance(state[target], Above) else state[target] + n
        if plain == "xor" and source == words[-1]:
            return None
        return LOST if state.get(target) is not None or of(source) is not None else None

    def set(self, at, word, value, state, constant=None):
        register = WHOLE.get(word[1:])
        state.pop("#" + str(register), None)
        if constant is not None:
            state["#" + str(register)] = constant
        if register == "rsp":
            if not isinstance(value, int) or value > 0:
                self.fault(at, "a stack pointer that can't be followed")
                return
            self.deeper(state, state["rsp"] - value)
        elif value is None:
            state.pop(register, None)
        else:
            state[register] = value


def sections(library, faults):
    for line in run("objdump", "-hw", library).splitlines():
        m = re.match(r"\s*\d+ (\S+)\s+([0-9a-f]+)\s+\S+\s+\S+\s+\S+\s+\S+\s+(.*)$", line)
        if not m or not int(m[2], 16) or "ALLOC" not in m[3]:
            continue
        if "READONLY" not in m[3] or "THREAD_LOCAL" in m[3] or re.match(r"\.(init|fini|preinit|ctors|dtors|tdata|tbss)", m[1]):
            faults.add(f"section {m[1]}: writable, a thread's, or run before the kernel's own code")
    section = None
    for line in run("objdump", "-rw", library).splitlines():
        if m := re.match(r"RELOCATION RECORDS FOR \[(\S+)\]", line):
            section = m[1]
        elif (m := re.match(r"[0-9a-f]+ (R_\S+)\s+(\S+)", line)) and m[1] != "R_X86_64_PLT32" and not section.startswith(".debug"):
            faults.add(f"section {section}: a relocation {m[1]} to {m[2]}")
    for line in run("nm", "-u", library).splitlines():
        m = re.match(r"\s+[Uw] (\S+)$", line)
        if m and m[1] not in KERNEL_HAS:
            faults.add(f"undefined name {m[1]}")


def stack_of(name, walks, by_target, below=()):
    """The bytes below the caller's stack pointer, the return address among them."""
    if name in below:
        raise RecursionError(name)
    walk = walks[name]
    most = walk.deepest
    for target, at in walk.calls:
        callee = by_target.get(target)
        if callee is not None:
            most = max(most, at - 8 + stack_of(callee, walks, by_target, (*below, name)))
    return most + 8


def loops_of(walk):
    """The strongly connected parts of a function's code, each after those that it leads to (Tarjan's algorithm, without recursion)."""
    number, low, stack, on, parts = {}, {}, [], set(), []
    todo = [(min(walk.next), None)]
    while todo:
        at, turn = todo.pop()
        if turn is None:
            if at in number:
                continue
            number[at] = low[at] = len(number)
            stack.append(at)
            on.add(at)
            turn = 0
        else:
            low[at] = min(low[at], low[walk.next[at][turn]])
            turn += 1
        while turn < len(walk.next[at]):
            to = walk.next[at][turn]
            if to not in number:
                todo += [(at, turn), (to, None)]
                break
            if to in on:
                low[at] = min(low[at], number[to])
            turn += 1
        else:
            if low[at] == number[at]:
                cut = stack.index(at)
                parts.append(stack[cut:])
                on -= set(stack[cut:])
                del stack[cut:]
    return parts


def below(name, walks, by_target):
    """A function and all that it calls, each once."""
    found, todo = [], [name]
    while todo:
        f = todo.pop()
        if f not in found:
            found.append(f)
            todo += [by_target[target] for target, _ in walks[f].calls if target in by_target]
    return found


def copies(name, walks, by_target, faults):
    """The calls of memmove and memset that an exported function may not make."""
    for f in below(name, walks, by_target):
        walk = walks[f]
        for at, target in walk.f.reaches.items():
            if target not in by_target and target not in MAY_CALL.get(name, ()):
                faults.add(f"{name}: a call of {target}, at {f}+{at:#x}")
            elif at in walk.records and not (walk.records[at].startswith("a fill to") and name in MAY_CLEAR_OWN):
                faults.add(f"{name}: {walk.records[at]}, so of nothing that the caller lent, at {f}+{at:#x}")


def loops(name, walks, by_target, faults):
    """The loops of an exported function that is to have none."""
    for f in below(name, walks, by_target):
        walk = walks[f]
        for part in loops_of(walk):
            for at in part:
                for to in walk.next[at]:
                    if to <= at and to in part:
                        faults.add(f"{name}: a loop, by the jump back to {to:#x} at {f}+{at:#x}")


def longest_of(name, walks, by_target):
    """The instructions of the longest path, or None if there is a loop."""
    walk = walks[name]
    callees = {at: by_target.get(target) for at, target in walk.f.reaches.items()}
    most = {}
    for part in loops_of(walk):
        at = part[0]
        below = longest_of(callees[at], walks, by_target) if callees.get(at) else 0
        if below is None or len(part) > 1 or at in walk.next[at]:
            return None
        most[at] = 1 + below + max((most[to] for to in walk.next[at]), default=0)
    return most[min(walk.next)]


def main():
    library = sys.argv[1]
    faults = set()
    sections(library, faults)
    functions = functions_of(library)
    walks = {}
    for f in functions:
        walks[f.name] = Walk(f, faults)
        walks[f.name].whole()
    # a call's relocation names a function, or the section that holds it alone
    by_target = {f.section: f.name for f in functions} | {f.name: f.name for f in functions}
    for name, walk in walks.items():
        for target, _ in walk.calls:
            if target not in by_target and target not in KERNEL_HAS:
                faults.add(f"{name}: a call of {target}")
    exported = [line.split()[2] for line in run("nm", "-g", "--defined-only", library).splitlines() if len(line.split()) == 3]
    if not exported:
        faults.add("no exported function")
    for name in exported:
        if name in walks:
            copies(name, walks, by_target, faults)
            if name not in MAY_LOOP:
                loops(name, walks, by_target, faults)
    try:
        needs = {name: stack_of(name, walks, by_target) for name in exported if name in walks}
    except RecursionError as loop:
        faults.add(f"{loop}: calls itself, so its stack has no bound")
    if faults:
        print("\n".join(sorted(faults)))
        return 1
    for name in exported:
        called = {target for f in below(name, walks, by_target) for target in walks[f].f.reaches.values()} & KERNEL_HAS
        print(name, needs[name], longest_of(name, walks, by_target) or "-", *sorted(called))
    return 0


sys.exit(main())
