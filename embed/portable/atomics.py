"""Reads the code of a library for aarch64 or riscv64: the indices of a ring, which the other end reads, are accessed by atomics alone.

In a function with atomic accesses, each register that holds the ring's address, or one within it, is followed from the instruction
that loads it. A plain load or store at such an address is reported. This goes from line to line and follows no branch, so it can
miss an access; that a store has lost its order, or a load, is seen in any case, since each end needs one of both."""
import re

from llvm_text import Unreadable

SENDERS = ("qtree_offer", "qtree_offer_many")


class Code:
    """An instruction: its name, the register that it defines, and the base and offset of its access to memory."""

    def __init__(self, line):
        words = line.split("\t")
        self.name, rest = words[0].strip(), words[1].strip() if len(words) > 1 else ""
        self.rest = rest.partition("//")[0].partition("#")[0] if "(" in rest else rest.partition("//")[0]
        self.registers = re.findall(r"\b[a-z]{1,2}\d+\b|\bzero\b|\bsp\b", self.rest)
        found = re.search(r"\[(\w+)(?:, #(-?\w+))?\]", rest) or re.search(r"(?P<o>-?\d+)\((?P<b>\w+)\)", rest)
        self.base, self.offset = None, 0
        if found:
            self.base, offset = (found["b"], found["o"]) if "b" in found.re.groupindex else found.groups()
            self.offset = int(offset or "0", 0)

    def is_memory(self):
        return self.base is not None

    def is_load(self):
        return self.is_memory() and self.name.startswith("l")

    def defined(self):
        """The registers that it writes."""
        if self.is_memory() and not self.is_load() or not self.registers or re.match(r"b|cb|tb|cmp|fence|ret|j", self.name):
            return []
        return self.registers[: 2 if self.name == "ldp" else 1]


def functions(disassembly):
    """The instructions of each function; labels within one are none of its own."""
    found = {}
    for part in re.split(r"\n(?=[0-9a-f]{16} <(?!\.L))", disassembly):
        head = re.match(r"[0-9a-f]{16} <(.*)>:", part)
        if head:
            found[head[1]] = [Code(it) for it in re.findall(r"(?m)^ +[0-9a-f]+:\t(.*)", part)]
    return found


def kinds_on_aarch64(code):
    """What of the code is an atomic access, by its place."""
    kinds = {"ldar": "load", "stlr": "store", "ldaxr": "exchange", "stlxr": "exchange", "swpal": "exchange"}
    found = {i: kinds[it.name] for i, it in enumerate(code) if it.name in kinds}
    return found | {i: "exchange" for i, it in enumerate(code) if it.name == "bl" and "__aarch64_swp8_acq_rel" in it.rest}


def kinds_on_riscv64(code):
    """The same, where fences make an access atomic."""
    found = {i: "exchange" for i, it in enumerate(code) if it.name == "amoswap.d.aqrl"}
    for i, it in enumerate(code):
        if it.name == "fence" and it.rest.replace(" ", "") == "rw,rw" and i + 2 < len(code):
            if code[i + 1].name == "ld" and code[i + 2].name == "fence":
                found[i + 1] = "load"
        elif it.name == "fence" and it.rest.replace(" ", "") == "rw,w" and i + 1 < len(code) and code[i + 1].name == "sd":
            found[i + 1] = "store"
    return found


def origin(code, place):
    """Where the address of an access comes from: the base and offset that it was loaded from, or a register."""
    register = code[place].base
    for it in reversed(code[:place]):
        if register not in it.defined():
            continue
        if it.is_load():
            return it.base, it.offset
        if it.name in ("add", "addi", "mv", "mov") and len(it.registers) == 2:
            register = it.registers[1]
        else:
            return register, None
    return register, None


def plain_accesses(code, atomic):
    """Plain accesses at addresses of the ring."""
    origins = {origin(code, i) for i, kind in atomic.items() if code[i].base}
    ring = {register for register, offset in origins if offset is None}
    found = []
    for i, it in enumerate(code):
        if it.base in ring and i not in atomic:
            found.append(f"{it.name} {it.rest}")
        joined = it.name in ("add", "addi", "mv", "mov") and len(it.registers) == 2 and it.registers[1] in ring
        loaded = it.name in ("ldr", "ld") and (it.base, it.offset) in origins
        ring -= set(it.defined())
        ring |= set(it.defined()) if joined or loaded else set()
    return found


def check(disassembly, architecture):
    """Says what atomics the code has, and stops where an index is accessed otherwise."""
    kinds = {"aarch64": kinds_on_aarch64, "riscv64": kinds_on_riscv64}[architecture]
    atomic = {name: (code, it) for name, code in functions(disassembly).items() if (it := kinds(code))}
    wrong = [f"{name}: {it}" for name, (code, places) in atomic.items() for it in plain_accesses(code, places)]
    of_sender = {name: set(atomic[name][1].values()) if name in atomic else set() for name in SENDERS}
    wrong += [f"{name} has no atomic {it}" for name, has in of_sender.items() for it in ("load", "store") if it not in has]
    of_device = {it for name, (_, places) in atomic.items() if name not in SENDERS for it in places.values()}
    wrong += [f"the device's end has no atomic {it}" for it in ("load", "store", "exchange") if it not in of_device]
    if wrong:
        raise Unreadable("an index of a ring: " + "; ".join(wrong))
    counted = [it for _, places in atomic.values() for it in places.values()]
    return ", ".join(f"{counted.count(it)} atomic {it}s" for it in ("load", "store", "exchange"))
