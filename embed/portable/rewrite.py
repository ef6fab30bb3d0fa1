"""Rewrites the module of the library for C, as the kit lowers it for x86-64, to a text that clang 15 to 22 compiles for any 64-bit
little-endian processor.

No operation changes. The layout of the data and the processor go: clang takes those of its own target. Words of newer LLVMs go that promise
something to the optimizer, and ptrtoaddr becomes ptrtoint. QTREE_WIDE stands where the ABI of some targets wants a result of 32 bits
extended; the Makefile of the package makes it signext, zeroext or nothing. Functions that no exported one reaches go; a proved module
has none. Stack probes stay. A word that is not listed here stops it, since older LLVMs might not know it, or read it otherwise."""
import re

from llvm_text import Module, Unreadable

EXPORTED = re.compile(r"^define (?!internal ).*@qtree_\w+\(")
# Attributes of functions that every LLVM knows, those that are dropped, and those whose value has to be this one.
KEPT = {"alwaysinline", "cold", "inlinehint", "nobuiltin", "nofree", "noinline", "norecurse", "noreturn", "nounwind", "willreturn"}
DROPPED = {"mustprogress", "nocallback", "nocreateundeforpoison", "nosync", "speculatable"}
PROBES = ['"probe-stack"="inline-asm"', '"stack-probe-size"="3072"']
NO_BUILTINS = re.compile(r'"no-builtin-(?:bcmp|memcmp|strlen)"')
OF_X86 = re.compile(r'"target-cpu"="x86-64-v2"|"rattle-sig"="\d+"')
INTRINSICS = re.compile(
    r"@llvm\.(?:mem(?:set|move|cpy)\.[\w.]+|trap|c(?:t[lt]z|tpop)\.i\d+|bswap\.i\d+|fsh[lr]\.i\d+|[us](?:min|max)\.i\d+|sqrt\.f64|assume"
    r"|[us](?:add|sub|mul)\.(?:with\.overflow|sat)\.i\d+|arithmetic\.fence\.f64)"
)
WORDS = set(
    """add alloca and ashr atomic atomicrmw br call cmpxchg weak extractelement extractvalue fadd fcmp fdiv fence fmul fneg freeze fpext
    fptosi fptoui fptrunc fsub getelementptr icmp insertelement insertvalue load lshr mul or phi ret sdiv select sext shl shufflevector sitofp srem store sub
    switch trunc udiv uitofp unreachable urem xchg xor zext bitcast inttoptr ptrtoint to
    eq ne ugt uge ult ule sgt sge slt sle oeq ogt oge olt ole one ord ueq une uno
    acquire release acq_rel seq_cst monotonic
    double ptr void label true false null undef poison zeroinitializer x align volatile
    define declare internal private constant global unnamed_addr noundef nonnull noalias signext zeroext immarg tail inbounds""".split()
)
WORDS |= KEPT
NAMES = re.compile(r'c"[^"]*"|[@%]"[^"]*"|[@%][\w.$]+|;.*|^[\w.$]+:')
NUMBERS = re.compile(r"(?<![\w.])-?\d+(?![\w.])|0x[0-9A-F]+|#\d+|\d+\.\d+e[+-]\d+")
# A fence for the compiler alone, with no instruction.
FENCE = 'call void asm sideeffect "", "~{memory}"()'
METADATA = {"!noundef", "!range"}
LIKE_REWRITTEN = re.compile(r"= ptrtoint |getelementptr inbounds (?!nuw )|= bitcast double \S+ to double")
# A flag after these opcodes alone, which older LLVMs know too.
WRAPS = re.compile(r"= (?:add|sub|mul|shl)(?: nuw)?(?: nsw)? ")
EXACT = re.compile(r"= (?:udiv|sdiv|lshr|ashr) exact ")
# A vector all of whose elements are the same number. Older LLVMs read only the list of them.
SPLAT = re.compile(r"<(\d+) x (i\d+)> splat \(\2 (-?\d+)\)")


def attributes(number, words):
    """A line of attributes as older LLVMs read it."""
    kept = []
    for it in re.findall(r'"[^"]*"="[^"]*"|\w+(?:\([^)]*\))?|\S+', words):
        if it in KEPT or it in PROBES or NO_BUILTINS.fullmatch(it):
            kept.append(it)
        elif it not in DROPPED and not OF_X86.fullmatch(it) and not re.fullmatch(r"memory\(.*\)", it):
            raise Unreadable(f"an unknown attribute: {it}")
    return f"attributes {number} = {{ {' '.join(kept)} }}"


def spelled_out(line):
    """A line of code with each element of such a vector."""
    return SPLAT.sub(lambda it: f"<{it[1]} x {it[2]}> <{', '.join([f'{it[2]} {it[3]}'] * int(it[1]))}>", line)


def plain(line):
    """A line of code without what only newer LLVMs know."""
    if LIKE_REWRITTEN.search(line):
        raise Unreadable(f"a line that would not be told from one that was rewritten: {line.strip()}")
    line = spelled_out(re.sub(r"\bptrtoaddr\b", "ptrtoint", line))
    line = line.replace("getelementptr inbounds nuw ", "getelementptr inbounds ")
    # No operation has a fast-math flag, so nothing may be moved across; LLVM has no such fence for MIPS.
    return re.sub(r"call double @llvm\.arithmetic\.fence\.f64\(double (\S+)\)", r"bitcast double \1 to double", line)


def check_words(lines):
    """Stops at a word that is not known. Lines that differ in names and numbers alone are checked once."""
    for it in {NUMBERS.sub("0", NAMES.sub(" ", line.replace(FENCE, ""))): line for line in lines}.items():
        check_bare(*it)


def check_bare(bare, line):
    bare = WRAPS.sub("= add ", EXACT.sub("= udiv ", bare))
    if "<" in bare and "splat" in bare:
        raise Unreadable(f"a splat: {line.strip()}")
    for it in re.findall(r"![a-z][\w.]*", bare):
        if it not in METADATA:
            raise Unreadable(f"an unknown {it}: {line.strip()}")
    for it in re.findall(r"(?<![\w!.])[a-zA-Z_][\w.]*", bare):
        if it not in WORDS and not re.fullmatch(r"i\d+", it):
            raise Unreadable(f"an unknown word, {it}: {line.strip()}")


def declaration(name, line):
    """A declaration; what it promises of an intrinsic, LLVM knows itself."""
    if not name.startswith("@llvm."):
        return line
    if not INTRINSICS.fullmatch(name):
        raise Unreadable(f"an unknown intrinsic: {name}")
    return re.sub(r" captures\(none\)| writeonly| readonly", "", re.sub(r" #\d+$", "", line))


def function(body):
    """The lines of a function."""
    head = body[0]
    if EXPORTED.match(head):
        head = re.sub(r"^define noundef i32 ", "define noundef QTREE_WIDE i32 ", head)
    elif not head.startswith("define internal "):
        head = head.replace("define ", "define internal ", 1)
    return [head, *map(plain, body[1:])]


def constants(module):
    """Globals that are kept though no function reaches them: by one a program sees that the library is not proved."""
    return [it for it in module.globals if it == "@qtree_not_proved"]


def portable(text):
    """The text that clang 15 to 22 compiles, and how many functions were left out."""
    module = Module(text)
    roots = [name for name, body in module.functions.items() if EXPORTED.match(body[0])]
    if not roots:
        raise Unreadable("the module exports no function qtree_..")
    seen = module.reached([*roots, *constants(module)])
    code = [line for name, body in module.functions.items() if name in seen for line in function(body)]
    declared = [declaration(name, it) for name, it in module.declared.items() if name in seen and "arithmetic.fence" not in name]
    check_words([*(it for name, it in module.globals.items() if name in seen), *declared])
    check_words(line.replace("QTREE_WIDE ", "") for line in code)
    used = set(re.findall(r"#\d+", "\n".join([*(it for it in code if it.startswith("define ")), *declared])))
    lines = ["; The module of libqtree for 64-bit little-endian processors; PROVED.md says how it came to be.", ""]
    lines += [it for name, it in module.globals.items() if name in seen]
    lines += ["", *code, "", *declared]
    lines += [attributes(number, words) for number, words in module.attributes.items() if number in used]
    lines += [it for it in module.metadata if re.fullmatch(r'!\d+ = !\{(?:(?:i\d+ \d+|!"[^"]*")(?:, )?)*\}', it)]
    return "\n".join(lines) + "\n", sum(name not in seen for name in module.functions)
