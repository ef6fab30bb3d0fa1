"""Ties the text for other processors to the module that it was written from, and to the archive that was compiled from that."""
import collections
import concurrent.futures
import os
import re
import shutil
import subprocess
import tempfile

from llvm_text import Module, Unreadable, write
from rewrite import spelled_out

FENCE = r"call double @llvm\.arithmetic\.fence\.f64\(double (\S+)\)"
# What rewriting does to a line of code: its kind, and how the line of the text is made of that of the module.
KINDS = (
    ("ptrtoaddr is written ptrtoint", lambda it: it.replace(" ptrtoaddr ", " ptrtoint ")),
    ("no nuw at getelementptr", lambda it: it.replace(" getelementptr inbounds nuw ", " getelementptr inbounds ")),
    ("a vector of one number is spelled out", spelled_out),
    ("a fence of floats is a bitcast", lambda it: re.sub(FENCE, r"bitcast double \1 to double", it)),
    ("QTREE_WIDE at an exported function", lambda it: re.sub(r"^(define noundef) (i32 @qtree_\w+\()", r"\1 QTREE_WIDE \2", it)),
    ("a function that is exported no more", lambda it: re.sub(r"^define (?!internal )(?!.*@qtree_)", "define internal ", it)),
)
# Mistakes that have to give another object: what they are, the function (any, where none is named), and the edit.
MUTANTS = (
    ("a mask", '@"q_codel::ring::cell_of"', " = and i64 ", " = or i64 "),
    ("the ordering of an atomic store", "", r"(store atomic .*) seq_cst,", r"\1 release,"),
    ("ole is ult for floats", "", " fcmp ole ", " fcmp ult "),
    ("ult is ule for integers", '@"q_bucket::bucket::Bucket::spend"', " icmp ult i128 ", " icmp ule i128 "),
)
# Promises to the optimizer, which may leave the object as it is: comparing lines has to refuse them.
PROMISES = (
    ("nuw at an addition", "", " = add i64 ", " = add nuw i64 "),
    ("inbounds at an address", "", " getelementptr i8,", " getelementptr inbounds i8,"),
    ("captures at a parameter", "", r"^(define internal .*?\(ptr) noundef", r"\1 captures(none) noundef"),
)


def kind_of(line, other):
    return next((kind for kind, change in KINDS if change(line) == other), None)


def compare_bodies(module, text, counts, unknown):
    """Counts the lines that differ, function by function."""
    for name, body in module.functions.items():
        other = text.functions.get(name)
        if other is None:
            counts["functions that nothing reaches, left out"] += 1
            continue
        if len(body) != len(other):
            unknown.append(f"{name} has {len(body)} lines in the module, and {len(other)} in the text")
        for line, its in zip(body, other):
            if line != its:
                kind = kind_of(line, its)
                counts[kind or "other"] += 1
                if not kind:
                    unknown.append(f"{line.strip()[:200]}\n    is {its.strip()[:200]}")


def compare_others(module, text, counts, unknown):
    """The same of what is no code: what promises something about a function may go, and nothing else may differ."""
    both = (("globals", module.globals, text.globals), ("declarations", module.declared, text.declared))
    for kind, ours, theirs in (*both, ("attributes", module.attributes, text.attributes)):
        unknown += [f"the text alone has {it}" for it in theirs if it not in ours]
        for name in ours:
            if name not in theirs:
                counts[f"{kind} that nothing uses, left out"] += 1
            elif ours[name] != theirs[name]:
                counts[f"{kind} with fewer promises"] += 1
                kept = set(re.findall(r'"[^"]*"="[^"]*"|[^\s(),]+', theirs[name]))
                if kind == "globals" or not kept <= set(re.findall(r'"[^"]*"="[^"]*"|[^\s(),]+', ours[name])):
                    unknown.append(f"{ours[name]}\n    is {theirs[name]}")
    counts["lines that name the module, its layout and target, left out"] += len(module.target)
    counts["lines of metadata, left out"] += len(module.metadata) - len(text.metadata)
    unknown += [f"the text alone has {it}" for it in [*text.metadata, *text.target] if it not in module.metadata]


def compare(module_text, text):
    """How many lines differ by kind, the differences of no known kind, and how many functions and lines of code the text has."""
    module, other = Module(module_text), Module(text)
    counts, unknown = collections.Counter(), []
    if list(other.functions) != [it for it in module.functions if it in other.functions]:
        unknown.append("the text has other functions, or has them in another order")
    compare_bodies(module, other, counts, unknown)
    compare_others(module, other, counts, unknown)
    names = set(re.findall(r'@(?:"[^"]*"|[\w.$]+)', text))
    missing = [it for it in [*module.functions, *module.globals] if it in names and it not in other.functions and it not in other.globals]
    unknown += [f"{it} is used, and left out" for it in missing]
    return counts, unknown, len(other.functions), sum(map(len, other.functions.values()))


def put_back(text):
    """The text as the kit's clang was given it, but for promises about intrinsics, which it knows itself."""
    text = text.replace(" QTREE_WIDE ", " ").replace(" = ptrtoint ", " = ptrtoaddr ")
    text = text.replace(" getelementptr inbounds ", " getelementptr inbounds nuw ")
    text = re.sub(r"bitcast double (\S+) to double", r"call double @llvm.arithmetic.fence.f64(double \1)", text)
    text = re.sub(r'(?m)^(attributes #\d+ = \{ .*"stack-probe-size"="3072") \}$', r'\1 "target-cpu"="x86-64-v2" }', text)
    return 'source_filename = "rattle"\n' + text + "declare double @llvm.arithmetic.fence.f64(double)\n!llvm.ident = !{!0}\n"


def clang_of_kit():
    """The kit's clang, or None."""
    if not shutil.which("rt"):
        return None
    page = subprocess.run(["rt", "doc"], capture_output=True, text=True, check=True).stdout.strip()
    return f"{os.path.dirname(page)}/toolchain/bin/clang"


def run(*words, cwd=None):
    ran = subprocess.run(words, cwd=cwd, stdin=subprocess.DEVNULL, capture_output=True, check=False)
    if ran.returncode:
        raise Unreadable(f"{words[0]} ended with status {ran.returncode}: {ran.stderr.decode(errors='replace').strip()[:2000]}")
    return ran.stdout


def object_of(text, words, clang):
    """The object that the kit's clang makes of a text that is put back."""
    words = ["-Wno-override-module" if it == "-Werror" else it for it in words]
    with tempfile.TemporaryDirectory(prefix="qtree-portable-") as room:
        write(f"{room}/module.ll", put_back(text))
        run(clang, *words, cwd=room)
        with open(f"{room}/module.o", "rb") as file:
            return file.read()


def object_in(archive):
    """The only object of an archive."""
    names = run("ar", "t", archive).decode().split()
    if len(names) != 1:
        raise Unreadable(f"{archive} has {len(names)} objects")
    return run("ar", "p", archive)


def planted(text, function, old, new):
    """The text with a mistake at the first place where it fits."""
    begin = re.search(rf"(?m)^define .*{re.escape(function)}\(", text) if function else re.match("", text)
    if not begin:
        raise Unreadable(f"no function for a mutant: {function}")
    changed, count = re.subn(f"(?m){old}", new, text[begin.start() :], count=1)
    if not count:
        raise Unreadable(f"no line for a mutant: {function} {old}")
    return text[: begin.start()] + changed


def refuse_promises(module_text, text):
    """The promises that comparing does not refuse."""
    return [what for what, *edit in PROMISES if not compare(module_text, planted(text, *edit))[1]]


def refuse_mutants(text, words, clang, right, jobs):
    """The mutants that give the same object."""
    with concurrent.futures.ThreadPoolExecutor(jobs) as pool:
        made = list(pool.map(lambda it: object_of(planted(text, *it[1:]), words, clang), MUTANTS))
    return [it[0] for it, its in zip(MUTANTS, made) if its == right]
