"""Mutants behind a switch: a build has all of them, and the variable of a process says which one it meets."""
import os
import re
import shutil
import subprocess
import tempfile

# What stands in the text of a mutant for the question whether it is the one that is met.
SWITCH = "PLANTED"
VARIABLE = "QTREE_PLANTED"
# In C: the number in the variable, read once.
ASKED = f"""#include <stdbool.h>
#include <stdlib.h>
bool qtree_planted(unsigned which);
bool qtree_planted(unsigned which) {{
    static unsigned met;
    if (met == 0) {{
        const char *text = getenv("{VARIABLE}");
        met = text ? (unsigned)strtoul(text, NULL, 10) : ~0u;
    }}
    return which == met;
}}
"""
# In Rattle: a call that the module of the unproved build has in place of this body, which nothing equals.
RATTLE = """//! A switch.

/// Whether the mutant of this number is met.
#[inline(never)]
pub fn planted(which: u32) -> bool {
    which == 4000000007
}
"""
RUST = """
pub(crate) fn planted(which: u32) -> bool {
    #[allow(unsafe_code)]
    unsafe {
        unsafe extern "C" {
            fn qtree_planted(which: u32) -> bool;
        }
        qtree_planted(which)
    }
}
"""


def is_switched(mutant):
    return any(re.search(rf"\b{SWITCH}\b", new) for _, _, new, _ in mutant.changes)


def question(path, number):
    """How a source asks for a mutant."""
    if path.endswith(".rt"):
        return f"crate::planted::planted({number})"
    if path.endswith(".rs"):
        return f"crate::planted({number})"
    return f"qtree_planted({number})"


def numbered(mutant, number):
    """The mutant with the question for its number."""
    mutant.changes = [(path, old, re.sub(rf"\b{SWITCH}\b", question(path, number), new), within) for path, old, new, within in mutant.changes]


def with_questions(folder, texts):
    """What the sources with switches need beside them, as texts of files."""
    more = dict(texts)
    for path in texts:
        if path.endswith(".rt"):
            crate = re.match(r"crates/\w+", path)[0]
            root = next(it for it in (f"{crate}/src/lib.rt", f"{crate}/src/main.rt") if os.path.exists(f"{folder}/{it}"))
            text = more.get(root) or read(f"{folder}/{root}")
            more[f"{crate}/src/planted.rt"] = RATTLE
            if "mod planted;" not in text:
                more[root] = re.sub(r"(?m)^(?=(?:pub )?mod )", "mod planted;\n", text, count=1)
        elif path.endswith(".rs"):
            root = "embed/rust/src/lib.rs"
            text = more.get(root) or read(f"{folder}/{root}")
            if "fn qtree_planted" not in text:
                more[root] = re.sub(r"(?m)^(?=mod )", RUST.replace("\\", "\\\\") + "\n", text, count=1)
        elif "qtree_planted" in more[path]:
            # The list of what the shared library exports is made from such lines of the header.
            more[path] = re.sub(r"(?m)^(?=#include )", "extern _Bool qtree_planted(unsigned which);\n", more[path], count=1)
    return more


def read(path):
    with open(path, encoding="utf-8") as file:
        return file.read()


def write(path, text):
    with open(path, "w", encoding="utf-8") as file:
        file.write(text)


def asking(module):
    """The module of LLVM in which each crate's question is a call of the one in C."""
    symbols = set(re.findall(r'@"\w+::planted::planted"', module))
    for it in symbols:
        module = re.sub(rf"(?ms)^define [^\n]*{re.escape(it)}\(.*?^}}\n", "", module)
        module = module.replace(it, "@qtree_planted")
    return f"{module}\ndeclare zeroext i1 @qtree_planted(i32)\n" if symbols else module


def answer_in(archive):
    """Puts what answers the questions into an archive that asks none itself."""
    with open(archive, "rb") as file:
        is_there = b"qtree_planted" in file.read()
    if not is_there:
        with tempfile.TemporaryDirectory() as room:
            subprocess.run(["ar", "r", archive, object_of_question(room)], check=True, capture_output=True)


def object_of_question(room):
    """What answers the questions, compiled."""
    write(f"{room}/planted.c", ASKED)
    compiler = shutil.which(os.environ.get("CC", "cc")) or "cc"
    subprocess.run([compiler, "-O2", "-fPIC", "-c", f"{room}/planted.c", "-o", f"{room}/planted.o"], check=True)
    return f"{room}/planted.o"
