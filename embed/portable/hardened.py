"""Reads of a program or a shared library, by readelf, how it is hardened."""
import re
import subprocess


def lacks(path, readelf="readelf", has_c=False):
    """What a program or a library lacks of a position of its own, read-only relocations that are all bound at its start, and a stack that
    is not executable; of a program in C also a guard before its return addresses."""
    said = subprocess.run([readelf, "-W", "-h", "-l", "-d", "-s", path], capture_output=True, text=True, check=True).stdout
    wanted = {
        "position independence": r"Type: +DYN ",
        "read-only relocations": r"(?m)^ +GNU_RELRO ",
        "relocations that are bound at its start": r"(?m)\((FLAGS\) +BIND_NOW|FLAGS_1\).* NOW\b|BIND_NOW\))",
        "a stack that is not executable": r"(?m)^ +GNU_STACK .* RW +0",
    }
    if has_c:
        wanted["a guard of its stack"] = r"__stack_chk_fail"
    return [name for name, form in wanted.items() if not re.search(form, said)]


def guards_branches(objects, readelf="readelf"):
    """Whether each object of a C compiler says that its indirect branches are guarded (CET on x86-64, BTI on aarch64)."""
    said = (subprocess.run([readelf, "-W", "-n", it], capture_output=True, text=True, check=True).stdout for it in objects)
    return all(re.search(r"IBT, SHSTK|BTI", it) for it in said)
