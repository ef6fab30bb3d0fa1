#!/usr/bin/env python3
"""Puts the calls of queue.h into the sources of tinc 1.0.36, of which no line is here: by the name of a function and a line of it.

    examples/tinc/calls.py FOLDER     FOLDER has tinc's C files, which are changed

The status is 1, with what was not found, where a file, a function or a line is not there, or not once; then no file is changed."""
import pathlib
import re
import sys

RETURN_IF = "if({}) {{\n\treturn{};\n}}"
# The file, the function, whether the call stands before or after a line of it, what this line is, and the call.
CALLS = (
    ("net_packet.c", "send_packet", "before", r"via = .*;", RETURN_IF.format("queue_takes(n, packet)", "")),
    ("net.c", "main_loop", "before", r"running = true;", RETURN_IF.format("!queue_set_up()", " 1")),
    ("net.c", "main_loop", "after", r"maxfd = build_fdset\(.*\);", "queue_before_sleep(&tv, &writeset);"),
    ("net.c", "main_loop", "before", r"if\(do_purge\) \{", "queue_run();"),
    ("net.c", "main_loop", "before", r"try_outgoing_connections\(\);", "queue_set_up();"),
    ("net.c", "main_loop", "before", r"return 0;", "queue_close();"),
    ("process.c", "sigusr2_handler", "after", r"\(void\)a;", "queue_show_soon();"),
    ("node.c", "free_node", "before", r"free\(n\);", "queue_forget(n);"),
)


def only(found, what):
    if len(found) != 1:
        sys.exit(f"calls.py: {what} is there {len(found)} times, not once: is this tinc 1.0.36?")
    return found[0]


def function_at(lines, name, file):
    """The numbers of the first and the last line of a function that is defined, with its end in the first column."""
    begun = only([it for it, line in enumerate(lines) if re.match(rf"\w[^;]*\b{name}\(.*\{{$", line)], f"the function {name} of {file}")
    return begun, lines.index("}", begun)


def with_call(lines, file, function, where, wanted, call):
    first, last = function_at(lines, function, file)
    found = [it for it in range(first + 1, last) if re.fullmatch(wanted, lines[it].strip())]
    at = only(found, f"the line '{wanted}' in the function {function} of {file}")
    indent = re.match(r"\s*", lines[at])[0]
    at += where == "after"
    return [*lines[:at], *(indent + it for it in call.splitlines()), *lines[at:]]


def with_header(lines):
    last = max(it for it, line in enumerate(lines) if line.startswith('#include "'))
    return [*lines[: last + 1], '#include "queue.h"', *lines[last + 1 :]]


def main(folder):
    changed = {}
    for file, *call in CALLS:
        path = pathlib.Path(folder, file)
        if path not in changed:
            if not path.exists():
                sys.exit(f"calls.py: there is no {path}: is this tinc 1.0.36?")
            changed[path] = with_header(path.read_text(encoding="utf-8").split("\n"))
        changed[path] = with_call(changed[path], file, *call)
    for path, lines in changed.items():
        path.write_text("\n".join(lines), encoding="utf-8")


if __name__ == "__main__":
    if len(sys.argv) != 2 or sys.argv[1].startswith("-"):
        sys.exit(__doc__)
    main(sys.argv[1])
