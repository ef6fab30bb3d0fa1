"""The overview of the library: the comment at the top of the header, and its functions and types by task."""
import re

import mdoc
from page import Parts


def page(top, pages, example):
    """qtree(3); `top` is the header's first comment, as a block, and `example` a program."""
    names = pages.names
    own = {it: False for it in names if names[it] == "qtree"}
    others = {it: home for it, home in names.items() if home != "qtree"}
    first, *rest = top.paragraphs()
    name, about = re.match(r"(\w+): (.*?)\.?$", " ".join(first)).groups()
    sections = {
        "NAME": f".Nm {name}\n.Nd {mdoc.words_of_macro(about)}",
        "SYNOPSIS": ".In qtree.h",
        "DESCRIPTION": described(rest, pages, own, others),
        "FUNCTIONS": by_task(pages, others),
        "TYPES": types(pages, own, others),
        "CONSTANTS": numbers(pages, own, others),
        "EXAMPLES": "This program sends three packets through a token bucket:\n" + mdoc.literal(example.rstrip("\n").split("\n")),
        "SEE ALSO": ".Xr qtree 1 ,\n.Xr qtree-play 1 ,\n.Xr tc 8",
    }
    return f".Dd {pages.date}\n.Dt QTREE 3\n.Os\n" + "".join(f".Sh {it}\n{text}\n" for it, text in sections.items())


def described(paragraphs, pages, own, others):
    """A paragraph of a single line without a dot at its end is a heading."""
    lines, kept = [], []

    def lay():
        if kept:
            parts = Parts(pages.blocks[0])
            parts.arguments, parts.about, parts.returned = set(), [], []
            for it in kept:
                parts.add(it, parts.about)
            lines.append(pages.laid(parts.about, own, others))
            kept.clear()

    for it in paragraphs:
        if len(it) == 1 and re.match(r"[A-Z][\w ]+$", it[0]):
            lay()
            lines.append(f".Ss {it[0]}")
        else:
            kept.append(it)
    lay()
    return "\n".join(lines)


def by_task(pages, others):
    lines, task = [], None
    for it in pages.blocks:
        if not it.functions():
            continue
        if it.task != task:
            lines += [".El"] * bool(task) + [f".Ss {it.task}", ".Bl -tag -width Ds"]
            task = it.task
        # Functions that share a comment share its sentence.
        names = [function.name for function in it.functions()]
        lines += [f".It {' , '.join(f'Xr {name} 3' for name in names)}", mdoc.prose(it.summary() + ".", {}, others)]
    return "\n".join([*lines, ".El"])


def types(pages, own, others):
    lines = [".Bl -tag -width Ds"]
    for it in pages.blocks:
        named = [name for name, is_function in pages.own(it).items() if not is_function]
        if named:
            lines += [f".It {' , '.join(f'Vt {name}' if it.is_opaque() else f'Xr {name} 3' for name in named)}"]
            lines += [mdoc.prose(it.summary() + ".", own, others)]
    return "\n".join([*lines, ".El"])


def numbers(pages, own, others):
    """What the header has of numbers that belong to no function and no type alone."""
    lines = []
    for it in pages.blocks:
        if not pages.own(it) and it.declared():
            lines += [".Pp"] * bool(lines) + [mdoc.prose(" ".join(" ".join(p) for p in it.paragraphs()), own, others)]
            lines += [mdoc.literal(it.declared().split("\n"))]
    return "\n".join(lines)
