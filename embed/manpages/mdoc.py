"""Text of the header in the language of manual pages, mdoc(7)."""
import re

# Functions of other pages that the header names.
ELSEWHERE = {"malloc": 3, "realloc": 3, "getrandom": 2, "eventfd": 2, "qtree-play": 1}


def escaped(text):
    text = text.replace("\\", "\\e")
    return "\\&" + text if text[:1] in (".", "'") else text


def words_of_macro(text):
    """Words of a line on which mdoc looks for macros: none of them is one."""
    return " ".join("\\&" + it if re.fullmatch(r"[A-Z][a-z]{1,2}|[.,:;()\[\]?!]", it) else it for it in escaped(text).split())


def marked(word, own, names):
    """The macro for a name of the header: a page, a number or a type."""
    if word in own:
        return f".Fn {word}" if own[word] else f".Vt {word}"
    if word in names:
        return f".Xr {word} 3"
    if re.fullmatch(r"docs/\w+\.md", word):
        return f".Pa {word}"
    if word in ELSEWHERE:
        return f".Xr {word} {ELSEWHERE[word]}"
    if re.fullmatch(r"QTREE_[A-Z_]+(\.\.)?", word):
        return f".Dv {word}"
    return None


def prose(text, own, names):
    """A paragraph, in which each name of the header has its macro. `own` are the names of the page itself."""
    lines, now = [], []

    def flush():
        if now:
            lines.append(escaped(" ".join(now)))
            now.clear()

    pieces = re.findall(r"`[^`]*`\S*|\S+", " ".join(text.split()))
    for piece in pieces:
        found = re.fullmatch(r"([(\"]*)(`[^`]*`|[\w./-]*\w(?:\.\.)?)((?:\(\))?)([.,;:)\"]*)('s)?", piece)
        core = found[2] if found else ""
        macro = f".Ql {words_of_macro(core[1:-1])}" if core.startswith("`") else marked(core, own, names) if found else None
        if macro is None:
            now.append(piece)
            if re.search(r"[a-z0-9)`]\.\)?$", piece):
                flush()
            continue
        flush()
        if found[1]:
            macro = f".Pf {found[1]} {macro[1:]}"
        if found[5]:
            macro += " Ns 's"
        lines.append(macro + "".join(f" {it}" for it in found[4]))
    flush()
    return "\n".join(lines)


def literal(lines):
    """Lines as they are, such as code."""
    kept = "\n".join(escaped(it) for it in lines)
    return f".Bd -literal -offset indent\n{kept}\n.Ed"


def tagged(items, own, names, kind):
    """A list of names, each with its text; `kind` is the macro of a name."""
    width = max((len(name) for name, _ in items), default=4)
    lines = [f".Bl -tag -width \"{'x' * min(width, 20)}\""]
    for name, text in items:
        lines += [f".It {kind} {re.sub(', ', ' , ', name)}", prose(text, own, names)]
    return "\n".join([*lines, ".El"])


def bulleted(items, own, names):
    return "\n".join([".Bl -bullet", *(f".It\n{prose(it, own, names)}" for it in items), ".El"])
