"""Manual pages of the header's blocks: one for each comment of functions, and for each type that several of them take."""
import re

import mdoc
from header import ERRORS_NOT

RETURNS = r"(?:Returns?|They return)\b"
DOES_WHAT = r"Do(?:es)? what (qtree_\w+)"


class Parts:
    """The comment of a block, by the sections of a page."""

    def __init__(self, block):
        self.arguments = {re.sub(r".*\W(\w+)$", r"\1", it) for function in block.functions() for it in function.arguments}
        self.about, self.returned, self.examples, self.codes, self.behind = [], [], [], [], []
        now = self.about
        for number, lines in enumerate(block.paragraphs()):
            if lines[0].startswith("For example"):
                now = self.examples
            elif re.match(RETURNS, lines[0]):
                now = self.about
            self.add(lines, now)

    def add(self, lines, now):
        if lines[0] == "Returns":
            items, rest = self.items(lines[1:], r"  (\S+)  +(\S.*)$", 4)
            self.codes += items
            self.behind += [("prose", rest)] if rest else []
        elif re.match(RETURNS, lines[0]):
            self.returned.append(("prose", " ".join(lines)))
        elif all(it.startswith("    ") for it in lines):
            now.append(("literal", [it[4:] for it in lines]))
        elif lines[0].startswith("  - "):
            now.append(("bullets", [" ".join(it.split()) for it in re.split(r"(?m)^  - ", "\n".join(lines))[1:]]))
        elif any(self.is_item(it) for it in lines):
            first = next(number for number, it in enumerate(lines) if self.is_item(it))
            if first:
                self.add(lines[:first], now)
            items, rest = self.items(lines[first:], r"(\w+(?:, \w+)*)  +(\S.*)$", 3)
            now.append(("items", items))
            if rest:
                now.append(("prose", rest))
        else:
            self.split(" ".join(it.strip() for it in lines), now)

    def split(self, text, now):
        """A paragraph may end with what is returned."""
        about, returned = re.match(r"(.*?[.)]) (Returns? QTREE.*)$|(.*)$", text).groups()[:2]
        now.append(("prose", about or text))
        if returned:
            self.returned.append(("prose", returned))

    def is_item(self, line):
        found = re.match(r"(\w+(?:, \w+)*)  +\S", line)
        return bool(found) and set(found[1].split(", ")) <= self.arguments

    @staticmethod
    def items(lines, form, indent):
        """The names of a list with their texts, and what stands behind the list."""
        found = []
        for number, line in enumerate(lines):
            begun = re.match(form, line)
            if begun:
                found.append([begun[1], begun[2]])
            elif line.startswith(" " * indent) and found:
                found[-1][1] += " " + line.strip()
            else:
                return [tuple(it) for it in found], " ".join(it.strip() for it in lines[number:])
        return [tuple(it) for it in found], ""


class Pages:
    """All pages but the overview."""

    def __init__(self, blocks, date):
        self.blocks, self.date = blocks, date
        self.names, self.homes = {}, {}
        for it in blocks:
            for struct in it.structs():
                users = [its for its in blocks if any(re.search(rf"\b{struct}\b", arg) for f in its.functions() for arg in f.arguments)]
                self.homes[struct] = users[0] if len(users) == 1 and not it.is_opaque() else it
        for it in blocks:
            for name in self.own(it):
                self.names[name] = "qtree" if it.is_opaque() else self.title(self.homes.get(name, it))
        self.parts = {it.comment: Parts(it) for it in blocks}
        self.codes = dict(re.findall(r"(QTREE_\w+) = \d+,? +/\* (.*?) \*/", next(it.code for it in blocks if "qtree_code" in self.own(it))))

    def own(self, block):
        """The names for which a block has a page: functions and types."""
        functions = {it.name: True for it in block.functions()}
        return functions | dict.fromkeys([*block.structs(), *re.findall(r"(?m)^typedef \w+ (qtree_\w+);", block.code)], False)

    def title(self, block):
        return next(iter(self.own(block)), "")

    def taken(self, block):
        """The blocks of structs that stand on a block's page."""
        return [it for it in self.blocks if it is not block and any(self.homes.get(name) is block for name in it.structs())]

    def files(self):
        made = {}
        for it in self.blocks:
            if self.own(it) and not it.is_opaque() and all(self.homes.get(name, it) is it for name in self.own(it)):
                made[f"{self.title(it)}.3"] = self.page(it)
        for name, home in self.names.items():
            made.setdefault(f"{name}.3", f".so man3/{home}.3\n")
        return made

    def page(self, block):
        """A page: its sections, those that have a text."""
        own = {name: is_function for it in [block, *self.taken(block)] for name, is_function in self.own(it).items()}
        others = {name: home for name, home in self.names.items() if name not in own}
        names = " ,\n".join(f".Nm {it}" for it in own)
        sections = {"NAME": f"{names}\n.Nd {mdoc.words_of_macro(block.summary())}", "SYNOPSIS": self.synopsis(block)}
        parts = self.parts[block.comment]
        sections["DESCRIPTION"] = self.description(block, parts, own, others)
        sections["RETURN VALUES"] = self.returned(block, parts, own, others)
        sections["EXAMPLES"] = self.laid(parts.examples, own, others)
        sections["ERRORS"] = self.errors_of(block, parts, own, others)
        sections["SEE ALSO"] = self.see_also(block, own)
        title = f".Dd {self.date}\n.Dt {self.title(block).upper()} 3\n.Os\n"
        return title + "".join(f".Sh {name}\n{text}\n" for name, text in sections.items() if text)

    @staticmethod
    def synopsis(block):
        lines = [".In qtree.h"]
        for it in block.functions():
            given = "".join(f'\n.Fa "{argument}"' for argument in it.arguments or ["void"])
            lines += [f".Ft {it.returns}" if " " not in it.returns else f'.Ft "{it.returns}"', f".Fo {it.name}{given}", ".Fc"]
        return "\n".join(lines)

    def laid(self, parts, own, others):
        """Paragraphs, lists and code, one below the other."""
        lines = []
        for kind, what in parts:
            text = {
                "prose": mdoc.prose, "bullets": mdoc.bulleted,
                "items": lambda it, mine, its: mdoc.tagged(it, mine, its, "Fa"), "literal": lambda it, *_: mdoc.literal(it),
            }[kind](what, own, others)
            lines += [".Pp"] * (bool(lines) and kind == "prose") + [text]
        return "\n".join(lines)

    def description(self, block, parts, own, others):
        text = self.laid(parts.about, own, others)
        declared = block.declared()
        if declared:
            text += "\n" + mdoc.literal(declared.split("\n"))
        for it in self.taken(block):
            text += f"\n.Ss The struct {' and '.join(it.structs())}\n{self.laid(self.parts[it.comment].about, own, others)}\n"
            text += mdoc.literal(it.declared().split("\n"))
        return text.strip("\n")

    def returned(self, block, parts, own, others):
        """What is no error; a comment without it names the function that does the same, or nothing is returned."""
        if not block.functions():
            return ""
        lines = [self.laid(parts.returned, own, others)] if parts.returned else []
        good = [it for it in parts.codes if re.match(ERRORS_NOT, it[0])]
        lines += [mdoc.tagged(good, own, others, "Dv")] if good else []
        rest = [it for it in parts.behind if not it[1].startswith("On an error")]
        lines += [".Pp\n" * bool(lines) + self.laid(rest, own, others)] if rest else []
        if not lines:
            same = re.search(DOES_WHAT, " ".join(block.comment.replace("*", " ").split()))
            names = ", ".join(it.name for it in block.functions())
            is_void = all(it.returns == "void" for it in block.functions())
            said = "Nothing is returned." if is_void else f"The codes are those of {same[1]}." if same else f"See {names}."
            lines = [mdoc.prose(said, own, others)]
        return "\n".join(lines)

    def errors(self, block, seen=()):
        """The errors of a block with their texts: its own, those that its text names, or those of the functions that it names for them."""
        parts = self.parts[block.comment]
        own = [it for it in parts.codes if not re.match(ERRORS_NOT, it[0])]
        if own:
            return own
        text = " ".join(it[1] for it in parts.returned)
        found = {it: self.codes.get(it, "") for it in re.findall(r"QTREE_[A-Z_]+\b", text) if not re.match(ERRORS_NOT, it)}
        same = re.search(DOES_WHAT, " ".join(block.comment.replace("*", " ").split()))
        for name in re.findall(r"qtree_\w+", text) or ([same[1]] if same else []):
            its = next((it for it in self.blocks if name in self.own(it)), None)
            if its and its is not block and name not in seen:
                theirs = dict(self.errors(its, (*seen, name)))
                found = theirs | {it: said for it, said in found.items() if it not in theirs}
        return list(found.items())

    def errors_of(self, block, parts, own, others):
        if not any(it.returns == "qtree_code" for it in block.functions()):
            return ""
        found = self.errors(block)
        rest = [it for it in parts.behind if it[1].startswith("On an error")]
        lines = [mdoc.tagged(found, own, others, "Dv")] if found else []
        return "\n".join(lines + [f".Pp\n{self.laid(rest, own, others)}"] * bool(rest))

    def see_also(self, block, own):
        """The pages that the text and the declarations name, and those of the same task."""
        blocks = [block, *self.taken(block)]
        near = {it for its in blocks for it in re.findall(r"\bqtree_\w+", its.comment + its.code)} & self.names.keys()
        near |= {name for it in self.blocks if it.task == block.task and it.functions() for name in self.own(it)}
        found = sorted({self.names[it] for it in near - own.keys()} - {self.names[it] for it in own} | {"qtree"})
        return " ,\n".join(f".Xr {it} 3" for it in found)
