"""The header for C as a list of blocks: a comment and what is declared below it, by the tasks under which the header has them."""
import dataclasses
import re

# What the rest of the header is: functions that only a test calls.
FOR_TESTS = "/* The rest is for a test"
TASK = r"^/\* ---- (.*) ---- \*/$"
FUNCTION = r"^(?:static inline )?(\w[\w ]*?[ *]+)(qtree_\w+)\(([^)]*)\)\s*[;{]"
STRUCT = r"^typedef struct (qtree_\w+) \{.*?^\} \1;"
OPAQUE = "void *at;"
ERRORS_NOT = r"QTREE_(DONE|LOST_\w*(\.\.)?|IDLE|LATER|NOTHING)$"


@dataclasses.dataclass
class Function:
    """A function: the type that it returns, and each argument with its type."""

    returns: str
    name: str
    arguments: list


@dataclasses.dataclass
class Block:
    """A comment of the header, as paragraphs, with what is declared below it."""

    task: str
    comment: str
    code: str

    def functions(self):
        found = []
        for returns, name, given in re.findall(FUNCTION, self.code, re.M | re.S):
            arguments = [" ".join(it.split()) for it in given.split(",")]
            found.append(Function(" ".join(returns.split()), name, [it for it in arguments if it != "void"]))
        return found

    def structs(self):
        return re.findall(STRUCT, self.code, re.M | re.S)

    def is_opaque(self):
        return OPAQUE in self.code

    def declared(self):
        """Structs, enums and numbers, as the header has them: without functions, and without what only a preprocessor reads."""
        code = re.sub(FUNCTION.replace("\\s*[;{]", "\\s*(?:;|\\{.*?^\\}|\\{[^\\n]*\\}$)"), "", self.code, flags=re.M | re.S)
        code = re.sub(r"^#(?!define QTREE_(?!NULL|H$)).*$", "", code, flags=re.M)
        return re.sub(r"\n{2,}", "\n", code).strip("\n")

    def summary(self):
        """What a manual page is about, in a line: the first sentence up to its colon."""
        first = re.match(r"(.+?)\.(?= |$)", " ".join(self.paragraphs()[0]))[1]
        head = first.partition(": ")[0]
        text = head if len(head.split()) > 3 else first
        return text if re.match(r"[A-Z]{2}|CoDel", text) else text[0].lower() + text[1:]

    def paragraphs(self):
        """Each paragraph as its lines, without the star and the blank before them."""
        lines = [re.sub(r"^ \* ?", "", it) for it in self.comment.split("\n")]
        groups, now = [], []
        for line in [*lines, ""]:
            if line.strip():
                now.append(line)
            elif now:
                groups.append(now)
                now = []
        return groups

    def words(self):
        return len(self.comment.replace("*", " ").split())


def read(text):
    """The comment at the top of the header, and its blocks, but those that are for a test."""
    top = re.match(r"/\* (.*?) \*/|/\* (.*?)\n \*/", text, re.S)
    body = text[top.end():].partition(FOR_TESTS)[0]
    # What stands before the first comment of a declaration is for the compiler.
    blocks, task = [], ""
    for comment, code in re.findall(r"^/\* (.*?)(?: \*/|\n \*/)\n(.*?)(?=^/\* |\Z)", body, re.M | re.S):
        named = re.match(r"---- (.*) ----$", comment)
        if named:
            task = named[1]
        else:
            blocks.append(Block(task, comment, code.strip("\n")))
    return Block("", top[1] or top[2], ""), blocks
