"""Mutants, as the files of mutants/ have them, and the places that they change."""
import collections
import functools
import glob
import os
import re


class Mutant:
    """A mutant: its name, the crate above or the function that has to refuse it, or the suite and the test that have to tell it, if they
    are named, and its changes in order."""

    def __init__(self, name, file, lines):
        self.name, self.above, self.by, self.is_of_gate, self.changes = name, None, None, False, []
        self.suite, self.test = None, ""
        old = within = None
        for word, rest in lines:
            if word == "file":
                file, within = rest.strip(), None
            elif word == "within":
                within = rest.strip()
            elif word == "above":
                self.above = rest.strip()
            elif word == "by":
                self.by = rest.strip()
            elif word == "gate":
                self.is_of_gate = True
            elif word == "tests":
                self.suite, _, self.test = rest.strip().partition(" ")
            elif word == "old":
                old = rest
            elif word == "new" and file and old:
                self.changes.append((file, old, rest, within))
                old = None

    @staticmethod
    def place(folder, path, text, old, within):
        """Where a text stands in a file, or in one function of it; None where that is nowhere or more than once."""
        places = [it.start() for it in re.finditer(re.escape(old), text)]
        if within:
            places = [it for it in places if f"::{function_at(folder, path, text, it)}".endswith(f"::{within}")]
        return places[0] if len(places) == 1 else None

    def function(self, folder):
        """The function that the first change lies in, or, if it lies in none, the one that is named to refuse it."""
        path, old, _, within = self.changes[0]
        if not path.startswith("src/"):
            return self.by
        with open(f"{folder}/{path}", encoding="utf-8") as file:
            text = file.read()
        at = self.place(folder, path, text, old, within)
        return None if at is None else function_at(folder, path, text, at)

    def texts(self, folder, before=()):
        """The changed text of each file, also of those that were changed before; None where the edit cannot be applied."""
        texts = dict(before)
        for path, old, new, within in self.changes:
            if path not in texts:
                try:
                    with open(f"{folder}/{path}", encoding="utf-8") as file:
                        texts[path] = file.read()
                except OSError:
                    return None
            at = self.place(folder, path, texts[path], old, within)
            if at is None:
                return None
            texts[path] = texts[path][:at] + new + texts[path][at + len(old) :]
        return texts or None


def module_of(path):
    """The names of the modules that lead to a source."""
    return [it for it in re.sub(r"/mod$|^lib$|^main$", "", path.removeprefix("src/").removesuffix(".rt")).split("/") if it]


@functools.cache
def homes(folder):
    """Each type of a crate with the modules in which it is declared: the prover names its functions by these, wherever they are declared."""
    found = collections.defaultdict(list)
    for at, _, names in os.walk(f"{folder}/src"):
        for name in names:
            path = os.path.relpath(f"{at}/{name}", folder)
            with open(f"{at}/{name}", encoding="utf-8") as file:
                for kind in re.findall(r"^(?:pub(?:\([^)]*\))? )?(?:struct|enum) (\w+)", file.read(), re.M):
                    found[kind].append(module_of(path))
    return found


def function_at(folder, path, text, at):
    """The function in whose body a place of a source lies, by its path in the crate; None where it lies in none."""
    module = module_of(path)
    kind = name = None
    for line in text[:at].split("\n"):
        if re.match(r"\}", line):
            kind = name = None
        elif re.match(r"    \}$", line) and kind:
            name = None
        elif found := re.match(r"(?:unsafe )?impl\b(?:<.*?>)? (?:.* for )?(\w+)", line):
            kind = found[1]
        elif found := re.match(r"(?:    )?(?:pub(?:\([^)]*\))? )?(?:const )?(?:unsafe )?(?:extern \"C\" )?fn (\w+)", line):
            name = found[1]
    declared = homes(folder).get(kind, [])
    if len(declared) == 1:
        module = declared[0]
    return "::".join(it for it in (*module, kind, name) if it) if name else None


def lines_of(path):
    """The lines of a file of mutants that say something, each as its word and the text behind it."""
    with open(path, encoding="utf-8") as file:
        parts = [it.partition(":") for it in file.read().split("\n")]
    return [(word, rest.removeprefix(" ")) for word, _, rest in parts]


def mutants_in(path):
    """The mutants of a file: each from a line `mutant:` to the next, all of one source."""
    lines = lines_of(path)
    starts = [at for at, (word, _) in enumerate(lines) if word == "mutant"]
    source = next((rest.strip() for word, rest in lines[: starts[0] if starts else 0] if word == "file"), None)
    return [Mutant(lines[at][1].strip(), source, lines[at + 1 : end]) for at, end in zip(starts, [*starts[1:], None])]


@functools.cache
def mutants_of_folder(at):
    """The mutants of the crate in a folder."""
    paths = glob.glob(f"{at}/mutants/**/*.mutants", recursive=True)
    return [mutant for path in sorted(paths) for mutant in mutants_in(path)]
