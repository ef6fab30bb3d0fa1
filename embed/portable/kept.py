"""What the build of the library for C kept beside its archive."""
import glob
import hashlib
import json
import os
import re

from llvm_text import read

TOP = os.path.dirname(os.path.dirname(os.path.dirname(os.path.realpath(__file__))))

PROVED = r"logic=proved functions=\d+ .*target=x86_64-unknown-linux-gnu"


class Missing(Exception):
    """Why there is no module."""


class Kept:
    """The archive, its module, the name of the kit, the words with which its clang compiled it and, of a proved one, its verdict."""

    def __init__(self, unproved):
        folder = f"{TOP}/crates/qtree_c/out" + "/unproved" * unproved
        self.is_unproved, self.how = unproved, "embed/library --unproved" if unproved else "embed/library"
        self.archive, self.module, kept = (f"{folder}/{it}" for it in ("libqtree_c.a", "qtree_c.ll", "qtree_c.kept"))
        for it in (self.archive, self.module, kept):
            if not os.path.exists(it):
                raise Missing(f"{os.path.relpath(it, TOP)} is missing: {self.how} builds the library and keeps its module")
        said = json.loads(read(kept))
        self.words, self.verdict, self.kit = said["words"], said["verdict"], said.get("kit")
        with open(self.archive, "rb") as file:
            is_same = hashlib.sha256(file.read()).hexdigest() == said["archive"]
        if not is_same or not unproved and not re.match(PROVED, self.verdict):
            raise Missing(f"{os.path.relpath(kept, TOP)} is of another archive, or of none that was proved: {self.how} builds it anew")
        if not self.kit:
            raise Missing(f"{os.path.relpath(kept, TOP)} does not name the kit that compiled it: {self.how} builds it anew")

    def check_sources(self):
        """The archive and its module are newer than each source of the crates."""
        parts = ("src",) if self.is_unproved else ("src", "specs", "proofs")
        sources = [it for part in parts for it in glob.glob(f"{TOP}/crates/*/{part}/**/*.rt", recursive=True)]
        newest = max(sources, key=os.path.getmtime)
        if os.path.getmtime(self.archive) < os.path.getmtime(newest):
            raise Missing(f"{os.path.relpath(self.archive, TOP)} is older than {os.path.relpath(newest, TOP)}: {self.how} builds it anew")

    def said(self):
        """What is said of the module."""
        return f"the kit's verdict: {self.verdict}" if self.verdict else "NOTHING of it is proved: it was built without proofs"
