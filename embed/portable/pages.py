"""Pages of the repository in a package: a link leads to what is packed, or becomes its words."""
import glob
import os
import re

from kept import TOP
from llvm_text import read

# A link of a page, or a picture: its mark, its words, the path and the anchor.
LINK = r"(!?)\[([^\]]*)\]\(([^)#\s]*)(#[^)\s]*)?\)"


def relinked(page, places):
    """The text of a page of the repository, where places say what else is packed, and at which path of the package."""

    def relink(found):
        mark, words, path, anchor = found.groups()
        target = os.path.normpath(f"{os.path.dirname(page)}/{path}".lstrip("/"))
        if not path or re.match(r"\w+:", path):
            return found[0]
        if target not in places:
            return words
        return f"{mark}[{words}]({os.path.relpath(places[target], os.path.dirname(places[page]) or '.')}{anchor or ''})"

    parts = re.split(r"(?ms)(^```.*?^```$)", read(f"{TOP}/{page}"))
    return "".join(it if it.startswith("```") else re.sub(LINK, relink, it) for it in parts)


def broken_links(folder):
    """The links of the pages in a folder that lead nowhere."""

    def text_of(path):
        return re.sub(r"(?ms)^```.*?^```$", "", read(path))

    def anchors(path):
        headings = re.findall(r"(?m)^#+ +(.*)$", text_of(path))
        return {"#" + re.sub(r"[^\w\- ]", "", it.lower()).replace(" ", "-") for it in headings}

    for page in glob.glob(f"{folder}/**/*.md", recursive=True):
        for _, _, path, anchor in re.findall(LINK, text_of(page)):
            target = f"{os.path.dirname(page)}/{path}" if path else page
            if not re.match(r"\w+:", path) and (not os.path.exists(target) or anchor and anchor not in anchors(target)):
                yield f"{os.path.relpath(page, folder)}: {path}{anchor}"
