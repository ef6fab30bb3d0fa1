"""A page of the repository, a manual page or another file as HTML; links lead to what the site has."""
import html
import os
import re
import subprocess


class Unmade(Exception):
    """Why no site is made."""


def run(*words, text=None, cwd=None):
    ran = subprocess.run(words, input=text, cwd=cwd, capture_output=True, text=True, check=False)
    if ran.returncode:
        raise Unmade(f"{' '.join(words[:3])} ended with status {ran.returncode}: {ran.stderr.strip()}")
    return ran.stdout


def place_of(path):
    """Where a file of the repository is in the site: a page and a text become HTML, and a picture stays."""
    if path.endswith("README.md"):
        return path[: -len("README.md")] + "index.html"
    if path.endswith(".md"):
        return path[:-3] + ".html"
    return path if path.endswith((".svg", ".png")) else path + ".html"


def headings(text):
    """The headings of a page, each with its level, as it is written and its anchor."""
    bare = re.sub(r"(?ms)^```.*?^```$", "", text)
    found = [(len(marks), words) for marks, words in re.findall(r"(?m)^(#+) +(.*)$", bare)]
    return [(level, words, re.sub(r"[^\w\- ]", "", words.lower()).replace(" ", "-")) for level, words in found]


def plain(words):
    """A heading without its marks."""
    return re.sub(r"`|\*", "", re.sub(r"!?\[([^\]]*)\]\([^)]*\)", r"\1", words))


def relinked(made, path, linked):
    """HTML whose links lead to the site's own files; `linked` gets each file of the repository to which a link leads."""

    def relink(found):
        name, target = found.groups()
        target = html.unescape(target)
        if re.match(r"\w+:", target) or target.startswith("#"):
            return found[0]
        file, mark, anchor = target.partition("#")
        file = os.path.normpath(os.path.join(os.path.dirname(path), file))
        linked.add(file)
        to = os.path.relpath(folder_page(file), os.path.dirname(path) or ".")
        return f'{name}="{html.escape(to)}{mark}{anchor}"'

    return re.sub(r'\b(href|src)="([^"]*)"', relink, made)


def folder_page(file):
    """A link to a folder leads to its index."""
    return f"{file}/index.html" if os.path.isdir(file) else place_of(file)


def page(text, path, linked):
    """The HTML of a page, each heading with its anchor."""
    made = run("cmark-gfm", "-e", "table", "--unsafe", text=text)
    anchors = iter(headings(text))

    def anchored(found):
        level, _, anchor = next(anchors)
        mark = f' <a class="anchor" href="#{anchor}" aria-label="Link to this section">#</a>' if level > 1 else ""
        return f'<h{level} id="{anchor}">{found[2]}{mark}</h{level}>'

    made = re.sub(r"(?s)<h([1-6])>(.*?)</h\1>", anchored, made)
    made = made.replace("<table>", '<div class="wide"><table>').replace("</table>", "</table></div>")
    return relinked(made, path, linked)


def source(text, path):
    """A file as it is."""
    return f"<h1>{html.escape(path)}</h1>\n<pre><code>{html.escape(text)}</code></pre>\n"


def index(folder, files, linked):
    """What the repository has in a folder without a page."""
    linked.update(f"{folder}/{it}" for it in files)
    lines = [f'<li><a href="{os.path.basename(place_of(it))}">{html.escape(it)}</a></li>' for it in files]
    return f"<h1>{html.escape(folder)}/</h1>\n<ul>\n" + "\n".join(lines) + "\n</ul>\n"


def manual(folder, name, names):
    """A manual page; a name that has no page here stays a word."""
    made = run("mandoc", "-Thtml", "-O", "fragment,man=%N.%S.html", name, cwd=folder)
    keep = lambda it: it[0] if it[1] in names else it[2]
    made = re.sub(r'(?s)<a class="Xr" href="([^"]*)\.html">(.*?)</a>', keep, made)
    made = re.sub(r'<span class="Pa">(docs/\w+)\.md</span>', r'<a href="../\1.html">\1.md</a>', made)
    # The name of the page is its only heading of the first level.
    made = re.sub(r"<(/?)h([12])\b", lambda it: f"<{it[1]}h{int(it[2]) + 1}", made)
    return f"<h1>{title_of(os.path.basename(name))}</h1>\n{made}"


def title_of(name):
    """qtree_open(3) of qtree_open.3."""
    return re.sub(r"(.*)\.(\d)$", r"\1(\2)", name)
