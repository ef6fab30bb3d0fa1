"""Packs the text of the library for C with what builds and tests it, for systems without Rattle."""
import glob
import os
import re
import shutil
import subprocess
import sys
import tarfile
import tempfile

import beside
import hardened
from kept import TOP, Kept, Missing
from llvm_text import Unreadable, read, write
from pages import broken_links, relinked
from rewrite import portable
import tie

PAGES = ("TUTORIAL", "CONCEPTS", "SETTINGS", "LANGUAGE", "DISCIPLINES", "TC", "SERVICE", "GUARANTEES", "EMBEDDING", "VPN", "ROUTER")
# Programs of embed/c that are no tests, or need more than a C compiler.
LEFT = ("fuzz.c", "bench.c", "figures.c", "long_session.c", "standards.c", "steps.c")
# Commands of the repository in its pages, and those of the package: each is in a page, or there is a line too many here.
COMMANDS = {
    "To build the library, run one of these two commands at the top of the repository (`rt` is the command of Rattle's kit):":
        "To build the library, run this command at the top of the package:",
    "    (cd crates/qtree_c && rt lib)    # proves and builds the library, in most of an hour\n": "",
    "    embed/library --unproved         # builds the library without proofs, in a minute or two\n":
        "    make    # builds the static and the shared library, in a minute\n",
    "make -C embed/c install PREFIX": "make install PREFIX",
    "`make -C embed/c install`": "`make install`",
    "`make -C embed/c uninstall`": "`make uninstall`",
    "    make -C embed/c test valgrind fuzz bench    # a minute or two\n": "    make test\n",
    "make -C embed/c CC=musl-gcc": "make CC=musl-gcc",
    "A relative path counts from `embed/c`.": "A relative path counts from the package.",
    "./qtree --unproved play": "./qtree play",
    "    pip install --no-index --no-build-isolation --target \"$HOME/qtree/python\" embed/python ":
        "    pip install --no-index --no-build-isolation --target \"$HOME/qtree/python\" ./python ",
    "-replace=qtree=/path/to/embed/go": "-replace=qtree=/path/to/go",
    "$QTREE/embed/include": "$QTREE/include",
    "$QTREE/embed/c/build": "$QTREE/build",
    "In a clone, `../../tools/promise": "`../../tools/promise",
}
HERE = f"{TOP}/embed/portable"
PATH = "PATH=/usr/bin:/bin"
# What PROVED.md says of a module that was proved, and of one that was not.
PROVED = {
    "VERDICT": """The functions of `libqtree.ll` were proved by {kit}, for the target x86_64-unknown-linux-gnu. The kit's verdict is

    {verdict}""",
    "TARGETS": """For x86-64 the target is that of the proof. For another processor nothing
  was proved: the text is the same, and the rest is trusted, as said below.""",
}
NOT_PROVED = {
    "VERDICT": """**Nothing.** The kit {kit} compiled the module without proofs. What is said below of a proof holds for a package
that was made of a proved module, and not for this one.""",
    "TARGETS": "Nothing of it is proved, for any processor.",
}


def run(*words, cwd=TOP):
    return tie.run(*words, cwd=cwd).decode(errors="replace")


def with_own_commands(pages):
    """The texts of pages, with the commands of the package."""
    for old, new in COMMANDS.items():
        if not any(old in it for it in pages.values()):
            raise Unreadable(f"no page has the command {old!r}, for which the package has another")
        pages = {path: text.replace(old, new) for path, text in pages.items()}
    return pages


class Release:
    """What the package says of itself."""

    def __init__(self, kept):
        options = read(f"{TOP}/crates/q_options/src/command_line.rt")
        version = re.search(r'VERSION: &str = "([\d.]+) for x86_64, proved with ', options)[1]
        self.kit = kept.kit
        self.version = version if kept.verdict else f"{version}+unproved"
        self.commit = "commit " + run("git", "rev-parse", "HEAD").strip()
        if run("git", "status", "--porcelain").strip():
            self.commit += ", with changes that are in no commit"
        self.moment = int(run("git", "log", "-1", "--format=%ct"))
        header = read(f"{TOP}/embed/include/qtree.h")
        self.of_library = ".".join(re.findall(r"#define QTREE_VERSION_M[AI][JN]OR (\d+)", header))
        self.verdict = kept.verdict

    def proved(self, counts, functions, lines):
        """PROVED.md."""
        said = PROVED if self.verdict else NOT_PROVED
        said = {name: it.format(kit=self.kit, verdict=self.verdict) for name, it in said.items()}
        said |= {"VERSION": self.version, "LIBRARY": self.of_library, "COMMIT": self.commit}
        said |= {"FUNCTIONS": f"{functions:,}", "LINES": f"{lines:,}"}
        said["COUNTS"] = "\n".join(f"      {count:6} {kind}" for kind, count in counts.most_common())
        return re.sub(r"@(\w+)@", lambda it: said[it[1]], read(f"{HERE}/PROVED.md.in"))


def copy(names, folder):
    os.makedirs(folder, exist_ok=True)
    for it in names:
        shutil.copy(f"{TOP}/{it}", folder)


def below(pattern, left=()):
    return [os.path.relpath(it, TOP) for it in sorted(glob.glob(f"{TOP}/{pattern}")) if os.path.basename(it) not in left]


def openwrt(release, checksum):
    """The makefile for OpenWrt, with the checksum of the package."""
    return read(f"{HERE}/openwrt.mk").replace("@VERSION@", release.version).replace("@HASH@", checksum)


def laid_out(kept, root):
    """Puts all files below a root, and answers the release."""
    module = read(kept.module)
    text, _ = portable(module)
    counts, unknown, functions, lines = tie.compare(module, text)
    if unknown:
        raise Unreadable(f"the text differs from the module otherwise than it may: {unknown[0]}")
    release = Release(kept)
    own = ("README.md", "heap.c", "measure.c", "typed.py", "llvm_text.py")
    copy([*(f"embed/portable/{it}" for it in own), "embed/c/qtree.pc.in"], root)
    proved_for = "proved for x86_64-unknown-linux-gnu" if release.verdict else "NOT proved"
    write(f"{root}/Makefile", read(f"{HERE}/Makefile").replace("PROVED_FOR", proved_for))
    os.mkdir(f"{root}/openwrt")
    write(f"{root}/openwrt/Makefile", openwrt(release, "skip"))
    write(f"{root}/libqtree.ll", text)
    write(f"{root}/PROVED.md", release.proved(counts, functions, lines))
    files = {"include": ["embed/include/qtree.h"], "doc": ["embed/c/qtree-play.1"], "go": below("embed/go/*", ("test",))}
    files["tools"] = [*(f"tools/{it}" for it in ("promise", "import-tc", "capture", "picture")), "docs/pictures/replay.py"]
    files["tools/import_tc"] = below("tools/import_tc/*.py")
    files["python"] = [it for it in below("embed/python/*", ("test",)) if os.path.isfile(f"{TOP}/{it}")]
    files |= {f"python/{it}": below(f"embed/python/{it}/*.py") for it in ("qtree", "examples", "tests")}
    files["python/qtree"].append("embed/python/qtree/py.typed")
    files["tests"] = below("embed/c/*.[ch]", LEFT) + below("crates/qtree/tests/corpus/*.txt")
    files["examples"] = [it for it in below("examples/*.*") if not it.endswith(".md")]
    files["examples/tutorial"] = [it for it in below("examples/tutorial/*") if os.path.isfile(f"{TOP}/{it}")]
    for folder, names in files.items():
        copy(names, f"{root}/{folder}")
    run("embed/manual", f"{root}/doc/man3")
    places = {it: f"{folder}/{os.path.basename(it)}" for folder, names in files.items() for it in names}
    places |= {f"docs/{it}.md": f"doc/{it}.md" for it in PAGES} | {f"{it}.md": f"doc/{it}.md" for it in ("CHANGELOG", "SECURITY")}
    places["examples/README.md"] = "examples/README.md"
    for it, text in with_own_commands({it: relinked(it, places) for it in places if it.endswith(".md")}).items():
        write(f"{root}/{places[it]}", text)
    return release


def tar(root, release, name, to):
    """A tar file whose bytes depend on the files alone."""

    def plain(it):
        it.uid = it.gid = 0
        it.uname = it.gname = "root"
        it.mtime, it.mode = release.moment, 0o755 if it.isdir() or it.mode & 0o100 else 0o644
        return it

    with tarfile.open(to, "w:xz") as file:
        for at, folders, files in os.walk(root):
            folders.sort()
            for it in sorted(files):
                path = os.path.relpath(f"{at}/{it}", root)
                file.add(f"{root}/{path}", f"{name}/{path}", filter=plain)


def pack(unproved, to):
    """Makes the package, and answers its path."""
    kept = Kept(unproved)
    kept.check_sources()
    os.makedirs(to, exist_ok=True)
    with tempfile.TemporaryDirectory(prefix=".package-", dir=to) as room:
        release = laid_out(kept, f"{room}/root")
        name = f"qtree-{release.version}-portable"
        tar(f"{room}/root", release, name, f"{room}/{name}.tar.xz")
        os.replace(f"{room}/{name}.tar.xz", f"{to}/{name}.tar.xz")
    write(f"{to}/qtree-{release.version}-openwrt.mk", openwrt(release, beside.checksum(f"{to}/{name}.tar.xz")))
    beside.lay_beside(f"{to}/{name}.tar.xz", release, release.commit, [release.kit])
    return f"{to}/{name}.tar.xz"


def unpacked(package, room):
    run("tar", "-xJf", package, "-C", room)
    return glob.glob(f"{room}/qtree-*-portable")[0]


def make(folder, *words):
    """Runs make there, with no Rattle on the path."""
    return run("env", "-i", PATH, "make", "-s", *words, cwd=folder)


def tried(package, *words):
    """Unpacks the package in a fresh folder, builds it, plays the example and runs the tests, with no Rattle on the path."""
    with tempfile.TemporaryDirectory(prefix="qtree-portable-") as room:
        folder = unpacked(package, room)
        beside.check(package, room)
        make(folder, *words)
        if lacking := hardened.lacks(f"{folder}/qtree", has_c=True):
            raise Unreadable(f"the player has not {', '.join(lacking)}")
        install_and_remove(folder, f"{room}/installed", *words)
        report = run("env", "-i", PATH, "./qtree", "play", "examples/two_packets.qtree", cwd=folder)
        if report != read(f"{folder}/examples/two_of_three_packets.out"):
            raise Unreadable("the player plays two_packets.qtree to another report")
        compare_memory(folder, *words)
        make(folder, *words, "test")
        make(folder, *words, "-C", "examples/tutorial")
        step = f"{folder}/examples/tutorial/step1_device.out"
        if run("build/step1_device", cwd=os.path.dirname(step)) != read(step):
            raise Unreadable("the first step of the tutorial prints something else")
        said = run("./qtree", "--version", cwd=folder).strip().replace("\n", ", ")
        if shutil.which("musl-gcc"):
            make(folder, *words, "CC=musl-gcc", "LDFLAGS=-static", "test")
            said += "; over musl too"
        refuse_others(folder)
        if broken := list(broken_links(folder)):
            raise Unreadable(f"a link of a packed page leads nowhere: {', '.join(broken)}")
        return said


def install_and_remove(folder, prefix, *words):
    """Each function of the header has its manual page; what is removed is what was installed, and no file beside it."""
    files = lambda: {it for it in glob.glob(f"{prefix}/**", recursive=True) if os.path.isfile(it)}
    others = {f"{prefix}/{it}" for it in ("include/other.h", "lib/libother.so", "bin/qtree", "share/man/man3/qtree_other.3")}
    for it in others:
        os.makedirs(os.path.dirname(it), exist_ok=True)
        write(it, "")
    make(folder, *words, "install", f"PREFIX={prefix}")
    # The functions at the header's end are for a test, and have none.
    for it in re.findall(r"(?m)^[a-z].* \**(qtree_\w+)\(", read(f"{folder}/include/qtree.h").partition("/* The rest is for a test")[0]):
        page = f"{prefix}/share/man/man3/{it}.3"
        if not os.path.exists(page) or not re.search(rf"^(\.Nm {it}( ,)?$|\.so )", read(page), re.M):
            raise Unreadable(f"there is no manual page of {it}")
    if not {f"{prefix}/{it}" for it in ("include/qtree.h", "lib/libqtree.a", "lib/pkgconfig/qtree.pc")} <= files():
        raise Unreadable("make install installs no header, library or file for pkg-config")
    try_installed(folder, prefix)
    make(folder, *words, "uninstall", f"PREFIX={prefix}")
    if files() != others:
        raise Unreadable(f"make uninstall leaves or takes {', '.join(sorted(files() ^ others))}")


def try_installed(folder, prefix):
    """The player and the tools that were installed run, man shows the page of a function, and the package for Python runs over the shared library."""
    if shutil.which("man") and "qtree_code" not in run("env", "MANPAGER=cat", "man", "-M", f"{prefix}/share/man", "qtree_open"):
        raise Unreadable("man qtree_open shows another page")
    examples = f"{folder}/examples"
    report = read(f"{examples}/two_of_three_packets.out")
    if run("env", "-i", PATH, f"{prefix}/bin/qtree-play", f"{examples}/two_packets.qtree") != report:
        raise Unreadable("the player that was installed plays two_packets.qtree to another report")
    lines = f"{examples}/tutorial/two_customers.tc"
    if "bit" not in run("env", "-i", PATH, f"{prefix}/bin/qtree-promise", lines):
        raise Unreadable("qtree-promise promises nothing to the customers of the tutorial")
    if "tc qdisc add" not in run("env", "-i", PATH, f"{prefix}/bin/qtree-import-tc", lines):
        raise Unreadable("qtree-import-tc reads no line of the tutorial")
    if "FILE is a pcap" not in run("env", "-i", PATH, f"{prefix}/bin/qtree-capture", "--help"):
        raise Unreadable("qtree-capture has no help")
    for library in (f"{prefix}/lib/libqtree.so", ""):
        named = [f"QTREE_LIBRARY={library}"] if library else []
        run("env", "-i", PATH, "PYTHONDONTWRITEBYTECODE=1", *named, "python3", "-m", "unittest", "discover", "-q", "-s", "tests", cwd=f"{folder}/python")


def compare_memory(folder, *words):
    """ROUTER.md has the bytes that make measure prints, in the order of its lines."""
    measured = [f"{int(it):,}" for it in re.findall(r"(?m) (\d+) bytes$", make(folder, *words, "measure"))]
    table = read(f"{folder}/doc/ROUTER.md").partition("| Device | Bytes of the heap |\n")[2].partition("\n\n")[0]
    told = re.findall(r"(?m) ([\d,]+) \|$", table)
    if measured != told or len(told) != 3:
        raise Unreadable(f"make measure prints {', '.join(measured)} bytes, and ROUTER.md has {', '.join(told)}")


def refuse_others(folder):
    """Make refuses a processor with other pointers or another order of bytes, by its name."""
    for it in ("arm-linux-gnueabihf", "s390x-linux-gnu"):
        ran = subprocess.run(["make", f"TARGET={it}"], cwd=folder, capture_output=True, text=True, check=False)
        if ran.returncode == 0 or f"and not for {it.partition('-')[0]}" not in ran.stderr:
            raise Unreadable(f"make does not refuse {it}: {ran.stderr.strip()}")


def status(unproved, to, is_tried):
    """Makes the package and, where that is asked for, tries it: the status of tools/package."""
    ended = 2
    try:
        made = pack(unproved, to)
        print(os.path.relpath(made))
        ended = 1
        if is_tried:
            print(f"{os.path.basename(made)}: tried ({tried(made)})")
        return 0
    except Missing as error:
        print(error)
        return 3
    except (OSError, Unreadable, beside.Differs) as error:
        print(f"package: {error}", file=sys.stderr)
        return ended
