"""Makes the page: the library's text and the C around it, compiled for WebAssembly by the kit's clang and linker, in one HTML file."""
import base64
import glob
import gzip
import hashlib
import json
import os
import re
import sys
import tempfile

TOP = os.path.dirname(os.path.dirname(os.path.dirname(os.path.realpath(__file__))))
HERE = f"{TOP}/embed/page"
sys.path.insert(0, f"{TOP}/embed/portable")
from kept import Kept, Missing  # noqa: E402
from llvm_text import Unreadable, read, write  # noqa: E402
from packed import Release  # noqa: E402
from rewrite import portable  # noqa: E402
import tie  # noqa: E402

TARGET = ["--target=wasm64-unknown-unknown", "-Os", "-ffunction-sections", "-fdata-sections"]
# The flags of the proved build that every clang takes, as the portable package has them.
MODULE = ["-Wno-override-module", "-mllvm", "-trap-unreachable", "-mllvm", "-disable-machine-licm", "-mllvm", "-sink-common-insts=false"]
C = ["-std=c11", "-Wall", "-Wextra", "-Werror", "-D__linux__", "-ffreestanding", "-nostdinc"]
C += [f"-I{HERE}/wasm/include", f"-I{TOP}/embed/include"]
LINK = ["-mwasm64", "--no-entry", "--gc-sections", "--strip-all", "-z", "stack-size=262144", "--stack-first", "--max-memory=4294967296"]
OWN = ("mix", "units", "tcp", "agenda", "senders", "simulation", "places", "measured", "report", "chart", "drawing")
PLAYER = ("session", "packet_line", "addresses", "reader", "text")
WASM = ("web", "libc", "heap", "wide")
MOST = 250_000


def sources():
    """The files in C: those of the page, the player and heap.c."""
    own = [f"{HERE}/{it}.c" for it in OWN] + [f"{HERE}/wasm/{it}.c" for it in WASM]
    return own + [f"{TOP}/embed/c/{it}.c" for it in PLAYER] + [f"{TOP}/embed/portable/heap.c"]


def linker(clang, room):
    """The kit's linker, by the name by which it links WebAssembly."""
    path = f"{os.path.dirname(clang)}/ld.lld"
    if not os.path.exists(path):
        raise Missing(f"{path} is missing: this kit has no linker for WebAssembly")
    os.symlink(path, f"{room}/wasm-ld")
    return f"{room}/wasm-ld"


def module_of(text, room):
    """The wasm of a text of the library."""
    clang = tie.clang_of_kit()
    if not clang:
        raise Missing("Rattle's kit, whose clang compiles the page, is not on the path")
    # The C ABI of WebAssembly wants no results extended.
    write(f"{room}/module.ll", text.replace("QTREE_WIDE ", ""))
    tie.run(clang, *TARGET, *MODULE, "-c", "-x", "ir", f"{room}/module.ll", "-o", f"{room}/module.o")
    objects = [f"{room}/module.o"]
    for at, path in enumerate(sources()):
        # A loop that copies is not to become a call of the function in which it is.
        plain = ["-fno-builtin", "-mbulk-memory"] if path.endswith("wasm/libc.c") else []
        objects.append(f"{room}/{at}.o")
        tie.run(clang, *TARGET, *C, *plain, "-c", path, "-o", objects[-1])
    exports = [f"--export={it}" for it in re.findall(r"(?m)^API\((\w+)\)", read(f"{HERE}/wasm/web.c"))]
    tie.run(linker(clang, room), *LINK, *exports, *objects, "-o", f"{room}/qtree.wasm")
    with open(f"{room}/qtree.wasm", "rb") as file:
        return file.read()


def preset(path):
    """A preset: its name and what it shows, of the comments at its head, and the rest."""
    lines = read(path).rstrip("\n").split("\n")
    count = next(at for at, it in enumerate(lines) if not it.startswith("#"))
    head = [it[2:] for it in lines[:count]]
    return {"name": head[0], "about": " ".join(head[1:]), "mix": "\n".join(lines[count:])}


def about(release, text, wasm):
    """What the page says of itself."""
    lines = sum(len(read(it).split("\n")) for it in sources())
    return {
        "version": release.version,
        "commit": release.commit,
        "text": hashlib.sha256(text.encode()).hexdigest(),
        "wasm": hashlib.sha256(wasm).hexdigest(),
        "verdict": release.verdict or "",
        "kit": release.kit,
        "lines": lines,
        "bytes": len(wasm),
    }


def page_of(text, wasm, release):
    page = read(f"{HERE}/page.html")
    script = "".join(read(f"{HERE}/{it}.js") for it in ("editor", "page"))
    presets = [preset(it) for it in sorted(glob.glob(f"{HERE}/presets/*.mix"))]
    parts = {
        "STYLE": read(f"{HERE}/page.css"),
        "WORKER": read(f"{HERE}/worker.js"),
        "SCRIPT": script,
        "HASH": f"'sha256-{base64.b64encode(hashlib.sha256(script.encode()).digest()).decode()}'",
        "MODULE": base64.b64encode(gzip.compress(wasm, 9, mtime=0)).decode(),
        "PRESETS": json.dumps(presets, ensure_ascii=False).replace("<", "\\u003c"),
        "ABOUT": json.dumps(about(release, text, wasm), ensure_ascii=False).replace("<", "\\u003c"),
    }
    return re.sub(r"@([A-Z]+)@", lambda it: parts[it[1]], page)


def compiled(text, to):
    """The wasm of a text, in a folder of its own."""
    with tempfile.TemporaryDirectory(prefix=".page-", dir=to) as room:
        return module_of(text, room)


def make(unproved, to, is_tried):
    """Makes the page, and answers its path."""
    kept = Kept(unproved)
    kept.check_sources()
    os.makedirs(to, exist_ok=True)
    text, _ = portable(read(kept.module))
    wasm = compiled(text, to)
    if is_tried and compiled(text, to) != wasm:
        raise Unreadable("compiled again, the module has other bytes")
    page = page_of(text, wasm, Release(kept))
    if len(page.encode()) > MOST:
        raise Unreadable(f"the page has {len(page.encode()):,} bytes, and {MOST:,} is the most")
    write(f"{to}/.qtree.html", page)
    os.replace(f"{to}/.qtree.html", f"{to}/qtree.html")
    return f"{to}/qtree.html"


def status(unproved, to, is_tried):
    """Makes the page: the status of tools/package."""
    try:
        made = make(unproved, to, is_tried)
    except Missing as error:
        print(error)
        return 3
    except (OSError, Unreadable) as error:
        print(f"package: {error}", file=sys.stderr)
        return 2
    print(f"{os.path.relpath(made)}: {os.path.getsize(made):,} bytes" + (", compiled twice to the same module" if is_tried else ""))
    return 0
