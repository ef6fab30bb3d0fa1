"""Three network namespaces, of which the one in the middle has the wire between two cards: what wire/test and wire/measure are made of."""
import contextlib
import ctypes
import os
import pathlib
import re
import select
import shutil
import signal
import socket
import struct
import subprocess
import sys
import tempfile
import time

HERE = pathlib.Path(__file__).resolve().parent
CRATE = HERE.parent / "crates" / "qtree_c"
A, B = "10.77.0.1", "10.77.0.2"
A_6, B_6 = "fd77::1", "fd77::2"
PACKAGES = {"ip": "iproute2", "tc": "iproute2", "ping": "iputils-ping", "cc": "gcc"}
SOL_PACKET, PACKET_AUXDATA, PACKET_IGNORE_OUTGOING, SO_RCVBUFFORCE = 263, 8, 23, 33
LIBC = ctypes.CDLL(None, use_errno=True)


class Skip(Exception):
    """Why it cannot be tried here."""


def ready(*programs):
    """Raises Skip with what is missing. From then on SIGTERM ends the program like an error, so that namespaces are removed."""
    signal.signal(signal.SIGTERM, lambda *_: sys.exit(1))
    for it in ("cc", "make", "ip", *programs):
        if not shutil.which(it):
            raise Skip(f"{it} is not installed ({PACKAGES.get(it, it)})")
    if not any((CRATE / it / "libqtree_c.a").exists() for it in ("out", "out/unproved")):
        raise Skip("the library for C is not built (embed/library, or embed/library --unproved)")
    if os.geteuid() != 0:
        raise Skip("it needs root, to make network namespaces")


def run(*words, check=True, **how):
    return subprocess.run([str(it) for it in words], check=check, capture_output=True, text=True, **how)


def build(*targets):
    made = run("nice", "-n", "10", "make", "-s", "-C", HERE, *targets, check=False)
    if made.returncode:
        raise SystemExit(made.stdout + made.stderr)


def has_xdp():
    return run("pkg-config", "--exists", "libxdp", "libbpf", check=False).returncode == 0


def text_of(path):
    return path.read_text(encoding="utf-8", errors="replace")


class Lab:
    """Namespaces a, m and b; cards `qwa` and `qwb` at the ends, and `left` and `right` in the middle, while it is open."""

    def __init__(self, queues=1, mtu=1500):
        self.queues, self.mtu = str(queues), str(mtu)
        self.places = {it: f"qw_{it}_{os.getpid()}" for it in "amb"}
        self.room = pathlib.Path(tempfile.mkdtemp(prefix="qtree-wire-"))
        self.running = []

    def __enter__(self):
        try:
            for it in self.places.values():
                run("ip", "netns", "add", it)
            many = ("numtxqueues", self.queues, "numrxqueues", self.queues)
            for place, end, card, address, address_6 in (("a", "qwa", "left", A, A_6), ("b", "qwb", "right", B, B_6)):
                of = self.places[place]
                run("ip", "-n", of, "link", "add", end, *many, "type", "veth", "peer", "name", card, "netns", self.places["m"], *many)
                run("ip", "-n", of, "address", "add", f"{address}/16", "dev", end)
                run("ip", "-n", of, "address", "add", f"{address_6}/64", "dev", end, "nodad")
                run("ip", "-n", of, "link", "set", end, "mtu", self.mtu)
                for link in ("lo", end):
                    run("ip", "-n", of, "link", "set", link, "up")
                self.ends_off(place, end)
            for it in ("all", "default", "left", "right"):
                self.inside("m", "sysctl", "-qw", f"net.ipv6.conf.{it}.disable_ipv6=1").wait()
            for it in ("left", "right"):
                run("ip", "-n", self.places["m"], "link", "set", it, "mtu", self.mtu, "up", "arp", "off")
        except (subprocess.CalledProcessError, OSError) as error:
            self.__exit__()
            raise Skip(f"namespaces cannot be made: {getattr(error, 'stderr', error)}".strip()) from error
        return self

    def ends_off(self, place, end):
        """Each end sends frames of the mtu, with their checksums; the other end of a veth takes frames from XDP only if gro is on."""
        self.inside(place, "ethtool", "-K", end, "tx", "off", "tso", "off", "gso", "off", "gro", "on", stderr=subprocess.DEVNULL).wait()

    def __exit__(self, *_):
        for it in self.running:
            if it.poll() is None:
                it.kill()
                it.wait()
        for it in self.places.values():
            run("ip", "netns", "delete", it, check=False)
        shutil.rmtree(self.room, ignore_errors=True)

    def inside(self, place, *words, **how):
        words = ["ip", "netns", "exec", self.places[place], *(str(it) for it in words)]
        process = subprocess.Popen(words, text=True, **{"stdout": subprocess.PIPE, **how})
        self.running.append(process)
        return process

    def card(self, place, name):
        """A socket at an end, by which frames go and come."""
        enter(self.places[place])
        fd = socket.socket(socket.AF_PACKET, socket.SOCK_RAW, socket.htons(3))
        fd.bind((name, 3))
        fd.setsockopt(SOL_PACKET, PACKET_AUXDATA, 1)
        fd.setsockopt(SOL_PACKET, PACKET_IGNORE_OUTGOING, 1)
        fd.setsockopt(socket.SOL_SOCKET, SO_RCVBUFFORCE, 64 << 20)
        fd.setsockopt(SOL_PACKET, 1, struct.pack("iHH8s", socket.if_nametoindex(name), 1, 0, b""))
        enter(None)
        return fd


HOME = os.open("/proc/self/ns/net", os.O_RDONLY)


def enter(place):
    """This thread goes into a namespace, or home."""
    fd = HOME if place is None else os.open(f"/run/netns/{place}", os.O_RDONLY)
    if LIBC.setns(fd, 0x40000000) != 0:
        raise OSError(ctypes.get_errno(), "setns")
    if fd != HOME:
        os.close(fd)


def received(fd, seconds, enough=None):
    """The frames that come until none has come for some seconds, or there are enough; each with the tag that the kernel took out."""
    found = []
    while (enough is None or len(found) < enough) and select.select([fd], [], [], seconds)[0]:
        data, notes, _, _ = fd.recvmsg(70000, 256)
        for level, kind, note in notes:
            if level == SOL_PACKET and kind == PACKET_AUXDATA:
                status, *_, tci, tpid = struct.unpack("IIIHHHH", note[:20])
                if status & 0x10:
                    data = data[:12] + struct.pack("!HH", tpid if status & 0x40 else 0x8100, tci) + data[12:]
        found.append(data)
    return found


class Wire:
    """The program between `left` and `right` in the middle, while it is open."""

    def __init__(self, lab, tree, *options, program="qtree-wire", wrap=(), wait=20):
        self.lab, self.file, self.socket = lab, lab.room / "line.tc", lab.room / "socket"
        self.log = lab.room / "log"
        self.program, self.wait = HERE / "build" / program, wait
        self.file.write_text(tree)
        words = [*wrap, self.program, "-n", self.socket, "-p", "0", *options, "left", "right", self.file]
        with open(self.log, "w", encoding="utf-8") as log:
            self.process = lab.inside("m", *words, stdout=subprocess.DEVNULL, stderr=log)

    def __enter__(self):
        until = time.monotonic() + self.wait
        while "are joined by" not in self.said():
            if self.process.poll() is not None or time.monotonic() > until:
                raise AssertionError(f"the wire does not begin: {self.said()}")
            time.sleep(0.02)
        return self

    def __exit__(self, *_):
        self.stop()

    def stop(self):
        """The status, after SIGTERM."""
        if self.process.poll() is None:
            self.process.terminate()
        return self.process.wait(timeout=30)

    def said(self):
        return text_of(self.log)

    def ask(self, what):
        return run(HERE / "build/qtree-wire", what, self.socket, check=False).stdout

    def counts(self):
        """The counts of both directions by their names; those of losses too."""
        return [{name: int(number) for name, number in re.findall(r"(\w+) (\d+)", part)} for part in counts_of(self.ask("counts"))]


def counts_of(text):
    """The parts of the counts, one for each direction."""
    return re.findall(r"(?ms)^\S+ to \S+: .*?(?=^\S+ to \S+: |\Z)", text)


def counter(lab, place, file, name):
    """A counter of the kernel in a namespace, as /proc/net/FILE has it."""
    text = lab.inside(place, "cat", f"/proc/net/{file}").communicate()[0]
    if file == "snmp6":
        return int(re.search(rf"^{name}\s+(\d+)", text, re.M)[1])
    rows = text.splitlines()
    for head, row in zip(rows[::2], rows[1::2]):
        found = dict(zip((head.split(":")[0] + it for it in head.split()[1:]), row.split()[1:]))
        if name in found:
            return int(found[name])
    return 0


@contextlib.contextmanager
def busy(*processes):
    """Ends them afterwards."""
    try:
        yield
    finally:
        for it in processes:
            if it.poll() is None:
                it.terminate()
                it.wait()
