"""Two network namespaces with a tinc daemon in each, a and b, and a link between them: what run measures."""
import contextlib
import json
import os
import pathlib
import re
import signal
import subprocess
import sys
import tempfile
import time

HERE = pathlib.Path(__file__).resolve().parent
BUILT = HERE / "build"
PLACES = tuple(f"qtree_tinc_{it}_{os.getpid()}" for it in "ab")
LINKS = tuple(f"qv{it}{os.getpid()}" for it in "ab")
INNER = tuple(f"qi{it}{os.getpid()}" for it in "ab")
NEAR, FAR = "10.80.0.1", "10.80.0.2"
OUTER = ("10.81.0.1", "10.81.0.2")


def ip(*words, check=True):
    return subprocess.run(["ip", *words], check=check, capture_output=True, text=True)


def inside(place, *words, **how):
    return subprocess.Popen(["ip", "netns", "exec", PLACES[place], *words], text=True, **{"stdout": subprocess.PIPE, **how})


def configure(folder):
    """The settings of both daemons, which know each other's key. No path MTU is probed for: the inner devices have one that fits. They
    hold what comes while the machine lets a daemon wait."""
    for number, name in enumerate("ab"):
        at = folder / name
        (at / "hosts").mkdir(parents=True)
        settings = f"Name = {name}\nInterface = {INNER[number]}\nAddressFamily = ipv4\nUDPRcvBuf = 4000000\n"
        (at / "tinc.conf").write_text(settings + "ConnectTo = b\n" * (name == "a"))
        up = f"#!/bin/sh\nip address add {(NEAR, FAR)[number]}/24 dev $INTERFACE\nip link set $INTERFACE mtu 1400 txqueuelen 20000 up\n"
        (at / "tinc-up").write_text(up)
        (at / "tinc-up").chmod(0o755)
        host = f"Address = {OUTER[number]}\nSubnet = {(NEAR, FAR)[number]}/32\nPMTUDiscovery = no\n"
        (at / "hosts" / name).write_text(host)
        subprocess.run([BUILT / "plain/src/tincd", "-c", at, "-K", "2048"], input="\n\n", check=True, capture_output=True, text=True)
    for name, other in ("ab", "ba"):
        (folder / other / "hosts" / name).write_text((folder / name / "hosts" / name).read_text())


class Vpn:
    """Both daemons while they run. The one in a has the queue that the lines set up; without lines it is tinc as it is. link is a qdisc of
    the kernel on the link from a to b, and settings are lines of tinc.conf."""

    def __init__(self, lines=None, link=None, settings=(), ecn=0):
        self.lines, self.link, self.settings, self.ecn = lines, link, settings, ecn
        self.programs = []

    def __enter__(self):
        self.room = tempfile.TemporaryDirectory(prefix="qtree_tinc")
        self.folder = pathlib.Path(self.room.name)
        self.queue_file = self.folder / "queue.tc"
        try:
            configure(self.folder)
            self.make_places()
            self.start()
            self.wait()
        except BaseException:
            self.__exit__()
            raise
        return self

    def make_places(self):
        for place in PLACES:
            ip("netns", "add", place)
            ip("-n", place, "link", "set", "lo", "up")
            for setting in (f"tcp_ecn={self.ecn}", "tcp_no_metrics_save=1"):
                ip("netns", "exec", place, "sysctl", "-qw", f"net.ipv4.{setting}", check=False)
        ip("link", "add", LINKS[0], "netns", PLACES[0], "type", "veth", "peer", "name", LINKS[1], "netns", PLACES[1])
        for place, link, address in zip(PLACES, LINKS, OUTER):
            ip("-n", place, "address", "add", f"{address}/24", "dev", link)
            ip("-n", place, "link", "set", link, "up")
        if self.link:
            ip("netns", "exec", PLACES[0], "tc", "qdisc", "add", "dev", LINKS[0], "root", *self.link.split())

    def start(self):
        settings = list(self.settings)
        if self.lines is not None:
            self.write(*self.lines)
            settings.append(f"QueueFile = {self.queue_file}")
        with open(self.folder / "a/tinc.conf", "a", encoding="utf-8") as file:
            file.write("\n".join(settings) + "\n")
        kinds = ("plain" if self.lines is None else "queue", "plain")
        for number, kind in ((1, kinds[1]), (0, kinds[0])):
            name = "ab"[number]
            words = [BUILT / kind / "src/tincd", "-c", self.folder / name, "-D", "-d1", f"--pidfile={self.folder / name}.pid"]
            wrap = os.environ.get("QTREE_WRAP", "").split() if kind == "queue" else []
            with open(self.folder / f"{name}.log", "w", encoding="utf-8") as log:
                self.programs.append(inside(number, *wrap, *words, stdout=log, stderr=log))
            with contextlib.suppress(PermissionError):
                os.sched_setscheduler(self.programs[-1].pid, os.SCHED_FIFO, os.sched_param(2))
        self.daemon = self.programs[-1]

    def wait(self):
        """Until packets go through, three of them one after the other."""
        until = time.monotonic() + 60
        while inside(0, "ping", "-q", "-c", "3", "-i", "0.1", "-W", "1", FAR, stderr=subprocess.DEVNULL).wait():
            if self.daemon.poll() is not None or time.monotonic() > until:
                sys.exit(f"the daemons do not find each other:\n{self.log()}{(self.folder / 'b.log').read_text()}")
            time.sleep(0.2)

    def __exit__(self, *_):
        for program in self.programs:
            if program.poll() is None:
                program.terminate()
                with contextlib.suppress(subprocess.TimeoutExpired):
                    program.wait(timeout=30)
                program.kill()
        for place in PLACES:
            for left in ip("netns", "pids", place, check=False).stdout.split():
                with contextlib.suppress(ProcessLookupError):
                    os.kill(int(left), signal.SIGTERM)
            ip("netns", "delete", place, check=False)
        self.room.cleanup()

    def log(self):
        return (self.folder / "a.log").read_text()

    def write(self, *lines):
        self.queue_file.write_text("".join(f"tc {it}\n" for it in lines))

    def says_anew(self, wanted, sent):
        """What the daemon has logged after a signal, once the wanted line is there."""
        before = len(self.log())
        self.daemon.send_signal(sent)
        until = time.monotonic() + 60
        while not re.search(wanted, said := self.log()[before:]):
            if self.daemon.poll() is not None or time.monotonic() > until:
                sys.exit(f"the daemon does not answer {sent.name}:\n{said}")
            time.sleep(0.05)
        return said

    def reads(self, *lines):
        """What the daemon says of its file with other lines."""
        self.write(*lines)
        return self.says_anew(r"Queue changed by .*\n", signal.SIGHUP)

    def shows(self):
        """The counters of the tree as a text, and what became of the packets."""
        return counters_of(self.says_anew(r"Queue totals: .*\n", signal.SIGUSR2))

    def stop(self):
        """The same at the end, and the script of what was recorded, if there is one."""
        self.daemon.terminate()
        if self.daemon.wait(timeout=60):
            sys.exit(f"tincd ended with status {self.daemon.returncode}:\n{self.log()}")
        script = self.folder / "a/queue.script"
        return *counters_of(self.log()), script.read_text() if script.exists() else None

    def marked_arrivals(self):
        """How many packets with Ce the kernel of b took, how many with a wrong checksum, and how many found its daemon's socket full."""
        lines = inside(1, "cat", "/proc/net/netstat", "/proc/net/snmp").communicate()[0].splitlines()
        rows = [[it.split()[1:] for it in lines if it.startswith(kind)] for kind in ("IpExt:", "Udp:")]
        found = {name: int(count) for names, counts in rows for name, count in zip(names, counts)}
        return found["InCEPkts"], found["InCsumErrors"], found["RcvbufErrors"]

    def link_drops(self):
        """How many packets the kernel's qdisc on the link has dropped."""
        shown = inside(0, "tc", "-s", "-j", "qdisc", "show", "dev", LINKS[0]).communicate()[0]
        return sum(it["drops"] for it in json.loads(shown) if it.get("root"))


def counters_of(log):
    tree, totals = re.findall(r"^Queue:\n((?:.+\n)*?)Queue totals: (.*)$", log, re.M)[-1]
    return tree, {name: int(count) for name, count in re.findall(r"(\w+) (\d+)", totals)}
