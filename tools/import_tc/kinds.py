"""Writes the kinds that qtree has too, and those that differ in little."""
from .model import ROOT
from .tables import LINUX_LEAST, PRIOMAP
from .texts import counted, place_text, rounded_up
from .values import id_text
from .writer import Writer


class Kinds(Writer):
    def small_quantum(self, what, options, most):
        """Linux has bounds for a quantum, which qtree has not."""
        quantum = options.get("quantum", LINUX_LEAST)
        if quantum < LINUX_LEAST:
            self.say(f"Linux takes {what}'s quantum below {LINUX_LEAST} as {LINUX_LEAST}: here {quantum} stays {quantum}")
        elif quantum > 2**20:
            self.say(f"Linux {most} {what}'s quantum above {2**20}: here {quantum} stays {quantum}")

    def plain(self, it, place):
        words = self.options(it.kind, it.options, it.rest)
        self.tc("qdisc", "add", *self.head(it, place), it.kind, *words)
        self.filters_nowhere(it)

    def put_tbf(self, it, place):
        options = dict(it.options)
        if "latency" in options and "limit" in options:
            options.pop("limit")
        if "limit" not in options:
            options.setdefault("latency", 50_000_000)
        if "rate" not in options or "burst" not in options:
            return self.leave_out(f"a tbf at {place_text(place)} is left out: it needs a rate and a burst")
        words = self.options("tbf", options, it.rest)
        self.tc("qdisc", "add", *self.head(it, place), "tbf", *words)
        self.filters_nowhere(it)
        child = [one for one in self.setup.qdiscs if it.handle and one.parent in ((it.handle, 1), (it.handle, 0))]
        if child:
            self.qdisc(child[0], f"parent {it.handle:x}:1")
        return None

    def put_fq_codel(self, it, place):
        options = rounded_up(it.options)
        if options.get("memory_limit") == 32 * 2**20:
            options.pop("memory_limit")
            self.say("memory_limit 32mb, which Linux sets, is left out: packets alone are limited, by limit")
        if options.get("drop_batch", 1) > 1:
            self.say(f"a batch of {options['drop_batch']} may take all of a flow here; in Linux it ends with half of the flow's bytes")
        self.small_quantum("an fq_codel", options, "refuses")
        words = self.options("fq_codel", options, it.rest)
        self.tc("qdisc", "add", *self.head(it, place), "fq_codel", *words)
        self.filters_nowhere(it)

    def put_prio(self, it, place):
        bands = it.options.get("bands", 3)
        if not 2 <= bands <= 16:
            return self.leave_out(f"a prio of {bands} bands is left out: 2 to 16 are possible")
        given = it.options.get("priomap", [])
        priomap = [*given, *PRIOMAP[len(given) :]]
        if max(priomap) >= bands:
            self.say(f"the priomap names bands that are not there, which Linux refuses: here they are the last of the {bands}")
        priomap = [min(one, bands - 1) for one in priomap]
        self.options("prio", {name: value for name, value in it.options.items() if name not in ("bands", "priomap")}, it.rest)
        self.tc("qdisc", "add", *self.head(it, place), "prio", "bands", str(bands), "priomap", *map(str, priomap))
        for band in range(1, bands + 1):
            self.below((it.handle, band), f"parent {it.handle:x}:{band:x}") if it.handle else None
        self.filters(it.handle, {(it.handle, band) for band in range(1, bands + 1)})
        return None

    def put_pfifo_fast(self, it, place):
        self.say("pfifo_fast is a prio of three bands here, each with a pfifo of txqueuelen packets")
        self.put_prio(it, place)

    def put_pfifo_head_drop(self, it, place):
        self.say("pfifo_head_drop is a pfifo here, which refuses the packet that arrives where Linux drops the oldest one")
        self.tc("qdisc", "add", *self.head(it, place), "pfifo", *self.options("pfifo", it.options, it.rest))
        self.filters_nowhere(it)

    def put_noqueue(self, it, place):
        self.say("noqueue queues nothing: the program sends such packets itself, without a device")

    def put_mq(self, it, place):
        """One of the qdiscs in the queues of the hardware."""
        children = [one for one in self.setup.qdiscs if one is not it and one.parent[0] == it.handle and one.parent != ROOT]
        kinds = sorted({one.kind for one in children})
        queues = f"{counted(len(children), 'qdisc')} for queues of the hardware ({', '.join(kinds) or 'none shown'})"
        self.say(f"{it.kind} has {queues}: the first one stands at the root here. A program opens a device for each queue of its own")
        for one in children[1:]:
            self.pass_over(one)
        if children:
            self.qdisc(children[0], place)

    put_mqprio = put_mq

    def put_drr(self, it, place):
        self.tc("qdisc", "add", *self.head(it, place), "drr", *self.options("drr", it.options, it.rest))
        classes = self.classes_of(it)
        for one in classes:
            self.small_quantum("a drr", one.options, "lowers")
            self.drr_class(one.id, self.options("drr", one.options, one.rest))
        for one in classes:
            self.below(one.id, f"parent {id_text(one.id)}")
        self.filters(it.handle, {one.id for one in classes})

    def classes_of(self, it):
        """Its classes, each once."""
        return [one for one in self.setup.classes.values() if it.handle and one.id[0] == it.handle and one.id[1]]

    def drr_class(self, number, words):
        self.tc("class", "add", "parent", f"{number[0]:x}:", "classid", id_text(number), "drr", *words)

    def below(self, number, place):
        """The qdisc in a class."""
        found = self.setup.find(number, 0)
        if found:
            self.qdisc(found, place)
