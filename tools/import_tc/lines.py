"""Writes a whole set-up, and what is proposed for kinds that have no counterpart."""
from .kinds import Kinds
from .model import INGRESS, ROOT
from .tables import LIKE_FQ_CODEL, MTU, NOTHING_LIKE, WRITTEN
from .texts import counted, filter_text, option_text, place_text, quanta_of, rounded_up, shaper_burst
from .values import id_text, rate_text, shown, size_text


class Carrier(Kinds):
    """Writes the lines of one set-up."""

    def all(self):
        """The lines with their remarks; is_short is set where something was left out, or packets would be lost."""
        self.say(*self.setup.remarks)
        root = self.setup.find(ROOT, 0)
        self.ingress()
        if root:
            self.qdisc(root, "root")
        self.left_over()
        self.lost()
        return self.lines

    def ingress(self):
        """What comes in has no place in a device that sends."""
        entries = [it for it in self.setup.qdiscs if it.kind in ("ingress", "clsact")]
        if not entries:
            return
        filters = counted(sum(it.parent[0] == INGRESS for it in self.setup.filters), "filter")
        self.leave_out(
            f"{entries[0].kind} is left out with {filters}: give packets that come in a device of their own, "
            "and in it a tbf for what police limited"
        )
        for it in entries:
            self.pass_over(it)
        self.filters_done |= {id(it) for it in self.setup.filters if it.parent[0] == INGRESS}

    def left_over(self):
        """What no qdisc that is written carries."""
        if not self.lines or all(it.startswith("#") for it in self.lines):
            self.say("nothing is added: a device without commands has a pfifo of txqueuelen packets as its root")
        for it in [it for it in self.setup.qdiscs if id(it) not in self.seen]:
            if id(it) not in self.seen:
                self.pass_over(it)
                text = f"{shown(it.kind)} {it.handle:x}: at {id_text(it.parent)}"
                self.leave_out(f"left out with all below it, since nothing has its place: {text}")
        known = {it.handle for it in self.setup.qdiscs}
        for it in self.setup.classes.values():
            if it.id[0] not in known:
                self.leave_out(f"left out, since no qdisc has this class: {shown(it.kind)} {id_text(it.id)}")
        for it in [it for it in self.setup.filters if id(it) not in self.filters_done]:
            self.leave_out(f"left out, since nothing that is written takes this filter: {filter_text(it)}")

    def qdisc(self, it, place):
        if self.is_written(it, place):
            return
        self.levels += 1
        write = getattr(self, f"put_{it.kind}", None)
        if self.levels > 64:
            self.leave_out(f"{shown(it.kind)} at {place_text(place)} is left out with all below it: it is too deep")
            self.pass_over_below(it)
        elif write:
            write(it, place)
        elif it.kind in WRITTEN:
            self.plain(it, place)
        elif it.kind in LIKE_FQ_CODEL:
            self.like_fq_codel(it, place)
        else:
            self.unlike(it, place)
        self.levels -= 1

    def unlike(self, it, place):
        text = f"{shown(it.kind)} at {place_text(place)}"
        self.leave_out(f"{text} has no counterpart, and is left out with all below it, so that a pfifo stays there")
        if it.kind in NOTHING_LIKE:
            self.say(f"in the place of {it.kind}: {NOTHING_LIKE[it.kind]}")
        self.pass_over_below(it)

    def pass_over_below(self, it):
        self.seen.discard(id(it))
        self.pass_over(it)

    def is_written(self, it, place):
        """Whether a qdisc is left out that has no place in a tree: below itself, or with the handle of another."""
        twice = id(it) in self.seen or it.handle in self.taken
        self.seen.add(id(it))
        if twice:
            self.leave_out(f"{shown(it.kind)} {it.handle:x}: at {place_text(place)} is left out, since its handle is there already")
        self.taken |= {it.handle} if it.handle else set()
        return twice

    def put_netem(self, it, place):
        child = next(iter(self.setup.children(it)), None)
        instead = ", and what was below it takes its place" if child else ""
        self.leave_out(f"netem is left out: delay, loss and reordering are not simulated{instead}")
        if rate := it.options.get("rate"):
            self.say(f"proposal: a tbf of netem's rate, with a limit of {it.options.get('limit', 1000)} packets")
            handle = it.handle or self.fresh_handle()
            self.shaper(place, handle, rate, 2 * MTU)
            place = f"parent {handle:x}:1"
        if child:
            self.qdisc(child, place)
        elif it.options.get("limit"):
            self.tc("qdisc", "add", *place.split(), "pfifo", "limit", str(it.options["limit"]))

    def shaper(self, place, handle, rate, burst):
        """A tbf that is proposed. Its limit is without effect below another qdisc."""
        rate, burst = self.in_range("tbf", "rate", rate), self.in_range("tbf", "burst", burst)
        words = ["tbf", "rate", rate_text(rate), "burst", size_text(burst), "latency", "50ms"]
        self.tc("qdisc", "add", *place.split(), "handle", f"{handle:x}:", *words)

    def like_fq_codel(self, it, place):
        self.say(f"proposal: an fq_codel in the place of {it.kind}; {LIKE_FQ_CODEL[it.kind]}")
        options = rounded_up(it.options) if it.kind == "codel" else {}
        if it.kind == "codel":
            marks = {} if "ecn" in options else {"noecn": True}
            options = {"limit": 1000, "flows": 1} | marks | {name: value for name, value in options.items() if name in WRITTEN["fq_codel"]}
        elif it.kind != "red" and it.options.get("limit"):
            options["limit"] = it.options["limit"]
        gone = {name: value for name, value in it.options.items() if name not in options}
        if gone or it.rest:
            self.say("its settings are left out: " + " ".join([*(option_text(*one) for one in gone.items()), *it.rest]))
        self.tc("qdisc", "add", *self.head(it, place), "fq_codel", *self.options("fq_codel", options, []))
        self.filters_nowhere(it)

    def put_cake(self, it, place):
        rate = it.options.get("bandwidth")
        self.say(
            "proposal: an fq_codel in the place of cake, below a tbf where cake has a bandwidth. It shares among flows, not among hosts; "
            "classes of DiffServ would be a prio above fq_codels"
        )
        if words := [*(option_text(*one) for one in it.options.items() if one[0] != "bandwidth"), *it.rest]:
            self.say(f"cake's settings are left out: {' '.join(words)}")
        handle = it.handle
        if rate:
            above, handle = it.handle or self.fresh_handle(), 0
            self.shaper(place, above, rate, shaper_burst(rate, 0))
            place = f"parent {above:x}:1"
        self.tc("qdisc", "add", *self.head(it, place, handle), "fq_codel")
        self.filters_nowhere(it)

    def put_qfq(self, it, place):
        self.say("proposal: a drr in the place of qfq, with quanta by its weights; a packet may wait longer than under qfq")
        classes = self.classes_of(it)
        self.shares(it, place, [(one.id, one.options.get("weight", 1)) for one in classes])

    def shares(self, it, place, weighted):
        """A drr with a class of each of these ids, with quanta in the proportion of the weights."""
        self.tc("qdisc", "add", *self.head(it, place), "drr")
        quanta = quanta_of([weight for _, weight in weighted])
        for (number, _), quantum in zip(weighted, quanta):
            self.drr_class(number, ["quantum", str(quantum)])
        for number, _ in weighted:
            self.below(number, f"parent {id_text(number)}")
        self.filters(it.handle, {number for number, _ in weighted})

    def put_htb(self, it, place):
        classes = [one for one in self.classes_of(it) if one.kind == "htb"]
        if not classes:
            return self.leave_out("htb is left out: without a class it shapes nothing")
        parents = {one.parent for one in classes}
        leaves = [one for one in classes if one.id not in parents]
        tops = [one for one in classes if one.parent in (ROOT, (it.handle, 0))] or leaves or classes
        rate = sum(one.options.get("ceil", one.options.get("rate", 0)) for one in tops)
        self.htb_remarks(leaves, tops, len(classes) - len(leaves), rate)
        handle = self.fresh_handle()
        self.shaper(place, handle, rate, shaper_burst(rate, max(one.options.get("burst", 0) for one in tops)))
        shares = [(one.id, one.options.get("rate", 1)) for one in leaves]
        default = (it.handle, it.options.get("default", 0))
        if default not in {number for number, _ in shares}:
            default = self.own_class(it, {one.id[1] for one in classes})
            shares.append((default, min(weight for _, weight in shares)))
        self.shares(it, f"parent {handle:x}:1", shares)
        self.last_filter(it, default)
        return None

    def own_class(self, it, minors):
        """A class for what htb sends past its classes."""
        minor = next(one for one in range(0xFFFF, 0, -1) if one not in minors)
        self.say(f"htb sends what no filter takes past its classes; a drr would lose it: class {it.handle:x}:{minor:x} takes it here")
        return it.handle, minor

    def last_filter(self, it, default):
        prio = max((one.prio for one in self.setup.filters if one.parent[0] == it.handle), default=0) + 1
        if default[1] == it.options.get("default"):
            self.say(f"htb's default {default[1]:x}: a last filter takes what the others leave")
        self.filter_line(it.handle, min(prio, 65535), "all", {}, default)

    def htb_remarks(self, leaves, tops, inner, rate):
        self.say(
            "proposal: a tbf over a drr in the place of htb. The tbf has the ceil of htb's uppermost class, and each leaf class of htb "
            "is a class of the drr, with a quantum in the proportion of its rate"
        )
        if len(tops) > 1:
            self.say(f"htb has {len(tops)} uppermost classes: the tbf has the sum of their ceils; set it to the rate of the link")
        if inner > 1 or inner and len(tops) > 1:
            self.say("htb's inner classes are left out: what a class leaves goes to all others, not first to those beside it")
        for one in leaves:
            ceil = one.options.get("ceil", one.options.get("rate", 0))
            if ceil < rate:
                self.say(f"class {id_text(one.id)} had a ceil of {rate_text(ceil)}: a class of a drr may use what the others leave")
            if one.options.get("prio"):
                self.say(f"class {id_text(one.id)} had prio {one.options['prio']}: a drr has none; a prio above drrs lets some go first")
