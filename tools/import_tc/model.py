"""A set-up of one device: qdiscs, classes and filters, with the commands that changed them."""
import dataclasses

from .values import Unfit, Unread

ROOT = (0xFFFF, 0xFFFF)
INGRESS = 0xFFFF
FIRST_AUTOMATIC = 49152
# More than qtree takes by far; so no input takes long.
MOST_QDISCS, MOST_CLASSES, MOST_FILTERS, MOST_REMARKS = 1024, 4096, 4096, 10_000


class Missing(Unfit):
    """A line fails in Linux too, since what it names is not there, or is there already."""


@dataclasses.dataclass
class Qdisc:
    """A qdisc at a parent, which is ROOT or a class; handle 0 is none. Options that are only words are in rest."""

    kind: str
    handle: int
    parent: tuple
    options: dict
    rest: list


@dataclasses.dataclass
class TrafficClass:
    kind: str
    id: tuple
    parent: tuple
    options: dict
    rest: list


@dataclasses.dataclass
class Classifier:
    """A filter: what it compares (keys), its class, and what of it has no counterpart (lost).

    is_behind where a u32 asks for the next header.
    """

    kind: str
    parent: tuple
    prio: int
    protocol: str
    keys: dict
    target: tuple
    lost: list
    is_behind: bool = False


class Setup:
    """What is there after the commands so far, and remarks; is_short where a line or a thing was left out."""

    def __init__(self):
        self.held, self.by_place, self.by_handle, self.by_major = {}, {}, {}, {}
        self.classes, self.filters, self.remarks = {}, [], {}
        self.is_short, self.automatic = False, {}

    def leave_out(self, remark):
        self.is_short = True
        if len(self.remarks) < MOST_REMARKS:
            self.remarks[remark] = None

    @property
    def qdiscs(self):
        return list(self.held.values())

    def find(self, parent, handle):
        """The qdisc at this place, or with this handle; both where both are given."""
        if parent is None:
            return self.by_handle.get(handle) if handle else next(iter(self.held.values()), None)
        found = self.by_place.get(parent)
        return found if found and (not handle or found.handle == handle) else None

    def children(self, qdisc):
        """The qdiscs in the classes of one; the root's place has the major of ingress, and is below none."""
        found = self.by_major.get(qdisc.handle, {}).values() if qdisc.handle else ()
        return [it for it in found if it.parent != ROOT and it is not qdisc]

    def add_qdisc(self, qdisc):
        if len(self.held) >= MOST_QDISCS:
            raise Unread(f"a device has more than {MOST_QDISCS} qdiscs")
        self.held[id(qdisc)] = qdisc
        self.by_place.setdefault(qdisc.parent, qdisc)
        self.by_major.setdefault(qdisc.parent[0], {})[id(qdisc)] = qdisc
        if qdisc.handle:
            self.by_handle.setdefault(qdisc.handle, qdisc)

    def put(self, qdisc):
        """Adds a qdisc in the place of what was there."""
        if old := self.find(qdisc.parent, 0):
            self.remove(old)
        self.add_qdisc(qdisc)

    def remove(self, qdisc):
        """Takes a qdisc out with its classes, its filters, and all below it."""
        gone, handles = {id(qdisc): qdisc}, set()
        waiting = [qdisc]
        while waiting:
            it = waiting.pop()
            if it.handle and it.handle not in handles:
                handles.add(it.handle)
                waiting += self.children(it)
                gone |= {id(one): one for one in self.children(it)}
        for key, it in gone.items():
            self.held.pop(key, None)
            self.by_major.get(it.parent[0], {}).pop(key, None)
            for index, name in ((self.by_place, it.parent), (self.by_handle, it.handle)):
                if index.get(name) is it:
                    del index[name]
        if handles and self.classes:
            self.classes = {number: it for number, it in self.classes.items() if number[0] not in handles}
        if handles and self.filters:
            self.drop_filters(lambda it: it.parent[0] in handles)

    def add_class(self, made):
        if len(self.classes) >= MOST_CLASSES:
            raise Unread(f"a device has more than {MOST_CLASSES} classes")
        self.classes[made.id] = made

    def remove_class(self, number):
        self.classes.pop(number, None)
        if below := self.find(number, 0):
            self.remove(below)

    def add_filter(self, made):
        if len(self.filters) >= MOST_FILTERS:
            raise Unread(f"a device has more than {MOST_FILTERS} filters")
        self.filters.append(made)
        if made.prio >= 32768:
            self.automatic[made.parent] = min(made.prio, self.automatic.get(made.parent, made.prio))

    def drop_filters(self, goes):
        self.filters = [it for it in self.filters if not goes(it)]
        self.automatic = {}
        for it in self.filters:
            if it.prio >= 32768:
                self.automatic[it.parent] = min(it.prio, self.automatic.get(it.parent, it.prio))

    def parent_of_filters(self):
        """Where a filter without a parent is: the root."""
        root = self.find(ROOT, 0)
        return (root.handle if root else 0), 0

    def automatic_prio(self, parent):
        """The prio that Linux gives to a filter without one: before those that have such a prio already."""
        return self.automatic.get(parent, FIRST_AUTOMATIC + 1) - 1
