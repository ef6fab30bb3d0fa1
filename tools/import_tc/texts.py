"""Texts of qdiscs, options and filters for the remarks."""
from .tables import LEAST_QUANTUM, MOST_QUANTUM, MTU
from .values import id_text, rate_text, size_text, time_text


def counted(count, thing):
    return f"{count} {thing}{'s' * (count != 1)}"


def place_text(place):
    return "the root" if place == "root" else place.removeprefix("parent ")


def option_text(name, value):
    texts = {"memory_limit": size_text, "target": time_text, "interval": time_text, "ce_threshold": time_text, "latency": time_text}
    texts |= dict.fromkeys(("rate", "ceil", "peakrate", "bandwidth", "maxrate"), rate_text)
    texts |= dict.fromkeys(("burst", "cburst", "quantum", "mtu", "minburst", "mpu", "overhead"), size_text)
    return name if value is True else f"{name} {texts.get(name, str)(value)}"


def filter_text(it):
    words = ["filter parent", id_text(it.parent).removesuffix("0"), f"prio {it.prio} protocol {it.protocol} {it.kind}"]
    words += [f"{name} {value}" for name, value in it.keys.items()] + it.lost
    return " ".join([*words, *([f"classid {id_text(it.target)}"] if it.target else [])])


def rounded_up(options):
    """Linux keeps times of CoDel in units of 1024 ns, and shows them a microsecond too small: 5ms as 4999us."""
    found = dict(options)
    for name in ("target", "interval", "ce_threshold"):
        shown = found.get(name, 0)
        meant = shown + 1000
        if shown and meant % 10**6 == 0 and meant // 1024 * 1024 // 1000 * 1000 == shown:
            found[name] = meant
    return found


def quanta_of(weights):
    """Quanta in the proportion of these weights, for the least weight an mtu where that leaves the greatest small enough."""
    scale = min(MTU / max(min(weights), 1), MOST_QUANTUM / max(max(weights), 1)) if weights else 0
    return [max(int(weight * scale + 0.5), LEAST_QUANTUM) for weight in weights]


def shaper_burst(rate, burst):
    """A burst that covers two packets, and a packet and a millisecond at this rate."""
    return max(burst, 2 * MTU, rate // 8000 + MTU)
