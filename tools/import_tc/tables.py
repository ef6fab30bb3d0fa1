"""How the options of each kind are written, and what stands in the place of those that have no counterpart."""
from .values import rate_text, size_text, time_text

MTU = 1514
# As many bytes as a class may send in a round at most, where quanta are made of rates.
MOST_QUANTUM = 40 * MTU
LEAST_QUANTUM = 64
# What Linux takes a quantum below this as.
LINUX_LEAST = 256
PROTOCOLS = ("ip", "ipv6", "all")
PRIOMAP = (1, 2, 2, 2, 1, 2, 0, 0, 1, 1, 1, 1, 1, 1, 1, 1)
# How a kind's options are written; all others have no counterpart.
WRITTEN = {
    "pfifo": {"limit": str},
    "bfifo": {"limit": size_text},
    "tbf": {"rate": rate_text, "burst": size_text, "limit": size_text, "latency": time_text},
    "drr": {"quantum": size_text},
    "fq_codel": {
        **{"limit": str, "flows": str, "quantum": size_text, "target": time_text, "interval": time_text},
        **{"ecn": None, "noecn": None, "drop_batch": str},
    },
}
# What would serve instead of an option that has no counterpart.
INSTEAD = {
    "memory_limit": "packets alone are limited, by limit",
    "ce_threshold": "CoDel alone marks; a smaller target marks sooner",
    "peakrate": "a tbf of this rate, with a burst of one packet, above this one limits the peak",
    "minburst": "it belongs to peakrate",
    "mtu": "it belongs to peakrate, or to a rate table, which is not needed",
    "mpu": "packets count with the length that the program gives them: it raises short ones itself",
    "overhead": "packets count with the length that the program gives them: it adds the overhead itself",
    "stab": "packets count with the length that the program gives them: it adds the overhead itself",
    "linklayer": "packets count with the length that the program gives them: for ATM it counts whole cells itself",
}
# Kinds without a counterpart: what is written instead, by its kind, and what differs.
LIKE_FQ_CODEL = {
    "codel": "with one flow it is CoDel over one queue",
    "fq": "it shares among flows; nothing paces each flow, and maxrate has no counterpart",
    "sfq": "it shares among flows as sfq does, and keeps the delay of each low besides",
    "pie": "it keeps the delay low as pie does, and shares among flows besides",
    "fq_pie": "its flows have CoDel in the place of PIE",
    "red": "it keeps the delay low without the thresholds that RED needs",
    "choke": "it takes from the flow with the most bytes, where CHOKe takes at random",
    "hhf": "flows with many bytes wait behind those with few",
    "sfb": "it keeps the delay low as SFB does, and shares among flows besides",
}
# Kinds for which nothing is written.
NOTHING_LIKE = {
    "hfsc": "a tbf over a drr gives rates to classes; no class has a delay of its own",
    "ets": "a prio lets strict bands go first, and a drr in its last band shares among the others by quanta",
    "multiq": "a device for each queue of the hardware does",
    "skbprio": "a prio with a pfifo in each band does, without taking from lower bands what has no room",
    "cbs": "a tbf limits the rate",
    "etf": "no packet waits for a time of its own",
    "taprio": "no schedule opens and closes classes",
}
# The least and the greatest value; of what is not here, 0 and 2^32 - 1.
RANGES = {
    **{"rate": (1, 10**12), "burst": (1, 2**32 - 1), "latency": (0, 10**12), "quantum": (1, 2**32 - 1)},
    **{("fq_codel", "limit"): (1, 2**32 - 1), "flows": (1, 65536), "drop_batch": (1, 65536)},
    **{"target": (0, 10**12), "interval": (1000, 10**12)},
}
# Words that change nothing.
HARMLESS = {"tbf": ("linklayer", "ethernet")}
