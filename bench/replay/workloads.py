"""The logs that a replay is measured on: made anew, and the same on every machine, from a seed for each workload.

Each workload is a catalogue, the changes of each log, k and epsilon. All stay below the limits of docs/formats.md.
"""
import itertools
import os
import random
from dataclasses import dataclass, field


@dataclass
class Workload:
    """Names of objects, lines `NAME,CHANGE` for each (monitor, feeder), the settings of its replay and its order, if any."""
    name: str
    about: str
    k: int
    epsilon: int
    objects: list
    logs: dict = field(default_factory=dict)
    order: list = field(default_factory=list)

    @property
    def updates(self):
        return sum(map(len, self.logs.values()))

    @property
    def monitors(self):
        return max(monitor for monitor, _ in self.logs)

    def write(self, folder):
        """Writes the catalogue, the logs and the order into the folder, and gives the words of `topk replay`."""
        words = ["--k", str(self.k), "--epsilon", str(self.epsilon), "--objects", "objects.csv"]
        files = {"objects.csv": self.objects}
        if self.order:
            files["order.txt"] = self.order
            words += ["--order", "order.txt"]
        for (monitor, feeder), lines in sorted(self.logs.items()):
            file = f"monitor_{monitor}_{feeder}.csv"
            files[file] = lines
            words.append(f"{monitor}={file}")
        for file, lines in files.items():
            with open(os.path.join(folder, file), "w") as out:
                out.writelines(line + "\n" for line in lines)
        return words


def popular(draw, names, exponent, count):
    """`count` of the names, drawn by Zipf's law: the one at rank r as often as 1 / r ** exponent."""
    weights = itertools.accumulate(rank ** -exponent for rank in range(1, len(names) + 1))
    return draw.choices(names, cum_weights=list(weights), k=count)


def pages():
    """Some pages, a few front ends: what a first try looks like."""
    draw = random.Random(11)
    work = Workload("pages", "40 pages at 4 front ends with 2 workers each", 10, 20, [f"/page/{n}" for n in range(1, 41)])
    for monitor, feeder in itertools.product(range(1, 5), (1, 2)):
        hits = popular(draw, work.objects, 0.5, 625)
        work.logs[monitor, feeder] = [f"{page},{draw.randint(1, 5)}" for page in hits]
    return work


def web():
    """Hits of a site of 10,000 pages at 16 front ends."""
    draw = random.Random(12)
    work = Workload("web", "hits of 10,000 pages at 16 front ends", 20, 1_000, [f"/{draw.randrange(2**40):010x}.html" for _ in range(10_000)])
    work.logs = {(monitor, 1): [] for monitor in range(1, 17)}
    logs = list(work.logs.values())
    for page in popular(draw, work.objects, 1.1, 1_000_000):
        draw.choice(logs).append(page + ",1")
    return work


def router():
    """Bytes to 65,536 addresses at 16 routers with 4 line cards each."""
    draw = random.Random(13)
    addresses = [f"10.{n >> 16}.{n >> 8 & 255}.{n & 255}" for n in range(65_536)]
    work = Workload("router", "bytes to 65,536 addresses at 16 routers with 4 cards each", 100, 1_000_000, addresses)
    ranked = draw.sample(addresses, len(addresses))
    for card in itertools.product(range(1, 17), range(1, 5)):
        sizes = draw.choices((40, 64, 576, 1_500), weights=(4, 2, 1, 3), k=62_500)
        work.logs[card] = [f"{address},{size}" for address, size in zip(popular(draw, ranked, 1.0, 62_500), sizes)]
    return work


def cache():
    """Keys of 64 caches that forget a hit after 10,000 further ones."""
    draw = random.Random(14)
    work = Workload("cache", "1,000 keys at 64 caches, each hit withdrawn 10,000 hits later", 10, 0, [f"key:{n}" for n in range(1_000)])
    for monitor in range(1, 65):
        hits = popular(draw, work.objects, 1.2, 20_625)
        lines = [key + ",1" for key in hits[:10_000]]
        for old, new in zip(hits, hits[10_000:]):
            lines += [new + ",1", old + ",-1"]
        work.logs[monitor, 1] = lines
    return work


def shift():
    """What is popular changes every 50,000 updates."""
    draw = random.Random(15)
    work = Workload("shift", "1,000 items at 8 monitors, others popular every 50,000 updates", 10, 100, [f"item-{n}" for n in range(1_000)])
    work.logs = {(monitor, 1): [] for monitor in range(1, 9)}
    logs = itertools.cycle(work.logs.values())
    for _ in range(10):
        for item in popular(draw, draw.sample(work.objects, 1_000), 1.0, 50_000):
            next(logs).append(item + ",1")
    return work


def ties():
    """No user's input: equal objects and epsilon 0, so rounds all the time."""
    draw = random.Random(16)
    work = Workload("ties", "200 equal objects at 8 monitors, epsilon 0: rounds all the time", 10, 0, [f"t{n}" for n in range(200)])
    for monitor in range(1, 9):
        work.logs[monitor, 1] = [f"{draw.choice(work.objects)},{draw.randint(-2, 3)}" for _ in range(12_500)]
    return work


def rounds():
    """Rounds all the time as in ties, at as many monitors as there can be."""
    draw = random.Random(17)
    work = Workload("rounds", "1,000 equal objects at 64 monitors, epsilon 100: many rounds", 10, 100, [f"r{n}" for n in range(1_000)])
    for monitor in range(1, 65):
        work.logs[monitor, 1] = [f"{draw.choice(work.objects)},{draw.randint(-2, 3)}" for _ in range(3_000)]
    return work


def thousand():
    """A thousand members."""
    draw = random.Random(18)
    work = Workload("thousand", "k 1,000 of 10,000 items at 16 monitors", 1_000, 300, [f"item-{n}" for n in range(10_000)])
    work.logs = {(monitor, 1): [] for monitor in range(1, 17)}
    logs = list(work.logs.values())
    for item in popular(draw, draw.sample(work.objects, 10_000), 0.5, 500_000):
        draw.choice(logs).append(item + ",1")
    return work


def retunes():
    """Rounds over all objects at all monitors: each retune opens one, and the order carries its frames."""
    draw = random.Random(19)
    work = Workload("retunes", "8 retunes of 16,384 objects at 64 monitors", 10, 1_000, [f"o{n}" for n in range(16_384)])
    for monitor in range(1, 65):
        work.logs[monitor, 1] = [f"{item},{draw.randint(1, 9)}" for item in popular(draw, work.objects, 1.0, 1_000)]
    rounds = [f"{leg} {monitor}" for leg in ("down", "up") * 2 for monitor in range(1, 65)]
    for turn in range(8):
        work.order += [f"retune 10 {1_001 - turn % 2}", *rounds]
    return work


ALL = [pages, web, router, cache, shift, ties, rounds, thousand, retunes]
