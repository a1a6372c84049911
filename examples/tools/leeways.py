#!/usr/bin/env python3
"""Tells the leeways of each round in the text of `topk show`: how far the nodes of the round stand above their borders, together.

    topk show FILE | python3 leeways.py

A line a round: the number of the event, what ended it, and each object with its leeway, the sum over the nodes that take
part of value + factor - border. The factors are those of the Assigns so far, the coordinator's the negative of their sum; its value
of a member is epsilon. Each leeway is then dealt by the weights: a new factor is border - value + share. Where an Assign has
another, a line that begins with `WRONG` follows, and the status is 1; it is 2 where the text is none of `show`.
Names that are words of the text, such as `factors`, are not told apart.
"""
import re
import sys


def pairs(words):
    """Names with numbers, by name."""
    return dict(zip(words[::2], map(int, words[1::2])))


def behind(words, title, end=None):
    """The words between two of them, none where the first is missing."""
    if title not in words:
        return []
    rest = words[words.index(title) + 1:]
    return rest[:rest.index(end)] if end in rest else rest


def share(weights, place, leeway):
    """What a node gets of a leeway: its weight in each whole round of all weights, and of the rest those in its turn."""
    rounds, rest = divmod(leeway, sum(weights))
    before = sum(weights[:place])
    return rounds * weights[place] + min(max(rest - before, 0), weights[place])


class Run:
    """What is known of a run at a line: factors, borders and values that monitors told, members, and both epsilons."""

    def __init__(self, settings):
        words = settings.split()
        self.epsilon = self.next_epsilon = int(words[words.index("epsilon") + 1])
        self.own_weight = int(words[words.index("weight") + 1])
        self.names = behind(words, "objects")
        self.members = self.names[:int(words[1])]
        self.factors = {mon + 1: dict.fromkeys(self.names, 0) for mon in range(int(words[words.index("monitors") + 1]))}
        self.told = {}
        self.is_wide = False

    def own(self, name):
        return -sum(factors[name] for factors in self.factors.values())

    def own_border(self, objects):
        outside = [self.own(name) for name in self.names if name not in objects]
        return max(outside) if outside else min(self.own(name) + self.epsilon for name in self.members)

    def hear(self, mon, frame, marks):
        """Keeps what a monitor tells to a round."""
        deals = frame[0] == "report" and ("short round" in marks or "full round" in marks)
        if frame[0] == "values" or deals:
            values = behind(frame, "of") or behind(frame, "values")
            self.told[mon] = int(behind(frame, "border")[0]), pairs(values)

    def leeways(self, mons, members, borders):
        """Of each object of a round the leeway, by monitors, the members behind it, and the borders, the coordinator's first."""
        for name in self.told[mons[0]][1]:
            own = self.own(name) + (self.epsilon if name in members else 0) - borders[0]
            yield name, own + sum(self.told[mon][1][name] + self.factors[mon][name] - border for mon, border in zip(mons, borders[1:]))

    def wrong(self, assigns, leeways, borders):
        """The factors that are not what the leeways give."""
        weights = [self.own_weight] + [1] * len(assigns)
        for place, (mon, factors) in enumerate(assigns.items(), 1):
            for name, leeway in leeways:
                due = borders[place] - self.told[mon][1][name] + share(weights, place, leeway)
                if factors[name] != due:
                    yield f"WRONG: monitor {mon} gets {name} {factors[name]}, not {due}"

    def deal(self, sent, is_end):
        """The leeways of a round and what is wrong of its factors, which are in force from now on."""
        assigns = {int(words[1]): pairs(behind(words, "factors")) for words in sent}
        members = behind(sent[0], "members", "factors")
        mons, is_wide = list(assigns), self.is_wide and is_end
        borders = [0] * (len(mons) + 1) if is_wide else [self.own_border(self.told[mons[0]][1]), *(self.told[mon][0] for mon in mons)]
        leeways = list(self.leeways(mons, members, borders))
        faults = list(self.wrong(assigns, leeways, borders))
        for mon, factors in assigns.items():
            self.factors[mon].update(factors)
        self.members = members
        return leeways, faults

    def step(self, line):
        """The line of a round and what is wrong of it, where the event dealt one."""
        if line.startswith("retune "):
            self.next_epsilon, self.is_wide = int(behind(line.replace(";", " ").split(), "epsilon")[0]), True
        taken = re.match(r"up (\d+): ", line)
        if not taken:
            return None
        first, *marks = line.split("; ")
        self.hear(int(taken[1]), first[taken.end():].split(), marks)
        self.is_wide = (self.is_wide or any(mark.startswith("wide round") for mark in marks)) and "full round" not in marks
        is_end = "round ends" in marks
        if is_end and self.is_wide:
            self.epsilon = self.next_epsilon
        sent = [mark.split() for mark in marks if re.match(r"to \d+ assign ", mark)]
        return self.deal(sent, is_end) if sent else None


def main():
    lines = sys.stdin.read().split("\n")[:-1]
    if len(lines) < 2 or not lines[0].startswith("k ") or not lines[1].startswith("start"):
        print("leeways: this is no text of topk show", file=sys.stderr)
        return 2
    run, status = Run(lines[0]), 0
    for number, line in enumerate(lines[2:], 1):
        dealt = run.step(line)
        if dealt:
            leeways, faults = dealt
            print(f"event {number}, {line.split(':')[0]}: leeways", *(f"{name} {leeway}" for name, leeway in leeways))
            status = 1 if faults else status
            print(*(f"{fault}\n" for fault in faults), sep="", end="")
    return status


sys.exit(main())
