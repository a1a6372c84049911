"""Judges what coordinators printed: each set by plain sums over exactly the prefixes of the incarnations that had joined."""
import itertools
import pathlib
import sys

sys.path.insert(0, str(pathlib.Path(__file__).resolve().parents[2] / ".ci"))
import check_examples as plain  # noqa: E402

# An incarnation that ended so many seconds before a line may still be meant by it.
SLACK = 15


class Wrong(Exception):
    """A line that is wrong, and why."""


def places_of(text):
    return tuple(int(place) for place in text.split(","))


def parted(fields):
    """The places of a cut, and the monitors that are missing in it."""
    absent = [field for field in fields if field.endswith(":-")]
    return plain.cut_of([field for field in fields if field not in absent]), {int(field[:-2]) for field in absent}


def told(monitor, places):
    """Whether a monitor printed that it joined somebody at these places."""
    return any(line.startswith("joined ") and places_of(line.split()[3]) == places for _, line in monitor.lines)


def sessions_of(lines):
    """The lines of each session, with their times; the first line tells where the coordinator listens."""
    sessions = []
    for at, (when, line) in enumerate(lines):
        head = line.split()[0]
        if head == "listening" and at == 0:
            continue
        if head == "session":
            sessions.append([])
            if line != f"session {len(sessions)}":
                raise Wrong(f"numbers of sessions: {line}")
        elif not sessions:
            raise Wrong(f"a line before the first session: {line}")
        sessions[-1].append((when, line))
    return sessions


class Judge:
    """Holds all incarnations, and how far each was seen."""

    def __init__(self, names, incarnations, greetings):
        self.names, self.incarnations, self.greetings = names, incarnations, greetings
        self.seen, self.sets, self.finals, self.sessions, self.doubts, self.causes = {}, 0, 0, 0, 0, {}

    def plausible(self, coordinator, when, number, places):
        """The incarnations that a line of a monitor that joined can mean: first those that told it too, then the latest."""
        ones = []
        for one in reversed(self.incarnations[number]):
            within = len(places) == len(one.streams) and all(p <= most for p, most in zip(places, one.whole()))
            alive = one.begun <= when and (one.left is None or when <= one.left + SLACK)
            greeted = one.gate is None or any(
                coordinator.begun <= then <= when and said == (number, places, one.gate) for then, said in self.greetings)
            if within and alive and greeted:
                ones.append(one)
        return sorted(ones, key=lambda one: not told(one, places))

    def joined(self, coordinator, session):
        """For each monitor that joined, by number: the places, and the incarnations that it can be."""
        joined = {}
        for when, line in session:
            fields = line.split()
            if fields[0] == "joined":
                number, places = int(fields[1]), places_of(fields[3])
                ones = self.plausible(coordinator, when, number, places)
                if not ones or number in joined:
                    raise Wrong(f"nobody can have joined so: {line}")
                joined[number] = (places, ones)
        return joined

    def session(self, coordinator, session):
        """Judges one session: some choice of incarnations makes each of its lines right."""
        joined = self.joined(coordinator, session)
        self.sessions += 1
        numbers, fault = list(joined), None
        for chosen in itertools.product(*(ones for _, ones in joined.values())):
            try:
                seen = self.under(coordinator, session, {n: (one, joined[n][0]) for n, one in zip(numbers, chosen)})
            except Wrong as wrong:
                fault = fault or wrong
                continue
            self.seen.update(seen)
            self.doubts += fault is not None
            self.tally(session)
            return
        raise fault

    def tally(self, session):
        """Counts the sets, the finals and the causes of a session that is right."""
        for _, line in session:
            fields = line.split()
            self.sets += fields[0] in ("set", "final")
            self.finals += fields[0] == "final"
            if fields[0] == "ended":
                self.causes[fields[2]] = self.causes.get(fields[2], 0) + 1

    def under(self, coordinator, session, chosen):
        """Judges the sets of a session under one choice of incarnations, and answers how far each was seen."""
        last = {one: places for one, places in chosen.values()}
        for one, places in last.items():
            self.goes_on(one, self.seen.get(one, places), places, "joined")
        missing = {int(line.split()[1]) for _, line in session if line.startswith("missing ")}
        if missing & set(chosen):
            raise Wrong(f"monitors {sorted(missing & set(chosen))} joined and are missing")
        count = 0
        for _, line in session:
            fields = line.split()
            if fields[0] in ("set", "final"):
                count += 1
                self.one_set(coordinator, line, fields, count, chosen, missing, last)
            elif fields[0] not in ("session", "joined", "missing", "ended"):
                raise Wrong(f"an unknown line: {line}")
        return last

    def goes_on(self, one, before, places, line):
        if any(now < then for now, then in zip(places, before)):
            raise Wrong(f"places of monitor {one.number} go back from {before} to {places}: {line}")

    def one_set(self, coordinator, line, fields, count, chosen, missing, last):
        """One set: its number, its places, its sums."""
        middle = fields.index("members")
        cut, absent = parted(fields[3:middle])
        members = fields[middle + 1:]
        if fields[1] != str(count) or fields[2] != "cut" or sorted(cut) != sorted(chosen) or absent != missing:
            raise Wrong(f"number or cut, not set {count} over {sorted(chosen)} without {sorted(missing)}: {line}")
        if sorted([*chosen, *missing]) != sorted(self.incarnations) or fields[0] == "final" and missing:
            raise Wrong(f"a set before all are there, or a final one without {sorted(missing)}: {line}")
        for number, places in cut.items():
            one = chosen[number][0]
            self.goes_on(one, last[one], places, line)
            if len(places) != len(one.streams) or any(p > most for p, most in zip(places, one.whole())):
                raise Wrong(f"places past the records {one.whole()} of monitor {number}: {line}")
            last[one] = tuple(places)
        if fields[0] == "final" and any(cut[n] != chosen[n][0].whole() for n in cut):
            raise Wrong(f"a final set that is not over all: {line}")
        if not plain.is_right(self.names, self.totals(cut, chosen), members, coordinator.k, coordinator.epsilon):
            raise Wrong(f"not within epsilon {coordinator.epsilon}: {line}")

    def totals(self, cut, chosen):
        """The total of each object over these places."""
        totals = [0] * len(self.names)
        for number, places in cut.items():
            for stream, place in zip(chosen[number][0].streams, places):
                totals = [total + by for total, by in zip(totals, stream.sums_at(place))]
        return dict(zip(self.names, totals))

    def coordinator(self, coordinator):
        """Judges all that one coordinator printed."""
        for session in sessions_of(coordinator.lines):
            self.session(coordinator, session)


def last_set(names, coordinator, monitors):
    """The final set once more, by the sums that the examples are judged by."""
    fields = coordinator.lines[-1][1].split()
    if fields[0] != "final":
        raise Wrong(f"no final set: {coordinator.lines[-1][1]}")
    middle = fields.index("members")
    logs = {one.number: [stream.changes() for stream in one.streams] for one in monitors}
    whole = {one.number: one.whole() for one in monitors}
    cut = plain.cut_of(fields[3:middle])
    if cut != whole:
        raise Wrong(f"the final set is not over {whole}: {coordinator.lines[-1][1]}")
    if not plain.is_right(names, plain.totals_at(names, logs, cut), fields[middle + 1:], coordinator.k, coordinator.epsilon):
        raise Wrong(f"the final set is not within epsilon: {coordinator.lines[-1][1]}")
