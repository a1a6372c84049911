"""What came of faults, over one run or some."""
import collections


class Table:
    """What came of each kind of fault, and the sums over all runs."""

    def __init__(self):
        self.rows, self.sums, self.most, self.causes = {}, collections.Counter(), {}, collections.Counter()

    def note(self, kind, outcome, seconds, still):
        """What came of a fault, in how many seconds, and how many more the streams had to be still; None where the next came at once."""
        row = self.rows.setdefault(kind.__name__, [0, 0, 0.0, 0.0, set()])
        row[0] += 1
        row[1] += seconds is None
        row[2], row[3] = max(row[2], seconds or 0.0), max(row[3], still or 0.0)
        row[4].add(outcome)

    def add(self, nodes, judge):
        """Adds a run that was judged."""
        for what in ("sets", "finals", "sessions", "doubts"):
            self.sums[what] += getattr(judge, what)
        self.causes.update(judge.causes)
        self.sums["processes"] += len(nodes.all_processes())
        for process in nodes.all_processes():
            for what, most in process.most.items():
                self.grow((process.words[1], what), most)
        for ones in nodes.incarnations.values():
            for stream in (stream for one in ones for stream in one.streams):
                self.sums["records in files again" if stream.filed else "records"] += len(stream.objects)

    def grow(self, what, most):
        self.most[what] = max(self.most.get(what, 0), most)

    def join(self, other):
        """Adds what another table has."""
        for name, (tried, hurried, seconds, still, outcomes) in other.rows.items():
            row = self.rows.setdefault(name, [0, 0, 0.0, 0.0, set()])
            self.rows[name] = [row[0] + tried, row[1] + hurried, max(row[2], seconds), max(row[3], still), row[4] | outcomes]
        self.sums.update(other.sums)
        self.causes.update(other.causes)
        for what, most in other.most.items():
            self.grow(what, most)

    def show(self):
        print("| fault | tried | the next at once | what came | s at most | still s at most |\n|---|---|---|---|---|---|")
        for name, (tried, hurried, seconds, still, outcomes) in sorted(self.rows.items()):
            print(f"| {name.replace('_', ' ')} | {tried} | {hurried} | {', '.join(sorted(outcomes))} | {seconds:.1f} | {still:.1f} |")
        print(f"faults {sum(row[0] for row in self.rows.values()):,},", ", ".join(f"{what} {count:,}" for what, count in self.sums.items()))
        print("sessions ended by", ", ".join(f"{cause} {count}" for cause, count in self.causes.items()) or "nothing")
        for (kind, what), most in sorted(self.most.items()):
            print(f"{kind} at most: {most:,} {what}")
