"""Streams of records, each written to a pipe by a thread of its own, of which every record is kept."""
import array
import fcntl
import os
import select
import threading
import time

# How long a writer sleeps between two pieces.
TICK = 0.02
# For a bad line: what it is, and what the program tells of it.
BAD_LINES = (("nobody,1", "unknown object"), ("o1,x", "bad number"), ("o1,1,1", "wrong number of fields"))


def unblocked(descriptor):
    fcntl.fcntl(descriptor, fcntl.F_SETFL, fcntl.fcntl(descriptor, fcntl.F_GETFL) | os.O_NONBLOCK)
    return descriptor


class Stream:
    """What one pipe was given: object and amount of each record, from the first on."""

    def __init__(self, names, pick, rate, opened):
        self.names, self.pick, self.rate, self.opened = names, pick, rate, opened
        self.objects, self.amounts = array.array("H"), array.array("h")
        self.ending, self.dropped, self.still, self.bad = threading.Event(), threading.Event(), threading.Event(), None
        # Whether a file gives it, and not a pipe.
        self.filed = False
        self.totals, self.hot, self.due = [0] * len(names), 0, 0.0
        # The place up to which the sums below are taken, by the judge alone.
        self.place, self.sums = 0, [0] * len(names)
        self.thread = threading.Thread(target=self.run, daemon=True)
        self.thread.start()

    def run(self):
        """Writes until the stream shall end, or nobody reads."""
        pipe = self.opened(self.dropped)
        if pipe is None:
            return
        try:
            while not self.ending.is_set() and self.bad is None and not self.dropped.is_set():
                if not self.still.is_set():
                    self.give(pipe, self.piece())
                self.ending.wait(TICK)
            if self.bad is not None:
                self.give(pipe, f"{self.bad}\n".encode())
                self.dropped.wait()
        except BrokenPipeError:
            pass
        finally:
            os.close(pipe)

    def piece(self):
        """The records of one tick."""
        self.due = min(self.due + self.rate * TICK, self.rate)
        count, self.due = int(self.due), self.due % 1
        if self.pick.random() < 2 * TICK:
            self.hot = self.pick.randrange(len(self.names))
        records = [self.record() for _ in range(count)]
        return "".join(f"{self.names[o]},{by}\n" for o, by in records).encode()

    def record(self):
        """A record more: totals stay near to nothing, so that their order changes often, and now and then another object is hot."""
        chosen = self.hot if self.pick.random() < 0.1 else self.pick.randrange(len(self.names))
        by = self.pick.randint(-10, 10) + (3 if chosen == self.hot else 0) - self.totals[chosen] // 20
        self.totals[chosen] += by
        self.objects.append(chosen)
        self.amounts.append(by)
        return chosen, by

    def give(self, pipe, piece):
        """Writes a piece as the reader takes it, unless the reader is gone."""
        poll = select.poll()
        poll.register(pipe, select.POLLOUT)
        while piece and not self.dropped.is_set():
            if poll.poll(100):
                try:
                    piece = piece[os.write(pipe, piece):]
                except BlockingIOError:
                    time.sleep(0.01)

    def end(self):
        self.ending.set()

    def drop(self):
        """Ends the writer, whose reader is gone."""
        self.dropped.set()
        self.ending.set()

    def sums_at(self, place):
        """The sums over so many records; a closing record behind the last one is nothing."""
        place = min(place, len(self.objects))
        if place < self.place:
            self.place, self.sums = 0, [0] * len(self.names)
        for at in range(self.place, place):
            self.sums[self.objects[at]] += self.amounts[at]
        self.place = place
        return self.sums

    def text(self):
        """The lines of all records."""
        return "".join(f"{self.names[o]},{by}\n" for o, by in zip(self.objects, self.amounts))

    def changes(self):
        """All records and the closing one, as the plain sums of the examples take them."""
        return [(self.names[o], by) for o, by in zip(self.objects, self.amounts)] + [(self.names[0], 0)]


def of_file(names, past):
    """A stream of the records of some others, in a file: all of them are there from the start, and it ends behind them."""
    stream = Stream(names, None, 0, lambda dropped: None)
    for one in past:
        one.thread.join()
        stream.objects += one.objects
        stream.amounts += one.amounts
        stream.totals = [total + by for total, by in zip(stream.totals, one.totals)]
    stream.filed = True
    stream.end()
    return stream


def opened_fifo(path):
    """What opens a FIFO once somebody reads it, or gives it up."""
    def opened(dropped):
        while not dropped.is_set():
            try:
                return unblocked(os.open(path, os.O_WRONLY | os.O_NONBLOCK))
            except OSError:
                time.sleep(0.01)
        return None
    return opened
