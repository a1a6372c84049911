"""Small proxies between a monitor and its coordinator, which cut, hold up and lose what they carry."""
import contextlib
import socket
import struct
import threading
import time

GREETING = 113


def counts_in(greeting):
    """The monitor of a greeting, and how many records each of its streams had given."""
    monitor, count = struct.unpack(">IB", greeting[12:17])
    return monitor, tuple(struct.unpack(">Q", greeting[17 + 12 * at:25 + 12 * at])[0] for at in range(min(count, 8)))


class Link:
    """One connection that is carried: a thread for each way."""

    def __init__(self, gate, near, far):
        self.gate, self.near, self.far, self.ways, self.lost, self.hard = gate, near, far, 2, set(), False
        for way, source, target in (("up", near, far), ("down", far, near)):
            threading.Thread(target=self.carry, args=(way, source, target), daemon=True).start()

    def carry(self, way, source, target):
        """Carries one way until either end is gone."""
        begin = b""
        with contextlib.suppress(OSError, ValueError):
            while True:
                piece = source.recv(65536)
                if not piece:
                    break
                if self.gate.delay:
                    time.sleep(self.gate.delay)
                if way in self.gate.lost | self.lost:
                    # Behind what is lost nothing comes any more.
                    self.lost.add(way)
                    continue
                if way == "up" and len(begin) < GREETING:
                    begin = self.noted(begin, piece)
                target.sendall(piece)
        if not self.gate.keeps:
            self.close()
        self.ways -= 1
        if not self.ways and not self.gate.keeps:
            self.near.close()
            self.far.close()

    def noted(self, begin, piece):
        """Notes a greeting before its last byte is carried."""
        begin += piece
        if len(begin) >= GREETING:
            self.gate.note(*counts_in(begin[:GREETING]), self.gate)
        return begin

    def close(self, hard=False):
        """Closes both ends, or has them reset."""
        self.hard = self.hard or hard
        for end in (self.near, self.far):
            with contextlib.suppress(OSError):
                if self.hard:
                    end.setsockopt(socket.SOL_SOCKET, socket.SO_LINGER, struct.pack("ii", 1, 0))
                end.shutdown(socket.SHUT_RD if self.hard else socket.SHUT_RDWR)


class Gate:
    """Where one monitor dials, and what becomes of its connections."""

    def __init__(self, target, note):
        self.target, self.note, self.links, self.delay, self.lost = target, note, [], 0.0, set()
        # Whether an end is kept whose other end is gone.
        self.open, self.keeps = True, False
        self.door = socket.create_server(("127.0.0.1", 0))
        self.address = "127.0.0.1:%d" % self.door.getsockname()[1]
        threading.Thread(target=self.run, daemon=True).start()

    def run(self):
        with contextlib.suppress(OSError):
            while self.open:
                near, _ = self.door.accept()
                self.lead(near)

    def lead(self, near):
        """Leads a caller to the coordinator, or closes where nobody answers there."""
        host, port = self.target.split(":")
        try:
            far = socket.create_connection((host, int(port)), timeout=5)
        except OSError:
            near.close()
            return
        for end in (near, far):
            end.settimeout(None)
            end.setsockopt(socket.IPPROTO_TCP, socket.TCP_NODELAY, 1)
        self.links = [link for link in self.links if link.ways] + [Link(self, near, far)]

    def cut(self, hard=False):
        for link in self.links:
            link.close(hard)

    def close(self):
        self.open = self.keeps = False
        with contextlib.suppress(OSError):
            self.door.shutdown(socket.SHUT_RDWR)
        self.door.close()
        self.cut()
