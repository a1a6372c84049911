"""Hosts as network namespaces of this machine, joined by a bridge. It takes root.

Links are shaped by `tbf`, which holds up what is too much for its rate and drops what is too much for its queue, and lose by a
filter of `bpf` that drops some packets at random. Neither is netem, which this kernel has not.
"""
import fcntl
import subprocess

# Runs at once have networks of their own, by these numbers.
NUMBERS = range(64, 128)
# Loads a random word, takes it modulo 100, and drops the packet where the rest is below a number.
LOSING = "5,32 0 0 4294963256,148 0 0 100,53 1 0 {percent},6 0 0 2,6 0 0 0"


def command(*words):
    return subprocess.run(words, capture_output=True, text=True)


def taken():
    """A number that no other run has, and what keeps it."""
    for number in NUMBERS:
        kept = open(f"/run/topk_nodes_{number}", "w")
        try:
            fcntl.flock(kept, fcntl.LOCK_EX | fcntl.LOCK_NB)
            return number, kept
        except BlockingIOError:
            kept.close()
    raise OSError("no number for a network is free")


class Network:
    """Host 0 is the coordinator's, host J that of monitor J; this script itself is at 254."""

    def __init__(self, count):
        self.hosts = range(count + 1)
        self.number, self.kept = taken()
        self.net, self.bridge = f"10.77.{self.number}", f"tkn{self.number}"
        self.clear()
        self.must("ip", "link", "add", self.bridge, "type", "bridge")
        self.must("ip", "addr", "add", f"{self.net}.254/24", "dev", self.bridge)
        self.must("ip", "link", "set", self.bridge, "up")
        for host in self.hosts:
            self.add(host)

    def must(self, *words):
        done = command(*words)
        if done.returncode:
            self.close()
            raise OSError(f"no namespaces: {' '.join(words)}: {done.stderr.strip()}")

    def name(self, host):
        return f"{self.bridge}h{host}"

    def device(self, host):
        """The end of the link of a host that is at the bridge."""
        return f"tkv{self.number}h{host}"

    def inner(self, host):
        """The end of the link of a host that is in its namespace."""
        return f"tkw{self.number}h{host}"

    def add(self, host):
        name, inner = self.name(host), self.inner(host)
        self.must("ip", "netns", "add", name)
        self.must("ip", "link", "add", self.device(host), "type", "veth", "peer", "name", inner, "netns", name)
        self.must("ip", "link", "set", self.device(host), "master", self.bridge, "up")
        self.must("ip", "-n", name, "addr", "add", f"{self.net}.{host + 1}/24", "dev", inner)
        self.must("ip", "-n", name, "link", "set", inner, "up")
        self.must("ip", "-n", name, "link", "set", "lo", "up")

    def within(self, host):
        return ["ip", "netns", "exec", self.name(host)]

    def link(self, host, state):
        self.must("ip", "link", "set", self.device(host), state)

    def ends(self, host):
        """Both ends of a link: the words in front of tc, and the device behind which what is sent is meant."""
        return (["tc"], self.device(host)), ([*self.within(host), "tc"], self.inner(host))

    def slow(self, host, rate, queue):
        """Gives a link a rate, as in 32kbit, and room for so many bytes that wait, both ways."""
        for tc, device in self.ends(host):
            self.must(*tc, "qdisc", "add", "dev", device, "root", "tbf", "rate", rate, "burst", "2kb", "limit", queue)

    def lossy(self, host, percent):
        """Drops so many packets of a hundred, both ways."""
        for tc, device in self.ends(host):
            self.must(*tc, "qdisc", "add", "dev", device, "clsact")
            self.must(*tc, "filter", "add", "dev", device, "egress", "bpf", "da", "bytecode", LOSING.format(percent=percent))

    def clean(self, host):
        """Undoes both."""
        for tc, device in self.ends(host):
            command(*tc, "qdisc", "del", "dev", device, "root")
            command(*tc, "qdisc", "del", "dev", device, "clsact")

    def clear(self):
        for host in self.hosts:
            command("ip", "netns", "del", self.name(host))
            command("ip", "link", "del", self.device(host))
        command("ip", "link", "del", self.bridge)

    def close(self):
        self.clear()
        self.kept.close()
