"""The kinds of faults, each a function that hurts nodes once and says what came of it."""
import contextlib
import os
import signal
import socket
import struct
import subprocess
import time

import processes
import streams
import world
from world import Failed


def kill_coordinator(nodes):
    nodes.expect_kill(nodes.coordinator)
    time.sleep(nodes.pick.choice((0, 0.3, 2)))
    nodes.start_coordinator()
    return "another goes on"


def kill_monitor(nodes):
    number = nodes.pick.randint(1, nodes.count)
    one = nodes.monitor(number)
    nodes.expect_kill(one)
    one.close()
    time.sleep(nodes.pick.choice((0, 0.3)))
    nodes.start_monitor(number)
    return "begun anew with new streams"


def miss_monitor(nodes):
    """A monitor ends and stays away until a set is told without it; then another begins."""
    number = nodes.pick.randint(1, nodes.count)
    one = nodes.monitor(number)
    nodes.expect_kill(one)
    one.close()
    start = time.monotonic()
    while not any(line.startswith("set ") and f" {number}:- " in line for line in nodes.coordinator.session()):
        if time.monotonic() > start + world.RECOVERY:
            raise Failed(f"no set without monitor {number}: {nodes.coordinator.session()}")
        time.sleep(0.02)
    nodes.start_monitor(number)
    return "sets without it, then with it"


def kill_kept(nodes):
    """A monitor ends, and its connection stands on: its coordinator learns of it by the second greeting."""
    number = nodes.pick.randint(1, nodes.count)
    one = nodes.monitor(number)
    one.gate.keeps = True
    before = nodes.mark()
    nodes.expect_kill(one)
    time.sleep(nodes.pick.choice((0, 0.3)))
    nodes.start_monitor(number)
    nodes.recovered(before)
    one.close()
    return "begun anew with new streams"


def kill_filed(nodes):
    """A monitor ends, and another begins with a file of all records that the first was given."""
    number = nodes.pick.randint(1, nodes.count)
    one = nodes.monitor(number)
    nodes.expect_kill(one)
    one.close()
    nodes.start_monitor(number, past=one.streams)
    return "begun anew with its file"


def twin_monitor(nodes):
    """Two monitors of one number at once, of which the first ends after a while."""
    number = nodes.pick.randint(1, nodes.count)
    one = nodes.monitor(number)
    nodes.start_monitor(number)
    time.sleep(nodes.pick.choice((0.2, 2)))
    nodes.expect_kill(one)
    one.close()
    return "the second goes on"


def second_coordinator(nodes):
    """Another coordinator cannot listen at the same address."""
    second = processes.Process(nodes.coordinator.words, nodes.room, within=nodes.within(0))
    nodes.expect(second, 8, processes.UNLINKED)
    return "status 8"


def stop_process(nodes):
    """Stops a coordinator or a monitor for a while."""
    process = nodes.pick.choice(nodes.running())
    process.child.send_signal(signal.SIGSTOP)
    time.sleep(0.1 * 50 ** nodes.pick.random())
    process.child.send_signal(signal.SIGCONT)
    return "goes on"


def cut_link(nodes):
    nodes.monitor(nodes.pick.randint(1, nodes.count)).gate.cut(hard=nodes.pick.random() < 0.5)
    return "joined again"


def destroy_sockets(nodes):
    """Has the system end the connections of a host, which the other end is told by a reset."""
    host = nodes.pick.randint(0, nodes.count)
    port = (nodes.monitor(host).gate or nodes).address.split(":")[1] if host else nodes.address.split(":")[1]
    done = subprocess.run([*nodes.within(host), "ss", "-K", "-t", "dport" if host else "sport", "=", f":{port}"],
                                    capture_output=True, text=True)
    if done.returncode:
        raise Failed(f"ss -K: {done.stderr}")
    return "joined again"


def half_open(nodes):
    """Loses all that goes one way or both, and closes the connection after a while."""
    gate = nodes.monitor(nodes.pick.randint(1, nodes.count)).gate
    gate.lost = nodes.pick.choice(({"up"}, {"down"}, {"up", "down"}))
    time.sleep(0.1 * 50 ** nodes.pick.random())
    gate.cut(hard=nodes.pick.random() < 0.5)
    gate.lost = set()
    return "joined again"


def gone_silent(nodes):
    """Loses all that goes both ways from now on, and closes nothing: pulses that do not come tell both ends."""
    gate = nodes.monitor(nodes.pick.randint(1, nodes.count)).gate
    gate.lost = {"up", "down"}
    # Within this time a pulse goes each way.
    time.sleep(nodes.silence / 4 + 0.5)
    gate.lost = set()
    return "joined again"


def delay_link(nodes):
    gate = nodes.monitor(nodes.pick.randint(1, nodes.count)).gate
    gate.delay = nodes.pick.choice((0.01, 0.05, 0.3))
    time.sleep(2)
    gate.delay = 0.0
    return "goes on"


def cut_all(nodes):
    """Cuts every connection, again and again in a short time."""
    for _ in range(nodes.pick.randint(2, 6)):
        for one in nodes.monitors():
            one.gate.cut(hard=nodes.pick.random() < 0.5)
        time.sleep(nodes.pick.choice((0.01, 0.1, 0.5)))
    return "joined again"


def greeting(mark=b"TKC1", run=0, monitor=1, count=1):
    return mark + struct.pack(">QIB", run, monitor, count) + bytes(96)


def true_run(nodes):
    """The number by which the processes of this run know one another."""
    value = 0xcbf29ce484222325
    for byte in f"{processes.RUN}\n{''.join(name + chr(10) for name in nodes.names)}".encode():
        value = (value ^ byte) * 0x100000001b3 % 2**64
    return value


def strange_words(nodes):
    """What strangers say: nothing, noise, halves, and greetings of another form, run or monitor."""
    run = true_run(nodes)
    return [b"", nodes.random().randbytes(300), b"GET / HTTP/1.1\r\n\r\n" + bytes(200), greeting(run=run)[:60], greeting(run=run)[:112],
            greeting(run=run ^ 1), greeting(mark=b"TKC2", run=run), greeting(run=run, monitor=0), greeting(run=run, monitor=nodes.count + 1),
            greeting(run=run, count=0), greeting(run=run, count=9), bytes(113), b"\xff" * 4096]


def knock(nodes, said):
    """One stranger, who says this."""
    host, port = nodes.address.split(":")
    guest = socket.create_connection((host, int(port)), timeout=5)
    with contextlib.suppress(OSError):
        guest.sendall(said)
    return guest


def visit(nodes, count):
    """So many strangers, of whom some stay for a second; no session may end by them."""
    before, words, held = nodes.coordinator.sessions(), strange_words(nodes), []
    for _ in range(count):
        guest = knock(nodes, nodes.pick.choice(words))
        if nodes.pick.random() < 0.5:
            guest.close()
        else:
            held.append(guest)
    time.sleep(1)
    for guest in held:
        guest.close()
    if nodes.coordinator.sessions() != before:
        raise Failed(f"a session ended by strangers: {nodes.coordinator.session()}")
    return "nothing changed"


def strangers(nodes):
    return visit(nodes, nodes.pick.randint(1, 8))


def many_strangers(nodes):
    return visit(nodes, nodes.pick.randint(100, 400))


def restart_among_strangers(nodes):
    """A coordinator that begins while dozens of strangers hold its door."""
    nodes.expect_kill(nodes.coordinator)
    nodes.start_coordinator()
    held, words = [], strange_words(nodes)
    for _ in range(60):
        with contextlib.suppress(OSError):
            held.append(knock(nodes, nodes.pick.choice(words)))
    time.sleep(1)
    for guest in held:
        guest.close()
    return "another goes on"


def silent_crowd(nodes):
    """A hundred strangers who say nothing and stay, among whom a monitor comes back."""
    held, before = [knock(nodes, b"") for _ in range(100)], nodes.place()
    shake(nodes, nodes.pick.randint(1, nodes.count))
    nodes.recovered(before)
    for guest in held:
        guest.close()
    return "joined again"


def mute_coordinator(nodes):
    """Closes the pipe behind the coordinator, which has to write once a connection is cut."""
    coordinator = nodes.coordinator
    coordinator.hang_up()
    shake(nodes, nodes.pick.randint(1, nodes.count))
    nodes.expect(coordinator, 6, processes.UNWRITTEN)
    nodes.start_coordinator()
    return "status 6; another goes on"


def mute_monitor(nodes):
    """Closes the pipe behind a monitor, which has to write once its connection is cut."""
    number = nodes.pick.randint(1, nodes.count)
    one = nodes.monitor(number)
    one.hang_up()
    if nodes.network:
        nodes.expect_kill(nodes.coordinator)
        nodes.start_coordinator()
    else:
        one.gate.cut()
    nodes.expect(one, 6, processes.UNWRITTEN)
    one.close()
    nodes.start_monitor(number)
    return "status 6; begun anew"


def full_disk(nodes):
    """A coordinator or a monitor begins anew with a file for its output, and the file system becomes full."""
    host, before, path = nodes.pick.randint(0, nodes.count), nodes.mark(), nodes.disk_file()
    renew(nodes, host, path)
    nodes.recovered(before)
    process = nodes.running()[host]
    nodes.disk.fill(path, nodes.pick.choice((0, 0, 20, 60)))
    for _ in range(world.RECOVERY):
        if process.is_running():
            destroy_sockets(nodes)
            time.sleep(1)
    nodes.expect(process, 6, processes.UNWRITTEN)
    nodes.disk.empty()
    renew(nodes, host)
    return "status 6; begun anew"


def renew(nodes, host, output=None):
    """Ends a coordinator or a monitor where it runs, and begins another."""
    process = nodes.running()[host]
    if process.is_running():
        nodes.expect_kill(process)
    if host:
        process.close()
        nodes.start_monitor(host, output=output)
    else:
        nodes.start_coordinator(output)


def shake(nodes, number):
    """Makes the coordinator lose the connection of a monitor."""
    if nodes.network:
        one = nodes.monitor(number)
        nodes.expect_kill(one)
        one.close()
        nodes.start_monitor(number)
    else:
        nodes.monitor(number).gate.cut()


def bad_line(nodes):
    """Gives a stream a line that is no record: the monitor ends with status 4 and the number of the line."""
    one, at = nodes.pick.choice(nodes.going())
    line, why = nodes.pick.choice(streams.BAD_LINES)
    one.streams[at].bad = line
    ended = one.wait(world.RECOVERY)
    told = f"topk: {one.paths[at]}: line {len(one.streams[at].objects) + 1}: {why}\n"
    if ended != (4, told):
        raise Failed(f"a bad line {line}: {ended}, not {(4, told)}")
    one.close()
    nodes.start_monitor(one.number)
    return "status 4; begun anew"


def end_stream(nodes):
    """Ends a stream before the others, one of which stays."""
    for one, at in nodes.pick.sample(nodes.going(), len(nodes.going()))[1:2]:
        one.streams[at].end()
    return "goes on"


def link_down(nodes):
    """Takes the link of a host down for a while."""
    host = nodes.pick.randint(0, nodes.count)
    nodes.network.link(host, "down")
    time.sleep(min(0.1 * 300 ** nodes.pick.choice((nodes.pick.random(), 1)), nodes.longest))
    nodes.network.link(host, "up")
    return "goes on"


def kill_behind_link(nodes):
    """A monitor ends while its link is down, and begins anew: its coordinator learns of it by the second greeting."""
    number = nodes.pick.randint(1, nodes.count)
    one = nodes.monitor(number)
    nodes.network.link(number, "down")
    time.sleep(nodes.pick.choice((0.1, 1)))
    nodes.expect_kill(one)
    one.close()
    nodes.start_monitor(number)
    time.sleep(nodes.pick.choice((0.1, 1)))
    nodes.network.link(number, "up")
    return "begun anew with new streams"


def kill_apart(nodes):
    """A coordinator ends while the link of a monitor is down, and another begins."""
    number = nodes.pick.randint(1, nodes.count)
    nodes.network.link(number, "down")
    time.sleep(nodes.pick.choice((0.1, 1)))
    nodes.expect_kill(nodes.coordinator)
    nodes.start_coordinator()
    time.sleep(nodes.pick.choice((0.1, 3)))
    nodes.network.link(number, "up")
    return "another goes on"


def slow_link(nodes):
    """A link has a low rate: what is too much is held up for some seconds, and what is too much for its queue is lost."""
    host = nodes.pick.randint(0, nodes.count)
    nodes.network.slow(host, *nodes.pick.choice((("32kbit", "6kb"), ("8kbit", "3kb"), ("256kbit", "8kb"))))
    time.sleep(2 * 5 ** nodes.pick.random())
    nodes.network.clean(host)
    return "goes on"


def lossy_link(nodes):
    """A link loses packets at random, both ways."""
    host = nodes.pick.randint(0, nodes.count)
    nodes.network.lossy(host, nodes.pick.choice((2, 10, 30)))
    time.sleep(2 * 5 ** nodes.pick.random())
    nodes.network.clean(host)
    return "goes on"


def slow_lossy_link(nodes):
    """Both at once."""
    host = nodes.pick.randint(0, nodes.count)
    nodes.network.slow(host, "64kbit", "16kb")
    nodes.network.lossy(host, 5)
    time.sleep(2 * 5 ** nodes.pick.random())
    nodes.network.clean(host)
    return "goes on"


def set_clock(nodes):
    """Sets the clock of this machine back or forth by two seconds, and right again by the time that passed meanwhile."""
    by, apart = nodes.pick.choice((-2, 2)), time.clock_gettime_ns(time.CLOCK_REALTIME) - time.monotonic_ns()
    time.clock_settime_ns(time.CLOCK_REALTIME, time.monotonic_ns() + apart + by * 10**9)
    try:
        time.sleep(2)
    finally:
        time.clock_settime_ns(time.CLOCK_REALTIME, time.monotonic_ns() + apart)
    return "goes on"


# Strangers come when all is well, so that it can be told that they change nothing.
CALM = (strangers, many_strangers, silent_crowd)
ANYWHERE = (kill_coordinator, kill_monitor, miss_monitor, kill_filed, twin_monitor, second_coordinator, stop_process, strangers,
            many_strangers, silent_crowd, restart_among_strangers, mute_coordinator, mute_monitor, bad_line, end_stream)
# Behind these a new session begins.
BREAKING = (kill_coordinator, kill_monitor, miss_monitor, kill_kept, kill_filed, kill_behind_link, kill_apart, twin_monitor,
            restart_among_strangers, mute_coordinator, mute_monitor, full_disk, bad_line, cut_link, destroy_sockets, half_open, gone_silent,
            cut_all)
GATED = (kill_kept, cut_link, half_open, gone_silent, delay_link, cut_all)
HOSTED = (link_down, slow_link, lossy_link, slow_lossy_link, kill_behind_link, kill_apart)
# What only root can do; the clock is set where it is asked for by name alone, since all processes of the machine have the same.
ROOTED = (destroy_sockets, full_disk)


def kinds_of(nodes):
    """What can be tried here."""
    return [*ANYWHERE, *(HOSTED if nodes.network else GATED), *(() if os.geteuid() else ROOTED)]
