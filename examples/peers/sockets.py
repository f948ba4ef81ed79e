"""Sockets of a served guest's vsock device: programs of the host that connect to the guest `vsock`, one that it connects to, and peers that
misbehave."""

import os
import random
import re
import select
import socket
import subprocess
import threading
import time

from guest import SECONDS, Guest, listens, until

ECHO, DISCARD, GENERATE = 7, 9, 19
WAITS, COUNTS, PORT = 1 << 63, 1 << 62, 1024
MIB = 1 << 20
OK = re.compile(rb"OK ([0-9]+)\n")
BEGUN = "our number is 3\n"


def part_of(pipe):
    """What comes next of a program's output."""
    return os.read(pipe.fileno(), 100) if select.select([pipe], [], [], SECONDS)[0] else b"nothing in time"


class Connection:
    """A connection to a port of the guest."""

    def __init__(self, path, port, line=None):
        self.stream = socket.socket(socket.AF_UNIX)
        self.stream.settimeout(SECONDS)
        self.stream.connect(path)
        self.stream.sendall(b"CONNECT %d\n" % port if line is None else line)
        self.rest = b""

    def port(self):
        """The port of the host that it is told, or nothing if it is ended."""
        got = b""
        while not got.endswith(b"\n"):
            try:
                more = self.stream.recv(1)
            except ConnectionError:
                more = b""
            if not more:
                return None
            got += more
        return int(OK.fullmatch(got)[1])

    def taken(self, count):
        """So many bytes, or what came before the end."""
        got = bytearray()
        while len(got) < count:
            try:
                more = self.stream.recv(min(65536, count - len(got)))
            except ConnectionError:
                break
            if not more:
                break
            got += more
        return bytes(got)

    def is_ended(self, seconds=SECONDS):
        """Whether it is ended within so long, and nothing comes before."""
        self.stream.settimeout(seconds)
        try:
            return self.stream.recv(1) == b""
        except ConnectionError:
            return True
        except TimeoutError:
            return False

    def is_echoed(self, text):
        self.stream.sendall(text)
        return self.taken(len(text)) == text

    def is_over(self):
        """Whether its other end is closed, also where there is something to read."""
        asked = select.poll()
        asked.register(self.stream, select.POLLHUP)
        return any(event & select.POLLHUP for _, event in asked.poll(0))

    def close(self):
        self.stream.close()


def opened(path, port):
    """A connection that the guest took."""
    made = Connection(path, port)
    assert made.port() is not None, "the guest doesn't take a connection"
    return made


def guest_in(folder, number=WAITS, image="vsock", **more):
    made = Guest(folder, image, number, vsock="v.sock", **more)
    assert made.shows(BEGUN), "the guest doesn't begin"
    assert until(lambda: os.path.exists(f"{folder}/v.sock")), "there is no socket"
    return made


def is_well(path):
    """Whether a new connection is taken, and given back what it sends."""
    made = Connection(path, ECHO)
    good = made.port() is not None and made.is_echoed(b"are you there?")
    made.close()
    return good


def from_the_host(checks, folder):
    """socat connects to the guest, which gives back what comes. No other port is taken."""
    with guest_in(folder, trace="trace") as guest:
        for port, said in (ECHO, b"OK 1073741824\na line\n"), (5, b""):
            words = ["socat", "-t", "60", "-", f"UNIX-CONNECT:{folder}/v.sock"]
            with subprocess.Popen(words, stdin=subprocess.PIPE, stdout=subprocess.PIPE) as client:
                client.stdin.write(b"CONNECT %d\na line\n" % port)
                client.stdin.flush()
                got = b""
                while len(got) < len(said):
                    more = part_of(client.stdout)
                    if not more:
                        break
                    got += more
                checks.same(f"socat to port {port}", said, got)
                client.stdin.close()
                checks.same(f"socat to port {port}: its end", (b"", 0), (client.stdout.read(), client.wait(SECONDS)))
        checks.same("behind socat it is well", True, is_well(f"{folder}/v.sock"))


def to_the_host(checks, folder):
    """The guest connects to socat, which listens at the name with the port behind it. Where nobody listens the guest is refused."""
    os.makedirs(folder)
    name = f"{folder}/guest/v.sock_{PORT}"
    os.makedirs(f"{folder}/guest")
    dialled = f"port {PORT} of the host is dialled\n"
    words = ["socat", "-t", "60", f"UNIX-LISTEN:{name}", "STDIO"]
    with subprocess.Popen(words, stdin=subprocess.PIPE, stdout=subprocess.PIPE) as host:
        assert until(lambda: os.path.exists(name)), "socat doesn't listen"
        with guest_in(f"{folder}/guest", PORT | WAITS, trace="trace") as guest:
            checks.same("what the guest says", b"a guest is here\n", part_of(host.stdout))
            host.stdin.write(b"and a host\n")
            host.stdin.flush()
            checks.same("what it gives back", b"and a host\n", part_of(host.stdout))
            host.stdin.close()
            checks.same("the guest's status", 0, guest.status())
            said = f"{BEGUN}{dialled}the host ends it, behind 11 bytes\n. off\n"
            checks.same("what it prints", said, guest.said())
            checks.same("the replay", said, guest.replayed())
    with Guest(f"{folder}/refused", "vsock", PORT, vsock="v.sock", trace="trace") as guest:
        checks.same("the status of a guest that is refused", 0, guest.status())
        said = f"{BEGUN}{dialled}the host refuses it\n. off\n"
        checks.same("what a guest prints that is refused", said, guest.said())
        checks.same("its replay", said, guest.replayed())


def sixty_four(checks, folder):
    """64 connections at once, and no more; a place that is free again is taken."""
    with guest_in(folder) as guest:
        path = f"{folder}/v.sock"
        held = [Connection(path, ECHO) for _ in range(64)]
        ports = [it.port() for it in held]
        checks.same("64 connections", list(range(1073741824, 1073741824 + 64)), ports)
        checks.same("one more", None, Connection(path, ECHO).port())
        texts = [b"%d " % it * 300 for it in range(64)]
        for it, text in zip(held, texts):
            it.stream.sendall(text)
        checks.same("each is given back its own", texts, [it.taken(len(text)) for it, text in zip(held, texts)])
        held.pop(20).close()
        checks.same("a free place is taken", True, until(lambda: Connection(path, ECHO).port() is not None))
        checks.same("64 connections: it is served", True, guest.is_served())
        for it in held:
            it.close()
        checks.same("behind 64 connections it is well", True, until(lambda: is_well(path)))


def generated(count):
    """The bytes that the guest sends without an end."""
    period = bytes((at * 7 + (at >> 8)) & 255 for at in range(4096))
    return (period * (count // 4096 + 1))[:count]


def a_mebibyte(checks, folder):
    """1 MiB each way, byte for byte: to the guest and back, from the guest alone, and to it alone. Once more by tables of descriptors and the
    indexes of events."""
    for image in "vsock", "vsock_indirect":
        with guest_in(f"{folder}/{image}", image=image) as guest:
            moves_a_mebibyte(checks, guest, f"{folder}/{image}/v.sock")


def moves_a_mebibyte(checks, guest, path):
    sent = random.Random(7).randbytes(MIB)
    echo = opened(path, ECHO)
    writer = threading.Thread(target=echo.stream.sendall, args=(sent,))
    writer.start()
    checks.same("1 MiB to the guest and back", True, echo.taken(MIB) == sent)
    writer.join()
    echo.close()
    made = opened(path, GENERATE)
    checks.same("1 MiB of the guest", True, made.taken(MIB) == generated(MIB))
    made.close()
    drops = opened(path, DISCARD)
    drops.stream.sendall(sent)
    checks.same("1 MiB to the guest", [], select.select([drops.stream], [], [], 0)[0])
    drops.close()
    checks.same("behind 3 MiB it is well", True, is_well(path))
    checks.same("behind 3 MiB it is served", True, guest.is_served())


def misbehave(checks, folder):
    """Peers that hurt only their own connections."""
    with guest_in(folder) as guest:
        path = f"{folder}/v.sock"
        other = opened(path, ECHO)

        def good(name):
            checks.same(f"{name}: another connection", True, other.is_echoed(b"and " * 50))
            checks.same(f"{name}: a new one", True, is_well(path))
            checks.same(f"{name}: it is served", True, guest.is_served())

        for line in b"CONNECT 7 \n", b"CONNECT 7\r\n", b"CONNECT\n", b"CONNECT x\n", b"\n", b"connect 7\n", b"CONNECT 4294967296\n", b"a" * 32:
            checks.same(f"the line {line}", True, Connection(path, 0, line).is_ended())
        good("lines")
        checks.same("a line of many zeros", True, Connection(path, 0, b"CONNECT " + b"0" * 22 + b"7\n").port() is not None)
        endless = Connection(path, 0, b"CONNECT 00000000000000000000000")
        good("a line without an end")
        checks.same("a line without an end that stays", False, endless.is_ended(0.5))
        endless.stream.sendall(b"0" * 10)
        checks.same("a line that is too long", True, endless.is_ended())
        silent = Connection(path, 0, b"")
        good("a silent one")
        silent.close()
        unread = opened(path, GENERATE)
        good("one that doesn't read")
        checks.same("it is ended", True, until(unread.is_over))
        good("one that didn't read")
        got = unread.taken(64 * MIB)
        checks.same("it gets a beginning", True, 0 < len(got) < MIB and got == generated(len(got)))
        flooding = [opened(path, DISCARD) for _ in range(8)]
        writers = [threading.Thread(target=it.stream.sendall, args=(bytes(MIB // 16),)) for it in flooding]
        for it in writers:
            it.start()
        good("floods")
        for it in writers:
            it.join()
        for it in flooding:
            it.close()
        half = opened(path, ECHO)
        half.stream.sendall(b"the last word")
        half.stream.shutdown(socket.SHUT_WR)
        checks.same("one that closes half is ended", True, b"the last word".startswith(half.taken(100)))
        good("one that closes half")
        for _ in range(200):
            socket_ = socket.socket(socket.AF_UNIX)
            socket_.connect(path)
            socket_.close()
        good("200 that leave at once")
        checks.same("200 that are taken", 200, sum(is_well(path) for _ in range(200)))
        good("200 that are taken")


def saved(checks, folder):
    """A snapshot ends the connections, in the machine that goes on and in another process."""
    with guest_in(folder) as guest:
        path, gone = f"{folder}/v.sock", "all connections are gone\n" + BEGUN
        held = opened(path, ECHO)
        checks.same("before a snapshot", True, held.is_echoed(b"before"))
        checks.same("a snapshot", (204, 204), guest.save())
        checks.same("it goes on", 204, guest.resume())
        checks.same("the guest is told", True, guest.shows(BEGUN + gone))
        held.stream.sendall(b"behind")
        checks.same("a connection of before gets nothing", [], select.select([held.stream], [], [], 0.5)[0])
        checks.same("a new one", True, is_well(path))
        held.close()
        guest.move()
        checks.same("the guest in another process is told", True, guest.shows(gone))
        checks.same("its socket", True, until(lambda: os.path.exists(path)))
        checks.same("a connection to it", True, is_well(path))


def replayed(checks, folder):
    """The replay of a trace writes the snapshot that the served machine wrote, of a guest with connections in many states."""
    with guest_in(folder, trace="trace") as guest:
        path = f"{folder}/v.sock"
        held = [opened(path, it) for it in (ECHO, DISCARD, GENERATE, ECHO)]
        held += [Connection(path, 0, b"CONNECT 7"), Connection(path, 0, b""), Connection(path, 5)]
        checks.same("before a snapshot", True, held[0].is_echoed(b"a text of many words " * 500) and held[2].taken(20000) == generated(20000))
        held[1].stream.sendall(bytes(20000))
        held[3].close()
        checks.same("connections: the replay's snapshot", True, guest.is_replayed())
        for it in held:
            it.close()


def beside_a_hart(checks, folder):
    """A second hart of the guest counts without an end, in a thread of its own."""
    with guest_in(folder, WAITS | COUNTS, harts=2) as guest:
        path = f"{folder}/v.sock"
        sent = random.Random(8).randbytes(MIB // 16)
        echo = opened(path, ECHO)
        writer = threading.Thread(target=echo.stream.sendall, args=(sent,))
        writer.start()
        checks.same("64 KiB beside a hart that counts", True, echo.taken(len(sent)) == sent)
        writer.join()
        held = [Connection(path, ECHO) for _ in range(63)]
        checks.same("64 connections beside it", 63, sum(it.port() is not None for it in held))
        checks.same("beside it: it is served", True, guest.is_served())
        for it in [echo, *held]:
            it.close()
        checks.same("behind them it is well", True, until(lambda: is_well(path)))
    os.makedirs(f"{folder}/dials")
    with socket.socket(socket.AF_UNIX) as door:
        door.bind(f"{folder}/dials/v.sock_{PORT}")
        door.listen()
        with guest_in(f"{folder}/dials", PORT | WAITS | COUNTS, harts=2, trace="trace") as guest:
            stream, _ = door.accept()
            stream.settimeout(SECONDS)
            checks.same("a guest of two harts dials", b"a guest is here\n", stream.recv(100))
            stream.close()
            checks.same("and its status", 0, guest.status())
            checks.same("and its replay", guest.said(), guest.replayed())


def idle(checks, folder):
    """A process whose guest waits sleeps, with connections on which nothing comes, and hears the next byte."""
    with guest_in(folder) as guest:
        path = f"{folder}/v.sock"
        held = [opened(path, ECHO) for _ in range(40)]
        checks.same("40 connections", True, all(it.is_echoed(b"here") for it in held))
        checks.same("on which nothing comes", True, guest.sleeps())
        checks.same("and then something does", True, all(it.is_echoed(b"here still") for it in held))
        for it in held:
            it.close()


def contested(checks, folder):
    """The socket can't be made while another machine has it, where another file is, and where there is no folder; and is made once it can be."""
    os.makedirs(folder)
    path = f"{folder}/v.sock"
    with Guest(f"{folder}/one", "vsock", WAITS, vsock=path) as one, Guest(f"{folder}/two", "vsock", WAITS, vsock=path) as two:
        checks.same("two machines with one socket run", True, one.shows(BEGUN) and two.shows(BEGUN) and one.is_served() and two.is_served())
        held = opened(path, ECHO)
        checks.same("the first has it", True, held.is_echoed(b"is it you?"))
        one.stop()
        checks.same("its end", True, held.is_ended())
        checks.same("the other one has it then", True, until(lambda: listens(path)) and is_well(path))
    os.remove(path)
    os.mkdir(path)
    with Guest(f"{folder}/three", "vsock", WAITS, vsock=path) as guest:
        checks.same("a folder of that name: it runs", True, guest.shows(BEGUN) and guest.is_served())
        os.rmdir(path)
        checks.same("a folder that went away", True, until(lambda: listens(path)) and is_well(path))
    with Guest(f"{folder}/four", "vsock", WAITS, vsock=f"{folder}/later/v.sock") as guest:
        checks.same("no folder: it runs", True, guest.shows(BEGUN) and guest.is_served())
        os.mkdir(f"{folder}/later")
        checks.same("a folder that comes", True, until(lambda: listens(f"{folder}/later/v.sock")) and is_well(f"{folder}/later/v.sock"))


def full_listener(checks, folder):
    """A program of the host listens, and takes nobody: the guest is refused, or connected and never taken, and is served."""
    os.makedirs(f"{folder}/guest")
    with socket.socket(socket.AF_UNIX) as door:
        door.bind(f"{folder}/guest/v.sock_{PORT}")
        door.listen(0)
        with socket.socket(socket.AF_UNIX) as first:
            first.connect(f"{folder}/guest/v.sock_{PORT}")
            with Guest(f"{folder}/guest", "vsock", PORT, vsock="v.sock") as guest:
                checks.same("a listener that has no room", 0, guest.status())
                checks.same("refuses the guest", True, guest.said().endswith("the host refuses it\n. off\n"))


def few_descriptors(checks, folder):
    """A process with few descriptors takes who connects once it has one."""
    with guest_in(folder, descriptors=24) as guest:
        path = f"{folder}/v.sock"
        held = [Connection(path, ECHO) for _ in range(30)]
        until(lambda: len(select.select([it.stream for it in held], [], [], 0)[0]) >= 5)
        time.sleep(1)
        come = select.select([it.stream for it in held], [], [], 0)[0]
        taken = [it for it in held if it.stream in come and it.port() is not None]
        checks.same("some are taken, and not all", True, 5 <= len(taken) < 30)
        checks.same("each of these is well", True, all(it.is_echoed(b"here") for it in taken))
        late = next(it for it in held if it not in taken)
        for it in taken:
            it.close()
        checks.same("the next is taken then", True, late.port() is not None and late.is_echoed(b"at last"))
        for it in held:
            it.close()
        checks.same("it is served then", True, until(guest.is_answered))


PARTS = (from_the_host, to_the_host, sixty_four, a_mebibyte, misbehave, saved, replayed, beside_a_hart, idle, contested, full_listener, few_descriptors)
