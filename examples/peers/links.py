"""Links of a served guest: what is at their other end is passt, QEMU, a second monitor, and peers that misbehave."""

import os
import shutil
import socket
import struct
import subprocess
import sys
import time

from guest import SECONDS, TOP, Guest, Helper, until
from machine import EVENTS, TABLES

FRAMES = f"{TOP}/guests/frames"
TEXT = "a text of the host\nand its second line\n"
STAYS, WAITS, RECEIVES = 0, 1 << 63, 1 << 62
ROUTER_MAC = bytes.fromhex("020000000007")
# A network of its own for passt: an interface whose router is this machine, where also nobody's pings are answered.
NETWORK = """ip link set lo up && ip link add eth0 type veth peer name eth1 && ip link set eth1 up && ip addr add 192.0.2.2/24 dev eth0 &&
ip link set eth0 up && ip route add default via 192.0.2.1 && ip addr add 192.0.2.1/32 dev lo &&
echo 0 4294967294 >/proc/sys/net/ipv4/ping_group_range || exit 1
"""


def free_port():
    with socket.socket(socket.AF_INET, socket.SOCK_DGRAM) as found:
        found.bind(("127.0.0.1", 0))
        return found.getsockname()[1]


def text_server(folder, port):
    """The words of a server that answers each datagram with the text."""
    with open(f"{folder}/text", "w", encoding="ascii") as file:
        file.write(TEXT)
    return f"socat UDP4-RECVFROM:{port},bind=127.0.0.1,fork SYSTEM:'head -n 1 >/dev/null; cat {folder}/text'"


def has(*names):
    """Whether these programs are on the path."""
    missing = [it for it in names if not shutil.which(it)]
    if missing:
        print(f"examples/peers/check: {' and '.join(missing)} isn't on the path", file=sys.stderr)
    return not missing


def fetches(checks, guest, name, own, router, mac):
    """The guest `lease` gets an address, pings its router, and has a text from it; so does the replay."""
    checks.same(f"{name}: its status", 0, guest.status())
    said = f"we are {own}\nthe router is {router}\nthe router's address is {mac}\nit answers a ping\n{TEXT}. off\n"
    checks.same(f"{name}: what the guest prints", said, guest.said())
    checks.same(f"{name}: the replay", said, guest.replayed())


def behind_qemu(checks, folder):
    """QEMU without a machine: the network for users of it, which has a server of DHCP, at the other end of its stream."""
    if not has("qemu-system-riscv64", "socat"):
        return
    os.makedirs(folder)
    port = free_port()
    words = ["qemu-system-riscv64", "-M", "none", "-nographic", "-monitor", "none", "-serial", "none", "-netdev", "user,id=user"]
    words += ["-netdev", f"stream,id=stream,server=on,addr.type=unix,addr.path={folder}/link"]
    for end in "user", "stream":
        words += ["-netdev", f"hubport,hubid=0,netdev={end},id={end}-port"]
    with Helper(["bash", "-c", "exec " + text_server(folder, port)]), Helper(words, f"{folder}/link", stderr=subprocess.DEVNULL):
        for image in "lease", "lease_indirect":
            for name, number in ("polls", port), ("waits", port | WAITS):
                with Guest(f"{folder}/{image}_{name}", image, number, link=f"{folder}/link", trace="trace") as guest:
                    fetches(checks, guest, f"QEMU's network, {image}, which {name}", "10.0.2.15", "10.0.2.2", "52:55:0a:00:02:02")


def behind_passt(checks, folder):
    """passt, in a network of its own."""
    if not has("passt", "socat", "unshare", "ip"):
        return
    if os.geteuid() != 0:
        print("examples/peers/check: passt isn't tried: only root may make a network of its own", file=sys.stderr)
        return
    os.makedirs(folder)
    os.chmod(folder, 0o777)
    port = free_port()
    passt = f"ip -o link show eth0 | sed 's/.*ether \\([0-9a-f:]*\\).*/\\1/' >{folder}/mac; exec passt -4 -f -q -s {folder}/link"
    words = ["unshare", "-n", "bash", "-c", f"{NETWORK}{text_server(folder, port)} &\ntrap 'kill %1' EXIT\n({passt})"]
    with Helper(words, f"{folder}/link", stderr=subprocess.DEVNULL, start_new_session=True) as helper:
        with open(f"{folder}/mac", encoding="ascii") as file:
            mac = file.read().strip()
        with Guest(f"{folder}/guest", "lease", port, link=f"{folder}/link", trace="trace") as guest:
            fetches(checks, guest, "passt", "192.0.2.2", "192.0.2.1", mac)
        os.killpg(helper.process.pid, 15)


ASKED = "a frame of 42 bytes: it asks for us, from 10.0.0.1\nit is answered\n"


def without_strangers(text):
    """What the guest `net` prints, less the frames that aren't for it, and those that are asked again."""
    kept = "".join(it + "\n" for it in text.splitlines() if "it isn't for us" not in it)
    while ASKED * 2 in kept:
        kept = kept.replace(ASKED * 2, ASKED)
    return kept


def pinged(mac):
    """What the guest `net` prints where `lease` pings it."""
    begin = f"all are told that our address is {mac}\n"
    return begin + ASKED + "a frame of 98 bytes: it is a ping from 10.0.0.1\nit is answered\n"


def pings(mac):
    """What the guest `lease` prints where nobody gives it an address, and `net` answers it."""
    return f"nobody gives us an address\nthe router's address is {mac}\nit answers a ping\n"


def beside_qemu(checks, folder):
    """A guest of QEMU's machine, whose link is the same stream: ours pings it."""
    if not has("qemu-system-riscv64"):
        return
    os.makedirs(folder)
    words = ["qemu-system-riscv64", "-M", "virt", "-m", "128M", "-nographic", "-bios", "default", "-kernel", f"{TOP}/guests/images/net"]
    words += ["-global", "virtio-mmio.force-legacy=false", "-netdev", f"stream,id=link,server=on,addr.type=unix,addr.path={folder}/link"]
    words += ["-device", "virtio-net-device,netdev=link,mac=02:00:00:00:00:07,bus=virtio-mmio-bus.0"]
    with Helper(words, f"{folder}/link", stdout=subprocess.PIPE, stderr=subprocess.DEVNULL) as qemu:
        with Guest(f"{folder}/guest", "lease", STAYS, link=f"{folder}/link") as guest:
            checks.same("beside a guest of QEMU", True, guest.shows("it answers a ping\n"))
            checks.same("beside a guest of QEMU: what ours prints", pings("02:00:00:00:00:07"), guest.said())
        text = qemu.process.communicate(timeout=SECONDS)[0].decode().replace("\r", "")
        theirs = text[text.index("Boot HART MEDELEG"):].partition("\n")[2]
        checks.same("beside a guest of QEMU: what it prints", pinged("02:00:00:00:00:07"), without_strangers(theirs))


def beside_another(checks, folder):
    """Two monitors. Both connect, so a relay stands between them."""
    if not has("socat"):
        return
    os.makedirs(folder)
    words = ["socat", f"UNIX-LISTEN:{folder}/a", f"UNIX-LISTEN:{folder}/b"]
    with Helper(words, f"{folder}/a"), Guest(f"{folder}/one", "net", None, link=f"{folder}/a") as one:
        with Guest(f"{folder}/two", "lease", STAYS | WAITS, link=f"{folder}/b") as two:
            checks.same("a second monitor: its status", 0, one.status())
            checks.same("a second monitor: it is answered", True, two.shows("it answers a ping\n"))
            checks.same("a second monitor: what the first prints", pings("02:00:00:00:00:08"), two.said())
            checks.same("a second monitor: what it prints", pinged("02:00:00:00:00:08") + ". off\n", without_strangers(one.said()))


def limited(name):
    """400 frames a second, of which 40 may come at once."""
    return f',"{name}_rate_limiter":{{"ops":{{"size":40,"refill_time":100}}}}'


def told(frame):
    """A frame as it stands in the stream."""
    return struct.pack(">I", len(frame)) + frame


class Peer:
    """The other end of a link: a router at 10.0.0.2, for the guest `lease` that has 10.0.0.1."""

    def __init__(self, path):
        self.path, self.stream = path, None
        self.door = socket.socket(socket.AF_UNIX)
        self.door.settimeout(SECONDS)
        self.door.bind(path)
        self.door.listen()

    def accept(self):
        self.stream, _ = self.door.accept()
        self.stream.settimeout(SECONDS)

    def leave(self):
        self.stream.close()
        self.stream = None

    def close(self):
        self.door.close()
        if self.stream:
            self.stream.close()

    def taken(self, count):
        got = b""
        while len(got) < count:
            more = self.stream.recv(count - len(got))
            if not more:
                raise ConnectionError("the stream ends")
            got += more
        return got

    def frame(self):
        (count,) = struct.unpack(">I", self.taken(4))
        return self.taken(count)

    def ask(self):
        """Asks for the guest's address."""
        ends = ROUTER_MAC + bytes((10, 0, 0, 2)) + bytes(6) + bytes((10, 0, 0, 1))
        return b"\xff" * 6 + ROUTER_MAC + struct.pack(">HHHBBH", 0x0806, 1, 0x0800, 6, 4, 1) + ends

    def is_answered(self, seconds=SECONDS):
        """Waits for the guest's answer to that, and takes all that it sends before."""
        self.stream.settimeout(seconds)
        try:
            while True:
                got = self.frame()
                if got[12:14] == b"\x08\x06" and got[20:22] == b"\0\2" and got[28:32] == bytes((10, 0, 0, 1)):
                    return True
        except TimeoutError:
            return False
        finally:
            self.stream.settimeout(SECONDS)

    def begin(self):
        """Answers what the guest asks at its begin, up to its ping."""
        while True:
            got = self.frame()
            if got[12:14] == b"\x08\x06" and got[20:22] == b"\0\1":
                ends = ROUTER_MAC + got[38:42] + got[22:32]
                self.stream.sendall(told(got[6:12] + ROUTER_MAC + got[12:20] + b"\0\2" + ends))
            elif got[12:14] == b"\x08\0" and got[23] == 1:
                (total,) = struct.unpack(">H", got[36:38])
                total += 0x0800
                pong = b"\0" + got[35:36] + struct.pack(">H", (total & 0xFFFF) + (total >> 16)) + got[38:]
                self.stream.sendall(told(got[6:12] + ROUTER_MAC + got[12:26] + got[30:34] + got[26:30] + pong))
                return


def misbehaves(checks, folder):
    """A peer that is absent, comes, sends what is no frame, goes away inside a frame, and comes back."""
    os.makedirs(folder)
    with Guest(f"{folder}/guest", "lease", STAYS | WAITS, link=f"{folder}/link") as guest:
        checks.same("no peer: the guest goes on", True, guest.shows("nobody gives us an address\n"))
        checks.same("no peer: it is served", True, guest.is_served())
        peer = Peer(f"{folder}/link")
        try:
            peer.accept()
            peer.begin()
            checks.same("a peer that comes", True, guest.shows("it answers a ping\n"))
            checks.same("a peer that is silent", True, guest.sleeps())
            ask = told(peer.ask())
            for count in 0, 13, 1515, 70000:
                peer.stream.sendall(told(bytes(count)) + ask)
                checks.same(f"behind a frame of {count} bytes", True, peer.is_answered())
            for byte in ask:
                peer.stream.sendall(bytes((byte,)))
                time.sleep(0.002)
            checks.same("a frame byte by byte", True, peer.is_answered())
            for count in 2, 4, 30:
                peer.stream.sendall(ask[:count])
                peer.leave()
                checks.same(f"a peer that left inside a frame, behind {count} bytes: it is served", True, guest.is_served())
                peer.accept()
                peer.stream.sendall(ask)
                checks.same(f"and came back, behind {count} bytes", True, peer.is_answered())
            peer.stream.sendall(b"\xff\xff\xff\xff" + ask)
            checks.same("behind a length of 4,294,967,295 no frame begins", False, peer.is_answered(1))
            checks.same("behind such a length it is served", True, guest.is_served())
            peer.leave()
            peer.accept()
            peer.stream.sendall(ask)
            checks.same("another connection behind such a length", True, peer.is_answered())
            peer.leave()
            peer.door.close()
            os.remove(f"{folder}/link")
            time.sleep(0.5)
            checks.same("a peer that is gone: it is served", True, guest.is_served())
            peer = Peer(f"{folder}/link")
            peer.accept()
            peer.stream.sendall(ask)
            checks.same("another peer under its name", True, peer.is_answered())
        finally:
            peer.close()


def stops_reading(checks, folder):
    """A peer that doesn't read: frames that the guest sends are dropped, whole ones, and the guest goes on."""
    os.makedirs(folder)
    peer = Peer(f"{folder}/link")
    many, length = 1 << 61, 1000
    with Guest(f"{folder}/guest", "traffic", many | length << 40 | (1 << 40) - 1, link=f"{folder}/link") as guest:
        try:
            peer.accept()
            checks.same("a peer that doesn't read: the guest goes on", True, until(lambda: guest.said().count("\n") >= 3))
            checks.same("a peer that doesn't read: it is served", True, guest.is_served())
            numbers = []
            for _ in range(1000):
                frame = peer.frame()
                if len(frame) == length:
                    numbers += struct.unpack("<Q", frame[14:22])
            checks.same("its frames are whole", 1000, len(numbers))
            checks.same("and in order", True, numbers == sorted(set(numbers)))
            checks.same("and some were dropped", True, numbers[-1] - numbers[0] >= len(numbers))
        finally:
            peer.close()


def floods(checks, folder):
    """A peer that sends without a pause to a guest that takes no frame: what the guest sends gets through, and the API is served."""
    os.makedirs(folder)
    peer = Peer(f"{folder}/link")
    with Guest(f"{folder}/guest", "traffic", 64 << 40 | (1 << 40) - 1, link=f"{folder}/link") as guest:
        try:
            peer.accept()
            peer.stream.setblocking(False)
            frames = told(bytes(1514)) * 200
            sent = 0
            try:
                while sent < 1 << 24:
                    sent += peer.stream.send(frames)
            except BlockingIOError:
                pass
            peer.stream.settimeout(SECONDS)
            checks.same("a flood: it is held up where nobody takes it", True, sent < 1 << 24)
            checks.same("a flood: it is served", True, guest.is_served())
            checks.same("a flood: the guest's frames", 64000, sum(len(peer.frame()) for _ in range(1000)))
        finally:
            peer.close()


def replayed(checks, folder):
    """The replay of a trace writes the snapshot that the served machine wrote, of guests that send or take frames with limits, or by tables of
    descriptors and the indexes of events."""
    both = TABLES | EVENTS
    for name, limits, features in ("tx", "", 0), ("rx", "", 0), ("tx", "", both), ("rx", "", both), ("tx", limited("tx"), 0), ("rx", limited("rx"), 0):
        where = f"{folder}/{name}{len(limits)}{features}"
        os.makedirs(where)
        peer = Peer(f"{where}/link")
        number = WAITS | features | 400 << 40 | (1 << 40) - 1 | (name == "rx") * RECEIVES
        with Guest(f"{where}/guest", "traffic", number, link=f"{where}/link", limits=limits, trace="trace") as guest:
            try:
                peer.accept()
                for _ in range(300):
                    if name == "rx":
                        peer.stream.sendall(told(bytes(400)))
                    else:
                        peer.frame()
                how = "limits" if limits else "tables and events" if features else "no limits"
                checks.same(f"{name}, {how}: the replay's snapshot", True, guest.is_replayed())
            finally:
                peer.close()


PARTS = (behind_qemu, behind_passt, beside_qemu, beside_another, misbehaves, stops_reading, floods, replayed)
