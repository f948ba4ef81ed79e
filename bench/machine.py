"""What the benchmarks of a served machine share: a process of `firecracker serve` that is asked over its socket, and images of
guests/ that make so many rounds. The program is what `make build` made, or FIRECRACKER."""

import os
import socket
import struct
import subprocess
import time

TOP = os.path.dirname(os.path.dirname(os.path.realpath(__file__)))
PROGRAM = os.path.realpath(os.environ.get("FIRECRACKER", f"{TOP}/crates/firecracker/out/firecracker"))


def connected(path):
    for _ in range(10000):
        try:
            made = socket.socket(socket.AF_UNIX)
            made.connect(path)
            return made
        except OSError:
            time.sleep(0.001)
    raise SystemExit(f"nobody listens on {path}")


def more_of(conn):
    more = conn.recv(65536)
    if not more:
        raise ConnectionError("the server has ended the connection")
    return more


def answer(conn, rest=b""):
    """Reads one answer whole."""
    while b"\r\n\r\n" not in rest:
        rest += more_of(conn)
    head, _, body = rest.partition(b"\r\n\r\n")
    length = 0
    for line in head.split(b"\r\n"):
        name, _, value = line.partition(b":")
        if name.lower() == b"content-length":
            length = int(value)
    while len(body) < length:
        body += more_of(conn)
    return head, body


def ask(conn, method, path, body):
    """A call that is to be accepted."""
    text = body.encode()
    conn.sendall(f"{method} {path} HTTP/1.1\r\nContent-Length: {len(text)}\r\n\r\n".encode() + text)
    head, rest = answer(conn)
    assert head.startswith(b"HTTP/1.1 204"), (path, head, rest)


def put(conn, path, body):
    ask(conn, "PUT", path, body)


def calls(image, mib, drive=None, harts=1, devices=()):
    """The calls that start a machine, as paths and bodies; with a drive, if one is named, and with these calls for devices."""
    yield "/boot-source", f'{{"kernel_image_path":"{image}"}}'
    yield "/machine-config", f'{{"vcpu_count":{harts},"mem_size_mib":{mib}}}'
    if drive:
        fields = f'"drive_id":"root","path_on_host":"{drive}","is_root_device":true,"cache_type":"Writeback"'
        yield "/drives/root", f"{{{fields}}}"
    yield from devices
    yield "/actions", '{"action_type":"InstanceStart"}'


def serve(folder, *words, **streams):
    """A process that serves on api.sock in the folder, and a connection to it."""
    path = f"{folder}/api.sock"
    if os.path.exists(path):
        os.remove(path)
    process = subprocess.Popen([PROGRAM, "serve", "--api-sock", path, *words], cwd=folder, stdin=subprocess.DEVNULL, **streams)
    return process, connected(path)


# What the guests transfer and traffic have in their number: chains in tables of their own, and the indexes of events.
TABLES, EVENTS = 1 << 52, 1 << 53


def image_of(name, rounds):
    """The image of a guest that measures, with so many rounds."""
    with open(f"{TOP}/guests/images/{name}", "rb") as file:
        image = bytearray(file.read())
    image[8:16] = struct.pack("<Q", rounds)
    return bytes(image)


def status_of(process):
    """What the system says of a process's memory, in KiB, by name, as VmRSS."""
    with open(f"/proc/{process.pid}/status") as file:
        words = [it.split() for it in file]
    return {it[0][:-1]: int(it[1]) for it in words if it[-1] == "kB"}


def spent_by(process):
    """The seconds of user and of system that a process had."""
    with open(f"/proc/{process.pid}/stat") as file:
        words = file.read().rpartition(")")[2].split()
    return [int(it) / os.sysconf("SC_CLK_TCK") for it in words[11:13]]


def load():
    with open("/proc/loadavg") as file:
        return file.read().split()[0]
