"""A served machine with an interface or a vsock device, in a folder of its own, and what the checks here compare."""

import filecmp
import os
import resource
import shutil
import socket
import subprocess
import sys
import time

sys.dont_write_bytecode = True
TOP = os.path.dirname(os.path.dirname(os.path.dirname(os.path.realpath(__file__))))
sys.path.insert(0, f"{TOP}/bench")
from machine import PROGRAM, answer, connected, image_of, put, serve, spent_by

# How long anything may take, on a machine with much other work.
SECONDS = 60


class Comparisons:
    """Counts what is as wanted, and says what isn't."""

    def __init__(self):
        self.runs = self.failed = 0

    def same(self, name, wanted, got):
        self.runs += 1
        if wanted != got:
            self.failed += 1
            print(f"differs: {name}\n  wanted: {wanted!r}\n  got:    {got!r}", flush=True)


def until(good, seconds=SECONDS):
    """Waits until this is so; whether it came to be."""
    end = time.monotonic() + seconds
    while not good():
        if time.monotonic() > end:
            return False
        time.sleep(0.01)
    return True


def need_program(name):
    if not os.access(PROGRAM, os.X_OK):
        sys.exit(f"{name}: no program: make build makes it")


class Guest:
    """An image of guests/ that is served, with this number at its offset 8 if there is one. In a `with` it ends when that is left."""

    def __init__(self, folder, name, number, link=None, vsock=None, limits="", mib=16, harts=1, trace=None, descriptors=None):
        self.folder, self.trace, self.lives, self.descriptors = folder, trace, 0, descriptors
        os.makedirs(folder, exist_ok=True)
        if number is None:
            shutil.copy(f"{TOP}/guests/images/{name}", f"{folder}/image")
        else:
            with open(f"{folder}/image", "wb") as file:
                file.write(image_of(name, number))
        conn = self.serve()
        put(conn, "/boot-source", '{"kernel_image_path":"image"}')
        put(conn, "/machine-config", f'{{"vcpu_count":{harts},"mem_size_mib":{mib}}}')
        if link:
            fields = f'"iface_id":"eth","host_dev_name":"{link}","guest_mac":"02:00:00:00:00:08"{limits}'
            put(conn, "/network-interfaces/eth", f"{{{fields}}}")
        if vsock:
            put(conn, "/vsock", f'{{"guest_cid":3,"uds_path":"{vsock}"}}')
        put(conn, "/actions", '{"action_type":"InstanceStart"}')
        conn.close()

    def __enter__(self):
        return self

    def __exit__(self, *_):
        self.stop()

    def serve(self):
        """A new process, with its console in a file of its own."""
        self.lives += 1
        self.out = f"{self.folder}/out{self.lives}"
        words = ["--trace", self.trace] if self.trace else []
        with open(self.out, "wb") as out:
            self.process, conn = serve(self.folder, *words, stdout=out, preexec_fn=self.limit if self.descriptors else None)
        return conn

    def limit(self):
        resource.setrlimit(resource.RLIMIT_NOFILE, (self.descriptors, self.descriptors))

    def ask(self, method, path, body=""):
        """The status and the body of the answer to one request, and the seconds that it took, on a connection of its own."""
        begun = time.monotonic()
        conn = connected(f"{self.folder}/api.sock")
        conn.settimeout(SECONDS)
        text = body.encode()
        conn.sendall(f"{method} {path} HTTP/1.1\r\nContent-Length: {len(text)}\r\n\r\n".encode() + text)
        head, rest = answer(conn)
        conn.close()
        return int(head[9:12]), rest.decode(), time.monotonic() - begun

    def is_served(self):
        """Whether it says soon that it runs."""
        status, body, seconds = self.ask("GET", "/")
        return status == 200 and '"Running"' in body and seconds < 1

    def is_answered(self):
        """The same, where the server may have no descriptor for a client."""
        try:
            return self.is_served()
        except (ConnectionError, IndexError, ValueError):
            return False

    def sleeps(self):
        """Whether the process takes next to nothing of a processor for two seconds."""
        time.sleep(0.5)
        before = sum(spent_by(self.process))
        time.sleep(2)
        return sum(spent_by(self.process)) - before < 0.05

    def said(self):
        with open(self.out, "rb") as file:
            return file.read().decode()

    def shows(self, text, seconds=SECONDS):
        """Waits until the console has this text; whether it came."""
        return until(lambda: text in self.said(), seconds)

    def status(self):
        """Waits until the process has ended by itself."""
        try:
            return self.process.wait(SECONDS)
        except subprocess.TimeoutExpired:
            return None

    def save(self):
        """Pauses the guest and writes a snapshot of it."""
        files = '{"snapshot_path":"state","mem_file_path":"memory"}'
        return self.ask("PATCH", "/vm", '{"state":"Paused"}')[0], self.ask("PUT", "/snapshot/create", files)[0]

    def resume(self):
        return self.ask("PATCH", "/vm", '{"state":"Resumed"}')[0]

    def move(self):
        """Goes on from the snapshot in another process."""
        self.stop()
        conn = self.serve()
        put(conn, "/snapshot/load", '{"snapshot_path":"state","mem_backend":{"backend_path":"memory","backend_type":"File"},"resume_vm":true}')
        conn.close()

    def stop(self):
        self.process.kill()
        self.process.wait()

    def replayed(self):
        """The console of the trace's replay."""
        with open(f"{self.folder}/{self.trace}", "rb") as file:
            done = subprocess.run([PROGRAM, "replay"], cwd=self.folder, stdin=file, stdout=subprocess.PIPE, check=False)
        lines = [it for it in done.stdout.split(b"\n") if it[:2] in (b"! ", b". ")]
        text = b"".join(it[2:] if it[:1] == b"!" else it + b"\n" for it in lines)
        return text.replace(b"\\x0a", b"\n").decode()


    def is_replayed(self):
        """Saves the guest, and whether the replay of the trace writes the same snapshot, to the byte."""
        if self.save() != (204, 204):
            return False
        self.stop()
        other = f"{self.folder}/replayed"
        os.mkdir(other)
        shutil.copy(f"{self.folder}/image", other)
        with open(f"{self.folder}/{self.trace}", "rb") as file:
            subprocess.run([PROGRAM, "replay"], cwd=other, stdin=file, stdout=subprocess.DEVNULL, check=False)
        return all(filecmp.cmp(f"{self.folder}/{it}", f"{other}/{it}", shallow=False) for it in ("state", "memory"))


def listens(path):
    """Whether somebody listens on this socket."""
    with socket.socket(socket.AF_UNIX) as tried:
        try:
            tried.connect(path)
        except OSError:
            return False
    return True


class Helper:
    """Another program, which ends when the `with` is left. Where it has a socket, this waits for it."""

    def __init__(self, words, made=None, **streams):
        self.process = subprocess.Popen(words, stdin=subprocess.DEVNULL, **streams)
        if made and not until(lambda: os.path.exists(made)):
            raise RuntimeError(f"{words[0]} makes no {made}")

    def __enter__(self):
        return self

    def __exit__(self, *_):
        self.process.terminate()
        self.process.wait()
