"""A served machine in a folder of its own, and a client that sends bytes as they are."""

import json
import os
import re
import socket
import subprocess
import sys
import tempfile
import time

TOP = os.path.dirname(os.path.dirname(os.path.dirname(os.path.realpath(__file__))))
PROGRAM = os.path.abspath(os.environ.get("FIRECRACKER", f"{TOP}/crates/firecracker/out/firecracker"))
SECONDS = 300
# A guest of two instructions: it waits for interrupts, and does so again.
WAITING = bytes.fromhex("730050106ff0dfff")
FILES = {"kernel": WAITING, "initrd": b"\0", "disk": bytes(1024), "other": bytes(2048)}
LENGTH = re.compile(rb"^Content-Length: ([0-9]+)\r$", re.M)
REFUSAL = re.compile(r'\{"fault_message":"([0-9]+): [ -~]+"\}')


def need_program():
    """Ends the script where there is no program."""
    if not os.access(PROGRAM, os.X_OK):
        sys.exit(f"{sys.argv[0]}: no program: make build makes it")


def wait_for(path, process):
    """Waits until a server's socket is there."""
    end = time.monotonic() + SECONDS
    while not os.path.exists(path):
        if process.poll() is not None or time.monotonic() > end:
            raise RuntimeError("the server doesn't listen")
        time.sleep(0.01)


def encoded(method, path, body=None):
    """The bytes of a request. A body that is no text is written as JSON."""
    text = "" if body is None else body if isinstance(body, str) else json.dumps(body)
    content = text.encode()
    return f"{method} {path} HTTP/1.1\r\nHost: localhost\r\nContent-Length: {len(content)}\r\n\r\n".encode() + content


class Served:
    """A server in a folder with the files FILES. In a `with` it ends when that is left."""

    def __init__(self, *words):
        self.held = tempfile.TemporaryDirectory()
        self.folder = self.held.name
        for name, content in FILES.items():
            with open(f"{self.folder}/{name}", "wb") as it:
                it.write(content)
        self.path = f"{self.folder}/api.sock"
        self.client = None
        command = [PROGRAM, "serve", "--api-sock", "api.sock", *words]
        quiet = {"stdin": subprocess.DEVNULL, "stdout": subprocess.DEVNULL, "stderr": subprocess.DEVNULL}
        self.process = subprocess.Popen(command, cwd=self.folder, **quiet)
        wait_for(self.path, self.process)

    def __enter__(self):
        return self

    def __exit__(self, *_):
        if self.client:
            self.client.close()
        self.process.kill()
        self.process.wait()
        self.held.cleanup()

    def ask(self, method, path, body=None):
        """The status and the body of the answer to one request. A connection that the server has ended is made anew."""
        sent = encoded(method, path, body)
        for again in (True, False):
            try:
                return self.exchanged(sent)
            except OSError:
                self.client.close()
                self.client = None
                if not again:
                    raise
        return None

    def exchanged(self, sent):
        if not self.client:
            self.client = socket.socket(socket.AF_UNIX)
            self.client.settimeout(SECONDS)
            self.client.connect(self.path)
        self.client.sendall(sent)
        got = b""
        while True:
            head, end, rest = got.partition(b"\r\n\r\n")
            length = LENGTH.search(head + b"\r\n")
            if end and len(rest) >= (int(length[1]) if length else 0):
                return int(head[9:12]), rest.decode()
            more = self.client.recv(65536)
            if not more:
                raise ConnectionError("the server has ended the connection")
            got += more


def refusal_of(body):
    """The number of the refusal that a body tells, or 0."""
    found = REFUSAL.fullmatch(body)
    return int(found[1]) if found else 0
