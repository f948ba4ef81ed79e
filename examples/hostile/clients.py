"""Clients of a server: what they send over its socket, what they are answered, and what a replay of its trace answers."""

import os
import re
import socket
import subprocess
import time

from running import run

SECONDS = 60
IMAGE = bytes.fromhex("970201009383130013fef301131ece00330e5e0023347e006ff05ffe")
FILES = {"k": IMAGE, "i": b"\0", "disk": bytes(1024), "other": bytes(513)}
HEAD = re.compile(rb"HTTP/1\.1 (200|204|400|500|503) [ -~]+\r\n((?:[A-Za-z-]+: [ -~]*\r\n)*)\r\n")
LENGTH = re.compile(rb"^Content-Length: ([0-9]+)\r$", re.M)
REFUSAL = re.compile(rb'"fault_message":"([0-9]+): ')
LAST_REQUEST = b"GET / HTTP/1.1\r\n\r\n"


def clients_of(script):
    """Of each client whether it leaves, and its pieces."""
    clients = []
    for line in script.splitlines():
        word, rest = line.split(b" ", 1)
        if word == b"client":
            clients.append((rest == b"leaves", []))
        else:
            clients[-1][1].append(bytes.fromhex(rest.decode()))
    return clients


def talked(path, leaves, pieces):
    """All bytes that a client got, one that leaves at most a piece of them."""
    with socket.socket(socket.AF_UNIX) as client:
        client.settimeout(SECONDS)
        client.connect(path)
        try:
            for piece in pieces:
                client.sendall(piece)
            if leaves:
                return b""
            client.shutdown(socket.SHUT_WR)
        except (BrokenPipeError, ConnectionResetError):
            pass
        got = b""
        while True:
            try:
                piece = client.recv(65536)
            except ConnectionResetError:
                return got
            if not piece:
                return got
            got += piece


def answers_in(got):
    """The answers in a client's bytes, as lines of a replay; or what is wrong with them."""
    answers = []
    while got:
        head = HEAD.match(got)
        if not head:
            return None, f"no answer: {got[:200]!r}"
        length = LENGTH.search(head[2])
        size = int(length[1]) if length else 0
        body, got = got[head.end():head.end() + size], got[head.end() + size:]
        if len(body) < size:
            return None, f"an answer that is cut: {head[0]!r}"
        answers.append(b"< " + head[1] + (b" " + body if body else b""))
    return answers, None


def served(path, process, script, seen):
    """The answers of each client, those of a last one that asks what it must get among them; or what is wrong."""
    answers = []
    for leaves, pieces in clients_of(script) + [(False, [LAST_REQUEST])]:
        try:
            got = talked(path, leaves, pieces)
        except OSError as error:
            return None, f"a client met {error!r}; the server has {process.poll()}"
        told, fault = answers_in(got)
        if fault:
            return None, fault
        answers.append(told)
        for it in told:
            seen[f"served {it[2:5].decode()}"] += 1
            refused = REFUSAL.search(it)
            if refused:
                seen[f"refusal {int(refused[1])}"] += 1
    if len(answers[-1]) != 1 or not answers[-1][0].startswith(b"< 200 "):
        return None, f"the last client was answered {answers[-1]!r}"
    return answers, None


def replayed(program, folder, again, answers):
    """What differs between these answers and those of the trace's replay, in a folder as the server found its own. The end of a trace may be
    missing, and a client that left has no answer."""
    with open(os.path.join(folder, "trace"), "rb") as file:
        out, status = run([program, "replay", "--id", "hostile"], file.read(), again)
    if status not in (0, 3):
        return f"the replay of the trace: {status if isinstance(status, str) else f'status {status}'}"
    told = iter([it for it in out.split(b"\n") if it.startswith(b"< ")])
    for k, it in enumerate(it for each in answers[:-1] for it in each):
        if it not in told:
            return f"the replay of the trace lacks answer {k}: {it[:200]!r}"
    return None


def fault_of_server(program, script, folder, again, seen):
    """What is wrong with how a server answered these clients, if anything. It serves in one empty folder, and its trace is replayed in another."""
    for each in (folder, again):
        for name, content in FILES.items():
            with open(os.path.join(each, name), "wb") as file:
                file.write(content)
    path = os.path.join(folder, "socket")
    words = [program, "serve", "--api-sock", "socket", "--trace", "trace", "--id", "hostile"]
    with open(os.path.join(folder, "out"), "wb") as out, open(os.path.join(folder, "err"), "wb") as err:
        process = subprocess.Popen(words, stdin=subprocess.DEVNULL, stdout=out, stderr=err, cwd=folder)
    try:
        until = time.monotonic() + SECONDS
        while not os.path.exists(path):
            if process.poll() is not None or time.monotonic() > until:
                return f"no socket; the server has {process.poll()}"
            time.sleep(0.001)
        answers, fault = served(path, process, script, seen)
    finally:
        process.terminate()
        ended = process.wait()
    if fault is None and ended != -15:
        fault = f"the server ended by itself with {ended}"
    if fault is None and os.path.getsize(os.path.join(folder, "err")):
        fault = "the server wrote to its standard error"
    return fault or replayed(program, folder, again, answers)
