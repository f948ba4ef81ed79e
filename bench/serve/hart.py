"""One served hart against its replay; see `run`."""

import os
import subprocess
import tempfile
import time

from machine import PROGRAM, TOP, answer, calls, image_of, load, put, serve, status_of

ROUNDS = int(os.environ.get("ROUNDS", "370"))
TURNS = int(os.environ.get("TURNS", "3"))
REQUESTS = int(os.environ.get("REQUESTS", "2000"))
MIB = 128
PAUSE = 0.002
GET = b"GET / HTTP/1.1\r\nHost: localhost\r\n\r\n"


def prepare(folder, rounds):
    """The image and the drive's file."""
    with open(f"{folder}/image", "wb") as file:
        file.write(image_of("busy", rounds))
    with open(f"{folder}/drive", "wb") as file:
        subprocess.run([f"{TOP}/guests/drive", "before"], stdout=file, check=True)


def hex_of(path):
    with open(path, "rb") as file:
        return file.read().hex()


def used(process, begun):
    """Waits for its end: its seconds of user and of system, and those since it began."""
    _, status, usage = os.wait4(process.pid, 0)
    process.returncode = os.waitstatus_to_exitcode(status)
    assert process.returncode == 0, process.returncode
    return usage.ru_utime, usage.ru_stime, time.perf_counter() - begun


def wanted(rounds, ticks):
    words = [f"{TOP}/guests/sums", "busy", str(rounds), str(ticks)]
    return subprocess.run(words, stdout=subprocess.PIPE, check=True).stdout.decode()


def replayed(folder, rounds):
    """A run by `replay`, in which guest time stands still."""
    with open(f"{folder}/script", "w") as file:
        for name in ("image", "drive"):
            file.write(f"file {name} {hex_of(f'{folder}/{name}')}\n")
        for path, body in calls("image", MIB, "drive"):
            file.write(f"api PUT {path} {body}\n")
        file.write("step h0 1000000000\n" * 8)
    begun = time.perf_counter()
    with open(f"{folder}/script") as script, open(f"{folder}/out", "wb") as out:
        process = subprocess.Popen([PROGRAM, "replay"], cwd=folder, stdin=script, stdout=out)
        found = used(process, begun)
    with open(f"{folder}/out") as file:
        text = "".join(line[2:-1] for line in file if line.startswith("! ")).replace("\\x0a", "\n")
    assert text == wanted(rounds, 0), text[-200:]
    return found, 0


def served(folder, rounds, *words):
    """A run by `serve`, and how many ticks the guest had."""
    begun = time.perf_counter()
    with open(f"{folder}/out", "wb") as out:
        process, conn = serve(folder, *words, stdout=out)
        for path, body in calls("image", MIB, "drive"):
            put(conn, path, body)
        conn.close()
        found = used(process, begun)
    with open(f"{folder}/out") as file:
        text = file.read()
    ticks = text.splitlines()[-2].split()[0]
    assert text == wanted(rounds, ticks) + ". off\n", text[-200:]
    return found, int(ticks)


KINDS = {
    "replay": replayed,
    "served": served,
    "served, traced": lambda folder, rounds: served(folder, rounds, "--trace", f"{folder}/trace"),
}


def runs(rounds):
    """The best of each kind by its seconds of user and system, taken in turn, with its ticks."""
    best = {}
    for _ in range(TURNS):
        for name, run in KINDS.items():
            with tempfile.TemporaryDirectory() as folder:
                prepare(folder, rounds)
                found, ticks = run(folder, rounds)
            if name not in best or sum(found[:2]) < sum(best[name][0][:2]):
                best[name] = found, ticks
    return best


def requests(conn, pause):
    found = []
    for _ in range(REQUESTS):
        time.sleep(pause)
        start = time.perf_counter_ns()
        conn.sendall(GET)
        head, body = answer(conn)
        found.append(time.perf_counter_ns() - start)
        assert head.startswith(b"HTTP/1.1 200") and b'"Running"' in body, (head, body)
    found.sort()
    return [found[len(found) * part // 100] / 1000 for part in (50, 99)]


def until_it_prints(folder):
    for _ in range(6000):
        if os.path.getsize(f"{folder}/out") > 0:
            return
        time.sleep(0.01)
    raise SystemExit("a minute has passed, and the guest has printed nothing")


def beside():
    """Requests to a machine whose guest works on and on, and its memory in KiB: before it starts, then now and at most."""
    with tempfile.TemporaryDirectory() as folder:
        prepare(folder, 10**9)
        with open(f"{folder}/out", "wb") as out:
            process, conn = serve(folder, stdout=out)
            try:
                before = status_of(process)["VmRSS"]
                for path, body in calls("image", MIB, "drive"):
                    put(conn, path, body)
                until_it_prints(folder)
                found = [requests(conn, PAUSE), requests(conn, 0)]
                status = status_of(process)
            finally:
                process.kill()
                process.wait()
    return found, (before, status["VmRSS"] - MIB * 1024, status["VmHWM"] - MIB * 1024)


def measure():
    print(f"one hart, {ROUNDS} rounds of busy, {MIB} MiB, best of {TURNS}; load {load()}")
    idle, best = runs(0), runs(ROUNDS)
    base, start = sum(best["replay"][0][:2]), sum(idle["replay"][0][:2])
    for name, ((user, system, wall), ticks) in best.items():
        own = user + system
        less = own - sum(idle[name][0][:2])
        print(f"{name}: {user:.2f} s user, {system:.2f} s system, {wall:.2f} s wall, {ticks} ticks; by replay {base / own:.3f}, ", end="")
        print(f"without the start {(base - start) / less:.3f}")
    found, (before, now, most) = beside()
    for text, (p50, p99) in zip(("one in 2 ms", "one after another"), found):
        print(f"requests beside it, {text}: p50 {p50:.0f} us, p99 {p99:.0f} us")
    print(f"memory beyond the guest's {MIB} MiB: {now} KiB, at most {most} KiB; before the start the process has {before} KiB; load {load()}")
