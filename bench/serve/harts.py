"""Harts that share code and a lock, served against their replay; see `run`."""

import os
import subprocess
import tempfile
import time

from hart import hex_of, used
from machine import PROGRAM, TOP, calls, image_of, load, put, serve

ROUNDS = int(os.environ.get("ROUNDS", "100000"))
TURNS = int(os.environ.get("TURNS", "3"))
MIB = 128
# in a replay the harts make so many events each, one after another
SLICE = 1000


def wanted(rounds):
    return subprocess.run([f"{TOP}/guests/sums", "crew", str(rounds)], stdout=subprocess.PIPE, check=True).stdout.decode()


def steps(harts, rounds):
    """Lines for more events than the guest makes, of which the replay looks at none once the guest is off."""
    most = 3000 * rounds + 1000000
    return "".join(f"step h{hart} {SLICE}\n" for hart in range(harts)) * (2 * most // (harts * SLICE))


def replayed(folder, harts, rounds):
    with open(f"{folder}/script", "w") as file:
        file.write(f"file image {hex_of(f'{folder}/image')}\n")
        for path, body in calls("image", MIB, harts=harts):
            file.write(f"api PUT {path} {body}\n")
        file.write(steps(harts, rounds))
    begun = time.perf_counter()
    with open(f"{folder}/script") as script, open(f"{folder}/out", "wb") as out:
        process = subprocess.Popen([PROGRAM, "replay"], cwd=folder, stdin=script, stdout=out)
        found = used(process, begun)
    with open(f"{folder}/out") as file:
        text = "".join(line[2:-1] for line in file if line.startswith("! ")).replace("\\x0a", "\n")
    assert text == wanted(rounds), text[-200:]
    return found


def served(folder, harts, rounds):
    begun = time.perf_counter()
    with open(f"{folder}/out", "wb") as out:
        process, conn = serve(folder, stdout=out)
        for path, body in calls("image", MIB, harts=harts):
            put(conn, path, body)
        conn.close()
        found = used(process, begun)
    with open(f"{folder}/out") as file:
        text = file.read()
    assert text == wanted(rounds) + ". off\n", text[-200:]
    return found


KINDS = {"replay": replayed, "served": served}


def runs(harts, rounds):
    """All runs of each kind, taken in turn, by the seconds of the clock."""
    found = {name: [] for name in KINDS}
    for _ in range(TURNS):
        for name, run in KINDS.items():
            with tempfile.TemporaryDirectory() as folder:
                with open(f"{folder}/image", "wb") as file:
                    file.write(image_of("crew", rounds))
                found[name].append(run(folder, harts, rounds))
    return {name: sorted(times, key=lambda it: it[2]) for name, times in found.items()}


def measure():
    print(f"{ROUNDS} rounds of crew, {MIB} MiB, best of {TURNS}; load {load()}")
    for harts in (1, 2, 4):
        idle, times = runs(harts, 0), runs(harts, ROUNDS)
        base, start = times["replay"][0], idle["replay"][0]
        for name, all_of in times.items():
            user, system, wall = all_of[0]
            begun = idle[name][0]
            print(f"{harts} harts, {name}: {user:.2f} s user, {system:.2f} s system, {wall:.2f} s wall ({all_of[-1][2]:.2f} at most); by replay", end="")
            print(f" {base[2] / wall:.3f}, without the start {(base[2] - start[2]) / (wall - begun[2]):.3f}", end="")
            print(f"; by seconds of processors {(base[0] + base[1] - start[0] - start[1]) / (user + system - begun[0] - begun[1]):.3f}")
    print(f"load {load()}")
