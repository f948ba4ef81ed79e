"""What `.ci/build`, `.ci/rt` and `bench/gate/table` take of the kit's own `rt`: the file as a module, which looks at each crate once
(`kit`), and its scheduler (`in_lanes`), which they call for real and on a clock of their own.

A task is what it waits for, its work, the memory that it takes in bytes, and a call that gets what the others gave and how many
processors it may use."""

import contextlib
import hashlib
import importlib.machinery
import importlib.util
import os
import pathlib
import shutil
import sys
import types

# How much sooner a proof ends that has so many processors.
GAIN = {1: 1.0, 2: 1.4, 3: 1.6, 4: 1.8}


def kit():
    """Returns the `rt` of the path as a module of its own, or None where there is none."""
    found = shutil.which("rt")
    if not found:
        return None
    sys.dont_write_bytecode = True
    loader = importlib.machinery.SourceFileLoader("rt_of_kit", os.path.realpath(found))
    rt = importlib.util.module_from_spec(importlib.util.spec_from_loader("rt_of_kit", loader))
    loader.exec_module(rt)
    remember(rt)
    return rt


def remember(rt):
    """Has rt look at each crate once for what is below it and for its stamp. By itself it goes each way that leads down to a crate: a
    million of them from a program of this repository. The stamp is the same; a file that has another time or size is read again."""
    lib, read = rt.rtlib, {}

    def below(crate):
        if "all_below" not in crate.__dict__:
            crate.all_below = [*dict.fromkeys(it for dep in crate.deps for it in [*below(dep), dep])]
        return [*crate.all_below]

    def parts(crate):
        """What the stamp says of the crate's own files."""
        files = [*lib.files_of(crate.folder)]
        are = [(it, os.stat(it).st_mtime_ns, os.stat(it).st_size) for it in files]
        if read.get(crate.folder, (None,))[0] != are:
            texts = [repr((it.replace(crate.folder, ""), pathlib.Path(it).read_bytes())).encode() for it in files]
            read[crate.folder] = are, texts
        return read[crate.folder][1]

    def stamp(crate, known=None):
        known = {} if known is None else known
        if crate.folder not in known:
            total = hashlib.sha256(repr((crate.said, crate.has_c)).encode())
            total.update(pathlib.Path(lib.KIT, "WHAT").read_bytes())
            for part in parts(crate):
                total.update(part)
            total.update(repr([stamp(dep, known) for dep in crate.deps]).encode())
            known[crate.folder] = total.hexdigest()
        return known[crate.folder]

    lib.Crate.below = below
    # (a kit with STAMPS keeps them itself)
    if not hasattr(rt, "STAMPS"):
        lib.Crate.stamp = stamp


class Ending:
    """A task on the clock: when it ends, and what it gives."""

    def __init__(self, ends):
        self.ends, self.result = ends, lambda: True


class Clock:
    """Stands for the threads that the scheduler runs its tasks in: each call tells the seconds that its task takes, and a wait
    goes on to when the first of them ends."""

    def __init__(self):
        self.now, self.at_once = 0.0, 0

    def submit(self, call, given, jobs):
        self.at_once += not self.now
        return Ending(self.now + call(given, jobs))

    def wait(self, running, return_when):
        first = min(running, key=lambda it: it.ends)
        self.now = first.ends
        return types.SimpleNamespace(done=[first])


def simulated(rt, tasks, processors, memory):
    """Returns when the last of the tasks ends, in seconds, and which are begun at once, on so many processors with so many bytes of free
    memory. Each call tells how many seconds its task takes. rt is a module for this alone."""
    clock, begun = Clock(), []

    def noted(key, call):
        def noting(given, jobs):
            begun.append(key)
            return call(given, jobs)

        return noting

    rt.processors, rt.free, rt.wait = lambda: processors, lambda: memory, clock.wait
    rt.ThreadPoolExecutor = lambda lanes: contextlib.nullcontext(clock)
    rt.in_lanes({key: (*it[:3], noted(key, it[3])) for key, it in tasks.items()})
    return clock.now, begun[: clock.at_once]
