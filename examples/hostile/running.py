"""Runs a program over an input: quickly, as nobody, and with an end."""

import codecs
import contextlib
import os
import pwd
import resource
import signal
import socket
import struct

SECONDS = 60
PAGE, CHUNK = 4096, 1 << 18
# No file is written past this: a memory file of 128 MiB has room.
MOST = 256 << 20
# Two buffers for all comparisons: a fresh one for each file would cost more than the reading.
_BUFFERS = bytearray(CHUNK), bytearray(CHUNK)


def become_nobody(folder):
    """Inputs may name any file, so that no program runs as root. The folder is nobody's from then on. What Python loads late is loaded now, since
    nobody may not be able to read it."""
    codecs.lookup("latin-1")
    if os.geteuid() == 0:
        nobody = pwd.getpwnam("nobody")
        for at, _, names in os.walk(folder):
            for it in [at, *(os.path.join(at, name) for name in names)]:
                os.chown(it, nobody.pw_uid, nobody.pw_gid)
        os.setgroups([])
        os.setgid(nobody.pw_gid)
        os.setuid(nobody.pw_uid)


def bound_files():
    """A machine of 4,096 MiB that is saved again and again would fill the memory that the files are in. A write past MOST fails, as on a full disk."""
    signal.signal(signal.SIGXFSZ, signal.SIG_IGN)
    resource.setrlimit(resource.RLIMIT_FSIZE, (MOST, MOST))


class Late(Exception):
    """A program didn't end."""


def _late(number, frame):
    raise Late


signal.signal(signal.SIGALRM, _late)


def open_source(given, fails):
    """A descriptor from which these bytes can be read; behind them the read fails, where that is said."""
    if not fails:
        source = os.memfd_create("input")
        os.write(source, given)
        os.lseek(source, 0, os.SEEK_SET)
        return source
    ours, theirs = socket.socketpair()
    ours.setsockopt(socket.SOL_SOCKET, socket.SO_SNDBUF, 4 * len(given) + 65536)
    theirs.sendall(b"unread")
    ours.sendall(given)
    ours.setsockopt(socket.SOL_SOCKET, socket.SO_LINGER, struct.pack("ii", 1, 0))
    # The peer's end is closed with a byte that it didn't read: the program's next read behind these bytes fails.
    ours.close()
    return theirs.detach()


def run(words, given, folder, source_fails=False, full=False):
    """What a program wrote, and its status; a text where it wrote to its standard error or didn't end."""
    source = open_source(given, source_fails)
    out, err = os.open("/dev/full", os.O_WRONLY) if full else os.memfd_create("out"), os.memfd_create("err")
    os.chdir(folder)
    try:
        child = os.posix_spawn(words[0], words, {"PATH": "/usr/bin:/bin"}, file_actions=[
            (os.POSIX_SPAWN_DUP2, source, 0), (os.POSIX_SPAWN_DUP2, out, 1), (os.POSIX_SPAWN_DUP2, err, 2)])
        signal.setitimer(signal.ITIMER_REAL, SECONDS)
        try:
            _, ended = os.waitpid(child, 0)
        except Late:
            # (it may have ended as the time was over)
            with contextlib.suppress(ProcessLookupError, ChildProcessError):
                os.kill(child, signal.SIGKILL)
                os.waitpid(child, 0)
            return b"", f"no end within {SECONDS} seconds"
        finally:
            signal.setitimer(signal.ITIMER_REAL, 0)
        wrote, told = b"" if full else contents(out), contents(err)
        if told:
            return wrote, f"standard error: {told[:300]!r}"
        return wrote, os.waitstatus_to_exitcode(ended)
    finally:
        for it in (source, out, err):
            os.close(it)


def contents(descriptor):
    size = os.lseek(descriptor, 0, os.SEEK_END)
    return os.pread(descriptor, size, 0)


def emptied(folder):
    """The folder, without a file in it."""
    try:
        names = os.listdir(folder)
    except FileNotFoundError:
        os.mkdir(folder)
        return folder
    for name in names:
        os.unlink(f"{folder}/{name}")
    return folder


def same_files(one, other):
    """Whether two folders have the same files."""
    names = os.listdir(one)
    if sorted(names) != sorted(os.listdir(other)):
        return False
    return all(same_bytes(f"{one}/{name}", f"{other}/{name}") for name in names)


def same_bytes(one, other):
    """Whether two files have the same bytes."""
    first, second = os.open(one, os.O_RDONLY), os.open(other, os.O_RDONLY)
    try:
        left, right = os.fstat(first), os.fstat(second)
        if left.st_size != right.st_size:
            return False
        if os.path.samestat(left, right):
            return True
        if left.st_size <= CHUNK:
            return os.read(first, CHUNK) == os.read(second, CHUNK)
        return same_chunks(first, second, left.st_size)
    finally:
        os.close(first)
        os.close(second)


def same_chunks(first, second, size):
    """The same of two open files of so many bytes, a chunk at a time; what is a hole in both isn't read."""
    left, right = _BUFFERS
    at = 0
    while at < size:
        at = min(next_data(first, at, size), next_data(second, at, size))
        count = os.preadv(first, [left], at)
        if os.preadv(second, [right], at) != count:
            return False
        if left != right if count == CHUNK else left[:count] != right[:count]:
            return False
        at += max(count, 1)
    return True


def next_data(file, at, size):
    """The first place from here on that isn't in a hole, or the file's size."""
    try:
        return os.lseek(file, at, os.SEEK_DATA)
    except OSError:
        return size


class Content:
    """What a file holds, to be copied often: its size, and its parts that aren't zeros."""

    def __init__(self, path):
        with open(path, "rb") as file:
            whole = file.read()
        self.size, self.parts = len(whole), []
        for at in range(0, len(whole), PAGE):
            page = whole[at:at + PAGE]
            if not any(page):
                continue
            if self.parts and self.parts[-1][0] + len(self.parts[-1][1]) == at:
                self.parts[-1] = self.parts[-1][0], self.parts[-1][1] + page
            else:
                self.parts.append((at, page))

    def write(self, path):
        """Makes the file at this path, which isn't there yet, with what the other one holds; pages of zeros are holes."""
        file = os.open(path, os.O_WRONLY | os.O_CREAT | os.O_EXCL, 0o644)
        try:
            os.ftruncate(file, self.size)
            for at, part in self.parts:
                os.pwrite(file, part, at)
        finally:
            os.close(file)
