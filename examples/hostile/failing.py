"""Replays whose host objects fail: a call on a file, the input, the output, or an allocation. What was answered before is a front of what the
same replay answers without the failure, and the status is one that says what failed."""

import re

from running import emptied, run

LARGEST = 1 << 31
PLACES = "openat,read,write,lseek,fsync"
# The files that the creates of `failing_script` make.
CREATED = ("m", "s", "u", "t")
BROKEN = re.compile(rb"< 50[03] |\. fault |\. memory")


def common_front(whole, cut):
    """What is wrong with the answers of a replay in which a call failed: up to the answer that tells it they are those of the whole one."""
    for k, line in enumerate(cut.split(b"\n")[:-1]):
        if BROKEN.match(line):
            return None
        if not whole.startswith(b"\n".join(cut.split(b"\n")[: k + 1]) + b"\n"):
            return f"answer {k} of a replay in which a call failed is another one: {line[:200]!r}"
    return None


def least_room(program, folder):
    """The least memory for data, in pages, in which the program answers a line; 0 where it takes more than there is reason for."""
    low, high = 0, LARGEST >> 12
    if not answers_in(program, folder, high):
        return 0
    while high - low > 1:
        middle = (low + high) // 2
        low, high = (low, middle) if answers_in(program, folder, middle) else (middle, high)
    return high


def answers_in(program, folder, pages):
    out, status = run(scarce_words(program, pages), b"api GET /\n", emptied(folder))
    return status == 0 and out.startswith(b"< 200")


def scarce_words(program, pages):
    # (a bound of the whole address space would end it where its stack grows, which is no allocation)
    return ["/usr/bin/prlimit", f"--data={pages << 12}", program, "replay"]


def traced_words(program, log, *more):
    return ["/usr/bin/strace", "-f", "-o", log, "-y", "-e", f"trace={PLACES}", *more, program, "replay"]


def injected_words(program, name, error, number, log):
    return traced_words(program, log, "-e", f"inject={name}:error={error}:when={number}")


def calls_in(log):
    """Each call of a log from the first read of the input on: its name, which of that name it is, and which call on the creates' files it is, from 1;
    0 for another one. Calls before that are the system's, as it begins a program."""
    calls, counts, on_files, has_begun = [], {}, 0, False
    with open(log, encoding="latin-1") as file:
        for line in file:
            word = re.match(r"\d+\s+(\w+)\(", line)
            if not word:
                continue
            counts[word[1]] = counts.get(word[1], 0) + 1
            is_of_create = any(f"/{it}>" in line or f'"{it}"' in line for it in CREATED)
            on_files += is_of_create
            has_begun = has_begun or re.search(r"read\(0[<,]", line) is not None
            if has_begun:
                calls.append((word[1], counts[word[1]], on_files if is_of_create else 0))
    return calls
