"""The inputs of examples/hostile/fuzz: each is made from a number alone, and half of them are valid ones with one to three changes."""

import hashlib
import json
import os
import random
import re

from chains import chain

HERE = os.path.dirname(os.path.realpath(__file__))
TOP = os.path.dirname(os.path.dirname(HERE))
MOST_STEPS = 3000
MOST_BYTES = 200_000
HEX = "0123456789abcdef"


def text_of(path):
    with open(path, "rb") as file:
        return file.read()


def scripts_below(*folders):
    """The lines of each script of these folders that isn't too long to be tried often."""
    found = []
    for folder in folders:
        for at, _, names in sorted(os.walk(os.path.join(TOP, folder))):
            for name in sorted(names):
                if name.endswith(".script") and os.path.getsize(os.path.join(at, name)) < MOST_BYTES:
                    found.append(text_of(os.path.join(at, name)).splitlines())
    return [it for it in found if it]


def scripts_of_chains():
    """The replays of examples/chains: the lines behind `> ` up to the next part."""
    found = []
    folder = os.path.join(TOP, "examples", "chains")
    for name in sorted(os.listdir(folder)):
        lines = []
        for line in text_of(os.path.join(folder, name)).splitlines():
            if line.startswith(b"> "):
                lines.append(line[2:])
            elif not line.startswith(b"= ") and lines:
                found.append(lines)
                lines = []
        if lines:
            found.append(lines)
    return found


def has_drive(lines):
    return any(b" /drives/" in line for line in lines) and any(line.startswith(b"file ") for line in lines)


def short(line):
    """A line of steps makes few of them, so that an input takes little time."""
    words = line.split(b" ")
    if words[0] == b"step" and len(words) == 3 and words[2].isdigit() and int(words[2]) > MOST_STEPS:
        return b" ".join(words[:2] + [str(MOST_STEPS).encode()])
    return line


def with_little_memory(script):
    """A machine whose memory may be written to a file has little of it."""
    if b"/snapshot/create" not in script:
        return script
    return re.sub(rb'("mem_size_mib": ?)([0-9]+)', lambda it: it[1] + (b"8" if 8 < int(it[2]) <= 1024 else it[2]), script)


# Values at limits, by which a number, a text or a whole value is replaced.
NUMBERS = [0, 1, 2, 3, 4, 15, 16, 17, 31, 32, 33, 63, 64, 65, 127, 128, 255, 256, 1023, 1024, 1025, 4095, 4096, 65535, 65536,
           2**31 - 1, 2**31, 2**32 - 1, 2**32, 2**53, 2**63 - 1, 2**63, 2**64 - 1, 2**64, 10**30]
TEXTS = ["", "a", "None", "x" * 64, "x" * 65, "x" * 4095, "x" * 4096, "\0", "é"]
VALUES = [None, True, False, 0, 1, -1, 1.0, 1e3, *TEXTS, [], [1], {}, {"a": 1}]
LIMITER = {"bandwidth": {"size": 100, "refill_time": 10, "one_time_burst": 5}, "ops": {"size": 0, "refill_time": 1}}
DRIVE = {"drive_id": "d", "path_on_host": "disk", "is_root_device": True, "is_read_only": False, "cache_type": "Writeback"}
SAVE = ("PUT", "/snapshot/create", {"snapshot_path": "s", "mem_file_path": "m", "snapshot_type": "Full"})
# Where a memory file says that a merge is unfinished.
MERGING = 32
# A start whose image doesn't fit in memory.
TOO_LARGE = [("/machine-config", '{"vcpu_count":1,"mem_size_mib":4}'), ("/boot-source", '{"kernel_image_path":"big"}'),
             ("/actions", '{"action_type":"InstanceStart"}')]
# The calls of the API with the fields of their bodies.
CALLS = [
    ("PUT", "/boot-source", {"kernel_image_path": "k", "initrd_path": "i", "boot_args": "a b"}),
    ("PUT", "/boot-source", {"kernel_image_path": "k"}),
    ("PUT", "/boot-source", {"kernel_image_path": "big", "initrd_path": "big"}),
    ("PUT", "/boot-source", {"kernel_image_path": "k", "initrd_path": "gone"}),
    ("PUT", "/drives/d", DRIVE),
    ("PUT", "/drives/e", {"drive_id": "e", "path_on_host": "disk", "is_root_device": False}),
    ("PUT", "/drives/f", {"drive_id": "f", "path_on_host": "disk", "is_root_device": True}),
    ("PATCH", "/drives/d", {"drive_id": "d", "path_on_host": "other"}),
    ("PUT", "/machine-config", {"vcpu_count": 2, "mem_size_mib": 4, "smt": False, "track_dirty_pages": True,
                                "cpu_template": "None", "huge_pages": "None"}),
    ("PATCH", "/machine-config", {"vcpu_count": 1}),
    ("PUT", "/mmds", {"a": {"b": [1, "c"]}, "d": None}),
    ("PATCH", "/mmds", {"a": {"b": None}, "e": 7}),
    ("PUT", "/actions", {"action_type": "InstanceStart"}),
    ("PATCH", "/vm", {"state": "Paused"}),
    ("PATCH", "/vm", {"state": "Resumed"}),
    SAVE,
    ("PUT", "/snapshot/create", {"snapshot_path": "t", "mem_file_path": "u", "snapshot_type": "Diff"}),
    ("PUT", "/snapshot/load", {"snapshot_path": "s", "mem_file_path": "m", "resume_vm": True}),
    ("PUT", "/snapshot/load", {"snapshot_path": "s", "mem_backend": {"backend_path": "m", "backend_type": "File"},
                               "enable_diff_snapshots": True}),
    ("GET", "/", None), ("GET", "/version", None), ("GET", "/machine-config", None), ("GET", "/mmds", None), ("GET", "/vm/config", None),
    ("PUT", "/drives/l", {"drive_id": "l", "path_on_host": "disk", "is_root_device": False, "rate_limiter": LIMITER}),
    ("PATCH", "/drives/l", {"drive_id": "l", "rate_limiter": {"ops": None, "bandwidth": LIMITER["ops"]}}),
    ("PUT", "/network-interfaces/n", {"iface_id": "n", "host_dev_name": "t", "guest_mac": "02:00:00:00:00:0A", "tx_rate_limiter": LIMITER}),
    ("PATCH", "/network-interfaces/n", {"iface_id": "n", "rx_rate_limiter": LIMITER, "tx_rate_limiter": {}}),
    ("PUT", "/vsock", {"guest_cid": 3, "uds_path": "v", "vsock_id": "a"}),
    ("PUT", "/balloon", {"amount_mib": 1, "deflate_on_oom": True, "stats_polling_interval_s": 1}),
    ("PUT", "/balloon", {"amount_mib": 1, "deflate_on_oom": False}),
    ("PATCH", "/balloon", {"amount_mib": 2}), ("PATCH", "/balloon/statistics", {"stats_polling_interval_s": 2}),
    ("PUT", "/entropy", {"rate_limiter": LIMITER}), ("PUT", "/entropy", {}),
    ("PUT", "/mmds/config", {"network_interfaces": ["n"], "version": "V2", "ipv4_address": "169.254.169.254"}),
    ("GET", "/balloon", None), ("GET", "/balloon/statistics", None),
]
METHODS = ["GET", "PUT", "PATCH", "POST", "DELETE", "HEAD", "get", "FOO", "P\x01T", ""]
PATHS = ["/", "/version", "/vm/config", "/drives/", "/drives/d/", "/drives/" + "d" * 65, "/drives/d?x", "//", "/boot-source/", "*",
         "http://a/", "", "/snapshot/create", "/vsock", "/mmds/config", "/network-interfaces/n", "/entropy"]
REPLIES = ["ok", "fail", "none", "now 0", "now 18446744073709551615", "part " + "5a" * 64, "part " + "00" * 63, "part", "frame 14",
           "new 1", "bytes 1 61", "ended 1", "dialled 1", "word 0123456789abcdef", "word 0"]
# A guest of seven instructions that goes round and counts in a word of one of 32 pages after the other: auipc t0, 16; addi t2, t2, 1;
# andi t3, t2, 31; slli t3, t3, 12; add t3, t3, t0; sd t2, 8(t3); jal.
IMAGE = "970201009383130013fef301131ece00330e5e0023347e006ff05ffe"


# What starts a machine, makes it stand still and saves it.
START = [("PUT", "/boot-source", {"kernel_image_path": "k"}),
         ("PUT", "/machine-config", {"vcpu_count": 1, "mem_size_mib": 4, "track_dirty_pages": True}), ("PUT", "/drives/d", DRIVE),
         ("PUT", "/actions", {"action_type": "InstanceStart"}), ("PATCH", "/vm", {"state": "Paused"}), SAVE]
# Which kind an input is, by its number.
KINDS = ("script", "body", "chain", "stream", "files", "script", "body", "chain", "queue", "stream", "script", "body", "files", "chain",
         "clients", "scarce", "script", "body", "calls", "stream", "queue", "input", "files", "output")


class Inputs:
    """All inputs of a seed."""

    def __init__(self, seed):
        self.seed = seed
        found = scripts_below("examples", "crates/script_cases/data") + scripts_of_chains()
        self.scripts = [[short(line) for line in lines] for lines in found]
        self.drives = [it for it in self.scripts if has_drive(it)]

    def digest(self):
        """Of the scripts that inputs are made from, and of the first inputs: where it is the same, so is each input."""
        whole = hashlib.sha256(repr(self.scripts).encode())
        for number in range(10 * len(KINDS)):
            whole.update(repr(self.make(number)[:2]).encode())
        return whole.hexdigest()

    def make(self, number):
        """The kind of an input, and its script. For the kind `files` the script is what goes on from changed files."""
        chance = random.Random(f"{self.seed} {number}")
        kind = KINDS[number % len(KINDS)]
        if kind == "chain":
            return kind, chain(chance), chance
        made = {"input": self.script, "output": self.script, "scarce": self.any_script, "calls": failing_script}.get(kind)
        return kind, with_little_memory(made(chance) if made else getattr(self, kind)(chance)), chance

    def any_script(self, chance):
        """A script of a kind that asks for memory."""
        return chance.choice([self.script, self.body, self.stream])(chance)

    def script(self, chance):
        lines = chance.choice(self.scripts)
        for _ in range(chance.randint(1, 3) if chance.random() < 0.5 else chance.randint(4, 12)):
            lines = changed_lines(chance, lines)
        return ended(chance, lines)

    def queue(self, chance):
        """A guest with drives whose image has other bytes: its rings and descriptors are then whatever stands there."""
        lines = list(chance.choice(self.drives))
        images = [k for k, it in enumerate(lines) if it.startswith(b"file ") and len(it) > 60]
        for _ in range(chance.randint(1, 3) if chance.random() < 0.5 else chance.randint(4, 40)):
            if images:
                k = chance.choice(images)
                lines[k] = changed_digit(chance, lines[k])
        if chance.random() < 0.3:
            lines = changed_lines(chance, lines)
        return ended(chance, lines)

    def stream(self, chance):
        """Requests as the bytes of a connection, in pieces, some of them changed."""
        sent = b"".join(request_bytes(chance, *chance.choice(CALLS)) for _ in range(chance.randint(1, 6)))
        for _ in range(chance.choice([0, 1, 1, 2, 3, 20])):
            sent = changed_bytes(chance, sent)
        lines = [f"file k {IMAGE}".encode(), b"conn"]
        while sent:
            size = min(len(sent), chance.choice([1, 2, 7, 30, 100, 1000, 5000]))
            lines.append(b"bytes " + sent[:size].hex().encode())
            sent = sent[size:]
            if chance.random() < 0.05:
                lines.append(b"conn")
            if chance.random() < 0.1:
                lines.append(b"step h0 20")
        return ended(chance, lines + [b"api GET /vm/config", b"conn", b"api GET /"])

    def clients(self, chance):
        """Clients of a server, one behind another: `client STAYS` or `client LEAVES`, and a line `bytes HEX` for each piece that it sends."""
        lines = []
        for _ in range(chance.randint(1, 6)):
            lines.append(b"client " + chance.choice([b"stays", b"stays", b"stays", b"leaves"]))
            sent = b"".join(request_bytes(chance, *chance.choice(CALLS)) for _ in range(chance.randint(1, 6)))
            for _ in range(chance.choice([0, 0, 1, 1, 2, 3, 20])):
                sent = changed_bytes(chance, sent)
            while sent:
                size = min(len(sent), chance.choice([1, 7, 30, 100, 1000, 5000, 70000]))
                lines.append(b"bytes " + sent[:size].hex().encode())
                sent = sent[size:]
        return b"\n".join(lines) + b"\n"

    def body(self, chance):
        """Calls in any order, with fields that are missing, at limits, of another type, or unknown; some before a start, and some after it."""
        lines = [f"file k {IMAGE}".encode(), b"file i 00", b"file disk " + b"00" * 1024, b"file other " + b"00" * 513]
        for _ in range(chance.choice([0, 0, 1, 2, 4])):
            lines.append(api_line(*changed_call(chance, 0.3)))
        if chance.random() < 0.02:
            lines += drives_up_to(chance.choice([15, 16, 17]))
        if chance.random() < 0.02:
            lines += [api_line("PUT", path, body) for path, body in TOO_LARGE]
        for method, path, fields in START[: chance.randint(0, len(START))]:
            lines.append(api_line(method, path, json.dumps(fields)))
        for _ in range(chance.randint(1, 10)):
            lines.append(api_line(*changed_call(chance, 0.7)))
            if chance.random() < 0.2:
                lines.append(b"step h0 50")
        return ended(chance, lines)

    def files(self, chance):
        """What is asked of changed files of a snapshot: merges are in front, as lines `merge BASE DIFF`."""
        lines = []
        for _ in range(chance.choice([0, 1, 1, 2])):
            base, diff = chance.choice(["m0", "m0", "m0", "m1", "s0"]), chance.choice(["m1", "m1", "m2", "m2", "m0", "s1"])
            lines.append(f"merge {base} {diff}".encode())
        memory = chance.choice(["m0", "m0", "m0", "m3", "m1", "absent"])
        state = chance.choice(["s0", "s1", "s2", "s3", "s3", "m0", "absent"])
        load = {"snapshot_path": state, "mem_file_path": memory, "track_dirty_pages": chance.random() < 0.5,
                "resume_vm": chance.random() < 0.7}
        lines += [api_line("PUT", "/snapshot/load", json.dumps(load)), b"api GET /vm/config", b"step h0 200", b"step h1 200",
                  b"step d0 40", b"step t 2", b"reg h0 32", b"mem 80200000 64",
                  b'api PATCH /vm {"state":"Paused"}', b'api PUT /snapshot/create {"snapshot_path":"a","mem_file_path":"b"}',
                  b'api PUT /snapshot/create {"snapshot_type":"Diff","snapshot_path":"c","mem_file_path":"d"}']
        return b"\n".join(lines) + b"\n"


# What the files of the kind `files` are changed from: two full snapshots and two diffs, of a guest with two harts and a drive.
FILES_SCRIPT = b"\n".join([
    f"file k {IMAGE}".encode(), b"file disk " + b"00" * 1024, b"lineage 00000000000000a1",
    b'api PUT /boot-source {"kernel_image_path":"k"}', b'api PUT /machine-config {"vcpu_count":2,"mem_size_mib":4,"track_dirty_pages":true}',
    b'api PUT /drives/d {"drive_id":"d","path_on_host":"disk","is_root_device":true}', b'api PUT /actions {"action_type":"InstanceStart"}',
    b"step h0 33", b"step d0 3", b'api PATCH /vm {"state":"Paused"}', b'api PUT /snapshot/create {"snapshot_path":"s0","mem_file_path":"m0"}',
    b'api PATCH /vm {"state":"Resumed"}', b"step h0 41", b'api PATCH /vm {"state":"Paused"}',
    b'api PUT /snapshot/create {"snapshot_type":"Diff","snapshot_path":"s1","mem_file_path":"m1"}',
    b'api PATCH /vm {"state":"Resumed"}', b"step h0 70",
    b'api PATCH /vm {"state":"Paused"}', b'api PUT /snapshot/create {"snapshot_type":"Diff","snapshot_path":"s2","mem_file_path":"m2"}',
    b'api PUT /snapshot/create {"snapshot_path":"s3","mem_file_path":"m3"}', b""])


def drives_up_to(count):
    """As many drives."""
    return [api_line("PUT", f"/drives/n{k}", json.dumps({"drive_id": f"n{k}", "path_on_host": "disk", "is_root_device": False})) for k in range(count)]


def changed_call(chance, often):
    """A call, in so many cases with one to three changes of its fields, and now and then with another method, path or byte."""
    method, path, fields = chance.choice(CALLS)
    method = chance.choice(METHODS) if chance.random() < 0.1 else method
    path = chance.choice(PATHS) if chance.random() < 0.1 else path
    body = "" if fields is None else json.dumps(fields)
    if chance.random() < often and fields is not None:
        for _ in range(chance.randint(1, 3)):
            fields = changed_fields(chance, fields)
        body = json.dumps(fields, ensure_ascii=chance.random() < 0.5)
    if chance.random() < 0.01:
        body = json.dumps({"a": "x" * chance.choice([51_190, 51_200, 65_536, 70_000])})
    if chance.random() < 0.1:
        body = changed_bytes(chance, body.encode()).replace(b"\n", b" ").decode("latin-1")
    return method, path, body


def failing_script(chance=None):
    """A full create and one of a diff, for which calls on files are to fail."""
    return FAILING_SCRIPT


def names_in(script):
    """The files of a snapshot that a script of the kind `files` names."""
    words = set(re.findall(rb"[sm][0-3]\b", script[:2000]))
    return sorted(it.decode() for it in words)


def bases_in(script):
    """The files into which the merges in front of a script go."""
    return {it.decode() for it in re.findall(rb"^merge ([sm][0-3]) ", script, re.M)}


def with_full_slots(file):
    """Opens all slots of a memory file, so that no diff can be merged into it; the last one has the file's own identity."""
    own = file.read(32)[16:32]
    for slot in range(100):
        file.seek(64 + 32 * slot)
        identity = own if slot == 99 else own[:8] + (1000 + slot).to_bytes(8, "little")
        file.write(identity + b"\1" + bytes(15))


def changes_of(chance, names):
    """Changes of one to three places of these files: which file, what is done, and two numbers for it."""
    changes = []
    if "m0" in names and chance.random() < 0.02:
        changes.append(("m0", "slots", 0, 0))
    if "m0" in names and chance.random() < 0.02:
        changes.append(("m0", "byte", MERGING, 1))
    for _ in range(chance.choice([0, 1, 1, 2, 3]) if names else 0):
        what = chance.random()
        name = chance.choice(names)
        if what < 0.1:
            changes.append((name, "cut", chance.choice([0, 1, 31, 32, 63, 64, 4095, 4096, -1, -2]), 0))
        elif what < 0.2:
            changes.append((name, "more", chance.choice([1, 8, 4096]), 0))
        else:
            near = chance.choice([64, 256, 600, 4160, 1 << 23])
            changes.append((name, "byte", chance.randrange(near), chance.choice([0, 1, 2, 127, 128, 255, chance.randrange(256)])))
    return changes


def change_file(folder, name, what, number, byte):
    """Makes such a change; most are near a file's start. A cut of -1 is by a byte, and one of -2 by half."""
    with open(os.path.join(folder, name), "r+b") as file:
        size = file.seek(0, os.SEEK_END)
        file.seek(0)
        if what == "slots" and size > 4096:
            with_full_slots(file)
        elif what == "cut":
            file.truncate(max(0, size - 1) if number == -1 else size // 2 if number == -2 else number)
        elif what == "more":
            file.truncate(size + number)
        elif what == "byte" and size:
            file.seek(min(size - 1, number))
            file.write(bytes([byte]))


FAILING_SCRIPT = b"\n".join([
    b"file k 9772e0ff23a052006f000000", b'api PUT /boot-source {"kernel_image_path":"k"}',
    b'api PUT /machine-config {"vcpu_count":1,"mem_size_mib":4,"track_dirty_pages":true}', b'api PUT /actions {"action_type":"InstanceStart"}',
    b"step h0 3", b'api PATCH /vm {"state":"Paused"}', b'api PUT /snapshot/create {"snapshot_path":"s","mem_file_path":"m"}',
    b'api PATCH /vm {"state":"Resumed"}', b"step h0 3", b'api PATCH /vm {"state":"Paused"}',
    b'api PUT /snapshot/create {"snapshot_type":"Diff","snapshot_path":"t","mem_file_path":"u"}', b"api GET /vm/config", b""])


def ended(chance, lines):
    """The script of these lines; the last one may lack its end."""
    return b"\n".join(lines) + (b"" if chance.random() < 0.03 else b"\n")


def api_line(method, path, body):
    words = ["api", method, path] + ([body] if body else [])
    return " ".join(words).encode("utf-8", "surrogatepass").replace(b"\n", b" ")


def request_bytes(chance, method, path, fields):
    body = b"" if fields is None else json.dumps(fields).encode()
    heads = [f"{method} {path} HTTP/1.{chance.choice('01')}"]
    if body or chance.random() < 0.3:
        heads.append(f"{chance.choice(['Content-Length', 'content-length'])}: {len(body)}")
    for _ in range(chance.choice([0, 0, 1, 3, 31, 33])):
        heads.append(f"X-{chance.choice('abc')}: {'v' * chance.choice([0, 1, 40])}")
    if chance.random() < 0.05:
        heads.append(chance.choice(["Transfer-Encoding: chunked", "Content-Length: +5", "Content-Length: 65537",
                                    "Content-Length: 99999999999999999999", "Expect: 100-continue", " folded"]))
    ending = chance.choice(["\r\n", "\r\n", "\r\n", "\n"])
    return chance.choice([b"", b"", b"\r\n"]) + ending.join(heads + ["", ""]).encode() + body


def changed_fields(chance, fields):
    fields = dict(fields)
    name = chance.choice(sorted(fields)) if fields else "x"
    what = chance.random()
    if what < 0.2:
        fields.pop(name, None)
    elif what < 0.35:
        fields[chance.choice(["unknown", "rate_limiter", "iops", name + "x", ""])] = chance.choice(VALUES)
    elif what < 0.7:
        fields[name] = chance.choice(VALUES)
    else:
        fields[name] = chance.choice(NUMBERS)
    return fields


def changed_bytes(chance, given):
    if not given:
        return given
    at = chance.randrange(len(given))
    what = chance.random()
    if what < 0.4:
        byte = chance.choice([0, 9, 10, 13, 32, 34, 44, 58, 92, 123, 125, 127, 128, 255, chance.randrange(256)])
        return given[:at] + bytes([byte]) + given[at + 1:]
    if what < 0.6:
        return given[:at] + given[at + chance.randint(1, 8):]
    if what < 0.8:
        return given[:at] + given[at:at + chance.randint(1, 40)] + given[at:]
    return given[:at] + bytes(chance.randrange(256) for _ in range(chance.randint(1, 8))) + given[at:]


def changed_digit(chance, line):
    """A `file` line with one hexadecimal digit, or eight in a row, changed."""
    start = line.rfind(b" ") + 1
    if start >= len(line):
        return line
    at = chance.randrange(start, len(line))
    new = chance.choice(HEX) if chance.random() < 0.8 else "".join(chance.choice(HEX + "00ff") for _ in range(8))
    return line[:at] + new.encode()[: len(line) - at] + line[at + len(new):]


def changed_lines(chance, lines):
    """One change of a script: a line goes, comes twice, changes places, or has another word, number, digit or byte."""
    lines = list(lines)
    if not lines:
        return [b"api GET /"]
    k, j = chance.randrange(len(lines)), chance.randrange(len(lines))
    what = chance.random()
    if what < 0.12:
        del lines[k]
    elif what < 0.24:
        lines.insert(j, lines[k])
    elif what < 0.34:
        lines[k], lines[j] = lines[j], lines[k]
    elif what < 0.5:
        lines.insert(k, made_line(chance))
    elif what < 0.65:
        numbers = list(re.finditer(rb"[0-9]+", lines[k][:2000]))
        if numbers:
            it = chance.choice(numbers)
            lines[k] = lines[k][: it.start()] + str(chance.choice(NUMBERS)).encode() + lines[k][it.end():]
            lines[k] = short(lines[k])
    elif what < 0.85:
        lines[k] = changed_bytes(chance, lines[k]).replace(b"\n", b"")
        lines[k] = short(lines[k])
    elif lines[k].startswith(b"file "):
        lines[k] = changed_digit(chance, lines[k])
    else:
        lines[k] = chance.choice([b"", b"#" + lines[k], lines[k] + b" ", b" " + lines[k], lines[k].upper()])
    return lines


def made_line(chance):
    actor = chance.choice(["h0", "h1", "h31", "h32", "h255", "h256", "d0", "d1", "d15", "d16", "t", "x"])
    method, path, fields = chance.choice(CALLS)
    address = chance.choice(["80200000", "80000000", "7fffffff", "0", "ffffffffffffffff", "803fffff", "80400000"])
    return chance.choice([
        f"step {actor} {chance.choice([0, 1, 2, 10, 1000])}", f"reply {actor} {chance.choice(REPLIES)}", "console",
        f"reg {actor} {chance.choice(NUMBERS)}", f"mem {address} {chance.choice([0, 1, 2, 63, 64, 65])}", "conn",
        f"lineage {chance.randrange(2**64):016x}", f"file f {'00' * chance.choice([0, 1, 600])}",
        f"api {method} {path} {'' if fields is None else json.dumps(fields)}",
    ]).encode()
