"""What brings each refusal that only one call has: the call, its refusal, the calls before it, and the request."""

from served import Served

EVERY = "/drives/{drive_id}", "/network-interfaces/{iface_id}"
SOURCE = ("PUT", "/boot-source", {"kernel_image_path": "kernel"})
SMALL = ("PUT", "/machine-config", {"vcpu_count": 1, "mem_size_mib": 4})
TRACKED = ("PUT", "/machine-config", {"vcpu_count": 1, "mem_size_mib": 4, "track_dirty_pages": True})
START = ("PUT", "/actions", {"action_type": "InstanceStart"})
PAUSE = ("PATCH", "/vm", {"state": "Paused"})
FILES = {"snapshot_path": "state", "mem_file_path": "memory"}
DIFF = {"snapshot_type": "Diff", "snapshot_path": "state2", "mem_file_path": "diff"}
BOOTED = (SOURCE, SMALL, START)
# No served machine has written 2^63 snapshots.
OUT_OF_REACH = {("PUT", "/snapshot/create", 28)}


def drive(name, is_root=False, path="disk"):
    return ("PUT", f"/drives/{name}", {"drive_id": name, "path_on_host": path, "is_root_device": is_root})


def balloon(amount, interval=0):
    return ("PUT", "/balloon", {"amount_mib": amount, "deflate_on_oom": False, "stats_polling_interval_s": interval})


def load(state="state", memory="memory"):
    return ("/snapshot/load", {"snapshot_path": state, "mem_file_path": memory})


FULL = tuple(drive(f"d{k}") for k in range(16))
REPORTING = (SOURCE, SMALL, balloon(1, 1), START)
SILENT = (SOURCE, SMALL, balloon(1), START)
STATISTICS = "/balloon/statistics"
TEXT = {"a": "x" * 51200}

CASES = (
    ("PUT", "/machine-config", 7, (balloon(64),), ("/machine-config", {"vcpu_count": 1, "mem_size_mib": 32})),
    ("PATCH", "/machine-config", 7, (balloon(64),), ("/machine-config", {"mem_size_mib": 32})),
    ("PUT", EVERY[0], 15, (drive("a", True),), drive("b", True)[1:]),
    ("PUT", EVERY[0], 19, FULL, drive("d16")[1:]),
    ("PATCH", EVERY[0], 16, BOOTED, ("/drives/a", {"drive_id": "a"})),
    ("PATCH", EVERY[0], 18, (SOURCE, SMALL, drive("a"), START), ("/drives/a", {"drive_id": "a", "path_on_host": "none"})),
    ("PUT", EVERY[1], 19, FULL, ("/network-interfaces/a", {"iface_id": "a", "host_dev_name": "link"})),
    ("PATCH", EVERY[1], 16, BOOTED, ("/network-interfaces/a", {"iface_id": "a"})),
    ("PUT", "/vsock", 19, FULL, ("/vsock", {"guest_cid": 3, "uds_path": "vsock"})),
    ("GET", "/balloon", 16, (), ("/balloon",)),
    ("PUT", "/balloon", 7, (), balloon(129)[1:]),
    ("PUT", "/balloon", 19, FULL, balloon(1)[1:]),
    ("PUT", "/entropy", 19, FULL, ("/entropy", {})),
    ("PATCH", "/balloon", 16, BOOTED, ("/balloon", {"amount_mib": 1})),
    ("PATCH", "/balloon", 7, SILENT, ("/balloon", {"amount_mib": 5})),
    ("GET", STATISTICS, 16, BOOTED, (STATISTICS,)),
    ("GET", STATISTICS, 29, SILENT, (STATISTICS,)),
    ("PATCH", STATISTICS, 16, BOOTED, (STATISTICS, {"stats_polling_interval_s": 1})),
    ("PATCH", STATISTICS, 29, SILENT, (STATISTICS, {"stats_polling_interval_s": 1})),
    ("PATCH", STATISTICS, 29, REPORTING, (STATISTICS, {"stats_polling_interval_s": 0})),
    ("PUT", "/mmds/config", 16, (), ("/mmds/config", {"network_interfaces": ["eth0"]})),
    ("PUT", "/mmds", 6, (), ("/mmds", '{"a":[1.0]}')),
    ("PUT", "/mmds", 6, (), ("/mmds", '{"a":{"b":-9223372036854775809}}')),
    ("PUT", "/mmds", 8, (), ("/mmds", TEXT)),
    ("PATCH", "/mmds", 6, (("PUT", "/mmds", {}),), ("/mmds", '{"a":1e3}')),
    ("PATCH", "/mmds", 32, (), ("/mmds", {})),
    ("PATCH", "/mmds", 8, (("PUT", "/mmds", {}),), ("/mmds", TEXT)),
    ("PUT", "/actions", 14, (), START[1:]),
    ("PUT", "/actions", 18, (("PUT", "/boot-source", {"kernel_image_path": "none"}),), START[1:]),
    ("PUT", "/actions", 18, (("PUT", "/boot-source", {"kernel_image_path": "kernel", "initrd_path": "none"}),), START[1:]),
    ("PUT", "/actions", 18, (SOURCE, drive("a", path="none")), START[1:]),
    ("PUT", "/actions", 17, (SMALL, ("PUT", "/boot-source", {"kernel_image_path": "large"})), START[1:]),
    ("PUT", "/snapshot/create", 12, BOOTED, ("/snapshot/create", FILES)),
    ("PUT", "/snapshot/create", 20, (*BOOTED, PAUSE), ("/snapshot/create", DIFF)),
    ("PUT", "/snapshot/create", 21, (SOURCE, TRACKED, START, PAUSE), ("/snapshot/create", DIFF)),
    ("PUT", "/snapshot/load", 13, (SOURCE,), load()),
    ("PUT", "/snapshot/load", 18, (), load("none")),
    ("PUT", "/snapshot/load", 18, (), load(memory="none")),
    ("PUT", "/snapshot/load", 22, (), load("closed")),
    ("PUT", "/snapshot/load", 23, (), load("foreign")),
    ("PUT", "/snapshot/load", 23, (), load("memory", "state")),
    ("PUT", "/snapshot/load", 24, (), load("longer")),
    ("PUT", "/snapshot/load", 26, (), load(memory="merging")),
    ("PUT", "/snapshot/load", 25, (), load(memory="shorter")),
    ("PUT", "/snapshot/load", 27, (), load(memory="of_another")),
)

_made = {}


def files_by(brought):
    """The two files of a snapshot, and files that differ from one of them at one place."""
    if _made:
        return _made
    with brought(Served(), (*BOOTED, PAUSE, ("PUT", "/snapshot/create", FILES))) as it:
        for name in ("state", "memory"):
            with open(f"{it.folder}/{name}", "rb") as file:
                _made[name] = file.read()
    state, memory = _made["state"], _made["memory"]
    _made["closed"] = b"\0" + state[1:]
    _made["foreign"] = state[:1] + b"X" + state[2:]
    _made["longer"] = state + b"\0"
    _made["merging"] = memory[:32] + b"\1" + memory[33:]
    _made["shorter"] = memory[:-1]
    _made["of_another"] = memory[:24] + b"\2" + memory[25:]
    _made["large"] = bytes(4 << 20)
    return _made


def prepare(it, brought):
    """Puts the files into a served machine's folder."""
    for name, content in files_by(brought).items():
        with open(f"{it.folder}/{name}", "wb") as file:
            file.write(content)
