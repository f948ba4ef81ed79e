"""The devices that bench/limits/run gives limits: which guest uses one, what calls make it, and what is at its other end."""

import os
import socket
import threading

from machine import image_of

WAITS, RECEIVES = 1 << 63, 1 << 62
WITHOUT_END = (1 << 40) - 1


def rate_of(usual):
    return int(os.environ.get("RATE", usual))


class Disk:
    """A drive. A request has 16 KiB."""

    NAME, LENGTH, RATE = "disk", 16384, rate_of(4_000_000)
    NEEDS = {"bandwidth": LENGTH, "ops": 1}

    def __init__(self, folder):
        with open(f"{folder}/drive", "wb") as file:
            file.write(bytes(64 * self.LENGTH))

    def image(self, waits):
        return image_of("steady", WITHOUT_END + 1 | waits * WAITS)

    def put(self, limits):
        fields = '"drive_id":"root","path_on_host":"drive","is_root_device":true,"cache_type":"Writeback"'
        return "/drives/root", f'{{{fields},"rate_limiter":{limits}}}'

    def patch(self, limits):
        return "/drives/root", f'{{"drive_id":"root","rate_limiter":{limits}}}'

    def end(self):
        pass


class Link:
    """A link whose other end is a thread of this process."""

    LENGTH, RATE = 1514, rate_of(1_000_000)
    NEEDS = {"bandwidth": LENGTH, "ops": 1}
    NUMBER = LENGTH << 40 | WITHOUT_END

    def __init__(self, folder):
        self.door = socket.socket(socket.AF_UNIX)
        self.door.bind(f"{folder}/link")
        self.door.listen()
        self.stream = None
        threading.Thread(target=self.serve, daemon=True).start()

    def serve(self):
        """One connection behind the other."""
        while True:
            try:
                self.stream, _ = self.door.accept()
            except OSError:
                return
            try:
                self.use(self.stream)
            except OSError:
                pass
            self.stream.close()

    def put(self, limits):
        fields = '"iface_id":"eth","host_dev_name":"link","guest_mac":"02:00:00:00:00:08"'
        return "/network-interfaces/eth", f'{{{fields},"{self.NAME}_rate_limiter":{limits}}}'

    def patch(self, limits):
        return "/network-interfaces/eth", f'{{"iface_id":"eth","{self.NAME}_rate_limiter":{limits}}}'

    def end(self):
        self.door.shutdown(socket.SHUT_RDWR)
        self.door.close()


class Sent(Link):
    """Frames that the guest sends. They are read and dropped."""

    NAME = "tx"

    def image(self, waits):
        return image_of("traffic", self.NUMBER | waits * WAITS)

    def use(self, stream):
        while stream.recv(1 << 20):
            pass


class Taken(Link):
    """Frames that the guest takes. They are all the same."""

    NAME = "rx"
    FRAME = (1514).to_bytes(4, "big") + b"\xff" * 6 + bytes(6) + b"\x88\xb5" + bytes(1500)

    def image(self, waits):
        return image_of("traffic", self.NUMBER | RECEIVES | waits * WAITS)

    def use(self, stream):
        while True:
            stream.sendall(self.FRAME * 16)


DEVICES = {it.NAME: it for it in (Disk, Sent, Taken)}
