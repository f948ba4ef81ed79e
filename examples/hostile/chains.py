"""Chains of a drive's queue, of which it is known beforehand whether the queue is broken, and why: the first reason by VIRTIO's rules, from
the bytes that lie in the guest's memory."""

import struct

IMAGE_AT, DISK_BYTES = 0x80200000, 2048
RAM, RAM_END = 0x80000000, 0x80400000
# The machine's device tree lies behind this place, and so do bytes that the guest didn't write.
KNOWN_END = 0x803F0000
TABLE, RING, HEADER, USED, DATA = 0x80200200, 0x80200300, 0x80200380, 0x80300000, 0x80310000
# Tables that aren't the queue's own: the second one begins eight bytes before a page's end.
TABLES, IMAGE_BYTES, MOST_PARTS = (0x802003A0, 0x80200FF8), 0x1200, 256
NEXT, WRITE, INDIRECT = 1, 2, 4
# What a driver may accept of the features 28 and 29, in the lower word.
ACCEPTS_INDIRECT, ACCEPTS_EVENT_INDEX = 1 << 28, 1 << 29
# The last one is a block device's own: a chain has at least 16 readable bytes, for the header, and a writable one, for the status.
REASONS = ("size", "table", "ahead", "head", "next", "indirect", "table_length", "table_outside", "entry", "length", "outside", "order", "long",
           "short")
SIZES = {2**k for k in range(9)}


class Unknown(Exception):
    """A chain is in bytes that aren't the image's."""


class Queue:
    """A queue's fields and the image that has its rings. The numbers of a descriptor are its address, length, flags and next."""

    def __init__(self, chance):
        self.size = chance.choice([1, 2, 4, 8, 8, 8, 16])
        self.table, self.ring, self.used = TABLE, RING, USED
        self.index, self.head = 1, chance.randrange(self.size)
        self.ask, self.sector = chance.choice([0, 0, 1, 4, 8, 9]), chance.choice([0, 0, 1, 3, 4, 2**63])
        self.accepted = chance.choice([0, ACCEPTS_INDIRECT, ACCEPTS_EVENT_INDEX, ACCEPTS_INDIRECT | ACCEPTS_EVENT_INDEX])
        self.parts, self.tables = {}, []
        self.link(chance)
        if chance.random() < (0.7 if self.accepted & ACCEPTS_INDIRECT else 0.1):
            self.name_table(chance)

    def link(self, chance):
        """A chain of a header, bytes of a disk and a status, through descriptors in any order."""
        numbers = [self.head] + chance.sample([k for k in range(self.size) if k != self.head], self.size - 1)
        count = min(self.size, chance.choice([1, 2, 3, 3, 3, 4, 8, 16]))
        flag = 0 if self.ask == 1 else WRITE
        for k, at in enumerate(numbers[:count]):
            first, last = k == 0, k == count - 1
            place = (HEADER, 16, 0) if first else (DATA, 1, WRITE) if last else (DATA + 512 * k, chance.choice([512, 512, 64, 1, 1024]), flag)
            following = numbers[k + 1] if not last else chance.choice([0, 99])
            self.parts[at] = [place[0], place[1], place[2] | (0 if last else NEXT), following]

    def name_table(self, chance):
        """The chain goes on from one of its descriptors in a table of its own, whose entries are in any order."""
        chain, at = [], self.head
        while True:
            chain.append(at)
            if not self.parts[at][2] & NEXT:
                break
            at = self.parts[at][3]
        first = chance.randrange(len(chain))
        rest = [self.parts.pop(it) for it in chain[first:]]
        count = len(rest) + chance.choice([0, 0, 1, 3])
        places = [0] + chance.sample(range(1, count), len(rest) - 1)
        entries = {}
        for k, part in enumerate(rest):
            part[3] = places[k + 1] if part[2] & NEXT else part[3]
            entries[places[k]] = part
        place = chance.choice(TABLES)
        self.tables.append((place, entries))
        self.parts[chain[first]] = [place, 16 * count, INDIRECT | chance.choice([0, 0, WRITE]), chance.choice([0, 99])]

    def descriptors(self):
        """Each of them, in the queue's table or in another."""
        return list(self.parts.values()) + [part for _, entries in self.tables for part in entries.values()]

    def image(self):
        """The guest's program, which sets up the queue and reads Status for ever, and its memory behind it."""
        writes = [(0x70, 1), (0x70, 3), (0x24, 0), (0x20, self.accepted), (0x24, 1), (0x20, 1), (0x70, 11), (0x30, 0), (0x38, self.size),
                  (0x80, self.table), (0x84, self.table >> 32), (0x90, self.ring), (0x94, self.ring >> 32), (0xA0, self.used),
                  (0xA4, self.used >> 32), (0x44, 1), (0x70, 15), (0x50, 0)]
        words = [0x100002B7]  # lui t0, 0x10000
        for register, value in writes:
            low = value & 0xFFF
            high = ((value + 0x800) & 0xFFFFFFFF) >> 12
            words += [high << 12 | 0x337, low << 20 | 0x30313, (register >> 5) << 25 | 6 << 20 | 0x2A023 | (register & 31) << 7]
        words += [0x0702AA03, 0xFFDFF06F]  # lw s4, 0x70(t0); j back
        image = bytearray(IMAGE_BYTES)
        struct.pack_into(f"<{len(words)}I", image, 0, *words)
        for at, (place, length, flags, following) in self.parts.items():
            struct.pack_into("<QIHH", image, 0x200 + 16 * at, place, length, flags, following)
        for table, entries in self.tables:
            for at, (place, length, flags, following) in entries.items():
                struct.pack_into("<QIHH", image, table - IMAGE_AT + 16 * at, place, length, flags, following)
        struct.pack_into("<HH", image, 0x300, 0, self.index)
        for k in range(min(self.size, 16)) if 0 < self.size <= 256 else ():
            struct.pack_into("<H", image, 0x304 + 2 * k, self.head)
        struct.pack_into("<IIQ", image, 0x380, self.ask, 0, self.sector)
        return image


def spoil(chance, queue):
    """One change of a queue."""
    part = chance.choice(queue.descriptors())
    what = chance.randrange(13)
    if what == 0:
        queue.size = chance.choice([0, 3, 5, 6, 12, 100, 255, 257, 512, 65535, 65536, 65544, 2**32 - 1])
    elif what == 1:
        name = chance.choice(["table", "ring", "used"])
        setattr(queue, name, getattr(queue, name) + chance.choice([1, 2, 4, 8, -RAM, 2**32, 2**63]))
    elif what == 2:
        name = chance.choice(["table", "ring", "used"])
        setattr(queue, name, chance.choice([0, RAM - 16, RAM_END - 16, RAM_END - 4, RAM_END, 2**64 - 16]))
    elif what == 3:
        queue.index = chance.choice([0, 2, queue.size % 2**16, (queue.size + 1) % 2**16, 32768, 65535])
    elif what == 4:
        queue.head = chance.choice([queue.size % 2**16, (queue.size + 1) % 2**16, 65535])
    elif what == 5:
        part[2] |= NEXT
        part[3] = chance.choice([queue.size % 2**16, 65535])
    elif what == 6:
        part[2] |= chance.choice([INDIRECT, 8, 0x8000])
    elif what == 7:
        part[1] = chance.choice([0, 0, 1, 2**32 - 1, 4096])
    elif what == 8:
        part[0] = chance.choice([0, RAM - 1, RAM_END - 1, RAM_END, 2**64 - 8, DATA + 4095])
    elif what == 9:
        part[2] ^= WRITE
    elif what == 10:
        part[2] |= NEXT
        part[3] = chance.choice(sorted(queue.parts))
    elif what == 11 and part[2] & INDIRECT:
        part[chance.choice([0, 1])] = chance.choice([0, 8, 24, 4096, 4112, 16 * 255, RAM - 16, RAM_END - 16, RAM_END - 8])
    else:
        part[2] ^= NEXT


def bytes_at(image, at, length):
    if not (IMAGE_AT <= at and at + length <= KNOWN_END):
        raise Unknown
    return bytes(image[at - IMAGE_AT:at - IMAGE_AT + length]).ljust(length, b"\0")


def is_ram(at, length):
    return RAM <= at and at + length <= RAM_END


def flaw_of_queue(queue):
    size = min(queue.size, 65535)
    if size not in SIZES:
        return "size"
    event = 2 if queue.accepted & ACCEPTS_EVENT_INDEX else 0
    places = ((queue.table, 16, 16 * size), (queue.ring, 2, 4 + 2 * size + event), (queue.used, 4, 4 + 8 * size + event))
    return None if all(at % step == 0 and is_ram(at, length) for at, step, length in places) else "table"


def flaw_of(image, queue):
    """The first reason why the queue is broken at its first chain, or None; and whether there is a chain."""
    flaw = flaw_of_queue(queue)
    if flaw:
        return flaw, False
    index, = struct.unpack("<H", bytes_at(image, queue.ring + 2, 2))
    if index == 0:
        return None, False
    if index > queue.size:
        return "ahead", False
    at, = struct.unpack("<H", bytes_at(image, queue.ring + 4, 2))
    if at >= queue.size:
        return "head", False
    chain = Chain(image, queue)
    while True:
        flaw = chain.flaw_at(at)
        if flaw:
            return flaw, True
        at = chain.following
        if at is None:
            return (None, index == 1) if chain.readable >= 16 and chain.writable else ("short", True)


class Chain:
    """A walk of one chain, from descriptor to descriptor."""

    def __init__(self, image, queue):
        self.image, self.queue = image, queue
        self.table, self.limit, self.is_own = queue.table, queue.size, True
        self.count, self.readable, self.writable, self.following = 0, 0, False, None

    def flaw_at(self, at):
        """Why the queue is broken at this descriptor, or None; the number of the one that follows, if there is one."""
        place, length, flags, following = struct.unpack("<QIHH", bytes_at(self.image, self.table + 16 * at, 16))
        goes_on = bool(flags & NEXT)
        if self.is_own and goes_on and following >= self.queue.size:
            return "next"
        if flags & INDIRECT:
            return self.flaw_of_table(place, length, goes_on)
        most = self.queue.size if self.is_own else MOST_PARTS
        flaws = (("entry", not self.is_own and goes_on and following >= self.limit), ("length", length == 0), ("outside", not is_ram(place, length)),
                 ("order", self.writable and not flags & WRITE), ("long", goes_on and self.count + 1 >= most))
        for name, there in flaws:
            if there:
                return name
        self.count += 1
        self.readable += 0 if flags & WRITE else length
        self.writable = self.writable or bool(flags & WRITE)
        self.following = following if goes_on else None
        return None

    def flaw_of_table(self, place, length, goes_on):
        """The same of a descriptor that names a table, whose first entry follows."""
        if not self.queue.accepted & ACCEPTS_INDIRECT or goes_on or not self.is_own:
            return "indirect"
        if length == 0 or length % 16 or length > 4096:
            return "table_length"
        if not is_ram(place, length):
            return "table_outside"
        self.table, self.limit, self.is_own, self.following = place, length // 16, False, 0
        return None


def chain(chance):
    """A script, and why the queue is broken in it: a reason, `none` where it isn't, or None where that isn't known."""
    queue = Queue(chance)
    for _ in range(chance.choice([0, 1, 1, 1, 2, 3])):
        spoil(chance, queue)
    image = queue.image()
    try:
        flaw, known = flaw_of(image, queue)
    except Unknown:
        flaw, known = None, False
    read_only = "true" if chance.random() < 0.2 else "false"
    lines = [f"file k {image.hex()}", f"file d {'00' * DISK_BYTES}", 'api PUT /boot-source {"kernel_image_path":"k"}',
             'api PUT /machine-config {"vcpu_count":1,"mem_size_mib":4}',
             'api PUT /drives/r {"drive_id":"r","path_on_host":"d","is_root_device":true,"is_read_only":%s}' % read_only,
             'api PUT /actions {"action_type":"InstanceStart"}', "step h0 300", "step d0 900", "reply d0 fail", "step d0 900", "step h0 20",
             "reg h0 20", ""]
    wanted = flaw if flaw else "none" if known or queue.index == 0 else None
    return "\n".join(lines).encode(), wanted


def fault_of_chain(out, wanted, seen):
    """What is wrong with the Status that a guest read."""
    if wanted is None:
        return None
    status = 0x4F if wanted != "none" else 0x0F
    if out.split(b"\n")[-2:-1] != [b"= %016x" % status]:
        return f"a queue broken by {wanted}: {out[-200:]!r}"
    seen[f"broken {wanted}"] += 1
    return None
