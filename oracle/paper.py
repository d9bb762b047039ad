#!/usr/bin/env python3
"""Document 01 as a program: a second, plain reading of the paper, to run against the Rust before the port is there.

It reads the script language of REPLAY.md on standard input (or FILE) and answers as the port should: `no N` with
document 01's number. It is written from the paper alone: byte arrays and whole searches, no speed, and no cache under a
volume. `check` is not in it. `record` and `trace` are answered as the oracle does.
"""

import hashlib
import sys

BLOCK = 1024
DIRECT = 12
INDIRECT = 256
FILE_LIMIT = 274432
SLOTS = 50


class Refused(Exception):
    """A number of document 01's table."""

    def __init__(self, number):
        self.number = number


def u32(memory, at):
    return int.from_bytes(memory[at:at + 4], "little")


def layout(size, ninodes, nlog):
    """inodestart, bmapstart and data start, or None where the numbers are not good."""
    if not (12 <= nlog <= 30 and 2 <= ninodes <= 65535 and size <= 8191):
        return None
    inodestart = 2 + nlog
    bmapstart = inodestart + ninodes // 16 + 1
    data = bmapstart + size // 8192 + 1
    return (inodestart, bmapstart, data) if size - data >= 1 else None


def formatted(size, ninodes, nlog):
    inodestart, bmapstart, data = layout(size, ninodes, nlog)
    image = bytearray(size * BLOCK)
    numbers = [0x10203040, size, size - data, ninodes, nlog, 2, inodestart, bmapstart]
    image[BLOCK:BLOCK + 32] = b"".join(n.to_bytes(4, "little") for n in numbers)
    root = inodestart * BLOCK + 64
    image[root:root + 16] = bytes([1, 0, 0, 0, 0, 0, 1, 0]) + (BLOCK).to_bytes(4, "little") + data.to_bytes(4, "little")
    image[data * BLOCK:data * BLOCK + 3] = b"\1\0."
    image[data * BLOCK + 16:data * BLOCK + 20] = b"\1\0.."
    for used in range(data + 1):
        image[bmapstart * BLOCK + used // 8] |= 1 << used % 8
    return image


class Inode:
    """The record of 64 bytes."""

    def __init__(self, raw):
        self.kind, self.major, self.minor, self.nlink = (int.from_bytes(raw[i:i + 2], "little") for i in (0, 2, 4, 6))
        self.size = u32(raw, 8)
        self.addresses = [u32(raw, 12 + 4 * k) for k in range(13)]

    def raw(self):
        shorts = b"".join(n.to_bytes(2, "little") for n in (self.kind, self.major, self.minor, self.nlink))
        return shorts + self.size.to_bytes(4, "little") + b"".join(a.to_bytes(4, "little") for a in self.addresses)


def blocks_of(size):
    return (size + BLOCK - 1) // BLOCK


class Volume:
    """A mounted volume: what is seen is the recorded blocks over the image."""

    def __init__(self, image):
        self.image = image
        if len(image) < 2 * BLOCK:
            raise Refused(17)
        magic, self.size, nblocks, self.ninodes, self.nlog, logstart, self.inodestart, self.bmapstart = (
            u32(image, BLOCK + 4 * i) for i in range(8))
        good = layout(self.size, self.ninodes, self.nlog)
        if magic != 0x10203040 or logstart != 2 or good is None or len(image) != self.size * BLOCK:
            raise Refused(17)
        self.data = good[2]
        if (self.inodestart, self.bmapstart) != good[:2] or nblocks != self.size - self.data:
            raise Refused(17)
        self.open = 0
        self.recorded = []
        self.buffers = {}
        self.slots = [None] * SLOTS

    # ---- the log

    def recover(self, budget, trace):
        """The writes due, and how many reached the card."""
        count = u32(self.image, 2 * BLOCK)
        homes = [u32(self.image, 2 * BLOCK + 4 + 4 * i) for i in range(min(count, 29))]
        good = count <= min(29, self.nlog - 1) and len(set(homes)) == len(homes)
        if not good or any(not self.inodestart <= home < self.size for home in homes):
            raise Refused(18)
        if count == 0:
            return 0
        writes = [(home, self.on_card(3 + i)) for i, home in enumerate(homes)] + [(2, self.header(0, []))]
        self.write(writes, budget, trace)
        return count + 1

    def commit(self, budget, trace):
        count = len(self.recorded)
        if count == 0:
            return 0
        contents = [(home, bytes(self.buffers[home])) for home in self.recorded]
        writes = [(3 + i, content) for i, (_, content) in enumerate(contents)]
        writes.append((2, self.header(count, self.recorded)))
        writes += contents
        writes.append((2, self.header(0, self.recorded)))
        self.write(writes, budget, trace)
        self.recorded, self.buffers = [], {}
        return 2 * count + 2

    def header(self, count, homes):
        block = bytearray(self.on_card(2))
        block[0:4] = count.to_bytes(4, "little")
        for i, home in enumerate(homes):
            block[4 + 4 * i:8 + 4 * i] = home.to_bytes(4, "little")
        return bytes(block)

    def write(self, writes, budget, trace):
        for block, content in writes[:budget]:
            self.image[block * BLOCK:(block + 1) * BLOCK] = content
            trace.append(block)

    def on_card(self, block):
        return bytes(self.image[block * BLOCK:(block + 1) * BLOCK])

    def room(self):
        return min(30, self.nlog) - 2 - len(self.recorded)

    def record(self, touched):
        """Row 14, then the new blocks in ascending number."""
        new = sorted(set(touched) - set(self.recorded))
        if len(new) > self.room():
            raise Refused(14)
        for block in new:
            self.recorded.append(block)
            self.buffers[block] = bytearray(self.on_card(block))

    # ---- what is seen

    def block(self, number):
        return self.buffers[number] if number in self.buffers else self.on_card(number)

    def bit(self, block):
        return self.block(self.bmapstart)[block // 8] >> block % 8 & 1

    def set_bit(self, block, value):
        bits = self.buffers[self.bmapstart]
        bits[block // 8] = bits[block // 8] & ~(1 << block % 8) | value << block % 8

    def inode_block(self, inum):
        return self.inodestart + inum // 16

    def inode(self, inum):
        at = inum % 16 * 64
        return Inode(self.block(self.inode_block(inum))[at:at + 64])

    def put_inode(self, inum, inode):
        at = inum % 16 * 64
        self.buffers[self.inode_block(inum)][at:at + 64] = inode.raw()

    def entries(self, inode):
        return [u32(self.block(inode.addresses[12]), 4 * k) for k in range(INDIRECT)]

    def held(self, inode):
        """Every block number that the inode holds, the indirect one among them."""
        count = blocks_of(inode.size)
        numbers = inode.addresses[:min(count, DIRECT)]
        if count > DIRECT:
            numbers = numbers + [inode.addresses[12]] + self.entries(inode)[:count - DIRECT]
        return numbers

    def is_data(self, block):
        return self.data <= block < self.size and self.bit(block) == 1

    def fit(self, inum):
        inode = self.inode(inum)
        if inode.kind not in (1, 2, 3) or inode.size > FILE_LIMIT:
            return False
        count = blocks_of(inode.size)
        if any(not self.is_data(block) for block in inode.addresses[:min(count, DIRECT)]):
            return False
        if any(inode.addresses[min(count, DIRECT):DIRECT]):
            return False
        if count <= DIRECT:
            if inode.addresses[12] != 0:
                return False
        else:
            if not self.is_data(inode.addresses[12]):
                return False
            entries = self.entries(inode)
            if any(not self.is_data(block) for block in entries[:count - DIRECT]) or any(entries[count - DIRECT:]):
                return False
        if inode.kind == 1 and (inode.size < 32 or inode.size % 16):
            return False
        return inode.kind != 3 or inode.size == 0

    def need_fit(self, inum):
        if not 1 <= inum < self.ninodes or not self.fit(inum):
            raise Refused(5)

    def content(self, inode):
        count = blocks_of(inode.size)
        numbers = inode.addresses[:min(count, DIRECT)]
        if count > DIRECT:
            numbers = numbers + self.entries(inode)[:count - DIRECT]
        return b"".join(bytes(self.block(number)) for number in numbers)[:inode.size]

    # ---- paths

    def lookup(self, inum, name):
        content = self.content(self.inode(inum))
        for at in range(0, len(content), 16):
            number = int.from_bytes(content[at:at + 2], "little")
            if number and content[at + 2:at + 16] == name:
                return number
        return None

    def walk(self, start, components):
        for name in components:
            self.need_fit(start)
            if self.inode(start).kind != 1:
                raise Refused(6)
            start = self.lookup(start, name)
            if start is None:
                raise Refused(7)
            if not 1 <= start < self.ninodes:
                raise Refused(5)
        self.need_fit(start)
        return start

    # ---- slots

    def slot_for(self, inum):
        """The slot that holds the inode, else the lowest free one."""
        for slot, used in enumerate(self.slots):
            if used and used[0] == inum:
                if used[1] >= 1000:
                    raise Refused(11)
                return slot
        if None not in self.slots:
            raise Refused(11)
        return self.slots.index(None)

    def take_slot(self, inum):
        slot = self.slot_for(inum)
        if self.slots[slot] is None:
            self.slots[slot] = [inum, 0]
        self.slots[slot][1] += 1
        return slot

    # ---- calls that change files

    def free_blocks(self, needed):
        free = [block for block in range(self.data, self.size) if not self.bit(block)]
        if len(free) < needed:
            raise Refused(13)
        return free[:needed]

    def growth(self, inode, end):
        """How many blocks `inode` needs to reach `end` bytes, the indirect one among them."""
        old, new = blocks_of(inode.size), blocks_of(max(inode.size, end))
        return new - old + (old <= DIRECT < new)

    def touched_by_write(self, inum, inode, offset, count, taken):
        """The blocks that a write of `count` bytes writes, with the inode's own."""
        touched = {self.inode_block(inum)} | set(taken)
        if taken:
            touched.add(self.bmapstart)
        old = blocks_of(inode.size)
        for k in range(offset // BLOCK, blocks_of(offset + count)) if count else []:
            if k < old:
                touched.add(self.address(inode, k))
        if blocks_of(offset + count) > max(old, DIRECT) and old > DIRECT:
            touched.add(inode.addresses[12])
        return touched

    def address(self, inode, k):
        return inode.addresses[k] if k < DIRECT else self.entries(inode)[k - DIRECT]

    def apply_write(self, inum, inode, offset, data, taken):
        taken = list(taken)
        for block in taken:
            self.set_bit(block, 1)
            self.buffers[block][:] = bytes(BLOCK)
        for k in range(blocks_of(inode.size), blocks_of(max(inode.size, offset + len(data)))):
            if k < DIRECT:
                inode.addresses[k] = taken.pop(0)
            else:
                if inode.addresses[12] == 0:
                    inode.addresses[12] = taken.pop(0)
                entry = 4 * (k - DIRECT)
                self.buffers[inode.addresses[12]][entry:entry + 4] = taken.pop(0).to_bytes(4, "little")
        for i, byte in enumerate(data):
            self.buffers[self.address(inode, (offset + i) // BLOCK)][(offset + i) % BLOCK] = byte
        inode.size = max(inode.size, offset + len(data))
        self.put_inode(inum, inode)

    def need_distinct(self, inum):
        held = self.held(self.inode(inum))
        if len(set(held)) != len(held):
            raise Refused(5)

    def write_file(self, inum, offset, data):
        inode = self.inode(inum)
        if inode.kind != 2:
            raise Refused(8)
        if offset > inode.size:
            raise Refused(9)
        if offset + len(data) > FILE_LIMIT:
            raise Refused(10)
        taken = self.free_blocks(self.growth(inode, offset + len(data)))
        self.record(self.touched_by_write(inum, inode, offset, len(data), taken))
        self.apply_write(inum, inode, offset, data, taken)

    def truncate_file(self, inum):
        inode = self.inode(inum)
        if inode.kind != 2:
            raise Refused(8)
        held = self.held(inode)
        self.record({self.inode_block(inum)} | ({self.bmapstart} if held else set()))
        for block in held:
            self.set_bit(block, 0)
        inode.size, inode.addresses = 0, [0] * 13
        self.put_inode(inum, inode)

    def create(self, parent, name, kind, major, minor):
        self.need_fit(parent)
        if self.inode(parent).kind != 1:
            raise Refused(6)
        found = self.lookup(parent, name)
        if found is not None:
            self.need_fit(found)
            if kind != 2 or self.inode(found).kind == 1:
                raise Refused(8)
            return found, self.take_slot(found)
        directory = self.inode(parent)
        content = self.content(directory)
        free = [at for at in range(0, len(content), 16) if content[at:at + 2] == b"\0\0"]
        offset = free[0] if free else directory.size
        if offset + 16 > FILE_LIMIT:
            raise Refused(10)
        if None not in self.slots:
            raise Refused(11)
        inums = [i for i in range(1, self.ninodes) if self.inode(i).kind == 0]
        if not inums:
            raise Refused(12)
        inum = inums[0]
        own = 1 if kind == 1 else 0
        taken = self.free_blocks(own + self.growth(directory, offset + 16))
        touched = {self.inode_block(inum)} | set(taken[:own]) | ({self.bmapstart} if own else set())
        self.record(touched | self.touched_by_write(parent, directory, offset, 16, taken[own:]))
        new = Inode(bytes(64))
        new.kind, new.major, new.minor, new.nlink = kind, major & 0xffff, minor & 0xffff, 1 + own
        self.put_inode(inum, new)
        if own:
            dots = inum.to_bytes(2, "little") + b".".ljust(14, b"\0") + parent.to_bytes(2, "little") + b"..".ljust(14, b"\0")
            self.apply_write(inum, new, 0, dots, taken[:own])
        self.apply_write(parent, directory, offset, inum.to_bytes(2, "little") + name, taken[own:])
        return inum, self.take_slot(inum)


class Cache:
    """The cache standing alone, without its memory: blocks, counts, and the order, most recently released first."""

    def __init__(self):
        self.blocks = [None] * 30
        self.counts = [0] * 30
        self.order = list(range(30))

    def get(self, block):
        if block in self.blocks:
            index = self.blocks.index(block)
            if self.counts[index] >= 1000:
                raise Refused(2)
        else:
            free = [index for index in self.order if self.counts[index] == 0]
            if not free:
                raise Refused(16)
            index = free[-1]
            self.blocks[index] = block
        self.counts[index] += 1
        return index

    def change(self, index, least, by):
        """Counts up or down a buffer that has at least `least` references."""
        if index > 29 or self.counts[index] < least or self.counts[index] + by > 1000:
            raise Refused(2)
        self.counts[index] += by

    def release(self, index):
        self.change(index, 1, -1)
        if self.counts[index] == 0:
            self.order.remove(index)
            self.order.insert(0, index)

    def shown(self):
        words = []
        for index in self.order:
            block, count = self.blocks[index], self.counts[index]
            words.append(f"{index}" + ("" if block is None else f":{block}") + (f"*{count}" if count else ""))
        return " ".join(words)


def components(path):
    """The start ("/" or not) and the names, each cut at 14 bytes and padded."""
    path = path.split(b"\0")[0]
    if len(path) > 128:
        raise Refused(2)
    return path[:1] == b"/", [part[:14].ljust(14, b"\0") for part in path.split(b"/") if part]


def data_of(word):
    if word == "-":
        return b""
    parts = word.split(":")
    if parts[0] == "r":
        return bytes([int(parts[1], 16)]) * int(parts[2])
    if parts[0] == "p":
        seed, count = int(parts[1]), int(parts[2])
        return bytes((31 * seed + 7 * i + i // 256) % 256 for i in range(count))
    return bytes.fromhex(word)


def path_of(word):
    if word == "''":
        return b""
    return bytes.fromhex(word[2:]) if word.startswith("x:") else word.encode()


def shown(data):
    if not data:
        return "-"
    return data.hex() if len(data) <= 64 else "sha256:" + hashlib.sha256(data).hexdigest()


def listed(numbers):
    return ",".join(map(str, numbers)) or "-"


class Session:
    def __init__(self):
        self.image = bytearray()
        self.volume = None
        self.handles = []
        self.cwd = None
        self.trace = []
        self.cache = None

    def mounted(self):
        if self.volume is None:
            raise Refused(1)
        return self.volume

    def good(self, number):
        """The inode of a handle, 4 where it is not good."""
        volume = self.volume
        if number is None or number >= len(self.handles):
            raise Refused(4)
        slot, inum = self.handles[number]
        if volume.slots[slot] is None or volume.slots[slot][0] != inum:
            raise Refused(4)
        return slot, inum

    def start(self, absolute):
        return 1 if absolute else self.good(self.cwd)[1]

    def given(self, inum, slot):
        self.handles.append((slot, inum))
        return f"ok h {len(self.handles) - 1} inode {inum} slot {slot}"

    def reached(self, due, budget):
        if budget is not None and budget < due:
            self.volume = None
            return f"cut {budget}"
        return f"ok writes {due}"

    def answer(self, words):
        call, rest = words[0], words[1:]
        method = getattr(self, "do_" + call, None)
        if method is None:
            return f"harness: {call} is not in this program"
        try:
            return method(*rest)
        except Refused as refused:
            return f"no {refused.number}"

    def do_mkfs(self, size, ninodes, nlog):
        size, ninodes, nlog = int(size), int(ninodes), int(nlog)
        where = layout(size, ninodes, nlog)
        if where is None:
            raise Refused(2)
        self.image, self.volume = formatted(size, ninodes, nlog), None
        return f"ok inodestart {where[0]} bmapstart {where[1]} data {where[2]} nblocks {size - where[2]}"

    def do_poke(self, block, offset, data):
        at, data = int(block) * BLOCK + int(offset), data_of(data)
        self.image[at:at + len(data)] = data
        return "ok"

    def do_peek(self, block, offset, count):
        at = int(block) * BLOCK + int(offset)
        return "ok " + shown(bytes(self.image[at:at + int(count)]))

    def do_fillfree(self, byte):
        bitmap, filled = u32(self.image, BLOCK + 28) * BLOCK, 0
        for block in range(len(self.image) // BLOCK):
            if not self.image[bitmap + block // 8] >> block % 8 & 1:
                self.image[block * BLOCK:(block + 1) * BLOCK] = bytes([int(byte, 16)]) * BLOCK
                filled += 1
        return f"ok {filled} blocks"

    def do_sha(self):
        nlog, logstart = u32(self.image, BLOCK + 16), u32(self.image, BLOCK + 20)
        outside = self.image[:logstart * BLOCK] + self.image[(logstart + nlog) * BLOCK:]
        return "ok " + hashlib.sha256(outside).hexdigest()

    def do_mount(self, budget=None):
        budget = None if budget is None else int(budget)
        self.volume, self.handles, self.cwd, self.trace = None, [], None, []
        volume = Volume(self.image)
        due = volume.recover(budget, self.trace)
        self.volume = volume
        return self.reached(due, budget)

    def do_cfresh(self):
        self.volume, self.cache = None, Cache()
        return "ok"

    def do_cget(self, block):
        if int(block) >= len(self.image) // BLOCK:
            raise Refused(2)
        return f"ok index {self.cache.get(int(block))}"

    def do_crel(self, index):
        self.cache.release(int(index))
        return "ok"

    def do_cpin(self, index):
        self.cache.change(int(index), 1, 1)
        return "ok"

    def do_cunpin(self, index):
        self.cache.change(int(index), 2, -1)
        return "ok"

    def do_order(self):
        # Under a volume the order of clean buffers is excepted, so nothing is known of it here.
        return self.cache.shown() if self.volume is None and self.cache else "harness: no cache stands alone"

    def do_begin(self):
        volume = self.mounted()
        if 1 + len(volume.recorded) + (volume.open + 1) * 10 > 30:
            raise Refused(15)
        volume.open += 1
        return "ok"

    def do_end(self, budget=None):
        volume = self.mounted()
        budget = None if budget is None else int(budget)
        self.transaction()
        volume.open -= 1
        self.trace = []
        return self.reached(volume.commit(budget, self.trace) if volume.open == 0 else 0, budget)

    def transaction(self):
        if self.volume.open == 0:
            raise Refused(3)

    def do_record(self, block, offset, data):
        volume, block, offset, data = self.mounted(), int(block), int(offset), data_of(data)
        self.transaction()
        volume.record({block})
        volume.buffers[block][offset:offset + len(data)] = data
        return "ok"

    def do_trace(self):
        return "ok " + listed(self.trace)

    def do_list(self):
        volume = self.mounted()
        return f"ok open {volume.open} recorded {listed(volume.recorded)}"

    def do_slots(self):
        used = enumerate(self.mounted().slots)
        return "ok " + (" ".join(f"{slot}:{held[0]}*{held[1]}" for slot, held in used if held) or "-")

    def do_cwd(self, handle):
        self.mounted()
        self.good(int(handle))
        self.cwd = int(handle)
        return "ok"

    def do_open(self, path):
        volume = self.mounted()
        absolute, names = components(path_of(path))
        inum = volume.walk(self.start(absolute), names)
        return self.given(inum, volume.take_slot(inum))

    def do_create(self, path, kind, major="0", minor="0"):
        volume = self.mounted()
        if kind not in ("1", "2", "3"):
            raise Refused(2)
        absolute, names = components(path_of(path))
        self.transaction()
        start = self.start(absolute)
        if not names:
            raise Refused(7)
        parent = volume.walk(start, names[:-1])
        return self.given(*volume.create(parent, names[-1], int(kind), int(major), int(minor)))

    def do_close(self, handle):
        volume = self.mounted()
        slot, _ = self.good(int(handle))
        volume.slots[slot][1] -= 1
        if volume.slots[slot][1] == 0:
            volume.slots[slot] = None
        return "ok"

    def do_stat(self, handle):
        volume = self.mounted()
        _, inum = self.good(int(handle))
        volume.need_fit(inum)
        inode = volume.inode(inum)
        nlink = inode.nlink - 65536 if inode.nlink >= 32768 else inode.nlink
        return f"ok inode {inum} kind {inode.kind} nlink {nlink} size {inode.size}"

    def do_read(self, handle, offset, count):
        volume, offset, count = self.mounted(), int(offset), int(count)
        _, inum = self.good(int(handle))
        volume.need_fit(inum)
        inode = volume.inode(inum)
        if inode.kind == 3:
            raise Refused(8)
        if offset > inode.size:
            raise Refused(9)
        data = volume.content(inode)[offset:offset + count]
        return f"ok {len(data)} {shown(data)}"

    def do_write(self, handle, offset, data):
        volume, offset, data = self.mounted(), int(offset), data_of(data)
        if len(data) > 3072:
            raise Refused(2)
        self.transaction()
        _, inum = self.good(int(handle))
        volume.need_fit(inum)
        volume.need_distinct(inum)
        volume.write_file(inum, offset, data)
        return f"ok {len(data)}"

    def do_truncate(self, handle):
        volume = self.mounted()
        self.transaction()
        _, inum = self.good(int(handle))
        volume.need_fit(inum)
        volume.need_distinct(inum)
        volume.truncate_file(inum)
        return "ok"


def main():
    source = open(sys.argv[1]) if len(sys.argv) > 1 else sys.stdin
    session = Session()
    for line in source:
        words = line.split("#")[0].split()
        if words:
            print(session.answer(words))


main()
