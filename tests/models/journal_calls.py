"""A journal over disks that fail, reckoned from docs/JOURNAL.md alone: what each call answers, which calls of the system are made of it, what
is on the device, and what a crash may leave. Each line that `journal_trial` is given has one here that it is to write."""

MAGIC = b"AKNLAW01"
NEW = MAGIC + b"\0"
PIECE = 65_536


class Failed(Exception):
    """A call of a disk failed."""


class Damaged(Exception):
    """The file is no journal: the first place that shows it, and the byte there."""


def framed(payload):
    return len(payload).to_bytes(4, "big") + payload + b"\0"


def journal(*payloads):
    """A file of these payloads."""
    return MAGIC + b"".join(b"\1" + framed(payload)[:-1] for payload in payloads) + b"\0"


def payloads_of(data):
    """The payloads of a file, as docs/JOURNAL.md has it. `Damaged`: it is no journal."""
    if len(data) <= len(NEW):
        return []
    for place, (byte, wanted) in enumerate(zip(data, MAGIC)):
        if byte != wanted:
            raise Damaged(place, byte)
    found, gate = [], len(MAGIC)
    while data[gate] == 1:
        size = int.from_bytes(data[gate + 1:gate + 5], "big")
        if not 1 <= size <= 16_777_216 or gate + 5 + size >= len(data):
            raise Damaged(gate + 1, None)
        found.append(data[gate + 5:gate + 5 + size])
        gate += 5 + size
    return found


class MemoryDisk:
    """Bytes, of which some were written since the last sync. The listed calls fail, counted from 1, and so does a change past so many, or a
    write past the capacity. A call that fails does nothing, or has an effect: so many bytes of it at most, or all ("whole")."""

    def __init__(self, data, failing=(), capacity=1_000, changes=100, effect=None):
        self.bytes, self.synced, self.torn = bytes(data), bytes(data), set()
        self.failing, self.capacity, self.changes, self.made, self.effect = failing, capacity, changes, 0, effect
        self.has_failed = False

    def count(self, changes=0, written=0):
        """Counts a call, and says whether it succeeds."""
        self.made += 1
        is_done = self.made not in self.failing and changes <= self.changes and written <= self.capacity
        self.has_failed |= not is_done
        return is_done

    def asked(self):
        if not self.count():
            raise Failed

    def part(self, is_done, count):
        """How many bytes of a change are done, where any change is made."""
        if not is_done and (self.effect is None or not self.changes):
            raise Failed
        self.changes -= 1
        return count if is_done or self.effect == "whole" else min(self.effect, count)

    def end(self, is_done):
        if not is_done:
            raise Failed

    def len(self):
        self.asked()
        return len(self.bytes)

    def read(self, place, count):
        self.asked()
        return self.bytes[place:place + count]

    def write(self, place, data):
        is_done = self.count(1, len(data))
        data = data[:min(self.part(is_done, len(data)), self.capacity)]
        self.capacity -= len(data)
        self.bytes = self.bytes[:place] + data + self.bytes[place + len(data):]
        self.torn |= set(range(place, place + len(data)))
        self.end(is_done)

    def cut(self, length):
        is_done = self.count(1)
        self.bytes = self.bytes[:max(length, len(self.bytes) - self.part(is_done, len(self.bytes)))]
        self.end(is_done)

    def sync(self):
        is_done = self.count(1)
        if not is_done and self.effect != "whole":
            raise Failed
        self.part(is_done, 0)
        self.synced, self.torn = self.bytes, set()
        self.end(is_done)

    def image(self, pick):
        """What a crash may leave: the bytes as last synced, as a read gives them, or with each byte that waits turned into another."""
        if pick < 2:
            return self.bytes if pick else self.synced
        return bytes(pick if place in self.torn else byte for place, byte in enumerate(self.bytes))

    def shown(self, word, rest):
        return f"bytes {self.bytes.hex()}" if word == "bytes" else f"image {self.image(int(rest)).hex()}"


class NotedFile:
    """A file of a system in memory, which notes its calls. One of them fails, and so many bytes move at once. What is written waits in a cache
    for a sync; after one that failed the cache counts as written, and only dropping its pages shows what the device has."""

    def __init__(self, data, failing=0, piece=9):
        self.cache, self.device, self.waiting = bytes(data), bytes(data), False
        self.calls, self.failing, self.piece, self.given = [], failing, piece, 0

    def call(self, name):
        self.calls.append(name)
        if len(self.calls) == self.failing:
            raise Failed

    def sync_all(self):
        waiting, self.waiting = self.waiting, False
        self.call("sync")
        if waiting:
            self.device = self.cache

    def drop_pages(self):
        self.call("drop-pages")
        if not self.waiting:
            self.cache = self.device

    def read_some(self, place, count):
        self.call(f"read:{place}")
        found = self.cache[place:place + min(count, self.piece)]
        self.given += len(found)
        return found

    def write_some(self, place, data):
        self.call(f"write:{place}")
        front, self.waiting = data[:self.piece], True
        self.cache = self.cache[:place] + front + self.cache[place + len(front):]
        return len(front)

    def set_len(self, length):
        self.call(f"cut:{length}")
        self.waiting, self.cache = True, self.cache[:length]


class FileDisk:
    """A file as a disk. Its first call settles it, and once a sync has failed only a sync does; until then it is asked nothing."""

    def __init__(self, file):
        self.file, self.is_settled, self.is_lost = file, False, False

    def settle(self):
        self.is_settled, self.is_lost = False, True
        self.file.call("lock")
        self.file.call("open")
        self.file.sync_all()
        self.file.drop_pages()
        self.file.call("sync-folder")
        self.is_settled, self.is_lost = True, False

    def ready(self):
        if self.is_lost:
            raise Failed
        if not self.is_settled:
            self.settle()

    def len(self):
        self.ready()
        self.file.call("len")
        return len(self.file.cache)

    def read(self, place, count):
        self.ready()
        found = b""
        while len(found) < count:
            more = self.file.read_some(place + len(found), count - len(found))
            if not more:
                break
            found += more
        return found

    def write(self, place, data):
        self.ready()
        while data:
            count = self.file.write_some(place, data)
            if count == 0:
                raise Failed
            place, data = place + count, data[count:]

    def cut(self, length):
        self.ready()
        self.file.set_len(length)

    def sync(self):
        if not self.is_settled:
            return self.settle()
        self.is_settled, self.is_lost = False, True
        self.file.sync_all()
        self.is_settled, self.is_lost = True, False

    def shown(self, word, _rest):
        told = {"bytes": f"bytes {self.file.device.hex()}", "given": f"given {self.file.given}", "held": "not held"}
        return told.get(word) or " ".join(["calls", *self.file.calls])


class Window:
    """A piece of a disk, by which it is read: what the piece has is not asked for again."""

    def __init__(self, disk):
        self.disk, self.start, self.held = disk, 0, b""

    def read(self, place, count):
        if not self.start <= place <= self.start + len(self.held):
            return self.read_on(place, count)
        found = self.held[place - self.start:][:count]
        return found + self.read_on(place + len(found), count - len(found))

    def read_on(self, place, count):
        if count == 0:
            return b""
        if count >= PIECE:
            return self.disk.read(place, count)
        self.held = b""
        self.start, self.held = place, self.disk.read(place, PIECE)
        return self.held[:count]


class Journal:
    """A journal on a disk."""

    def __init__(self, disk):
        self.disk, self.window, self.gate, self.is_ready = disk, Window(disk), 0, False

    def open(self):
        self.is_ready, self.window = False, Window(self.disk)
        self.gate = self.recover()
        self.is_ready = True
        return "opened"

    def recover(self):
        self.disk.sync()
        length = self.disk.len()
        if length <= len(NEW):
            bytes_ = self.disk.read(0, len(NEW))
            if len(bytes_) < len(NEW) or not bytes_.startswith(MAGIC) or bytes_[8] == 1:
                self.disk.cut(0)
                self.disk.write(0, NEW)
                self.disk.sync()
            return 8
        gate = self.closed_gate(length)
        if gate + 1 < length:
            self.window.held = b""
            self.disk.cut(gate + 1)
            self.disk.sync()
        return gate

    def closed_gate(self, length):
        front = self.window.read(0, 8)
        for place, (byte, wanted) in enumerate(zip(front, MAGIC)):
            if byte != wanted:
                raise Damaged(place, byte)
        gate = 8
        while True:
            size = self.size_at(gate, length)
            if size is None:
                return gate
            gate += 5 + size

    def size_at(self, gate, length):
        """The length of the payload behind a gate, or none where it is closed."""
        head = self.window.read(gate, min(5, length - gate))
        if head[0] != 1:
            return None
        size = int.from_bytes(head[1:], "big")
        if len(head) < 5:
            raise Damaged(length, None)
        if not 1 <= size <= 16_777_216:
            raise Damaged(gate + 1, head[1])
        if gate + 5 + size >= length:
            raise Damaged(length, None)
        return size

    def append(self, payload):
        self.is_ready, self.window.held = False, b""
        self.disk.write(self.gate + 1, framed(payload))
        self.disk.sync()
        self.disk.write(self.gate, b"\1")
        self.disk.sync()
        self.is_ready, self.gate = True, self.gate + len(payload) + 5
        return f"appended {self.gate}"

    def record(self, place):
        self.is_ready = False
        if place > self.gate:
            raise Damaged(place, None)
        size = self.size_at(place, self.gate + 1)
        found = "end" if size is None else f"payload {place + 5 + size} {self.window.read(place + 5, size).hex()}"
        self.is_ready = True
        return found

    def told(self, line):
        """What is written of a line."""
        word, _, rest = line.partition(" ")
        if word not in ("open", "append", "record"):
            return self.disk.shown(word, rest)
        if rest == "-":
            return "no payload"
        if word != "open" and not self.is_ready:
            return "not ready"
        try:
            if word == "open":
                return self.open()
            return self.append(bytes.fromhex(rest)) if word == "append" else self.record(int(rest))
        except Failed:
            return "failed"
        except Damaged as damage:
            place, byte = damage.args
            return f"damaged {place} {'none' if byte is None else byte}"


def word_of(data):
    return data.hex() or "-"


def in_words(data, failing, capacity, changes, effect):
    """The first line of a disk in memory."""
    numbers = ",".join(str(number) for number in failing) or "-"
    return f"memory {numbers} {capacity} {changes} {word_of(data)}" + ("" if effect is None else f" {effect}")


def on_memory(lines, data, failing=(), capacity=1_000, changes=100, effect=None):
    """The first line of a journal on a disk in memory, and each of these lines with what is to be written of it."""
    model = Journal(MemoryDisk(data, failing, capacity, changes, effect))
    return in_words(data, failing, capacity, changes, effect), [(line, model.told(line)) for line in lines]


def on_noted(lines, data=b"", failing=0, piece=9):
    """The same over a file that notes its calls."""
    model = Journal(FileDisk(NotedFile(data, failing, piece)))
    return f"noted {failing} {piece} {word_of(data)}", [(line, model.told(line)) for line in lines]
