"""Images of the journal that a crash may leave, made of the writes, cuts and syncs of recorded runs: between two syncs each range that is written
may hold any bytes, a front or an end of it may be there alone, and the file may have any length between the old one and the new. Each image is
opened by `check`, which has to find the entries that were acknowledged, perhaps one more, and nothing else."""
import concurrent.futures
import os
import random
import time

import checks
from devices.crashes import EFFECTS, NO_STRACE, bytes_of, is_traced, points, recorded
from devices.journal_file import MAGIC, NEW
from models.journal_openings import JOURNAL, ROWS, called, entered, gates, kept, told

FILLS = (b"\x00", b"\xff", None)


class File:
    """A file as a read gives it, as it was at its last sync, and what was changed since."""

    def __init__(self, data=b""):
        self.seen, self.synced, self.ranges, self.shortest = data, data, [], len(data)

    def after(self, call):
        """The file behind a call."""
        file = File()
        file.seen, file.synced, file.ranges, file.shortest = self.seen, self.synced, self.ranges, self.shortest
        if call.result < 0:
            return file
        if call.name == "pwrite64":
            place, data = int(call.arguments.rsplit(",", 1)[1]), bytes_of(call.arguments)[:call.result]
            file.seen = self.seen[:place].ljust(place, b"\x00") + data + self.seen[place + len(data):]
            file.ranges = self.ranges + [(place, place + len(data))]
        elif call.name == "ftruncate":
            length = int(call.arguments.rsplit(",", 1)[1])
            file.seen, file.shortest = self.seen[:length].ljust(length, b"\x00"), min(self.shortest, length)
        elif call.name in ("fsync", "fdatasync"):
            file = File(self.seen)
        return file


def filler(draw, fill, size):
    return draw.randbytes(size) if fill is None else fill * size


def overlaid(file, parts):
    """The bytes as they were at the last sync with these laid over them, and at least as long as any of both."""
    image = bytearray(file.synced.ljust(max(len(file.synced), len(file.seen)), b"\x00"))
    for place, data in parts:
        image[place:place + len(data)] = data
    return bytes(image)


def torn(file, draw, fill):
    """Each range filled; its front as it was written and the rest filled; the other way round; and the file cut where its length is not sure."""
    def each(make):
        return overlaid(file, [(begin, make(begin, end)) for begin, end in file.ranges])

    def parted(begin, end):
        place = draw.randint(begin, end)
        return file.seen[begin:place] + filler(draw, fill, end - place)

    def parted_behind(begin, end):
        place = draw.randint(begin, end)
        return filler(draw, fill, place - begin) + file.seen[place:end]

    yield each(lambda begin, end: filler(draw, fill, end - begin))
    yield each(parted)
    yield each(parted_behind)
    for make in (lambda begin, end: file.seen[begin:end], parted):
        yield each(make)[:draw.randint(file.shortest, max(len(file.synced), len(file.seen)))]


def images(file, draw, rounds):
    """What a crash may leave of a file."""
    yield file.seen
    if file.seen != file.synced or file.ranges:
        yield file.synced
        for _ in range(rounds):
            for fill in FILLS:
                yield from torn(file, draw, fill)


def moments(calls, data=b""):
    """The file before each of its calls and at the end, with how many commands were answered by then."""
    file = File(data)
    for call in calls:
        if call.of_journal and call.name in ("pwrite64", "ftruncate", "fsync", "fdatasync"):
            yield file, call.answered
            file = file.after(call)
    yield file, calls[-1].answered


def is_at_rest(image):
    """The magic and a closed gate, whatever byte closes it, is a file at rest, and is left as it is."""
    return len(image) == 9 and image[:8] == MAGIC and image[8] != 1


def fault_of(image, answered, whole, rows=ROWS):
    """What is wrong about an image from the moment when so many commands had been answered; `whole` is the file of all of them."""
    places = gates(image)
    count = len(places) - 1 if places else None
    if count not in (entered(answered, rows), entered(answered + 1, rows)):
        return f"{count} entries stand where {answered} commands were answered"
    left = whole[:places[-1]] + image[places[-1]:places[-1] + 1] if len(image) > 9 or is_at_rest(image) else NEW
    with checks.folder() as folder:
        with open(os.path.join(folder, JOURNAL), "wb") as out:
            out.write(image)
        said = called(folder, "check")
        found = kept(folder)
    if (said, found) == (told(count, rows), left):
        return None
    return f"{said} of {len(image)} bytes, and {len(found)} are left; wanted {told(count, rows)}, {len(left)} bytes"


def runs(draw, faulty):
    """The calls of a run in which none fails, and of so many in each of which one call fails."""
    calls = recorded()
    yield "no call fails", calls
    for name, number, effect in draw.sample([point for point in points(calls) if "fails" in point[2]], faulty):
        yield f"call {number} of {name} {effect}", recorded("-e", f"inject={name}:" + EFFECTS[effect] % number)


def torn_images(rounds=1, seed=None, faulty=3):
    """The images of each moment of a run count as one check."""
    seed = time.time_ns() % 1_000_000_000 if seed is None else seed
    if not is_traced():
        checks.skip("torn images of the journal", NO_STRACE)
        return
    draw, count = random.Random(seed), 0
    with concurrent.futures.ThreadPoolExecutor(os.cpu_count()) as pool:
        for name, calls in runs(draw, faulty):
            *_, (last, _) = moments(calls)
            for number, (file, answered) in enumerate(moments(calls)):
                made = list(dict.fromkeys(images(file, draw, rounds)))
                count += len(made)
                wrong = [fault for fault in pool.map(lambda image: fault_of(image, answered, last.seen), made) if fault]
                checks.check(f"torn images of seed {seed}, {name}, moment {number}", wrong[:2], [])
    print(f"{count} torn images of seed {seed}")
