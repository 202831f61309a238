"""Courses of turns: lines that `turn_trial` is given, each with the line that it is to write. What a caller adds is reckoned here anew, from the
seed alone; which of the callers comes first changes neither the number of entries nor that each has seen fronts of the list."""
import itertools

MASK = (1 << 64) - 1


def added(seed, turns):
    """How many entries a caller adds: he draws a number for each turn, and adds it unless its two highest bits are 0."""
    random, count = seed & MASK, 0
    for _ in range(turns):
        random = (random * 0x5851F42D4C957F2D + 0x14057B7EF767814F) & MASK
        count += random >> 62 != 0
    return count


def course(seed, turns, shape, places, kept="kept"):
    """A line, and what it tells of."""
    callers = len(places)
    entries = sum(added(seed + k, turns) for k in range(callers))
    line = " ".join(map(str, [seed, turns, kept, shape, *places]))
    return line, f"seed {seed} callers {callers} turns {turns} entries {entries} fronts"


def orders():
    """Up to five callers, whose passes are split in either shape and joined in each order: for each, its place among those that are left."""
    for callers in range(1, 6):
        for shape in ("star", "chain"):
            for number, places in enumerate(itertools.product(*[range(left) for left in range(callers, 0, -1)])):
                yield course(number, 3, shape, places)


def asleep():
    """Four callers with five turns each, of 50 ms every one: who waits falls asleep, and who isn't woken then waits for ever."""
    line, told = course(11, 5, "star", (0, 0, 0, 0))
    return "slow " + line, told


def many(seed):
    """Four callers with 20,000 turns each, all at once."""
    return course(seed, 20_000, "star", (0, 0, 0, 0))


EDGES = [
    ("", "no such line"),
    ("7", "no such line"),
    ("7 1 kept star", "no such line"),
    ("7 1 seen star 0", "no such line"),
    ("7 1 kept ring 0", "no such line"),
    ("7 1 kept star x", "no such line"),
    ("7 4294967296 kept star 0", "no such line"),
    ("slow", "no such line"),
    ("slow 7 1 kept ring 0", "no such line"),
    ("7 1 kept star" + " 0" * 65, "no such line"),
    course(7, 0, "star", (0,)),
    course(7, 5, "chain", (3, 9, 1)),
    course(MASK, 2, "star", (0, 0)),
    course(7, 1, "chain", (0,) * 64),
    course(7, 40, "star", (1, 0), kept="bare"),
]
