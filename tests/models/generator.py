"""The generator, reckoned anew from docs/GENERATOR.md: the draws of a seed, what becomes of each command by the rules of docs/RULES.md that a
generated command can break, and what the text on 2010-01-01 has. Nothing here is shared with the program.
"""
import os
import random
from datetime import date, timedelta

import checks
from checks import PROGRAM, SAID, check, over_a_folder, run, said_to_a_full_device

FIRST = date(2000, 1, 1)
ASKED = date(2010, 1, 1)
MOST_IDS = 512

# a line, worked by hand: the first command alone, and with one substitution behind it; and one that another program told
ROWS = [
    ((0, 1), "commands 1 accepted 1 law 1 applied 0 unapplied 0"),
    ((0, 2), "commands 2 accepted 2 law 2 applied 1 unapplied 0"),
    ((50, 7), "commands 7 accepted 6 law 6 applied 2 unapplied 0"),
]


class Draws:
    """Numbers that a seed determines."""

    def __init__(self, seed):
        self.state = seed

    def draw(self, limit):
        self.state = (self.state * 6364136223846793005 + 1442695040888963407) % 2**64
        return (self.state >> 33) % limit

    def section_and_day(self):
        section = self.draw(64) + 1
        return section, FIRST + timedelta(days=self.draw(3650))


class Register:
    """What of the register decides: the law entries by number, the ids, and which of them stand. Each id is the first of its entry."""

    def __init__(self):
        self.front = 0
        self.bodies = {}
        self.withdrawn = set()

    def enact(self):
        self.front += 1

    def record(self, body):
        if len(self.bodies) == MOST_IDS:
            return
        self.front += 1
        self.bodies[self.front] = body

    def withdraw(self, law):
        if law not in self.bodies or law in self.withdrawn:
            return
        self.front += 1
        self.withdrawn.add(law)

    def correct(self, law, body):
        if law not in self.bodies:
            return
        self.front += 1
        self.bodies[law] = body


def request(register, draws):
    """One request behind the first."""
    choice = draws.draw(8)
    if register.front == 1 and choice > 5:
        choice = 0
    if choice < 5:
        register.record(("substitution", *draws.section_and_day()))
    elif choice == 5:
        register.record(("repeal", *draws.section_and_day()))
    elif choice == 6:
        register.withdraw(draws.draw(register.front - 1) + 2)
    else:
        law = draws.draw(register.front - 1) + 2
        register.correct(law, ("substitution", *draws.section_and_day()))


def replayed(register):
    """How many modifications the text has on the day that is asked for, and how many it could not have. All have the same source."""
    texts = {section: f"Text {section}." for section in range(1, 65)}
    bearing = [(body[2], law, body) for law, body in register.bodies.items()
               if law not in register.withdrawn and body[2] <= ASKED]
    applied = unapplied = 0
    for _, _, (edit, section, _) in sorted(bearing):
        if section not in texts or (edit == "substitution" and "e" not in texts[section]):
            unapplied += 1
            continue
        applied += 1
        if edit == "repeal":
            del texts[section]
        else:
            texts[section] = texts[section].replace("e", "ee", 1)
    return applied, unapplied


def line(seed, count):
    draws, register = Draws(seed), Register()
    register.enact()
    for _ in range(count - 1):
        request(register, draws)
    applied, unapplied = replayed(register)
    law = register.front
    return f"commands {count} accepted {law} law {law} applied {applied} unapplied {unapplied}"


def rows():
    """The rows, a run that reads nothing and touches no file, the same line twice, and a full device."""
    for (seed, count), wanted in ROWS:
        check(f"the line reckoned of {seed} {count}", line(seed, count), wanted)
        check(f"generate {seed} {count}", run(["generate", str(seed), str(count)], b""), (0, wanted.encode() + b"\n"))
    with checks.folder() as folder:
        first = run(["generate", "7", "400"], b"{", cwd=folder)
        check("generate 7 400 begins", (first[0], first[1][:22]), (0, b"commands 400 accepted "))
        check("generate 7 400 twice", over_a_folder([PROGRAM, "generate", "7", "400"], cwd=folder), first)
        check("generate to a full device", said_to_a_full_device([PROGRAM, "generate", "7", "400"], b"", cwd=folder), (4, SAID[4]))
        check("the files of generate", os.listdir(folder), [])


def seeds():
    """200 seeds, small, at both ends and drawn, each with a count."""
    drawn = random.Random(1)
    numbers = [*range(100), 2**33, 2**63, 2**64 - 2, 2**64 - 1, *(drawn.randrange(2**64) for _ in range(96))]
    counts = [1, 2, 3, 10, 50, 400, 700, 2000]
    for place, seed in enumerate(numbers):
        count = counts[place % len(counts)]
        got = run(["generate", str(seed), str(count)], b"")
        check(f"generate {seed} {count}", got, (0, line(seed, count).encode() + b"\n"))
