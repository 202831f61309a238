"""Desks of works whose modifications are made by provisions of later acts: random histories go through `lawdesk batch`, with a draft beside them,
and what each work says is reckoned anew by `models.held`, from the law alone. Asked is behind each command what all works say on some day, what one
said at an older viewpoint, and what one will say with the draft; and in the end what each says on each of its breakpoints, on the day before and on
the day after, in both readings, at the front and at older viewpoints.

Of other such histories `desk_trial` tells before each command which works it touches.

`python3 -m models.held_desks COUNT SEED NAMED`, typed in tests/, tries so many desks alone; of the sources so large a part names a provision. The
last line is 'N passed, M failed'.
"""
import sys
import time

import checks
from checks import check
from clients.messages import batch, command, compact, get, response
from models import held
from models.held_histories import ALL_DAYS, READINGS, Drafting, around
from rows.drafts import preview
from rows.histories import QUERY_NAMES, STATUS_OF_QUERY, text
from rows.sessions import lines_of, touched_line

DESKS, WORKS, COMMANDS, NAMED = 500, 8, 30, 0.75


def refused(rule, kept):
    """The response to a question that breaks a rule."""
    return response(STATUS_OF_QUERY[rule], compact({"kept": kept, "name": QUERY_NAMES[rule], "query": rule}))


class Texts:
    """What the works of a law say. The texts of a day are reckoned once."""

    def __init__(self, law):
        self.law, self.works, self.made = law, held.known(law), {}

    def on(self, reading, day):
        if (reading, day) not in self.made:
            self.made[reading, day] = held.trees(self.works, reading, day)
        return self.made[reading, day]

    def enacted(self, work, reading):
        """The answer about an act as it was enacted, without its expression."""
        alone = Texts([("enact", work.act)])
        return held.answer_by(alone.works, alone.on(reading, work.day), work.uri, reading, work.day, None)

    def told(self, uri, reading, day):
        """The response to a question about a work on a day, or as it was enacted where there is none."""
        work, viewpoint = self.works.get(uri), len(self.law)
        if not work:
            return refused(1, uri)
        if day and day < work.day:
            return refused(3, work.day)
        answer = held.answer_by(self.works, self.on(reading, day), uri, reading, day, viewpoint) if day else self.enacted(work, reading)
        return response(200, compact({**answer, "expression": f"{uri}/eng@{day}", "viewpoint": viewpoint}))

    def breakpoints(self):
        """Of each work its breakpoints, each with the day before it and the day after it."""
        return {uri: around(days) for uri, days in held.breakpoints(self.works).items()}


class Desk:
    """The requests of a history to a desk, each with the response that is wanted."""

    def __init__(self, seed, named):
        self.course = Drafting(seed, WORKS, COMMANDS, named=named)
        self.draw, self.known, self.rows = self.course.draw, {}, []
        for line, reply, law, drafted in zip(self.course.lines, self.course.replies, self.course.laws, self.course.drafts):
            self.rows.append((command(line), response(201, reply)))
            self.look(len(law), drafted)
        self.look_back()

    def texts(self, viewpoint):
        """What the works say by so many law entries."""
        if viewpoint not in self.known:
            self.known[viewpoint] = Texts(self.course.law[:viewpoint])
        return self.known[viewpoint]

    def ask(self, uri, reading, day, viewpoint, front):
        """A question at a viewpoint; at the front none is named."""
        target = text(f"{uri}/eng@{day}", viewpoint if viewpoint < front else None, reading)
        self.rows.append((get(target), self.texts(viewpoint).told(uri, reading, day)))

    def look_ahead(self, drafted, uri, reading, day, front):
        """A preview."""
        mods = [said for _, work, said in drafted if work == uri]
        texts = Texts([*self.course.law[:front], ("record", uri, mods)]) if mods else self.texts(front)
        self.rows.append((get(preview("bob", f"{uri}/eng@{day}", reading)), texts.told(uri, reading, day)))

    def look(self, front, drafted):
        """What is asked behind a command."""
        reading, day = self.draw.choice(READINGS), self.draw.choice(ALL_DAYS)
        for uri in self.course.uris:
            self.ask(uri, reading, day, front, front)
        self.ask(self.draw.choice(self.course.uris), self.draw.choice(READINGS), self.draw.choice([*ALL_DAYS, "", "", ""]),
                 self.draw.randrange(front + 1), front)
        if drafted:
            uri = self.draw.choice([*(work for _, work, _ in drafted), self.course.uris[0]])
            self.look_ahead(drafted, uri, self.draw.choice(READINGS), self.draw.choice(ALL_DAYS), front)

    def look_back(self):
        """What is asked in the end: each work about each of its breakpoints, and about some of those that it had at older viewpoints."""
        front = len(self.course.law)
        for viewpoint in [front, *self.draw.sample(range(1, front), min(3, front - 1))]:
            for uri, days in self.texts(viewpoint).breakpoints().items():
                for day in days if viewpoint == front else self.draw.sample(days, 2):
                    for reading in READINGS:
                        self.ask(uri, reading, day, viewpoint, front)

    def tried(self):
        """The first response of a desk that is not the one that is wanted, and where they differ; or nothing."""
        status, written = batch(b"".join(given for given, _ in self.rows))
        place = 0
        for number, (given, wanted) in enumerate(self.rows, 1):
            if not written.startswith(wanted, place):
                return f"request {number}, {given[-200:].decode()!r}: {differing(written[place:place + len(wanted) + 100], wanted)}"
            place += len(wanted)
        return (status, written[place:]) if status != 0 or place < len(written) else None


def differing(got, wanted):
    """Where two responses differ first."""
    place = next((i for i, (one, other) in enumerate(zip(got, wanted)) if one != other), min(len(got), len(wanted)))
    begin = max(0, place - 60)
    return f"{got[begin:place + 40]} where {wanted[begin:place + 40]} is wanted"


def touched(seed=None, count=DESKS, named=NAMED):
    """The works that each command of a random history touches, asked of `desk_trial` before it comes. Each desk is a check."""
    seed = time.time_ns() % 1_000_000_000 if seed is None else seed
    asked = 0
    for k in range(count):
        course, given, wanted, before = Drafting(f"{seed} {k}", WORKS, COMMANDS, named=named), [], [], []
        for line, reply, law in zip(course.lines, course.replies, course.laws):
            given += [f"touched {line}", line]
            wanted += [touched_line(held.touched(before, law[-1]) if len(law) > len(before) else []), reply]
            before = law
        check(f"touched works of desk {k} of seed {seed}", lines_of(given), (0, wanted))
        asked += len(course.lines)
    print(f"{count} desks of seed {seed}: the touched works of {asked} commands compared")


def random_desks(seed=None, count=DESKS, named=NAMED):
    """Each desk is a check."""
    seed = time.time_ns() % 1_000_000_000 if seed is None else seed
    asked = 0
    for k in range(count):
        desk = Desk(f"{seed} {k}", named)
        check(f"desk {k} of seed {seed}", desk.tried(), None)
        asked += len(desk.rows)
    print(f"{count} desks of works that depend on each other, of seed {seed}: {asked} responses compared")


if __name__ == "__main__":
    random_desks(int(sys.argv[2]) if len(sys.argv) > 2 else None, int(sys.argv[1]) if len(sys.argv) > 1 else DESKS,
                 float(sys.argv[3]) if len(sys.argv) > 3 else NAMED)
    checks.end()
