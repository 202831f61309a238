"""A desk that keeps the versions of several works by day, revised with each command, over a keeper that fails here and there: after each
command its tables give what a replay from scratch gives, a question at the front is answered from them, and a question at an older viewpoint
as it was when that was the front. Which commands a fault answers is reckoned here from docs/DESK.md.
"""
import datetime
import random
import time

from checks import check
from models.failing_keepers import FAULT, open_line, opened
from models.table_histories import BODY, DAYS, OTHER, History
from models.version_tables import GROWING
from rows.histories import PARTS
from rows.register import enact, law
from rows.sessions import lines_of

HISTORIES, COMMANDS, WORKS = 300, 24, 3
READINGS = ("force", "efficacy")


def beside(day):
    """A day, the one before it and the one after it."""
    middle = datetime.date.fromisoformat(day)
    return [str(middle + datetime.timedelta(days=shift)) for shift in (-1, 0, 1)]


ALL_DAYS = sorted({day for named in [*DAYS, "2012-06-01"] for day in beside(named)})


class Keeper:
    """A keeper of which some calls fail: an opening takes two, and each entry that is appended one."""

    def __init__(self, failing):
        self.failing, self.calls, self.pending = failing, 2, False

    def fails(self):
        self.calls += 1
        return self.calls in self.failing

    def takes(self, appends):
        """Whether a command gets its reply: what is pending is settled by an opening and a load, and then an entry is appended."""
        if self.pending:
            if self.fails() or self.fails():
                return False
            self.pending = False
        if appends and self.fails():
            self.pending = True
            return False
        return True


class Course:
    """The lines of one desk, each with what is wanted of it (`None`: any line will do), and the places of lines that are answered alike."""

    def __init__(self, seed):
        self.draw = random.Random(seed)
        self.keeper = Keeper({self.draw.randrange(3, 3 * COMMANDS) for _ in range(self.draw.choice([0, 2, 6, 12]))})
        self.lines, self.alike, self.asked = [(open_line(sorted(self.keeper.failing)), opened(0))], [], []
        self.front, self.drafted, self.works = 0, 0, []

    def command(self, line, reply):
        """A command, sent again until it has its reply; after each try the tables of a work are looked at."""
        appends = reply.startswith('{"law"') or reply.startswith('{"draft"')
        while not self.keeper.takes(appends):
            self.lines.append((line, FAULT))
            self.look_at(self.draw.choice(self.works)) if self.works else None
        self.lines.append((line, reply))

    def taken(self, work):
        """The commands that a history has come to, without what it asks of a table of its own."""
        lines, work.lines = work.lines, []
        for line, want in lines:
            if line.startswith("{"):
                self.command(line, want.split(" touched")[0])
        self.front, self.drafted = work.front, work.drafted

    def enacted(self):
        """One more work."""
        work = History(self.draw, f"/akn/gb/act/2010-05-01/{len(self.works) + 1}", "force", self.front, self.drafted)
        first, *_ = work.lines
        work.request = 100_000 * (len(self.works) + 1)
        work.lines = [first]
        self.taken(work)
        self.works.append(work)

    def enter(self):
        """One more command on a work."""
        work = self.draw.choice(self.works)
        work.front, work.drafted = self.front, self.drafted
        work.enter()
        self.taken(work)

    def ask(self, line):
        self.lines.append((line, None))
        return len(self.lines) - 1

    def look(self, work, reading, day):
        """What the table of a work gives on a day, what a replay gives, and the answer at the front: all one."""
        place = self.ask(f"table {work.uri} {reading} {day}")
        self.alike.append((place, self.ask(f"replay {work.uri} {reading} {day}")))
        question = f"ask {work.uri}/eng@{day} {self.front} {reading}"
        self.alike.append((place, self.ask(question)))
        self.asked.append((place, question))

    def look_at(self, work):
        for reading in READINGS:
            self.look(work, reading, self.draw.choice(ALL_DAYS))

    def ask_again(self):
        """A question of before, whatever has come since."""
        place, question = self.draw.choice(self.asked)
        self.alike.append((place, self.ask(question)))

    def run(self):
        self.front = 1
        self.command(enact("ada", 1, OTHER, body=BODY), law(1))
        for _ in range(WORKS):
            self.enacted()
        for _ in range(COMMANDS):
            self.enter()
            self.look_at(self.draw.choice(self.works))
            self.ask_again()
        for work in self.works:
            for reading in READINGS:
                for day in ALL_DAYS:
                    self.look(work, reading, day)
        for _ in range(40):
            self.ask_again()
        return self


def wrong_of(course):
    """The first lines of a course that are not as they should be."""
    status, got = lines_of(line for line, _ in course.lines)
    if status != 0 or len(got) < len(course.lines):
        return [("status and lines", status, len(got), len(course.lines))]
    lost = [(line, told, want) for (line, want), told in zip(course.lines, got) if want is not None and told != want]
    other = [(course.lines[a][0], got[a], course.lines[b][0], got[b]) for a, b in course.alike if got[a] != got[b]]
    none = [(line, told) for (line, want), told in zip(course.lines, got) if want is None and not told.startswith("{")]
    return lost[:1] + other[:1] + none[:1]


def random_commands(seed=None, count=HISTORIES):
    """Random commands on several works, with faults of the keeper in between."""
    seed = time.time_ns() % 1_000_000_000 if seed is None else seed
    print(f"{count} courses of a desk with tables, of seed {seed}")
    for k in range(count):
        check(f"course {k} of seed {seed}", wrong_of(Course(f"{seed} {k}").run()), [])


def old_viewpoints():
    """A history that grows, asked at an older viewpoint, again, and once more after 16 questions with other keys."""
    question = f"ask {PARTS}/eng@2010-01-01 26 force"
    others = [f"ask {PARTS}/eng@2010-01-01 {viewpoint} {reading}" for viewpoint in range(1, 18) for reading in READINGS]
    ids = [f"{number}.{item}" for number in range(2, 27) for item in (1,)]
    lines = [*GROWING, question, question, *others, question]
    status, got = lines_of(lines)
    first, again, last = got[len(GROWING)], got[len(GROWING) + 1], got[-1]
    check("an old viewpoint: the status, and how many lines", (status, len(got)), (0, len(lines)))
    check("an old viewpoint: the commands", got[:len(GROWING)], [law(k) for k in range(1, len(GROWING) + 1)])
    check("an old viewpoint: what was applied then", all(f'"{id}"' in first for id in ids), True)
    check("an old viewpoint, asked again", again, first)
    check("an old viewpoint, after 16 others", last, first)
