"""Random histories of six works that refer to each other: what dangles on a day, reckoned anew after each command by `models.dangling`, beside
the index that a desk has kept up to date since its first entry, over a keeper that fails here and there, and beside the tables of reports over a
register that is kept.
"""
import time

import checks
from checks import check
from clients.messages import command, get
from devices.journal_file import called
from models import held_histories
from models.dangling import Texts
from models.failing_keepers import FAULT, open_line, opened
from models.held_histories import ALL_DAYS, around
from models.office_tables import Keeper
from rows.dangling import dangling
from rows.dossiers import node
from rows.register import NONE
from rows.reports import reported, text_of
from rows.sessions import lines_of

WORKS, COMMANDS, HISTORIES, KEPT, NAMED = 6, 16, 300, 40, (0, 0.5, 0.9)
CAUSES = {1: "UnknownWork", 3: "NotYetEnacted", 4: "OtherLanguage", 5: "UnknownPortion"}
PORTIONS = ["sec_1", "sec_2", "sec_3", "sec_3__para_a", "sec_3__para_b", "sec_9"]


class Course(held_histories.Drafting):
    """A history with references. In some no source names a provision."""

    def __init__(self, seed, named):
        super().__init__(seed, WORKS, COMMANDS, least=WORKS, named=named)

    def ref(self):
        uri = self.draw.choice([*self.uris, *self.uris, NONE])
        version = self.draw.choice([*ALL_DAYS, "", ""])
        brought = [f"sec_{20 + self.draw.randrange(2, COMMANDS + 2)}", f"sec_{40 + self.draw.randrange(2, COMMANDS + 2)}"]
        portion = self.draw.choice([None, None, *PORTIONS, *brought])
        return f"{uri}/{self.draw.choice(['eng'] * 9 + ['fra'])}@{version}" + (f"/~{portion}" if portion else "")

    def referring(self, nodes):
        """These nodes, with references on some of them."""
        return [{**one, "refs": [self.ref() for _ in range(self.draw.choice([0, 0, 1, 1, 2, 3]))],
                 "children": self.referring(one.get("children", []))} for one in nodes]

    def body(self):
        return self.referring(held_histories.BODY)

    def new(self, law):
        below = [node("paragraph", "a", content="New a.")] if self.draw.random() < 0.4 else []
        return self.referring([node(num=str(20 + law), content="New.", children=below)])


def asked_days(course, texts, count):
    """The days on which a text may change, and those beside them; or so many of them."""
    days = around(texts.days())
    return days if count is None else course.draw.sample(days, min(count, len(days)))


def rows_of(line):
    """The rows that a line of a desk tells."""
    words = line.split(" ")
    return [[*words[at:at + 3], CAUSES.get(int(words[at + 3]))] for at in range(1, len(words), 4)] if words[0] == "dangling" else line


def by_a_desk(course, count):
    """The lines of a course with questions of what dangles behind each, and what is wanted of them (`None`: a reply). Some calls of the keeper fail:
    then the command is sent again, and until it has its reply its entry is pending, which nobody sees."""
    keeper = Keeper({course.draw.randrange(3, 3 * COMMANDS) for _ in range(course.draw.choice([0, 0, 2, 6]))})
    lines, wanted, before = [open_line(sorted(keeper.failing))], [opened(0)], Texts([])

    def tell(line, want, texts):
        days = asked_days(course, texts, count)
        lines.extend([line, *(f"dangling {day}" for day in days)])
        wanted.extend([want, *(texts.dangling(day) for day in days)])

    for line, law in zip(course.lines, course.laws):
        while not keeper.takes(True):
            tell(line, FAULT, before)
        before = Texts(law)
        tell(line, None, before)
    return lines, wanted


def is_wrong(said, want):
    """Whether a line is not the one that is wanted: the reply to a command, a line, or one that tells these rows."""
    if want is None:
        return not said.startswith(('{"law"', '{"draft"'))
    return (said if isinstance(want, str) else rows_of(said)) != want


def kept_up_to_date(seed=None, histories=HISTORIES, count=4):
    """The index of a desk after each command: of one history in ten on every day, of the others on some."""
    seed = time.time_ns() % 1_000_000_000 if seed is None else seed
    compared, told = 0, 0
    for k in range(histories):
        lines, wanted = by_a_desk(Course(f"{seed} {k}", NAMED[k % 3]), None if k % 10 == 0 else count)
        status, got = lines_of(lines)
        check(f"what dangles in course {k} of seed {seed}: the status, and how many lines", (status, len(got) >= len(lines)), (0, True))
        wrong = [(line, said, want) for line, said, want in zip(lines, got, wanted) if is_wrong(said, want)]
        check(f"what dangles in course {k} of seed {seed}", wrong[:1], [])
        rows = [want for want in wanted if isinstance(want, list)]
        compared, told = compared + len(rows), told + sum(map(len, rows))
    print(f"{histories} courses of a desk with references, of seed {seed}: {compared} days compared, with {told} references that dangle")


def reported_as_kept(seed=None, histories=KEPT, count=4):
    """The report over a register that is kept, after some of the commands of a history; a preview leaves it alone."""
    seed = time.time_ns() % 1_000_000_000 if seed is None else seed
    compared = 0
    for k in range(histories):
        course = Course(f"{seed} {k}", NAMED[k % 3])
        cuts = sorted(course.draw.sample(range(1, len(course.lines) + 1), 2))
        with checks.folder() as folder:
            for first, last in zip([0, *cuts], cuts):
                preview = get(f"/preview?drafter=bob&expression={course.uris[0]}/eng@2011-06-01")
                called(folder, "batch", b"".join(command(line) for line in course.lines[first:last]) + preview)
                texts = Texts(course.laws[last - 1])
                for day in asked_days(course, texts, count):
                    words = dangling(day)
                    check(f"report of course {k} of seed {seed}, {last} commands, {day}", reported(folder, words), text_of(words, texts.dangling(day)))
                    compared += 1
    print(f"{histories} courses of a register that is kept, of seed {seed}: {compared} reports of what dangles compared")
