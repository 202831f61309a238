"""What bears where provisions of later acts make modifications, as `models.held` reckons it: the histories of `rows.held` as they were written by
hand, and of random histories that between two breakpoints a text stands still, and that before its touched day a work stays as it was.
"""
import json
import time

from checks import check
from models import held, held_histories
from models.held_histories import ALL_DAYS, READINGS
from rows import held as rows

HISTORIES = 12


def law_of(history):
    return [entry for _, entry in history]


def eids(law, work, reading, day, viewpoint):
    """The eIds at the top of a text."""
    return [shown["eId"] for shown in held.answer(law, work, reading, day, viewpoint)["body"]]


def written():
    """The histories that were written by hand."""
    for name, (history, days, is_there) in rows.STORIES.items():
        for viewpoint, row in is_there.items():
            for reading, there in rows.by_reading(row):
                got = ["sec_3" in eids(law_of(history), rows.ONE, reading, day, viewpoint) for day in days]
                check(f"{name}, viewpoint {viewpoint}, {reading}", got, there)
    for name, touched in rows.TOUCHED.items():
        law = law_of(rows.STORIES[name][0])
        for number, want in touched.items():
            check(f"{name}, touched by law {number}", held.touched(law[:number - 1], law[number - 1]), want)
    law = law_of(rows.MADE_EARLIER)
    for reading in READINGS:
        got = [eids(law, rows.SOURCE, reading, day, 3) for day in ("2011-01-31", "2011-02-01")]
        check(f"a repeal that an earlier act makes, {reading}", got, [["sec_9"], []])


def told(works, uri, made):
    """All that a text is, with what each modification says that was tried on it."""
    body, applied, unapplied, _ = made[uri]
    said = [works[uri].mods[id] for id in applied + [id for id, _ in unapplied]]
    return json.dumps([held.listed(body), applied, unapplied, said], sort_keys=True)


def texts(law):
    """The works of a law, and what each is on each day in each reading."""
    works = held.known(law)
    made = {(reading, day): held.trees(works, reading, day) for reading in READINGS for day in ALL_DAYS}
    return works, {(uri, *at): told(works, uri, texts_then) for at, texts_then in made.items() for uri in works}


def wrong_of(law):
    """The first work that changes where it should stay."""
    before = {}
    for number in range(1, len(law) + 1):
        works, now = texts(law[:number])
        days = held.breakpoints(works)
        for uri, reading, day in now:
            last = ALL_DAYS[ALL_DAYS.index(day) - 1]
            if day != ALL_DAYS[0] and day not in days[uri] and json.loads(now[uri, reading, day])[:3] != json.loads(now[uri, reading, last])[:3]:
                return "between breakpoints", number, uri, reading, day
        touched = dict(held.touched(law[:number - 1], law[number - 1]))
        for (uri, reading, day), text in before.items():
            if (uri not in touched or day < touched[uri]) and now[uri, reading, day] != text:
                return "before the touched day", number, uri, reading, day
        before = now
    return None


def stay():
    """Random histories: what stays of each work."""
    seed = time.time_ns() % 1_000_000
    wrong = [(seed + k, wrong_of(held_histories.Course(seed + k, 5, 20).law)) for k in range(HISTORIES)]
    check("works that depend on each other stay where they should", [found for found in wrong if found[1]], [])
