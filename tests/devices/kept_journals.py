"""Journals that an earlier build wrote, when entries had one format: they open as they are, and give each answer byte for byte as that build gave it.

`tests/rows/kept/` has of each register `NAME.jnl`, its journal; the requests that made it and what was answered to them (`NAME.made.http`, `.out`);
questions at all viewpoints, in both readings, of drafts and previews, with their answers (`NAME.asked.http`, `.out`); and runs of other words with what
they wrote (`NAME.runs.json`). All of it came from that build and is never made anew: a build that gives other bytes breaks what it promised.
"""
import gzip
import json
import re

import checks
from checks import check
from clients.messages import check_written, front
from devices.followers import over
from models.followers import counted, framed
from models.journal_openings import payloads, undated
from rows.dossiers import repeal
from rows.histories import FRONT, accepted
from rows.register import ONE, SECTIONS, enact, law, record

FOLDER = ("tests", "rows", "kept")
NAMES = ["forty_sections", "drafts_and_corrections", "each_form"]
NEW = "/akn/gb/act/2010-05-01/70"
WORKS = {"forty_sections": "/akn/gb/act/2000-01-01/1", "drafts_and_corrections": ONE, "each_form": ONE}


def part(name, what):
    data = checks.read(*FOLDER, f"{name}.{what}")
    return gzip.decompress(data) if what.endswith(".gz") else data


def parts(name, stream):
    """A journal, a stream of requests and the responses to it."""
    return part(name, "jnl"), part(name, f"{stream}.http.gz"), part(name, f"{stream}.out.gz")


def runs(name):
    """Runs of other words: these, the status and what they wrote."""
    for run in json.loads(part(name, "runs.json")):
        yield run["words"], run["status"], run["written"].encode()


def answers():
    """`check`, the reports, `export` and all questions over each journal, which stays as it is; and a copy that `follow` makes of it."""
    for name in NAMES:
        journal, asked, told = parts(name, "asked")
        status, written, left = over(journal, ["batch"], asked)
        check_written(f"{name}, asked", (status, written), (0, told))
        check(f"{name}, the file behind the questions", left == journal, True)
        for words, status, written in runs(name):
            check(f"{name}, {words}", over(journal, words), (status, written, journal))
        frames, count = framed(payloads(journal)), len(payloads(journal))
        check(f"{name}, exported", over(journal, ["export", "0"]), (0, frames, journal))
        check(f"{name}, followed", over(None, ["follow"], frames), (*counted(count, count), journal))


def requests_again():
    """The requests that made each: a new register gets the same replies and, but for the days, the same journal, all in the first format; over the kept
    one they are repeats."""
    for name in NAMES:
        journal, made, told = parts(name, "made")
        status, written, left = over(journal, ["batch"], made)
        check_written(f"{name}, requests again", (status, written), (0, told))
        check(f"{name}, the file behind repeats", left == journal, True)
        status, written, left = over(None, ["batch"], made)
        check_written(f"{name}, requests to a new register", (status, written), (0, told))
        both = [[undated(one) for one in payloads(data)] for data in (left, journal)]
        check(f"{name}, the entries of a new register", both[0] == both[1], True)
        check(f"{name}, formats", {one[0] for one in payloads(journal)}, {1})


def of_old_viewpoints(stream, laws):
    """The questions of a stream that name a viewpoint which was there."""
    requests = [b"GET " + rest for rest in stream.split(b"GET ")[1:]]
    named = [(request, re.search(rb"viewpoint=([0-9]+)", request)) for request in requests]
    return b"".join(request for request, found in named if found and int(found[1]) <= laws)


def grown():
    """A kept register goes on in both formats: what stood in its journal stays, and so does each answer at a viewpoint that it had."""
    for name in NAMES:
        journal, asked, _ = parts(name, "asked")
        laws = int(json.loads(part(name, "runs.json"))[0]["written"].split()[3])
        rows = [accepted(enact("zoe", 1, NEW, body=SECTIONS, nodeLimit=8192), law(laws + 1)),
                accepted(record("zoe", 2, repeal("sec_1", provision="sec_9"), work=WORKS[name]), law(laws + 2)),
                accepted(record("zoe", 3, repeal("sec_2"), work=NEW), law(laws + 3)),
                (FRONT, front(laws + 3))]
        given, wanted = (b"".join(row[k] for row in rows) for k in (0, 1))
        status, written, left = over(journal, ["batch"], given)
        check_written(f"{name}, grown", (status, written), (0, wanted))
        check(f"{name}, what stood there", payloads(left)[:-3] == payloads(journal), True)
        check(f"{name}, the formats of what was added", [one[0] for one in payloads(left)[-3:]], [2, 2, 1])
        again = of_old_viewpoints(asked, laws)
        check(f"{name}, there are questions of old viewpoints", again.count(b"GET ") > 60, True)
        check_written(f"{name}, old viewpoints once it is grown", over(left, ["batch"], again)[:2], over(journal, ["batch"], again)[:2])
