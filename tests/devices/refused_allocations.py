"""Memory that is refused outside of the program, by a library that stands before the C library: each allocation of a run in turn, alone and with
all behind it. The status is 7 then, or that of a run in which all went well; what is acknowledged is in the journal, and a request that was
answered 500 has put nothing there."""
import concurrent.futures
import itertools
import os
import socket

import checks
from checks import SAID, check
from clients.messages import closed
from clients.served_desks import HOST
from devices import measured_runs
from devices.failing_calls import whole_journal
from devices.measured_runs import KEEPER, SINK, SOURCE
from devices.journal_file import journal
from devices.want_of_memory import NO_MEMORY
from models import failing_keepers
from models.followers import LONG, framed
from models.journal_openings import entered, entries, payloads, undated
from rows import dossiers, histories, mixed
from rows.register import ONE

POINTS, COUNTED = 5_000, ("text", "check", "batch", "report")
SENT = 12
WORKERS = os.cpu_count()


class Form:
    """A form of the program: its words, what is given to a run, what of the journal is there, which devices fail, and what is wrong about a run."""

    def __init__(self, words, given=b"", begun=None, failing=0):
        self.words, self.given, self.begun, self.failing, self.whole = words, given, begun, failing, None

    def run(self, runner, turn=0, later=False):
        return runner.run(self.given, self.begun, turn, later, self.failing)

    def fault_of(self, run):
        """It ends as the run in which all went well, or there is not enough memory and nothing was written. The journal stays."""
        wanted = [self.whole] + [(7, b"", SAID[7])] * run.met
        if run[:3] not in wanted or run.kept != self.begun:
            return run[:4]
        return None


class Requests(Form):
    """A stream of requests to a new desk."""

    def __init__(self, rows, status=0):
        super().__init__(["batch"], b"".join(row[0] for row in rows))
        self.rows, self.status = rows, status
        self.fronts = {b"".join(row[1] for row in rows[:count]): count for count in range(len(rows) + 1)}

    def answered(self, run):
        """How many requests were answered, as what was written tells; none where that are no responses to the first ones."""
        return self.fronts.get(run.written.removesuffix(NO_MEMORY) if run.status == 7 else run.written)

    def fault_of(self, run):
        """What was written are the responses to the first requests, perhaps with a 500 behind them; and their entries are there, and no other."""
        answered = self.answered(run)
        wanted = (7, SAID[7]) if run.met and run.status == 7 else (self.status, b"")
        if (run.status, run.said) != wanted or answered is None or (run.status == self.status and answered < len(self.rows)):
            return run[:3]
        found = payloads(run.kept or b"")
        if found is None or list(map(undated, found)) != entries(self.rows)[:entered(answered, self.rows)]:
            return run.status, answered, "requests are answered, and kept are", found and len(found)
        return None

    def rest_of(self, run):
        """The requests that were not answered, and the responses to them."""
        rest = self.rows[self.answered(run):]
        return b"".join(row[0] for row in rest), b"".join(row[1] for row in rest)


class Opened(Form):
    """An opening of a journal that is new, which may be written or not; devices fail before anything is kept in it. A 500 may be written where
    there is not enough memory to read."""

    def fault_of(self, run):
        wanted = [self.whole] + [(7, b"", SAID[7]), (7, NO_MEMORY, SAID[7])] * run.met
        return run[:4] if run[:3] not in wanted or payloads(run.kept or b"") != [] else None


class Unheard(Form):
    """Connections that are to come in at a port that another socket has: the line at the end may be written where there is not enough memory."""

    def fault_of(self, run):
        wanted = [self.whole] + [(7, line, SAID[7]) for line in (b"", self.whole[1])] * run.met
        return run[:4] if run[:3] not in wanted or payloads(run.kept or b"") != [] else None


class Exported(Form):
    """The frames of a register: where there is not enough memory, the first of them may be written."""

    def fault_of(self, run):
        fronts = [framed(LONG[:count]) for count in range(len(LONG) + 1)]
        allowed = run[:3] == self.whole or (run.met and run.status == 7 and run.said == SAID[7] and run.written in fronts)
        return None if allowed and run.kept == self.begun else run[:3]


class Followed(Form):
    """Frames that are sent to an empty follower: what it holds is a front of its leader's payloads."""

    def fault_of(self, run):
        wanted = [self.whole] + [(7, b"", SAID[7])] * run.met
        left = payloads(run.kept or b"")
        allowed = run[:3] in wanted and left is not None and left == LONG[:len(left)] and (run.status == 7 or len(left) == SENT)
        return None if allowed else (*run[:3], left and len(left))


def forms(port):
    """Each form, with the status of a run that has all its memory; another socket has the port."""
    file = whole_journal()
    damaged = journal(failing_keepers.EXAMPLE)
    return {
        "text": [(0, Form(["text", "2011-01-01"], checks.read("examples", "repeal.json"))),
                 (0, Form(["text", "2013-09-01", "efficacy"], checks.read("examples", "edits.json"))),
                 (9, Form(["text", "2011-01-01"], dossiers.dossier(mods=[dossiers.repeal(), dossiers.repeal(until="2011-01-01")]))),
                 (10, Form(["text", "2011-01-01"], dossiers.dossier(mods=[dossiers.repeal(), 1]))),
                 (3, Form(["text", "2011-01-01"], failing=SOURCE)), (4, Form(["text", "2011-01-01"], dossiers.dossier(), failing=SINK))],
        "check": [(0, Opened(["check"])), (0, Form(["check"], begun=file)), (6, Form(["check"], begun=damaged)),
                  (4, Form(["check"], begun=file, failing=SINK)), (5, Form(["check"], failing=KEEPER))],
        "batch": [(0, Requests(mixed.TWENTY)), (1, Requests([*mixed.THREE, (histories.FRONT[:9], closed(9), None)], 1)),
                  (3, Opened(["batch"], failing=SOURCE)), (4, Opened(["batch"], histories.FRONT, failing=SINK)),
                  (5, Form(["batch"], histories.FRONT, failing=KEEPER))],
        "report": [(0, Form(["report", "unapplied", "2011-01-01"], begun=file)), (0, Form(["report", "lifecycle", ONE], begun=file)),
                   (0, Form(["report", "dangling", "2011-01-01"], begun=file)),
                   (0, Form(["report", "correspondence", ONE, "2010-06-01", "2011-01-01"], begun=file)),
                   (9, Form(["report", "lifecycle", ONE + "0"], begun=file)), (5, Form(["report", "lifecycle", ONE], failing=KEEPER))],
        "export": [(0, Exported(["export", "0"], begun=journal(*LONG)))],
        "follow": [(0, Followed(["follow"], framed(LONG[:SENT])))],
        "serve": [(8, Unheard(["serve", str(port), "1"]))],
        "words": [(2, Form(["text", "2011-01-32"])), (0, Form(["generate", "0", "3"]))],
    }


def each_in_turn(place, form, first):
    """Each of so many allocations from the first on, until a run comes to none: how many were refused, and what is wrong. What is left of the
    requests is sent to another run, over the journal that is there then."""
    refused, wrong, ends = 0, [], {}
    with measured_runs.runner(place, form.words) as runner:
        for turn in itertools.count(first, WORKERS):
            runs = [form.run(runner, turn, later) for later in (False, True)]
            refused += sum(run.met for run in runs)
            faults = [(turn, later, fault) for later, run in enumerate(runs) if (fault := form.fault_of(run))]
            if isinstance(form, Requests) and not faults:
                ends.update({form.answered(run): run for run in runs})
            wrong += faults
            if not any(run.met for run in runs):
                break
        for answered, run in ends.items():
            given, wanted = form.rest_of(run)
            again = runner.run(given, run.kept)
            wrong += [(turn, answered, again[:3])] if again[:3] != (form.status if given else 0, wanted, b"") else []
    return refused, wrong


def allocations():
    """Each allocation of each form; at least five thousand of `text`, `check`, `batch` and `report`."""
    with (measured_runs.tools() as place, concurrent.futures.ThreadPoolExecutor(WORKERS) as pool,
          socket.create_server((HOST, 0)) as other):
        if place is None:
            checks.skip("allocations that are refused in turn", measured_runs.NO_CC)
            return
        counts = {}
        for name, rows in forms(other.getsockname()[1]).items():
            for status, form in rows:
                with measured_runs.runner(place, form.words) as runner:
                    form.whole = form.run(runner)[:3]
                check(f"{form.words} with all its memory ends with {status}", form.whole[0], status)
                refused, wrong = zip(*pool.map(lambda first: each_in_turn(place, form, first), range(1, WORKERS + 1)))
                counts[name] = counts.get(name, 0) + sum(refused)
                wrong = sorted(sum(wrong, []))
                check(f"{form.words} with an allocation refused: how many are wrong, and the first", (len(wrong), wrong[:1]), (0, []))
        print("allocations refused: " + ", ".join(f"{name} {count}" for name, count in counts.items()))
        check(f"at least {POINTS} allocations", sum(count for name, count in counts.items() if name in COUNTED) >= POINTS, True)
