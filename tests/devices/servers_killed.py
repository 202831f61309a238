"""`serve` that is killed at a random moment while six drafters command and ask, again and again over one journal: the journal is opened afterwards,
each acknowledgement is there once, what all were told is of its history, and what was not acknowledged is sent again and acts once."""
import concurrent.futures
import random
import threading
import time

import checks
from checks import check
from clients.many_drafters import BEGINNING, in_one_piece
from clients.messages import at_most
from clients.served_desks import Desk, received
from devices.journal_file import called, kept
from models.journal_openings import payloads, undated
from models.served_histories import Connection, History, fault_of, responses
from models.small_desks import WORKS, Command, Drafter, Front, without_law

ROUNDS = 5
DRAFTERS = 6
MOST = 120


def next_commands(drafter, again):
    """What a drafter sends by one connection: what was not acknowledged, and some commands more with a question behind each."""
    made = list(again)
    for _ in range(drafter.draw.randrange(1, 5)):
        drafter.request += 1
        recorded = {"command": "record", "work": WORKS[drafter.request % 3], "modifications": [drafter.modification()]}
        made.append(Command(drafter=drafter.name, request=drafter.request, **recorded))
        made.append(Front())
    return made


class Killer:
    """Kills a desk a moment after so many responses came to all drafters together."""

    def __init__(self, desk, count, moment):
        self.left, self.lock, self.timer = count, threading.Lock(), threading.Timer(moment, desk.child.kill)

    def told(self, count):
        with self.lock:
            before, self.left = self.left, self.left - count
        if before > 0 >= self.left:
            self.timer.start()


def until_killed(desk, killer, drafter, again, opened, made):
    """Sends commands by one connection after another, each request once the one before it is answered or all in one piece, until the desk is gone.
    Gives what was not acknowledged."""
    while True:
        requests, written = next_commands(drafter, again), b""
        try:
            with desk.connected() as connection:
                if drafter.draw.random() < 0.5:
                    connection.sendall(b"".join(request.sent for request in requests))
                    written, _ = received(connection, len(requests))
                    killer.told(len(responses(written)[0]))
                else:
                    for request in requests:
                        connection.sendall(request.sent)
                        got, gone = received(connection, 1)
                        written += got
                        killer.told(1)
                        if gone or not got:
                            break
        except OSError:
            pass
        made.append(Connection(requests, True, written, False, opened))
        answered = len(responses(written)[0])
        again = [request for request in requests[answered:] if isinstance(request, Command)]
        if answered < len(requests):
            return again


def killed_once(folder, draw, drafters, agains, opened, made):
    """One desk that is killed amid its load. Gives what each drafter has still to send."""
    desk = Desk(folder, 1_000)
    with at_most(60, desk.child), concurrent.futures.ThreadPoolExecutor(DRAFTERS) as pool:
        desk.listens()
        killer = Killer(desk, draw.randrange(1, MOST), draw.uniform(0, 0.005))
        found = list(pool.map(lambda drafter, again: until_killed(desk, killer, drafter, again, opened, made), drafters, agains))
        desk.child.kill()
        desk.child.communicate()
    return found


def killed_rounds(seed):
    """A journal whose desk is killed some times, and then once more behind the commands that were left. Gives how many acknowledgements came before a
    kill."""
    draw = random.Random(seed)
    drafters = [Drafter(f"d{number}", random.Random(seed + number)) for number in range(DRAFTERS)]
    agains, made = [[] for _ in drafters], []
    with checks.folder() as folder:
        called(folder, "batch", b"".join(command.sent for command in BEGINNING))
        for number in range(1, ROUNDS + 1):
            opened, before = payloads(kept(folder)), len(made)
            agains = killed_once(folder, draw, drafters, agains, len(opened), made)
            told, found = called(folder, "check"), payloads(kept(folder))
            check(f"a kill of seed {seed}, round {number}", (told, found[:len(opened)] == opened, faults_of(found, made, made[before:])[:2]),
                  ((0, f"entries {len(found)} law {len(found)}\n".encode()), True, []))
        acknowledged, before = sum(status == 201 for one in made for status, _ in responses(one.written)[0]), len(made)
        desk = Desk(folder, 1_000)
        with at_most(60, desk.child):
            desk.listens()
            for drafter, again in zip(drafters, agains):
                with desk.connected() as connection:
                    made.append(Connection(*in_one_piece(connection, drafter, again + [Front()]), len(found)))
            desk.child.kill()
            desk.child.communicate()
        opened, found = found, payloads(kept(folder))
        check(f"what the last were told, seed {seed}", (found[:len(opened)] == opened, faults_of(found, made, made[before:])[:2]), (True, []))
        commands = {request.payload() for one in made for request in one.requests if isinstance(request, Command)}
        kept_ones = [without_law(undated(payload)) for payload in found][len(BEGINNING):]
        check(f"each command acted once, seed {seed}", (len(kept_ones), set(kept_ones) == commands), (len(commands), True))
        return acknowledged


def killed_amid_load(journals=4, seed=None):
    """So many journals, each with five kills."""
    seed = time.time_ns() % 1_000_000_000 if seed is None else seed
    print(f"{journals * ROUNDS} desks that are killed, of the seeds from {seed}")
    acknowledged = sum(map(killed_rounds, range(seed, seed + journals)))
    check("acknowledgements before a kill", acknowledged > journals * ROUNDS, True)


def faults_of(found, made, told):
    """What is wrong about a journal that all these connections have made, and about what some of them were told."""
    history = History(found, BEGINNING + [request for one in made for request in one.requests if isinstance(request, Command)])
    return history.wrong + [fault for one in told if (fault := fault_of(history, one))]
