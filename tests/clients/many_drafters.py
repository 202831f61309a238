"""Eight drafters at one desk that is served, each by one connection after another: random commands, questions, repeats, requests in one piece or in
many, connections that are cut, broken or closed by halves. What each was told has to be of the one history that the journal holds, in its order, and
each acknowledgement stands there once. Three faults that are planted into what they were told have to be found."""
import concurrent.futures
import random
import socket
import time

import checks
from checks import check
from clients.messages import at_most, front
from clients.request_streams import told
from clients.served_desks import WORKERS, desk, received, reset
from devices.journal_file import kept
from models import small_desks
from models.journal_openings import payloads, undated
from models.requests_heard import next_response
from models.served_histories import Connection, faults_of, responses
from models.small_desks import BODY, WORKS, Command, Draft, Drafter, Fixed, Front, Text, without_law
from rows import dossiers, mixed

CLIENTS = 8
EACH = 10
BEGINNING = [Command(drafter="ada", request=number, command="enact", act=dossiers.act(FRBRuri=work, body=BODY))
             for number, work in enumerate(WORKS, 1)]
NO_ROUTE = Fixed(*next((given, wanted) for given, wanted, _ in mixed.MIXED if given.startswith(b"GET /none ")))


def drawn(drafter):
    """The next request of a drafter."""
    pick = drafter.draw.random()
    return NO_ROUTE if pick < 0.03 else drafter.command() if pick < 0.5 else drafter.question()


def remembers(drafter, requests, written):
    """A drafter reads what came back."""
    for request, (status, response) in zip(requests, responses(written)[0]):
        drafter.heard(request, status, next_response(response)[2])


def in_turn(connection, drafter, requests):
    """Each request once the one before it is answered; what is told is of use to the next one."""
    written, asked = b"", []
    for _ in requests:
        asked.append(drawn(drafter))
        connection.sendall(asked[-1].sent)
        got, _ = received(connection, 1)
        remembers(drafter, asked[-1:], got)
        written += got
    connection.shutdown(socket.SHUT_WR)
    left, ended = received(connection)
    return asked, False, written + left, ended


def in_one_piece(connection, drafter, requests):
    connection.sendall(b"".join(request.sent for request in requests))
    connection.shutdown(socket.SHUT_WR)
    return requests, False, *received(connection)


def in_pieces(connection, drafter, requests):
    given = b"".join(request.sent for request in requests)
    while given:
        size = drafter.draw.choice([1, 7, 100, 1000])
        connection.sendall(given[:size])
        given = given[size:]
        time.sleep(0.0005 * (drafter.draw.random() < 0.2))
    connection.shutdown(socket.SHUT_WR)
    return requests, False, *received(connection)


def cut(connection, drafter, requests):
    """The last request is cut, and nothing more is said."""
    last = drawn(drafter).sent
    connection.sendall(b"".join(request.sent for request in requests) + last[:drafter.draw.randrange(1, len(last))])
    connection.shutdown(socket.SHUT_WR)
    return requests, True, *received(connection)


def broken(connection, drafter, requests):
    """The connection is broken when some of the responses were read, or none."""
    connection.sendall(b"".join(request.sent for request in requests))
    written, _ = received(connection, drafter.draw.randrange(len(requests))) if drafter.draw.random() < 0.7 else (b"", False)
    reset(connection)
    return requests, True, written, False


WAYS = [in_turn, in_turn, in_one_piece, in_pieces, cut, broken]


def connections_of(served, drafter, count):
    """What a drafter does by so many connections. Behind one that broke he sends again what was not answered, under its old numbers."""
    made, again = [], []
    for _ in range(count):
        requests = again + [drawn(drafter) for _ in range(drafter.draw.randrange(1, 14))]
        way = drafter.draw.choice(WAYS) if not again else in_one_piece
        with served.connected() as connection:
            asked, is_cut, written, ended = way(connection, drafter, requests)
        made.append(Connection(asked, is_cut, written, ended, 0))
        remembers(drafter, asked, written)
        answered = len(responses(written)[0])
        again = [request for request in asked[answered:] if isinstance(request, Command)]
    return made


def served_to_all(seed):
    """A desk with three acts, and what became of it: its payloads, all connections, the status and the line, and the file that it left."""
    with checks.folder() as folder, desk(1 + CLIENTS * EACH // WORKERS, folder) as served:
        with served.connected() as connection:
            begun = Connection(*in_one_piece(connection, None, [*BEGINNING, Front(), *own_commands()]), 0)
        drafters = [Drafter(f"d{number}", random.Random(seed * CLIENTS + number)) for number in range(CLIENTS)]
        with at_most(60, served.child), concurrent.futures.ThreadPoolExecutor(CLIENTS) as pool:
            made = list(pool.map(lambda drafter: connections_of(served, drafter, EACH), drafters))
        ended = served.ended()
        return payloads(kept(folder)), [begun, *sum(made, [])], ended


def own_commands():
    """Commands each with a question behind it that has to know of them."""
    for number in range(4, 12):
        place = number * 100
        yield Command(drafter="ada", request=number, command="record", work=WORKS[0], modifications=[small_desks.repeal(1, "2011-01-01", place)])
        yield [Front(), Text(WORKS[0], "2012-01-01")][number % 2]
        yield Draft("ada")


def legal_history(count=6, seed=None):
    """What all were told is of the history that the journal holds."""
    seed = time.time_ns() % 1_000_000_000 if seed is None else seed
    print(f"{count} desks of eight drafters, of the seeds from {seed}")
    for number in range(seed, seed + count):
        found, connections, ended = served_to_all(number)
        laws = sum(small_desks.law_of(undated(payload)) > 0 for payload in found)
        check(f"eight drafters of seed {number}, the end", ended, (0, f"front {laws}\n".encode()))
        check(f"eight drafters of seed {number}", faults_of(found, connections)[:3], [])
        if number == seed:
            check("entries and responses", (len(found) > 60, sum(len(responses(one.written)[0]) for one in connections) > 300), (True, True))
            planted(found, connections)


def stale(connections):
    """A front that is told behind a greater one, on one connection that has no command between them."""
    for number, one in enumerate(connections):
        told = responses(one.written)[0]
        values = {place: next_response(response)[2]["front"] for place, (request, (_, response)) in enumerate(zip(one.requests, told))
                  if isinstance(request, Front)}
        for earlier, later in zip(list(values), list(values)[1:]):
            if values[earlier] > 3 and not any(isinstance(request, Command) for request in one.requests[earlier:later]):
                return replaced(connections, number, told, later, front(values[earlier] - 1))
    return None


def lost(connections):
    """A front that is told behind a command of the connection itself, and does not count it."""
    for number, one in enumerate(connections):
        told = responses(one.written)[0]
        for place, (request, (status, response)) in enumerate(list(zip(one.requests, told))[1:], 1):
            before = next_response(told[place - 1][1])[2]
            if isinstance(request, Front) and told[place - 1][0] == 201 and before.get("law", 0) > 3:
                return replaced(connections, number, told, place, front(before["law"] - 1))
    return None


def replaced(connections, number, told, place, response):
    """The connections with another response at a place of one of them."""
    written = b"".join(response if k == place else bytes_of for k, (_, bytes_of) in enumerate(told))
    return [*connections[:number], connections[number]._replace(written=written), *connections[number + 1:]]


def early(found, connections):
    """The journal without its last entry that was acknowledged, and those behind it, as if it had been acknowledged before it was kept."""
    acknowledged = {request.payload() for one in connections for request, (status, _) in zip(one.requests, responses(one.written)[0])
                    if isinstance(request, Command) and status == 201}
    last = max(place for place, payload in enumerate(found) if without_law(undated(payload)) in acknowledged)
    return found[:last]


def planted(found, connections):
    """A stale answer, a write of its own that a connection has lost, an acknowledgement of what is not kept; and beside these three an entry that
    stands twice, one that nobody sent, and a response too many. Each is found as what it is."""
    none, kept_not = "that of no register", "acknowledges what is not in the journal"
    asked_twice = [twice_asked(connections), *connections[1:]]
    check("what they were told, with a question asked twice", faults_of(found, asked_twice), [])
    for name, journal, told_to, words in [
            ("a stale answer", found, stale(connections) or stale(asked_twice), none),
            ("a stale answer of the first", found, stale(asked_twice[:1]) + connections[1:], none),
            ("a lost own write", found, lost(connections), none),
            ("an acknowledgement before the append", early(found, connections), connections, kept_not),
            ("an entry twice", [*found, found[-1]], connections, "an entry that may not stand there"),
            ("an entry that nobody sent", found, connections[:1], "an entry that nobody sent"),
            ("a response too many", found, [connections[0]._replace(written=connections[0].written + front(0)), *connections[1:]], "responses")]:
        faults = faults_of(journal, told_to) if told_to else []
        check(f"{name} is found", any(words in fault[0] for fault in faults) or faults[:2], True)


def twice_asked(connections):
    """The first connection with its first question for the front asked twice."""
    one = connections[0]
    told = responses(one.written)[0]
    place = next(k for k, request in enumerate(one.requests) if isinstance(request, Front) and next_response(told[k][1])[2]["front"] > 3)
    written = b"".join(response * (1 + (k == place)) for k, (_, response) in enumerate(told))
    return one._replace(requests=[*one.requests[:place], one.requests[place], *one.requests[place:]], written=written)


def model(count=30, seed=None):
    """The model by which they are judged answers as `batch` does, and foretells its entries."""
    seed = time.time_ns() % 1_000_000_000 if seed is None else seed
    print(f"{count} sessions of three drafters, of the seeds from {seed}")
    for number in range(seed, seed + count):
        draw, state, rows, entries = random.Random(number), small_desks.State(), [], []
        drafters = [Drafter(f"d{k}", draw) for k in range(3)]
        for request in [*BEGINNING, *[None] * 100]:
            drafter = draw.choice(drafters)
            request = request or drawn(drafter)
            wanted = request.reply(state)
            rows.append((request.sent, wanted))
            drafter.heard(request, next_response(wanted)[0], next_response(wanted)[2])
            if isinstance(request, Command):
                after = small_desks.entered(state, request.asked)
                entries += [request.payload()] if after is not state else []
                state = after
        given, wanted = told(rows)
        with checks.folder() as folder:
            got = checks.run(["batch"], given, cwd=folder)
            check(f"the model of seed {number}", got == (0, wanted), True)
            check(f"its entries of seed {number}", [without_law(undated(payload)) for payload in payloads(kept(folder))] == entries, True)
