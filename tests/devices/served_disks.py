"""A disk that takes no more while a desk is served to several connections: commands are answered 503 and questions as before, and once it
takes more, what is sent again acts once, by whatever connection. `serve` then ends with 5."""
import os
import resource
import signal

import checks
from checks import check
from clients.served_desks import desk, received
from devices.journal_file import JOURNAL, called, kept
from models.journal_openings import KEEPER_FAILED, payloads, undated
from models.small_desks import BODY, WORKS, Command, Front, State, Text, entered, repeal, without_law
from rows import dossiers

ACT = Command(drafter="ada", request=1, command="enact", act=dossiers.act(FRBRuri=WORKS[0], body=BODY))
COMMANDS = [Command(drafter=name, request=1, command="record", work=WORKS[0], modifications=[repeal(place, "2011-01-01", place)])
            for place, name in enumerate(("bob", "cyd", "dan"), 1)]
QUESTIONS = [Front(), Text(WORKS[0], "2012-01-01")]


def limit(served, size):
    """Lets the files of a desk become no longer than so many bytes."""
    resource.prlimit(served.child.pid, resource.RLIMIT_FSIZE, (size, resource.RLIM_INFINITY))


def unkilled():
    """A write past a limit is a fault, and no end."""
    signal.signal(signal.SIGXFSZ, signal.SIG_IGN)


def asked(connection, requests):
    """The response to each request, one after another."""
    found = []
    for request in requests:
        connection.sendall(request.sent)
        found.append(received(connection, 1)[0])
    return found


def told(requests, state):
    """The responses of a register to requests that change nothing."""
    return [request.reply(state) for request in requests]


def taken(state, commands):
    """The responses to commands, and the register behind them."""
    replies = []
    for command in commands:
        replies.append(command.reply(state))
        state = entered(state, command.asked)
    return replies, state


def kept_by(folder):
    return [without_law(undated(payload)) for payload in payloads(kept(folder))]


def until_it_takes_more():
    """Three connections, each with a command that is not kept; then there is room."""
    with checks.folder() as folder, desk(1, folder, preexec_fn=unkilled) as served:
        connections = [served.connected() for _ in range(3)]
        begun, state = taken(State(), [ACT])
        check("an act before the disk is full", asked(connections[0], [ACT]), begun)
        limit(served, os.path.getsize(os.path.join(folder, JOURNAL)))
        for connection, command in zip(connections, COMMANDS):
            check("a command of a full disk, and questions", asked(connection, [command, *QUESTIONS]), [KEEPER_FAILED, *told(QUESTIONS, state)])
        check("one of them again, and that of another", asked(connections[0], COMMANDS[:2]), [KEEPER_FAILED] * 2)
        limit(served, resource.RLIM_INFINITY)
        replies, state = taken(state, [COMMANDS[1], COMMANDS[1], COMMANDS[0]])
        check("what is sent again by another connection", asked(connections[2], [COMMANDS[1], COMMANDS[1], COMMANDS[0]]), replies)
        check("questions behind it", asked(connections[1], QUESTIONS), told(QUESTIONS, state))
        replies, state = taken(state, COMMANDS)
        check("all of them once more", asked(connections[1], COMMANDS), replies)
        for connection in connections:
            connection.close()
        check("the end behind a full disk", served.ended(), (5, b"front 4\n"))
        check("what is kept", kept_by(folder), [command.payload() for command in (ACT, COMMANDS[1], COMMANDS[0], COMMANDS[2])])
        check("a check of that", called(folder, "check"), (0, b"entries 4 law 4\n"))


def to_the_end():
    """A disk that stays full: no command is kept, and another run takes them all."""
    with checks.folder() as folder:
        with desk(1, folder, preexec_fn=unkilled) as served:
            with served.connected() as connection:
                begun, state = taken(State(), [ACT])
                check("an act before the disk stays full", asked(connection, [ACT]), begun)
                limit(served, os.path.getsize(os.path.join(folder, JOURNAL)))
                check("commands of a disk that stays full", asked(connection, [*COMMANDS, *QUESTIONS]), [KEEPER_FAILED] * 3 + told(QUESTIONS, state))
            check("the end of a disk that stays full", served.ended(), (5, b"front 1\n"))
        check("what is kept of that", (called(folder, "check"), kept_by(folder)), ((0, b"entries 1 law 1\n"), [ACT.payload()]))
        with desk(1, folder) as served:
            with served.connected() as connection:
                check("the commands by another run", asked(connection, COMMANDS), taken(state, COMMANDS)[0])
            check("the end of another run", served.ended(), (0, b"front 4\n"))
