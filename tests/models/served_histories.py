"""Whether what the connections of a desk were told is of one legal history: the one that its journal holds. Each response has to be that of the
register of the first k entries, for a k that never falls along its connection; what is acknowledged there stands in the journal once, and within the
k of all that the connection is told later. So docs/PROTOCOL.md says it, of connections."""
import collections

from clients.messages import closed
from models import small_desks
from models.journal_openings import undated
from models.requests_heard import next_response
from models.small_desks import Command, law_of, without_law

# A connection: its requests in order, whether the last was cut before its end, the bytes that came back, whether they came to their end, and how many
# entries the register had when the connection was made, at the least.
Connection = collections.namedtuple("Connection", "requests cut written ended opened")


class History:
    """The entries of a journal, the states that they make of an empty register, and what is wrong about them."""

    def __init__(self, payloads, commands):
        known = {command.payload(): command for command in commands}
        self.states, self.places, self.wrong = [small_desks.State()], {}, []
        for number, payload in enumerate(payloads, 1):
            command = known.get(without_law(undated(payload)))
            if command is None:
                self.wrong.append(("an entry that nobody sent", number, payload))
                break
            state = small_desks.entered(self.states[-1], command.asked)
            if state is self.states[-1] or law_of(undated(payload)) not in (0, state.laws):
                self.wrong.append(("an entry that may not stand there", number, command.asked))
                break
            self.places[command.asked["drafter"], command.asked["request"]] = number
            self.states.append(state)

    def place_of(self, request):
        """The number of the entry that a command became, or none."""
        number = self.places.get((request.asked["drafter"], request.asked["request"]))
        return number if number and self.states[number].done[request.asked["drafter"], request.asked["request"]][0] == request.asked else None


def responses(written):
    """The responses in what was written, each with its status, and what is left."""
    found = []
    while (one := next_response(written)) is not None:
        found.append((one[0], one[3]))
        written = written[len(one[3]):]
    return found, written


def fault_of(history, connection):
    """What is wrong about what a connection was told, or none."""
    told, left = responses(connection.written)
    asked = connection.requests
    if connection.cut and connection.ended and told and told[-1][1] == closed(9):
        told = told[:-1]
    elif connection.cut and connection.ended:
        return "a request that was cut has no response", connection.written[-200:]
    if len(told) > len(asked) or (connection.ended and (left or len(told) < len(asked))):
        return f"{len(asked)} requests and {len(told)} responses", left[:100]
    least = connection.opened
    for number, (request, (status, response)) in enumerate(zip(asked, told), 1):
        fits = (k for k in range(least, len(history.states)) if request.reply(history.states[k]) == response)
        found = next(fits, None)
        if found is None:
            return f"response {number} is that of no register from entry {least} on", request.sent[-300:], response[-300:]
        least = found
        if isinstance(request, Command) and status == 201:
            place = history.place_of(request)
            if place is None:
                return f"response {number} acknowledges what is not in the journal", request.asked
            least = max(least, place)
    return None


def faults_of(payloads, connections):
    """What is wrong about a journal and the connections that have made it."""
    commands = [request for connection in connections for request in connection.requests if isinstance(request, Command)]
    history = History(payloads, commands)
    wrong = list(history.wrong)
    return wrong + [fault for connection in connections if (fault := fault_of(history, connection))]
