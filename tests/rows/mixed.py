"""Streams whose calls fail in turn, each row with its response and the entry that it makes: an act that is enacted, sent again, and its number used
for another; twenty requests; and some forty of every kind, of which the first are those three."""
from clients.messages import bad_form, front, get, head, post, refused
from models import entry_bytes
from models.journal_openings import Stream, a_round
from rows import dossiers
from rows.drafts import NOBODY, holds, item, seen, without
from rows.histories import FRONT, asked, unanswered
from rows.register import FIRST, ONE, SECOND, SECTIONS, THIRD, TWO, add, correct, drop, enact, file, record, restore, withdraw

DAY = "2011-01-01"
ON_DAY = f"{ONE}/eng@{DAY}"
ALL = (FIRST, SECOND, THIRD)
OTHER_METHOD = head("HEAD /commands HTTP/1.1", "Host: a")


def one():
    """The stream of an act."""
    stream = Stream()
    stream.accepted(lambda who, n: enact(who, n, body=SECTIONS), entry_bytes.command(1, entry_bytes.act(entry_bytes.THREE)))
    return stream


def three():
    """The stream of the first three requests."""
    stream = one()
    stream.again()
    stream.broken(enact("ada", 1, TWO, body=SECTIONS), 1, 1)
    return stream


def refused_ones(stream):
    """Requests of which none comes to the register: each path and method that is none, bodies and queries of no form."""
    stream.asked(
        (FRONT, front(1)),
        (post("/commands", b"<p>"), bad_form(1)),
        (post("/commands", b"{}"), bad_form(2)),
        (get("/front?x=1"), bad_form(2)),
        (get("/none"), refused(6)),
        (OTHER_METHOD, refused(7, "POST")),
        unanswered(ON_DAY, 2, 1, 2),
        unanswered(f"{TWO}/eng@{DAY}", 1, TWO),
    )


def asked_round(stream):
    """A modification and a draft, and after each command a question whose answer it changes."""
    by_id = entry_bytes.id_("id", 2, 1)
    modification = entry_bytes.listed("modifications", [entry_bytes.repealed("sec_1")])
    item_of_bob = entry_bytes.command(6, entry_bytes.work("work"), entry_bytes.repealed("sec_3"))
    stream.asked(asked(ON_DAY, without("[]", *ALL, viewpoint=1)))
    stream.accepted(lambda who, n: record(who, n, dossiers.repeal("sec_1")), entry_bytes.command(2, entry_bytes.work("work"), modification))
    stream.asked(asked(ON_DAY, without('["2.1"]', SECOND, THIRD, viewpoint=2)))
    stream.accepted(lambda who, n: correct(who, n, "2.1", dossiers.repeal("sec_2")), entry_bytes.command(3, by_id, entry_bytes.repealed("sec_2")))
    stream.asked(asked(ON_DAY, without('["2.1"]', FIRST, THIRD, viewpoint=3)))
    stream.accepted(lambda who, n: withdraw(who, n, "2.1"), entry_bytes.command(4, by_id))
    stream.again()
    stream.broken(withdraw("ada", 1000, "2.1"), 9, 4)
    stream.asked(asked(ON_DAY, without("[]", *ALL, viewpoint=4)))
    stream.accepted(lambda who, n: restore(who, n, "2.1"), entry_bytes.command(5, by_id))
    stream.accepted(lambda who, n: add(who, n, dossiers.repeal("sec_3")), item_of_bob, "bob", 1)
    stream.asked(holds("bob", item(1, dossiers.repeal("sec_3"))), seen("bob", without('["2.1","6.1"]', FIRST, viewpoint=6)),
                 seen("ada", without('["2.1"]', FIRST, THIRD, viewpoint=5)))
    stream.accepted(lambda who, n: drop(who, n, 1), entry_bytes.command(7, entry_bytes.u32("item", 1)), "bob", 1)
    stream.asked((get("/draft?drafter=bob"), NOBODY))
    stream.accepted(lambda who, n: add(who, n, dossiers.repeal("sec_3")), item_of_bob, "bob", 2)
    stream.accepted(lambda who, n: file(who, n, 5), entry_bytes.command(8, entry_bytes.work("work"), entry_bytes.u32("seen", 5)), "bob")
    stream.asked(asked(ON_DAY, without('["2.1","6.1"]', FIRST, viewpoint=6)), asked(ON_DAY, without('["2.1"]', SECOND, THIRD, viewpoint=2), 2))


def twenty():
    """The act and the round alone: all commands, a repeat, a rule, questions and previews."""
    stream = one()
    asked_round(stream)
    return stream


def every_kind():
    """All commands, repeats of some, those that a rule refuses, questions, previews, and bodies that are refused."""
    stream = three()
    refused_ones(stream)
    asked_round(stream)
    a_round(stream, "cyd", 2)
    stream.asked((FRONT, front(11)))
    return stream


THREE = three().rows
TWENTY = twenty().rows
MIXED = every_kind().rows
