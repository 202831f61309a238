"""Checks of the pages over a desk: what they show is the desk's answer, nobody else's page or machine is served, and a desk that dies loses no command."""
import csv
import io
import json
import os
import random
import shutil
import socket
import subprocess
import tempfile
import threading
import time
import urllib.request

from lxml import html

import bridge
import desk
import examples
import journal
import register
import running
import web

HERE = os.path.dirname(os.path.abspath(__file__))
ACTS = os.path.join(os.path.dirname(HERE), "acts")
PORT = 8791
HEADERS = {"Host": f"localhost:{PORT}"}


def folder_of(path):
    """A folder with the register of an act and its dressing."""
    files = [os.path.join(ACTS, f"{it}.xml") for it in ("uk-harbours", "uk-harbours-2005")]
    subprocess.run([os.path.join(os.path.dirname(HERE), "deskside"), "from-akn", *files, "--out", os.path.join(path, "harbours")], check=True, stderr=subprocess.DEVNULL)
    with open(os.path.join(path, "harbours.dossier.json"), encoding="utf-8") as it:
        return json.load(it)


LOST = "act.xml:1: <b>something</b> that was lost"


def checked(check, harms, hostile):
    """The pages over a desk of their own, and over one that runs at a port. harms: what of a page could run; hostile: a dossier with words that look like markup."""
    for name, way in (("a batch", over_a_batch), ("a port", over_a_port)):
        with tempfile.TemporaryDirectory(prefix="deskside-") as path:
            way(lambda title, holds, why="": check(f"over {name}: {title}", holds, why), path, harms, hostile)
    fallen_silent(check)
    not_opened(check)


def over_a_batch(check, path, harms, hostile):
    dossier = folder_of(path)
    lose(path)
    app = web.made(path, PORT)
    try:
        session(check, app, dossier, harms, hostile)
        killed(check, app)
    finally:
        app.desk.running.end()
    served(check, path)


def over_a_port(check, path, harms, hostile):
    dossier, over = folder_of(path), bridge.Bridge(path)
    lose(path)
    app = web.made(path, PORT, running.at(f"127.0.0.1:{over.port}"))
    try:
        session(check, app, dossier, harms, hostile)
        check("all that was asked went over one connection", over.count == 1, str(over.count))
        over = lost_and_found(check, app, over)
        app.desk.running.end()
        served(check, path, "--desk", f"127.0.0.1:{over.port}")
        refused_desks(check, path, over.port)
    finally:
        app.desk.running.end()
        over.end()


def session(check, app, dossier, harms, hostile):
    loaded(check, app, dossier)
    texts(check, app, dossier)
    lived(check, app, dossier)
    linked(check, app, harms)
    told_lost(check, app, dossier)
    addressed(check, app, harms, dossier)
    hostile_words(check, app, harms, hostile)
    others(check, app)
    too_long(check, app)


def lose(path):
    """Has the dressing tell of something that was lost."""
    with open(os.path.join(path, "harbours.dressing.json"), "r+", encoding="utf-8") as it:
        dressed = json.load(it)
        it.seek(0)
        json.dump({**dressed, "lost": [LOST]}, it)
        it.truncate()


def loaded(check, app, dossier):
    """Commands go through the pages' own address."""
    client = app.test_client()
    check("an empty desk has a page", client.get("/", headers=HEADERS).status_code == 200)
    for it in register.commands(dossier):
        check("a command is recorded", client.post("/commands", data=json.dumps(it), headers=HEADERS).status_code == 201)
    item = {"drafter": "ada", "request": 1, "command": "draftAdd", "work": dossier["act"]["FRBRuri"],
            "modification": {"textualMod": {"type": "repeal", "source": {"href": "/akn/gb/act/2012-01-01/1", "place": 1}, "force": {"from": "2012-02-01"}, "destination": {"wId": "sec_1"}}}}
    check("a draft's item is recorded", client.post("/commands", data=json.dumps(item), headers=HEADERS).status_code == 201)
    client.post("/commands", data=json.dumps({**item, "request": 1}), headers=HEADERS)


def texts(check, app, dossier):
    """The page of a text says each word of the desk's answer, in its order, and the same day as XML and JSON."""
    client, work = app.test_client(), dossier["act"]["FRBRuri"]
    for day in ("2001-03-14", "2001-06-01", "2005-12-31", "2006-01-01"):
        answer = json.loads(client.get(f"{work}/eng@{day}.json", headers=HEADERS).data)
        shown = html.fromstring(client.get(f"{work}/eng@{day}", headers=HEADERS).data)
        for it in shown.xpath("//sup[a]"):
            it.drop_tree()
        # (white space apart, since a page lays words out in its own way)
        said, at = "".join("".join(shown.xpath("//main//text()")).split()), 0
        for node, _, _ in desk.provisions(answer):
            for piece in (node["heading"], node["content"]):
                wanted = "".join(piece.replace("\ufffc", " ").split())
                found = said.find(wanted, at)
                if found < 0:
                    check(f"'{piece[:60]}' of {node['eId']} on {day} stands in the page", False, said[at : at + 80])
                    return
                at = found + len(wanted)
        check(f"the page of {day} says what the desk says", True)
        marks = len(shown.xpath("//main//span[@class='mark']"))
        check(f"what does not bear on {day} is marked in words", marks == sum(not node["bears"] for node, _, _ in desk.provisions(answer)), str(marks))
        check(f"{day} as HTML has the same page", client.get(f"{work}/eng@{day}.html", headers=HEADERS).data == client.get(f"{work}/eng@{day}", headers=HEADERS).data)
        check(f"{day} as XML", client.get(f"{work}/eng@{day}.xml", headers=HEADERS).data.startswith(b"<?xml"))
        check(f"{day} has headings in order", [int(it.tag[1]) for it in shown.iter("h1", "h2", "h3", "h4", "h5", "h6")][0] == 1)
    timeline = client.get(work, headers=HEADERS).data.decode()
    check("the act's days", "2006-01-01" in timeline and "?against=" in timeline)
    beside = client.get(f"{work}/eng@2006-01-01?against=2005-12-31", headers=HEADERS).data.decode()
    check("two days side by side", "<del>[-3-]</del>" in beside and "<ins>[+4+]</ins>" in beside)
    draft = client.get("/drafts/ada?" + f"work={work}&day=2012-03-01", headers=HEADERS).data.decode()
    check("a draft beside the law", "only in the law as it is" in draft and "sec_1" in draft)
    unapplied = client.get("/unapplied?day=2006-01-01", headers=HEADERS).data.decode()
    check("what was not applied", work in unapplied)
    check("what is not known", client.get("/akn/gb/act/1900/1", headers=HEADERS).status_code == 404)
    check("a day before the act", client.get(f"{work}/eng@1999-01-01", headers=HEADERS).status_code in (400, 404, 409))


def lived(check, app, dossier):
    """The days of an act tell each event of the desk's own table of its life."""
    work = dossier["act"]["FRBRuri"]
    with tempfile.TemporaryDirectory(prefix="deskside-") as path:
        desk.run(["batch"], b"".join(register.post(it) for it in register.commands(dossier)), path)
        rows = list(csv.DictReader(io.StringIO(desk.run(["report", "lifecycle", work], b"", path)[1].decode())))
    days = html.fromstring(app.test_client().get(work, headers=HEADERS).data).xpath("//main/ol/li")
    told = [(day.xpath("a")[0].text, event.text.partition(",")[0]) for day in days for event in day.xpath("ul/li")]
    check("the act's days begin with that of the act", rows[0]["type"] == "generation" and days[0].xpath("a")[0].text == rows[0]["date"])
    check("and tell each event of its life", len(rows) == 8 and told == [(it["date"], it["id"]) for it in rows[1:]], f"{told} {rows}")


def linked(check, app, harms):
    """From the works each other page is reached, each link leads to a page, and none of them harms or writes."""
    client, waiting, met, before = app.test_client(), ["/"], {}, kept(app)
    while waiting:
        address = waiting.pop()
        if address in met:
            continue
        reply = client.get(address, headers=HEADERS)
        met[address] = reply.status_code
        if reply.mimetype == "text/html":
            check(f"{address} harms nobody", not harms(reply.data.decode()), str(harms(reply.data.decode())))
            waiting += [it.partition("#")[0] for it in html.fromstring(reply.data).xpath("//a/@href") if not it.startswith("#")]
    # (an act of which a text speaks may be unknown here)
    work = "/akn/gb/act/2001-03-14/11"
    check("each link leads to a page", all(it == 200 for address, it in met.items() if not address.startswith("/akn/") or address.startswith(work)), str(met))
    check("no page writes in the folder", kept(app) == before)
    wanted = {"/drafts/ada", work, f"{work}/eng@", *(f"{work}/eng@{it}" for it in ("2001-03-14", "2001-06-01", "2006-01-01", "2006-01-01.xml", "2006-01-01.json", "2006-01-01?against=2001-06-01"))}
    check("from the works each page is reached", wanted <= {*met}, str(wanted - {*met}))


def kept(app):
    """The files of a folder, with their bytes and times."""
    return {it.name: (open(it.path, "rb").read(), it.stat().st_mtime_ns) for it in os.scandir(app.desk.path)}


def told_lost(check, app, dossier):
    """What was lost when the documents were carried in stands on each page of the act."""
    client, work = app.test_client(), dossier["act"]["FRBRuri"]
    for address in (work, f"{work}/eng@2006-01-01", f"{work}/eng@2006-01-01.xml", f"{work}/eng@2006-01-01?against=2005-12-31"):
        check(f"{address} tells what was lost", LOST.replace("<", "&lt;").replace(">", "&gt;") in client.get(address, headers=HEADERS).data.decode())


def addressed(check, app, harms, dossier):
    """Whatever stands in an address, the reply is a refusal in words, and runs nothing."""
    client, work, bad = app.test_client(), dossier["act"]["FRBRuri"], "<script>alert(1)</script>\" onfocus=\"alert(2)"
    for address, query in ((f"{work}/eng@2006-01-01", {"reading": bad}), (f"{work}/eng@2006-01-01", {"viewpoint": bad}), (f"{work}/eng@2006-01-01", {"against": bad}), ("/unapplied", {"day": bad}),
                           ("/drafts/ada", {"work": bad, "day": "2012-01-01"}), ("/drafts/ada", {"day": bad}), (f"/drafts/{bad}", {}), (f"/akn/{bad}", {}), (f"{work}/eng@{bad}", {}), (f"/{bad}", {}),
                           (f"{work}/eng@1999-01-01", {}), (f"{work}/eng@2006-02-30", {}), (f"{work}/xxx@2006-01-01", {}), ("/unapplied", {})):
        reply = client.get(address, query_string=query, headers=HEADERS)
        check(f"{address} {query} runs nothing", reply.mimetype == "text/html" and not harms(reply.data.decode()) and reply.status_code < 500, f"{reply.status_code} {reply.mimetype} {harms(reply.data.decode())}")


def hostile_words(check, app, harms, hostile):
    """An act of which each text looks like markup, with a draft of such words, is shown as words."""
    client, work = app.test_client(), hostile["act"]["FRBRuri"]
    for it in register.commands(hostile, "eve"):
        check("a command with hostile words is recorded", client.post("/commands", data=json.dumps(it), headers=HEADERS).status_code == 201)
    item = {"drafter": "eve", "request": 99, "command": "draftAdd", "work": work, "modification": hostile["modifications"][0]}
    check("and a draft's item", client.post("/commands", data=json.dumps(item), headers=HEADERS).status_code == 201)
    for address in ("/", work, f"{work}/eng@2011-01-01", f"{work}/eng@2011-01-01?against=2010-12-31", f"/drafts/eve?work={work}&day=2011-01-01", "/unapplied?day=2011-01-01"):
        reply = client.get(address, headers=HEADERS)
        check(f"{address} shows hostile words as words", reply.status_code == 200 and not harms(reply.data.decode()) and (address == "/" or b"&lt;script&gt;" in reply.data), f"{reply.status_code} {harms(reply.data.decode())}")
    reply = client.get(f"{work}/eng@2011-01-01.xml", headers=HEADERS)
    check("and as a document", b"<script" not in reply.data and reply.mimetype == "application/akn+xml")


def others(check, app):
    """Only pages of this machine are served, and no page runs a script."""
    client = app.test_client()
    check("another host", client.get("/", headers={"Host": "evil.example"}).status_code == 421)
    check("another origin", client.post("/commands", data="{}", headers={**HEADERS, "Origin": "http://evil.example"}).status_code == 403)
    policy = client.get("/", headers=HEADERS).headers["Content-Security-Policy"]
    check("no script may run", "default-src 'none'" in policy and "script-src" not in policy and "unsafe" not in policy, policy)
    for address in ("/", "/unapplied?day=2006-01-01"):
        page = html.fromstring(client.get(address, headers=HEADERS).data)
        check(f"{address} fetches nothing", not page.xpath("//script|//link|//img|//iframe|//@src"))


def too_long(check, app):
    """A command that is longer than the desk reads is refused, and the next is answered."""
    client = app.test_client()
    check("a command of 9 MB is refused", client.post("/commands", data=b" " * 9_000_000, headers=HEADERS).status_code == 413)
    check("one without a word too", client.post("/commands", headers=HEADERS).status_code == 400)
    check("and one that is none", client.post("/commands", data=b"{}", headers=HEADERS).status_code == 400)


def growing(drafter, work):
    """Commands of a drafter: an act, and modifications of which each puts its request number behind the text."""
    act = {"FRBRuri": work, "FRBRdate": "2015-05-05", "FRBRlanguage": "eng", "force": {"from": "2015-06-01"}, "body": [{"element": "section", "num": "1", "content": "one"}]}
    yield {"drafter": drafter, "request": 1, "command": "enact", "act": act}
    for k in range(2, 42):
        yield {"drafter": drafter, "request": k, "command": "record", "work": work, "modifications": [{"textualMod": {"type": "insertion",
               "source": {"href": "/akn/gb/act/2016-01-01/1", "place": k}, "force": {"from": "2016-01-01"}, "destination": {"wId": "sec_1", "pos": "end"}, "new": f" {k}"}}]}


def stand_once(check, app, work):
    """Each of those commands is in the text and in the journal, once and in its place."""
    text = json.loads(app.test_client().get(f"{work}/eng@2016-01-01.json", headers=HEADERS).data)["body"][0]["content"]
    check("no command was lost, and none doubled", text == "one" + "".join(f" {k}" for k in range(2, 42)), text)
    kept = [it["request"] for it in journal.entries(os.path.join(app.desk.path, "lawdesk.jnl")) if it.get("work", it.get("act", {}).get("FRBRuri")) == work]
    check("nor in the journal", kept == [*range(1, 42)], str(kept))


def killed(check, app):
    """A desk that is killed amid a session is started again: each command acts once."""
    client, draw, work, its = app.test_client(), random.Random(7), "/akn/gb/act/2015-05-05/5", app.desk.running
    for it in growing("bob", work):
        if draw.random() < 0.4 and its.ran is not None:
            its.ran.kill()
            if draw.random() < 0.5:
                its.ran.wait()
        reply = client.post("/commands", data=json.dumps(it), headers=HEADERS)
        check("a command is answered though the desk was killed", reply.status_code == 201, f"{reply.status_code} {reply.data[:80]}")
    stand_once(check, app, work)


def lost_and_found(check, app, over):
    """A connection that is cut amid a session is made anew, and so is one to a desk that was killed: each command acts once. Gives the port that is open then."""
    work, faults = "/akn/gb/act/2015-05-05/5", [*bridge.FORWARD, *bridge.BACK, "cut meanwhile", "kill meanwhile", "away", "twice", "nothing"] * 4
    random.Random(7).shuffle(faults)
    for it, fault in zip(growing("bob", work), faults):
        over, again = done(fault, over)
        reply = app.test_client().post("/commands", data=json.dumps(it), headers=HEADERS)
        if again:
            check(f"that it got no answer is told: {fault}", reply.status_code == 503 and again in reply.data and b"sent again with its number, a command acts once" in reply.data, f"{reply.status_code} {reply.data}")
            over = over if fault == "twice" else bridge.Bridge(over.folder, over.port)
            reply = app.test_client().post("/commands", data=json.dumps(it), headers=HEADERS)
        check(f"a command is answered: {fault}", reply.status_code == 201 and not over.todo, f"{reply.status_code} {reply.data[:80]}")
    stand_once(check, app, work)
    return over


def done(fault, over):
    """Does to a desk at a port what a fault names, or has it done to what is asked next. Gives the port, and what is told where one new connection does not do."""
    if fault == "cut meanwhile":
        over.cut()
    elif fault == "kill meanwhile":
        over.ran.kill()
    elif fault == "away":
        over.end()
        return over, f"nothing listens at 127.0.0.1:{over.port}".encode()
    elif fault == "twice":
        over.todo = ["lose the request", "lose the response"]
        return over, b"closed the connection before it answered"
    else:
        over.todo = [fault] if fault != "nothing" else []
    return over, b""


def fallen_silent(check):
    """What comes late answers no other question, and what is no desk is told so."""
    with tempfile.TemporaryDirectory(prefix="deskside-") as path:
        over = bridge.Bridge(path)
        its = running.Served(over.port, 30)
        check("a desk answers", its.ask("GET", "/front") == (200, b'{"front":0}'))
        its.end()
        its.seconds, over.late = 0.5, 1
        check("one that is silent is left", f"the desk at 127.0.0.1:{over.port} gave no answer in 0.5 seconds" == failure(its))
        over.late = 0
        its.seconds = 30
        check("and what it said late answers nothing else", its.ask("GET", "/draft?drafter=ada") == (200, b'{"draft":[]}'))
        its.end()
        over.end()
    for said in (b"SSH-2.0-x\r\n", b"HTTP/1.1 200 OK\r\nContent-Type: text/html\r\nContent-Length: 2\r\n\r\nhi", b"HTTP/1.1 200 OK\r\nContent-Type: application/json\r\n\r\n{}", b"x" * 20_000):
        check(f"{said[:60]} is no desk's", failure(running.Served(speaking(said), 5)).endswith("an answer that is none of a desk"))


def not_opened(check):
    """A desk of its own that can't have its register says why."""
    said, kept = "lawdesk: another process holds lawdesk.jnl", desk.PROGRAM
    with tempfile.TemporaryDirectory(prefix="deskside-") as path:
        desk.PROGRAM = os.path.join(path, "held")
        with open(desk.PROGRAM, "w", opener=lambda name, flags: os.open(name, flags, 0o755)) as it:
            it.write(f"#!/bin/sh\necho '{said}' >&2\nexit 5\n")
        try:
            why = failure(running.Batch(path))
            check("a desk that ends at once says why", why.endswith(f"(status 5: {said})"), why)
            desk.PROGRAM = os.path.join(path, "none")
            why = failure(running.Batch(path))
            check("and so does one that is not there", "could not be started" in why, why)
        finally:
            desk.PROGRAM = kept


def failure(its):
    """What is said where no answer comes."""
    try:
        return str(its.ask("GET", "/front"))
    except desk.Failed as error:
        return str(error)


def speaking(said):
    """A port at which whoever comes is told the same."""
    listening = socket.create_server(("127.0.0.1", 0))

    def speak():
        with listening:
            link, _ = listening.accept()
            with link:
                link.recv(65536)
                link.sendall(said)
                try:
                    link.recv(65536)
                except OSError:
                    pass

    threading.Thread(target=speak, daemon=True).start()
    return listening.getsockname()[1]


def refused_desks(check, path, port):
    """A desk that may not be asked, is not there or has another register is told in words, and nothing is served."""
    with tempfile.TemporaryDirectory(prefix="deskside-") as other, socket.create_server(("127.0.0.1", 0)) as taken:
        free = taken.getsockname()[1]
        taken.close()
        for folder, address, status, words in ((path, "localhost:8080", 2, "--desk wants 127.0.0.1"), (path, "192.0.2.1:80", 2, "--desk wants 127.0.0.1"), (path, "127.0.0.1:65536", 2, "--desk wants 127.0.0.1"),
                                               (path, "127.0.0.1", 2, "--desk wants 127.0.0.1"), (path, f"127.0.0.1:{free}", 1, f"nothing listens at 127.0.0.1:{free}"), (other, f"127.0.0.1:{port}", 2, "has another register")):
            ended, wrote, said = examples.ran("web", folder, "--desk", address)
            check(f"--desk {address} over {'another folder' if folder == other else 'the folder'} is refused", ended == status and words in said and not wrote, f"{ended} {said}")
        ended, _, said = examples.ran("web", path, "--desk")
        check("--desk alone is no form", ended == 2 and "usage" in said)


def served(check, path, *words):
    """The server itself, over a real socket."""
    if shutil.which("true") is None:
        return
    try:
        import waitress  # noqa: F401
    except ImportError:
        print("deskside: python3-waitress is not there, so the server is not started")
        return
    ran = subprocess.Popen([os.path.join(os.path.dirname(HERE), "deskside"), "web", path, str(PORT), *words], stdout=subprocess.PIPE, stderr=subprocess.DEVNULL)
    try:
        ran.stdout.readline()
        for _ in range(50):
            try:
                with urllib.request.urlopen(f"http://localhost:{PORT}/", timeout=5) as it:
                    check("the server answers", it.status == 200 and b"proved" in it.read())
                return
            except OSError:
                time.sleep(0.1)
        check("the server answers", False, "nothing came")
    finally:
        ran.terminate()
        ran.wait()
