"""Pages over a desk: the works, an act's days, the text of a day, two days side by side, a draft against the law, what was not applied.

The addresses of pages are the desk's IRIs. A desk is asked for every word: one that runs at a port of this machine, or else a `lawdesk batch` in the
folder. The journal of the folder is read beside it for names and days alone. Only this machine is served, and no page has a script."""
import base64
import glob
import hashlib
import json
import os
import re
from urllib.parse import quote, urlencode

import flask

import compare
import desk
import dressing
import faults
import journal
import page
import running
import writing

# The bytes of a command at most, and how often a draft is asked for that changes meanwhile.
MOST_BYTES, MOST_TRIES = 8_388_608, 9
# The first of the links that lead from a page.
HOME = ("/", "The works of this desk")
TYPES = {"xml": "application/akn+xml", "json": "application/json", "html": "text/html"}
EXPRESSION = re.compile(r"(?P<work>/akn/.+?)/(?P<language>[a-z]{3})@(?P<day>[0-9-]*)(\.(?P<form>xml|json|html))?\Z")


class Folder:
    """The works of a folder, with their dressings, and the desk that has their register."""

    def __init__(self, path, its):
        self.path, self.running, self.seen, self.works, self.entries = path, its, None, None, []

    def read(self):
        """What the journal says of works, read again where it grew."""
        file = os.path.join(self.path, "lawdesk.jnl")
        now = os.stat(file).st_size if os.path.exists(file) else 0
        if self.works is None or now != self.seen:
            self.seen, self.entries = now, journal.entries(file)
            self.works = journal.Works(self.entries)
        return self.works

    def standing(self, work, viewpoint):
        """The modifications of a work that stand where so many entries of the law are known."""
        self.read()
        return journal.Works(it for it in self.entries if it["law"] <= viewpoint).standing(work)

    def dressing(self, work):
        """The dressing of a work; of what a modification brings only where the register has that very modification."""
        for path in sorted(glob.glob(os.path.join(glob.escape(self.path), "*.dressing.json"))):
            found = dressing.load(path)
            if found["work"] == work:
                break
        else:
            return dressing.plain(self.read().acts[work][0])
        known, source = self.read().modifications.get(work, {}), path[: -len("dressing.json")] + "dossier.json"
        given = {}
        if os.path.exists(source):
            with open(source, encoding="utf-8") as it:
                given = writing.numbered(json.load(it))
        same = {number for number, it in known.items() if number in given and spelled(it) == spelled(given[number])}
        found["shells"] = {wid: it for wid, it in found["shells"].items() if not (at := re.match(r"m([0-9]+)-([0-9]+)__", wid)) or f"{at[1]}.{at[2]}" in same}
        found["sources"] = {number: it for number, it in found["sources"].items() if number in same}
        return found

    def text(self, work, language, day, reading="force", viewpoint=""):
        """The desk's answer, and its bytes."""
        query = {"expression": f"{work}/{language}@{day}", "reading": reading, **({"viewpoint": viewpoint} if viewpoint else {})}
        return self.answer("/text?" + urlencode(query, quote_via=quote, safe=""))

    def answer(self, target):
        status, body = self.running.ask("GET", target)
        if status != 200:
            raise Refused(status, body.decode(errors="replace"))
        return json.loads(body), body

    def draft(self, drafter):
        """The items of a drafter's draft."""
        return self.answer("/draft?" + urlencode({"drafter": drafter}))[0]["draft"]

    def previewed(self, drafter, work, language, day):
        """An answer with a draft, the items of that draft, and those of the work by the ids that they have in the answer. Others may change the draft meanwhile."""
        target = "/preview?" + urlencode({"drafter": drafter, "expression": f"{work}/{language}@{day}"}, quote_via=quote, safe="")
        for _ in range(MOST_TRIES):
            before, (answer, _), items = self.draft(drafter), self.answer(target), self.draft(drafter)
            # (filed, they would be those of the next entry)
            next_entry = f"{answer['viewpoint']}."
            filed = {f"{next_entry}{at}": it["modification"] for at, it in enumerate((it for it in items if it["work"] == work), 1)}
            shown = {it for it in (*answer["applied"], *(it["id"] for it in answer["unapplied"])) if it.startswith(next_entry)}
            if before == items and shown <= {*filed}:
                return answer, items, filed
        raise desk.Failed(5, f"the draft of {drafter} changes all the time")

    def is_of_desk(self):
        """Whether the journal here is that of the desk: none of them has an entry that the other has not."""
        least = self.answer("/front")[0]["front"]
        self.read()
        known = max((it["law"] for it in self.entries), default=0)
        return least <= known <= self.answer("/front")[0]["front"]


class Refused(desk.Failed):
    """The desk answered, and with no 200: the status of the response, and its body."""


def spelled(modification):
    """What a modification says, whether or not it says what is left out otherwise."""
    def full(it):
        if isinstance(it, dict):
            return {key: full(value) for key, value in it.items() if not (key in ("heading", "content", "separator") and value == "" or key in ("refs", "children") and value == [] or key == "occurrence" and value == 1)}
        return [full(each) for each in it] if isinstance(it, list) else it
    return full(modification)


def made(path, port, its=None):
    """The application over a folder, and the desk that has its register: one that runs already, or else one of its own."""
    app, folder = flask.Flask(__name__, template_folder=page.TEMPLATES, static_folder=None), Folder(path, its or running.Batch(path))
    hosts = {f"{name}:{port}" for name in ("localhost", "127.0.0.1", "[::1]")}
    origins = {f"http://{it}" for it in hosts}
    sum = base64.b64encode(hashlib.sha256(str(page.style()).encode()).digest()).decode()

    @app.before_request
    def only_here():
        asked = flask.request
        if asked.host not in hosts:
            return "this desk serves its own machine alone", 421
        if asked.method == "POST" and asked.headers.get("Origin", next(iter(origins))) not in origins:
            return "a command comes from a page of this desk, or from no page", 403
        return None

    @app.after_request
    def without_scripts(response):
        response.headers["Content-Security-Policy"] = f"default-src 'none'; style-src 'sha256-{sum}'; form-action 'self'; frame-ancestors 'none'; base-uri 'none'"
        response.headers["X-Content-Type-Options"] = "nosniff"
        response.headers["Referrer-Policy"] = "no-referrer"
        return response

    @app.errorhandler(Refused)
    def refused(error):
        return told("The desk refuses", desk.in_words(str(error))), error.status

    @app.errorhandler(desk.Failed)
    def failed(error):
        again = "; sent again with its number, a command acts once" if flask.request.method == "POST" else ""
        return told("No answer", f"{error}{again}"), 503

    @app.errorhandler(404)
    def unknown(_):
        return told("Not known", f"no page of this desk has the address {flask.request.path}"), 404

    @app.get("/")
    def works():
        found = folder.read()
        shown = [{"work": work, "law": law, "language": act["FRBRlanguage"], "date": act["FRBRdate"], "title": page.title_of(folder.dressing(work))} for work, (act, law) in sorted(found.acts.items())]
        return page.render("works.html", title="The works of this desk", day="", works=shown, drafters=sorted(found.drafts))

    @app.post("/commands")
    def command():
        # (the desk closes the stream on one that is too long, and its answer may be lost with it)
        if (flask.request.content_length or 0) > MOST_BYTES:
            return told("The desk refuses", f"a command has {MOST_BYTES:,} bytes at most"), 413
        status, body = folder.running.ask("POST", "/commands", flask.request.get_data(cache=False))
        return flask.Response(body, status, mimetype="application/json")

    @app.get("/unapplied")
    def unapplied():
        day, found = flask.request.args.get("day", ""), []
        if not faults.is_day(day):
            return told("No day", f"'{day}' is no day as 2011-01-01"), 400
        for work, (act, _) in sorted(folder.read().acts.items()):
            if act["FRBRdate"] <= day:
                answer, _ = folder.text(work, act["FRBRlanguage"], day)
                found.append((work, page.title_of(folder.dressing(work)), page.unapplied_of(folder.standing(work, answer["viewpoint"]), answer)))
        return page.render("unapplied.html", trail=[HOME], title="What could not be applied", day=day, works=found)

    @app.get("/drafts/<drafter>")
    def draft(drafter):
        return drafted(folder, drafter, flask.request.args)

    @app.get("/akn/<path:rest>")
    def akn_page(rest):
        iri, asked = f"/akn/{rest}", flask.request.args
        found = EXPRESSION.match(iri)
        work = found["work"] if found else iri
        if work not in folder.read().acts:
            return told("Not known", f"no act {work} is known here"), 404
        if not found:
            return timeline(folder, work)
        against = asked.get("against")
        if against:
            return side_by_side(folder, work, found["language"], against, found["day"], asked.get("reading", "force"))
        return text_page(folder, work, found["language"], found["day"], found["form"] or "html", asked)

    app.desk = folder
    return app


def told(title, why):
    """A page that says why there is no other. What the desk says of a refusal stands in it as it is."""
    return page.render("refused.html", trail=[HOME], title=title, day="", why=why)


def timeline(folder, work):
    """An act's days, each with what begins or ends on it."""
    works = folder.read()
    act, law = works.acts[work]
    events, dressed = {}, folder.dressing(work)
    for number, it in works.standing(work).items():
        inner = writing.inner(it)
        for key, day in {**inner.get("force", {}), **{key: inner[key] for key in ("on", "date") if key in inner}}.items():
            words = {"from": "begins", "until": "ends", "on": "counts from here", "date": "sets this day"}[key]
            events.setdefault(day, []).append(f"{number}, {described(it)}, {words}")
    days = [{"day": day, "events": events.get(day, [])} for day in works.days(work)]
    return page.render("timeline.html", trail=[HOME], title=page.title_of(dressed), language=act["FRBRlanguage"], day="", work=work, act=act, law=law, days=days,
                       withdrawn=sorted(it for it in works.withdrawn if works.of.get(it) == work), lost=dressed["lost"])


def described(modification):
    """A modification in words: what it is, where, and by which act."""
    inner = writing.inner(modification)
    pos = inner.get("destination", {}).get("pos", "")
    where = "in" if "old" in inner else {"before": "before", "after": "after", "start": "at the start of", "end": "at the end of"}.get(pos, "of")
    provision = inner["source"].get("provision", "")
    return f"{inner['type']} {where} {writing.target(inner)} by {inner['source']['href']}{', ' + provision if provision else ''}"


def trail_of(folder, work, language, day):
    """The links from the text of a day: to its act's days, to the days beside it on which the text may change, and to its other forms."""
    iri, days = f"{work}/{language}@", folder.read().days(work)
    before, after = [it for it in days if it < day], [it for it in days if it > day]
    found = [HOME, (work, "The days of this act")]
    if before:
        found += [(f"{iri}{before[-1]}", f"The day before: {before[-1]}"), (f"{iri}{day}?against={before[-1]}", f"Beside {before[-1]}")]
    if after:
        found.append((f"{iri}{after[0]}", f"The day after: {after[0]}"))
    return [*found, (f"{iri}{day}.xml", "As Akoma Ntoso"), (f"{iri}{day}.json", "As the desk says it")]


def text_page(folder, work, language, day, form, asked):
    answer, answered = folder.text(work, language, day, asked.get("reading", "force"), asked.get("viewpoint", ""))
    if form == "json":
        return flask.Response(answered, mimetype=TYPES["json"])
    known = folder.standing(work, answer["viewpoint"])
    shown = day or answer["expression"].rpartition("@")[2] or folder.read().acts[work][0]["FRBRdate"]
    if form == "xml":
        return flask.Response(writing.spelled(writing.document(folder.dressing(work), known, answer, answered, shown).root), mimetype=TYPES["xml"])
    return page.text(folder.dressing(work), known, answer, answered, shown, trail_of(folder, work, language, shown))


def side_by_side(folder, work, language, first, second, reading):
    """Two days of an act, as known at one moment. A provision keeps its wId, so the answers tell which is which."""
    answers = [folder.text(work, language, first, reading)[0]]
    answers.append(folder.text(work, language, second, reading, answers[0]["viewpoint"])[0])
    trail = [HOME, (work, "The days of this act"), *((f"{work}/{language}@{day}", f"The text of {day}") for day in (first, second))]
    return compare.comparison(folder.dressing(work), compare.joined(compare.by_wid(answers), answers), answers, first, second, trail)


def drafted(folder, drafter, asked):
    """A draft, and for a work of it and a day the law with it beside the law without it."""
    items = folder.draft(drafter)
    works = sorted({it["work"] for it in items})
    work, day = asked.get("work", works[0] if works else ""), asked.get("day", "")
    rows, unapplied, is_asked = [], [], work in folder.read().acts and faults.is_day(day)
    if is_asked:
        act, _ = folder.read().acts[work]
        after, items, filed = folder.previewed(drafter, work, act["FRBRlanguage"], day)
        before, _ = folder.text(work, act["FRBRlanguage"], day, viewpoint=after["viewpoint"] - 1)
        rows = compare.joined(compare.by_wid((before, after)), (before, after), compare.DRAFTS)
        unapplied = page.unapplied_of({**folder.standing(work, after["viewpoint"] - 1), **filed}, after)
    shown = [{**it, "words": f"{described(it['modification'])}, in {it['work']}"} for it in items]
    return page.render("draft.html", trail=[HOME, *((it, f"The days of {it}") for it in works)], title=f"The draft of {drafter}", day="", drafter=drafter, items=shown,
                       works=works, work=work, asked=day, rows=[it for it in rows if it["state"]], is_asked=is_asked, unapplied=unapplied)


def served(path, port="8790", address=""):
    """Serves a folder until it is stopped, over the desk at an address where there is one."""
    import waitress

    if not os.path.isdir(path) or not re.fullmatch(r"[1-9][0-9]{0,4}", port):
        raise ValueError(f"{path} is no folder, or {port} no port")
    its = running.at(address) if address else running.Batch(path)
    app = made(path, int(port), its)
    if address and not app.desk.is_of_desk():
        raise ValueError(f"{its} has another register than the journal in {path}: name the folder in which it runs")
    print(f"deskside: http://localhost:{port}/ over {its}; {writing.LINE}", flush=True)
    waitress.serve(app, listen=f"127.0.0.1:{port}", threads=4, ident=None)
    return 0
