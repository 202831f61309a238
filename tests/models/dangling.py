"""Which references dangle on a day, reckoned from the law alone, from docs/REPORTS.md, docs/MODEL.md and docs/FORMS.md: each target is looked for
anew, in the text of its work as it is on the day that the reference names. A law is one as in `models.held`.
"""
import re

from models.held import breakpoints, known, level, trees

EXPRESSION = re.compile(r"(/akn/.*)/([a-z]{3})@(\d{4}-\d\d-\d\d)?(?:/!main)?(?:/?~([A-Za-z0-9_-]+))?")


def named(provisions, above=""):
    """The provisions of a text with their eIds, each before those beneath it."""
    for provision in provisions:
        own = level(provision.element, provision.num)
        eid = f"{above}__{own}" if above and provision.element != "section" else own
        yield eid, provision
        yield from named(provision.children, eid)


class Texts:
    """The texts of a law in force: of each work on any day, or as it was enacted."""

    def __init__(self, law):
        self.works, self.texts, self.made = known(law), {}, {}

    def text(self, uri, day):
        """The provisions of a work on a day, or as it was enacted where there is none. The texts of a day are reckoned once."""
        if not day:
            return self.works[uri].enacted
        if day not in self.texts:
            self.texts[day] = trees(self.works, "force", day)
        return self.texts[day][uri][0]

    def on(self, uri, day):
        """The eIds of a text with the references of each provision."""
        if (uri, day) not in self.made:
            self.made[uri, day] = [(eid, provision.refs) for eid, provision in named(self.text(uri, day))]
        return self.made[uri, day]

    def cause(self, ref):
        """Why a reference dangles, or nothing."""
        uri, language, version, portion = EXPRESSION.fullmatch(ref).groups()
        work = self.works.get(uri)
        if not work:
            return "UnknownWork"
        if version and version < work.day:
            return "NotYetEnacted"
        if language != work.act["FRBRlanguage"]:
            return "OtherLanguage"
        if portion and portion not in dict(self.on(uri, version)):
            return "UnknownPortion"
        return None

    def dangling(self, day):
        """The rows of what dangles on a day."""
        return [[uri, eid, ref, self.cause(ref)] for uri, work in sorted(self.works.items(), key=lambda one: one[0].encode()) if work.day <= day
                for eid, refs in self.on(uri, day) for ref in refs if self.cause(ref)]

    def days(self):
        """All days on which a text may change."""
        return sorted(set().union(*breakpoints(self.works).values(), (work.day for work in self.works.values())))
