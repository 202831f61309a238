"""The desk's forms that the companion needs: names of elements, nums, eIds, IRIs and limits (docs/FORMS.md says the rules)."""
import re

NAMESPACE = "http://docs.oasis-open.org/legaldocml/ns/akn/3.0"
# (drafts of the standard named it so; a document in one of these is read as one of 3.0, and the report says it)
DRAFTS = re.compile(re.escape(NAMESPACE) + r"/CSD\d\d")
OURS = "https://lawdesk.example/ns/deskside"

# The elements of the desk, with the word that an eId has for each.
WORDS = {
    "article": "art", "section": "sec", "chapter": "chp", "paragraph": "para", "subparagraph": "subpara", "subsection": "subsec",
    "clause": "cl", "subclause": "subcl", "alinea": "al", "part": "part", "title": "title", "book": "book", "point": "point", "indent": "indent",
}
ELEMENTS = {word: name for name, word in WORDS.items()}

# Elements of Akoma Ntoso that the desk has not, and the nearest that it has. What is written back has the name that was read.
NEAREST = {
    "hcontainer": "paragraph", "tome": "book", "subtitle": "title", "subpart": "part", "subchapter": "chapter", "division": "chapter",
    "subdivision": "chapter", "rule": "article", "subrule": "paragraph", "proviso": "alinea", "transitional": "paragraph",
    "level": "paragraph", "sublist": "paragraph", "crossHeading": "paragraph", "item": "point", "wrapUp": "alinea", "listWrapUp": "alinea",
}

NUM = re.compile(r"[A-Za-z0-9-]{1,16}\Z")
DAY = re.compile(r"[0-9]{4}-[0-9]{2}-[0-9]{2}\Z")
WORK = re.compile(
    r"/akn/[a-z]{2}(-[a-z0-9]{1,8})?/act/([A-Za-z][A-Za-z0-9._-]{0,31}/){0,2}[0-9]{4}(-[0-9]{2}-[0-9]{2})?/[A-Za-z0-9._-]{1,64}\Z"
)
EXPRESSION = re.compile(WORK.pattern[:-2] + r"/[a-z]{3}@([0-9]{4}-[0-9]{2}-[0-9]{2})?(/!main)?((/|(?<=/!main))~[A-Za-z0-9_-]{1,512})?\Z")

LANGUAGES = {
    "en": "eng", "it": "ita", "fr": "fra", "de": "deu", "es": "spa", "pt": "por", "nl": "nld", "pl": "pol", "rm": "roh", "sv": "swe",
    "da": "dan", "fi": "fin", "el": "ell", "cs": "ces", "hu": "hun", "ro": "ron", "bg": "bul", "hr": "hrv", "sk": "slk", "sl": "slv",
    "et": "est", "lv": "lav", "lt": "lit", "mt": "mlt", "ga": "gle", "af": "afr", "zu": "zul", "xh": "xho", "sw": "swa", "cy": "cym",
}

# What a page says of a language (BCP 47): two letters where there are any.
TAGS = {three: two for two, three in LANGUAGES.items()}

MOST_NODES, MOST_DEPTH, MOST_TEXT, MOST_REFS, MOST_SIDE, MOST_MODIFICATIONS = 4096, 12, 16384, 16, 64, 512
# The provisions that an act may have: as many as any, or as a wide one.
LIMITS = (MOST_NODES, 8192)
PORTION = re.compile(r"[A-Za-z0-9_-]{1,512}\Z")

CAUSES = {
    "TargetMissing": "the provision that it aims at is not in the text of that day",
    "AnchorMissing": "the provision beside which it is to stand is not in the text of that day",
    "OldTextMissing": "the words that it replaces do not stand there",
    "KindsDiffer": "the two provisions that it joins are of different kinds",
    "NumberTaken": "another provision has that number already",
    "TooDeep": "the text would nest too deep",
    "TooManyNodes": "the text would have too many provisions",
    "TextTooLong": "a text would be too long",
}


def days_named(value):
    """The days that a part of a dossier names: between two of them no text changes."""
    found, stack = set(), [value]
    while stack:
        it = stack.pop()
        if isinstance(it, dict):
            stack += it.values()
            found |= {day for key, day in it.items() if key in ("from", "until", "on", "date") and isinstance(day, str)}
        elif isinstance(it, list):
            stack += it
    return found


# What the desk says of a question that it refuses, and of a form (docs/PROTOCOL.md, docs/REFUSALS.md).
QUESTIONS = {
    "UnknownWork": "no act {} is known", "ViewpointAhead": "no more than {} entries of the law are known", "NotYetEnacted": "the act is of {}, and before that day it has no text",
    "OtherLanguage": "the text is in the language {}", "UnknownPortion": "no provision of the text has the eId {}",
}
BROKEN = {1: "it is no JSON", 2: "a key is wanting, or stands where none may", 3: "a name or an IRI has not its form", 4: "a day is none of the calendar",
          5: "an element or a num has not its form", 6: "a number is none that may stand", 7: "a word is none of those that may stand", 8: "the day is not that of the IRI", 9: "it is too long"}


def level(element, num):
    """The level of an eId for a provision with this element and num."""
    return f"{WORDS[element]}_{num}"


def eid(parent, element, num, numbering):
    """The eId of a provision beneath a parent's eId ('' for the body)."""
    own = level(element, num)
    return own if not parent or element in numbering else f"{parent}__{own}"


def count(nodes):
    """How many provisions nodes are, with all beneath them."""
    return sum(1 + count(it.get("children", ())) for it in nodes)
