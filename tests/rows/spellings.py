"""Spellings of one dossier that has an object of each form: each key twice, keys and texts by escapes, numbers of every kind, and the
deepest JSON. Of a key that stands twice the last value counts; the lines were written by hand, from docs/FORMS.md and RFC 8259.

Each table is a list of (name, dossier, line), where no line stands for the answer to the dossier as it is.
"""
import json

from rows.dossiers import act, dossier, efficacy, force, form, inapplied, inserted, joined, node, renumbered, repeal, sections, split, substituted, to

NODES = [node("part", "1", heading="Of it.", content="One.", refs=["/akn/gb/act/2010-05-01/7/eng@"], children=sections(2, "Two.")), node(num="7")]
WHOLE = {
    "act": act(numbering=["section"], force={"from": "2010-06-01", "until": "2020-01-01"}, body=NODES),
    "modifications": [
        repeal(until="2012-01-01"), substituted(NODES), substituted("n", old="o", occurrence=2), inserted(NODES), inserted("n", "sec_1", "end"),
        inserted("n", "sec_1", "before", old="o", occurrence=2), renumbered(["sec_1", "sec_2"]), split(child="sec_3"),
        split(old="o", occurrence=2, heading="Of it."), joined(separator=" "), force(), efficacy("retroactivity", on=None, destination=to("2.1")),
        efficacy("extraefficacy", date=None), inapplied(),
    ],
}


def escaped(text):
    """A text in JSON, each letter by an escape."""
    return '"' + "".join(f"\\u{ord(letter):04X}" for letter in text) + '"'


def keys(value, place=0, path=()):
    """The path and the place of each key of an object, and of those in it: modifications count from 1."""
    if isinstance(value, list):
        for number, item in enumerate(value, 1):
            yield from keys(item, number if path == ("modifications",) else place, (*path, number - 1))
    if isinstance(value, dict):
        for key, member in value.items():
            yield (*path, key), place
            yield from keys(member, place, (*path, key))


def spelled(value, which, members, path=()):
    """A value in JSON, with these members in the place of the one at a path: a function of its key and of its value in JSON."""
    if isinstance(value, list):
        return "[" + ",".join(spelled(item, which, members, (*path, k)) for k, item in enumerate(value)) + "]"
    if isinstance(value, dict):
        parts = [(key, spelled(member, which, members, (*path, key)), (*path, key) == which) for key, member in value.items()]
        return "{" + ",".join(members(key, text) if here else f"{json.dumps(key)}:{text}" for key, text, here in parts) + "}"
    return json.dumps(value)


def of_keys():
    """Each key twice, its first value of another kind and then its last, and each key by escapes, alone and beside itself."""
    for path, place in keys(WHOLE):
        name = "/".join(map(str, path))
        yield f"{name} twice", lambda key, text: f'"{key}":null,"{key}":{text}', path, None
        yield f"{name} twice, the last of no kind", lambda key, text: f'"{key}":{text},"{key}":null', path, form(2, place)
        yield f"{name} by escapes", lambda key, text: f"{escaped(key)}:{text}", path, None
        yield f"{name} twice, first by escapes", lambda key, text: f'{escaped(key)}:null,"{key}":{text}', path, None
        yield f"{name} twice, then by escapes", lambda key, text: f'"{key}":{text},{escaped(key)}:null', path, form(2, place)
        yield f"{name} beside a key that begins as it does", lambda key, text: f'"{key}":{text},"{key}x":null', path, form(2, place)


KEYS = [(name, spelled(WHOLE, path, members).encode(), line) for name, members, path, line in of_keys()]


def of_place(number):
    return dossier(mods=[repeal()]).replace(b'"place": 1', b'"place": ' + number.encode())


def of_content(text):
    return dossier(act(body=[node(content="?")])).replace(b'"?"', b'"' + text.encode() + b'"')


NUMBERS = (
    [(f"the place {number}", of_place(number), form(6, 1)) for number in (
        "65536", "18446744073709551615", "18446744073709551616", "1" + "0" * 308, "-0", "-1", "-9223372036854775808", "-9223372036854775809", "0.0", "1.0", "1e0",
        "1E+2", "0e1", "10e-1", "0.5", "1e308", "1e-400", "-1e308")]
    + [(f"the place {number[:16]}", of_place(number), form(1)) for number in (
        "1e309", "-1e309", "1" + "0" * 309, "01", "-01", "+1", "1.", ".1", "-", "1e", "1e+", "0x1", "1_0", "NaN", "Infinity", "-Infinity")]
    + [("a number out of range at an unknown key", b'{"x":[{"y":1e400}]}', form(1)), ("one in range there", b'{"x":[{"y":1e300}]}', form(2))]
)

TEXTS = (
    [(f"the content {text}", of_content(text), form(1)) for text in (
        "\\ud83d", "\\ude00", "\\ud83d\\ud83d", "\\ud83dx", "\\ud83d\\u0041", "\\ude00\\ud83d", "\\u00e", "\\u00eg", "\\x41", "\\U00e9", "\\", "\n", "\t", "\0")]
    + [(f"the objects {depth} deep", b'{"act":' * depth + b"1" + b"}" * depth, form(rule)) for depth, rule in ((127, 2), (128, 1))]
    + [(f"lists and objects {depth} deep", b'[{"act":' * (depth // 2) + b"[" * (depth % 2) + b"]" * (depth % 2) + b"}]" * (depth // 2), form(rule))
       for depth, rule in ((127, 2), (129, 1))]
)

# Contents by escapes, each with the one that it spells.
CONTENTS = [
    ("\\ud83d\\ude00", "\U0001F600"), ("\\uD83D\\uDE00", "\U0001F600"), ("\\u00e9", "é"), ("\\u0041", "A"), ("\\/", "/"), ("\\u002f", "/"),
    ("\\u005c", "\\\\"), ("\\u0022", "\\\""), ("\\u000a", "\\n"), ("\\b\\f\\n\\r\\t", "\\u0008\\u000c\\u000a\\u000d\\u0009"), ("\\uffff\\u0000", "\\uFFFF\\u0000"),
]
