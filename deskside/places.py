"""JSON as the desk reads it (RFC 8259; of a repeated key the last value counts), each value with its line."""
import re

SPACE = re.compile(r"[ \t\n\r]*")
NUMBER = re.compile(r"-?(0|[1-9][0-9]*)(\.[0-9]+)?([eE][+-]?[0-9]+)?")
PLAIN = re.compile(r'[^"\\\x00-\x1f]*')
ESCAPES = {'"': '"', "\\": "\\", "/": "/", "b": "\b", "f": "\f", "n": "\n", "r": "\r", "t": "\t"}
DEEPEST = 127


class NotJson(Exception):
    def __init__(self, why, at):
        super().__init__(why)
        self.at = at


class Value:
    """A value: kind is one of object, list, text, number, true, false and null; of a number the value is an int, or None for one that is none of 64 bits without sign."""

    __slots__ = ("kind", "value", "at")

    def __init__(self, kind, value, at):
        self.kind, self.value, self.at = kind, value, at


class Reader:
    def __init__(self, text):
        self.text, self.at = text, 0

    def skip(self):
        self.at = SPACE.match(self.text, self.at).end()

    def fail(self, why):
        raise NotJson(why, self.at)

    def whole(self):
        found = self.read(0)
        self.skip()
        if self.at < len(self.text):
            self.fail("more stands behind the value")
        return found

    def read(self, depth):
        self.skip()
        first, at = self.text[self.at : self.at + 1], self.at
        if first == '"':
            return Value("text", self.string(), at)
        if first in ("{", "["):
            if depth >= DEEPEST:
                self.fail(f"deeper than {DEEPEST} levels")
            return self.members(at, depth) if first == "{" else self.items(at, depth)
        for word in ("true", "false", "null"):
            if self.text.startswith(word, self.at):
                self.at += len(word)
                return Value(word, None, at)
        return self.number(at)

    def number(self, at):
        found = NUMBER.match(self.text, self.at)
        if not found:
            self.fail("no value stands here")
        self.at = found.end()
        text = found[0]
        if text.isdigit() and int(text) < 2**64:
            return Value("number", int(text), at)
        if float(text) in (float("inf"), float("-inf")):
            self.fail("a number is out of range")
        return Value("number", None, at)

    def string(self):
        out, self.at = [], self.at + 1
        while True:
            found = PLAIN.match(self.text, self.at)
            out.append(found[0])
            self.at = found.end()
            sign = self.text[self.at : self.at + 1]
            if sign == '"':
                self.at += 1
                return "".join(out)
            if sign != "\\":
                self.fail("a text has no end, or a control character in it")
            out.append(self.escape())

    def escape(self):
        sign = self.text[self.at + 1 : self.at + 2]
        if sign in ESCAPES and sign:
            self.at += 2
            return ESCAPES[sign]
        first = self.unit()
        if 0xDC00 <= first < 0xE000:
            self.fail("half of a pair of surrogates")
        if 0xD800 <= first < 0xDC00:
            second = self.unit() if self.text.startswith("\\u", self.at) else 0
            if not 0xDC00 <= second < 0xE000:
                self.fail("half of a pair of surrogates")
            first = 0x10000 + ((first - 0xD800) << 10) + (second - 0xDC00)
        return chr(first)

    def unit(self):
        found = re.compile(r"\\u([0-9a-fA-F]{4})").match(self.text, self.at)
        if not found:
            self.fail("no escape of JSON")
        self.at = found.end()
        return int(found[1], 16)

    def members(self, at, depth):
        found, self.at = {}, self.at + 1
        self.skip()
        if self.text.startswith("}", self.at):
            self.at += 1
            return Value("object", found, at)
        while True:
            self.skip()
            if not self.text.startswith('"', self.at):
                self.fail("a key is no text")
            key = self.string()
            self.skip()
            if not self.text.startswith(":", self.at):
                self.fail("no : behind a key")
            self.at += 1
            found[key] = self.read(depth + 1)
            if not self.more("}"):
                return Value("object", found, at)

    def items(self, at, depth):
        found, self.at = [], self.at + 1
        self.skip()
        if self.text.startswith("]", self.at):
            self.at += 1
            return Value("list", found, at)
        while True:
            found.append(self.read(depth + 1))
            if not self.more("]"):
                return Value("list", found, at)

    def more(self, end):
        self.skip()
        sign = self.text[self.at : self.at + 1]
        if sign not in (",", end) or not sign:
            self.fail(f"neither , nor {end}")
        self.at += 1
        return sign == ","


def read(data):
    """The value of some bytes, and their text."""
    try:
        text = data.decode("utf-8")
    except UnicodeDecodeError as error:
        raise NotJson("the bytes are no UTF-8", len(data[: error.start].decode("utf-8", "replace"))) from None
    return Reader(text).whole(), text


def lines(text):
    """A function from a place in the text to its line."""
    import bisect

    starts = [0] + [it.end() for it in re.finditer("\n", text)]
    return lambda at: bisect.bisect_right(starts, at)
