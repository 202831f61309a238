"""Akoma Ntoso documents as trees. A document is read with entities, DTDs and the network off, and one with a DOCTYPE is refused."""
import re

from lxml import etree

import forms

# What no document of XML 1.0 may hold.
UNSAFE = re.compile("[^\t\n\r\x20-\ud7ff\ue000-\ufffd\U00010000-\U0010ffff]")

etree.register_namespace("desk", forms.OURS)

MOST_BYTES = 32 * 1024 * 1024


class Refused(Exception):
    """A document that is not read at all, and why, in words."""


def name_of(element):
    """The local name of an element, or '' for a comment, a processing instruction or an element of another namespace."""
    if not isinstance(element.tag, str):
        return ""
    space, _, local = element.tag.rpartition("}")
    return local if space[1:] == forms.NAMESPACE else ""


def tag(local):
    return f"{{{forms.NAMESPACE}}}{local}"


def ours(local):
    return f"{{{forms.OURS}}}{local}"


def parser():
    return etree.XMLParser(resolve_entities=False, load_dtd=False, no_network=True, dtd_validation=False, huge_tree=False, remove_comments=False)


def parse(data, path):
    """Reads the bytes of a document, and gives its root in the standard's namespace, and whether it came in that of a draft."""
    if len(data) > MOST_BYTES:
        raise Refused(f"{path} has more than {MOST_BYTES:,} bytes: such documents are not read")
    # (looked for before anything is parsed, so that no entity is ever declared)
    if re.search(rb"<!DOCTYPE|<!ENTITY", data) or any(it in data for it in ("<!DOCTYPE".encode("utf-16-le"), "<!DOCTYPE".encode("utf-16-be"))):
        raise Refused(f"{path} has a DOCTYPE or declares an entity: such documents are not read")
    try:
        root = etree.fromstring(data, parser())
    except etree.XMLSyntaxError as error:
        raise Refused(f"{path} is no well-formed XML: {error.msg} (line {error.lineno})") from None
    if root.getroottree().docinfo.doctype:
        raise Refused(f"{path} has a DOCTYPE: such documents are not read")
    space = root.tag.rpartition("}")[0][1:] if isinstance(root.tag, str) else ""
    is_draft = bool(forms.DRAFTS.fullmatch(space))
    if is_draft:
        for it in root.iter(etree.Element):
            if it.tag.startswith(f"{{{space}}}"):
                it.tag = tag(it.tag.rpartition("}")[2])
    elif space != forms.NAMESPACE:
        raise Refused(f"{path} is no Akoma Ntoso 3.0: its root is in the namespace '{space}'")
    if name_of(root) != "akomaNtoso":
        raise Refused(f"{path} has the root {name_of(root) or root.tag}, and not akomaNtoso")
    return root, is_draft


def read(path):
    try:
        with open(path, "rb") as it:
            data = it.read(MOST_BYTES + 1)
    except OSError as error:
        raise Refused(f"{path} can't be read: {error.strerror}") from None
    return parse(data, path)


def first(root, *names):
    """The element that lies below root by these local names, or None."""
    for it in names:
        root = next((child for child in root if name_of(child) == it), None) if root is not None else None
    return root


def value(root, *names, key="value"):
    found = first(root, *names)
    return found.get(key) if found is not None else None


def around(root):
    """The comments and processing instructions before and behind the root."""
    return list(root.itersiblings(preceding=True))[::-1], list(root.itersiblings())


def text_of(element):
    return etree.tostring(element, encoding="unicode", with_tail=False)


def safe(text):
    """A text in which U+FFFD stands for each sign that XML has not."""
    return UNSAFE.sub("\ufffd", text)


def of_side(text):
    """A comment or a processing instruction of its text."""
    return etree.fromstring(f"<a>{text}</a>", parser())[0]


def of_text(text):
    return etree.fromstring(text, parser())
