"""Links: how many changes of the keys of a log were made, and a chain of SHA-256 digests over them."""
import hashlib
import re

# The value of an entry, or of a link, as a program puts it.
VALUE = re.compile(rb"(?P<number>0|[1-9][0-9]*) (?P<count>0|[1-9][0-9]*) (?P<digest>[0-9a-f]{64})(?P<rest>\n.*)?", re.DOTALL)
# An entry without a link, as the cases write it.
PLAIN = re.compile(rb"(?P<number>0|[1-9][0-9]*)\n(?P<text>.*)", re.DOTALL)
FIRST = bytes(32)


def sized(text):
    return b"%d:%s" % (len(text), text)


def next_digest(digest, name, value):
    """The digest over one more change. The value is None if the key was deleted."""
    return hashlib.sha256(digest + sized(name) + (b"-" if value is None else sized(value))).digest()


def link_text(count, digest):
    return b"%d %s" % (count, digest.hex().encode())


def with_link(value, link):
    """An entry of a case with a link. Other values stay as they are."""
    found = PLAIN.fullmatch(value)
    return b"%s %s\n%s" % (found["number"], link, found["text"]) if found else value


def without_link(value):
    """The number and the text of an entry, as a case writes it."""
    found = VALUE.fullmatch(value)
    return found["number"] + found["rest"] if found and found["rest"] is not None else value
