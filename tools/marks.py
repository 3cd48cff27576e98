"""How a place of a text is shown: the file, the line and the column, the line with a mark below the place, and the
cure."""
import unicodedata
from collections import namedtuple

Finding = namedtuple("Finding", "place cure", defaults=[None])  # a place of the text, and what to do there


def seen(text):
    """The text with a sign for each character that would move the mark or can't be seen."""
    return "".join(c if c == "\t" or c.isprintable() else "\ufffd" for c in text)


def blank(character):
    """What is as wide as the character."""
    if character == "\t":
        return character
    if unicodedata.combining(character):
        return ""
    return "  " if unicodedata.east_asian_width(character) in "WF" else " "


def marked(name, data, place):
    """The lines that show a place of a text."""
    if place > len(data):
        return f"{name}: has {len(data)} bytes, and no place {place}\n"
    begin = data.rfind(b"\n", 0, place) + 1
    line = seen(data[begin:].split(b"\n", 1)[0].removesuffix(b"\r").decode("utf-8", "replace"))
    before = seen(data[begin:place].decode("utf-8", "replace"))
    number = data.count(b"\n", 0, place) + 1
    end = " the end of the text" if place == len(data) else ""
    gap = "".join(map(blank, before))
    return f"{name}:{number}:{len(before) + 1}:{end}\n  {line}\n  {gap}^\n"


def lines_of(name, data, findings):
    """The bytes that show what is found in a text."""
    texts = [marked(name, data, found.place) + (f"  cure: {found.cure}\n" if found.cure else "") for found in findings]
    return "".join(texts).encode("utf-8", "surrogateescape")
