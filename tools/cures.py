"""What a refusal is about and what to do, as the tools say it after the program's line."""
import re

from lookalikes import nearest, suspects
from marks import Finding
from rule_cures import rule_findings
from sort_cures import SORT_CURES
from syntax_cures import limit_cure, syntax_cure, term_cure, text_cure
from texts import Spec

OF_TERM = re.compile(r"refused term (text|syntax|limit|sort) at (\d+)(?:: (.*))?\n?")
LINE = re.compile(r"refused (text|syntax|limit|sort|linear|order|overlap|guards|coverage)(?: at (\d+))?(?:: (.*))?\n?")


def word_at(spec, place):
    return next((word.text for word in spec.words if word.place == place), "")


def placed_findings(spec, kind, place, rest):
    """What is found of a refusal that names a place."""
    if kind == "syntax":
        begin, cure = syntax_cure(spec, place) or (None, None)
        return [Finding(place if begin is None else begin, cure)]
    look = SORT_CURES.get(rest, lambda *_: None)
    return [Finding(place, look(spec, place, word_at(spec, place)))]


def findings(line, data):
    """The places of a text that a line of refusal is about, each with what to do there."""
    found = LINE.fullmatch(line)
    if not found:
        return []
    kind, place, rest = found.groups()
    if kind in ("text", "limit"):
        return [Finding(int(place), text_cure(data, int(place)) if kind == "text" else limit_cure(rest))] if place else []
    spec = Spec(data)
    if place is not None:
        return placed_findings(spec, kind, int(place), rest)
    # a line of coverage has no place, but the word `at`
    return rule_findings(spec, kind, rest or "")


def term_findings(line, data, term):
    """The places of a term that a line of refusal is about. The term is put after the text as a rule's left side."""
    found = OF_TERM.fullmatch(line)
    if not found:
        return []
    kind, place, rest = found[1], int(found[2]), found[3]
    head = b"\nrule "
    spec, shift = Spec(data + head + term + b" = true"), len(data) + len(head)
    word = word_at(spec, place + shift)
    if kind == "text":
        return [Finding(place, text_cure(term, place))]
    if kind == "syntax":
        begin, cure = term_cure(Spec(head + term), place + len(head)) or (None, None)
        return [Finding(place if begin is None else begin - len(head), cure)]
    if kind == "limit":
        return [Finding(place, limit_cure(rest))]
    if rest == "unknown name":
        similar = nearest(word, [*spec.constructors, *spec.functions])
        return [Finding(place, f"nothing is declared as `{word}`" + (f": write `{similar}`" if similar else
                                                                    ", and this term has no variables"))]
    return [Finding(place, SORT_CURES.get(rest, lambda *_: None)(spec, place + shift, word))]


def warnings(data):
    """The variables that look like a symbol."""
    spec = Spec(data)
    return [Finding(term.place, f"`{term.name}` is a variable; if the symbol is meant, write `{symbol}`")
            for term, symbol in suspects(spec)]
