"""The patterns that the left sides of some rules leave, for a cure that says which rules are missing."""
from texts import shown, subterms

MOST_STEPS = 5_000  # of the walk, in which very many ways may lead nowhere
MOST_SHOWN = 4
FRESH = ("x", "y", "z", "u", "v", "w", "x1", "y1", "z1", "u1", "v1", "w1")


class TooFar(Exception):
    """The walk has taken its most steps."""


class Walk:
    """The rows of patterns that match no given row. A pattern is a pair of a constructor's name and patterns, or None
    for any value."""

    def __init__(self, spec):
        self.spec, self.steps = spec, 0

    def pattern(self, term):
        if self.spec.is_variable(term):
            return None
        return term.name, tuple(self.pattern(arg) for arg in term.args)

    def rows(self, rows, sorts):
        self.steps += 1
        if self.steps > MOST_STEPS:
            raise TooFar
        if not sorts:
            yield from [] if rows else [[]]
            return
        if all(row[0] is None for row in rows):
            yield from ([None, *rest] for rest in self.rows([row[1:] for row in rows], sorts[1:]))
            return
        for con in self.spec.constructors.values():
            if con.result == sorts[0]:
                size = len(con.args)
                opened = [[*(row[0][1] if row[0] else [None] * size), *row[1:]] for row in rows
                          if row[0] is None or row[0][0] == con.name]
                for found in self.rows(opened, (*con.args, *sorts[1:])):
                    yield [(con.name, tuple(found[:size])), *found[size:]]


def met(spec, pattern, term, names):
    """The text of what matches both a pattern and a left side's term, with further variables from `names`; or None."""
    if pattern is None:
        return shown(term)
    name, args = pattern
    if spec.is_variable(term):
        made = [met(spec, arg, term._replace(name=next(names)), names) for arg in args]
    elif term.name == name:
        made = [met(spec, *pair, names) for pair in zip(args, term.args)]
    else:
        made = [None]
    return None if None in made else name + (f"({', '.join(made)})" if made else "")


def fresh(spec, left):
    """As many names that no symbol has as the left side has arguments."""
    return [name for name in FRESH if spec.symbol(name) is None][:len(left.args)]


def left_over(spec, rules, left):
    """What a left side matches and these rules don't, as texts, at most five; None if the steps don't suffice to find it."""
    walk, found, own = Walk(spec), [], {term.name for term in subterms(left)}
    rows = [[walk.pattern(arg) for arg in rule.left.args] for rule in rules]
    try:
        for row in walk.rows(rows, spec.functions[left.name].args):
            names = iter([name for name in FRESH if spec.symbol(name) is None and name not in own])
            args = [met(spec, pattern, arg, names) for pattern, arg in zip(row, left.args)]
            if None not in args:
                found.append(left.name + (f"({', '.join(args)})" if args else ""))
            if len(found) > MOST_SHOWN:
                break
    except (TooFar, StopIteration, IndexError, KeyError):
        return None  # too many steps or variables, or a term that isn't as it is declared
    return found
