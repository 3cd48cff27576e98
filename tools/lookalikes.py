"""Names that look like others: which symbol a variable may be meant for."""
from texts import subterms

LEAST = 3  # characters of variables that are compared: shorter ones are too often one edit apart by chance


def one_edit(a, b):
    """Whether one character is added, left out or changed, or two neighbours are exchanged."""
    if len(a) > len(b):
        a, b = b, a
    at = next((i for i, (c, d) in enumerate(zip(a, b)) if c != d), len(a))
    if len(a) == len(b):
        exchanged = a[at:at + 2] == b[at:at + 2][::-1] and a[at + 2:] == b[at + 2:]
        return a != b and (a[at + 1:] == b[at + 1:] or exchanged)
    return len(a) + 1 == len(b) and a[at:] == b[at + 1:]


def alike(a, b, least):
    """Whether one name may be a slip for the other: a capital in place of a small letter, or one edit."""
    if a == b:
        return False
    return a.casefold() == b.casefold() or min(len(a), len(b)) >= least and one_edit(a.casefold(), b.casefold())


def nearest(name, names, least=2):
    """The first of the names that looks like this one, or None."""
    return next((other for other in names if alike(name, other, least)), None)


def suspects(spec, roots=None):
    """The variables of terms that look like a symbol without arguments or one that needs some, each with the symbol. A
    variable that a goal binds is meant as one."""
    symbols = [name for name in (*spec.constructors, *spec.functions)]
    bound = {name.text for goal in spec.goals for name, _ in goal.binds}
    found = []
    for root in spec.terms() if roots is None else roots:
        for term in subterms(root):
            if spec.is_variable(term) and term.name not in bound and len(term.name) > 1:
                symbol = nearest(term.name, symbols, LEAST)
                if symbol:
                    found.append((term, symbol))
    return found
