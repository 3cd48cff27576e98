"""What to do about `refused sort`, for each kind of fault."""
from lookalikes import LEAST, nearest
from texts import number_of, shown, subterms

BUILT_IN = ("and", "or", "not", "eq", "equal", "implies", "xor", "plus", "add", "le", "less")


def spot(spec, place):
    """The term that begins at a place, with the one around it and its number there, and the root; or None."""
    for root in spec.terms():
        for term in subterms(root):
            if term.place == place:
                pairs = ((other, n) for other in subterms(root) for n, arg in enumerate(other.args, 1) if arg is term)
                return term, *next(pairs, (None, 0)), root
    return None


def sort_of(spec, term, root=None):
    """The sort of a term, or None for a variable that nothing gives one."""
    symbol = spec.symbol(term.name)
    if symbol and not spec.is_variable(term):
        return symbol.result
    for rule in spec.rules:
        if root in (rule.left, rule.right, *(test for _, test in rule.guards)):
            return sort_in(spec, rule.left, term.name)
    for goal in spec.goals:
        sides = [side for equation in goal.premises + goal.conclusions for side in equation]
        if root in sides:
            bound = next((sort.text for name, sort in goal.binds if name.text == term.name), None)
            return bound or next(filter(None, (sort_in(spec, side, term.name) for side in sides)), None)
    return None


def sort_in(spec, root, name):
    """The sort of the first place in a term that has the variable as an argument, or None."""
    for term in subterms(root):
        symbol = spec.symbol(term.name)
        for arg, sort in zip(term.args, symbol.args if symbol else ()):
            if arg.name == name and spec.is_variable(arg):
                return sort
    return None


def signature(spec, name):
    """How a symbol is declared."""
    symbol = spec.symbol(name)
    return f"{name}({', '.join(symbol.args)}) : {symbol.result}" if symbol.args else f"{name} : {symbol.result}"


def declared(spec, name, place):
    """Where a name is declared before a place."""
    symbols = [*spec.constructors.values(), *spec.functions.values(), *spec.goals]
    places = [symbol.place for symbol in symbols if symbol.name == name] + [spec.sorts.get(name)]
    return min((at for at in places if at is not None and at < place), default=None)


# ---- Each gets the text, the place and the word there
def unknown_name(spec, place, word):
    found = spot(spec, place)
    names = [*spec.functions, *spec.constructors] if found else list(spec.sorts)
    similar = nearest(word, names)
    if similar:
        return f"nothing is declared as `{word}`: write `{similar}`"
    if not found:
        return f"there is no sort `{word}`: declare it with its constructors, as `sort Nat = zero | succ(Nat)`"
    built_in = "nothing is built in but Bool, true and false: " if word in BUILT_IN else ""
    args = ", ".join(sort_of(spec, arg, found[3]) or ".." for arg in found[0].args)
    around, number = found[1:3]
    result = spec.symbol(around.name).args[number - 1] if around and spec.symbol(around.name) else ".."
    return f"{built_in}declare `{word}`, as `fun {word}({args}) : {result}`, with a rule for each case"


def repeated_name(spec, place, word):
    if word in ("Bool", "true", "false"):
        return f"`{word}` is always there: leave it out"
    binds = [name.place for goal in spec.goals for name, _ in goal.binds]
    at = declared(spec, word, place)
    if place in binds:
        return f"`{word}` is a symbol or bound already: take another name for the variable"
    return f"`{word}` is declared in line {spec.line(at)} already: take another name" if at is not None else None


def number_of_arguments(spec, place, word):
    found = spot(spec, place)
    if found and spec.symbol(word):
        wanted = number_of(spec.symbol(word).args, "argument")
        return f"`{signature(spec, word)}` has {wanted}, and here {len(found[0].args)}"
    return "functions of one `equal` line have the same number of arguments: give one more, or use `order kbo`"


def wrong_sort(spec, place, word):
    found = spot(spec, place)
    if not found:
        return None
    term, around, number, root = found
    own = sort_of(spec, term, root)
    if around and spec.symbol(around.name):
        wanted = spec.symbol(around.name).args[number - 1]
        here = f", and `{shown(term)}` a {own}" if own else ""
        return f"argument {number} of `{signature(spec, around.name)}` is a {wanted}{here}"
    sides = [(rule.left, rule.right) for rule in spec.rules]
    sides += [equation for goal in spec.goals for equation in goal.premises + goal.conclusions]
    other = next((sort_of(spec, left, left) for left, right in sides if right is root), None)
    both = f": here a {other} and a {own}" if own and other else ""
    return f"both sides of an equation have one sort{both}"


def not_inferred(spec, place, word):
    goal = next((goal for goal in reversed(spec.goals) if goal.place < place), None)
    return f"say the variable's sort: `goal {goal.name}({word} : ..) : ..`" if goal else None


def not_on_the_left(spec, place, word):
    left = next((rule.left for rule in reversed(spec.rules) if rule.place < place), None)
    if left is None:
        return None
    own = [term.name for term in subterms(left) if not term.args]
    similar = nearest(word, [*spec.constructors, *spec.functions, *own], LEAST)
    if similar:
        return f"`{word}` is a variable, since no symbol has this name: write `{similar}`"
    return f"`{word}` is a variable that `{shown(left)}` doesn't have: use one of its variables, or declare `{word}`"


def in_a_pattern(spec, place, word):
    return (f"`{word}` is a function: a left side has constructors and variables below its function; put a test in its"
            " place")


def no_function(spec, place, word):
    if word in spec.constructors:
        return f"`{word}` is a constructor, which has no rules: its terms are values; declare a function"
    similar = nearest(word, spec.functions)
    return f"write `{similar}` for `{word}`" if similar else f"declare the function: `fun {word} : ..`"


def not_bool(spec, place, word):
    found = spot(spec, place)
    own = found and sort_of(spec, found[0], found[3])
    return "a test is a term of sort Bool" + (f", and `{shown(found[0])}` is a {own}" if own else "")


def no_small_value(spec, place, word):
    return (f"each constructor of `{word}` needs another value of it: add one that doesn't, as"
            f" `sort {word} = none | ..`")


def no_order_of_arguments(spec, place, word):
    symbol = spec.symbol(word)
    if symbol is None or not symbol.args:
        return f"`{word}` has no arguments: leave the line out"
    return f"`{signature(spec, word)}` needs each number from 1 to {len(symbol.args)} once"


SORT_CURES = {
    "unknown name": unknown_name, "repeated name": repeated_name, "wrong number of arguments": number_of_arguments,
    "wrong sort": wrong_sort, "sort not inferred": not_inferred, "variable not on the left": not_on_the_left,
    "defined symbol in a pattern": in_a_pattern, "left side is no function": no_function, "guard not Bool": not_bool,
    "no small value": no_small_value,
    "not a function": lambda spec, place, word: f"`{word}` is a constructor: this line is for functions",
    "equal twice": lambda spec, place, word: f"`{word}` is on an `equal` line already: join the lines",
    "status twice": lambda spec, place, word: f"`{word}` has a `status` line already: leave one out",
    "no order of arguments": no_order_of_arguments,
    "equal or status with kbo": lambda spec, place, word: (
        "leave the line `order` out, or all lines `equal` and `status`"),
    "wrong weight": lambda spec, place, word: "a weight is a number from 1 to 1000",
    "too many variables": lambda spec, place, word: "a left side or a goal has at most 16 variables",
    "left side too large": lambda spec, place, word: "a left side has at most 200 symbols and variables",
    "too many rules": lambda spec, place, word: f"`{word}` has too many rules: 64 at most, or 128 in format 2",
}
