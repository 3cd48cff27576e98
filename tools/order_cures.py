"""What to do about `refused order`: which call isn't below the left side, why, and which declaration would do."""
from collections import Counter

from orders import (PathOrder, calls, changed, circles, order_of, parts, plain, refused, text, variables, with_status,
                    with_weights)

NO_CURE = ("change the rules: in each such call an argument has to become a part of what it is on the left side, as"
           " `x` is of `succ(x)`")


def listed(names):
    """Names as a list in words."""
    quoted = [f"`{name}`" for name in names]
    return " and ".join([", ".join(quoted[:-1]), quoted[-1]] if len(quoted) > 1 else quoted)


def lines_to_write(spec, lines):
    """The words that ask for lines of format 2."""
    first = "make the first line `spike 2`, and " if spec.is_first_format() else ""
    return f"{first}write {listed(lines)} after the functions"


def blamed(order, left, term, spec):
    """The innermost part of a term that isn't below the left side."""
    for arg in term.args:
        if not order.above(left, plain(arg, spec)):
            return blamed(order, left, arg, spec)
    return term


def reached(edges, name):
    """The functions that calls lead to, the first one among them."""
    found, left = {name}, [name]
    while left:
        more = edges[left.pop()] - found
        found |= more
        left += more
    return found


def level_of(spec, name):
    """The functions of the `equal` line that has this one, or only this one."""
    return next((line for line in spec.equals if name in line), [name])


def later(spec, own, other):
    """The cure if a function calls one that is declared later and doesn't call back."""
    names = list(spec.functions)
    if names.index(other) < names.index(own):
        last = max(level_of(spec, other), key=names.index)
        return (f"`{own}` calls `{other}`, which is on the level of `{last}` by a line `equal`: move `fun {own}` after"
                f" line {spec.line(spec.functions[last].place)}")
    moved = [name for name in names[names.index(own) + 1:] if name in reached(calls(spec), other)]
    where = listed(f"fun {name}" for name in moved)
    return (f"`{own}` calls `{other}`, which is declared after it: move {where} before line"
            f" {spec.line(spec.functions[own].place)}, or write the text as `tools/order FILE` does")


def as_equals(spec, group):
    """The text with a line `equal` for these functions, in which each function is after those that it calls."""
    joined = [name for name in spec.functions if any(name in level_of(spec, other) for other in group)]
    rest = [line for line in spec.equals if not set(line) & set(joined)]
    order = {name: spec.functions[name] for names in circles(spec) for name in names}
    return changed(spec, functions=order, equals=[*rest, joined]), joined


def mutual(spec, own, other):
    """The cure if functions call each other."""
    group = next(names for names in circles(spec) if own in names)
    rules = {number for number, rule in enumerate(spec.rules, 1) if rule.left.name in group}
    cause = f"{listed(group)} call each other: "
    counts = sorted({len(spec.functions[name].args) for name in group})
    weights = with_weights(spec)
    if len(counts) > 1:
        numbers = " and ".join(map(str, counts))
        if weights:
            return (f"{cause}with {numbers} arguments they can't be on one line `equal`;"
                    f" {lines_to_write(spec, [weights])}")
        return (f"{cause}give each of them {counts[-1]} arguments, also if it doesn't use some, and"
                f" {lines_to_write(spec, ['equal ' + ', '.join(group)])}")
    level, joined = as_equals(spec, group)
    line = f"equal {', '.join(joined)}"
    statuses = [] if not refused(level, rules) else with_status(level, joined)
    if statuses is not None:
        same = list(level.functions) == list(spec.functions)
        return cause + lines_to_write(spec, [line, *statuses]) + ("" if same else ", as `tools/order FILE` does")
    return cause + (lines_to_write(spec, [weights]) if weights else NO_CURE)


def not_smaller(spec, order, left, call):
    """The cure if a call of the same level has an argument that isn't smaller."""
    made = plain(call, spec)
    if made == left:
        return f"the call `{text(made)}` is the left side again, so that evaluation doesn't end: {NO_CURE}"
    pairs = list(zip(order.arranged(left), order.arranged(made)))
    before, after = next(((a, b) for a, b in pairs if a != b), pairs[-1])
    number = made[1].index(after) + 1
    cause = (f"argument {number} of the call `{text(made)}` becomes `{text(after)}`, which isn't below"
             f" `{text(before)}`: ")
    statuses = with_status(spec, level_of(spec, left[0]))
    weights = None if statuses else with_weights(spec)
    lines = statuses or (weights and [weights])
    return cause + (lines_to_write(spec, lines) if lines else NO_CURE)


def path_cure(spec, order, rule, term):
    """The place of the call that isn't below the left side, and the cure."""
    left = plain(rule.left, spec)
    call = blamed(order, left, term, spec)
    own, other = rule.left.name, call.name
    if spec.is_variable(call):
        return call.place, None  # the left side lacks it, so the line is about another text
    if order.levels[own] == order.levels[other]:
        return call.place, not_smaller(spec, order, left, call)
    if other in reached(calls(spec), own) and own in reached(calls(spec), other):
        return call.place, mutual(spec, own, other)
    return call.place, later(spec, own, other)


def times(names, name):
    """How often a name is among these, in words."""
    return {1: "once", 2: "twice"}.get(names.count(name), f"{names.count(name)} times")


def why_not_lighter(order, left, term):
    """Why a term isn't below the left side by weights."""
    more = Counter(variables(term)) - Counter(variables(left))
    if more:
        name = next(iter(more))
        here, there = times(variables(term), name), times(variables(left), name)
        return f"`{name}` occurs in it {here}, and on the left side {there}"
    own, other = order.weight(left), order.weight(term)
    if own < other:
        return f"it weighs {other}, and the left side {own}"
    if left[0] != term[0]:
        return f"it weighs {other} as the left side does, and `{term[0]}` is declared after `{left[0]}`"
    return f"it weighs {other} as the left side does, and the first argument that differs isn't smaller"


def weight_cure(spec, order, rule, part):
    """The cure if the text has a line `order`."""
    left, term = plain(rule.left, spec), parts(rule, spec)[part]
    name = "the right side" if part == 0 else f"test {part}"
    if order.above(left, term):
        return f"the Boolean that {name} wants weighs more than the left side: give it the weight 1"
    cause = f"{name} isn't below the left side: {why_not_lighter(order, left, term)}"
    weights = with_weights(spec)
    if weights:
        return f"{cause}; write `{weights}`"
    other = changed(spec, weights=None)
    if not refused(other):
        return f"{cause}; no weights help: leave the line `order` out"
    return f"{cause}; leave the line `order` out, and see what `check` says then"


def order_cure(spec, number, part):
    """The place and the cure of the rule with this number. Part 0 is the right side, and part k the k-th test."""
    rule = spec.rules[number - 1]
    term = rule.right if part == 0 else rule.guards[part - 1][1]
    order = order_of(spec)
    if isinstance(order, PathOrder):
        return path_cure(spec, order, rule, term)
    return term.place, weight_cure(spec, order, rule, part)
