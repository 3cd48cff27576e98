"""The two orderings of terms, and which changes of a text put the left sides of its rules above the rest.

The program decides whether rules are accepted. Here the same question is asked of the text as it is and as it might
be, so that a cure is only named if it helps. Terms are plain here: a variable is its name, and a call is a pair of a
name and arguments.
"""
import copy
from collections import Counter
from functools import cache
from itertools import combinations, permutations, product
from math import prod

MOST_PERMUTED = 4  # arguments of which all orders are tried; of more arguments each one is tried in front
WEIGHTS = (2, 3)  # what is tried as the weight of a symbol
MOST_WEIGHED = 12  # symbols of which pairs get weights
MOST_RULES = 200  # of a text for which weights are tried
MOST_CHOICES = 1000  # statuses of functions of one level that are tried together


def plain(term, spec):
    if spec.is_variable(term):
        return term.name
    return term.name, tuple(plain(arg, spec) for arg in term.args)


def variables(term):
    """The variables from the left, each as often as it is there."""
    return [term] if isinstance(term, str) else [x for arg in term[1] for x in variables(arg)]


def called(term):
    """The names of the symbols of a term."""
    return set() if isinstance(term, str) else {term[0]}.union(*map(called, term[1]))


def text(term):
    if isinstance(term, str):
        return term
    return term[0] + (f"({', '.join(map(text, term[1]))})" if term[1] else "")


class PathOrder:
    """The path ordering by levels and statuses of symbols."""

    def __init__(self, levels, statuses):
        self.levels, self.statuses = levels, statuses

    def arranged(self, term):
        """The arguments in the order of the symbol's status."""
        status = self.statuses.get(term[0])
        # a status that doesn't name each argument once is a fault of its own
        return term[1] if status is None or len(status) != len(term[1]) else [term[1][number - 1] for number in status]

    @cache
    def above(self, t, s):
        """Whether t is above s."""
        if isinstance(t, str):
            return False
        if any(arg == s or self.above(arg, s) for arg in t[1]):
            return True
        if isinstance(s, str) or self.levels[s[0]] > self.levels[t[0]]:
            return False
        if self.levels[s[0]] < self.levels[t[0]]:
            return all(self.above(t, arg) for arg in s[1])
        pairs = list(zip(self.arranged(t), self.arranged(s)))
        first = next((i for i, (a, b) in enumerate(pairs) if a != b), None)
        return first is not None and self.above(*pairs[first]) and all(self.above(t, b) for _, b in pairs[first + 1:])


class WeightOrder:
    """The ordering by weights. A symbol without one weighs 1."""

    def __init__(self, levels, weights):
        self.levels, self.weights = levels, weights

    def weight(self, term):
        return 1 if isinstance(term, str) else self.weights.get(term[0], 1) + sum(map(self.weight, term[1]))

    @cache
    def above(self, t, s):
        """Whether t is above s."""
        if isinstance(t, str) or Counter(variables(s)) - Counter(variables(t)):
            return False
        if self.weight(t) != self.weight(s):
            return self.weight(t) > self.weight(s)
        if isinstance(s, str) or t[0] != s[0]:
            return not isinstance(s, str) and self.levels[t[0]] > self.levels[s[0]]
        return next((self.above(a, b) for a, b in zip(t[1], s[1]) if a != b), False)


def order_of(spec):
    """The ordering of a text: by weights if it has a line `order`."""
    names = [*spec.constructors, *spec.functions]
    levels = {name: number for number, name in enumerate(names)}
    if spec.weights is not None:
        return WeightOrder(levels, spec.weights)
    for line in spec.equals:
        top = max((levels[name] for name in line if name in levels), default=0)
        levels.update((name, top) for name in line)
    return PathOrder(levels, spec.statuses)


def parts(rule, spec):
    """The part of a rule by its number, 0 for the right side and k for the k-th test, as plain terms."""
    return [plain(term, spec) for term in (rule.right, *(test for _, test in rule.guards))]


def refused(spec, rules=None):
    """The numbers of rules, each with the number of a part, that aren't below the left side."""
    order = order_of(spec)
    found = set()
    for number, rule in enumerate(spec.rules, 1):
        if rules is None or number in rules:
            left = plain(rule.left, spec)
            found.update((number, part) for part, term in enumerate(parts(rule, spec)) if not order.above(left, term))
            if any(not order.above(left, ("true" if word == "if" else "false", ())) for word, _ in rule.guards):
                found.add((number, -1))
    return found


def calls(spec):
    """Each function with the functions of its rules, itself among them if it calls itself."""
    found = {name: set() for name in spec.functions}
    for rule in spec.rules:
        if rule.left.name in found:
            for term in parts(rule, spec):
                found[rule.left.name] |= called(term) & set(spec.functions)
    return found


def circles(spec):
    """The functions in an order in which each is after those that it calls, as groups that call each other (Tarjan
    1972). The order of the text is kept as far as may be."""
    edges, number, low, stack, groups = calls(spec), {}, {}, [], []
    names = list(spec.functions)

    def visit(name):
        number[name] = low[name] = len(number)
        stack.append(name)
        for other in sorted(edges[name], key=names.index):
            if other not in number:
                visit(other)
            if other in stack:
                low[name] = min(low[name], low[other])
        if low[name] == number[name]:
            at = stack.index(name)
            groups.append(sorted(stack[at:], key=names.index))
            del stack[at:]

    for name in names:
        if name not in number:
            visit(name)
    return groups


def changed(spec, **fields):
    """The text with other declarations in these places."""
    other = copy.copy(spec)
    for name, value in fields.items():
        setattr(other, name, value)
    return other


def statuses_of(size):
    """The orders of this number of arguments that are tried, other than the usual one."""
    usual = tuple(range(1, size + 1))
    if size <= MOST_PERMUTED:
        return [order for order in permutations(usual) if order != usual]
    return [(first, *(number for number in usual if number != first)) for first in usual[1:]]


def with_status(spec, group):
    """The status lines of functions of one level by which all their rules are in order, or None."""
    rules = {number for number, rule in enumerate(spec.rules, 1) if rule.left.name in group}
    own = [[None, *statuses_of(len(spec.functions[name].args))] for name in group]
    if prod(map(len, own)) > MOST_CHOICES:
        return None
    for choice in sorted(product(*own), key=lambda choice: sum(order is not None for order in choice)):
        statuses = {name: list(order) for name, order in zip(group, choice) if order is not None}
        kept = {name: order for name, order in spec.statuses.items() if name not in group}
        if not refused(changed(spec, statuses={**kept, **statuses}), rules):
            return [f"status {name}({', '.join(map(str, order))})" for name, order in statuses.items()]
    return None


def with_weights(spec):
    """The line `order` by which all rules are in order, or None. It has no other weights than 1, or one, or two."""
    base = dict(spec.weights or {})
    names = [name for name in (*spec.functions, *spec.constructors) if name not in ("true", "false")]
    ones = [{name: weight} for name in names for weight in WEIGHTS]
    pairs = combinations(names, 2) if len(names) <= MOST_WEIGHED else ()
    twos = [{a: v, b: w} for a, b in pairs for v, w in product(WEIGHTS, repeat=2)]
    if len(spec.rules) > MOST_RULES:
        return None
    # no weights help if a part has a variable more often than the left side
    for rule in spec.rules:
        left = Counter(variables(plain(rule.left, spec)))
        if any(Counter(variables(term)) - left for term in parts(rule, spec)):
            return None
    for more in [{}, *ones, *twos]:
        weights = {**base, **more}
        if not refused(changed(spec, weights=weights, equals=[], statuses={})):
            given = ", ".join(f"{name} = {weight}" for name, weight in weights.items())
            return f"order kbo : {given}" if given else "order kbo"
    return None
