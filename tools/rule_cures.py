"""What to do about rules that aren't accepted: `refused linear`, `order`, `overlap`, `guards` and `coverage`."""
import re

from left_over import MOST_SHOWN, fresh, left_over
from lookalikes import suspects
from marks import Finding
from order_cures import listed, order_cure
from orders import plain, refused, text
from texts import shown, subterms


# ---- Each gets the text, and the words of the line that change
def linear(spec, number, name):
    left = spec.rules[int(number) - 1].left
    places = [term.place for term in subterms(left) if term.name == name]
    return [Finding(places[-1], f"`{name}` is twice in `{shown(left)}`: write another variable, and a test or a rule"
                                " for each case that says when both are equal")]


def order(spec, number, part):
    return [Finding(*order_cure(spec, int(number), int(part or 0)))]


def rest_of(spec, rule):
    """The values that are left for a rule by those of its function with other left sides, in words."""
    own = pattern(spec, rule.left)
    others = [other for other in spec.rules if other.left.name == rule.left.name and pattern(spec, other.left) != own]
    rest = left_over(spec, others, rule.left)
    if rest is None or len(rest) > MOST_SHOWN:
        return "write this one for what the other rules leave"
    return f"write this one for {listed(rest)}" if rest else "the other rules have all its values: leave this one out"


def is_wider(spec, left, other):
    """Whether a left side has a variable at a place where the other one has a constructor."""
    pairs = list(zip(left.args, other.args))
    return any(spec.is_variable(a) and not spec.is_variable(b) for a, b in pairs) or any(
        is_wider(spec, a, b) for a, b in pairs)


def overlap(spec, first, second):
    rules = [spec.rules[int(first) - 1], spec.rules[int(second) - 1]]
    found = [Finding(rule.place) for rule in rules]
    slips = suspects(spec, [rule.left for rule in rules])
    if slips:
        return found + [Finding(term.place, f"`{term.name}` is a variable, since no symbol has this name: write"
                                            f" `{symbol}`") for term, symbol in slips]
    # mostly the later rule is meant for the rest
    wide = 1 if is_wider(spec, rules[1].left, rules[0].left) else 0
    cure = f"rules aren't tried in order, so each needs a left side of its own: {rest_of(spec, rules[wide])}"
    found[wide] = found[wide]._replace(cure=cure)
    return found


def beside(spec, other, depth):
    """What is wrong with a rule that has no further test, compared with another rule."""
    where = f"the rule in line {spec.line(other.place)}"
    if len(other.guards) == depth:
        return f"{where} has the same left side and the same tests"
    word, test = other.guards[depth]
    against = "unless" if word == "if" else "if"
    return f"{where} is for the same values {word} `{shown(test)}`: add `{against} {shown(test)}` here"


def gap(spec, rules, depth, taken):
    """What is wrong with the tests of rules that agree on the first ones: a place and the cure, or None."""
    left = shown(rules[0].left)
    if len(rules) == 1 and len(rules[0].guards) == depth:
        return None
    ended = next((rule for rule in rules if len(rule.guards) == depth), None)
    if ended:
        other = next(rule for rule in rules if rule is not ended)
        return Finding(ended.place, beside(spec, other, depth))
    tests = [shown(rule.guards[depth][1]) for rule in rules]
    plain_tests = [renamed(spec, rule, depth) for rule in rules]
    differs = next((i for i, test in enumerate(plain_tests) if test != plain_tests[0]), None)
    if differs is not None:
        return Finding(rules[differs].place, f"the rules for `{left}` have to begin with the same test: this one has"
                       f" `{tests[differs]}`, and that in line {spec.line(rules[0].place)} `{tests[0]}`")
    for word in ("if", "unless"):
        part = [rule for rule in rules if rule.guards[depth][0] == word]
        way = [*taken, (word, tests[0])]
        if not part:
            said = " and ".join(f"{test} is {'true' if kind == 'if' else 'false'}" for kind, test in way)
            guards = " ".join(f"{kind} {test}" for kind, test in way)
            return Finding(rules[0].place, f"there is no rule where {said}: add `rule {left} = .. {guards}`")
        inner = gap(spec, part, depth + 1, way)
        if inner:
            return inner
    return None


def renamed(spec, rule, depth):
    """The test of a rule with its variables numbered by their places in the left side."""
    names = list(dict.fromkeys(term.name for term in subterms(rule.left) if spec.is_variable(term)))
    word = text(plain(rule.guards[depth][1], spec))
    return re.sub(r"\w+", lambda found: f"?{names.index(found[0])}" if found[0] in names else found[0], word)


def pattern(spec, term):
    """A left side with its variables as one word."""
    return "_" if spec.is_variable(term) else (term.name, tuple(pattern(spec, arg) for arg in term.args))


def guards(spec, number):
    rule = spec.rules[int(number) - 1]
    group = [other for other in spec.rules if pattern(spec, other.left) == pattern(spec, rule.left)]
    return [gap(spec, group, 0, []) or Finding(rule.place)]


def coverage(spec, name, values):
    left = f"{name}({values})" if values else name
    own = [rule for rule in spec.rules if rule.left.name == name]
    if own:
        any_value = own[0].left._replace(args=[own[0].left._replace(name=x, args=[]) for x in fresh(spec, own[0].left)])
        rest = left_over(spec, own, any_value)
        shown_rest = rest if rest and len(rest) <= MOST_SHOWN else [left]
        cure = f"no rule matches `{left}`: add {'rules' if len(shown_rest) > 1 else 'a rule'} for {listed(shown_rest)}"
    else:
        cure = f"`{name}` has no rule: add rules for all values of its arguments"
    return [Finding(spec.functions[name].place, cure)]


ADMISSION = {
    "linear": (r"rule (\d+), variable (.*)", linear),
    "order": (r"rule (\d+), (?:right side|guard (\d+))", order),
    "overlap": (r"rules (\d+) and (\d+) at .*", overlap),
    "guards": (r"rule (\d+)", guards),
    "coverage": (r"(\S+) at \((.*)\)", coverage),
}


def is_about(spec, kind, parts):
    """Whether the text has what the line names. It may be the line of another text."""
    if kind == "coverage":
        return parts[0] in spec.functions
    numbers = [int(part) for part in (parts[:2] if kind == "overlap" else parts[:1])]
    if not spec.whole or not all(0 < number <= len(spec.rules) for number in numbers):
        return False
    rule = spec.rules[numbers[0] - 1]
    if kind == "linear":
        return [term.name for term in subterms(rule.left)].count(parts[1]) > 1
    if kind == "order":
        terms = [term for root in spec.terms() for term in subterms(root)]
        known = all(spec.symbol(term.name) or spec.is_variable(term) for term in terms)
        return known and bool({(numbers[0], int(parts[1] or 0)), (numbers[0], -1)} & refused(spec, numbers))
    return True


def rule_findings(spec, kind, rest):
    """What is found of a refusal that names rules or a function."""
    if kind not in ADMISSION:
        return []
    pattern_of_line, look = ADMISSION[kind]
    found = re.fullmatch(pattern_of_line, rest)
    return look(spec, *found.groups()) if found and is_about(spec, kind, found.groups()) else []
