"""What to do about `refused text`, `refused syntax` and `refused limit`: what was meant, and where it begins."""
import re

from texts import KINDS, RESERVED, declarations, number_of

SIGNS = (  # the beginning of what begins no word, and what to write
    ("->", "a rule is `left = right`, and premises come before `=>`"),
    ("!=", "there is no `!=`: `a = b =>` says that a and b are never equal"),
    ("&", "there is no `&`: premises have a comma between them, and a test of two parts is `if a if b`"),
    ("!", "there is no `!`: a test that is to be false is `unless t`, and in a goal `t = false`"),
    ("//", "a comment begins with `#`"),
    ("--", "a comment begins with `#`"),
    ("/*", "a comment begins with `#` and ends with the line"),
    (";", "leave it out: a declaration ends where the next one begins"),
    (".", "leave it out: a declaration ends where the next one begins"),
    ("[", "a list is written by its constructors, as `cons(x, nil)`"),
    ("]", "a list is written by its constructors, as `cons(x, nil)`"),
    ("'", "a name has only letters, digits and `_`: write `x1` or `x_`"),
    ("\ufeff", "the file begins with a byte order mark: save it without"),
    ("\"", "there are no strings: declare a constructor"),
)
OPERATOR = ("there are no operators: declare a function and write it in front, as `plus(x, y)`, with `_` for `-` in a"
            " name")
FOR_ALL = "a goal holds for all values of its variables: leave the quantifier out, or write `goal g(x : Nat) : ..`"
BEFORE = (  # what is on the line up to the character, and what to write
    (r"\b(?:forall|all|exists)\b|[\u2200\u2203]$", FOR_ALL),
    (r"\(\*$", "a comment begins with `#` and ends with the line"),
    (r"^\s*fun\b.*-$", "write `fun plus(Nat, Nat) : Nat`: the sorts of the arguments, and that of the result"),
)
TEST_LAST = "a test comes after the right side: `rule f(x) = a if t`, and one more rule `unless t`"
JOINED = {"and": "premises have a comma between them, and a goal has one conclusion or several with `|`",
          "or": "conclusions have `|` between them", "implies": "premises come before `=>`",
          "where": "premises come first: `p = true => a = b`", "when": "premises come first: `p = true => a = b`"}
NOT_OPEN = "a comma is between arguments, and no parenthesis is open here: is one missing before it?"
OTHER = "no name, number or sign begins so; a name begins with a letter or `_`"
WORDS = {  # what other languages call a declaration
    "func": "fun", "function": "fun", "def": "fun", "define": "fun", "op": "fun", "data": "sort", "datatype": "sort",
    "type": "sort", "enum": "sort", "axiom": "rule", "eq": "rule", "let": "rule", "lemma": "goal", "theorem": "goal",
    "conjecture": "goal", "prove": "goal", "property": "goal",
}
LIMITS = {
    "name": "a name has at most 64 bytes", "sorts": "a text has at most 200 sorts",
    "constructors": "a sort has at most 64 constructors, and a text 500, or 1,000 in format 2",
    "functions": "a text has at most 500 functions, or 1,000 in format 2",
    "arity": "a symbol has at most 8 arguments: put some of them into a constructor of their own",
    "rules": "a text has at most 1,000 rules, or 4,000 in format 2",
    "guards": "a rule has at most 8 tests: put some of them into a function", "goals": "a text has at most 200 goals",
    "variables": "a goal binds at most 16 variables", "premises": "a goal has at most 8 premises",
    "conclusions": "a goal has at most 4 conclusions",
    "nesting": "a term is at most 64 deep: declare a function for a part of it",
}


def text_cure(data, place):
    """The cure of a character that begins no word."""
    if place >= len(data):
        return None
    rest = data[place:place + 8]
    text = rest.decode("utf-8", "replace")
    if text.startswith("\ufffd"):
        return "the bytes here aren't UTF-8: save the file as UTF-8"
    if text[0].isdecimal():
        return "a number has at most six digits"
    before = data[data.rfind(b"\n", 0, place) + 1:place].decode("utf-8", "replace")
    for words, cure in BEFORE:
        if re.search(words, before + text[0]):
            return cure
    for sign, cure in SIGNS:
        if text.startswith(sign):
            return cure
    return OPERATOR if text[0] in "+-*/<>%^~" else OTHER


class Fault:
    """The word at which no text goes on, with what is before it."""

    def __init__(self, spec, place):
        self.spec, self.place = spec, place
        self.at = next((i for i, word in enumerate(spec.words) if word.place >= place), len(spec.words))
        self.word = spec.words[self.at].text if self.at < len(spec.words) else ""
        self.before = spec.words[self.at - 1].text if self.at else ""
        found = declarations(spec.words[:self.at])
        self.kind, self.words = found[-1] if found else ("", [])
        self.ends = self.word in KINDS or not self.word

    def text(self, index):
        return self.words[index].text if -len(self.words) <= index < len(self.words) else ""

    def open_parenthesis(self):
        """The word before the last parenthesis that isn't closed, or None."""
        opened = []
        for before, word in zip(self.words, self.words[1:]):
            if word.text == "(":
                opened.append(before)
            elif word.text == ")" and opened:
                opened.pop()
        return opened[-1] if opened else None

    def side(self):
        """The words of the equation's side that is being read."""
        depth, found = 0, []
        for word in self.words[2:] if self.kind == "goal" else self.words[1:]:
            depth += (word.text == "(") - (word.text == ")")
            if depth <= 0 and word.text in (":", "=", ",", "|", "=>", "if", "unless"):
                found = []
            else:
                found.append(word)
        return found

    def ends_declaration(self):
        """Whether the word may begin the next declaration, and isn't a reserved word in place of a name."""
        following = self.spec.words[self.at + 1].text if self.at + 1 < len(self.spec.words) else ""
        return self.ends and self.before not in KINDS and (not self.word or following.isidentifier())

    def closes_later(self):
        """Whether the rest of the declaration closes a parenthesis that it doesn't open."""
        depth = 0
        for word in self.spec.words[self.at:]:
            depth += (word.text == "(") - (word.text == ")")
            if depth < 0 or word.text in KINDS:
                break
        return depth < 0

    def seen(self, *texts):
        """Whether one of these is among the words of the declaration outside of parentheses."""
        depth = 0
        for word in self.words:
            depth += (word.text == "(") - (word.text == ")")
            if not depth and word.text in texts:
                return True
        return False


def written(listed):
    """Words of a term as they are written."""
    return "".join(f"{word.text} " if word.text == "," else word.text for word in listed)


def at_start(fault):
    """Faults of the first words."""
    if fault.at == 0:
        return None, "begin the text with `spike 1`, or `spike 2` for lines `equal`, `status` and `order`"
    if fault.at == 1:
        return None, "the format is 1 or 2: begin the text with `spike 1` or `spike 2`"
    return None


def at_any_place(fault):
    """Faults that any declaration may have."""
    if fault.before == "(" and fault.word == ")":
        name = fault.spec.words[fault.at - 2]
        symbol = fault.spec.symbol(name.text)
        if symbol and symbol.args:
            return name.place, f"`{name.text}` has {number_of(symbol.args, 'argument')}, which have to be written"
        return name.place, f"a constant has no parentheses: write `{name.text}`"
    if fault.before == "=" and fault.word == "=":
        return None, "equality is written with one `=`"
    if fault.word.isdecimal() and fault.before in ("(", ",", "=", "if", "unless"):
        return None, "there are no numerals: three is `succ(succ(succ(zero)))`"
    if fault.word in RESERVED - {"if", "unless"} and not fault.ends_declaration():
        return None, f"`{fault.word}` is a reserved word: take another name"
    return None


def missing(fault):
    """A sign at a place that needs a term or a name."""
    awaits = fault.before in ("(", ",", "=", "|", ":", "=>", "if", "unless", *KINDS)
    if not awaits or fault.ends or (fault.kind, fault.before, fault.word) == ("sort", "=", "|"):
        return None
    if fault.kind == "rule" and fault.before == "=" and fault.word in ("if", "unless"):
        return None, TEST_LAST
    term = fault.kind == "rule" or fault.kind == "goal" and len(fault.words) > 1
    return None, f"a {'term' if term else 'name'} is missing before `{fault.word}`"


def parenthesis(fault):
    """A parenthesis that isn't closed, or that closes nothing."""
    opened = fault.open_parenthesis()
    if opened is None:
        return (None, "this parenthesis closes nothing: leave it out") if fault.word == ")" else None
    if fault.word in ("=", "=>", "|", "if", "unless") or fault.ends:
        return opened.place, f"the parenthesis after `{opened.text}` isn't closed"
    if fault.kind == "goal" and opened is fault.words[1] and fault.word in (")", ","):
        return None, f"a variable that the goal binds has its sort: `goal {opened.text}({fault.before} : Nat) : ..`"
    if fault.word == ":" and fault.kind in ("fun", "sort"):
        return None, "an argument is only a sort: leave the name and `:` out"
    if fault.word.isidentifier() and fault.before not in ("(", ","):
        return None, f"a comma is missing between `{fault.before}` and `{fault.word}`"
    return None, f"in parentheses are arguments with commas between them, and no `{fault.word}`"


def no_equals_sign(fault):
    """Two terms without `=` between them, on one line: on the next line a declaration may have been meant."""
    first = fault.words[0]
    same = fault.spec.line(first.place) == fault.spec.line(fault.place)
    if same and fault.word.isidentifier() and not fault.seen("="):
        return None, f"`=` is missing before `{fault.word}`"
    return None


def in_goal(fault):
    if fault.text(1) and fault.word not in (":", "(") and len(fault.words) == 2:
        return None, "after the goal's name comes `:`"
    side = fault.side()
    if any(word.text in ("forall", "all", "exists") for word in fault.words[2:4]):
        return None, FOR_ALL
    if fault.word in JOINED:
        return None, JOINED[fault.word]
    if fault.word == "," and fault.closes_later():
        return None, NOT_OPEN
    if fault.word in ("if", "unless"):
        return None, "premises come first: `p = true => a = b`"
    if fault.ends and fault.seen(",") and not fault.seen("=>"):
        cure = "`,` is between premises, and `=>` comes after them; for two conclusions write two goals"
        return fault.words[0].place, cure
    if fault.word == "=" and fault.seen("="):
        return None, "an equation has two sides: write a goal for each equation"
    if fault.word == "," and fault.seen("=>"):
        return None, "one of several conclusions is said by `|`; to say all of them write a goal for each"
    if side and fault.before not in ("=", ":", ",", "|", "=>") and (fault.ends or fault.word in (",", "|", "=>")):
        return side[0].place, f"this is no equation: write `{written(side)} = true`"
    return no_equals_sign(fault)


def in_rule(fault):
    if fault.word == "=" and fault.seen("if", "unless"):
        return None, "a test has no `=`: write `if t` if t has to be true, and `unless t` if it has to be false"
    if fault.seen("if", "unless") and (fault.word in (",", "|", "=>") or fault.word in ("and", "or")):
        return None, "each test has its own word: `if a if b`, `if a unless b`"
    if fault.ends and not fault.seen("="):
        return fault.words[0].place, "a rule is `left = right`: its `=` is missing"
    if fault.word == "=>":
        return None, "a rule is `left = right if test`, with `=` and the test at its end"
    if fault.word in ("then", "else", "when", "where"):
        return None, TEST_LAST
    if fault.word == ",":
        return None, NOT_OPEN
    return no_equals_sign(fault)


def in_sort(fault):
    if fault.word == "(" and not fault.seen("="):
        return None, "a sort has no parameters: a list of naturals is a sort of its own, as `NatList`"
    if fault.word == "|" and fault.before == "=":
        return None, "the first constructor has no `|` before it"
    if not fault.seen("="):
        return fault.words[0].place, "a sort is declared with its constructors: `sort Nat = zero | succ(Nat)`"
    if fault.word == ",":
        return None, "between two constructors is `|`"
    return None


def in_fun(fault):
    if not fault.seen(":"):
        return None, "the sort of the result is missing: `fun plus(Nat, Nat) : Nat`"
    if fault.before == ":":
        return None, "after `:` comes the sort of the result"
    if fault.word == "=":
        return None, "a function is defined by rules: `rule plus(zero, y) = y`"
    return None


def order_of_kinds(fault):
    """A declaration that is out of its order, or a word that begins none."""
    spec = fault.spec
    if fault.word in ("equal", "status", "order") and spec.is_first_format():
        return None, f"lines `{fault.word}` need format 2: make the first line `spike 2`"
    if fault.word in KINDS and fault.kind:
        if KINDS.index(fault.word) < KINDS.index(fault.kind):
            first = next(word for word in spec.words if word.text in KINDS[KINDS.index(fault.word) + 1:])
            return None, (f"each `{fault.word}` comes before the first `{first.text}`: move it before line"
                          f" {spec.line(first.place)}")
        if fault.word == fault.kind == "order":
            return None, "a text has one line `order`: join both"
    word = fault.word.lower()
    meant = WORDS.get(word) or next((kind for kind in KINDS if word in (kind, kind + "s")), None)
    if meant and fault.word not in KINDS:
        return None, f"write `{meant}` for `{fault.word}`"
    return None


def unfinished(fault):
    """What is said if nothing else is found."""
    if fault.kind == "equal":
        return None, "an equal line has two functions or more, with commas between them: `equal even, odd`"
    if fault.kind == "status":
        return None, "a status line has a number for each argument: `status add(2, 1)`"
    if fault.kind == "order":
        return None, "an order line is `order kbo`, or has weights: `order kbo : succ = 2, plus = 3`"
    if fault.ends and fault.words:
        return fault.words[0].place, f"this {fault.kind} isn't finished: something is missing after `{fault.before}`"
    if not fault.words:
        return None, f"a declaration begins with one of {', '.join(KINDS)}"
    return None, f"the {fault.kind} is over before `{fault.word}`; the next word has to be one of {', '.join(KINDS)}"


def syntax_cure(spec, place):
    """The place of what has to change, or None if it is that of the refusal, with the cure; or None."""
    fault = Fault(spec, place)
    looks = {"goal": in_goal, "rule": in_rule, "sort": in_sort, "fun": in_fun}
    look_at_kind = looks.get(fault.kind, lambda _: None)
    tries = [at_start, at_any_place, order_of_kinds, missing, parenthesis, look_at_kind, unfinished]
    return next(filter(None, (look(fault) for look in tries)), None)


def term_cure(spec, place):
    """The same of a term that the text has after the word `rule`."""
    fault = Fault(spec, place)
    if not fault.word and not fault.open_parenthesis():
        return None, "a term is missing"
    tries = [at_any_place, missing, parenthesis, lambda _: (None, "the term is over here")]
    return next(filter(None, (look(fault) for look in tries)), None)


def limit_cure(what):
    return LIMITS.get(what)
