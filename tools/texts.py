"""What the tools of this folder read a specification by: its words with their places, its declarations, and its
terms.

Nothing is checked here. The program says whether a text is accepted. These tools say where in the text something is,
and what may be meant. So a declaration that can't be read is left out, and `Spec.whole` says that none was left out.
"""
import re
from collections import namedtuple

KINDS = ("sort", "fun", "equal", "status", "order", "rule", "goal")
MOST_DEPTH = 64  # of a term that is accepted
RESERVED = {"spike", *KINDS, "if", "unless", "_"}

ASCII_WORD = re.compile(r"#[^\n]*|[A-Za-z_][A-Za-z0-9_]*|[0-9]+|=>|[^ \t\r\n]")

Word = namedtuple("Word", "text place")  # the place is the number of bytes before it
Declaration = namedtuple("Declaration", "kind words")  # the first word is the reserved one
Term = namedtuple("Term", "name args place")  # without parentheses there are no arguments
Symbol = namedtuple("Symbol", "name args result place")  # with the words of its sorts
Rule = namedtuple("Rule", "place left right guards")  # a guard is `if` or `unless` and a term
Goal = namedtuple("Goal", "name place binds premises conclusions")  # with pairs of terms


def is_name(text):
    return text.isidentifier() and text not in RESERVED


def word_end(text, begin):
    """The end of the comment, name, number or other sign that begins there. Names are Unicode's identifiers."""
    if text[begin] == "#":
        return (text.find("\n", begin) + 1 or len(text) + 1) - 1
    end = begin + 1
    if text[begin].isidentifier():
        while end < len(text) and f"_{text[end]}".isidentifier():
            end += 1
    elif text[begin] in "0123456789":
        while end < len(text) and text[end] in "0123456789":
            end += 1
    elif text.startswith("=>", begin):
        end += 1
    return end


def words_and_comments(data):
    """Each comment, word and sign of a text, and the number of bytes before it."""
    text = data.decode("utf-8", "replace")
    if text.isascii():
        yield from (Word(found[0], found.start()) for found in ASCII_WORD.finditer(text))
        return
    begin = place = 0
    while begin < len(text):
        end = word_end(text, begin)
        word = text[begin:end]
        if not word.isspace():
            yield Word(word, place)
        begin, place = end, place + len(word.encode())


def words(data):
    """The words and signs of a text without its comments."""
    return [word for word in words_and_comments(data) if not word.text.startswith("#")]


def declarations(listed):
    """The declarations of a list of words, each up to the next reserved word that begins one."""
    found = []
    for word in listed:
        if word.text in KINDS:
            found.append(Declaration(word.text, []))
        if found:
            found[-1].words.append(word)
    return found


def texts(listed):
    return tuple(word.text for word in listed)


class Unreadable(Exception):
    """A declaration isn't as the grammar has it."""


class Reader:
    """Reads the words of one declaration, from the second one on."""

    def __init__(self, listed):
        self.words, self.at = listed, 1

    def peek(self):
        return self.words[self.at].text if self.at < len(self.words) else ""

    def take(self, *wanted):
        """The next word, which has to be a wanted one; without any, a name."""
        text = self.peek()
        if text not in wanted if wanted else not is_name(text):
            raise Unreadable
        self.at += 1
        return self.words[self.at - 1]

    def skips(self, *texts):
        """Whether the next word is one of these, which is taken then."""
        found = self.peek() in texts and self.at < len(self.words)
        self.at += found
        return found

    def several(self, item, *between):
        """The items with one of these signs between each two."""
        found = [item()]
        while self.skips(*between):
            found.append(item())
        return found

    def in_parentheses(self, item):
        """The items between parentheses; none if no parenthesis is next."""
        if not self.skips("("):
            return []
        found = self.several(item, ",")
        self.take(")")
        return found

    def number(self):
        text = self.peek()
        if not text.isdecimal():
            raise Unreadable
        self.at += 1
        return int(text)

    def term(self, depth=1):
        name = self.take()
        if depth > MOST_DEPTH:
            raise Unreadable
        return Term(name.text, self.in_parentheses(lambda: self.term(depth + 1)), name.place)

    def equation(self):
        left = self.term()
        self.take("=")
        return left, self.term()

    def end(self):
        if self.at < len(self.words):
            raise Unreadable


class Spec:
    """The declarations of a text."""

    def __init__(self, data):
        self.data, self.words, self.whole = data, words(data), True
        self.sorts, self.constructors, self.functions = {"Bool": None}, {}, {}
        self.constructors.update((name, Symbol(name, (), "Bool", None)) for name in ("true", "false"))
        self.equals, self.statuses, self.weights, self.rules, self.goals = [], {}, None, [], []
        for kind, listed in declarations(self.words):
            reader = Reader(listed)
            try:
                getattr(self, f"read_{kind}")(reader)
                reader.end()
            except Unreadable:
                self.whole = False

    def read_sort(self, reader):
        name = reader.take()
        self.sorts.setdefault(name.text, name.place)
        reader.take("=")
        for word, args in reader.several(lambda: (reader.take(), reader.in_parentheses(reader.take)), "|"):
            self.constructors.setdefault(word.text, Symbol(word.text, texts(args), name.text, word.place))

    def read_fun(self, reader):
        name, args = reader.take(), reader.in_parentheses(reader.take)
        reader.take(":")
        self.functions.setdefault(name.text, Symbol(name.text, texts(args), reader.take().text, name.place))

    def read_equal(self, reader):
        self.equals.append(list(texts(reader.several(reader.take, ","))))

    def read_status(self, reader):
        name = reader.take().text
        self.statuses[name] = reader.in_parentheses(reader.number)

    def read_order(self, reader):
        reader.take()
        self.weights = {}
        if reader.skips(":"):
            for name, weight in reader.several(lambda: (reader.take(), reader.take("=") and reader.number()), ","):
                self.weights[name.text] = weight

    def read_rule(self, reader):
        left, right = reader.equation()
        guards = []
        while reader.peek() in ("if", "unless"):
            guards.append((reader.take("if", "unless").text, reader.term()))
        self.rules.append(Rule(reader.words[0].place, left, right, guards))

    def read_goal(self, reader):
        name = reader.take()
        binds = reader.in_parentheses(lambda: (reader.take(), reader.take(":") and reader.take()))
        reader.take(":")
        premises, conclusions = [], [] if reader.peek() == "=>" else reader.several(reader.equation, ",", "|")
        if reader.skips("=>"):
            premises, conclusions = conclusions, reader.several(reader.equation, "|") if reader.peek() else []
        self.goals.append(Goal(name.text, name.place, binds, premises, conclusions))

    def line(self, place):
        """The number of the line that has the place, from 1."""
        return self.data.count(b"\n", 0, place) + 1

    def is_first_format(self):
        return [word.text.lstrip("0") for word in self.words[:2]] == ["spike", "1"]

    def symbol(self, name):
        """The symbol of this name, or None."""
        return self.functions.get(name) or self.constructors.get(name)

    def is_variable(self, term):
        return not term.args and self.symbol(term.name) is None

    def terms(self):
        """The terms of the rules and goals at their roots, in the order of the text."""
        for rule in self.rules:
            yield from (rule.left, rule.right, *(test for _, test in rule.guards))
        for goal in self.goals:
            yield from (side for equation in goal.premises + goal.conclusions for side in equation)


def subterms(term):
    """The term and all terms in it, each before its arguments."""
    yield term
    for arg in term.args:
        yield from subterms(arg)


def shown(term):
    """The term as it is written."""
    return term.name + (f"({', '.join(map(shown, term.args))})" if term.args else "")


def number_of(items, word):
    """How many items there are, with their word."""
    return f"{len(items)} {word}{'s' * (len(items) != 1)}"
