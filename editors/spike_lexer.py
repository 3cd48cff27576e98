"""A lexer for Pygments: `pygmentize -x -l editors/spike_lexer.py:SpikeLexer FILE`."""
from pygments.lexer import RegexLexer, bygroups
from pygments.token import Comment, Keyword, Name, Number, Operator, Punctuation, Whitespace

NAME = r"((?!(?:spike|sort|fun|equal|status|order|rule|goal|if|unless|_)\b)[^\W\d]\w*)"
DECLARED = {"sort": Name.Class, "fun": Name.Function, "goal": Name.Label}


class SpikeLexer(RegexLexer):
    name, aliases, filenames = "spike", ["spike"], ["*.spike"]
    tokens = {"root": [
        (r"\s+", Whitespace),
        (r"#[^\n]*", Comment.Single),
        *((rf"({word})(\s+){NAME}", bygroups(Keyword, Whitespace, kind)) for word, kind in DECLARED.items()),
        (r"(?:spike|sort|fun|equal|status|order|rule|goal|if|unless|_)\b", Keyword),
        (r"(?:true|false)\b", Keyword.Constant),
        (r"Bool\b", Keyword.Type),
        (rf"{NAME}(?=\s*\()", Name.Function),
        (NAME, Name.Variable),
        (r"[0-9]+", Number),
        (r"=>|=|\|", Operator),
        (r"[(),:]", Punctuation),
    ]}
