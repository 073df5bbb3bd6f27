"""Lexers for pygments: programs in SPL, and proofs of them.

    pygmentize -x -l milkhour_lexers.py:SplLexer program
    pygmentize -x -l milkhour_lexers.py:SplProofLexer proof
"""

from pygments.lexer import RegexLexer, words
from pygments.token import Comment, Error, Keyword, Name, Number, Operator, Punctuation, Whitespace

__all__ = ["SplLexer", "SplProofLexer"]

NAME = r"[A-Za-z][A-Za-z0-9_]*"
SHARED = ("true", "false")
OF_PROGRAMS = (
    "in local out where integer boolean skip await request release noncritical critical if then else fi while loop "
    "forever do select or cobegin coend"
).split()
OF_PROOFS = (
    "at invariant waiting wait response leads within by using just chain ranked fair net base delay top group helper "
    "rank diagram terminal node edge on"
).split()


def word(names):
    return words(tuple(names), prefix=r"(?<![A-Za-z0-9_])", suffix=r"(?![A-Za-z0-9_])")


def rules(own, types, others):
    """All keywords are reserved everywhere: those of the other kind of text are errors."""
    return {
        "root": [
            (r"[ \t\r\n]+", Whitespace),
            (r"%[^\n]*", Comment.Single),
            (word(types), Keyword.Type),
            (word(SHARED), Keyword.Constant),
            (word(own), Keyword),
            (word(others), Error),
            (NAME + r"(?=\s*::?(?![=:])(?!\s*(?:integer|boolean)\b))", Name.Label),
            (NAME, Name.Variable),
            (r"[0-9]+", Number.Integer),
            (r":=|::|\|\||/\\|\\/|==>|->|!=|<=|>=|<<|>>|[~=<>+*-]", Operator),
            (r"[:;,.()\[\]{}]", Punctuation),
        ]
    }


class SplLexer(RegexLexer):
    """Programs in SPL."""

    name = "SPL"
    aliases = ["spl"]
    filenames = ["*.spl"]
    tokens = rules(OF_PROGRAMS, ("integer", "boolean"), OF_PROOFS)


class SplProofLexer(RegexLexer):
    """Proofs of programs in SPL."""

    name = "SPL proof"
    aliases = ["splproof"]
    filenames = ["*.proof"]
    tokens = rules(OF_PROOFS, ("at",), OF_PROGRAMS)
