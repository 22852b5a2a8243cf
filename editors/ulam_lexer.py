"""Lexers of Pygments for element files and worlds of feast.

    pygmentize -x -l editors/ulam_lexer.py:UlamLexer examples/fence.ulam
"""
from pygments.lexer import RegexLexer, bygroups, words
from pygments.token import Comment, Error, Keyword, Name, Number, Operator, Punctuation, Whitespace

__all__ = ["UlamLexer", "WorldLexer"]


class UlamLexer(RegexLexer):
    """Element files, in feast's subset of Ulam."""

    name = "Ulam"
    aliases = ["ulam"]
    filenames = ["*.ulam"]
    tokens = {
        "root": [
            (r"\s+", Whitespace),
            (r"//[^\n]*", Comment.Single),
            (r"/\*\*(?!/)", Comment.Special, "doc"),
            (r"/\*", Comment.Multiline, "comment"),
            (words(("element", "quark", "typedef", "constant"), prefix=r"\b", suffix=r"\b"), Keyword.Declaration),
            (words(("ulam", "use"), prefix=r"\b", suffix=r"\b"), Keyword.Namespace),
            (words(("if", "else", "while", "for", "return", "break", "continue"), prefix=r"\b", suffix=r"\b"), Keyword),
            (words(("is", "as", "instanceof"), prefix=r"\b", suffix=r"\b"), Operator.Word),
            (words(("true", "false", "self"), prefix=r"\b", suffix=r"\b"), Keyword.Constant),
            (r"\bvirtual(?=\s+[A-Z])", Keyword.Reserved),
            (words(("Int", "Unsigned", "Bits", "Bool", "Unary", "Atom", "Void", "EventWindow", "Random", "Empty"),
                   prefix=r"\b", suffix=r"\b"), Keyword.Type),
            (r"[A-Z][A-Za-z0-9_]*", Name.Class),
            (r"(?:0x[0-9a-fA-F]+|0b[01]+|0|[1-9][0-9]*)u?(?![A-Za-z0-9_])", Number),
            (r"[a-z_][A-Za-z0-9_]*(?=\s*\()", Name.Function),
            (r"[a-z_][A-Za-z0-9_]*", Name.Variable),
            (r"<<=|>>=|&&|\|\||<<|>>|\+\+|--|[-+*/%&|^=!<>]=|[-+*/%&|^=!<>~]", Operator),
            (r"[{}()\[\];:,.]", Punctuation),
            (r".", Error),
        ],
        "comment": [(r"\*/", Comment.Multiline, "#pop"), (r"[^*]+|\*", Comment.Multiline)],
        "doc": [
            (r"\*/", Comment.Special, "#pop"),
            (r"(\\color\s+)(#[0-9a-fA-F]{6})\b", bygroups(Comment.Preproc, Comment.PreprocFile)),
            (r"(\\symbol\s+)(\S{1,3})", bygroups(Comment.Preproc, Comment.PreprocFile)),
            (r"[^*\\]+|[*\\]", Comment.Special),
        ],
    }


class WorldLexer(RegexLexer):
    """Worlds."""

    name = "feast world"
    aliases = ["feast-world"]
    filenames = ["*.world"]
    tokens = {
        "root": [
            (r"\s+", Whitespace),
            (r"^#[^\n]*", Comment.Single),
            (r"^(?:feast|tiles|size|off|seed|attempts|try|atom|order)\b|(?<=order )seed\b", Keyword),
            (r"[A-Z][A-Za-z0-9_]*", Name.Class),
            (r"\b(?:[0-9a-f]{18}|[0-9a-f]{16})(?= *$)", Number.Hex),
            (r"(?:0|[1-9][0-9]*)\b", Number),
            (r".", Error),
        ],
    }
