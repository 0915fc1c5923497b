"""The text of a statement: where its parameters stand, and what can be told of it without reading
it whole. Its tokens are those of the language (docs/GRAMMAR.md), and `?` for a parameter."""
import re

from .errors import ProgrammingError
from .values import literal

# The bytes that a statement may have, and some that stay free for what is written around it.
LONGEST = 65536 - 16
TOKEN = re.compile(
    r"(?P<space>[ \t\n\r]+|--[^\n]*)|(?P<string>'(?:[^']|'')*')|(?P<word>[A-Za-z][A-Za-z0-9_]*)|(?P<number>[0-9]+)|(?P<sign>.)",
    re.DOTALL,
)
# Beside these signs a literal needs no blank; a string beside a string would be one string, and a
# sign behind a minus sign a comment.
NEEDS_NO_BLANK = " \t\n\r(,)=<>"


class Statement:
    """A text with `?` for its parameters, read once and written with values as often as needed."""

    def __init__(self, text):
        if not isinstance(text, str):
            raise ProgrammingError("a statement is a str")
        try:
            text.encode("utf-8")
        except UnicodeEncodeError:
            raise ProgrammingError("a statement has a character that no encoding has") from None
        self.text = text
        self.tokens = one_statement([it for it in TOKEN.finditer(text) if it.lastgroup != "space"])
        self.pieces, self.follows_sign = self._cut()

    @property
    def parameter_count(self):
        return len(self.follows_sign)

    def _cut(self):
        """The pieces of the text between its parameters, with blanks where a literal needs them,
        and for each parameter whether a sign stands before it."""
        pieces, follows_sign, begin = [], [], 0
        for place, token in enumerate(self.tokens):
            if token.group() == "?":
                pieces.append(self.text[begin:token.start()])
                follows_sign.append(place > 0 and self.tokens[place - 1].group() in ("+", "-"))
                begin = token.end()
        pieces.append(self.text[begin:self.end()])
        last = len(pieces) - 1
        return [with_blanks(it, place > 0, place < last) for place, it in enumerate(pieces)], follows_sign

    def end(self):
        """Where the last token ends: what stands behind it may be a comment."""
        return self.tokens[-1].end()

    def written(self, parameters):
        """The text with literals for its parameters."""
        parameters = self.checked(parameters)
        text = [self.pieces[0]]
        for value, follows_sign, piece in zip(parameters, self.follows_sign, self.pieces[1:]):
            written = literal(value)
            # Two signs in a row are no expression.
            text.append("(%s)" % written if follows_sign and written[0] == "-" else written)
            text.append(piece)
        return "".join(text)

    def checked(self, parameters):
        """The parameters, where they are a sequence with as many as the text has."""
        if isinstance(parameters, (str, bytes)) or not hasattr(parameters, "__getitem__") or hasattr(parameters, "keys"):
            raise ProgrammingError("parameters are a sequence, as a tuple or a list")
        if len(parameters) != self.parameter_count:
            raise ProgrammingError("the statement has %d parameters, and %d were given" % (self.parameter_count, len(parameters)))
        return parameters

    def is_query(self):
        return next((it.group().upper() for it in self.tokens if it.group() != "("), "") == "SELECT"

    def is_fetch(self):
        return self.tokens[0].group().upper() == "FETCH"

    def columns(self):
        """The names of the columns of a query, None for one without a name; or None where the text
        is no query, or its columns cannot be told from it (SELECT *)."""
        items = select_items([(it.lastgroup, it.group()) for it in self.tokens])
        return None if items is None or items == [[("sign", "*")]] else [name_of(it) for it in items]

    def rows_of_values(self):
        """Of `INSERT INTO name [(names)] VALUES (..)` with one row of nothing but parameters and
        literals: the text up to the row. None for any other statement."""
        shape = " ".join(shape_of(it) for it in self.tokens)
        found = re.match(r"INSERT INTO word (?:\( word(?: , word)* \) )?VALUES \( ", shape)
        if not found or not re.match(r"source(?: , source)* \)\Z", re.sub(r"[+-] number|number|string|\?|NULL", "source", shape[found.end():])):
            return None
        values = next(it for it in self.tokens if it.group().upper() == "VALUES")
        return self.text[:values.end()]


def one_statement(tokens):
    """The tokens without a `;` at their end, where they are those of one statement that is sent."""
    if tokens and tokens[-1].group() == ";":
        tokens = tokens[:-1]
    if not tokens:
        raise ProgrammingError("there is no statement in the text")
    if tokens[0].group() == "@":
        raise ProgrammingError("a statement does not begin with @: the client chooses the session")
    for token in tokens:
        if token.group() == ";":
            raise ProgrammingError("one statement at a time: a ; stands between two")
        if token.group() == "'":
            raise ProgrammingError("42000 text: a string has no closing quote", "42000", "text")
    return tokens


def with_blanks(piece, is_behind, is_before):
    """A piece of a text with a blank at the ends where a literal stands beside it."""
    if not piece:
        return " " if is_behind and is_before else ""
    before = " " if is_behind and piece[:1] not in NEEDS_NO_BLANK else ""
    behind = " " if is_before and piece[-1:] not in NEEDS_NO_BLANK else ""
    return before + piece + behind


def shape_of(token):
    """A reserved word that an INSERT has as itself, any other by its kind, a sign as itself."""
    text = token.group().upper()
    if token.lastgroup == "word":
        return text if text in ("INSERT", "INTO", "VALUES", "NULL") else "word"
    return token.lastgroup if token.lastgroup in ("string", "number") else text


def select_items(tokens):
    """The tokens of each item of the select list which names a query's columns: the first one. None
    where the text does not begin with one."""
    place = 0
    while place < len(tokens) and tokens[place][1] == "(":
        place += 1
    if place == len(tokens) or tokens[place][1].upper() != "SELECT":
        return None
    place += 1
    if place < len(tokens) and tokens[place][1].upper() in ("ALL", "DISTINCT"):
        place += 1
    items, depth = [[]], 0
    for token in tokens[place:]:
        if depth == 0 and token[1].upper() == "FROM":
            return items
        if depth == 0 and token[1] == ",":
            items.append([])
            continue
        depth += {"(": 1, ")": -1}.get(token[1], 0)
        items[-1].append(token)
    return None


def name_of(item):
    """The name of an item of a select list: the one behind it, or that of the column that it is.

    An expression ends with a name, a number, a string or `)`; so a word behind one of these, or
    behind AS, is a name that was given.
    """
    kind, text = item[-1] if item else ("sign", "")
    if kind != "word":
        return None
    before = item[-2] if len(item) > 1 else None
    is_given = before is not None and (before[0] != "sign" or before[1] == ")")
    is_column = len(item) == 1 or len(item) == 3 and before[1] == "."
    return text.upper() if is_given or is_column else None
