"""Texts of Rattle without the bodies of their functions, for tools/stand_ins."""
import re

WORD = re.compile(r"[A-Za-z_]\w*")
STRING = re.compile(r'b?(r?)(#*)"')
CHARACTER = re.compile(r"'(\\x[0-9a-fA-F]{2}|\\u\{[0-9a-fA-F]+\}|\\.|[^\\'\n])'")
FUNCTION = re.compile(r"fn\s+([A-Za-z_]\w*)")
# Attributes of a function that speak of its body.
OF_BODIES = re.compile(r"#\[\s*(tactic|cycle)\b")
CLAUSES = ("requires", "ensures", "ghost")
# What goes before a function's name, and belongs to it.
QUALIFIERS = ("pub", "unsafe", "extern", "const")
BODY = "{\n    stand_in::nothing();\n    unreachable!()\n}"


def past_text(text, at):
    """Where a comment, a string or a character that begins here ends; here, where none does."""
    if text.startswith("//", at):
        end = text.find("\n", at)
        return len(text) if end < 0 else end
    if text[at] == "'":
        found = CHARACTER.match(text, at)
        return found.end() if found else at
    found = STRING.match(text, at) if not (at and (text[at - 1].isalnum() or text[at - 1] == "_")) else None
    if not found:
        return at
    if found[1]:
        return text.index('"' + found[2], found.end()) + 1 + len(found[2])
    at = found.end()
    while text[at] != '"':
        at += 2 if text[at] == "\\" else 1
    return at + 1


def past_brackets(text, at, opening, closing):
    """Where the brackets that open here are closed, in code."""
    depth = 0
    while True:
        end = past_text(text, at)
        if end > at:
            at = end
            continue
        depth += (text[at] == opening) - (text[at] == closing)
        at += 1
        if depth == 0:
            return at


def past_clause(text, at):
    """Where the braces of a clause that open at or behind this place are closed."""
    at = text.index("{", at)
    depth = 0
    while True:
        depth += (text[at] == "{") - (text[at] == "}")
        at = text.index('"', at + 1) + 1 if text[at] == '"' else at + 1
        if depth == 0:
            return at


def head_of(text, at):
    """Where the body of a function begins of which the parameters begin here, and where it ends; or
    None and where the function without a body ends."""
    depth = 0
    while True:
        end, word = past_text(text, at), WORD.match(text, at)
        if end > at:
            at = end
        elif word:
            at = past_clause(text, at) if depth == 0 and word[0] in CLAUSES else word.end()
        elif depth == 0 and text[at] == "{":
            return at, past_brackets(text, at, "{", "}")
        elif depth == 0 and text[at] == ";":
            return None, at + 1
        else:
            depth += (text[at] in "([") - (text[at] in ")]")
            at += 1


class Reader:
    """Reads a text from its beginning, and notes which parts go and what stands in their place."""

    def __init__(self, text, named):
        self.text, self.named, self.at, self.edits = text, named, 0, []
        # of the braces that are open, whether a function in them belongs to a trait
        self.open, self.opens_trait = [], False
        self.forget()

    def forget(self):
        """What came last is no beginning of an item."""
        self.begun, self.attributes, self.is_public = None, [], False

    def begin(self):
        self.begun = self.at if self.begun is None else self.begun

    def put(self, begin, end, new=""):
        self.edits.append((begin, end, new))

    def read(self):
        while self.at < len(self.text):
            end = past_text(self.text, self.at)
            word = WORD.match(self.text, self.at)
            if end > self.at:
                self.at = end
            elif self.text.startswith("#[", self.at):
                self.read_attribute()
            elif word:
                self.read_word(word[0], word.end())
            else:
                self.read_sign(self.text[self.at])
        for begin, end, new in sorted(self.edits, reverse=True):
            self.text = self.text[:begin] + new + self.text[end:]
        return self.text

    def read_attribute(self):
        self.begin()
        end = past_brackets(self.text, self.at + 1, "[", "]")
        self.attributes.append((self.at, end))
        self.at = end

    def read_sign(self, sign):
        if sign == "{":
            self.open.append(self.opens_trait)
            self.opens_trait = False
        elif sign == "}":
            self.open.pop()
        if not sign.isspace():
            self.forget()
        self.at += 1

    def read_word(self, word, end):
        if FUNCTION.match(self.text, self.at):
            self.read_function()
        elif word in QUALIFIERS:
            self.begin()
            self.is_public = self.is_public or word == "pub"
            scope = re.compile(r"\s*\([^)]*\)").match(self.text, end) if word == "pub" else None
            self.at = scope.end() if scope else end
        else:
            self.forget()
            self.at = self.past_word(word, end)

    def past_word(self, word, end):
        """Where to go on behind a word that begins no function."""
        if word == "impl":
            brace = self.text.index("{", end)
            self.opens_trait = re.search(r"\bfor\b", self.text[end:brace]) is not None
            return brace
        if word == "trait":
            self.opens_trait = True
        if word == "ghost":
            return self.past_ghost(end)
        if word == "invariant":
            return past_clause(self.text, end)
        if word == "macro_rules":
            return past_brackets(self.text, self.text.index("{", end), "{", "}")
        return end

    def past_ghost(self, at):
        """Where a ghost member, or an import, ends."""
        while self.text[at] not in ";,":
            at = past_clause(self.text, at) if self.text[at] == "{" else at + 1
        return at + 1

    def read_function(self):
        name = FUNCTION.match(self.text, self.at)
        self.begin()
        body, end = head_of(self.text, name.end())
        belongs = self.is_public or bool(self.open) and self.open[-1] or name[1] in self.named
        if body is not None and not belongs:
            self.put(self.begun, end)
        else:
            for begin, after in self.attributes:
                if OF_BODIES.match(self.text, begin):
                    self.put(begin, after)
            if body is not None:
                self.put(body, end, BODY)
        self.forget()
        self.at = end


def without_bodies(text, named):
    """The text of a file without docs, without the bodies of its functions, and without the private
    functions that are not among the named ones."""
    return Reader(re.sub(r"(?m)^[ \t]*///.*\n", "", text), named).read()
