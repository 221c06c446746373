"""Reading a file: its data, as docs/language.md tells. Lists are lists, integers and truth values those of Python."""

WHITE = frozenset("\t\n\v\f\r \x85\xa0\u1680\u2028\u2029\u202f\u205f\u3000" + "".join(map(chr, range(0x2000, 0x200B))))
CLOSING = {"(": ")", "[": "]", "{": "}"}
ENDS = WHITE | frozenset("()[]{}\",'`;")
MARKS = {"'": "quote", "`": "quasiquote", ",": "unquote", ",@": "unquote-splicing"}
ESCAPES = {'"': '"', "\\": "\\", "n": "\n", "t": "\t", "r": "\r"}


class Symbol(str):
    """A symbol, by its text."""


class Keyword(str):
    """A keyword, by its text behind `#:`."""


class Text(str):
    """A string."""


class Unread(Exception):
    """The text is no data."""


def integer_of(token):
    """The integer that a token is, or None."""
    digits = token[1:] if token[0] in "+-" else token
    return int(token) if digits and digits.isascii() and digits.isdigit() else None


def is_symbol(text):
    """Whether the whole text is one token, and that a symbol."""
    if not text or any(it in ENDS for it in text) or "|" in text or "\\" in text or text[0] == "#":
        return False
    rest = text[1:] if text[0] in "+-" else text
    rest = rest[1:] if rest[:1] == "." else rest
    return text not in (".", "+inf.0", "-inf.0", "+nan.0") and rest[:1] not in [*"0123456789"]


def atom_of(token):
    """The integer, truth value, keyword or symbol that a token is."""
    if token in ("#t", "#true", "#f", "#false"):
        return token[1] == "t"
    if token.startswith("#:") and len(token) > 2:
        return Keyword(token[2:])
    number = integer_of(token)
    if number is not None:
        return number
    if not is_symbol(token):
        raise Unread(f"no token: {token}")
    return Symbol(token)


class Reader:
    """Reads data from a text, from a place on."""

    def __init__(self, text, at=0):
        self.text, self.at = text, at

    def skip_nested(self):
        """Skips a comment between `#|` and `|#`."""
        depth = 0
        while True:
            two = self.text[self.at : self.at + 2]
            if len(two) < 2:
                raise Unread("an open comment")
            depth += (two == "#|") - (two == "|#")
            self.at += 2 if two in ("#|", "|#") else 1
            if not depth:
                return

    def skip(self):
        """Skips white space and comments."""
        text = self.text
        while self.at < len(text):
            two = text[self.at : self.at + 2]
            if two[0] in WHITE:
                self.at += 1
            elif two[0] == ";":
                end = text.find("\n", self.at)
                self.at = len(text) if end < 0 else end
            elif two == "#|":
                self.skip_nested()
            elif two == "#;":
                self.at += 2
                self.datum()
            else:
                return

    def token(self):
        """The token that begins here."""
        start = self.at
        while self.at < len(self.text) and self.text[self.at] not in ENDS:
            self.at += 1
        return self.text[start : self.at]

    def string(self):
        """The string behind the mark that opens it."""
        pieces, text = [], self.text
        while True:
            self.at += 1
            c = text[self.at : self.at + 1]
            if c == "\\":
                self.at += 1
                c = ESCAPES.get(text[self.at : self.at + 1], "")
            elif c == '"':
                self.at += 1
                return Text("".join(pieces))
            if not c:
                raise Unread("no string")
            pieces.append(c)

    def items(self, close):
        """The items of a list, up to the bracket that closes it."""
        items = []
        while True:
            self.skip()
            c = self.text[self.at : self.at + 1]
            if c == close:
                self.at += 1
                return items
            items.append(self.datum())

    def datum(self):
        """The datum behind white space and comments."""
        self.skip()
        c = self.text[self.at : self.at + 1]
        if c in CLOSING:
            self.at += 1
            return self.items(CLOSING[c])
        if c == '"':
            return self.string()
        if c in MARKS:
            mark = ",@" if self.text.startswith(",@", self.at) else c
            self.at += len(mark)
            return [Symbol(MARKS[mark]), self.datum()]
        token = self.token()
        if not token:
            raise Unread(f"no datum at {self.at}")
        return atom_of(token)


def file_data(text):
    """The data of a file."""
    first, _, rest = text.partition("\n")
    if first.rstrip(" \t\r") in ("#lang racket", "#lang racket/base"):
        text = rest
    reader, data = Reader(text), []
    while True:
        reader.skip()
        if reader.at == len(text):
            return data
        data.append(reader.datum())
