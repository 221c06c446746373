"""Terms. There is one of each, so that equal ones are the same. A list has as its mark the place of the item with its hole, or None; a list
that is read from a printed text, where no marks stand, has UNKNOWN where it has several holes."""
from data import Reader, Text

UNKNOWN = "?"
ESCAPED = str.maketrans({'"': '\\"', "\\": "\\\\", "\n": "\\n", "\t": "\\t", "\r": "\\r"})


def string_text(string):
    """A string as it is printed."""
    return f'"{string.translate(ESCAPED)}"'


class Term:
    """A term: its kind, its value where it is no list, and its items and its mark where it is one."""

    __slots__ = ("kind", "value", "items", "mark", "holes", "is_loose", "printed", "unmarked")
    made = {}

    def __init__(self, kind, value, items, mark):
        self.kind, self.value, self.items, self.mark = kind, value, items, mark
        self.holes = sum(it.holes for it in items) if kind == "list" else int(kind == "hole")
        self.is_loose = mark == UNKNOWN or any(it.is_loose for it in items)
        self.printed = self.unmarked = None

    def text(self):
        """The term as it is printed."""
        if self.printed is None:
            if self.kind == "list":
                self.printed = "(" + " ".join([it.text() for it in self.items]) + ")"
            elif self.kind == "truth":
                self.printed = "#t" if self.value else "#f"
            else:
                self.printed = string_text(self.value) if self.kind == "string" else str(self.value)
        return self.printed

    def bare(self):
        """The term without its marks."""
        if self.unmarked is None:
            self.unmarked = self if self.kind != "list" else marked(None, [it.bare() for it in self.items])
        return self.unmarked

    def is_context(self):
        """Whether the term is a context, as far as its marks are known."""
        return self.kind == "hole" or self.mark is not None

    def path(self):
        """The places of the items on the way to the hole of a context."""
        places, term = [], self
        while term.kind == "list" and term.mark not in (None, UNKNOWN):
            places.append(term.mark)
            term = term.items[term.mark]
        return places

    def fill(self, part):
        """This context with the part in place of its hole."""
        if self.kind == "hole":
            return part
        inner = self.items[self.mark].fill(part)
        return at_place(self.items, self.mark, inner) if inner.is_context() else listed(put(self.items, self.mark, inner))

    def open(self, path):
        """This term, of which the holes alone are known, as a context with such a path; None where there is no hole."""
        if not path:
            return self if self.kind == "hole" else None
        if self.kind != "list" or path[0] >= len(self.items):
            return None
        inner = self.items[path[0]].open(path[1:])
        return inner and marked(path[0], put(self.items, path[0], inner))


def kept(kind, value, items, mark):
    """The one such term."""
    key = kind, value, items, mark
    term = Term.made.get(key)
    if term is None:
        term = Term.made[key] = Term(kind, value, items, mark)
    return term


HOLE = kept("hole", "hole", (), None)


def atom(value):
    """The term of an integer, a truth value, a string or a symbol."""
    if isinstance(value, bool):
        return kept("truth", value, (), None)
    if isinstance(value, int):
        return kept("integer", value, (), None)
    if isinstance(value, Text):
        return kept("string", str(value), (), None)
    return HOLE if value == "hole" else kept("symbol", str(value), (), None)


FALSE = atom(False)


def marked(mark, items):
    """The list with this mark."""
    return kept("list", None, tuple(items), mark)


def put(items, place, term):
    """The items with the term at this place."""
    return (*items[:place], term, *items[place + 1 :])


def at_place(items, place, inner):
    """The list of the items with a context in place of one, which is marked; its mark is unknown where it is unknown whether that is one."""
    return marked(UNKNOWN if inner.mark == UNKNOWN else place, put(items, place, inner))


def listed(items):
    """The list that a template makes: it is marked where it has exactly one hole."""
    items = tuple(items)
    counts = [it.holes for it in items]
    return marked(counts.index(1) if sum(counts) == 1 else None, items)


def plain(datum):
    """The term of a datum."""
    return listed([plain(it) for it in datum]) if isinstance(datum, list) else atom(datum)


def loose(datum):
    """The term of a datum that was printed: where a list has several holes, its mark is unknown."""
    if not isinstance(datum, list):
        return atom(datum)
    term = listed([loose(it) for it in datum])
    return marked(UNKNOWN, term.items) if term.holes > 1 else term


def printed_term(text):
    """The term that a text prints."""
    return loose(Reader(text).datum())


def may_equal(a, b):
    """Whether the terms are equal, as far as their marks are known."""
    return a is b or ((a.is_loose or b.is_loose) and a.bare() is b.bare())


def must_equal(a, b):
    """Whether the terms are equal, whatever marks are unknown."""
    return a is b and not a.is_loose
