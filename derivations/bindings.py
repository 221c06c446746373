"""Bindings: what names stand for, and which terms stand under a mismatch name. A value is ("one", term), ("many", values) or
("length", number)."""
from terms import UNKNOWN, may_equal, must_equal


class Binding:
    """Names with their values, and mismatch names with their terms."""

    __slots__ = ("pairs", "sets", "key")

    def __init__(self, pairs=(), sets=()):
        self.pairs, self.sets = dict(pairs), dict(sets)
        self.key = frozenset(self.pairs.items()), frozenset((x, frozenset(ts)) for x, ts in self.sets.items())

    def __eq__(self, other):
        return self.key == other.key

    def __hash__(self):
        return hash(self.key)

    def visible(self):
        """The binding without its mismatch names."""
        return Binding(self.pairs) if self.sets else self

    def text(self):
        """The binding as an answer prints it."""
        pairs = sorted(self.pairs.items(), key=lambda it: it[0].encode())
        return ", ".join(f"{x} = {value_text(v)}" for x, v in pairs) or "-"


NOTHING = Binding()


def path_text(term):
    """The path of a context between square brackets."""
    return "[" + " ".join(map(str, term.path())) + "]"


def term_text(term):
    """A term with its path, where it is a list that is marked and has several holes."""
    if term.kind == "list" and term.mark is not None and term.holes > 1:
        return f"{term.text()} at {UNKNOWN if term.is_loose else path_text(term)}"
    return term.text()


def value_text(value):
    """A value as it is printed."""
    kind, what = value
    if kind == "one":
        return term_text(what)
    return str(what) if kind == "length" else "[" + " ".join(map(value_text, what)) + "]"


def values_equal(v, w):
    """Whether two values are equal, as far as marks are known."""
    if v == w:
        return True
    if v[0] != w[0] or v[0] == "length":
        return False
    if v[0] == "one":
        return may_equal(v[1], w[1])
    return len(v[1]) == len(w[1]) and all(map(values_equal, v[1], w[1]))


def gathered(sets, more):
    """The terms under mismatch names with more of them, or None where two that must differ are equal."""
    sets = dict(sets)
    for x, terms in more.items():
        old = sets.get(x, ())
        if any(must_equal(t, u) for t in terms for u in old):
            return None
        sets[x] = old + terms
    return sets


def join(b, c):
    """The join of two bindings, or None where there is none."""
    if c == NOTHING:
        return b
    pairs = dict(b.pairs)
    for x, v in c.pairs.items():
        if not values_equal(pairs.setdefault(x, v), v):
            return None
    sets = gathered(b.sets, c.sets)
    return None if sets is None else Binding(pairs, sets)


def joins(bs, c):
    """The joins of bindings with this one, where there are such."""
    return {d for b in bs if (d := join(b, c)) is not None}


def repetition(names, turns, length_name):
    """What a repetition binds by what its turns bind, or None."""
    sets = {}
    for b in turns:
        sets = gathered(sets, b.sets)
        if sets is None:
            return None
    pairs = {x: ("many", tuple(b.pairs[x] for b in turns)) for x in names}
    return join(Binding(pairs, sets), Binding({length_name: ("length", len(turns))} if length_name else ()))
