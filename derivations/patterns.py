"""Patterns, as data are read as such in a language."""
from dataclasses import dataclass
from functools import cached_property

from data import Symbol
from terms import Term, atom

KINDS = frozenset(["any", "number", "natural", "integer", "real", "string", "boolean", "variable", "variable-not-otherwise-mentioned"])


@dataclass(eq=False)
class Pattern:
    """A pattern: of which kind, its name (of a built-in pattern, a nonterminal or a name), its symbols, its literal, its inner patterns, and
    the items of a list."""

    kind: str
    name: str = ""
    symbols: tuple = ()
    term: Term = None
    inner: tuple = ()
    items: tuple = ()

    @cached_property
    def names(self):
        """The names that the pattern binds, with their depths."""
        names = {}
        for it in self.inner:
            names.update(it.names)
        for it in self.items:
            names.update({x: depth + it.is_repeated for x, depth in it.pattern.names.items()})
            if it.length_name:
                names[it.length_name] = 0
        if self.kind == "name":
            names[self.name] = 0
        return names


@dataclass(eq=False)
class Item:
    """An item of a list pattern, which may be repeated, and may have a name for the number of its turns."""

    pattern: Pattern
    is_repeated: bool = False
    length_name: str = None


WILD, HOLE = Pattern("_"), Pattern("hole")


def is_ellipsis(datum):
    """Whether the datum is an ellipsis, with or without a name."""
    return isinstance(datum, Symbol) and (datum == "..." or datum.startswith("..._"))


def with_ellipses(data):
    """The data that are no ellipses, each with the ellipsis behind it, or with None."""
    pairs = []
    for it in data:
        if is_ellipsis(it) and pairs and pairs[-1][1] is None:
            pairs[-1] = pairs[-1][0], it
        else:
            pairs.append((it, None))
    return pairs


def list_pattern(items):
    """The pattern of lists by these items."""
    return Pattern("list", items=tuple(items))


def nonterminal(reference):
    """The pattern of the nonterminal of this name; of the cross nonterminal from x to y for a pair of them."""
    return Pattern("nonterminal", reference)


class PatternReader:
    """Reads patterns over these nonterminals, where names without a suffix bind, or, in the alternatives of a language, do not."""

    def __init__(self, nonterminals, binds=True):
        self.nonterminals, self.binds = nonterminals, binds

    def base(self, symbol):
        """The built-in pattern or the nonterminal of this name, or None."""
        if symbol in KINDS:
            return Pattern("kind", str(symbol))
        return nonterminal(str(symbol)) if symbol in self.nonterminals else None

    def symbol(self, symbol):
        """The pattern of a symbol."""
        if symbol == "_":
            return WILD
        if symbol == "hole":
            return HOLE
        base = self.base(symbol)
        if base:
            return Pattern("name", str(symbol), inner=(base,)) if self.binds else base
        front, underscore, suffix = symbol.partition("_")
        if not underscore:
            return Pattern("literal", term=atom(symbol))
        return Pattern("mismatch" if suffix.startswith("!_") else "name", str(symbol), inner=(self.base(front),))

    def items(self, data):
        """The items of a list pattern."""
        for it, ellipsis in with_ellipses(data):
            name = str(ellipsis) if ellipsis and ellipsis != "..." else None
            yield Item(self.pattern(it), ellipsis is not None, name)

    def pattern(self, datum):
        """The pattern that a datum stands for."""
        if isinstance(datum, Symbol):
            return self.symbol(datum)
        if not isinstance(datum, list):
            return Pattern("literal", term=atom(datum))
        head = datum[0] if datum and isinstance(datum[0], Symbol) else ""
        if head == "name":
            return Pattern("name", str(datum[1]), inner=(self.pattern(datum[2]),))
        if head in ("in-hole", "hide-hole"):
            return Pattern(str(head), inner=tuple(map(self.pattern, datum[1:])))
        if head in ("variable-except", "variable-prefix"):
            return Pattern(str(head), symbols=tuple(map(str, datum[1:])))
        if head == "cross":
            return nonterminal((str(datum[1]), str(datum[1])))
        return list_pattern(self.items(datum))

    def separate(self, data):
        """The pattern of lists with an item for each of these, none of which stands under an ellipsis."""
        return list_pattern(Item(self.pattern(it)) for it in data)
