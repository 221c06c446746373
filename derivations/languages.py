"""Languages: nonterminals with their alternatives, and the cross nonterminals, which no form writes."""
from itertools import takewhile

from data import Keyword, Symbol
from patterns import HOLE, Item, Pattern, PatternReader, list_pattern, nonterminal


def unnamed(pattern):
    """The pattern without its names, its mismatch names and its names of lengths."""
    if pattern.kind in ("name", "mismatch"):
        return unnamed(pattern.inner[0])
    items = tuple(Item(unnamed(it.pattern), it.is_repeated) for it in pattern.items)
    return Pattern(pattern.kind, pattern.name, pattern.symbols, pattern.term, tuple(map(unnamed, pattern.inner)), items)


def crossed(pattern, end):
    """The patterns in which one nonterminal of this one, which has no names, is changed for the contexts from it to this end."""
    if pattern.kind == "nonterminal" and isinstance(pattern.name, str):
        yield nonterminal((pattern.name, end))
    if pattern.kind == "list":
        for k, it in enumerate(pattern.items):
            around = [it] if it.is_repeated else []
            for changed in crossed(it.pattern, end):
                yield list_pattern([*pattern.items[:k], *around, Item(changed), *around, *pattern.items[k + 1 :]])


def literals(pattern):
    """The symbols that the pattern has as literals, however deep."""
    if pattern.kind == "literal" and pattern.term.kind == "symbol":
        yield pattern.term.value
    for it in (*pattern.inner, *(it.pattern for it in pattern.items)):
        yield from literals(it)


class Language:
    """A language, by its nonterminals with their alternatives."""

    def __init__(self, nonterminals):
        self.nonterminals = nonterminals
        self.crosses = {}
        self.mentioned = {it for alternatives in nonterminals.values() for p in alternatives for it in literals(p)}

    def reader(self):
        """What reads the patterns of forms in this language."""
        return PatternReader(self.nonterminals)

    def alternatives(self, reference):
        """The alternatives of a nonterminal, or of a cross nonterminal, which is a pair."""
        if isinstance(reference, str):
            return self.nonterminals.get(reference, ())
        if reference not in self.crosses:
            start, end = reference
            ways = [it for p in self.alternatives(start) for it in crossed(unnamed(p), end)]
            self.crosses[reference] = [HOLE] * (start == end) + ways
        return self.crosses[reference]


def definition(datum):
    """The names that a definition gives alternatives, and these, as data."""
    for k, it in enumerate(datum):
        if not isinstance(it, Symbol):
            break
        if it == "::=" and k:
            return datum[:k], datum[k + 1 :]
    return datum[0] if isinstance(datum[0], list) else datum[:1], datum[1:]


def is_inherited(datum):
    """Whether an alternative stands for those that a nonterminal has already."""
    return isinstance(datum, Symbol) and datum == "...."


def language_of(base, definitions):
    """The language with these definitions, as data, behind which binding forms may stand; it extends a base, or None."""
    old = base.nonterminals if base else {}
    new = [definition(it) for it in takewhile(lambda it: not isinstance(it, Keyword), definitions)]
    reader = PatternReader({*old, *(x for names, _ in new for x in names)}, binds=False)
    nonterminals = dict(old)
    for names, data in new:
        for x in names:
            nonterminals[str(x)] = [p for it in data for p in (old[x] if is_inherited(it) else [reader.pattern(it)])]
    return Language(nonterminals)
