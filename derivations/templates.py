"""Templates that are names, literals, lists and filled contexts. One with a host expression or a call of a metafunction in it is passed over:
what it makes is unknown here."""
from data import Symbol
from patterns import with_ellipses
from terms import atom, listed


class Unknown(Exception):
    """What the template makes is not worked out."""


class Faulty(Exception):
    """The template makes no term."""


class Literal:
    """A term as it is."""

    def __init__(self, term):
        self.term = term

    def make(self, binding, turns):
        return self.term

    def turns(self, binding, turns, inside):
        return []


class Name:
    """What a name of this depth stands for."""

    def __init__(self, name, depth):
        self.name, self.depth = name, depth

    def value(self, binding, turns, depth):
        value = binding.pairs[self.name]
        for it in turns[len(turns) - depth :] if depth else ():
            value = value[1][it]
        return value

    def make(self, binding, turns):
        return self.value(binding, turns, self.depth)[1]

    def turns(self, binding, turns, inside):
        if self.depth <= inside:
            return []
        return [len(self.value(binding, turns, self.depth - 1 - inside)[1])]


class Filled:
    """A context, filled."""

    def __init__(self, parts):
        self.parts = parts

    def make(self, binding, turns):
        context, part = (it.make(binding, turns) for it in self.parts)
        if context.is_loose:
            raise Unknown
        if not context.is_context():
            raise Faulty
        return context.fill(part)

    def turns(self, binding, turns, inside):
        return [n for it in self.parts for n in it.turns(binding, turns, inside)]


class Listed:
    """The list of what items make, each a template and whether it is repeated."""

    def __init__(self, items):
        self.items = items

    def make(self, binding, turns):
        terms = []
        for it, is_repeated in self.items:
            if not is_repeated:
                terms.append(it.make(binding, turns))
                continue
            lengths = {*it.turns(binding, turns, 0)}
            if len(lengths) != 1:
                raise Faulty
            terms += [it.make(binding, (*turns, k)) for k in range(*lengths)]
        return listed(terms)

    def turns(self, binding, turns, inside):
        return [n for it, is_repeated in self.items for n in it.turns(binding, turns, inside + is_repeated)]


class TemplateReader:
    """Reads templates, where these names are bound with their depths, in a file with these metafunctions."""

    def __init__(self, metafunctions, depths):
        self.metafunctions, self.depths = metafunctions, depths

    def read(self, datum):
        """The template of a datum."""
        if not isinstance(datum, list):
            is_bound = isinstance(datum, Symbol) and datum in self.depths
            return Name(str(datum), self.depths[datum]) if is_bound else Literal(atom(datum))
        head = datum[0] if datum and isinstance(datum[0], Symbol) else None
        if head == "in-hole":
            return Filled([*map(self.read, datum[1:])])
        is_call = head in self.metafunctions and head not in self.depths
        if head == "unquote-splicing" or (head == "unquote" and len(datum) == 2) or is_call:
            raise Unknown
        return Listed([(self.read(it), ellipsis is not None) for it, ellipsis in with_ellipses(datum)])

    def made(self, datum, binding):
        """The term that the template of a datum makes of a binding."""
        return self.read(datum).make(binding, ())


def host_term(datum, metafunctions):
    """The term that a host expression makes where nothing is bound, or None where it is unknown."""
    if isinstance(datum, list) and datum[:1] == ["term"] and len(datum) == 2:
        try:
            return TemplateReader(metafunctions, {}).read(datum[1]).make(None, ())
        except Unknown:
            return None
    return atom(datum) if isinstance(datum, int) else None
