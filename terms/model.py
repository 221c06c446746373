"""Terms, patterns and the rules of matching and splitting, worked out anew and apart from the program.

A term is ('hole',), ('integer', n), ('truth', b), ('string', s), ('symbol', s) or ('list', mark, items), where the mark is the
place of the item with the hole, or None. A pattern is a tuple that begins with its kind; an item of a list pattern is a pair of
a pattern and None, or a pattern and the name of its length, '' where it has none.
"""
import itertools

HOLE = ('hole',)
ORDER = {'hole': 0, 'integer': 1, 'truth': 2, 'string': 3, 'symbol': 4, 'list': 5}


def holes(term):
    if term == HOLE:
        return 1
    return sum(map(holes, term[2])) if term[0] == 'list' else 0


def listed(items):
    """The list of these items, marked at the one hole where it has just one."""
    items = tuple(items)
    counts = [holes(item) for item in items]
    return ('list', counts.index(1) if sum(counts) == 1 else None, items)


def bare(term):
    """The term without its marks."""
    return ('list', None, tuple(map(bare, term[2]))) if term[0] == 'list' else term


def is_context(term):
    if term == HOLE:
        return True
    return term[0] == 'list' and term[1] is not None and is_context(term[2][term[1]])


def fill(context, part):
    if context == HOLE:
        return part
    if context[0] != 'list' or context[1] is None:
        return context
    place = context[1]
    items = tuple(fill(item, part) if k == place else item for k, item in enumerate(context[2]))
    return ('list', place, items) if is_context(items[place]) else listed(items)


def nodes(term):
    return 1 + sum(map(nodes, term[2])) if term[0] == 'list' else 1


def key(term):
    """By what terms are ordered."""
    kind = ORDER[term[0]]
    if term[0] == 'list':
        return (kind, tuple(map(key, term[2])), -1 if term[1] is None else term[1])
    if term == HOLE:
        return (kind,)
    return (kind, term[1].encode() if term[0] in ('string', 'symbol') else term[1])


def text(term):
    kind = term[0]
    if kind == 'list':
        return '(' + ' '.join(map(text, term[2])) + ')'
    if kind == 'truth':
        return '#t' if term[1] else '#f'
    if kind == 'string':
        return '"' + term[1] + '"'
    return 'hole' if kind == 'hole' else str(term[1])


class Binding:
    """What names stand for, and which terms stand under which mismatch names."""

    def __init__(self, names=(), sets=()):
        self.names, self.sets = dict(names), dict(sets)

    def __eq__(self, other):
        return self.names == other.names and self.sets == other.sets

    def __hash__(self):
        return hash((frozenset(self.names.items()), frozenset(self.sets.items())))


def join(one, other):
    """Both together; None where a name would stand for two values, or a term twice under a mismatch name."""
    if one is None or other is None:
        return None
    names = dict(one.names)
    for name, value in other.names.items():
        if names.setdefault(name, value) != value:
            return None
    sets = dict(one.sets)
    for name, terms in other.sets.items():
        if sets.get(name, frozenset()) & terms:
            return None
        sets[name] = sets.get(name, frozenset()) | terms
    return Binding(names, sets)


def names_in(pattern):
    kind = pattern[0]
    if kind == 'name':
        return {pattern[1]} | names_in(pattern[2])
    if kind == 'differ':
        return names_in(pattern[2])
    if kind == 'in-hole':
        return names_in(pattern[1]) | names_in(pattern[2])
    if kind == 'hide-hole':
        return names_in(pattern[1])
    if kind == 'list':
        lengths = {length for _, length in pattern[1] if length}
        return lengths.union(*(names_in(item) for item, _ in pattern[1]))
    return set()


def literals(pattern):
    kind = pattern[0]
    if kind == 'literal':
        yield pattern[1]
    elif kind in ('name', 'differ'):
        yield from literals(pattern[2])
    elif kind == 'in-hole':
        yield from literals(pattern[1])
        yield from literals(pattern[2])
    elif kind == 'hide-hole':
        yield from literals(pattern[1])
    elif kind == 'list':
        for item, _ in pattern[1]:
            yield from literals(item)


class Matching:
    """Matches and splits by the patterns of a language, a dictionary from nonterminals to alternatives."""

    def __init__(self, language):
        self.language = language
        self.mentioned = {u[1] for ps in language.values() for p in ps for u in literals(p) if u[0] == 'symbol'}
        self.matched, self.divided = {}, {}

    def is_of_kind(self, pattern, term):
        kind, of = pattern[1], term[0]
        if kind in ('any', '_'):
            return True
        if kind in ('number', 'integer', 'real'):
            return of == 'integer'
        if kind == 'natural':
            return of == 'integer' and term[1] >= 0
        if kind == 'string':
            return of == 'string'
        if kind == 'boolean':
            return of == 'truth'
        if of != 'symbol':
            return False
        if kind == 'variable':
            return True
        if kind == 'variable-not-otherwise-mentioned':
            return term[1] not in self.mentioned
        if kind == 'variable-except':
            return term[1] not in pattern[2]
        if kind == 'variable-prefix':
            return term[1].startswith(pattern[2])
        raise ValueError(kind)

    def matches(self, pattern, term):
        if (pattern, term) not in self.matched:
            self.matched[pattern, term] = frozenset(self.match(pattern, term))
        return self.matched[pattern, term]

    def match(self, pattern, term):
        kind = pattern[0]
        if kind == 'kind':
            return {Binding()} if self.is_of_kind(pattern, term) else ()
        if kind == 'hole':
            return {Binding()} if term == HOLE else ()
        if kind == 'literal':
            return {Binding()} if bare(term) == bare(pattern[1]) else ()
        if kind == 'nonterminal':
            return {Binding()} if any(self.matches(p, term) for p in self.language[pattern[1]]) else ()
        if kind == 'name':
            return self.joined(self.matches(pattern[2], term), Binding({pattern[1]: term}))
        if kind == 'differ':
            return self.joined(self.matches(pattern[2], term), Binding((), {pattern[1]: frozenset([term])}))
        if kind == 'hide-hole':
            return self.matches(pattern[1], term)
        if kind == 'in-hole':
            return {b for _, part, one in self.splits(pattern[1], term)
                    for other in self.matches(pattern[2], part) for b in [join(one, other)] if b}
        return self.match_items(pattern[1], term[2]) if term[0] == 'list' else ()

    def joined(self, bindings, other):
        return {b for one in bindings for b in [join(one, other)] if b}

    def turns(self, pattern, length, choices):
        """The bindings of a repetition, one for each choice of a binding for each turn."""
        for chosen in itertools.product(*choices):
            sets = Binding()
            for one in chosen:
                sets = join(sets, Binding((), one.sets))
            if sets is None:
                continue
            found = Binding({x: tuple(one.names[x] for one in chosen) for x in names_in(pattern)}, sets.sets)
            found = join(found, Binding({length: len(chosen)})) if length else found
            if found:
                yield found

    def match_items(self, items, terms):
        if not items:
            return {Binding()} if not terms else set()
        (pattern, length), rest = items[0], items[1:]
        if length is None:
            if not terms:
                return set()
            return {b for one in self.matches(pattern, terms[0])
                    for other in self.match_items(rest, terms[1:]) for b in [join(one, other)] if b}
        found = set()
        for n in range(len(terms) + 1):
            behind = self.match_items(rest, terms[n:])
            for one in self.turns(pattern, length, [self.matches(pattern, t) for t in terms[:n]]) if behind else ():
                found |= self.joined(behind, one)
        return found

    def splits(self, pattern, term):
        if (pattern, term) not in self.divided:
            self.divided[pattern, term] = frozenset(self.split(pattern, term))
        return self.divided[pattern, term]

    def split(self, pattern, term):
        kind = pattern[0]
        if kind in ('kind', 'literal', 'hide-hole'):
            return
        if kind == 'hole':
            yield HOLE, term, Binding()
        elif kind == 'nonterminal':
            for p in self.language[pattern[1]]:
                for context, part, _ in self.splits(p, term):
                    yield context, part, Binding()
        elif kind in ('name', 'differ'):
            for context, part, one in self.splits(pattern[2], term):
                named = {pattern[1]: context} if kind == 'name' else ()
                apart = {pattern[1]: frozenset([context])} if kind == 'differ' else ()
                found = join(one, Binding(named, apart))
                if found:
                    yield context, part, found
        elif kind == 'in-hole':
            for outer, middle, one in self.splits(pattern[1], term):
                for inner, part, other in self.splits(pattern[2], middle):
                    found = join(one, other)
                    if found:
                        yield fill(outer, inner), part, found
        elif term[0] == 'list':
            for place, context, part, found in self.split_items(pattern[1], term[2]):
                items = term[2][:place] + (context,) + term[2][place + 1:]
                yield ('list', place, items), part, found

    def split_items(self, items, terms):
        if not items:
            return
        (pattern, length), rest = items[0], items[1:]
        if length is None:
            if not terms:
                return
            for context, part, one in self.splits(pattern, terms[0]):
                for found in self.joined(self.match_items(rest, terms[1:]), one):
                    yield 0, context, part, found
            for one in self.matches(pattern, terms[0]):
                for place, context, part, other in self.split_items(rest, terms[1:]):
                    found = join(one, other)
                    if found:
                        yield place + 1, context, part, found
            return
        for n in range(len(terms) + 1):
            choices = [self.matches(pattern, t) for t in terms[:n]]
            behind = self.match_items(rest, terms[n:])
            for place in range(n) if behind else ():
                for context, part, one in self.splits(pattern, terms[place]):
                    for turns in self.turns(pattern, length, choices[:place] + [[one]] + choices[place + 1:]):
                        for found in self.joined(behind, turns):
                            yield place, context, part, found
            further = list(self.split_items(rest, terms[n:]))
            for turns in self.turns(pattern, length, choices) if further else ():
                for place, context, part, other in further:
                    found = join(turns, other)
                    if found:
                        yield n + place, context, part, found


# ---- all terms up to a size

COMMON = [HOLE, ('integer', 0), ('integer', 1), ('truth', False), ('truth', True), ('string', ''), ('symbol', 'a'), ('symbol', 'b')]


def pool(language):
    """The atoms of which the terms of a language are built: some of each kind, and its literals."""
    return set(COMMON) | {u for patterns in language.values() for p in patterns for u in literals(p)}


def trees(atoms, size):
    """All trees over these atoms with at most so many nodes."""
    trees_of = [[], list(atoms) + [listed([])]]
    rows = [[], [()]]  # rows[n]: lists of items that have n - 1 nodes together
    for n in range(2, size + 1):
        rows.append([(first,) + others for m in range(1, n) for first in trees_of[m] for others in rows[n - m]])
        trees_of.append([listed(items) for items in rows[n]])
    return [term for row in trees_of for term in row]


def terms_up_to(language, nonterminal, size):
    matching = Matching(language)
    found = [t for t in trees(pool(language), size) if matching.matches(('nonterminal', nonterminal), t)]
    return sorted(found, key=key)
