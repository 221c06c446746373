"""Whether a node follows by its rule of matching or of splitting from the nodes right under it."""
import re
from itertools import product

from bindings import NOTHING, Binding, join, joins, repetition
from nodes import Wrong, nearest
from templates import Unknown
from terms import HOLE, at_place


TERMS_OF = {
    "number": "integer",
    "natural": "integer",
    "integer": "integer",
    "real": "integer",
    "string": "string",
    "boolean": "truth",
    "variable": "symbol",
    "variable-not-otherwise-mentioned": "symbol",
}


def word(pattern):
    """The word of a pattern's rule; that of a nonterminal without the number of the alternative."""
    if pattern.kind == "nonterminal":
        return (pattern.name if isinstance(pattern.name, str) else "->".join(pattern.name)) + "/"
    if pattern.kind == "kind":
        return pattern.name
    return f"{pattern.kind} {pattern.name}" if pattern.kind in ("name", "mismatch") else pattern.kind


def is_of_kind(language, kind, term):
    """Whether a built-in pattern matches a term."""
    if kind == "any":
        return True
    if term.kind != TERMS_OF[kind] or (kind == "natural" and term.value < 0):
        return False
    return kind != "variable-not-otherwise-mentioned" or term.value not in language.mentioned


def fits_alone(language, pattern, term):
    """Whether an atom's pattern, a literal or the hole matches a term; None where the pattern is none of these."""
    if pattern.kind == "_":
        return True
    if pattern.kind == "kind":
        return is_of_kind(language, pattern.name, term)
    if pattern.kind == "variable-except":
        return term.kind == "symbol" and term.value not in pattern.symbols
    if pattern.kind == "variable-prefix":
        return term.kind == "symbol" and term.value.startswith(pattern.symbols[0])
    if pattern.kind == "literal":
        return term.bare() is pattern.term.bare()
    return term is HOLE if pattern.kind == "hole" else None


class Matching:
    """Checks nodes of matching and splitting in a language. What a node gives is a set of pairs: a context and a part, None where the node is
    none of splitting, and a binding."""

    def __init__(self, language):
        self.language = language
        self.known = {}

    def follows(self, pattern, term, node):
        """What the node of this pattern and of this term gives. Each error is a line that is wrong."""
        key = node, pattern, term
        if key not in self.known:
            try:
                self.known[key] = self.follows_anew(pattern, term, node)
            except Wrong as wrong:
                self.known[key] = wrong
        if isinstance(self.known[key], Wrong):
            raise self.known[key].with_traceback(None)
        return self.known[key]

    def follows_anew(self, pattern, term, node):
        chosen = self.chosen(pattern, node)
        if not node.is_split and node.first != term.text():
            raise Wrong(node.line, f"its term has to be {term.text()}")
        found = self.by_rule(chosen, pattern, term, node)
        if node.is_split:
            found = {(cs, b) for cs, b in found if (cs[0].text(), cs[1].text()) == (node.first, node.second)}
            if not found:
                raise Wrong(node.line, "what stands under it has another context or part")
        return found

    def chosen(self, pattern, node):
        """The patterns of the nodes under one of this pattern; None for a list."""
        if pattern.kind != "nonterminal":
            if node.word != word(pattern):
                raise Wrong(node.line, f"a node `{word(pattern)}` has to stand there", True)
            return None if pattern.kind == "list" else pattern.inner
        reference, number = word(pattern), node.word[len(word(pattern)) :]
        if not node.word.startswith(reference) or not re.fullmatch(r"[1-9][0-9]*", number):
            raise Wrong(node.line, f"a node `{reference}` with a number has to stand there", True)
        alternatives = self.language.alternatives(pattern.name)
        if int(number) > len(alternatives):
            raise Wrong(node.line, "there is no such alternative")
        return (alternatives[int(number) - 1],)

    def by_rule(self, chosen, pattern, term, node):
        """What the node gives, by the rule of its pattern."""
        if pattern.kind == "list":
            return self.by_items(pattern, term, node)
        if len(node.under) != len(chosen):
            raise Wrong(node.line, f"right under it stand {len(node.under)} nodes, where its rule has {len(chosen)}")
        if not chosen:
            return self.alone(pattern, term, node)
        if pattern.kind == "in-hole":
            return self.by_two(chosen, term, node)
        [inner] = node.under
        if inner.is_split != node.is_split or (node.is_split and pattern.kind == "hide-hole"):
            raise Wrong(inner.line, f"{'a split' if inner.is_split else 'a match'} has no place there")
        found = self.follows(chosen[0], term, inner)
        if pattern.kind == "nonterminal":
            return {(cs, NOTHING) for cs, _ in found}
        return found if pattern.kind == "hide-hole" else self.named(pattern, term, node, found)

    def alone(self, pattern, term, node):
        """What a node without any under it gives."""
        if node.is_split and pattern.kind == "hole":
            return {((HOLE, term), NOTHING)}
        if node.is_split or not fits_alone(self.language, pattern, term):
            raise Wrong(node.line, f"`{word(pattern)}` does not {'split' if node.is_split else 'match'} it")
        return {(None, NOTHING)}

    def named(self, pattern, term, node, found):
        """What a name or a mismatch name over such a node gives."""
        given = set()
        for cs, b in found:
            what = cs[0] if cs else term
            own = Binding({pattern.name: ("one", what)}) if pattern.kind == "name" else Binding((), {pattern.name: (what,)})
            given |= {(cs, c) for c in joins({b}, own)}
        if not given:
            raise Wrong(node.line, "the name stands for something else under it, or its terms are equal")
        return given

    def by_two(self, patterns, term, node):
        """What a node of `in-hole` gives."""
        outer, inner = node.under
        if not outer.is_split or inner.is_split != node.is_split:
            raise Wrong(node.line, "a split has to stand under it, and then what it is itself")
        given = set()
        for (context, part), b in self.follows(patterns[0], term, outer):
            for cs, c in self.follows(patterns[1], part, inner):
                whole = (context.fill(cs[0]), cs[1]) if cs else None
                given |= {(whole, d) for d in joins({b}, c)}
        if not given:
            raise Wrong(node.line, "what its two parts bind does not agree")
        return given

    # ---- lists

    def by_items(self, pattern, term, node):
        """What a node of a list pattern gives."""
        if term.kind != "list":
            raise Wrong(node.line, "its term is no list")
        if len(node.under) != len(term.items):
            raise Wrong(node.line, f"right under it stand {len(node.under)} nodes, where its list has {len(term.items)} items")
        if sum(it.is_split for it in node.under) != node.is_split:
            raise Wrong(node.line, f"{'one' if node.is_split else 'none'} of the nodes right under it has to be a split")
        given = Layouts(self, pattern.items, term.items, node.under).found(0, 0)
        if not given:
            raise self.wrong_item(pattern, term, node)
        if not node.is_split:
            return given
        place = next(k for k, it in enumerate(node.under) if it.is_split)
        return {((at_place(term.items, place, cs[0]), cs[1]), b) for cs, b in given}

    def wrong_item(self, pattern, term, node):
        """Why a list has no layout: the first node right under it that no item's pattern suits, or else the layout itself."""
        for it, inner in zip(term.items, node.under):
            errors = []
            for item in pattern.items:
                try:
                    self.follows(item.pattern, it, inner)
                    break
                except Wrong as wrong:
                    errors.append(wrong)
            else:
                if errors:
                    return nearest(errors)
        return Wrong(node.line, "its items fall to its patterns in no order, or what they bind does not agree")


class Layouts:
    """The layouts in which the items of a list fall to those of its pattern."""

    def __init__(self, matching, items, terms, nodes):
        self.matching, self.items, self.terms, self.nodes = matching, items, terms, nodes
        self.known = {}

    def one(self, k, j):
        """What the node at place j gives by the pattern of the item at place k."""
        try:
            return self.matching.follows(self.items[k].pattern, self.terms[j], self.nodes[j])
        except Wrong:
            return set()

    def found(self, k, j):
        """What the nodes from place j on give by the items from place k on."""
        if (k, j) not in self.known:
            self.known[k, j] = self.found_anew(k, j)
        return self.known[k, j]

    def found_anew(self, k, j):
        if k == len(self.items):
            return {(None, NOTHING)} if j == len(self.terms) else set()
        if self.items[k].is_repeated:
            return self.repeated(k, j)
        if j == len(self.terms):
            return set()
        return {it for here in self.one(k, j) for rest in self.found(k + 1, j + 1) for it in together(here, rest)}

    def repeated(self, k, j):
        """The same where the item at place k is repeated: it takes any number of turns."""
        item, turns, given = self.items[k], [], set()
        while True:
            rests = self.found(k + 1, j + len(turns))
            if rests:
                for chosen in product(*turns):
                    b = repetition(item.pattern.names, [it[1] for it in chosen], item.length_name)
                    if b is not None:
                        here = next((cs for cs, _ in chosen if cs), None), b
                        given |= {it for rest in rests for it in together(here, rest)}
            if j + len(turns) == len(self.terms):
                return given
            found = self.one(k, j + len(turns))
            if not found:
                return given
            turns.append(found)


class Outlines:
    """What patterns may bind to terms for which no node stands: a nonterminal is not looked into, so that there may be too many bindings, and
    what `in-hole` binds is unknown."""

    def __init__(self, language):
        self.language = language

    def follows(self, pattern, term, node=None):
        """What the pattern may give of a term, as a node would."""
        if pattern.kind == "in-hole":
            raise Unknown
        if pattern.kind == "nonterminal":
            return {(None, NOTHING)}
        if pattern.kind == "list":
            terms = term.items
            return Layouts(self, pattern.items, terms, [None] * len(terms)).found(0, 0) if term.kind == "list" else set()
        if not pattern.inner:
            return {(None, NOTHING)} if fits_alone(self.language, pattern, term) else set()
        own = {"name": Binding({pattern.name: ("one", term)}), "mismatch": Binding((), {pattern.name: (term,)})}
        found = {b for _, b in self.follows(pattern.inner[0], term)}
        return {(None, b) for b in joins(found, own.get(pattern.kind, NOTHING))}


def together(here, rest):
    """What two parts of a list give, of which one at most is split."""
    b = join(here[1], rest[1])
    return [] if b is None else [(here[0] or rest[0], b)]
