"""Judgement forms, and whether a node follows by a rule of a judgement from the nodes right under it."""
from dataclasses import dataclass

from bindings import joins
from data import Keyword, Reader, Symbol, Text, Unread, is_symbol
from matching import Matching
from nodes import Wrong, nearest
from patterns import Pattern
from templates import Faulty, TemplateReader, Unknown
from terms import FALSE, listed, loose, plain, printed_term, string_text


@dataclass(eq=False)
class Rule:
    """A rule, by its name as it is printed, the patterns of its inputs, the templates of its outputs, and its premises, as data."""

    name: str
    inputs: Pattern
    outputs: list
    premises: list


@dataclass(eq=False)
class Judgement:
    """A judgement, by its name, its mode, where true is an input, the language of its form, and its rules."""

    name: str
    mode: list
    language: object
    rules: list

    def inputs(self, arguments):
        """The arguments at the inputs."""
        return [it for it, is_input in zip(arguments, self.mode) if is_input]

    def outputs(self, arguments):
        """The arguments at the outputs."""
        return [it for it, is_input in zip(arguments, self.mode) if not is_input]


@dataclass(eq=False)
class Premise:
    """A premise, by its data: the judgement that it asks, with the templates of the inputs and the pattern of the outputs; or no judgement, one
    template, and the pattern of what that makes."""

    data: list
    judgement: object
    templates: list
    pattern: Pattern

    def count(self):
        """How many nodes it has."""
        return 2 if self.judgement else 1


def label(name):
    """The name of a rule as it is printed."""
    if name is None:
        return "-"
    return str(name) if is_symbol(name) else string_text(name)


def term_at(node):
    """The term that a node prints."""
    try:
        return printed_term(node.first)
    except Unread:
        raise Wrong(node.line, "no term stands there") from None


def is_line(datum):
    """Whether a datum is a line between premises and a conclusion."""
    return isinstance(datum, Symbol) and len(datum) > 2 and not datum.strip("-")


def parts_of_rule(data):
    """The conclusion of a rule, its premises and its name."""
    lines = [k for k, it in enumerate(data) if is_line(it)]
    if lines:
        *name, conclusion = data[lines[0] + 1 :]
        return conclusion, data[: lines[0]], name[0] if name else None
    conclusion, *rest = data
    has_name = bool(rest) and isinstance(rest[-1], (Symbol, Text))
    return conclusion, rest[:-1] if has_name else rest, rest[-1] if has_name else None


def judgement_of(data, languages):
    """The judgement that the parts of a form behind its head stand for."""
    language = languages[data[0]]
    options, rest = {}, data[1:]
    while rest and isinstance(rest[0], Keyword):
        options[str(rest[0])] = rest[1]
        rest = rest[2:]
    name, *mode = options["mode"]
    judgement = Judgement(str(name), [it == "I" for it in mode], language, [])
    for it in rest:
        conclusion, premises, rule = parts_of_rule(it)
        arguments = conclusion[1:]
        inputs = language.reader().separate(judgement.inputs(arguments))
        judgement.rules.append(Rule(label(rule), inputs, judgement.outputs(arguments), premises))
    return judgement


class Judging:
    """Checks nodes of judgements in a file with these judgements and metafunctions."""

    def __init__(self, judgements, metafunctions):
        self.judgements, self.metafunctions = judgements, metafunctions
        self.matchings, self.premises, self.known = {}, {}, {}

    def matching(self, language):
        """What checks the matches in a language."""
        return self.matchings.setdefault(language, Matching(language))

    def made(self, datum, depths, binding):
        """The term that the template of a datum makes of a binding, or None where it is unknown."""
        try:
            return TemplateReader(self.metafunctions, depths).made(datum, binding)
        except Unknown:
            return None

    def premise(self, language, data):
        """A premise of a rule in this language, or of a query."""
        if id(data) not in self.premises:
            self.premises[id(data)] = self.premise_anew(language, data)
        return self.premises[id(data)]

    def premise_anew(self, language, data):
        reader = language.reader()
        if data[0] == "where":
            return Premise(data, None, data[2:], reader.pattern(data[1]))
        head, *arguments = data[1] if data[0] == "judgment-holds" else data
        judgement = self.judgements[head]
        return Premise(data, judgement, judgement.inputs(arguments), reader.separate(judgement.outputs(arguments)))

    def bound(self, language, pattern, term, node):
        """The bindings with which a node says that a pattern matches a term."""
        if node.is_split:
            raise Wrong(node.line, "a match has to stand there")
        return {b.visible() for _, b in self.matching(language).follows(pattern, term, node)}

    def arguments(self, judgement, node):
        """The arguments that the line of a judgement's node has."""
        try:
            head, *arguments = Reader(node.first).datum()
        except (Unread, TypeError, ValueError):
            raise Wrong(node.line, "no judgement stands there") from None
        terms = [*map(loose, arguments)]
        if node.word != "judge" or node.second is None or head != judgement.name or len(terms) != len(judgement.mode):
            raise Wrong(node.line, f"a node `judge` of {judgement.name} has to stand there")
        if node.first != "(" + " ".join([head, *(it.text() for it in terms)]) + ")":
            raise Wrong(node.line, "its judgement is not printed so")
        return terms

    def follows(self, judgement, inputs, node):
        """The outputs, as a list, that a node says the judgement has for these inputs, of which each may be unknown."""
        terms = self.arguments(judgement, node)
        for known, printed in zip(inputs, judgement.inputs(terms)):
            if known and known.text() != printed.text():
                raise Wrong(node.line, f"its input {printed.text()} has to be {known.text()}")
        inputs = tuple(known or printed for known, printed in zip(inputs, judgement.inputs(terms)))
        key = node, inputs
        if key not in self.known:
            self.known[key] = self.by_rules(judgement, inputs, judgement.outputs(terms), node)
        return self.known[key]

    def by_rules(self, judgement, inputs, outputs, node):
        """The outputs by one of the rules that have the printed name."""
        given, errors = set(), []
        for rule in judgement.rules:
            if rule.name == node.second:
                try:
                    given |= self.by_rule(judgement.language, rule, inputs, outputs, node)
                except Wrong as wrong:
                    errors.append(wrong)
        if not given:
            raise nearest(errors) if errors else Wrong(node.line, f"{judgement.name} has no rule of this name")
        return given

    def by_rule(self, language, rule, inputs, outputs, node):
        """The outputs by one rule."""
        if not node.under:
            raise Wrong(node.line, "the match of its inputs has to stand under it")
        found = self.bound(language, rule.inputs, listed(inputs), node.under[0])
        depths, rest = dict(rule.inputs.names), node.under[1:]
        for premise in rule.premises:
            found, rest = self.by_premise(language, premise, depths, found, rest, node)
        if rest:
            raise Wrong(rest[0].line, f"the rule {rule.name} has no premise for it")
        given = set()
        for b in found:
            given |= self.by_outputs(rule, depths, b, outputs)
        if not given:
            raise Wrong(node.line, f"the rule {rule.name} makes other outputs")
        return given

    def by_outputs(self, rule, depths, binding, printed):
        """The list of outputs that a rule makes of a binding, where it is as it is printed."""
        try:
            made = [self.made(it, depths, binding) for it in rule.outputs]
        except Faulty:
            return set()
        if any(it and it.text() != other.text() for it, other in zip(made, printed)):
            return set()
        return {listed(it or other for it, other in zip(made, printed))}

    def by_premise(self, language, data, depths, found, rest, node):
        """The bindings that meet a premise, and the nodes that are left; depths are those of the names, to which its own come."""
        if data[0] == "side-condition":
            found = {b for b in found if self.may_be_met(data[1], depths, b)}
            if not found:
                raise Wrong(node.line, f"the side condition {plain(data[1]).text()} is not met")
            return found, rest
        premise = self.premise(language, data)
        if len(rest) < premise.count():
            raise Wrong(node.line, f"nodes for the premise {plain(data).text()} have to stand under it")
        given, errors = set(), []
        for b in found:
            try:
                given |= self.met(language, premise, depths, b, rest)
            except Wrong as wrong:
                errors.append(wrong)
            except Faulty:
                errors.append(Wrong(rest[0].line, "a template of its premise makes no term"))
        if not given:
            raise nearest(errors)
        depths.update(premise.pattern.names)
        return given, rest[premise.count() :]

    def may_be_met(self, datum, depths, binding):
        """Whether a side condition with this template is met, as far as it is known."""
        try:
            return self.made(datum, depths, binding) is not FALSE
        except Faulty:
            return False

    def met(self, language, premise, depths, binding, nodes):
        """The joins of a binding with what meets a premise by these nodes."""
        made = [self.made(it, depths, binding) for it in premise.templates]
        if premise.judgement:
            found = self.holds(language, premise, made, nodes)
        else:
            found = self.bound(language, premise.pattern, made[0] or term_at(nodes[0]), nodes[0])
        given = joins(found, binding)
        if not given:
            raise Wrong(nodes[0].line, "what its premise binds does not agree with what is bound before")
        return given

    def holds(self, language, premise, inputs, nodes):
        """The bindings with which two nodes say that a judgement has such outputs for such inputs, of which each may be unknown."""
        given, errors = set(), []
        for outputs in self.follows(premise.judgement, inputs, nodes[0]):
            try:
                given |= self.bound(language, premise.pattern, outputs, nodes[1])
            except Wrong as wrong:
                errors.append(wrong)
        if not given:
            raise nearest(errors)
        return given
