"""A file and what `why` writes for it: which lines answer which query, and whether each derivation under an answer is one of it."""
import re

from bindings import NOTHING, term_text
from data import Symbol, Unread, file_data
from judgements import Judging, judgement_of, term_at
from languages import language_of
from matching import Outlines
from nodes import Wrong, blocks_of
from templates import Faulty, Unknown, host_term
from terms import printed_term

DEFINING = frozenset(["define-language", "define-extended-language", "define-metafunction", "define-judgment-form", "define", "require", "provide"])
FIRST_WORDS = {
    "redex-match": ["match"],
    "redex-match?": ["matches"],
    "redex-decompose": ["splits"],
    "judgment-holds": ["holds", "answers"],
    "apply-reduction-relation": ["reducts"],
    "apply-reduction-relation/tag-with-names": ["steps"],
    "stepper": ["step"],
    "generate-term": ["generated"],
    "alpha-equivalent?": ["alpha"],
    "redex-check": ["check"],
    "test-results": ["tests"],
}
TESTS = ("test-equal", "test-->", "test-->>", "test-match", "test-no-match", "test-judgment-holds")


def head_of(form):
    """The symbol that a form begins with, or nothing."""
    return form[0] if isinstance(form, list) and form and isinstance(form[0], Symbol) else ""


def first_words(form):
    """The words with which the answer of a query may begin."""
    head = head_of(form)
    return (*(["pass", "fail"] if head in TESTS else FIRST_WORDS.get(head, ["value"])), "fault")


def paired(queries, blocks):
    """The queries with their blocks. A walk has a second one for its fault, which stands under no other query."""
    pairs, at = [], 0
    for k, form in enumerate(queries):
        if at == len(blocks) or blocks[at].word() not in first_words(form):
            raise Wrong(blocks[min(at, len(blocks) - 1)].answers[0].line if blocks else 1, "it is no answer of the query")
        pairs.append((form, blocks[at]))
        at += 1
        if blocks[at - 1].word() == "step" and at < len(blocks) and blocks[at].word() == "fault":
            try:
                return pairs + paired(queries[k + 1 :], blocks[at + 1 :])
            except Wrong:
                pass
    if at < len(blocks):
        raise Wrong(blocks[at].answers[0].line, "it answers no query")
    return pairs


def fits(line, text):
    """Whether a line is this text; where a path in it is unknown, but for the paths."""
    if " at ?" in text:
        line, text = (re.sub(r" at (\?|\[[\d ]*\])", "", it) for it in (line, text))
    return line == text


class File:
    """The definitions and the queries of a file."""

    def __init__(self, text):
        forms = file_data(text)
        self.languages, judgements = {}, {}
        self.metafunctions = {self.metafunction(it) for it in forms if head_of(it) == "define-metafunction"}
        for it in forms:
            if head_of(it) == "define-language":
                self.languages[it[1]] = language_of(None, it[2:])
            elif head_of(it) == "define-extended-language":
                self.languages[it[1]] = language_of(self.languages[it[2]], it[3:])
            elif head_of(it) == "define-judgment-form":
                judgement = judgement_of(it[1:], self.languages)
                judgements[judgement.name] = judgement
        self.queries = [it for it in forms if head_of(it) not in DEFINING]
        self.judging = Judging(judgements, self.metafunctions)

    @staticmethod
    def metafunction(form):
        """The name of the metafunction that a form defines: that of its contract, or that of its first clause."""
        return form[2] if isinstance(form[2], Symbol) else form[2][0][0]

    # ---- the derivations under the lines of an answer: each function raises what is wrong

    def check_match(self, form, answer):
        """The derivation of a binding."""
        _, name, datum, host = form
        root, term = answer.roots[0], host_term(host, self.metafunctions)
        if root.is_split:
            raise Wrong(root.line, "a match has to stand there")
        language = self.languages[name]
        found = self.judging.matching(language).follows(self.read_once(language, datum), term or term_at(root), root)
        if not any(fits(answer.text, b.text()) for _, b in found):
            raise Wrong(root.line, "it binds something else than its answer says")

    def check_split(self, form, answer):
        """The derivation of a split."""
        _, name, datum, host = form
        root, term = answer.roots[0], host_term(host, self.metafunctions)
        if not root.is_split:
            raise Wrong(root.line, "a split has to stand there")
        language = self.languages[name]
        found = self.judging.matching(language).follows(self.read_once(language, datum), term or self.whole(root, answer), root)
        texts = [f"{c.text()} at [{' '.join(map(str, c.path()))}] is {term_text(s)} with {b.text()}" for (c, s), b in found]
        if not any(fits(answer.text, it) for it in texts):
            raise Wrong(root.line, "it splits or binds something else than its answer says")

    def whole(self, root, answer):
        """The term that is split, by the context, the part and the path that are printed."""
        path = re.match(r" at \[([\d ]*)\] is ", answer.text[len(root.first) :])
        try:
            context = path and printed_term(root.first).open([*map(int, path[1].split())])
            part = printed_term(root.second)
        except Unread:
            context = None
        if not context:
            raise Wrong(root.line, "its context is not the one of its answer")
        return context.fill(part)

    def check_judgement(self, form, answer):
        """The derivation of a judgement, whose outputs have to be such as the query asks."""
        judging, root = self.judging, answer.roots[0]
        language = judging.judgements[form[1][0]].language
        premise = judging.premise(language, form[:2])
        try:
            inputs = [judging.made(it, {}, NOTHING) for it in premise.templates]
            given = judging.follows(premise.judgement, inputs, root)
            found = {b.visible() for it in given for _, b in Outlines(language).follows(premise.pattern, it)}
            if not found:
                raise Wrong(root.line, "the query asks for other outputs")
            made = {judging.made(it, premise.pattern.names, b) for it in form[2:] for b in found}
        except Unknown:
            return
        except Faulty:
            raise Wrong(answer.line, "a template of the query makes no term") from None
        if made and None not in made and not any(answer.text == it.text() for it in made):
            raise Wrong(answer.line, "the template makes something else of what the outputs bind")

    def read_once(self, language, datum):
        """The pattern of a query; its data are read once."""
        key = id(datum)
        if key not in self.judging.premises:
            self.judging.premises[key] = language.reader().pattern(datum)
        return self.judging.premises[key]

    def expected(self, form, block):
        """The lines of a block under which derivations stand, and what checks these."""
        first, rest = block.answers[0], block.answers[1:]
        head = head_of(form)
        if head == "redex-match" and block.word() == "match":
            return rest, self.check_match
        if head == "redex-decompose" and block.word() == "splits":
            return rest, self.check_split
        if head == "judgment-holds" and block.word() == "answers":
            return rest, self.check_judgement
        return [first] if first.text == "holds #t" else [], self.check_judgement


def check_block(file, form, block):
    """How many derivations a block has, and what is wrong in it."""
    derived, check = file.expected(form, block)
    wrongs = [Wrong(it.roots[0].line, "no derivation has a place there") for it in block.answers if it.roots and it not in derived]
    first = block.answers[0]
    if derived and derived[0] is not first and first.text != f"{block.word()} {len(derived)}":
        wrongs.append(Wrong(first.line, f"{len(derived)} lines stand under it"))
    for it in derived:
        try:
            if len(it.roots) != 1:
                raise Wrong(it.line, f"{len(it.roots)} derivations stand under it, and not one")
            check(form, it)
        except Wrong as wrong:
            wrongs.append(wrong)
    return len(derived), wrongs


def check_text(file, text):
    """How many derivations stand in what is written for a file, and what is wrong."""
    try:
        blocks = blocks_of(text)
        if blocks and blocks[0].word() == "refused":
            return 0, [Wrong(it.answers[0].line, "it stands behind a refusal") for it in blocks[1:]]
        file = File(file)
        checked = [check_block(file, *it) for it in paired(file.queries, blocks)]
    except Wrong as wrong:
        return 0, [wrong]
    return sum(n for n, _ in checked), [it for _, wrongs in checked for it in wrongs]
