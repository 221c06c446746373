"""The nodes of derivations, as their lines print them."""
from data import Reader, Unread

INDENT = "    "


class Wrong(Exception):
    """A line of the text that is wrong, and why; and whether a node of another word has to stand there."""

    def __init__(self, line, reason, is_other=False):
        self.line, self.reason, self.is_other = line, reason, is_other


def nearest(wrongs):
    """Of reasons why none of several ways is right the one that is met last."""
    return max(wrongs, key=lambda it: (it.line, not it.is_other))


class Node:
    """A node: the number of its line, its word (`judge` for a judgement), the text of its term, or of its context and its part, or of a
    judgement and the name of its rule; and the nodes under it."""

    __slots__ = ("line", "word", "first", "second", "is_split", "under")

    def __init__(self, line, text):
        self.line, self.under = line, []
        word, _, rest = text.partition(" ")
        if word in ("name", "mismatch"):
            name, _, rest = rest.partition(" ")
            word = f"{word} {name}"
        self.word = word
        self.first, self.second = cut(rest, " by " if word == "judge" else " / ", line)
        self.is_split = self.second is not None and word != "judge"


def cut(text, between, line):
    """The text of a term and what stands behind it and these words; None where there are none."""
    if between not in text:
        return text, None
    reader = Reader(text)
    try:
        reader.datum()
    except Unread:
        raise Wrong(line, "no term stands there") from None
    first, rest = text[: reader.at], text[reader.at :]
    if not rest:
        return text, None
    if not rest.startswith(between):
        raise Wrong(line, "more than a term stands there")
    return first, rest[len(between) :]


class Answer:
    """A line of an answer, its number, and the roots of the derivations under it."""

    def __init__(self, line, text):
        self.line, self.text, self.roots = line, text, []


class Block:
    """What a text has for one query: its lines that are no derivations."""

    def __init__(self, line, text):
        self.answers = [Answer(line, text)]

    def word(self):
        """The first word."""
        return self.answers[0].text.partition(" ")[0]


def is_of_derivation(line):
    """Whether the line is one of a derivation."""
    return line.startswith(INDENT)


def add_node(roots, open_nodes, number, line):
    """Puts the node of a line under the one that it stands under; open nodes are those of the line before, outermost first."""
    text = line.lstrip(" ")
    level, odd = divmod(len(line) - len(text) - len(INDENT), 2)
    if odd or level > len(open_nodes):
        raise Wrong(number, "it stands at no level under the line before")
    node = Node(number, text)
    del open_nodes[level:]
    (open_nodes[-1].under if open_nodes else roots).append(node)
    open_nodes.append(node)


def blocks_of(text):
    """The blocks of a text."""
    blocks, open_nodes = [], []
    lines = text.split("\n")
    if lines.pop():
        raise Wrong(len(lines) + 1, "the text ends within a line")
    for number, line in enumerate(lines, 1):
        if is_of_derivation(line):
            if not blocks:
                raise Wrong(number, "it stands under no answer")
            add_node(blocks[-1].answers[-1].roots, open_nodes, number, line)
            continue
        open_nodes.clear()
        if not line.startswith("  "):
            blocks.append(Block(number, line))
        elif blocks:
            blocks[-1].answers.append(Answer(number, line[2:]))
        else:
            raise Wrong(number, "it stands under no answer")
    return blocks
