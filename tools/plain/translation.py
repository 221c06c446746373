"""Translates a source file of Rattle into one of plain Rust, with each line where it was.

Out go: ghosts, `requires` and `ensures` with what they say, impls of `Model` and `Drop`, attributes of the prover, what stands under
`#[cfg(test)]` or `#[test]`, and comments. Calls that Rust's std has by the same name with other parameters are renamed to
those of `shim/rstd`, and `std::` is `rstd::`."""
import re

TOKEN = re.compile(
    r"""
    (?P<space>\s+)
  | (?P<comment>//[^\n]*)
  | (?P<block>/\*)
  | (?P<text>(?:b|c)?"(?:\\.|[^"\\])*")
  | (?P<raw>(?:b|c)?r(?P<hashes>\#*)".*?"(?P=hashes))
  | (?P<char>b?'(?:\\(?:u\{[^}]*\}|x[0-9a-fA-F]{2}|.)|[^\\'\n])')
  | (?P<life>'[A-Za-z_]\w*)
  | (?P<word>(?:r\#)?[^\W\d]\w*'*)
  | (?P<number>\d(?:[\w]|\.(?=\d))*)
  | (?P<sign>::|->|=>|.)
    """,
    re.VERBOSE | re.DOTALL,
)
OPENING = ("(", "[", "{")
CLOSING = (")", "]", "}")

# Attributes that plain Rust knows. Any other is a word to the prover.
ATTRIBUTES = {"allow", "cold", "default", "derive", "doc", "error", "from", "inline", "macro_export", "must_use",
              "non_exhaustive", "repr", "source"}
# Traits of the toolchain that every type has here.
TRAITS_OF_ALL = {"Drop", "Trace"}
# Impls of these go: a drop with a body takes its value apart, which Rust's may not, and Rust drops the parts by itself.
LEFT_OUT = {"Drop", "Model"}
# Methods and functions that have other parameters or another result than those of Rust's std, on types that `rstd` does
# not wrap; their names get this ending.
METHODS = {"clone", "collect", "to_vec"}
FUNCTIONS = {("Box", "new"), ("Box", "into_inner")}
RENAMED = "_r"
# Macros that `rstd` has in the place of Rust's.
MACROS = {"format", "prove", "vec"}

PRELUDE = "#[allow(unused_imports)] use ::rstd::prelude::*; "


def translated(source, is_top):
    """The file's text in plain Rust, and the names that its `use` lines begin with. is_top: whether it is a lib.rt or main.rt."""
    translation = Translation(source)
    translation.run(is_top)
    return PRELUDE + "".join(text for _, text in translation.written), translation.used


def tokens_of(source):
    """The tokens, each its kind and its text. Comments are of the kind `space`, with nothing left of them but line ends."""
    tokens, at = [], 0
    while at < len(source):
        match = TOKEN.match(source, at)
        kind, text = match.lastgroup, match.group()
        if kind == "block":
            end = end_of_comment(source, at)
            tokens.append(("space", "\n" * source.count("\n", at, end) or " "))
            at = end
        else:
            # A raw string is told by the group of its last sign.
            kind = "raw" if kind == "hashes" else kind
            tokens.append(("space", "") if kind == "comment" else (kind, text))
            at = match.end()
    return tokens


def end_of_comment(source, start):
    """Where the comment `/* .. */` that begins there ends; one may stand inside another."""
    depth, at = 1, start + 2
    while depth:
        mark = re.compile(r"/\*|\*/").search(source, at)
        depth += 1 if mark.group() == "/*" else -1
        at = mark.end()
    return at


class Translation:
    def __init__(self, source):
        self.tokens = tokens_of(source)
        self.at = 0
        self.written = []
        self.used = set()

    # What stands here, and what was written.

    def ahead(self, count=0):
        """The text of the token that stands so many behind the next one, blanks not counted, or "" behind the end."""
        for at in range(self.at, len(self.tokens)):
            kind, text = self.tokens[at]
            if kind != "space":
                if count == 0:
                    return text
                count -= 1
        return ""

    def behind(self, count=0):
        """The same, of what was written: the last token, or one that stands so many before it."""
        for kind, text in reversed(self.written):
            if kind != "space":
                if count == 0:
                    return text
                count -= 1
        return ""

    def is_attribute(self):
        return self.ahead() == "#" and self.ahead(1) in ("[", "!")

    def trait_of_impl(self):
        """The trait of the `impl` that begins here, or "" where it is of none."""
        count, last = 0, ""
        while self.ahead(count) not in ("{", ";", ""):
            if self.ahead(count) == "for" and last not in ("", ":", "+"):
                return last
            last = self.ahead(count)
            count += 1
        return ""

    # To go on, with or without what is passed. What is left out leaves its line ends.

    def write(self, text, kind="raw"):
        self.written.append((kind, text))

    def copy(self):
        """Writes the next token."""
        while True:
            kind, text = self.tokens[self.at]
            self.write(text, kind)
            self.at += 1
            if kind != "space":
                return

    def skip(self):
        """Leaves out the next token, and returns its text."""
        while self.at < len(self.tokens):
            kind, text = self.tokens[self.at]
            self.at += 1
            if "\n" in text:
                self.write("\n" * text.count("\n"), "space")
            if kind != "space":
                return text
        return ""

    def skip_group(self):
        """Leaves out the brackets that begin here, with what they hold."""
        depth = 0
        while True:
            text = self.skip()
            depth += (text in OPENING) - (text in CLOSING)
            if depth == 0:
                return

    def skip_behind(self, ends):
        """Leaves out all to one of these ends, which stands in no brackets, or up to the end of the brackets around."""
        while self.ahead() and self.ahead() not in CLOSING:
            if self.ahead() in OPENING:
                self.skip_group()
            elif self.skip() in ends:
                return

    def skip_clause(self):
        """Leaves out `requires` or `ensures` with its braces, and the `by` behind."""
        while self.ahead() not in ("{", ""):
            self.skip()
        self.skip_group()
        if self.ahead() == "by":
            self.skip()
            self.skip_group()

    def skip_item(self):
        """Leaves out an item: up to its `;` or its block."""
        # The braces of a `use`, which may be `pub` or `pub(..)`, are no block.
        has_block = "use" not in (self.ahead(), self.ahead(1), self.ahead(4))
        while self.ahead():
            if self.ahead() in ("requires", "ensures"):
                self.skip_clause()
            elif self.ahead() == "{" and has_block:
                self.skip_group()
                return
            elif self.ahead() in OPENING:
                self.skip_group()
            elif self.skip() == ";":
                return

    # The parts of a file.

    def run(self, is_top):
        while self.at < len(self.tokens):
            kind, text = self.tokens[self.at]
            if kind == "space":
                self.write(text, kind)
                self.at += 1
            elif self.is_attribute():
                self.attributes()
            elif text == "ghost":
                self.ghost()
            elif text in ("requires", "ensures"):
                self.skip_clause()
            elif text == "impl" and self.behind() in ("", ";", "]", *"{}") and self.trait_of_impl() in LEFT_OUT:
                self.skip_item()
            elif text == "mod" and self.ahead(2) == "{":
                self.copy()
                self.copy()
                self.copy()
                self.write(PRELUDE)
            elif is_top and text == "fn" and self.ahead(1) == "main" and self.ahead(3) != ")":
                self.main()
            elif text == "fmt" and self.behind() == "fn" and self.ahead(1) == "<":
                self.copy()
                self.skip_parameter()
            elif text == "Formatter" and self.ahead(1) == "<":
                self.copy()
                self.skip_parameter()
            elif kind == "word":
                self.word()
            else:
                self.copy()

    def attributes(self):
        """The attributes before an item. Those of a test take it with them."""
        kept, is_of_test = [], False
        while self.is_attribute():
            start, mark = self.at, len(self.written)
            self.skip()
            if self.ahead() == "!":
                self.skip()
            name, argument = self.ahead(1), self.ahead(3)
            self.skip_group()
            line_ends = self.written[mark:]
            del self.written[mark:]
            is_of_test |= name == "test" or (name == "cfg" and argument == "test")
            if name == "derive":
                kept += line_ends + derive_of(self.tokens[start:self.at])
            else:
                kept += self.tokens[start:self.at] if name in ATTRIBUTES else line_ends
        if is_of_test:
            self.skip_item()
        else:
            self.written += kept

    def ghost(self):
        """A ghost item, field or member."""
        self.take_back_pub()
        self.skip()
        self.skip_behind((";",) if self.ahead() == "use" else (";", ","))

    def take_back_pub(self):
        """Takes back a `pub` or `pub(..)`, if it was written last."""
        if self.behind() == "pub":
            count = 1
        elif self.behind() == ")" and self.behind(3) == "pub":
            count = 4
        else:
            return
        at = len(self.written)
        while count:
            at -= 1
            if self.written[at][0] != "space":
                del self.written[at]
                count -= 1

    def skip_parameter(self):
        """Leaves out what stands between `<` and `>`, in which no other stands: the sink of `fmt`, which Rust's has none of."""
        while self.skip() != ">":
            pass

    def word(self):
        text, before, after = self.ahead(), self.behind(), self.ahead(1)
        if before == "use":
            self.used.add(text)
        if text == "std" and after == "::" and before not in ("::", ".", "$"):
            text = "rstd"
        elif text in MACROS and after == "!" and self.ahead(2) in OPENING:
            text = f"rstd::{text}"
        elif text in METHODS and before == "." and after in ("(", "::"):
            text += RENAMED
        elif before == "::" and (self.behind(1), text) in FUNCTIONS and after == "(":
            text += RENAMED
        self.write(text, "word")
        self.at += 1

    def main(self):
        """`fn main(rt: HostRuntime) ..`: the runtime is made inside."""
        for _ in ("fn", "main", "("):
            self.copy()
        name = self.skip()
        self.skip_behind(())
        while self.ahead() != "{":
            if self.ahead() in ("requires", "ensures"):
                self.skip_clause()
            elif self.tokens[self.at][0] == "word":
                self.word()
            else:
                self.copy()
        self.copy()
        self.write(f" let {name} = ::rstd::rt::HostRuntime::start(); ")


def derive_of(tokens):
    """A `derive` without the traits that every type has here."""
    names = [text for kind, text in tokens if kind == "word"][1:]
    names = [name for name in names if name not in TRAITS_OF_ALL]
    return [("raw", f"#[derive({', '.join(names)})]")] if names else []
