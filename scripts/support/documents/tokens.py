"""The tokens of a source, without its comments.

Texts, characters and lifetimes are tokens of their own, so a word in one is no name. A comment may be within a comment,
and a text that is raw may have quotation marks. The checks read these tokens, so blanks, comments and line breaks can't
hide a name.
"""
import re
from typing import Iterator, List, NamedTuple

NAME, NUMBER, TEXT, LIFETIME, SIGN = "name", "number", "text", "lifetime", "sign"
# In this order: what a longer form begins with comes after it. A raw name is its name.
FORMS = re.compile(r"""
    (?P<blank>\s+|//[^\n]*)
    |(?P<raw>(?:b|c|br|cr|r)?r(?P<marks>\#+)"(?s:.)*?"(?P=marks)|(?:br|cr|r)"[^"]*")
    |(?P<text>[bc]?"(?:\\(?s:.)|[^"\\])*")
    |(?P<character>b?'(?:\\(?:x[0-9a-fA-F]{2}|u\{[^}]*\}|.)|[^'\\])')
    |(?P<lifetime>'\w+)
    |r\#(?P<rawname>[^\W\d]\w*)
    |(?P<name>[^\W\d]\w*)
    |(?P<number>\d(?:[\w]|\.(?=\d))*)
    |(?P<sign>::|->|=>|.)
""", re.X)
# What other forms count as, and those that may go over several lines.
KINDS = {"raw": TEXT, "character": TEXT, "rawname": NAME}
LONG = ("raw", "text")
BORDER = re.compile(r"/\*|\*/")


class Token(NamedTuple):
    """A token: of which kind, its text, and the line that it begins on, from 1."""
    kind: str
    text: str
    line: int

    def is_sign(self, text: str) -> bool:
        """Whether it is this sign."""
        return self.kind == SIGN and self.text == text

    def is_name(self, *names: str) -> bool:
        """Whether it is one of these names, or any name if none is given."""
        return self.kind == NAME and (not names or self.text in names)


def after_comment(text: str, at: int) -> int:
    """The place after the comment between stars that begins here: those within it end first."""
    depth = 0
    for found in BORDER.finditer(text, at):
        depth += 1 if found[0] == "/*" else -1
        if depth == 0:
            return found.end()
    return len(text)


def tokens(text: str) -> Iterator[Token]:
    """The tokens of a source, in order."""
    at, line = 0, 1
    while at < len(text):
        found = None if text.startswith("/*", at) else FORMS.match(text, at)
        form = found.lastgroup if found else "blank"
        end = found.end() if found else after_comment(text, at)
        if found and form != "blank":
            yield Token(KINDS.get(form, form), found[form], line)
            line += form in LONG and text.count("\n", at, end)
        else:
            line += text.count("\n", at, end)
        at = end


def closing(found: List[Token], at: int) -> int:
    """The place of the bracket that closes the one here, or the end."""
    depth = 0
    for place in range(at, len(found)):
        if found[place].kind == SIGN and found[place].text in "([{":
            depth += 1
        elif found[place].kind == SIGN and found[place].text in ")]}":
            depth -= 1
            if depth == 0:
                return place
    return len(found)
