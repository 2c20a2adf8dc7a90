"""What people read in the sources of crates, clients, scripts and measurements: comments, and messages within the code.

A comment is a docstring, or one on whole lines that follow one another. A message is a string with a blank in it, of
clients, scripts and measurements, or a trailing comment there. What a text takes from variables is blank, and so is
what it quotes.
"""
import io
import re
import tokenize
from pathlib import Path
from typing import Iterator, List, Tuple

from support.documents.texts import texts

FOLDERS = ("crates", "clients", "scripts", "bench", ".ci", "nvmesim", "nvmelive", "nvmetcp")
# Sources that have the words themselves.
EXEMPT = ("scripts/support/documents/wording.py", "scripts/support/documents/selftest.py",
          "scripts/support/documents/spellings.py")
# A comment line by its language. The text before it is code.
LEADS = {"c": re.compile(r"^\s*(?://[/!]?|/\*+|\*(?!/))(?:\s(.*?))?(?:\*/)?$"), "sh": re.compile(r"^\s*#(?!!)(?:\s(.*))?$"),
         "rt": re.compile(r"^\s*//[/!]?(?:\s(.*))?$"), "antt": re.compile(r"^\s*--(?:\s(.*))?$")}
# A comment quotes texts of the programs, and docstrings have names of parameters.
QUOTED = re.compile(r'"[^"\n]*"')
NAMED = re.compile(r"^\s*\w+:", re.M)
# Rust and C: whole comments, so that a string in one is none, and strings.
CODE = re.compile(r"""(?P<comment>//[^\n]*|/\*(?s:.)*?\*/)
    |\bb?r(?P<marks>\#*)"(?P<raw>(?s:.)*?)"(?P=marks)
    |"(?P<text>(?:\\(?s:.)|[^"\\])*)"
    |'(?:\\.[^']*|[^'\\])'""", re.X)
# A line of a shell script: strings, and a comment after code.
SHELL = re.compile(r"""'(?P<raw>[^']*)'|"(?P<text>(?:\\.|[^"\\])*)"|(?<=\s)\#\s(?P<comment>.*)""")
VALUE = re.compile(r"\{[^{}]*\}|%[-+ #0]*\d*(?:\.\d+)?[a-z]+|\$\{[^}]*\}|\$\w+")
IN_MESSAGE = re.compile(r"'[^'\n]*'|`[^`\n]*`")
PREFIX = re.compile(r"^\w*(?:'''|\"\"\"|'|\")|(?:'''|\"\"\"|'|\")$")
# Strings that are code, markup or a pattern.
CODED = re.compile(r"[<>\\;{}]\s*$|</|\bfn |\bdef |^\s*(?:#!|import |abbrev |pub )", re.M)
# A text and its first line.
Piece = Tuple[int, str]


def pieces(top: Path) -> Iterator[Tuple[str, int, str]]:
    """Each comment and each message, with its path and its first line."""
    finders = {"py": (python_comments, python_messages), "c": (line_comments, code_messages),
               "sh": (line_comments, shell_messages), "rt": (line_comments, None), "antt": (line_comments, None)}
    for path, text in texts(top):
        if path.split("/")[0] not in FOLDERS or path in EXEMPT or not (kind := language(path, text)):
            continue
        comments, messages = finders[kind]
        for line, found in comments(text, kind):
            yield path, line, NAMED.sub("", QUOTED.sub("_", found))
        for line, found in messages(text) if messages and not path.startswith("crates/") else ():
            yield path, line, IN_MESSAGE.sub("_", VALUE.sub("_", found))


def language(path: str, text: str) -> str:
    """`py`, `c` (Rust too), `sh`, `rt` or `antt`; an empty string for other files."""
    first = text.split("\n", 1)[0]
    if path.endswith((".rt", ".antt")):
        return path.rsplit(".", 1)[1]
    if path.endswith(".py") or first.startswith("#!") and "python3" in first:
        return "py"
    if path.endswith((".rs", ".c", ".h")):
        return "c"
    return "sh" if path.endswith(".sh") or first.startswith("#!") else ""


def line_comments(text: str, kind: str) -> Iterator[Piece]:
    """Comments of whole lines, those on lines that follow one another in one piece."""
    piece: List[str] = []
    for n, line in enumerate([*text.split("\n"), ""], 1):
        found = LEADS[kind].match(line)
        if found:
            piece.append(found[1] or "")
        elif piece:
            yield n - len(piece), "\n".join(piece)
            piece = []


def python_tokens(text: str) -> Iterator[Tuple[tokenize.TokenInfo, bool]]:
    """The tokens of a source, and whether each begins a statement, as a docstring does."""
    before = tokenize.ENCODING
    for token in tokenize.generate_tokens(io.StringIO(text).readline):
        yield token, before in (tokenize.ENCODING, tokenize.NEWLINE, tokenize.INDENT, tokenize.DEDENT)
        if token.type not in (tokenize.NL, tokenize.COMMENT):
            before = token.type


def python_comments(text: str, _kind: str) -> Iterator[Piece]:
    """Docstrings, and comments of whole lines."""
    # The lines of texts over several lines are no comments.
    inside = set()
    for token, is_statement in python_tokens(text):
        if token.type == tokenize.STRING:
            inside.update(range(token.start[0], token.end[0] + 1) if "\n" in token.string else ())
            if is_statement:
                yield token.start[0], token.string.strip('"')
    lines = ["" if n in inside else line for n, line in enumerate(text.split("\n"), 1)]
    yield from line_comments("\n".join(lines), "sh")


def is_message(found: str) -> bool:
    """Whether a string is for people: it has a blank, and is neither code nor markup."""
    return " " in found.strip() and not CODED.search(found)


def python_messages(text: str) -> Iterator[Piece]:
    """Strings that are not docstrings, and trailing comments."""
    for token, is_statement in python_tokens(text):
        found = PREFIX.sub("", token.string)
        is_pattern = token.string.startswith(("r", "rf"))
        if token.type == tokenize.STRING and not (is_statement or is_pattern) and is_message(found):
            yield token.start[0], found
        if token.type == tokenize.COMMENT and token.line[:token.start[1]].strip():
            yield token.start[0], token.string.lstrip("# ")


def code_messages(text: str) -> Iterator[Piece]:
    """Strings and trailing comments of Rust or C."""
    for it in CODE.finditer(text):
        is_trailing = text[text.rfind("\n", 0, it.start()) + 1:it.start()].strip()
        found = it["comment"].strip("/* ") if it["comment"] and is_trailing else it["raw"] or it["text"] or ""
        if it["comment"] or is_message(found):
            yield text.count("\n", 0, it.start()) + 1, found


def shell_messages(text: str) -> Iterator[Piece]:
    """Strings and trailing comments of a shell script, line by line."""
    for n, line in enumerate(text.split("\n"), 1):
        if not line.lstrip().startswith("#"):
            for it in SHELL.finditer(line):
                found = it["comment"] or it["raw"] or it["text"] or ""
                if it["comment"] or is_message(found):
                    yield n, found
