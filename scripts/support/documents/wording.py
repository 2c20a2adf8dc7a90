"""Words of documents, comments, docstrings and messages that have a better form: private words, and turns of phrase that
an engineer stumbles over.

A rule has a pattern, the better form, and a sentence that it must find. Text in code spans and fences is exempt.
"""
import re
from dataclasses import dataclass
from pathlib import Path
from typing import Dict, Iterator, List, Tuple

from support.documents import manual, prose
from support.documents.texts import SPAN, Document, Finding

# Sources that the rules for code do not hold for yet.
DOCUMENT_RULES_ONLY = ("crates/", "scripts/support/definitions/", "scripts/support/test_definitions.py",
                       "scripts/support/test_copies.py")
TARGET = re.compile(r"\]\([^()\s]+\)")


@dataclass(frozen=True)
class Rule:
    """What a text should not have, the better form, and a sentence with it."""
    pattern: str
    better: str
    sample: str

    def find(self, text: str) -> Iterator["re.Match[str]"]:
        return re.finditer(self.pattern, text)


RULES = (
    Rule(r"\b[Bb]ehind\b", "after; follows", "Behind `start` each line is one event."),
    Rule(r"(?:^|[.:;] |- )Where (?!to\b)", "If; When", "It ends. Where nothing is ready, it waits."),
    Rule(r"\b(?:only|even|also|but|except|unless) where\b", "if; when", "It is denied only where a rule fails."),
    Rule(r"\bwhere \d", "than; instead of", "It made 38 reads where 37 are enough."),
    Rule(r"\b[Ss]o (?:many|much|often|few)\b", "the quantity's name: count, length, interval", "a medium of so many blocks"),
    Rule(r"\b[Ss]t(?:ands?|anding|ood)\b(?!-)", "is; depends on; remains", "The crate stands on two others."),
    Rule(r"\b[Ll](?:ies?|ying)\b", "is; is at", "A namespace lies on the medium."),
    Rule(r"\b[Gg]o(?:es)? by\b", "follow; use", "The definitions go by rules."),
    Rule(r"\b[Tt](?:ells|elling|old)\b", "returns; reports; records", "The fault is told of the line."),
    Rule(r"\b[Hh]and(?:s|ed|ing)? (?:up|in)\b", "deliver; pass", "The answer is handed up by a poll."),
    Rule(r"\b[Ll](?:ent|ends?|ending)\b", "borrowed; borrow", "A medium over lent bytes."),
    Rule(r"\b[Ww]rong bod(?:y|ies)\b", "mutant", "Wrong bodies show that the contracts bite."),
    Rule(r"\b[Tt]rifles?\b", "unimportant detail", "A poll that finds nothing is a trifle."),
    Rule(r"(?:^|[.:;] |- )Whoever\b", "anyone who; the imperative", "Whoever adds one adds its row."),
    Rule(r"\b[Aa]loud\b", "warns", "It says aloud that it listens."),
    Rule(r"\b[Bb]eside\b", "besides; next to; against", "What else was proved beside it."),
    Rule(r"\bin (?:the )?place of\b", "instead of", "It copies them in place of reading."),
    Rule(r"\bit is (?:looked|asked|said|told)\b", "a verb with its actor", "How often it is looked for timeouts."),
    Rule(r"\b(?:is|are) to be\b", "must be; the imperative", "These files are to be audited."),
    Rule(r"\b(?:calls? of the system|the system's calls?)\b", "system call", "It makes no call of the system."),
    Rule(r"\b[Oo]n the clock\b", "elapsed", "It took 25 minutes on the clock."),
    Rule(r"\b[Ss]ome \d", "about", "It takes some 10 seconds."),
    Rule(r"\b(?:is|are) the most\b", "at most", "39 lines, and 39 are the most."),
    Rule(r", and not (?!yet\b|only\b)", "put the negation first", "It is a file, and not a pipe."),
    Rule(r"\b[Kk]ept work\b", "earlier results", "The check starts from kept work."),
    Rule(r"\b[Bb]ut for\b", "except for", "Both are the same but for their names."),
    Rule(r"\b(?:is|are|was|were) wanted\b", "expected; required; the goal is", "What was wanted is on the right."),
    Rule(r"\b[Cc]arr(?:y|ies|ied|ying) out\b", "execute", "The command is carried out."),
    Rule(r"\b[Mm]end(?:s|ed|ing)?\b", "fix; repair", "It mends the script."),
    Rule(r"\b[Ff]or want of\b", "without; out of", "It ended for want of memory."),
    Rule(r"\bhas the (?:system|kernel|processor|program)\b", "calls; makes", "A flush has the system sync the file."),
    Rule(r"\b(?:[Gg]o(?:es)?|[Ww]ent) on\b", "continue", "The program goes on after a fault."),
    Rule(r"\b(?:[Cc]omes?|[Cc]ame) to (?:be|stand)\b", "is now", "Then lines came to be read twice."),
)

# These hold for comments, docstrings and messages of clients, scripts and measurements, besides the rules above.
CODE_RULES = (
    Rule(r"\b(?:[Nn]one|nothing|nobody|[Tt]rue|[Ff]alse|0|string|text|`?\w+(?:Error|Fault|Done)`?) where\b", "if",
         "Returns None where it has no name."),
    Rule(r"\bwhere (?:there (?:is|are|was|were)|none\b|nothing\b|nobody\b|that (?:is|can't|can)\b)", "if; when",
         "It waits where there is no data."),
    Rule(r"\b[Ww]hat (?:\w+ ){0,3}(?:came|comes|becomes|became|has come|has become) (?:of|to)\b", "result; outcome",
         "What came of an execution."),
    Rule(r"\b[Tt]ak(?:e|es|en|ing) (?:[\w`]+ ){0,3}apart\b", "parse", "The answers, taken apart."),
    Rule(r"\b[Cc]arr(?:y|ies|ied|ying) (?:\w+ ){1,3}out\b", "execute", "Carries the command out."),
    Rule(r"\bempty texts?\b", "empty string", "An empty text without a reason."),
    Rule(r"\b[Ll]ooking lines?\b", "query", "The answer of a looking line."),
    Rule(r"\bunder way\b|\bon (?:its|their) way\b", "in progress; in flight", "A command on its way."),
    Rule(r"(?:^|\. )The same(?: of| with| without| by| for| if|\.|;)", "name what it is", "The same of a host."),
    Rule(r"\b[Ww]h(?:oever|omever)\b", "anyone who", "Of two, whoever preempts first continues."),
    Rule(r"\b(?:bytes|blocks|columns|bits|one|two|year|parameters|times|[\d,]*\d|_) at (?:least|most)\b(?! (?:one|\d))",
         "at least, at most before the number", "Bytes, one at least."),
    Rule(r"\b[Ss]a(?:y|ys|id|ying) (?:so|more|the rest|nothing|in words)\b|\bsays (?:which|what) there (?:is|are)\b",
         "reports; prints; lists; describes", "The option --help says the rest."),
    Rule(r"(?:^|\. )Gives?\b", "Returns", "Gives the answer of a query."),
    Rule(r"(?:^|\. )(?:Says?|Tells?)\b", "Reports; Prints; Describes", "Says which bits are set."),
    Rule(r"\bas (?:a|the|its) \w+ goes\b", "when it is dropped", "It happens as a value goes."),
    Rule(r"\b(?:admin|I/O) lanes?\b", "queue; queue pair", "The requests of the admin lane."),
    Rule(r"\bshall\b", "must; should", "As often as its command shall."),
    Rule(r"\bas (?:it|they) must be\b", "passed; correct", "All is as it must be."),
)


def without_code(text: str) -> str:
    """A text whose code spans and link targets are blank, each character in its place."""
    for kind in (SPAN, TARGET):
        text = kind.sub(lambda it: re.sub(r"\S", "_", it[0]), text)
    return text


def pieces_of(top: Path, path: str) -> Iterator[Tuple[int, str]]:
    """The prose of a text in pieces, each with its first line: of a manual page the lines that are no requests, except
    for those that are made of --help."""
    text = (top / path).read_text(encoding="utf-8")
    if path.endswith(".md"):
        yield from Document(path, text).paragraphs()
        return
    text = manual.BETWEEN.sub(lambda made: "\n" * made[0].count("\n"), text)
    for n, line in enumerate(text.split("\n"), 1):
        if line and not line.startswith("."):
            yield n, line


def faults_of(piece: str, rules: Tuple[Rule, ...] = RULES) -> Iterator[Tuple[int, str]]:
    """The words of a piece of prose that have a better form: the line in the piece, from 0, and what to write."""
    plain = without_code(piece).replace("\n", " ")
    for rule in rules:
        for found in rule.find(plain):
            yield piece.count("\n", 0, found.start()), f"'{found[0].strip()}': write {rule.better}"


def rules_for(path: str) -> Tuple[Rule, ...]:
    """The rules for a source: some folders have only those of documents."""
    return RULES if path.startswith(DOCUMENT_RULES_ONLY) else RULES + CODE_RULES


def check(top: Path, found: Dict[str, Document]) -> Iterator[Finding]:
    """Documents, manual pages, and comments, docstrings and messages of sources have none of these words."""
    pages = (*found, *(f"man/{it.name}" for it in sorted((top / "man").iterdir())))
    documents = ((path, first, piece, RULES) for path in pages for first, piece in pieces_of(top, path))
    sources = ((path, first, piece, rules_for(path)) for path, first, piece in prose.pieces(top))
    for path, first, piece, rules in (*documents, *sources):
        for line, what in faults_of(piece, rules):
            yield Finding(path, first + line, what)


def missed() -> List[str]:
    """The rules that don't find their sentence, or that find it in a code span."""
    every = RULES + CODE_RULES
    found = [it for it in every if not any(it.find(it.sample.replace("\n", " ")))]
    spans = [it for it in every if any(True for _ in faults_of(f"`{it.sample.replace('`', '')}`", every))]
    return [f"the words of {it.sample!r}" for it in (*found, *spans)]
