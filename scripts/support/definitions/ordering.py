"""Which witnesses of a wrong definition are likely to notice it, and are tried first."""
import re

from support.definitions.reading import definitions_of

# A file of lemmas can have definitions too: these say nothing that can be refused.
DEFINED = re.compile(r"(?:\w+ )?(?:pub )?(?:record|data) |[^=]*\bType 0\s*\Z")
FIELD = re.compile(r"(?:field|leaves) ([\w-]+)")
CASE = re.compile(r": case (\d+) ")
VARIANT = re.compile(r"(?<![\w-])[A-Z][\w-]*|(?<![\w-])(?:true|false|zero|suc)(?![\w-])")


def is_definition(item):
    return item.kind == "proofs" and bool(DEFINED.match(item.head))


def names(text, word):
    return bool(re.search(rf"(?<![\w-]){re.escape(word)}(?![\w-])", text))


class Ordering:
    """The order in which copies of witnesses are tried."""

    def __init__(self, sources):
        self.sources, self.cases = sources, {}

    def variants(self, mutant):
        """What the case that is wrong is of: the variants in its pattern."""
        case = CASE.search(mutant.label)
        if not case:
            return set()
        if (mutant.crate, mutant.path) not in self.cases:
            text = self.sources.files[mutant.crate, mutant.path].text
            self.cases[mutant.crate, mutant.path] = {
                it.name: [set(VARIANT.findall(one.left)) - {it.name} for one in it.cases] for it in definitions_of(text)}
        return self.cases[mutant.crate, mutant.path][mutant.item.name][int(case[1]) - 1]

    def order(self, item, mutant):
        """First those that name the field or the case that is wrong, and the definition itself, open it or compute; then
        the shortest."""
        field, text = FIELD.search(mutant.label), f"{item.head} {item.body}"
        lacks_field = bool(field) and not names(text, field[1])
        lacks_case = sum(not names(text, it) for it in self.variants(mutant))
        names_it = mutant.item in item.shown or mutant.item in item.inner
        opens_it = mutant.item in item.opens or "refl" in text or item.kind == "clause"
        return lacks_field, lacks_case, not names_it, not opens_it, len(text) // 400
