"""Wrong definitions by rule: what each definition of a file could have said instead."""
import re
from collections import Counter
from dataclasses import dataclass

from support.definitions.reading import definitions_of, split_at

TRUE = {"Type 0": "Unit {0}", "Bool": "true"}
FALSE = {"Type 0": "⊥", "Bool": "false"}
NUMBER = re.compile(r"(?<![\w.{])(0x[0-9a-fA-F]+|[0-9]+)(?![\w}])")
UPDATE = re.compile(r"record (\w[\w.]*|\([^(){}]*\)) \{")
SAYS = re.compile(r"[≡≢≤<→⊎↔]|^\s*(?:Is|Has|May|\w+s [a-z])[\w ]*")


@dataclass(frozen=True)
class Wrong:
    """One wrong definition: the definition, the rule, and the file's whole text with it; `bare` is that text before
    the import of what it needs."""
    name: str
    rule: str
    text: str
    bare: str


def names_in(text):
    return set(re.findall(r"[\w-]+", text))


def replaced(text, case, right):
    return text[:case.start] + right + text[case.end:]


def swapped(text, case, start, end, new):
    """The text with a part of a case's right side replaced; the part is counted from where that side begins."""
    return text[:case.start + start] + new + text[case.start + end:]


def whole_cases(text, definition, case, following):
    """A case made true, false, or what the next case says."""
    right = case.right(text).strip()
    # What a law says is judged by its proof: it speaks of nothing that is given.
    is_law = definition.gives == "Type 0" and case.left.strip() == definition.name
    for word in (TRUE.get(definition.gives), FALSE.get(definition.gives)):
        if word and word != right and not is_law:
            yield f"is {word.split()[0]}", replaced(text, case, f" {word}")
    if following:
        bound = names_in(following.left) - {definition.name}
        other = following.right(text)
        if other.strip() != right and names_in(other) & bound <= names_in(case.left):
            yield "is the next case", replaced(text, case, other)


def conjuncts(text, definition, case):
    """One conjunct dropped."""
    right = case.right(text)
    for mark, word in ((" × ", "Unit {0}"), (" && ", "true")):
        places = split_at(right, mark)
        if not places or definition.gives != ("Type 0" if word != "true" else "Bool"):
            continue
        borders = [0, *places, len(right)]
        for number, (start, end) in enumerate(zip(borders, borders[1:])):
            begins = start if number == 0 else start + len(mark)
            part = right[begins:end]
            if "→" not in part and part.strip() != word:
                lead = " " if number == 0 else ""
                yield f"lacks conjunct {number + 1}", swapped(text, case, begins, end, lead + word)


def assignments(text, case):
    """One assignment of a record's update left out."""
    right = case.right(text)
    for update in UPDATE.finditer(right):
        inside = right[update.end():]
        close = next((at for at in range(len(inside)) if inside[:at + 1].count("}") > inside[:at + 1].count("{")), 0)
        parts = inside[:close]
        borders = [-1, *split_at(parts, ";"), len(parts)]
        for number, (start, end) in enumerate(zip(borders, borders[1:])):
            one = parts[start + 1:end]
            if " = " not in one:
                continue
            rest = parts[:start + 1] + parts[end + 1:]
            new = f"record {update[1]} {{{rest}}}" if " = " in rest else update[1]
            field = one.split("=")[0].strip()
            yield f"leaves {field}", swapped(text, case, update.start(), update.end() + close + 1, new)


def numbers(text, case):
    """One number one more."""
    for number, it in enumerate(NUMBER.finditer(case.right(text))):
        value = int(it[1], 0) + 1
        yield f"number {number + 1} is {value}", swapped(text, case, it.start(), it.end(), str(value))


def of_record(text, definition):
    """One field that says something, made to say nothing."""
    for case in definition.cases:
        right = case.right(text)
        if SAYS.search(right) and "Unit {0}" not in right:
            yield f"field {case.name} says nothing", replaced(text, case, " Unit {0}")


def of_cases(text, definition):
    for number, case in enumerate(definition.cases):
        following = definition.cases[number + 1] if number + 1 < len(definition.cases) else None
        which = f"case {number + 1} " if len(definition.cases) > 1 else ""
        rules = [*whole_cases(text, definition, case, following), *conjuncts(text, definition, case),
                 *assignments(text, case), *numbers(text, case)]
        yield from ((which + rule, new) for rule, new in rules)


def with_words(text):
    """The text, where `true` and `false` are imported if they are used."""
    words = [it for it in ("true", "false") if re.search(rf"[ (]{it}\b", text.split("\n\n", 1)[-1])]
    head = re.search(r"^use Rattle\.std\.specs\.Prelude\.\{([^}]*?),?\s*\}", text, re.M)
    lacking = [it for it in words if not head or it not in re.split(r",\s*", head[1].strip())]
    if not lacking:
        return text
    if head:
        return text[:head.end(1)] + "".join(f", {it}" for it in lacking) + text[head.end(1):]
    at = text.index("use ")
    return f"{text[:at]}use Rattle.std.specs.Prelude.{{{', '.join(lacking)}}}\n{text[at:]}"


def wrong_definitions(text):
    """All wrong definitions of a file, in order, each text once."""
    seen, named = {text}, Counter()
    for definition in definitions_of(text):
        found = of_record(text, definition) if definition.is_record else of_cases(text, definition)
        for rule, new in found:
            if new not in seen:
                seen.add(new)
                # Several updates of one case may leave out the same field.
                named[definition.name, rule] += 1
                count = named[definition.name, rule]
                yield Wrong(definition.name, f"{rule}, {count}" if count > 1 else rule, with_words(new), new)
