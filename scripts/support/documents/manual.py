"""The manual pages' lists of options: each is made of its program's --help, and is between two marks."""
import re
import subprocess
import sys
import textwrap
import xml.etree.ElementTree as xml
from pathlib import Path
from typing import Callable, Dict, Iterator, List, Tuple

from support.documents.texts import Finding

BEGIN = '.\\" scripts/documents --manual writes these lines from --help.'
END = '.\\" End of the lines from --help.'
BETWEEN = re.compile(re.escape(BEGIN) + r"\n(.*?)" + re.escape(END), re.S)
HELP = re.compile(r'HELP: &str = "\\\n(.*?)";', re.S)
ENTRY = re.compile(r" {0,2}(\S.*?) {2,}(\S.*)$")
MORE = " " * 20

# A form of the command line or an option, and what it does.
Entry = Tuple[str, str]


def entries_of(text: str) -> Iterator[Entry]:
    """The entries of a help text of two columns, of which the second may continue in the lines below."""
    form, words = "", ""
    for line in [*text.splitlines(), ""]:
        if form and line.startswith(MORE):
            words += " " + line.strip()
            continue
        if form:
            yield form, words
        found = ENTRY.match(line)
        form, words = found.groups() if found else ("", "")


def of_wrapper(top: Path, name: str) -> List[Entry]:
    """What ./nvmesim or ./nvmelive prints for --help, which needs no build."""
    done = subprocess.run(["bash", str(top / name), "--help"], stdout=subprocess.PIPE, text=True, check=True)
    return list(entries_of(done.stdout))


def of_target(top: Path) -> List[Entry]:
    """The text that ./nvmetcp has for --help."""
    found = HELP.search((top / "clients/nvme-tcp/src/options.rs").read_text(encoding="utf-8"))
    return list(entries_of(found[1] if found else ""))


def of_agent(top: Path) -> List[Entry]:
    """The parameters in the metadata of the fence agent, from which its --help is made too."""
    words = [sys.executable, "-B", str(top / "clients/fence/fence_nvme_pr"), "--action=metadata"]
    root = xml.fromstring(subprocess.run(words, stdout=subprocess.PIPE, text=True, check=True).stdout)
    found = []
    for it in root.iter("parameter"):
        default = it.find("content").get("default", "")
        found.append((it.find("getopt").get("mixed"),
                      it.findtext("shortdesc") + (f" (default: {default})" if default else "")))
    return found


PAGES: Dict[str, Callable[[Path], List[Entry]]] = {
    "man/nvmesim.1": lambda top: of_wrapper(top, "nvmesim"),
    "man/nvmelive.1": lambda top: of_wrapper(top, "nvmelive"),
    "man/nvmetcp.1": of_target,
    "man/fence_nvme_pr.8": of_agent,
}


def escaped(words: str) -> str:
    """A line of text that mdoc(7) shows as it is."""
    words = words.replace("\\", "\\e")
    return "\\&" + words if words[:1] in (".", "'") else words


def list_of(entries: List[Entry]) -> str:
    """The entries as a list of mdoc(7)."""
    lines = [".Bl -tag -width Ds"]
    for form, words in entries:
        lines.append(".It Li " + escaped(form).replace("-", "\\-"))
        lines += map(escaped, textwrap.wrap(f"{words[0].upper()}{words[1:]}.", 110, break_on_hyphens=False))
    return "\n".join([*lines, ".El", ""])


def write(top: Path) -> None:
    """Writes the lists of all pages anew."""
    for name, entries in PAGES.items():
        text = (top / name).read_text(encoding="utf-8")
        made = BETWEEN.sub(lambda _: f"{BEGIN}\n{list_of(entries(top))}{END}", text)
        (top / name).write_text(made, encoding="utf-8")


def check(top: Path, _found: object) -> Iterator[Finding]:
    """Each page has the list that its --help gives."""
    for name, entries in PAGES.items():
        found = BETWEEN.search((top / name).read_text(encoding="utf-8"))
        if not found or found[1] != list_of(entries(top)):
            yield Finding(name, 1, "its options are not those of --help: scripts/documents --manual writes them")
