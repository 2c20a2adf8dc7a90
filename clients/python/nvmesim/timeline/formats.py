"""The picture as one SVG file, and as a PNG file, for reports that take no page."""
from __future__ import annotations

import os
import re
import shutil
import subprocess
import tempfile
from html import escape
from pathlib import Path
from typing import List, Optional, Sequence

from ..errors import NvmesimError
from .bands import Told
from .picture import Picture
from .style import STYLE

FORMS = ("html", "svg", "png")
"""What a picture can be written as."""
_GAP = 12
_HEAD = 34
_MOST_PIXELS = 30_000
_BROWSERS = ("chromium", "chromium-browser", "google-chrome", "chrome")
_CONVERTER = "rsvg-convert"


class NoFormat(NvmesimError):
    """A picture can't be written in a format."""


def form_of(name: Optional[str], forms: Sequence[str] = FORMS) -> str:
    """The format for the ending of a file's name: a page if there is no file, or its name has no ending.

    Raises:
        NoFormat: it ends otherwise.
    """
    ending = Path(name or "").suffix.lower()
    form = {"": "html", ".htm": "html"}.get(ending, ending[1:])
    if form not in forms:
        known = " or ".join(f".{it}" for it in forms)
        raise NoFormat(f"{name} ends with {ending}, which is no format that is written here: {known}, or no ending")
    return form


def svg(script: str, transcript: str, title: str, told: Sequence[Told] = ()) -> str:
    """The picture of a script and its transcript as an SVG file, light or dark as the reader's system is."""
    picture = Picture(script, transcript, told)
    width, top = picture.layout.width, _HEAD
    body: List[str] = []
    for part in picture.parts:
        body.append(f'<g transform="translate(0 {top})">{_inner(part.svg())}</g>')
        top += part.height + _GAP
    return (f'<svg xmlns="http://www.w3.org/2000/svg" width="{width}" height="{top}" viewBox="0 0 {width} {top}" '
            f'role="img" aria-label="{escape(title, quote=True)}"><style>{_style()}</style>{_STRIPES}'
            f'<rect width="{width}" height="{top}" fill="var(--ground)"/><text class="line" x="8" y="22">'
            f'{escape(title)}</text>\n' + "\n".join(body) + "</svg>\n")


def _inner(part: str) -> str:
    """The content of a part's element."""
    return part[part.index(">") + 1:part.rindex("</svg>")]


def _style() -> str:
    """The page's style rules for pictures, without those for pointers and paper."""
    rules = re.sub(r"@(page|media print) \{(?:[^{}]|\{[^{}]*\})*\}", "", STYLE)
    return rules.replace("svg.part", "svg .part").replace("&", "&amp;").replace("<", "&lt;")


def png(script: str, transcript: str, title: str, told: Sequence[Told] = ()) -> bytes:
    """The picture as a PNG file, by a browser or a converter on the path.

    Raises:
        NoFormat: there is none, it fails, or the picture is too tall for one.
    """
    text = svg(script, transcript, title, told)
    found = re.search(r'width="(\d+)" height="(\d+)"', text)
    assert found is not None
    width, height = int(found[1]), int(found[2])
    if max(width, height) > _MOST_PIXELS:
        raise NoFormat(f"the picture has {width} by {height} pixels, and a PNG file at most {_MOST_PIXELS} each way: "
                       "use svg or html")
    converter = shutil.which(_CONVERTER)
    browser = next(filter(None, map(shutil.which, _BROWSERS)), None)
    if converter is None and browser is None:
        raise NoFormat(f"PNG needs {_CONVERTER} or a browser on the path: {', '.join(_BROWSERS)}")
    with tempfile.TemporaryDirectory(prefix="nvmesim-") as room:
        source, made = os.path.join(room, "picture.svg"), os.path.join(room, "picture.png")
        Path(source).write_text(text, encoding="utf-8")
        command = [converter, "-o", made, source] if converter else [
            str(browser), "--headless", "--no-sandbox", "--disable-gpu", "--hide-scrollbars", f"--screenshot={made}",
            f"--user-data-dir={room}/profile", f"--window-size={width},{height}", f"file://{source}"]
        done = subprocess.run(command, stdin=subprocess.DEVNULL, stdout=subprocess.PIPE, stderr=subprocess.STDOUT,
                              text=True, timeout=120)
        if done.returncode != 0 or not os.path.exists(made):
            said = done.stdout.strip().splitlines() or ["no message"]
            raise NoFormat(f"{command[0]} makes no PNG file of the picture: {said[-1]}")
        return Path(made).read_bytes()


_STRIPES = ('<defs><pattern id="stripes" width="6" height="6" patternUnits="userSpaceOnUse" '
            'patternTransform="rotate(45)"><rect class="stripe-ground" width="6" height="6"/>'
            '<rect class="stripe" width="3" height="6"/></pattern></defs>')
