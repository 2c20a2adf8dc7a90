"""The command of a library for C: it builds it, installs what is built, or tests it."""
import os
import subprocess
import sys
import tempfile
from pathlib import Path

from support.library.building import NotBuilt


def main(name, usage, given, ways, client):
    """Runs the way of the option that is given, or of none, on a folder; or the tests of a client on a temporary one.
    Returns the exit status."""
    option = given[0] if given and given[0].startswith("-") else ""
    words = given[bool(option):]
    try:
        if given == ["--test"]:
            with tempfile.TemporaryDirectory(prefix=f"{name}-") as room:
                ways[""](Path(room))
                environment = {"INSTALLED": room, "PYTHONPATH": sys.path[0], "PYTHONDONTWRITEBYTECODE": "1"}
                return subprocess.run([sys.executable, "-m", "unittest", "discover", "-v", "-t", ".", "-s", "tests"],
                                      cwd=client, env={**os.environ, **environment}).returncode
        if option not in ways or len(words) != 1:
            print(usage.strip(), file=sys.stderr)
            return 2
        ways[option](Path(words[0]).resolve())
        return 0
    except NotBuilt as error:
        print(f"{name}: {error}", file=sys.stderr)
        return 1
