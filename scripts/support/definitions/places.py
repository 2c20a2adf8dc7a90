"""A check of wrong definitions: of their own crate, or of one above it over the sources of what is between."""
import os
import re
import shutil
import tempfile
from pathlib import Path

from support.definitions.batches import merged
from support.definitions.copies import texts_of
from support.trial import linked, run

# The processor seconds after which a check of a batch is given up, and one of the whole crate.
LIMIT, LONG = 100, 1500
DONE = re.compile(r"^checked (\S+), \d+ of \d+", re.M)


def source_words(rt, asker, wrong, folder):
    """What a check of a crate above is given: the wrong crate, and what is above it or not built, as sources."""
    kit, below = rt.rtlib.KIT, asker.below()
    sources = [it for it in below if it is wrong or wrong in it.below() or not it.is_built()]
    of_kit = dict.fromkeys(["core", *asker.of_kit, *(name for it in sources for name in it.of_kit)])
    words = ["--crate-name", asker.name, f"src/{'main' if asker.is_program else 'lib'}.rt"]
    for name in of_kit:
        words += ["--extern", f"{name}={kit}/rlibs/{name}.rlib"]
    words += ["-L", f"dependency={kit}/rlibs"]
    for it in below:
        if it in sources:
            uses = dict.fromkeys(["core", *it.of_kit, *(one.name for one in it.deps)])
            root = folder if it is wrong else it.folder
            words += ["--lib", f"{it.name}:{','.join(uses)}={root}/src/lib.rt"]
        else:
            words += ["--extern", f"{it.name}={it.rlib}", "-L", f"dependency={os.path.dirname(it.rlib)}"]
    words += ["--antt-project", f"{kit}/rattle/logic/antt-project.json", "--logic-built", f"{kit}/logic_built"]
    words += ["--crate-type", "staticlib"] if asker.is_static else []
    return [*words, "--jobs", "1"]


def limited(words, seconds):
    return ["sh", "-c", f'ulimit -t {seconds}; exec "$@"', "sh", *words]


def declare(room, path, is_program):
    """Declares a new file in the module above it."""
    folder, words = Path(path).parent, "mod {};" if path.startswith("src/") else "pub mod {}"
    roots = [f"src/{'main' if is_program else 'lib'}.rt"] if str(folder) == "src" else [f"{folder}/Lib.antt"]
    roots = roots if folder.name in ("src", "specs", "proofs") else [f"{folder}.rt", f"{folder}/mod.rt"]
    root = next((it for it in roots if Path(room, it).exists()), roots[0])
    with Path(room, root).open("a") as above:
        above.write(f"\n{words.format(Path(path).stem)}\n")


class Place:
    """A crate that is asked about wrong definitions of itself or of one below it. Nothing in the repository is
    written; what each check begins with is what `rt check` left of the crate."""

    def __init__(self, rt, asker, wrong):
        self.rt, self.asker, self.wrong = rt, asker, wrong
        self.room = tempfile.mkdtemp(prefix="wrong-definitions-")
        self.kept, self.seconds, self.checks = f"{self.room}/kept", 0.0, 0
        left = Path(asker.folder, "out/incremental")
        if left.is_dir():
            linked(left, self.kept)
        else:
            os.mkdir(self.kept)

    def close(self):
        shutil.rmtree(self.room, ignore_errors=True)

    def texts(self, batch):
        """The files of the wrong crate that a batch changes."""
        changed = {}
        for it in batch:
            changed.setdefault(it.path, []).append(it.bare)
        return {path: merged(Path(self.wrong.folder, path).read_text(), it) for path, it in changed.items()}

    def check(self, batch, only, seconds=LIMIT, keeps=False):
        """One check with these wrong definitions, of some functions or of all."""
        with tempfile.TemporaryDirectory(dir=self.room) as room:
            for part in self.rt.rtlib.PARTS:
                if Path(self.wrong.folder, part).is_dir():
                    shutil.copytree(f"{self.wrong.folder}/{part}", f"{room}/wrong/{part}")
            for path, text in self.texts(batch).items():
                Path(room, "wrong", path).write_text(text)
            kept = self.kept
            if not keeps:
                kept = f"{room}/kept"
                linked(self.kept, kept)
            return self.run(room, kept, only, seconds)

    def check_copies(self, copies, seconds):
        """One check of the crate as it is, with these copies in modules of their own."""
        with tempfile.TemporaryDirectory(dir=self.room) as room:
            for part in self.rt.rtlib.PARTS:
                if Path(self.asker.folder, part).is_dir():
                    shutil.copytree(f"{self.asker.folder}/{part}", f"{room}/{part}")
            files, functions = texts_of(copies)
            for path, text in files.items():
                Path(room, path).parent.mkdir(parents=True, exist_ok=True)
                Path(room, path).write_text(text)
            # A function's own proof is found by its folder.
            for path in (it for it in files if it.startswith("src/") or it.count("/") == 1):
                declare(room, path, self.asker.is_program)
            words = [*self.rt.rtlib.guarded(), self.rt.rtlib.RATTLE, "check"]
            words += self.asker.words(["--jobs", "1"], keeps=False)
            # Half of the search's limits: what is refused so counts only if the same copy is proved so as it is.
            return self.checked([*words, "--margin", "--incremental", self.kept], functions, seconds, room)

    def saved(self):
        """The modules that checks saved, as files."""
        return {it.name for it in Path(self.kept).glob("*/*.oantt")}

    def run(self, room, kept, only, seconds):
        is_own = self.asker is self.wrong
        words = [*self.rt.rtlib.guarded(), self.rt.rtlib.RATTLE, "check"]
        words += self.asker.words(["--jobs", "1"], keeps=False) if is_own else source_words(
            self.rt, self.asker, self.wrong, f"{room}/wrong")
        folder = f"{room}/wrong" if is_own else self.asker.folder
        return self.checked([*words, "--incremental", kept, "--progress"], only, seconds, folder)

    def checked(self, words, only, seconds, folder):
        said = run(limited([*words, *(word for it in only for word in ("--only", it))], seconds), folder)
        self.seconds, self.checks = self.seconds + said.seconds, self.checks + 1
        return said


def unfinished(said, functions):
    """The functions whose proofs a check that was given up had not ended with."""
    done = [f"::{it}" for it in DONE.findall(said.text)]
    return [it for it in functions if not any(one.endswith(f"::{it}") for one in done)]
