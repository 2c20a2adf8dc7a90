"""A disk that reads old bytes of superblock or journal once, while a target starts: the target reads them again."""
import os
import shutil
import subprocess
from pathlib import Path
from unittest import mock

from tests.targets import Target
from tests.volumes import COPIES, JOURNAL, VolumeTest


class Misreads(VolumeTest):
    def misreading(self, path: Path, old: Path, places: "tuple[int, ...]", turn: int):
        """Targets that start in it read a file at some places as it was before, at one of their reads there."""
        library = self.room / "misread.so"
        if not library.exists():
            source = Path(__file__).parent / "misread.c"
            subprocess.run(["cc", "-O1", "-Wall", "-Wextra", "-shared", "-fPIC", "-o", library, source, "-ldl"],
                           check=True)
        words = {"LD_PRELOAD": library, "MISREAD_OF": path.resolve(), "MISREAD_OLD": old,
                 "MISREAD_AT": ",".join(map(str, places)), "MISREAD_TURN": turn}
        return mock.patch.dict(os.environ, {name: str(value) for name, value in words.items()})

    def kept(self, path: Path) -> Path:
        """A copy of a file as it is now."""
        return Path(shutil.copy(path, f"{path}.old"))

    def is_kept(self, target: Target, places: "tuple[int, ...]", turn: int, path: Path, old: Path) -> None:
        with self.misreading(path, old, places, turn):
            target.start()
        self.is_fenced(target)
        target.close()

    def test_a_superblock_and_a_journal(self) -> None:
        """At a read of its take-over, the owner gets the superblock of an older epoch, or an older journal."""
        self.format()
        target = self.target()
        target.close()
        old = self.kept(self.volume)
        target.start()
        self.fence(target)
        target.close()
        # The first read judges the volume, and the fourth of the superblock the lease.
        for epoch, (places, turn) in enumerate([(COPIES, 2), (COPIES, 5), ((JOURNAL,), 2), ((JOURNAL,), 3)], 3):
            with self.subTest(places=places, turn=turn):
                self.is_kept(target, places, turn, self.volume, old)
                self.assertIn(f"\nepoch {epoch}\n", self.passes("dump", self.volume))

    def test_a_journal_of_a_folder(self) -> None:
        """A read of the journal lacks the records of the fence."""
        folder = self.room / "here"
        folder.mkdir()
        target = Target(folder, options=["--state", str(folder / "state")])
        self.addCleanup(self.end, target)
        journal = folder / "state/journal"
        old = self.kept(journal)
        self.fence(target)
        target.close()
        for turn in (1, 2):
            with self.subTest(turn=turn):
                self.is_kept(target, (0,), turn, journal, old)
