"""Files that the target writes: none replaces an existing one without --force, and no two are the same."""
import os
import socket
import subprocess
import tempfile
from pathlib import Path
from typing import Sequence

from tests.host import BLOCK
from tests.targets import BLOCKS, PROGRAM, Target, TargetTest


class Outputs(TargetTest):
    """Each test starts another target with its own options, while one runs."""

    image = BLOCKS

    def setUp(self) -> None:
        super().setUp()
        room = tempfile.TemporaryDirectory()
        self.addCleanup(room.cleanup)
        self.room = Path(room.name)
        self.config_file = self.room / "config.nvme"
        self.config_file.write_text(self.config)
        self.disk = self.room / "disk.img"
        self.disk.write_bytes(b"\5" * BLOCK * BLOCKS)

    def refused(self, options: Sequence[str], text: str, status: int = 2) -> None:
        """A target with these options does not start, prints this message, and changes nothing."""
        before = self.content()
        words = [PROGRAM, "--listen", "127.0.0.1:0", *map(str, options), str(self.config_file)]
        ran = subprocess.run(words, stdout=subprocess.PIPE, stderr=subprocess.PIPE, text=True, timeout=10)
        self.assertEqual((ran.returncode, ran.stdout), (status, ""), ran.stderr)
        self.assertIn(text, ran.stderr)
        self.assertEqual(self.content(), before)

    def content(self) -> dict:
        return {it: it.read_bytes() for it in sorted(self.room.rglob("*")) if it.is_file()}

    def started(self, *options: object) -> Target:
        """A target that starts."""
        room = tempfile.TemporaryDirectory()
        self.addCleanup(room.cleanup)
        other = Target(Path(room.name), options=[str(it) for it in options])
        self.addCleanup(other.close)
        return other

    def test_a_script_that_is_there(self) -> None:
        script, transcript = self.room / "run.nvme", self.room / "run.nvme.out"
        for there in (script, transcript):
            there.write_text("mine\n")
            self.refused(["--script", script], f"{there}: it exists; --force replaces it")
            there.unlink()
        script.write_text("mine\n")
        transcript.write_text("mine too\n")
        self.started("--script", script, "--force")
        self.assertTrue(script.read_text().startswith("controller 1 host 0xa1 raw\n"))
        self.assertNotIn("mine", script.read_text() + transcript.read_text())

    def test_a_recording_that_is_there(self) -> None:
        recording = self.room / "run"
        recording.write_text("mine\n")
        self.refused(["--record", recording], f"{recording}: it exists; --force replaces it")
        one = self.started("--record", recording, "--force")
        self.assertTrue(recording.read_bytes().startswith(b"nvmetcp recording "))
        self.assertNotIn(b"mine", recording.read_bytes())
        self.refused(["--record", recording, "--force"], f"process {one.process.pid} (nvmetcp) has it locked")
        self.refused(["--script", recording, "--force"], "has it locked")

    def test_a_script_and_a_recording(self) -> None:
        self.refused(["--script", self.room / "a", "--record", self.room / "b"],
                     "--script and --record exclude each other", 3)

    def test_what_is_no_file(self) -> None:
        self.refused(["--script", self.room, "--force"], "it is no file")
        self.refused(["--record", self.room, "--force"], "it is no file")
        with socket.socket(socket.AF_UNIX) as listener:
            listener.bind(str(self.room / "socket"))
            self.refused(["--script", self.room / "socket", "--force"], "it is no file")
        (self.room / "link").symlink_to(self.room / "nothing")
        self.refused(["--script", self.room / "link"], "File exists")

    def test_two_targets_with_one_script(self) -> None:
        script = self.room / "run.nvme"
        one = self.started("--script", script)
        self.refused(["--script", script], "it exists")
        self.refused(["--script", script, "--force"], f"process {one.process.pid} (nvmetcp) has it locked")
        os.link(self.room / "run.nvme.out", self.room / "other.nvme.out")
        self.refused(["--script", self.room / "other.nvme", "--force"], "has it locked")

    def test_an_input(self) -> None:
        """An input is never an output, by any option or name, not even with --force."""
        state = self.room / "state"
        self.started("--state", state).kill()
        link, hard = self.room / "link", self.room / "hard"
        link.symlink_to(self.disk)
        os.link(self.disk, hard)
        image = ["--image", self.disk, "--force"]
        for script in (self.disk, link, hard, self.room / "state/../disk.img"):
            self.refused([*image, "--script", script], f"{script}: it would be the image and the script")
            self.refused([*image, "--record", script], f"{script}: it would be the image and the recording")
        self.refused(["--script", self.config_file, "--force"], "it would be CONFIG and the script")
        self.refused(["--record", self.config_file, "--force"], "it would be CONFIG and the recording")
        self.refused(["--image", self.config_file], "it would be CONFIG and the image")
        for name in ("journal", "in-use", "identity"):
            self.refused(["--state", state, "--script", state / name, "--force"], "a file of the state folder and the")
            self.refused(["--state", state, "--record", state / name, "--force"], "a file of the state folder and the")
            self.refused(["--state", state, "--image", state / name], "it would be the image and a file of the state")
        beside = self.disk.with_name("run.nvme.out")
        self.disk.rename(beside)
        self.refused(["--image", beside, "--script", self.room / "run.nvme", "--force"],
                     "it would be the image and its transcript")
        (self.room / "same.out").touch()
        os.symlink("same.out", self.room / "same")
        self.refused(["--script", self.room / "same", "--force"], "it would be the script and its transcript")

    def test_a_start_that_fails_leaves_no_script(self) -> None:
        os.truncate(self.disk, BLOCK)
        for option in ("--script", "--record"):
            self.refused(["--image", self.disk, option, self.room / "run.nvme"], "the 1 blocks", 1)

    def test_a_socket(self) -> None:
        """The control socket never replaces an existing file."""
        self.room.chmod(0o700)
        self.refused(["--control", self.disk], "it exists, and is not a socket")

    def test_a_folder_that_all_share(self) -> None:
        """Its permissions stay. A private folder is suggested, and works."""
        self.room.chmod(0o1777)
        own = self.room / "nvmetcp.control/socket"
        self.refused(["--control", self.room / "socket"], "choose one that only you can enter, which is created "
                     f"if needed, as --control {own}\n")
        other = self.started("--control", own)
        self.assertTrue(own.is_socket())
        self.assertEqual((own.parent.stat().st_mode & 0o777, self.room.stat().st_mode & 0o7777), (0o700, 0o1777))
        other.kill()

    def test_streams(self) -> None:
        """They lose nothing."""
        pipe = self.room / "pipe"
        os.mkfifo(pipe)
        reader = os.open(pipe, os.O_RDONLY | os.O_NONBLOCK)
        self.started("--script", pipe)
        self.assertTrue(os.read(reader, 1 << 16).startswith(b"controller 1"))
        os.close(reader)
        os.unlink(pipe)
        os.mkfifo(pipe)
        reader = os.open(pipe, os.O_RDONLY | os.O_NONBLOCK)
        self.started("--record", pipe)
        self.assertTrue(os.read(reader, 1 << 16).startswith(b"nvmetcp recording "))
        os.close(reader)
