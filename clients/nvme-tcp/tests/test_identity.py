"""Which disk hosts see: Linux takes two with the same serial number and UUID for paths of one."""
import shutil
import tempfile
from pathlib import Path
from typing import Optional, Sequence

from tests.host import Host
from tests.targets import BLOCKS, TWO_HOSTS, Target, TargetTest


def seen(target: Target) -> tuple:
    """The serial number of a target, and the UUID of its namespace."""
    host = Host(target.port, 0xa1)
    controller, descriptors = host.identify(1).data, host.identify(3, nsid=1).data
    host.close()
    assert descriptors[:4] == bytes((3, 16, 0, 0)) and not any(descriptors[20:])
    assert controller[4:24].strip().isalnum() and controller[24:44] == b"Multi-Host Subsystem"
    return controller[4:24], descriptors[4:20]


class Identities(TargetTest):
    image = BLOCKS

    def other(self, image: Optional[int], options: Sequence[str] = ()) -> Target:
        """Another target, in a folder of its own."""
        room = tempfile.TemporaryDirectory()
        self.addCleanup(room.cleanup)
        other = Target(Path(room.name), TWO_HOSTS, image, options)
        self.addCleanup(other.close)
        return other

    def differ(self, one: tuple, two: tuple) -> None:
        self.assertTrue(one[0] != two[0] and one[1] != two[1], one)

    def lasts(self, target: Target) -> tuple:
        """What is seen of a target, which is the same when it is started again."""
        before = seen(target)
        target.kill()
        target.start()
        self.assertEqual(seen(target), before)
        return before

    def test_images(self) -> None:
        one, other = self.lasts(self.target), self.other(BLOCKS)
        self.differ(one, self.lasts(other))
        other.kill()
        shutil.copy2(self.target.image, other.image.with_suffix(".copy"))
        other.image.with_suffix(".copy").rename(other.image)
        other.start()
        self.differ(one, seen(other))

    def test_state_folders(self) -> None:
        """It goes with the folder, whatever the image."""
        with tempfile.TemporaryDirectory() as one, tempfile.TemporaryDirectory() as two:
            told = []
            for folder, image in ((one, None), (one, BLOCKS), (two, BLOCKS)):
                other = self.other(image, ["--state", folder])
                told.append(self.lasts(other))
                other.kill()
            self.assertEqual(told[0], told[1])
            self.differ(told[1], told[2])

    def test_nothing_kept(self) -> None:
        one, two = self.other(None), self.other(None)
        self.differ(seen(one), seen(two))
