"""parv-rescue on file systems of several kinds, mounted where that is allowed: runs that go on, also after the file
system was mounted again, and a folder that was copied."""

from __future__ import annotations

import os
import sys

from .calls import BIN, Calls
from .rooms import Room, read, write
from .test_rescue_files import BIG, COPY, FRONT, PART, SIZE, WHOLE

RESCUE = os.path.join(BIN, "parv-rescue")
SCRIPT = """set -e
{mount} || exit 99
mkdir -p disk/tmp
export TMPDIR=$PWD/disk/tmp
"$1" disk/new room/set.par2 part1 || [ $? = 1 ]
[ $(stat -c %b disk/new/big) -lt {most} ]
cp -a disk/new disk/copy
{again}
"$1" disk/new room/set.par2 part2
"$1" disk/copy room/set.par2 part2
"$1" disk/new room/set.par2 part2
ls -A disk/tmp
cmp disk/new/big room/big
cmp disk/copy/big room/big
"""


class Systems(Calls):
    def setUp(self) -> None:
        self.room = Room({"big": BIG}, SIZE)
        self.addCleanup(self.room.close)
        write(os.path.join(self.room.top, "part1"), BIG[:FRONT])
        write(os.path.join(self.room.top, "part2"), BIG[FRONT:])

    def on(self, mount: str, again: str = "") -> None:
        """Runs the commands on a file system that is mounted in this way. A file with holes takes few blocks there."""
        script = SCRIPT.format(mount=mount, again=again, most=len(BIG) // 512)
        ended = self.mounting(script, RESCUE)
        self.assertEqual(ended, (0, PART.format(5) + WHOLE.format(11) * 2 + WHOLE.format(0), COPY.format("disk/copy")))

    def on_image(self, kind: str) -> None:
        mount = self.disk(kind)
        self.on(mount, f"umount disk\n{mount}")

    def test_a_rescue_on_ext4(self) -> None:
        self.on_image("ext4")

    def test_a_rescue_on_xfs(self) -> None:
        self.on_image("xfs")

    def test_a_rescue_on_btrfs(self) -> None:
        self.on_image("btrfs")

    def test_a_byte_that_changes_on_a_disk_is_noticed(self) -> None:
        """(No time of the file changes with it. test_rescue_files has the same without a mount.)"""
        flips = ("import mmap; file = open('ext4', 'r+b'); data = mmap.mmap(file.fileno(), 0)\n"
                 "data[data.find(open('room/big', 'rb').read()[8192:12288]) + 5] ^= 1")
        mount = self.disk("ext4")
        ended = self.mounting(f'{mount} || exit 99\n"$1" disk/new room/set.par2 room/big; umount disk; "$2" -c "$3"\n'
                              f'{mount} || exit 99\n"$1" disk/new room/set.par2 room/big', RESCUE, sys.executable, flips)
        self.assertEqual(ended, (1, WHOLE.format(16) + "wrong big 16/16\nslices 16/16, copied now 0\n", ""))

    def test_a_rescue_on_tmpfs(self) -> None:
        self.on(self.disk("tmpfs"))

    def test_a_rescue_on_overlayfs(self) -> None:
        self.on(self.disk("overlay"))

    def test_a_rescue_on_exfat(self) -> None:
        """(It has no links, and no holes. A file may have another inode each time.)"""
        mount = self.disk("exfat")
        ended = self.mounting(f'{mount} || exit 99\n"$1" disk/new room/set.par2 part1; "$1" disk/new room/set.par2 part2\n'
                              f'umount disk; {mount} || exit 99\n"$1" disk/new room/set.par2 part2; cmp disk/new/big '
                              'room/big && ls disk/new/.parv-rescue && cp -r disk/new disk/copy\n'
                              '"$1" disk/copy room/set.par2 part2', RESCUE)
        self.assertEqual((ended[0], ended[1]), (0, PART.format(5) + WHOLE.format(11) + WHOLE.format(0)
                                                + "disk/new/.parv-rescue\n" + WHOLE.format(0)), ended)

    def test_a_folder_on_a_lower_layer_is_taken_up_by_its_content(self) -> None:
        """(There a file gets another inode once it is written.)"""
        self.assertEqual(self.call(RESCUE, "disk/new", "room/set.par2", "part1")[0], 1)
        script = ("mkdir below && mount -t tmpfs tmpfs below && mkdir below/upper below/work && mount -t overlay -o "
                  'lowerdir=disk,upperdir=below/upper,workdir=below/work overlay disk || exit 99; "$1" disk/new '
                  'room/set.par2 part2; echo $?; cmp disk/new/big room/big; "$1" disk/new room/set.par2 part2')
        ended = self.mounting(script, RESCUE)
        self.assertEqual((ended[0], ended[1]), (0, WHOLE.format(11) + "0\n" + WHOLE.format(0)), ended)
        self.assertEqual(read(os.path.join(self.room.top, "disk/new/big"))[FRONT:], bytes(len(BIG) - FRONT))
