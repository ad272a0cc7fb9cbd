#!/usr/bin/env python3
"""Writes a large recovery set for measurements: many small files, with all packets in each volume.

usage: big_set.py FOLDER FILES VOLUMES

Each of FILES files has one slice of 4 bytes. FOLDER gets VOLUMES packet files. Each has the Main packet, a FileDesc
and an IFSC packet for every file, and one recovery slice of its own.
"""

import os
import struct
import sys

sys.path[0] = os.path.dirname(os.path.dirname(os.path.realpath(__file__)))  # imports are relative to tools/

from make.packets import desc_body, file_id, ifsc_body, main_body, md5, packet, recvslic_body, set_of


def main():
    folder, files, volumes = sys.argv[1], int(sys.argv[2]), int(sys.argv[3])
    os.makedirs(folder, exist_ok=True)
    ids, bodies = [], []
    for number in range(files):
        content = struct.pack("<I", number)
        name = b"%07d" % number
        file = file_id(name, content)
        ids.append(file)
        bodies.append(("filedesc", desc_body(file, name, content)))
        bodies.append(("ifsc", ifsc_body(file, content, 4)))
    main = main_body(4, ids)
    common = set_of(main, *bodies)
    for volume in range(volumes):
        with open(os.path.join(folder, f"big.vol{volume:03d}.par2"), "wb") as out:
            out.write(common)
            out.write(packet(md5(main), "recvslic", recvslic_body(volume, b"data")))


if __name__ == "__main__":
    main()
