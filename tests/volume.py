"""Writes the image of a volume of 4,096 blocks of 1,024 bytes: its superblock and the inode of its root directory, over zeros.

usage: volume.py IMAGE
The values are those of the public format (Haiku's bfs.h), for a log of 512 blocks behind one bitmap block.
"""
import struct
import sys


def superblock(label: bytes = b"untitled") -> bytes:
    sector = bytearray(512)
    sector[0:len(label)] = label
    struct.pack_into("<iiII", sector, 32, 0x42465331, 0x42494745, 1024, 10)
    struct.pack_into("<qq", sector, 48, 4096, 529)
    struct.pack_into("<iIiiii", sector, 64, 1024, 0xDD121031, 1, 13, 1, 0x434C454E)
    struct.pack_into("<iHH", sector, 88, 0, 2, 512)
    struct.pack_into("<qqi", sector, 96, 0, 0, 0x15B6830E)
    struct.pack_into("<iHHiHH", sector, 116, 0, 514, 1, 0, 517, 1)
    return bytes(sector)


def root_inode() -> bytes:
    """The inode of the root directory: block 514, a stream of two blocks behind it, no attributes."""
    block = bytearray(1024)
    struct.pack_into("<iiHH", block, 0, 0x3BBE0AD9, 0, 514, 1)
    struct.pack_into("<iiii", block, 12, 0, 0, 0o40755, 1)
    struct.pack_into("<iHH", block, 44, 0, 514, 1)
    struct.pack_into("<i", block, 64, 1024)
    struct.pack_into("<iHH", block, 72, 0, 515, 2)
    struct.pack_into("<q", block, 168, 2048)
    struct.pack_into("<q", block, 208, 2048)
    return bytes(block)


if __name__ == "__main__":
    with open(sys.argv[1], "wb") as image:
        image.truncate(4096 * 1024)
        image.seek(512)
        image.write(superblock())
        image.seek(514 * 1024)
        image.write(root_inode())
