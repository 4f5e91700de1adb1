"""Fills a new volume with files in folders, as a program of another maker might, and writes it whole.

usage: fill.py IMAGE FILES FOLDERS [SEED]
The image is one that `mk` made. Every structure is written by the public format (the BFS book, Haiku's bfs.h), from the bottom up: the
trees of the directories and of the three indices are built from sorted rows. Every file has one block, and in each folder every tenth
has an attribute in small data, and every hundredth one in an attribute directory. Prints how many nodes there are and how many blocks
are in use.
"""
import random
import struct
import sys

INODE_MAGIC = 0x3BBE0AD9
TREE_MAGIC = 0x69F6C2E8
PAGE = 1024
NULL = -1
TEXT, I64 = 0, 3


class Volume:
    """The image with its geometry and bitmap; blocks are taken from the front."""

    def __init__(self, image):
        self.image = image
        image.seek(512)
        sector = image.read(512)
        (self.size, _, self.blocks, self.used) = struct.unpack_from("<IIqq", sector, 40)
        (self.shift,) = struct.unpack_from("<i", sector, 76)
        self.root = self.block_at(sector, 116)
        self.indices = self.block_at(sector, 124)
        bits = self.size * 8
        self.bitmap_blocks = (self.blocks + bits - 1) // bits
        image.seek(self.size)
        self.bitmap = bytearray(image.read(self.bitmap_blocks * self.size))
        self.next = 1
        while self.is_marked(self.next):
            self.next += 1

    def block_at(self, data, at):
        group, start, _ = struct.unpack_from("<iHH", data, at)
        return (group << self.shift) + start

    def is_marked(self, block):
        return self.bitmap[block // 8] >> (block % 8) & 1

    def take(self, count):
        """So many blocks, as runs that stay within a group."""
        runs = []
        while count:
            if self.next >= self.blocks:
                sys.exit("fill.py: the volume is too small")
            room = (1 << self.shift) - (self.next & ((1 << self.shift) - 1))
            length = min(count, room, self.blocks - self.next, 65535)
            runs.append((self.next, length))
            for block in range(self.next, self.next + length):
                self.bitmap[block // 8] |= 1 << (block % 8)
            self.next += length
            self.used += length
            count -= length
        return runs

    def give(self, runs):
        for first, length in runs:
            for block in range(first, first + length):
                self.bitmap[block // 8] &= ~(1 << (block % 8))
            self.used -= length

    def run(self, first, length):
        return struct.pack("<iHH", first >> self.shift, first & ((1 << self.shift) - 1), length)

    def read(self, block):
        self.image.seek(block * self.size)
        return bytearray(self.image.read(self.size))

    def write(self, block, data):
        self.image.seek(block * self.size)
        self.image.write(data)

    def write_runs(self, runs, data):
        at = 0
        for first, length in runs:
            self.write(first, data[at : at + length * self.size].ljust(length * self.size, b"\0"))
            at += length * self.size

    def close(self):
        self.image.seek(self.size)
        self.image.write(self.bitmap)
        self.image.seek(512 + 56)
        self.image.write(struct.pack("<q", self.used))


def put_stream(volume, inode, runs, size):
    """The direct runs of an inode: at most twelve."""
    if len(runs) > 12:
        sys.exit("fill.py: a stream has more than twelve runs")
    inode[72:216] = bytes(144)
    for i, (first, length) in enumerate(runs):
        inode[72 + 8 * i : 80 + 8 * i] = volume.run(first, length)
    struct.pack_into("<q", inode, 168, volume.size * sum(length for _, length in runs))
    struct.pack_into("<q", inode, 208, size)


def streams_of(volume, inode):
    runs = []
    for i in range(12):
        length = struct.unpack_from("<H", inode, 78 + 8 * i)[0]
        if length:
            runs.append((volume.block_at(inode, 72 + 8 * i), length))
    return runs


def signed(link):
    return link - (1 << 64) if link >= 1 << 63 else link


class Tree:
    """The pages of a B+tree, built from rows that ascend: each a key and the values that it has."""

    def __init__(self, kind, rows):
        self.pages = [bytearray(PAGE)]
        self.kind = kind
        leaf_rows = [(key, self.link(values)) for key, values in rows]
        level = self.level(leaf_rows, leaf=True)
        levels = 1
        while len(level) > 1:
            level = self.level(level, leaf=False)
            levels += 1
        struct.pack_into("<IIIIqqq", self.pages[0], 0, TREE_MAGIC, PAGE, levels, kind, level[0][1], NULL, PAGE * len(self.pages))

    def new_page(self):
        self.pages.append(bytearray(PAGE))
        return PAGE * (len(self.pages) - 1)

    fragments = None

    def link(self, values):
        if len(values) == 1:
            return values[0]
        if len(values) <= 7:
            if self.fragments is None or self.fragments[1] == 16:
                self.fragments = [self.new_page(), 0]
            page, number = self.fragments
            self.fragments[1] += 1
            struct.pack_into("<q", self.pages[page // PAGE], 64 * number, len(values))
            for i, value in enumerate(values):
                struct.pack_into("<q", self.pages[page // PAGE], 64 * number + 8 + 8 * i, value)
            return signed(3 << 62 | page | number)
        parts = [values[i : i + 125] for i in range(0, len(values), 125)]
        pages = [self.new_page() for _ in parts]
        for i, (page, part) in enumerate(zip(pages, parts)):
            left = pages[i - 1] if i else NULL
            right = pages[i + 1] if i + 1 < len(pages) else NULL
            struct.pack_into("<qqq", self.pages[page // PAGE], 0, left, right, len(part))
            for j, value in enumerate(part):
                struct.pack_into("<q", self.pages[page // PAGE], 24 + 8 * j, value)
        return signed(2 << 62 | pages[0])

    def level(self, rows, leaf):
        """Writes the pages of one level and answers the last key and the place of each."""
        groups = []
        group, length = [], 0
        for row in rows:
            more = length + len(row[0])
            if group and (28 + more + 7) // 8 * 8 + 10 * (len(group) + 1) > PAGE:
                groups.append(group)
                group, length = [], 0
                more = len(row[0])
            group.append(row)
            length = more
        groups.append(group)
        places = [self.new_page() for _ in groups]
        for i, (place, group) in enumerate(zip(places, groups)):
            left = places[i - 1] if i else NULL
            right = places[i + 1] if i + 1 < len(places) else NULL
            self.put_page(place, left, right, group, leaf)
        return [(group[-1][0] if group else b"", place) for group, place in zip(groups, places)]

    def put_page(self, place, left, right, group, leaf):
        page = self.pages[place // PAGE]
        rows = group if leaf else group[:-1]
        overflow = NULL if leaf else group[-1][1]
        keys = b"".join(key for key, _ in rows)
        struct.pack_into("<qqqHH", page, 0, left, right, overflow, len(rows), len(keys))
        page[28 : 28 + len(keys)] = keys
        at = (28 + len(keys) + 7) // 8 * 8
        end = 0
        for i, (key, _) in enumerate(rows):
            end += len(key)
            struct.pack_into("<H", page, at + 2 * i, end)
        at += 2 * len(rows)
        for i, (_, value) in enumerate(rows):
            struct.pack_into("<q", page, at + 8 * i, value)

    def bytes(self):
        return b"".join(self.pages)


def inode(volume, block, mode, parent, stamp, flags=1):
    data = bytearray(volume.size)
    struct.pack_into("<I", data, 0, INODE_MAGIC)
    data[4:12] = volume.run(block, 1)
    struct.pack_into("<iiii", data, 12, 0, 0, mode, flags)
    struct.pack_into("<qq", data, 28, stamp, stamp)
    data[44:52] = volume.run(parent, 1)
    struct.pack_into("<i", data, 64, volume.size)
    struct.pack_into("<q", data, 216, stamp)
    return data


def put_item(data, at, kind, name, value):
    struct.pack_into("<IHH", data, at, kind, len(name), len(value))
    data[at + 8 : at + 8 + len(name)] = name
    value_at = at + 8 + len(name) + 3
    data[value_at : value_at + len(value)] = value
    return value_at + len(value) + 1


def set_tree(volume, block, data, tree):
    """Puts the tree in the place of the one that the inode has."""
    volume.give(streams_of(volume, data))
    content = tree.bytes()
    runs = volume.take((len(content) + volume.size - 1) // volume.size)
    volume.write_runs(runs, content)
    put_stream(volume, data, runs, len(content))
    volume.write(block, data)


TEXT_CODE = 0x43535452


def attribute_directory(volume, parent, stamp, name, value):
    """An attribute directory with one attribute, whose bytes have blocks of their own."""
    ((directory, _),) = volume.take(1)
    ((attribute, _),) = volume.take(1)
    data = inode(volume, attribute, 0o2000100644, directory, stamp, flags=5)
    struct.pack_into("<I", data, 60, TEXT_CODE)
    runs = volume.take((len(value) + volume.size - 1) // volume.size)
    volume.write_runs(runs, value)
    put_stream(volume, data, runs, len(value))
    volume.write(attribute, data)
    data = inode(volume, directory, 0o1000040700, parent, stamp, flags=1)
    set_tree(volume, directory, data, Tree(TEXT, [(name, [attribute])]))
    return directory


def fill(volume, files, folders, seed):
    draw = random.Random(seed)
    root = volume.read(volume.root)
    stamp = struct.unpack_from("<q", root, 28)[0]
    names, sizes, times = [], {}, []
    nodes = 1
    root_rows = [(b".", [volume.root]), (b"..", [volume.root])]
    for folder in range(folders):
        name = b"folder%04d" % folder
        ((block, _),) = volume.take(1)
        root_rows.append((name, [block]))
        names.append((name, block))
        nodes += 1
        rows = [(b".", [block]), (b"..", [volume.root])]
        for i in range(folder, files, folders):
            file_name = b"file%07d" % i
            ((file, _),) = volume.take(1)
            modified = stamp + (i << 16)
            size = draw.randrange(1, volume.size + 1)
            data = inode(volume, file, 0o100644, block, stamp)
            struct.pack_into("<q", data, 36, modified)
            at = put_item(data, 232, TEXT_CODE, b"\x13", file_name)
            if i % 10 == 0:
                at = put_item(data, at, TEXT_CODE, b"MIME", b"text/plain\0")
            if i % 100 == 0:
                directory = attribute_directory(volume, file, stamp, b"note", b"x" * (volume.size + 1))
                data[52:60] = volume.run(directory, 1)
            runs = volume.take(1)
            volume.write_runs(runs, b"z" * size)
            put_stream(volume, data, runs, size)
            volume.write(file, data)
            rows.append((file_name, [file]))
            names.append((file_name, file))
            sizes.setdefault(size, []).append(file)
            times.append((modified, file))
            nodes += 1
        data = inode(volume, block, 0o40755, volume.root, stamp)
        put_item(data, 232, TEXT_CODE, b"\x13", name)
        set_tree(volume, block, data, Tree(TEXT, sorted(rows)))
    set_tree(volume, volume.root, root, Tree(TEXT, sorted(root_rows)))
    set_indices(volume, names, sizes, times)
    return nodes


def set_indices(volume, names, sizes, times):
    """The rows of the three indices: the index directory's own rows are those that `mk` wrote, at the blocks behind it."""
    step = 1 + (2048 + volume.size - 1) // volume.size
    blocks = [volume.indices + step * (i + 1) for i in range(3)]
    number = lambda n: struct.pack("<q", n)
    trees = [
        Tree(TEXT, [(name, [block]) for name, block in sorted(names)]),
        Tree(I64, [(number(size), sorted(sizes[size])) for size in sorted(sizes)]),
        Tree(I64, [(number(time), [block]) for time, block in sorted(times)]),
    ]
    for block, tree in zip(blocks, trees):
        set_tree(volume, block, volume.read(block), tree)


def main():
    path, files, folders = sys.argv[1], int(sys.argv[2]), int(sys.argv[3])
    seed = int(sys.argv[4]) if len(sys.argv) > 4 else 7
    with open(path, "r+b") as image:
        volume = Volume(image)
        nodes = fill(volume, files, folders, seed)
        volume.close()
        print(f"nodes {nodes} used {volume.used}")


if __name__ == "__main__":
    main()
