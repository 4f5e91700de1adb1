"""Seeded lines on one directory, on one node's attributes and on one index, beside plain maps (plain.py): everything is read back after each hundred.

usage: maps.py PROGRAM FOLDER [LINES]
So many lines of each kind, a quarter of them on volumes with blocks of each size.
"""
import sys

import plain
from plain import Refused, Scripts, in_pieces, run, volume, word

wanted_lines = int(sys.argv[3]) if len(sys.argv) > 3 else 10000


class OneDirectory(Scripts):
    """Nodes come to one directory, go and are renamed in it: names of 1 to 255 bytes."""

    def __init__(self, seed):
        super().__init__(seed)
        self.names = [b"%d" % number for number in range(250)]
        self.names += [b"%03d" % number + b"m" * 117 for number in range(60)]
        self.names += [b"%03d" % number + b"l" * 252 for number in range(60)]

    def first(self):
        yield self.guarded("mkdir /d", lambda: (["ok"], self.plain.make([b"d"], "dir")))

    def path(self, new=False):
        return [b"d", self.random.choice(self.names)]

    def line(self):
        pick = self.random.choices(["make", "mkdir", "link", "rm", "mv", "stat"], [10, 3, 3, 9, 6, 2])[0]
        return getattr(self, "do_" + pick)()

    def do_link(self):
        parts = self.path()
        return self.guarded(f"link {plain.spelled(parts)} t", lambda: (["ok"], self.plain.make(parts, "link", b"t")))

    def read_back(self):
        yield self.do_ls([b"d"])
        yield self.do_find(b"name")


class OneNode(Scripts):
    """Attributes of one file, in small data and beside it, whose name grows and shrinks meanwhile."""

    def first(self):
        self.names = [b"n", b"n" * 30, b"n" * 120, b"n" * 255]
        self.at = b"n"
        yield self.guarded("make /n", lambda: (["ok"], self.plain.make([b"n"], "file")))

    def path(self, new=False):
        return [self.at]

    def attribute(self):
        number = self.random.randrange(60)
        return b"%02d" % number + b"a" * [0, 1, 5, 20, 60, 250 - 2][number % 6]

    def value(self):
        if self.random.random() < 0.3:
            return super().value()
        count = self.random.choice([0, 1, 7, 8, 30, 100, 200, 400, 700, 750, 764, 765, 766, 767, 1023, 1024, 1789, 1790, 3837, 3838, 7933, 7934, 65536])
        return "RAWT", f"RAWT*{count}", b"z" * count

    def line(self):
        pick = self.random.choices(["attr", "rmattr", "getattr", "mv"], [12, 9, 3, 1])[0]
        return getattr(self, "do_" + pick)()

    def do_mv(self):
        old, new = self.at, self.random.choice(self.names)

        def answer():
            words, change = ["ok"], self.plain.rename([old], [new])

            def moved():
                change()
                self.at = new

            return words, moved

        return self.guarded(f"mv /{word(old)} /{word(new)}", answer)

    def read_back(self):
        yield self.do_attrs()
        for name in list(self.plain.find([self.at]).attributes):
            yield self.do_getattr(name)


class OneIndex(Scripts):
    """Eight hundred files with one attribute that is indexed; keys have from one to more than three hundred files."""

    KEYS = [0] * 75 + [1] * 12 + [-1] * 8 + [7] * 2 + [2 ** 31 - 1, -(2 ** 31), 5, 6]

    def first(self):
        yield self.guarded("mkindex k LONG", lambda: (["ok"], lambda: self.plain.indices.__setitem__(b"k", "LONG")))
        for number in range(800):
            parts = [b"%d" % number]
            yield self.guarded(f"make {plain.spelled(parts)}", lambda parts=parts: (["ok"], self.plain.make(parts, "file")))

    def path(self, new=False):
        return [b"%d" % self.random.randrange(800)]

    def attribute(self):
        return b"k"

    def value(self):
        number = self.random.choice(self.KEYS)
        return "LONG", f"LONG:{number}", number.to_bytes(4, "little", signed=True)

    def line(self):
        # (first most files come to have the attribute, then most lose it, and so on by turns)
        self.turn = getattr(self, "turn", 0) + 1
        rising = self.turn // 1600 % 2 == 0
        pick = self.random.choices(["attr", "rmattr", "rm", "make", "getattr"], [14, 3, 1, 2, 1] if rising else [5, 14, 1, 2, 1])[0]
        return getattr(self, "do_" + pick)()

    def read_back(self):
        yield self.find(-(2 ** 31), 2 ** 31 - 1)
        for key in sorted(set(self.KEYS)):
            yield self.find(key, key)

    def find(self, low, high):
        return self.guarded(f"find k LONG:{low} LONG:{high}", lambda: (["ok", ("rows", self.plain.rows(b"k", low, high))], None))


def begin(scripts):
    """Runs what comes first: whether each reply is right."""
    expected = []
    for line in scripts.first():
        expected.append(line)
        line[2]()
    status, text = run(["sh"], "".join(f"1 {line[0]}\n" for line in expected))
    return status == 0 and text.split("\n")[:-1] == [f"{at + 1} 1 ok" for at in range(len(expected))]


def main():
    failed = passed = total = 0
    for kind in (OneDirectory, OneNode, OneIndex):
        for number, (blocks, size) in enumerate([(16384, 1024), (8192, 2048), (4096, 4096), (4096, 8192)]):
            scripts = kind(100 + number)
            if not volume(blocks, size) or not begin(scripts):
                done, wrong = 0, "it can't be begun"
            else:
                done, _, wrong = in_pieces(scripts, wanted_lines // 4)
            status, text = run(["check"])
            nodes = sum(1 for _ in scripts.plain.nodes())
            if wrong is None and (status != 0 or text.split()[:3] != ["whole", "nodes", str(nodes)]):
                wrong = f"check says {status} {text!r} of {nodes} nodes"
            total += done
            passed += wrong is None
            failed += wrong is not None
            if wrong is not None:
                print(f"failed: {kind.__name__} in blocks of {size}, behind {done} lines: {wrong}")
    print(f"{total} lines as the plain maps have them; {passed} passed, {failed} failed")
    return failed > 0


if __name__ == "__main__":
    sys.exit(main())
