"""Seeded scripts on real volumes, each line's reply compared with that of a plain tree that is kept here, without blocks.

usage: plain.py PROGRAM FOLDER [LINES]
On volumes of several sizes, some so small that space runs out: the tree, its attributes and its indices are read back after each hundred lines, and
behind each script a check has to find the volume whole with as many nodes as the tree has. A reply for want of space changes nothing.
"""
import os
import random
import subprocess
import sys

program, folder = sys.argv[1], sys.argv[2]
wanted_lines = int(sys.argv[3]) if len(sys.argv) > 3 else 20000
image = os.path.join(folder, "volume.img")
NUMBERS = {"LONG": (4, True), "ULNG": (4, False), "LLNG": (8, True), "ULLG": (8, False)}


def word(data):
    return "".join(chr(b) if 0x21 <= b <= 0x7E and b not in b"%=" else f"%{b:02X}" for b in data)


class Node:
    def __init__(self, kind, name, parent, mode, target=b""):
        self.kind, self.name, self.parent, self.mode, self.target = kind, name, parent, mode, target
        self.uid = self.gid = 0
        self.bytes = [] if kind == "file" else None
        self.attributes = {}
        self.children = {} if kind == "dir" else None

    def size(self):
        return {"file": lambda: len(self.bytes), "dir": lambda: 0, "link": lambda: len(self.target)}[self.kind]()


def is_bad(name):
    return not 0 < len(name) <= 255 or b"/" in name or b"\0" in name or name in (b".", b"..")


class Refused(Exception):
    pass


class Plain:
    """The tree, and what each command answers; of bytes that were never written nothing is known (None)."""

    def __init__(self):
        self.root = Node("dir", b"/", None, 0o755)
        self.indices = {b"name": "CSTR", b"size": "LLNG", b"last_modified": "LLNG"}

    def nodes(self):
        waiting = [self.root]
        while waiting:
            node = waiting.pop()
            yield node
            if node.kind == "dir":
                waiting += node.children.values()

    def look(self, directory, name):
        if directory.kind != "dir":
            raise Refused("notdir")
        if name not in directory.children:
            raise Refused("notfound")
        return directory.children[name]

    def find(self, parts):
        node = self.root
        for part in parts:
            node = self.look(node, part)
        return node

    def make(self, parts, kind, target=b""):
        directory = self.find(parts[:-1])
        name = parts[-1]
        if directory.kind != "dir":
            raise Refused("notdir")
        if is_bad(name) or (kind == "link" and (not target or b"\0" in target)):
            raise Refused("namebad")
        if len(target) > 1024:
            raise Refused("toobig")
        if name in directory.children:
            raise Refused("exists")
        mode = {"file": 0o644, "dir": 0o755, "link": 0o777}[kind]
        return lambda: directory.children.__setitem__(name, Node(kind, name, directory, mode, target))

    def remove(self, parts):
        directory = self.find(parts[:-1])
        node = self.look(directory, parts[-1])
        if node.kind == "dir" and node.children:
            raise Refused("notempty")
        return lambda: directory.children.pop(parts[-1])

    def rename(self, parts, to_parts):
        directory = self.find(parts[:-1])
        to_directory = self.find(to_parts[:-1])
        node = self.look(directory, parts[-1])
        name = to_parts[-1]
        if to_directory.kind != "dir":
            raise Refused("notdir")
        if is_bad(name):
            raise Refused("namebad")
        above = to_directory
        while above is not None:
            if above is node:
                raise Refused("inside")
            above = above.parent
        other = to_directory.children.get(name)
        if other is not None and other is not node:
            if (other.kind == "dir") != (node.kind == "dir"):
                raise Refused("exists")
            if other.kind == "dir" and other.children:
                raise Refused("notempty")

        def change():
            del directory.children[parts[-1]]
            to_directory.children[name] = node
            node.name, node.parent = name, to_directory

        return change

    def key(self, node, index, kind):
        """The key that an index has of a node; None where it isn't listed."""
        if index == b"name":
            return node.name if node is not self.root else None
        if index in (b"size", b"last_modified"):
            return node.size() if node.kind == "file" else None
        code, data = node.attributes.get(index, (None, b""))
        if code != kind:
            return None
        if kind == "CSTR":
            return data.split(b"\0")[0][:255] or None
        width, signed = NUMBERS[kind]
        return int.from_bytes(data, "little", signed=signed) if len(data) == width else None

    def rows(self, index, low, high):
        kind = self.indices[index]
        rows = [(self.key(node, index, kind), node.name) for node in self.nodes()]
        return sorted((key, name) for key, name in rows if key is not None and low <= key <= high)


def spelled(parts):
    return "/" + "/".join(word(part) for part in parts)


class Scripts:
    def __init__(self, seed):
        self.random = random.Random(seed)
        self.plain = Plain()

    def name(self):
        pick = self.random.random()
        if pick < 0.02:
            return self.random.choice([b".", b"..", b"n" * 256, b"a\0b"])
        if pick < 0.06:
            return b"L%d" % self.random.randrange(3) + b"o" * self.random.choice([40, 120, 252])
        return self.random.choice([b"a", b"b", b"c", b"d", b"e f", b"x=y", "ä".encode(), b"g%d" % self.random.randrange(30)])

    def path(self, new=False):
        """A path to some node, or of one that may come to be in some directory."""
        nodes = list(self.plain.nodes())
        node = self.random.choice(nodes)
        parts = []
        while node.parent is not None:
            parts.insert(0, node.name)
            node = node.parent
        if new or not parts or self.random.random() < 0.15:
            if len(parts) > 4 or self.random.random() < 0.2:
                parts = parts[: self.random.randrange(len(parts) + 1)]
            parts = parts + [self.name()]
        return parts

    def value(self):
        kind = self.random.choice(["LONG", "LLNG", "CSTR", "RAWT", "ULNG"])
        if kind in NUMBERS:
            width, signed = NUMBERS[kind]
            number = self.random.choice([0, 1, 5, 100, 2 ** 31 - 1]) * (-1 if signed and self.random.random() < 0.3 else 1)
            return kind, f"{kind}:{number}", number.to_bytes(width, "little", signed=signed)
        if kind == "CSTR":
            text = self.random.choice([b"red", b"green", b"blue", b"t" * 300])
            return kind, f"CSTR:{word(text)}", text + b"\0"
        count = self.random.choice([0, 1, 30, 200, 765, 766, 3000, 20000])
        return kind, f"RAWT*{count}", b"z" * count

    def attribute(self):
        return self.random.choice([b"k", b"color", b"weight", b"m" * 40, b"A%d" % self.random.randrange(8)])

    def line(self):
        """A line without its session, and what it answers: a function of the reply's words that tells whether it is right, and the change behind a done one."""
        pick = self.random.choices(
            ["make", "mkdir", "link", "rm", "mv", "size", "write", "read", "attr", "getattr", "rmattr", "attrs", "ls", "stat", "mode", "readlink", "mkindex", "rmindex",
             "indices", "find", "sync"],
            [14, 5, 4, 9, 10, 6, 6, 4, 10, 3, 4, 2, 2, 2, 2, 2, 1, 1, 1, 4, 1])[0]
        return getattr(self, "do_" + pick)()

    def guarded(self, spoken, answer):
        """What a command answers, where the tree refuses it or does it."""
        try:
            words, change = answer()
        except Refused as refusal:
            return spoken, [str(refusal)], lambda: None, False
        return spoken, words, change or (lambda: None), change is not None

    def do_make(self, word_of="make", kind="file"):
        parts = self.path(new=True)
        return self.guarded(f"{word_of} {spelled(parts)}", lambda: (["ok"], self.plain.make(parts, kind)))

    def do_mkdir(self):
        return self.do_make("mkdir", "dir")

    def do_link(self):
        parts = self.path(new=True)
        target = self.random.choice([b"t", b"a/b", b"t" * 143, b"t" * 144, b"t" * 1025, b"z\0"])
        return self.guarded(f"link {spelled(parts)} {word(target)}", lambda: (["ok"], self.plain.make(parts, "link", target)))

    def do_rm(self):
        parts = self.path()
        return self.guarded(f"rm {spelled(parts)}", lambda: (["ok"], self.plain.remove(parts)))

    def do_mv(self):
        parts, to_parts = self.path(), self.path(new=self.random.random() < 0.7)
        return self.guarded(f"mv {spelled(parts)} {spelled(to_parts)}", lambda: (["ok"], self.plain.rename(parts, to_parts)))

    def do_size(self):
        parts = self.path()
        size = self.random.choice([0, 1, 512, 1023, 1024, 5000, 20000, 60000, 1073741825])

        def answer():
            node = self.plain.find(parts)
            if node.kind != "file":
                raise Refused("notfile")
            if size > 1073741824:
                raise Refused("toobig")

            def change():
                node.bytes = node.bytes[:size] + [None] * (size - len(node.bytes))

            return ["ok"], change

        return self.guarded(f"size {spelled(parts)} {size}", answer)

    def piece(self, node, at, count):
        if node.kind != "file":
            raise Refused("notfile")
        if count > 65536:
            raise Refused("toobig")
        if at > len(node.bytes) or count > len(node.bytes) - at:
            raise Refused(f"pastend {len(node.bytes)}")

    def do_write(self):
        parts = self.path()
        at, count = self.random.choice([0, 1, 500, 1000, 4000]), self.random.choice([0, 1, 24, 1000, 3000])

        def answer():
            node = self.plain.find(parts)
            self.piece(node, at, count)

            def change():
                node.bytes[at: at + count] = [0x7A] * count

            return ["ok"], change

        return self.guarded(f"write {spelled(parts)} {at} *{count}", answer)

    def do_read(self):
        parts = self.path()
        at, count = self.random.choice([0, 1, 500, 1000, 4000]), self.random.choice([0, 1, 24, 1000])

        def answer():
            node = self.plain.find(parts)
            self.piece(node, at, count)
            known = node.bytes[at: at + count]
            if not known:
                return ["ok", "0"], None
            return ["ok", str(count), ("bytes", known)], None

        return self.guarded(f"read {spelled(parts)} {at} {count}", answer)

    def do_attr(self):
        parts, name = self.path(), self.attribute()
        kind, text, data = self.value()

        def answer():
            node = self.plain.find(parts)
            return ["ok"], lambda: node.attributes.__setitem__(name, (kind, data))

        return self.guarded(f"attr {spelled(parts)} {word(name)} {text}", answer)

    def do_getattr(self, name=None):
        parts, name = self.path(), name or self.attribute()

        def answer():
            node = self.plain.find(parts)
            if name not in node.attributes:
                raise Refused("noattr")
            kind, data = node.attributes[name]
            return ["ok", kind, str(len(data))] + ([data.hex()] if data else []), None

        return self.guarded(f"getattr {spelled(parts)} {word(name)}", answer)

    def do_rmattr(self):
        parts, name = self.path(), self.attribute()

        def answer():
            node = self.plain.find(parts)
            if name not in node.attributes:
                raise Refused("noattr")
            return ["ok"], lambda: node.attributes.pop(name)

        return self.guarded(f"rmattr {spelled(parts)} {word(name)}", answer)

    def do_attrs(self, parts=None):
        parts = self.path() if parts is None else parts

        def answer():
            rows = sorted(self.plain.find(parts).attributes.items())
            return ["ok", str(len(rows))] + [f"{kind}={word(name)}" for name, (kind, _) in rows], None

        return self.guarded(f"attrs {spelled(parts)}", answer)

    def do_ls(self, parts=None):
        parts = self.path() if parts is None else parts

        def answer():
            node = self.plain.find(parts)
            if node.kind != "dir":
                raise Refused("notdir")
            return ["ok", str(len(node.children))] + [word(name) for name in sorted(node.children)], None

        return self.guarded(f"ls {spelled(parts)}", answer)

    def do_stat(self):
        parts = self.path()

        def answer():
            node = self.plain.find(parts)
            return ["ok", node.kind, f"{node.mode:04o}", str(node.uid), str(node.gid), str(node.size()), ("any", 3)], None

        return self.guarded(f"stat {spelled(parts)}", answer)

    def do_mode(self):
        parts, mode, uid, gid = self.path(), self.random.choice([0, 0o600, 0o7777]), self.random.randrange(3), self.random.choice([0, 2 ** 31 - 1])

        def answer():
            node = self.plain.find(parts)

            def change():
                node.mode, node.uid, node.gid = mode, uid, gid

            return ["ok"], change

        return self.guarded(f"mode {spelled(parts)} {mode:o} {uid} {gid}", answer)

    def do_readlink(self):
        parts = self.path()

        def answer():
            node = self.plain.find(parts)
            if node.kind != "link":
                raise Refused("notlink")
            return ["ok", word(node.target)], None

        return self.guarded(f"readlink {spelled(parts)}", answer)

    def do_mkindex(self):
        name = self.random.choice([b"k", b"color", b"weight", b"name", b"size", b".."])
        kind = self.random.choice(["CSTR", "LONG", "ULNG", "LLNG", "ULLG", "FLOT", "DBLE"])

        def answer():
            if name in self.plain.indices:
                raise Refused("exists")
            if kind in ("FLOT", "DBLE"):
                raise Refused("floatindex")
            if is_bad(name):
                raise Refused("namebad")
            return ["ok"], lambda: self.plain.indices.__setitem__(name, kind)

        return self.guarded(f"mkindex {word(name)} {kind}", answer)

    def do_rmindex(self):
        name = self.random.choice([b"k", b"color", b"weight", b"name", b"zz"])

        def answer():
            if name not in self.plain.indices:
                raise Refused("noindex")
            if name in (b"name", b"size", b"last_modified"):
                raise Refused("builtin")
            return ["ok"], lambda: self.plain.indices.pop(name)

        return self.guarded(f"rmindex {word(name)}", answer)

    def do_indices(self):
        rows = sorted(self.plain.indices.items())
        return self.guarded("indices", lambda: (["ok", str(len(rows))] + [f"{kind}={word(name)}" for name, kind in rows], None))

    def do_find(self, name=None):
        name = name or self.random.choice([b"name", b"size", b"k", b"color", b"weight", b"zz"])
        kind = self.plain.indices.get(name, "LONG")
        spoken_kind = self.random.choice(["CSTR", "LONG", "LLNG"]) if self.random.random() < 0.1 else kind
        if spoken_kind == "CSTR":
            low, high = (b"", b"~" * 40) if self.random.random() < 0.6 else (b"b", b"g2")
            spoken = f"find {word(name)} CSTR:{word(low)} CSTR:{word(high)}"
        else:
            width, signed = NUMBERS[spoken_kind]
            least, most = (-(2 ** (8 * width - 1)), 2 ** (8 * width - 1) - 1) if signed else (0, 2 ** (8 * width) - 1)
            low, high = (least, most) if self.random.random() < 0.6 else (1, 5000)
            spoken = f"find {word(name)} {spoken_kind}:{low} {spoken_kind}:{high}"

        def answer():
            if name not in self.plain.indices:
                raise Refused("noindex")
            if spoken_kind != kind:
                raise Refused("keykind")
            return ["ok", ("rows", self.plain.rows(name, low, high))], None

        return self.guarded(spoken, answer)

    def do_sync(self):
        return "sync", ["ok"], lambda: None, False

    def read_back(self):
        for node in list(self.plain.nodes()):
            parts = []
            at = node
            while at.parent is not None:
                parts.insert(0, at.name)
                at = at.parent
            if node.kind == "dir":
                yield self.do_ls(parts)
            yield self.do_attrs(parts)
        for name in list(self.plain.indices):
            if name != b"last_modified":
                yield self.do_find(name)
        yield self.do_indices()


def agrees(wanted, told):
    """Whether the reply's words are those wanted."""
    told = list(told)
    for at, part in enumerate(wanted):
        if isinstance(part, str):
            if " " in part:
                return told == part.split()
            if not told or told.pop(0) != part:
                return False
        elif part[0] == "any":
            return len(told) == part[1]
        elif part[0] == "bytes":
            data = bytes.fromhex(told.pop(0)) if told else b""
            return len(data) == len(part[1]) and all(want is None or want == have for want, have in zip(part[1], data)) and not told
        elif part[0] == "rows":
            rows = part[1]
            if not told or told.pop(0) != str(len(rows)):
                return False
            spell = lambda key: word(key) if isinstance(key, bytes) else str(key)
            given = [tuple(row.split("=", 1)) for row in told]
            if sorted(given) != sorted((spell(key), "/" if name == b"/" else word(name)) for key, name in rows):
                return False
            return [key for key, _ in given] == [spell(key) for key, _ in rows]
    return not told


def run(words, text=""):
    done = subprocess.run([program, image] + words, input=text.encode(), capture_output=True, timeout=250)
    return done.returncode, done.stdout.decode(errors="replace")


def in_pieces(scripts, lines):
    """Runs so many lines in scripts of a hundred, each with what reads everything back behind it: how many were right, and what went wrong."""
    done = 0
    while done < lines:
        expected = []
        for _ in range(100):
            expected.append(scripts.line())
            expected[-1][2]()
        expected += scripts.read_back()
        status, text = run(["sh"], "".join(f"{1 + number % 16} {line[0]}\n" for number, line in enumerate(expected)))
        replies = text.split("\n")[:-1]
        if status != 0 or len(replies) != len(expected):
            return done, 0, f"status {status}, {len(replies)} replies to {len(expected)} lines: {text[-300:]}"
        for line, reply in zip(expected, replies):
            if not agrees(line[1], reply.split()[2:]):
                return done, 0, f"{line[0]}: {reply} and not {line[1]}"[:2000]
        done += 100
    return done, 0, None


def follow(scripts, lines):
    """The same line by line, each in a run of its own, where space may be wanting; and everything is read back at the end."""
    done = wanting = 0
    for number in range(lines):
        spoken, wanted, change, changes = scripts.line()
        status, text = run(["sh"], f"1 {spoken}\n")
        words = text.split()[2:]
        if status != 0:
            return done, wanting, f"{spoken}: status {status}, {text}"
        if changes and words[:1] in (["nospace"], ["nologroom"]):
            wanting += 1
        elif agrees(wanted, words):
            change()
            done += 1
        else:
            return done, wanting, f"{spoken}: {text} and not {wanted}"[:2000]
    for spoken, wanted, change, changes in scripts.read_back():
        status, text = run(["sh"], f"1 {spoken}\n")
        if not agrees(wanted, text.split()[2:]):
            return done, wanting, f"{spoken}: {text} and not {wanted}"[:2000]
    return done, wanting, None


def volume(blocks, size):
    if os.path.exists(image):
        os.remove(image)
    with open(image, "wb") as file:
        file.truncate(blocks * size)
    return run(["mk", "--blocks", str(blocks), "--block-size", str(size)])[0] == 0


def main():
    failed = 0
    total = short = 0
    volumes = [(16384, 1024), (8192, 2048), (4096, 4096), (4096, 8192), (600, 1024), (600, 2048), (600, 4096), (600, 8192)]
    for number, (blocks, size) in enumerate(volumes):
        if not volume(blocks, size):
            print(f"no volume of {blocks} blocks of {size}")
            failed += 1
            continue
        scripts = Scripts(number + 1)
        if blocks > 600:
            done, wanting, wrong = in_pieces(scripts, wanted_lines // 5)
        else:
            done, wanting, wrong = follow(scripts, wanted_lines // 20)
        status, text = run(["check"])
        nodes = sum(1 for _ in scripts.plain.nodes())
        if wrong is None and (status != 0 or text.split()[:3] != ["whole", "nodes", str(nodes)]):
            wrong = f"check says {status} {text!r} of {nodes} nodes"
        total += done
        short += wanting
        if wrong is not None:
            failed += 1
            print(f"failed: {blocks} blocks of {size}, behind {done} lines: {wrong}")
    if short == 0:
        failed += 1
        print("failed: no reply for want of space was met")
    print(f"{total} lines as the plain tree has them, {short} for want of space; {len(volumes) - failed} passed, {failed} failed")
    return failed > 0


if __name__ == "__main__":
    sys.exit(main())
