"""Scripts with the text that each has to print, and what a check says behind it. Nothing here comes from the program.

usage: scripts.py PROGRAM FOLDER
Each case begins on a new volume of `mk`, or goes on from the one before it. A line is printed for each that fails.
"""
import os
import subprocess
import sys

program, folder = sys.argv[1], sys.argv[2]
image = os.path.join(folder, "volume.img")
failed = 0
passed = 0


def run(words, text=""):
    done = subprocess.run([program, image] + words, input=text.encode(), capture_output=True, timeout=120)
    return done.returncode, done.stdout.decode(errors="replace")


def check(name, good, told=""):
    global failed, passed
    if good:
        passed += 1
    else:
        failed += 1
        print(f"failed: {name}: {told}")


def fresh(blocks=4096, size=1024):
    if os.path.exists(image):
        os.remove(image)
    with open(image, "wb") as file:
        file.truncate(blocks * size)
    check(f"mk of {blocks} blocks", run(["mk", "--blocks", str(blocks), "--block-size", str(size)])[0] == 0)


def says(name, lines, replies, status=0):
    """The script prints these replies, each behind its line's number and session."""
    numbered = []
    for number, (line, reply) in enumerate(zip(lines, replies), 1):
        numbered.append(f"{number} {line.split()[0]} {reply}")
    told = run(["sh"], "".join(line + "\n" for line in lines))
    check(name, told == (status, "".join(line + "\n" for line in numbered)), told)


def ends(name, lines, replies):
    """The script's last lines print so."""
    status, text = run(["sh"], "".join(line + "\n" for line in lines))
    first = len(lines) - len(replies) + 1
    wanted = [f"{first + i} {lines[first + i - 1].split()[0]} {reply}" for i, reply in enumerate(replies)]
    told = text.split("\n")[: len(lines)][-len(replies):]
    check(name, status == 0 and told == wanted, (status, told))


def is_whole(name, nodes=None, used=None):
    status, text = run(["check"])
    words = text.split()
    good = status == 0 and words[:1] == ["whole"]
    if good and nodes is not None:
        good = words[2] == str(nodes)
    if good and used is not None:
        good = words[4] == str(used)
    check(name, good, (status, text))


def content():
    with open(image, "rb") as file:
        return file.read()


def names():
    """A directory's names, and names that are too long."""
    fresh()
    before = content()
    check("an empty script", run(["sh"]) == (0, "") and content() == before)
    says("a list and a sync change nothing", ["1 ls /", "1 sync"], ["ok 0", "ok"])
    check("no byte", content() == before)
    long = "n" * 255
    says("names of 255 bytes", [f"1 make /{long}", f"1 make /{long}n", f"1 stat /{long}n"], ["ok", "namebad", "notfound"])
    fresh()
    says("directories in each other", ["1 mkdir /a", "1 mkdir /a/b", "1 mv /a /a/b/c", "1 rm /a", "1 rm /a/b", "1 rm /a", "1 rm /a"],
         ["ok", "ok", "inside", "notempty", "ok", "ok", "notfound"])
    says("a name in its index", ["1 make /a", "1 mv /a /b", "1 find name CSTR:a CSTR:z"], ["ok", "ok", "ok 1 b=b"])
    fresh()
    made = [f"{number:03}" + "x" * 252 for number in range(200)]
    order = [(7 * number) % 200 for number in range(200)]
    lines, replies, there = [], [], []
    for name in made:
        there.append(name)
        lines += [f"1 make /{name}", "1 ls /"]
        replies += ["ok", f"ok {len(there)} " + " ".join(sorted(there))]
    for number in order:
        there.remove(made[number])
        lines += [f"1 rm /{made[number]}", "1 ls /"]
        replies += ["ok", (f"ok {len(there)} " + " ".join(sorted(there))).strip()]
    says("two hundred names of 255 bytes come and go", lines, replies)
    is_whole("and nothing is left", 1)


def indices():
    """The numbers of a key: one, some in a fragment, many in pages of their own."""
    for count in (1, 2, 7, 8, 125, 126, 300):
        fresh()
        lines = [f"1 make /f{number}" for number in range(1, count + 1)]
        rows = " ".join(f"0=f{number}" for number in range(1, count + 1))
        ends(f"{count} files of no bytes", lines + ["1 find size LLNG:0 LLNG:0"], [f"ok {count} {rows}"])
        is_whole(f"{count} files", count + 1)
    fresh()
    lines = []
    for size in range(17):
        lines += [f"1 make /a{size}", f"1 size /a{size} {size}", f"1 make /b{size}", f"1 size /b{size} {size}"]
    ends("two files of each of seventeen sizes", lines + ["1 find size LLNG:16 LLNG:16"], ["ok 2 16=a16 16=b16"])
    is_whole("they", 35)
    fresh()
    says("an index of numbers",
         ["1 make /a", "1 attr /a weight LONG:5", "1 mkindex weight FLOT", "1 mkindex weight LONG", "1 find weight LONG:0 LONG:9",
          "1 find weight LLNG:0 LLNG:9", "1 rmindex name", "1 rmindex zz"],
         ["ok", "ok", "floatindex", "ok", "ok 1 5=a", "keykind", "builtin", "noindex"])
    fresh()
    says("thirty indices are one too many", [f"1 mkindex i{number} LONG" for number in range(30)], ["ok"] * 29 + ["indexcount"])
    is_whole("twenty-nine", 1)


def attributes():
    """An attribute that just fills the small data, and one with a byte more, to and fro, for each block size.

    The area has what its block has but 232 bytes; the item of the name `a` takes 14 of them, and one of a name of a letter 13 beside its bytes. A new volume
    has the superblock, a block of the bitmap, the log's 512, and five trees of an inode and two pages of 1,024 bytes. The attribute directory takes a tree
    more, and the attribute in it an inode and a block."""
    for size in (1024, 2048, 4096, 8192):
        fresh(4096, size)
        tree = 1 + (2048 + size - 1) // size
        most = size - 232 - 14 - 13
        own = 514 + 5 * tree + 1
        says(f"an attribute of {most} bytes", ["1 make /a", f"1 attr /a x RAWT*{most}"], ["ok", "ok"])
        is_whole("fits into the small data", 2, own)
        for _ in range(2):
            says(f"and of {most + 1}", [f"1 attr /a x RAWT*{most + 1}"], ["ok"])
            is_whole("takes an attribute directory", 2, own + tree + 2)
            says(f"and of {most} again", [f"1 attr /a x RAWT*{most}"], ["ok"])
            is_whole("is in the small data again", 2, own)
        says("and of one", ["1 attr /a x RAWT*1", "1 attrs /a"], ["ok", "ok 1 RAWT=x"])
        is_whole("is in the small data still", 2, own)
        says("and of too many", ["1 attr /a x RAWT*65537"], ["toobig"])


def dots():
    """Another maker may have an attribute named `.` in small data. No row of an attribute directory can have that name, so it stays where it is.

    The area of an inode's block has 792 bytes, and an item 12 beside its name and its bytes. Here two attributes take 17 and 613, and the file's own name of a
    letter 14: a name of 200 bytes takes 213, for which the longer attribute moves out. Where that one is named `.`, the name can't be set."""
    long = "n" * 200
    for dotted, other, moves in ((4, 600, True), (600, 4, False)):
        fresh()
        says("two attributes", ["1 make /f", f"1 attr /f q RAWT*{dotted}", f"1 attr /f a RAWT*{other}"], ["ok", "ok", "ok"])
        size, old = dotted.to_bytes(2, "little"), content()
        item = b"TWAR" + b"\1\0" + size + b"q"
        check("an item stands in the image", item in old, item)
        with open(image, "wb") as file:
            file.write(old.replace(item, item[:-1] + b"."))
        is_whole("one of them named by a dot", 2, 530)
        if moves:
            says("the other moves for a long name", [f"1 mv /f /{long}", f"1 attrs /{long}", "1 ls /"], ["ok", "ok 2 RAWT=. RAWT=a", f"ok 1 {long}"])
            is_whole("an attribute directory was made", 2, 530 + 3 + 2)
        else:
            check("no name for which it would have to move", run(["sh"], f"1 mv /f /{long}\n") == (7, ""))
            says("the file is as it was", ["1 ls /", "1 attrs /f"], ["ok 1 f", "ok 2 RAWT=. RAWT=a"])
            is_whole("and so is the volume", 2, 530)


def files():
    """Sizes, pieces and links."""
    fresh()
    says("bytes of a file", ["1 make /f", "1 size /f 5", "1 write /f 0 :hello", "1 read /f 0 5", "1 read /f 3 3", "1 read /f 5 0"],
         ["ok", "ok", "ok", "ok 5 68656c6c6f", "pastend 5", "ok 0"])
    says("which are there in another run", ["1 read /f 0 5"], ["ok 5 68656c6c6f"])
    fresh()
    short, long = "t" * 143, "t" * 144
    says("links", [f"1 link /s {short}", f"1 link /l {long}", "1 readlink /s", "1 readlink /l", "1 readlink /", "1 size / 1", "1 getattr / x"],
         ["ok", "ok", f"ok {short}", f"ok {long}", "notlink", "notfile", "noattr"])
    is_whole("the long one takes a block", 3, 532)
    says("a file is no directory", ["1 make /f", "1 ls /f", "1 make /f/x", "1 size /f 1073741825"], ["ok", "notdir", "notdir", "toobig"])
    for rounds in (13, 525):
        fresh()
        lines = ["1 make /a", "1 make /b"]
        for number in range(1, rounds + 1):
            lines += [f"1 size /a {number * 1024}", f"1 size /b {number * 1024}"]
        status, text = run(["sh"], "".join(line + "\n" for line in lines))
        check(f"two files grow by turns, {rounds} rounds", status == 0 and text.count(" ok\n") == len(lines), text[-200:])
        is_whole(f"{rounds} rounds", 3)


def small():
    """Volumes on which space is short."""
    fresh(529)
    says("a full volume", ["1 mkdir /a"], ["nospace 0"])
    is_whole("stays whole", 1, 529)
    fresh(530)
    says("one block is left", ["1 make /a", "1 make /b", "1 rm /a", "1 make /b", "1 ls /"], ["ok", "nospace 0", "ok", "ok", "ok 1 b"])
    is_whole("and taken", 2, 530)


def refused():
    """Scripts and volumes that aren't begun."""
    fresh()
    before = content()
    check("the second line is bad", run(["sh"], "1 mkdir /a\n1 mkdir\n") == (9, "line 2\n"))
    check("a session of 17", run(["sh"], "17 ls /\n") == (9, "line 1\n"))
    check("no byte changed", content() == before)
    # The log's end is block 1: an entry of the log begins at its place 0, and is none.
    changed = bytearray(before)
    changed[512 + 104] = 1
    with open(image, "wb") as file:
        file.write(changed)
    check("an entry that is none", run(["check"]) == (3, "finding entry 0 0\n"), run(["check"]))
    with open(image, "wb") as file:
        file.write(before[:512])
    check("one sector", run(["check"]) == (3, "finding short 1 2\n"))
    # The root's one page of rows becomes an interior page that names itself.
    changed = bytearray(before)
    changed[516 * 1024 + 16: 516 * 1024 + 24] = (1024).to_bytes(8, "little")
    with open(image, "wb") as file:
        file.write(changed)
    status, text = run(["check"])
    check("a circle of pages", status == 8 and text.startswith("finding "), (status, text))
    check("isn't mounted", run(["sh"], "1 ls /\n")[0] == 3)


def mail():
    """The script of a mail user: ten folders, three hundred files, attributes, renames, removals, a sync for each folder."""
    fresh(20480)
    lines = ["1 mkindex MAIL:subject CSTR", "1 mkindex MAIL:when LLNG"]
    for folder_number in range(10):
        session = folder_number % 4 + 1
        lines.append(f"{session} mkdir /home{folder_number}")
        for number in range(30):
            path = f"/home{folder_number}/mail{number}"
            size = (folder_number * 977 + number * 131) % 4096 + 1
            lines += [f"{session} make {path}", f"{session} size {path} {size}", f"{session} write {path} 0 *{size}"]
            if number < 20:
                lines += [f"{session} attr {path} MAIL:subject CSTR:subject{number}", f"{session} attr {path} MAIL:when LLNG:{folder_number * 100 + number}",
                          f"{session} attr {path} MAIL:from CSTR:someone", f"{session} attr {path} MAIL:to CSTR:else", f"{session} attr {path} MAIL:flags LONG:{number}"]
        lines += [f"{session} mv /home{folder_number}/mail{number} /home{folder_number}/kept{number}" for number in range(5)]
        lines += [f"{session} rm /home{folder_number}/mail{number}" for number in range(25, 30)]
        lines.append(f"{session} sync")
    status, text = run(["sh"], "".join(line + "\n" for line in lines))
    check("a mail user's script", status == 0 and text.count(" ok\n") == len(lines), text[-300:])
    is_whole("his volume", 1 + 10 + 250)
    says("his mails of one day", ["1 find MAIL:when LLNG:300 LLNG:302", "1 find MAIL:subject CSTR:subject7 CSTR:subject7"],
         ["ok 3 300=kept0 301=kept1 302=kept2", "ok 10 " + " ".join(["subject7=mail7"] * 10)])


for case in (names, indices, attributes, dots, files, small, refused, mail):
    case()
print(f"{passed} passed, {failed} failed")
sys.exit(failed > 0)
