#!/bin/sh
# Ten folders and so many files of at most 4 KiB in them, with a sync behind each folder; then all folders listed; then all files removed: on a new volume in a
# file, by one script each, beside the same work by `debugfs -w -f` on ext4, by mtools on FAT and by sqlite3 with one table, in one run. Seconds,
# peak memory, and by `strace`, where it is installed, the calls of the system and those that wait for the disk (fsync, fdatasync). `debugfs` has no journal.
# usage: bench/sh.sh [FILES..]
set -eu
root=$(dirname "$(dirname "$(readlink -f "$0")")")
work=$(mktemp -d)
trap 'rm -rf "$work"' EXIT
"$root/bfs" "$work/none.img" >/dev/null
program=${BFS_PROGRAM:-$root/crates/bfs_main/out/bfs_main}
[ $# -gt 0 ] || set -- 300 2000 10000 100000
exec python3 - "$program" "$work" "$@" <<'END'
import os
import re
import shutil
import subprocess
import sys
import time

program, work, counts = sys.argv[1], sys.argv[2], [int(count) for count in sys.argv[3:]]


def have(tool):
    return shutil.which(tool) is not None


def once(words, text, environment=None):
    """Seconds and peak memory (MiB) of a command, by GNU time where it is installed."""
    timed = ["/usr/bin/time", "-o", f"{work}/peak", "-f", "%M"] if os.path.exists("/usr/bin/time") else []
    before = time.monotonic()
    subprocess.run(timed + words, input=text, stdout=subprocess.DEVNULL, stderr=subprocess.DEVNULL, env={**os.environ, **(environment or {})})
    seconds = time.monotonic() - before
    return seconds, int(open(f"{work}/peak").read().split()[-1]) / 1024 if timed else 0.0


def calls(words, text, environment=None):
    if not have("strace"):
        return "-"
    subprocess.run(["strace", "-f", "-c", "-o", f"{work}/calls"] + words, input=text, capture_output=True, env={**os.environ, **(environment or {})})
    rows = open(f"{work}/calls").read().split("\n")
    total = sum(int(row.split()[3]) for row in rows if re.match(r"\s*[\d.]+ +[\d.]+ +\d+ +\d+", row) and "total" not in row)
    waits = sum(int(row.split()[3]) for row in rows if re.search(r"\b(fsync|fdatasync)\b", row))
    return f"{total} calls, {waits} waits"


def tell(name, image, steps, environment=None):
    """Each step's seconds; the image goes on from one to the next, and the calls of the system are counted on a copy."""
    told = []
    for step, (words, text) in steps.items():
        copy = f"{work}/before"
        shutil.copy(image, copy)
        seconds, memory = once(words, text, environment)
        after = f"{work}/after"
        shutil.copy(image, after)
        shutil.copy(copy, image)
        counted = calls(words, text, environment)
        shutil.copy(after, image)
        told.append(f"{step} {seconds:.3f} s, {memory:.0f} MiB, {counted}")
    print(f"{name}: " + "; ".join(told), flush=True)


for files in counts:
    print(f"{files} files", flush=True)
    sizes = [(i * 977) % 4096 + 1 for i in range(files)]
    by_folder = [[i for i in range(files) if i * 10 // files == d] for d in range(10)]
    blocks = files * 8 + 32768
    data = f"{work}/data"
    with open(data, "wb") as file:
        file.write(b"z" * 4096)

    image = f"{work}/bfs.img"
    with open(image, "wb") as file:
        file.truncate(blocks * 1024)
    subprocess.run([program, image, "mk", "--blocks", str(blocks)], capture_output=True)
    made = ""
    for d, own in enumerate(by_folder):
        made += f"1 mkdir /d{d}\n" + "".join(f"1 make /d{d}/f{i}\n1 size /d{d}/f{i} {sizes[i]}\n1 write /d{d}/f{i} 0 *{sizes[i]}\n" for i in own) + "1 sync\n"
    listed = "".join(f"1 ls /d{d}\n" for d in range(10))
    gone = "".join(f"1 rm /d{d}/f{i}\n" for d, own in enumerate(by_folder) for i in own)
    sh = [program, image, "sh"]
    tell("bfs sh", image, {"made": (sh, made.encode()), "listed": (sh, listed.encode()), "removed": (sh, gone.encode())})
    done = subprocess.run([program, image, "check"], capture_output=True)
    print("  check: " + done.stdout.decode().strip())

    if have("debugfs") and have("mke2fs"):
        image = f"{work}/ext4.img"
        with open(image, "wb") as file:
            file.truncate(blocks * 1024)
        subprocess.run(["mke2fs", "-q", "-t", "ext4", "-N", str(files + 64), image], capture_output=True)
        os.makedirs(f"{work}/sizes", exist_ok=True)
        for size in set(sizes):
            with open(f"{work}/sizes/{size}", "wb") as file:
                file.write(b"z" * size)
        steps = {}
        lines = ""
        for d, own in enumerate(by_folder):
            lines += f"mkdir d{d}\n" + "".join(f"write {work}/sizes/{sizes[i]} d{d}/f{i}\n" for i in own)
        for step, text in (("made", lines), ("listed", "".join(f"ls -p d{d}\n" for d in range(10))), ("removed", "".join(f"rm d{d}/f{i}\n" for d, own in enumerate(by_folder) for i in own))):
            with open(f"{work}/{step}", "w") as file:
                file.write(text)
            steps[step] = (["debugfs", "-w", "-f", f"{work}/{step}", image], b"")
        tell("debugfs", image, steps)
    else:
        print("debugfs is not installed")

    if have("mcopy") and have("mkfs.fat"):
        image = f"{work}/fat.img"
        with open(image, "wb") as file:
            file.truncate(max(blocks * 1024, 64 << 20))
        subprocess.run(["mkfs.fat", "-F", "32", "-s", "1", image], capture_output=True)
        shutil.rmtree(f"{work}/tree", ignore_errors=True)
        for d, own in enumerate(by_folder):
            os.makedirs(f"{work}/tree/d{d}")
            for i in own:
                with open(f"{work}/tree/d{d}/f{i}", "wb") as file:
                    file.write(b"z" * sizes[i])
        folders = [f"{work}/tree/d{d}" for d in range(10)]
        names = [f"::/d{d}" for d in range(10)]
        tell("mtools", image, {"made": (["mcopy", "-s", "-i", image] + folders + ["::/"], b""), "listed": (["mdir", "-i", image, "-b"] + names, b""),
                               "removed": (["mdeltree", "-i", image] + names, b"")}, {"MTOOLS_SKIP_CHECK": "1"})
    else:
        print("mtools are not installed")

    if have("sqlite3"):
        image = f"{work}/names.db"
        if os.path.exists(image):
            os.remove(image)
        subprocess.run(["sqlite3", image, "create table files (dir int, name text, bytes blob, primary key (dir, name));"], capture_output=True)
        lines = ""
        for d, own in enumerate(by_folder):
            lines += "begin;\n" + "".join(f"insert into files values ({d}, 'f{i}', zeroblob({sizes[i]}));\n" for i in own) + "commit;\n"
        removed = "begin;\n" + "".join(f"delete from files where dir = {d} and name = 'f{i}';\n" for d, own in enumerate(by_folder) for i in own) + "commit;\n"
        tell("sqlite3", image, {"made": (["sqlite3", image], lines.encode()), "listed": (["sqlite3", image], b"select dir, name from files;\n"), "removed": (["sqlite3", image], removed.encode())})
    else:
        print("sqlite3 is not installed")
END
