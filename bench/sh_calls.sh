#!/bin/sh
# Calls a second of processor time by their kind, through the whole program on a volume in a memory file system with so many files in ten folders: one script of `sh` makes the files and then makes up to 20,000 calls
# of one kind, and the processor time of the script without them is taken off. Each file has a size of its own, since the numbers of one key stand in a chain of pages that
# grows with the files that are as long; so a `make` is told with the `size` that follows it. Beside it SQLite in memory of the same kind: one table of names and one of attributes, a
# statement a line and one transaction.
# usage: bench/sh_calls.sh [FILES..]
set -eu
root=$(dirname "$(dirname "$(readlink -f "$0")")")
work=$(mktemp -d -p /dev/shm)
trap 'rm -rf "$work"' EXIT
"$root/bfs" "$work/none.img" >/dev/null
program=${BFS_PROGRAM:-$root/crates/bfs_main/out/bfs_main}
[ $# -gt 0 ] || set -- 1000 10000 100000

for files in "$@"; do
    blocks=$((files * 36 + 32768))
    rm -f "$work/volume.img"
    truncate -s $((blocks * 1024)) "$work/volume.img"
    "$program" "$work/volume.img" mk --blocks $blocks >/dev/null
    python3 - "$program" "$work" "$files" <<'END'
import resource
import shutil
import sqlite3
import subprocess
import sys
import time

program, work, files = sys.argv[1], sys.argv[2], int(sys.argv[3])
calls = min(files, 20000)


def run(lines, times):
    """The least processor time of a script on the empty volume."""
    script = "".join(f"1 {line}\n" for line in lines).encode()
    took = []
    for _ in range(times):
        shutil.copy(f"{work}/volume.img", f"{work}/copy.img")
        before = resource.getrusage(resource.RUSAGE_CHILDREN)
        done = subprocess.run([program, f"{work}/copy.img", "sh"], input=script, capture_output=True)
        assert done.returncode == 0, done.stdout[-200:]
        after = resource.getrusage(resource.RUSAGE_CHILDREN)
        took.append(after.ru_utime + after.ru_stime - before.ru_utime - before.ru_stime)
    return min(took)


fill = ["mkindex weight LONG"] + [f"mkdir /d{i}" for i in range(10)] + [line for i in range(files) for line in (f"make /d{i % 10}/file{i}", f"size /d{i % 10}/file{i} {i * 977 % 65536 + 1}")]
there = [f"/d{i % 10}/file{i}" for i in range(0, files, files // calls)][:calls]
attributes = [f"attr {path} weight LONG:{i}" for i, path in enumerate(there)]
kinds = {
    "stat": ([], [f"stat {path}" for path in there]),
    "attr": ([], attributes),
    "getattr": (attributes, [f"getattr {path} weight" for path in there]),
    "mv": ([], [f"mv {path} {path}x" for path in there]),
    "size": ([], [f"size {path} {i * 31 % 60000 + 1}" for i, path in enumerate(there)]),
    "rm": ([], [f"rm {path}" for path in there]),
}
filled = run(fill, 3)
told = [f"make and size {2 * files / filled:.0f}"]
for kind, (before, lines) in kinds.items():
    base = run(fill + before, 3) if before else filled
    seconds = run(fill + before + lines, 3) - base
    told.append(f"{kind} {len(lines) / seconds:.0f}" if seconds > base / 20 else f"{kind} (below the noise)")
print(f"bfs sh, {files} files, calls a second: {', '.join(told)}", flush=True)

base = sqlite3.connect(f"{work}/names.db", isolation_level=None)
base.executescript("pragma journal_mode=wal; create table nodes (id integer primary key, dir int, name text, size int, unique (dir, name)); create table attrs (id int, name text, value int, primary key (id, name)); create index weight on attrs (name, value);")
base.execute("begin")
base.executemany("insert into nodes (dir, name, size) values (?, ?, 0)", ((i % 10, f"file{i}") for i in range(files)))
base.execute("commit")
pairs = [(i % 10, f"file{i}") for i in range(0, files, files // calls)][:calls]
work_of = {
    "make": lambda i, d, n: base.execute("insert into nodes (dir, name, size) values (?, ?, 0)", (d, f"new{i}")),
    "stat": lambda i, d, n: base.execute("select * from nodes where dir = ? and name = ?", (d, n)).fetchone(),
    "attr": lambda i, d, n: base.execute("insert or replace into attrs select id, 'weight', ? from nodes where dir = ? and name = ?", (i, d, n)),
    "getattr": lambda i, d, n: base.execute("select value from attrs where name = 'weight' and id = (select id from nodes where dir = ? and name = ?)", (d, n)).fetchone(),
    "mv": lambda i, d, n: base.execute("update nodes set name = ? where dir = ? and name = ?", (n + "x", d, n)),
    "size": lambda i, d, n: base.execute("update nodes set size = 1000 where dir = ? and name = ?", (d, n + "x")),
    "rm": lambda i, d, n: base.execute("delete from nodes where dir = ? and name = ?", (d, n + "x")),
}
told = []
for kind, call in work_of.items():
    before = time.process_time()
    base.execute("begin")
    for i, (d, n) in enumerate(pairs):
        call(i, d, n)
    base.execute("commit")
    told.append(f"{kind} {len(pairs) / (time.process_time() - before):.0f}")
print(f"SQLite, {files} files, calls a second: {', '.join(told)}")
base.close()
subprocess.run(["rm", "-f", f"{work}/names.db", f"{work}/names.db-wal", f"{work}/names.db-shm"])
END
done
