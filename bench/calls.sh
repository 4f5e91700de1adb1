#!/bin/sh
# Calls a second by their kind, of a space over blocks in memory: no image, no journal's disk calls, no script. So many files lie in ten folders, each with a size
# and an attribute that is indexed. A batch is a hundred calls of one kind on files that are spread over all; it ends when what they changed has gone home, and
# what one kind takes away another gives back. Beside it SQLite in memory, by Python's module: a table of names and one of attributes, with the indices that the
# volume has, a transaction a batch. Beside the rates stand the levels of the trees, and how many blocks a call reads from memory and sends home, which no other
# work on the machine changes. Each figure is the best of RUNS runs (5) of BATCHES batches (50), both by turns.
# The program is that of bench/calls/, whose files have the ending `.in`, since it is no crate of the gate. It is built by `rt run` in a copy of the crates below it
# and kept in bench/calls/out/; crates that nothing on this machine has proved yet are proved first, which takes an hour and more. CALLS_PROGRAM names one that is built.
# usage: [RUNS=5] [BATCHES=50] [CALLS_PROGRAM=FILE] bench/calls.sh [FILES..]
set -eu
root=$(dirname "$(dirname "$(readlink -f "$0")")")
own=$root/bench/calls
uses="bfs_base bfs_bytes bfs_disk bfs_super bfs_txn bfs_tree bfs_mkfs bfs_space byteorder lru thiserror"
work=$(mktemp -d)
trap 'rm -rf "$work"' EXIT

# The lines of crates.txt of all crates below the program.
lines_below() {
    awk -F: -v first="$uses" '
        function walk(names, words, n, i) {
            n = split(names, words, " ")
            for (i = 1; i <= n; i++) if (words[i] in uses && !(words[i] in seen)) { seen[words[i]] = 1; walk(uses[words[i]]) }
        }
        !/^#/ && NF > 1 { uses[$1] = $2; line[$1] = $0; name[++count] = $1 }
        END { walk(first); for (i = 1; i <= count; i++) if (name[i] in seen) print line[name[i]] }' "$root/crates.txt"
}

# Proves and builds the program in a copy, and keeps it.
build() {
    if ! command -v rt >/dev/null 2>&1; then
        echo "rt, which builds the program, is not found: put it on PATH, or name a program that is built by CALLS_PROGRAM" >&2
        exit 1
    fi
    bench=$work/repo/crates/calls_bench
    mkdir -p "$bench/specs" "$bench/proofs"
    lines_below >"$work/repo/crates.txt"
    for crate in $(cut -d: -f1 "$work/repo/crates.txt"); do
        mkdir -p "$work/repo/crates/$crate"
        for part in src specs proofs; do
            [ ! -d "$root/crates/$crate/$part" ] || cp -r "$root/crates/$crate/$part" "$work/repo/crates/$crate/"
        done
    done
    echo "calls_bench: $uses" >>"$work/repo/crates.txt"
    (cd "$own" && find src proofs -name '*.in') | while read -r file; do
        mkdir -p "$bench/$(dirname "$file")"
        cp "$own/$file" "$bench/${file%.in}"
    done
    : >"$bench/specs/Lib.antt"
    : >"$bench/proofs/Lib.antt"
    echo "building the program over $(grep -c : "$work/repo/crates.txt") crates" >&2
    (cd "$bench" && rt run </dev/null) >"$work/log" 2>&1 || { tail -n 40 "$work/log" >&2; exit 1; }
    mkdir -p "$own/out"
    cp "$bench/out/calls_bench" "$own/out/calls_bench"
}

program=${CALLS_PROGRAM:-$own/out/calls_bench}
if [ -z "${CALLS_PROGRAM:-}" ]; then
    if [ ! -x "$program" ] || [ -n "$(find "$root/crates" "$root/crates.txt" "$own" -name out -prune -o -type f -newer "$program" -print -quit)" ]; then
        build
    fi
fi
[ $# -gt 0 ] || set -- 1000 10000 100000
exec python3 - "$program" "${RUNS:-5}" "${BATCHES:-50}" "$@" <<'END'
import os
import sqlite3
import subprocess
import sys
import time

program, runs, batches, sizes = sys.argv[1], int(sys.argv[2]), int(sys.argv[3]), [int(size) for size in sys.argv[4:]]
BATCH = 100
KINDS = ["make and size", "remove", "look-up", "stat", "list", "rename", "attribute read", "attribute remove", "attribute set", "index find", "resize"]
TWICE = {"make and size", "rename"}


def calls_of(kind):
    """How many calls of this kind a run makes: a file that is made gets its size, and a name that is changed is changed back."""
    return batches * BATCH * (2 if kind in TWICE else 1)


def ours(files):
    """The seconds of each kind, its blocks that were read and that went home, and the levels of the trees."""
    told = subprocess.run([program, str(files), str(batches)], capture_output=True, text=True, check=True).stdout
    took, moved, levels = dict.fromkeys(KINDS, 0.0), {kind: [0, 0] for kind in KINDS}, ""
    for line in told.splitlines():
        word, rest = line.split(" ", 1)
        if word == "levels":
            levels = ", ".join(rest.split())
        elif word == "time":
            nanoseconds, read, home, kind = rest.split(" ", 3)
            took[kind] += int(nanoseconds) / 1e9
            moved[kind][0] += int(read)
            moved[kind][1] += int(home)
        else:
            sys.exit(f"a call wasn't done: {line}")
    if not levels:
        sys.exit(f"no volume with {files} files: at least {BATCH} and at most 300000 are taken")
    return took, moved, levels


def filled(files):
    """The tables with so many files, and a folder of a hundred that is listed."""
    base = sqlite3.connect(":memory:", isolation_level=None)
    base.executescript(
        "create table nodes (id integer primary key, dir int, name text, size int, modified int, unique (dir, name));"
        "create index names on nodes (name); create index sizes on nodes (size); create index times on nodes (modified);"
        "create table attributes (id int, name text, value int, primary key (id, name)) without rowid; create index weights on attributes (name, value);"
    )
    base.execute("begin")
    rows = ((i + 1, i % 10, f"f{i:07}", i * 977 % 16384 + 1, i) for i in range(files))
    base.executemany("insert into nodes values (?, ?, ?, ?, ?)", rows)
    base.executemany("insert into attributes values (?, 'weight', ?)", ((i + 1, i) for i in range(files)))
    rows = ((10, f"f{9000000 + i:07}", i * 163 + 1, files + i) for i in range(100))
    base.executemany("insert into nodes (dir, name, size, modified) values (?, ?, ?, ?)", rows)
    base.execute("commit")
    return base


def statements(base, clock):
    """One call of each kind on a file by its folder, id, name and another number."""
    one, read = base.execute, lambda *given: base.execute(*given).fetchall()

    def make(folder, id, name, value):
        made = one("insert into nodes (dir, name, size, modified) values (?, ?, 0, ?)", (folder, name, next(clock))).lastrowid
        one("update nodes set size = ?, modified = ? where id = ?", (value % 16384 + 1, next(clock), made))

    def rename(folder, id, name, value):
        one("update nodes set name = ? where dir = ? and name = ?", ("g" + name[1:], folder, name))

    def rename_back(folder, id, name, value):
        one("update nodes set name = ? where dir = ? and name = ?", (name, folder, "g" + name[1:]))

    return [
        ("make and size", make),
        ("remove", lambda folder, id, name, value: one("delete from nodes where dir = ? and name = ?", (folder, name))),
        ("look-up", lambda folder, id, name, value: read("select id from nodes where dir = ? and name = ?", (folder, name))),
        ("stat", lambda folder, id, name, value: read("select * from nodes where id = ?", (id,))),
        ("list", lambda folder, id, name, value: read("select name from nodes where dir = 10 order by name")),
        ("rename", rename),
        ("rename", rename_back),
        ("attribute read", lambda folder, id, name, value: read("select value from attributes where id = ? and name = 'weight'", (id,))),
        ("attribute remove", lambda folder, id, name, value: one("delete from attributes where id = ? and name = 'weight'", (id,))),
        ("attribute set", lambda folder, id, name, value: one("insert or replace into attributes values (?, 'weight', ?)", (id, value))),
        ("index find", lambda folder, id, name, value: read("select name, id from nodes where name = ?", (name,))),
        ("resize", lambda folder, id, name, value: one("update nodes set size = ?, modified = ? where id = ?", (value % 16384 + 1, next(clock), id))),
    ]


def theirs(files):
    """The seconds of each kind in SQLite."""
    base, took = filled(files), dict.fromkeys(KINDS, 0.0)
    work = statements(base, iter(range(files + 1000, 1 << 40)))
    for batch in range(batches):
        for kind, call in work:
            new = kind in ("make and size", "remove")
            numbers = [files + at if new else (batch * 37 + at * (files // BATCH)) % files for at in range(BATCH)]
            targets = [(number % 10, number + 1, f"f{number:07}", batch * 7919 + at * 163) for at, number in enumerate(numbers)]
            before = time.perf_counter()
            base.execute("begin")
            for target in targets:
                call(*target)
            base.execute("commit")
            took[kind] += time.perf_counter() - before
    base.close()
    return took


def least(one, other):
    return {kind: min(one[kind], other[kind]) for kind in KINDS}


def row(cells):
    print("| " + " | ".join(cells) + " |", flush=True)


best, moved, levels, beside = {}, {}, {}, {}
for _ in range(runs):
    for files in sizes:
        took, moved[files], levels[files] = ours(files)
        best[files] = least(best.get(files, took), took)
        took = theirs(files)
        beside[files] = least(beside.get(files, took), took)

names = [f"{files:,} files" for files in sizes]
print(f"{os.cpu_count()} processors, load {os.getloadavg()[0]:.1f}, the best of {runs} runs of {batches * BATCH:,} calls each\n")
row(["calls a second"] + names + ["growth"] + ["SQLite, " + name for name in names] + ["growth"])
row(["---"] * (2 * len(sizes) + 3))
row(["levels: a folder, the index of names, that of sizes"] + [levels[files] for files in sizes] + [""] * (len(sizes) + 2))
for kind in KINDS:
    rates, others = ([f"{calls_of(kind) / took[files][kind]:,.0f}" for files in sizes] for took in (best, beside))
    growth, other = (f"{took[sizes[-1]][kind] / took[sizes[0]][kind]:.2f}" for took in (best, beside))
    row([kind] + rates + [growth] + others + [other])
print()
row(["a call"] + [f"microseconds, {name}" for name in names] + [f"blocks read, sent home, {name}" for name in names])
row(["---"] * (2 * len(sizes) + 1))
for kind in KINDS:
    each = [f"{best[files][kind] / calls_of(kind) * 1e6:.1f}" for files in sizes]
    row([kind] + each + [", ".join(f"{blocks / calls_of(kind):.1f}" for blocks in moved[files][kind]) for files in sizes])
END
