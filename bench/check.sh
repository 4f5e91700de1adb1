#!/bin/sh
# The check of volumes with many files, beside `e2fsck -fn` on ext4 and, where it is installed, `fsck.fat -n`, on images with the same numbers of
# files in ten folders, in one run. Our volumes are written by tests/fill.py. Prints for each number of files the median time of 5 runs, the peak
# memory, and the calls of the system by `strace`, where it is installed. usage: bench/check.sh [FILES..]
set -eu
root=$(dirname "$(dirname "$(readlink -f "$0")")")
work=$(mktemp -d)
trap 'rm -rf "$work"' EXIT
"$root/bfs" "$work/none.img" >/dev/null
program=$root/crates/bfs_main/out/bfs_main
[ $# -gt 0 ] || set -- 300 10000 100000

# The median time and the peak memory of 5 runs of a command, and how many calls of the system it makes.
measure() { # NAME COMMAND..
    name=$1
    shift
    calls=-
    if command -v strace >/dev/null 2>&1; then
        strace -f -c -o "$work/calls" "$@" >/dev/null 2>&1 </dev/null || true
        calls=$(awk '$NF == "total" { print (NF > 5 ? $(NF - 2) : $(NF - 1)) }' "$work/calls")
    fi
    python3 - "$name" "$calls" "$@" <<'PYTHON'
import os, statistics, subprocess, sys, time

name, calls, command = sys.argv[1], sys.argv[2], sys.argv[3:]
times, memory = [], 0
for _ in range(5):
    begin = time.monotonic()
    child = subprocess.Popen(command, stdin=subprocess.DEVNULL, stdout=subprocess.DEVNULL, stderr=subprocess.DEVNULL)
    _, status, usage = os.wait4(child.pid, 0)
    times.append(time.monotonic() - begin)
    memory = max(memory, usage.ru_maxrss)
    if os.waitstatus_to_exitcode(status) != 0:
        sys.exit(f"{name}: status {os.waitstatus_to_exitcode(status)}")
print(f"{name:10} {statistics.median(times):8.3f} s {memory:8} KiB {calls:>9} calls")
PYTHON
}

# Ten folders with so many files of up to 1,024 bytes, as fill.py puts them into a volume.
fill_folders() { # FILES
    mkdir "$work/folders"
    (cd "$work/folders" && python3 -c '
import os, sys
files = int(sys.argv[1])
for folder in range(10):
    os.mkdir("folder%04d" % folder)
for i in range(files):
    with open("folder%04d/file%07d" % (i % 10, i), "wb") as file:
        file.write(b"z" * (1 + i % 1024))
' "$1")
}

for files in "$@"; do
    blocks=$((files * 3 + 8192))
    echo "$files files"
    truncate -s $((blocks * 1024)) "$work/bfs.img"
    "$program" "$work/bfs.img" mk --blocks $blocks >/dev/null
    python3 "$root/tests/fill.py" "$work/bfs.img" "$files" 10 >/dev/null
    measure bfs "$program" "$work/bfs.img" check
    if command -v mke2fs >/dev/null 2>&1; then
        fill_folders "$files"
        truncate -s $((blocks * 2048)) "$work/ext4.img"
        mke2fs -q -t ext4 -b 1024 -I 256 -N $((files + 1000)) -d "$work/folders" "$work/ext4.img"
        measure e2fsck e2fsck -f -n "$work/ext4.img"
        rm -rf "$work/folders" "$work/ext4.img"
    else
        echo "e2fsck is not installed"
    fi
    if command -v mkfs.fat >/dev/null 2>&1 && command -v mcopy >/dev/null 2>&1; then
        fill_folders "$files"
        truncate -s $((blocks * 2048)) "$work/fat.img"
        mkfs.fat -F 32 "$work/fat.img" >/dev/null
        mcopy -s -i "$work/fat.img" "$work/folders"/* ::
        measure fsck.fat fsck.fat -n "$work/fat.img"
        rm -rf "$work/folders" "$work/fat.img"
    else
        echo "fsck.fat or mcopy is not installed"
    fi
    rm -f "$work/bfs.img"
done
