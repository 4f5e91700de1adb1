#!/bin/sh
# Makes new volumes of four sizes in sparse files with `bfs mk` and with the formatters of other file systems that are
# installed, in one run. Prints the median time of 15 runs each, its ratio to that of `bfs mk`, and what the file then stores.
# usage: bench/mk.sh
set -u
root=$(dirname "$(dirname "$(readlink -f "$0")")")
"$root/bfs" /dev/null >/dev/null || exit 1
exec python3 - "$root" <<'PYTHON'
import os
import shutil
import statistics
import subprocess
import sys
import tempfile
import time

root = sys.argv[1]
RUNS = 15
SIZES = [(4096, "4 MiB"), (65536, "64 MiB"), (262144, "256 MiB"), (4194304, "4 GiB")]  # blocks of 1,024 bytes
TOOLS = [
    ("bfs mk", [f"{root}/crates/bfs_main/out/bfs_main", "IMAGE", "mk", "--blocks", "BLOCKS"]),
    ("mke2fs -t ext2", ["mke2fs", "-q", "-F", "-t", "ext2", "-b", "1024", "-E", "nodiscard", "IMAGE"]),
    ("mke2fs -t ext4", ["mke2fs", "-q", "-F", "-t", "ext4", "-b", "1024", "-E", "nodiscard", "IMAGE"]),
    ("mformat", ["mformat", "-i", "IMAGE", "-T", "SECTORS", "-h", "64", "-s", "32", "::"]),
    ("mkfs.fat", ["mkfs.fat", "IMAGE"]),
    ("mkfs.xfs", ["mkfs.xfs", "-q", "-f", "-K", "IMAGE"]),
]


def path_of(name):
    return name if os.path.isabs(name) else shutil.which(name, path=os.environ["PATH"] + ":/sbin:/usr/sbin")


print(f"{os.cpu_count()} cores, load {os.getloadavg()[0]:.1f}\n")
print("| tool | volume | median, ms | times that of bfs mk | stored, KiB |\n|---|---|---|---|---|")
with tempfile.TemporaryDirectory() as folder:
    image = os.path.join(folder, "volume.img")
    for blocks, size in SIZES:
        times = {name: [] for name, _ in TOOLS}
        stored = {}
        for _ in range(RUNS):  # the tools by turns, so that what else the machine does meets them alike
            for name, words in TOOLS:
                if path_of(words[0]) is None:
                    continue
                command = [path_of(words[0])] + [
                    w.replace("IMAGE", image).replace("BLOCKS", str(blocks)).replace("SECTORS", str(2 * blocks)) for w in words[1:]
                ]
                if os.path.exists(image):
                    os.unlink(image)
                with open(image, "wb") as file:
                    file.truncate(blocks * 1024)
                start = time.perf_counter()
                done = subprocess.run(command, stdout=subprocess.DEVNULL, stderr=subprocess.DEVNULL)
                if done.returncode == 0:
                    times[name].append(time.perf_counter() - start)
                    stored[name] = os.stat(image).st_blocks // 2
        own = statistics.median(times["bfs mk"])
        for name, words in TOOLS:
            if path_of(words[0]) is None:
                print(f"skipped: {name} is not installed", file=sys.stderr)
            elif times[name]:
                median = statistics.median(times[name])
                print(f"| {name} | {size} | {1000 * median:.1f} | {median / own:.1f} | {stored[name]} |")
            else:
                print(f"| {name} | {size} | refused | | |")
PYTHON
