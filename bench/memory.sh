#!/bin/sh
# The program's peak resident size and time on `soak` with so many lines, each on a new volume of 16,384 blocks of 1,024 bytes. What it has to hold is the
# cache of 1,024 blocks, the open group and the waiting ones, and the history with the script. Needs GNU time.
# usage: bench/memory.sh [LINES..]
set -eu
root=$(dirname "$(dirname "$(readlink -f "$0")")")
work=$(mktemp -d)
trap 'rm -rf "$work"' EXIT
"$root/bfs" "$work/none.img" >/dev/null
program=${BFS_PROGRAM:-$root/crates/bfs_main/out/bfs_main}
[ $# -gt 0 ] || set -- 2000 20000 200000

for lines in "$@"; do
    rm -f "$work/volume.img"
    truncate -s $((16384 * 1024)) "$work/volume.img"
    "$program" "$work/volume.img" mk --blocks 16384 >/dev/null
    before=$(date +%s%N)
    said=$(/usr/bin/time -o "$work/peak" -f %M "$program" "$work/volume.img" soak 7 "$lines")
    after=$(date +%s%N)
    awk "BEGIN { printf \"%s: %.1f MiB, %.2f s\n\", \"$said\", $(cat "$work/peak") / 1024, ($after - $before) / 1e9 }"
done
