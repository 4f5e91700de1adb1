#!/bin/sh
# Longer scripts on real files, each with the text that it has to print and what a check says behind it (scripts.py).
. "$(dirname "$(readlink -f "$0")")/checks.sh"

"$root/bfs" "$work/none.img" >/dev/null
python3 "$root/tests/scripts.py" "$root/crates/bfs_main/out/bfs_main" "$work"
