#!/bin/sh
# Two hundred volumes with a byte changed somewhere in their metadata (hostile.py).
. "$(dirname "$(readlink -f "$0")")/checks.sh"

"$root/bfs" "$work/none.img" >/dev/null
python3 "$root/tests/hostile.py" "$root/crates/bfs_main/out/bfs_main" "$work" 200
