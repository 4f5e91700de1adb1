#!/bin/sh
# Ten thousand seeded lines each on one directory, one node's attributes and one index, beside plain maps (maps.py).
. "$(dirname "$(readlink -f "$0")")/checks.sh"

"$root/bfs" "$work/none.img" >/dev/null
python3 "$root/tests/maps.py" "$root/crates/bfs_main/out/bfs_main" "$work" 10000
