#!/bin/sh
# Twenty thousand seeded lines on real volumes of several sizes, beside a plain tree (plain.py).
. "$(dirname "$(readlink -f "$0")")/checks.sh"

"$root/bfs" "$work/none.img" >/dev/null
python3 "$root/tests/plain.py" "$root/crates/bfs_main/out/bfs_main" "$work" 20000
