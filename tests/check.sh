#!/bin/sh
# `check` on real files: volumes that are whole, by `mk` and by a generator of another maker's kind, and volumes with one byte changed.
. "$(dirname "$(readlink -f "$0")")/checks.sh"

"$root/bfs" "$work/none.img" >/dev/null
program=$root/crates/bfs_main/out/bfs_main
image=$work/volume.img
said() { # STATUS TEXT: check prints this and ends so
    "$program" "$image" check >"$work/out" 2>"$work/err" </dev/null
    ended=$?
    test "$ended" -eq "$1" && test "$(cat "$work/out")" = "$2" && return
    echo "ended with $ended, printed: $(cat "$work/out") and: $(cat "$work/err")"
    return 1
}

put() { # PLACE BYTES: writes bytes, in octal escapes, at a place
    printf "$2" | dd of="$image" bs=1 seek="$1" conv=notrunc 2>/dev/null
}

fresh() {
    rm -f "$image"
    truncate -s 4194304 "$image"
    "$program" "$image" mk --blocks 4096 >/dev/null
    cp "$image" "$work/before.img"
}

fresh
check 'a new volume' said 0 'whole nodes 1 used 529'
check 'which is as it was' cmp -s "$image" "$work/before.img"
truncate -s 512 "$image"
check 'one sector' said 3 'finding short 1 2'
fresh
truncate -s 4193792 "$image"
check 'a sector too few' said 3 'finding short 8191 8192'
fresh
put 616 '\001'
check 'a log whose first entry has no run' said 3 'finding entry 0 0'
put 600 '\000\000\000\000\000\000'
check 'a log at block 0' said 3 'finding super 7'
fresh
put $((1024 + 511)) '\377'
check 'bits that nothing reaches' said 8 'finding bitextra 4088'
fresh
put $((514 * 1024)) '\000'
check 'a root without its magic number' said 8 'finding inode 514 1 1002310144'
fresh
# (the page of the root's tree becomes an interior page whose last child is itself, at the 1,024th byte of the stream)
put $((516 * 1024 + 16)) '\000\004\000\000\000\000\000\000'
"$program" "$image" check >"$work/out" </dev/null
check 'a page below itself' test $? -eq 8 -a "$(cut -d ' ' -f 1 "$work/out")" = finding

for size in 1024 2048 4096 8192; do
    rm -f "$image"
    truncate -s $((4096 * size)) "$image"
    "$program" "$image" mk --blocks 4096 --block-size $size >/dev/null
    filled=$(python3 "$root/tests/fill.py" "$image" 700 5)
    check "700 files, in blocks of $size bytes" said 0 "whole $filled"
done

rm -f "$image"
truncate -s 1048576 "$image"
"$program" "$image" mk --blocks 1024 >/dev/null
python3 "$root/tests/fill.py" "$image" 21 2 >/dev/null
check 'one byte changed is found, or does not count' python3 "$root/tests/bytes.py" "$program" "$image" 61 >"$work/bytes"
cat "$work/bytes" | grep -v '^found '
finish
