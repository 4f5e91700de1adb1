#!/bin/sh
# `label` on a real file of 4,194,304 bytes: the bytes that change, the statuses, and what blkid says.
. "$(dirname "$(readlink -f "$0")")/checks.sh"

image=$work/volume.img
python3 "$root/tests/volume.py" "$image"
cp "$image" "$work/before.img"

"$root/bfs" "$image" label new >"$work/out"
check 'status 0' test $? -eq 0
check 'nothing printed' test ! -s "$work/out"
cmp -l "$work/before.img" "$image" | awk '{ print $1 - 1 }' >"$work/places"
check 'only bytes 512 to 543 differ' awk '$1 < 512 || $1 > 543 { bad = 1 } END { exit bad }' "$work/places"
check 'the new label' test "$(dd if="$image" bs=1 skip=512 count=32 2>/dev/null | od -An -v -tx1 | tr -d ' \n')" = \
    "6e65770000000000000000000000000000000000000000000000000000000000"

"$root/bfs" "$image" label "$(printf 'n%.0s' $(seq 32))" >"$work/out" 2>&1
check 'a label of 32 letters is refused' test $? -eq 2
printf '\302' >"$work/word"
"$root/bfs" "$image" label "$(cat "$work/word")" >"$work/out" 2>&1
check 'a word that is not UTF-8 is refused' test $? -eq 2
check 'with the usage text' grep -q '^usage: bfs IMAGE' "$work/out"
"$root/bfs" "$work/missing.img" label new >"$work/out" 2>&1
check 'a missing file is a failed disk' test $? -eq 4
head -c 512 "$work/before.img" >"$work/short.img"
"$root/bfs" "$work/short.img" label new >"$work/out" 2>&1
check 'one sector is too short' test $? -eq 3
check 'and told so' test "$(cat "$work/out")" = 'finding short 1 2'
"$root/bfs" "$image" label new >/dev/full
check 'label prints nothing to a full device' test $? -eq 0
"$root/bfs" "$image" >/dev/full
check 'a full output' test $? -eq 6

if command -v blkid >/dev/null 2>&1; then
    check 'blkid names the new label' sh -c "blkid -p '$image' | grep -q 'LABEL=\"new\"'"
else
    skip 'blkid is not installed'
fi
# The barrier of the one write is one fsync of the file, behind it.
if strace -o "$work/calls" true 2>/dev/null; then
    strace -f -e trace=pwrite64,write,fsync,fdatasync -o "$work/calls" "$root/bfs" "$image" label other >"$work/out" 2>&1
    check 'a label under strace' test $? -eq 0
    check 'the write and then one fsync' test "$(grep -o 'write64\|write\|fsync\|fdatasync' "$work/calls" | tail -n 2 | tr '\n' ' ')" = 'write fsync '
    check 'no other fsync' test "$(grep -c 'sync(' "$work/calls")" -eq 1
else
    skip 'strace is not installed, or may not trace'
fi
finish
