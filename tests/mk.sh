#!/bin/sh
# `mk` on real files: what is printed, which bytes are written, and what programs that others wrote say of the volume.
. "$(dirname "$(readlink -f "$0")")/checks.sh"

image=$work/volume.img
said() { # STATUS TEXT WORDS..: bfs prints this and ends so
    status=$1
    text=$2
    shift 2
    "$root/bfs" "$image" "$@" >"$work/out" 2>"$work/err"
    test $? -eq "$status" && test "$(cat "$work/out")" = "$text"
}

truncate -s 4194304 "$image"
check 'a volume of 4,096 blocks' said 0 'made 4096 used 529' mk --blocks 4096
check 'its superblock' test "$(dd if="$image" bs=1 skip=512 count=16 2>/dev/null | od -An -v -tx1 | tr -d ' \n')" = 756e7469746c65640000000000000000
check 'too few blocks' said 10 'small 528 529' mk --blocks 528
truncate -s 4193792 "$image"
check 'too few sectors' said 10 'small 8191 8192' mk --blocks 4096
check 'a sign is refused' said 2 "$("$root/bfs" "$image")" mk --blocks +4096

# The stamps are those of the system's clock, in seconds times 2^16.
truncate -s 4194304 "$image"
before=$(date +%s)
check 'made again, with a label' said 0 'made 4096 used 529' mk --blocks 4096 --name archive
after=$(date +%s)
stamp=$(dd if="$image" bs=1 skip=$((514 * 1024 + 28)) count=8 2>/dev/null | od -An -v -td8 | tr -d ' ')
check 'the stamp is of now' test "$before" -le $((stamp / 65536)) -a $((stamp / 65536)) -le "$after"

# Four gibibytes in a sparse file: the rest of it stays a hole.
big=$work/big.img
truncate -s 4294967296 "$big"
image=$big
start=$(date +%s%N)
check 'a volume of 4,194,304 blocks' said 0 'made 4194304 used 2576' mk --blocks 4194304
check 'in less than a second' test $(($(date +%s%N) - start)) -lt 1000000000
check 'of which less than a mebibyte is stored' test "$(du -k "$big" | cut -f1)" -lt 1024

for size in 1024 2048 4096 8192; do
    image=$work/$size.img
    truncate -s $((4096 * size)) "$image"
    "$root/bfs" "$image" mk --blocks 4096 --block-size $size --name archive >/dev/null
    check "made with blocks of $size bytes" test $? -eq 0
    if command -v blkid >/dev/null 2>&1; then
        check "blkid knows it, $size" sh -c "blkid -p '$image' | grep 'TYPE=\"befs\"' | grep -q 'LABEL=\"archive\"'"
    else
        skip 'blkid is not installed'
    fi
    if command -v wipefs >/dev/null 2>&1; then
        check "wipefs knows it, $size" sh -c "wipefs --noheadings --output OFFSET,TYPE,LABEL '$image' | tr -s ' ' | grep -q '^0x220 befs archive *\$'"
    else
        skip 'wipefs is not installed'
    fi
    if command -v disktype >/dev/null 2>&1; then
        check "disktype knows it, $size" sh -c "disktype '$image' | grep -q 'BeOS BFS (BeFS) file system'"
    else
        skip 'disktype is not installed'
    fi
    if command -v grub-fstest >/dev/null 2>&1; then
        check "grub-fstest lists it, $size" sh -c "grub-fstest '$image' ls -- -l '(loop0)' | grep -q 'Filesystem type bfs'"
    else
        skip 'grub-fstest is not installed'
    fi
done

# blkid and wipefs look for this file system from 1,474,560 bytes on.
if command -v blkid >/dev/null 2>&1; then
    for blocks in 1439 1440; do
        image=$work/$blocks.img
        truncate -s $((blocks * 1024)) "$image"
        "$root/bfs" "$image" mk --blocks $blocks >/dev/null
    done
    check 'blkid knows 1,440 blocks of 1,024 bytes' sh -c "blkid -p '$work/1440.img' | grep -q 'TYPE=\"befs\"'"
    check 'and not one block less' sh -c "! blkid -p '$work/1439.img' | grep -q befs"
fi
finish
