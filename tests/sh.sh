#!/bin/sh
# `sh` and `soak` on real files: what scripts print, what they leave for `check` and for a reader that others wrote, and volumes on which the program was
# killed at one of its writes.
. "$(dirname "$(readlink -f "$0")")/checks.sh"

"$root/bfs" "$work/none.img" >/dev/null
program=$root/crates/bfs_main/out/bfs_main
image=$work/volume.img

fresh() { # BLOCK_SIZE
    rm -f "$image"
    truncate -s $((4096 * $1)) "$image"
    "$program" "$image" mk --blocks 4096 --block-size "$1" >/dev/null
}

runs() { # STATUS TEXT SCRIPT: sh prints this and ends so
    printf '%s\n' "$3" | "$program" "$image" sh >"$work/out" 2>"$work/err"
    ended=$?
    test "$ended" -eq "$1" && test "$(cat "$work/out")" = "$2" && return
    echo "ended with $ended, printed: $(cat "$work/out") and: $(cat "$work/err")"
    return 1
}

is_whole() {
    "$program" "$image" check >"$work/out" </dev/null && return
    cat "$work/out"
    return 1
}

for size in 1024 2048 4096 8192; do
    fresh $size
    check "directories, files and links, $size" runs 0 '1 1 ok
2 1 ok
3 2 ok
4 1 ok
5 1 ok 1 l
6 1 ok 2 a b
7 2 ok f
8 1 notempty
9 1 ok
10 1 notfound' '1 mkdir /a
1 make /a/f
2 link /a/l f
1 mv /a/f /b
1 ls /a
1 ls /
2 readlink /a/l
1 rm /a
1 sync
1 stat /a/f'
    check "which is whole, $size" is_whole
    check "and still there, $size" runs 0 '1 1 ok 2 a b' '1 ls /'
    check "bytes of files, $size" runs 0 '1 1 ok
2 1 ok
3 1 ok 5 68656c6c6f
4 1 ok 3 6c6c6f
5 1 pastend 20000
6 1 ok
7 1 pastend 9002' '1 size /b 20000
1 write /b 9000 :hello
1 read /b 9000 5
1 read /b 9002 3
1 read /b 19999 2
1 size /b 9002
1 read /b 9000 5'
    check "which is whole too, $size" is_whole
    check "attributes and indices, $size" runs 0 '1 1 ok
2 1 ok
3 1 ok LONG 4 07000000
4 1 ok 1 7=b
5 1 ok 1 LONG=n
6 1 ok
7 1 ok 0
8 1 ok
9 1 builtin' '1 mkindex n LONG
1 attr /b n LONG:7
1 getattr /b n
1 find n LONG:1 LONG:9
1 attrs /b
1 rmattr /b n
1 find n LONG:1 LONG:9
1 rmindex n
1 rmindex name'
    check "and whole at last, $size" is_whole
done

# What was written is what grub's own reader of the format reads.
fresh 2048
check 'a file of three blocks' runs 0 '1 1 ok
2 1 ok
3 1 ok
4 1 ok' '1 make /f
1 size /f 6000
1 write /f 0 *6000
1 write /f 2040 :between-two-blocks'
if command -v grub-fstest >/dev/null 2>&1; then
    python3 -c 'import sys; b = bytearray(b"z" * 6000); b[2040:2058] = b"between-two-blocks"; sys.stdout.buffer.write(b)' >"$work/want"
    check 'read by grub' sh -c "grub-fstest '$image' cat '(loop0)/f' | cmp -s - '$work/want'"
else
    skip 'grub-fstest is not installed'
fi

# A script that isn't begun.
fresh 1024
cp "$image" "$work/before.img"
check 'a bad line' runs 9 'line 2' '1 mkdir /a
1 nonsense'
check 'a session that is none' runs 9 'line 1' '17 ls /'
check 'leave the volume' cmp -s "$image" "$work/before.img"
truncate -s 512 "$image"
check 'no volume' runs 3 'finding short 1 2' '1 ls /'
fresh 1024
printf '\001' | dd of="$image" bs=1 seek=1124 conv=notrunc 2>/dev/null
check 'a volume that is not whole' runs 3 'finding bitextra 800' '1 ls /'
fresh 1024
"$program" "$image" sh <"$work" >"$work/out" 2>"$work/err"
check 'a script that cannot be read' test $? -eq 5

# A workload leaves a volume that is whole, with as many nodes as it told.
fresh 1024
check 'a workload' sh -c "'$program' '$image' soak 7 200 >'$work/said' && grep -qx 'lines 204 ok [0-9]* refused [0-9]* nodes [0-9]*' '$work/said'"
check 'leaves a whole volume' is_whole
check 'of as many nodes' test "$(sed 's/.* nodes //' "$work/said")" = "$(sed 's/whole nodes \([0-9]*\) .*/\1/' "$work/out")"

# Killed at a write: the volume mounts, and has the first so many of the directories, among them each that a sync stands behind.
script='1 mkdir /d1
1 mkdir /d2
1 sync
1 mkdir /d3
1 sync
1 mkdir /d4'
if command -v strace >/dev/null 2>&1; then
    fresh 1024
    cp "$image" "$work/before.img"
    for write in 1 2 3 4 5 6 8 10 12 14 16 18; do
        cp "$work/before.img" "$image"
        printf '%s\n' "$script" | strace -f -o "$work/calls" -P "$image" -e trace=write -e inject=write:signal=KILL:when=$write "$program" "$image" sh >"$work/out" 2>/dev/null
        ended=$?
        check "killed at write $write" test $ended -ge 128
        printf '%s\n' '1 ls /' | "$program" "$image" sh >"$work/out" 2>"$work/err"
        check "mounted behind write $write" test $? -eq 0
        check "with a prefix behind write $write" grep -qx -e '1 1 ok 0' -e '1 1 ok 1 d1' -e '1 1 ok 2 d1 d2' -e '1 1 ok 3 d1 d2 d3' -e '1 1 ok 4 d1 d2 d3 d4' "$work/out"
        check "and whole behind write $write" is_whole
    done
else
    skip 'strace is not installed'
fi

# Killed at a hundred moments, drawn from a seed: the volume has the first so many of the folders, and the file of each folder that has another one behind
# it has its bytes, since a sync stands between the two.
rounds=24
text_of() { # ROUND
    printf 'file-%02d' "$1"
}
round=1
while [ $round -le $rounds ]; do
    name=$(printf 'd%02d' $round)
    printf '1 mkdir /%s\n1 make /%s/f\n1 size /%s/f 7\n1 write /%s/f 0 :%s\n1 sync\n' "$name" "$name" "$name" "$name" "$(text_of $round)"
    round=$((round + 1))
done >"$work/script"

run_until() { # MILLISECONDS: killed then, where it hasn't ended
    cp "$work/before.img" "$image"
    "$program" "$image" sh <"$work/script" >"$work/out" 2>/dev/null &
    running=$!
    sleep "$(printf '%d.%03d' $(($1 / 1000)) $(($1 % 1000)))"
    kill -9 $running 2>/dev/null
    wait $running 2>/dev/null
}

has_prefix() {
    printf '1 ls /\n' | "$program" "$image" sh >"$work/list" || return 1
    count=$(cut -d' ' -f4 "$work/list")
    wanted="1 1 ok $count"
    : >"$work/reads"
    : >"$work/texts"
    round=1
    while [ $round -le "$count" ]; do
        wanted="$wanted $(printf 'd%02d' $round)"
        if [ $round -lt "$count" ]; then
            printf '1 read /d%02d/f 0 7\n' $round >>"$work/reads"
            printf '%s 1 ok 7 %s\n' $round "$(text_of $round | od -An -tx1 | tr -d ' \n')" >>"$work/texts"
        fi
        round=$((round + 1))
    done
    test "$(cat "$work/list")" = "$wanted" || return 1
    "$program" "$image" sh <"$work/reads" >"$work/out" && cmp -s "$work/out" "$work/texts"
}

fresh 1024
cp "$image" "$work/before.img"
begun=$(date +%s%3N)
"$program" "$image" sh <"$work/script" >"$work/out" 2>/dev/null
check 'a script with a sync a folder' test $? -eq 0
span=$(($(date +%s%3N) - begun + 5))
check 'all its folders and bytes' has_prefix
seed=1
kill=1
while [ $kill -le 100 ]; do
    seed=$(((seed * 1103515245 + 12345) % 2147483648))
    run_until $((seed / 65536 % span))
    check "whole behind kill $kill" is_whole
    check "with a prefix and its bytes behind kill $kill" has_prefix
    kill=$((kill + 1))
done
finish
