#!/bin/sh
# What goes to standard error, and to standard output beside it: at status 4, which call of the image failed and what the system
# said; at status 2, which word is wrong. The program itself is run, so that the launcher's own lines are in no way.
. "$(dirname "$(readlink -f "$0")")/checks.sh"

"$root/bfs" "$work/none.img" >/dev/null
program=$root/crates/bfs_main/out/bfs_main
image=$work/volume.img
usage='usage: bfs IMAGE (label NAME | mk --blocks N [--block-size B] [--name NAME] | check | sh [-j N] | soak SEED COUNT [-j N])'

# The program ends with the status and this output, and says so on standard error: says SHOW STATUS OUTPUT ERROR COMMAND.., where SHOW
# prints what counts of a file.
says() {
    show=$1
    status=$2
    output=$3
    error=$4
    shift 4
    "$@" >"$work/out" 2>"$work/err"
    ended=$?
    test "$ended" -eq "$status" && test "$(cat "$work/out")" = "$output" && test "$($show "$work/err")" = "$error" && return
    echo "ended with $ended, printed: $(cat "$work/out") and: $(cat "$work/err")"
    return 1
}

# With just these texts; and the same of the first line of standard error.
ends() { says cat "$@"; }
begins() { says 'head -n 1' "$@"; }

fresh() { # a volume, and a copy of it
    rm -f "$image"
    truncate -s 4M "$image"
    "$program" "$image" mk --blocks 4096 >/dev/null 2>&1
    cp "$image" "$work/before.img"
}

# Status 4: the image can't be opened.
open="it can't be opened as an image"
check 'no such file' ends 4 '' "bfs: $work/missing.img: $open: No such file or directory (os error 2)" "$program" "$work/missing.img" label new
check 'mk of no such file' ends 4 '' "bfs: $work/missing.img: $open: No such file or directory (os error 2)" "$program" "$work/missing.img" mk --blocks 4096
check 'and makes none' test ! -e "$work/missing.img"
check 'a directory' ends 4 '' "bfs: $work: $open: Is a directory (os error 21)" "$program" "$work" label new
check 'below a file' ends 4 '' "bfs: $work/out/x: $open: Not a directory (os error 20)" "$program" "$work/out/x" label new
fresh
chmod 444 "$image"
chmod 755 "$work"
if [ "$(id -u)" -ne 0 ]; then
    check 'a file that is for reading alone' ends 4 '' "bfs: $image: $open: Permission denied (os error 13)" "$program" "$image" label new
elif setpriv --reuid 65534 --clear-groups test -x "$program" 2>/dev/null; then
    check 'a file that is for reading alone' ends 4 '' "bfs: $image: $open: Permission denied (os error 13)" \
        setpriv --reuid 65534 --clear-groups "$program" "$image" label new
else
    skip 'setpriv is not installed, or another user may not run the program'
fi
check 'which is as it was' cmp -s "$image" "$work/before.img"
chmod 644 "$image"

# Status 4: the descriptors of the standard files can't be held.
few() {
    (
        ulimit -n 4
        "$program" "$image" label new
    )
}
check 'too few descriptors' ends 4 '' 'bfs: neither / nor /dev/null can be opened: Too many open files (os error 24)' few
check 'the image is as it was' cmp -s "$image" "$work/before.img"

# Status 4: a call of the open image fails, as strace makes it.
failing() { # CALL WHICH WORDS..: the call of that number of the image fails
    call=$1
    which=$2
    shift 2
    strace -o "$work/calls" -P "$image" -e "inject=$call:error=EIO:when=$which" "$program" "$image" "$@"
}
io='Input/output error (os error 5)'
if strace -o "$work/calls" -P "$image" -e inject=read:error=EIO:when=1 true 2>/dev/null; then
    check 'a failed read' ends 4 '' "bfs: $image: a read of it failed: $io" failing read 1 label new
    check 'leaves the image' cmp -s "$image" "$work/before.img"
    check 'a failed write' ends 4 '' "bfs: $image: a write to it failed, and it may be changed: $io" failing write 1 label new
    check 'a failed barrier' ends 4 '' "bfs: $image: it could not be brought to its medium, and it may be changed: $io" failing fsync 1 label new
    check 'a failed barrier of mk' ends 4 '' "bfs: $image: it could not be brought to its medium, and it may be changed: $io" failing fsync 2 mk --blocks 4096
    interrupted() { # CALL WORDS..: the first call of the image is interrupted, and has done nothing
        call=$1
        shift
        strace -o "$work/calls" -P "$image" -e "inject=$call:error=EINTR:when=1" "$program" "$image" "$@"
    }
    fresh
    for call in read write; do
        check "an interrupted $call goes on" ends 0 '' '' interrupted "$call" label "$call"
        cp "$work/before.img" "$work/plain.img"
        "$program" "$work/plain.img" label "$call"
        check "and the label is there" cmp -s "$image" "$work/plain.img"
    done
else
    skip 'strace is not installed, or may not trace'
fi

# Status 4: the disk is full, or the file would be too long for a limit. What was a volume is none any more.
limited() {
    (
        trap '' XFSZ
        ulimit -f 64
        "$program" "$image" mk --blocks 4096
    )
}
fresh
check 'a write past a limit' ends 4 '' "bfs: $image: a write to it failed, and it may be changed: File too large (os error 27)" limited
check 'the superblock is cleared' ends 3 'finding super 1' '' "$program" "$image" label new
mkdir "$work/full"
if mount -t tmpfs -o size=8k none "$work/full" 2>/dev/null; then
    truncate -s 4M "$work/full/volume.img"
    check 'a full disk' ends 4 '' "bfs: $work/full/volume.img: a write to it failed, and it may be changed: No space left on device (os error 28)" \
        "$program" "$work/full/volume.img" mk --blocks 4096
    umount "$work/full"
else
    skip 'no small disk can be mounted'
fi

# Status 0: a check tells what it found, and only reads.
fresh
check 'a check' ends 0 'whole nodes 1 used 529' '' "$program" "$image" check
check 'leaves the image' cmp -s "$image" "$work/before.img"

# Status 2: which word is wrong.
fresh
check 'a sign' ends 2 "$usage" 'not a number in range: +529' "$program" "$image" mk --blocks +529
check 'no digits' ends 2 "$usage" 'not a number in range: ' "$program" "$image" mk --blocks ''
check 'more blocks than a volume has' ends 2 "$usage" 'not a number in range: 4194305' "$program" "$image" mk --blocks 4194305
check '21 digits' ends 2 "$usage" 'not a number in range: 000000000000000000529' "$program" "$image" mk --blocks 000000000000000000529
check 'no size of blocks' ends 2 "$usage" 'not a number in range: 512' "$program" "$image" mk --blocks 4096 --block-size 512
check 'a name with a slash' ends 2 "$usage" 'not a label: a/b' "$program" "$image" mk --blocks 4096 --name a/b
check 'an empty label' ends 2 "$usage" 'not a label: ' "$program" "$image" label ''
check 'a label of 32 letters' ends 2 "$usage" 'not a label: letters-letters-letters-letters-' "$program" "$image" label letters-letters-letters-letters-
check 'sh' ends 2 "$usage" 'not a number in range: 4' "$program" "$image" sh -j 4
check 'a workload that is too long' ends 2 "$usage" 'not a number in range: 1048573' "$program" "$image" soak 7 1048573
check 'no command' begins 2 "$usage" "error: unrecognized subcommand 'LABEL'" "$program" "$image" LABEL new
check 'a word too many' begins 2 "$usage" "error: unexpected argument 'newer' found" "$program" "$image" label new newer
check 'an option of no command' begins 2 "$usage" "error: unexpected argument '--size' found" "$program" "$image" mk --blocks 4096 --size 1
check 'a value that is wanting' begins 2 "$usage" "error: a value is required for '--blocks <blocks>' but none was supplied" "$program" "$image" mk --blocks
check 'an option twice' begins 2 "$usage" "error: the argument '--blocks <blocks>' cannot be used multiple times" "$program" "$image" mk --blocks 4096 --blocks 4096
check 'an argument that is wanting' begins 2 "$usage" 'error: the following required arguments were not provided:' "$program" "$image" label
check 'a word that is not UTF-8' begins 2 "$usage" "error: unrecognized subcommand 'n\\xc2w'" "$program" "$image" label "$(printf 'n\302w')"
check 'a path that is not UTF-8' begins 2 "$usage" "error: unrecognized subcommand 'n\\xc2w.img'" "$program" "$(printf 'n\302w.img')" label new
check 'the image is as it was' cmp -s "$image" "$work/before.img"

# A block device is an image too.
if loop=$(losetup -f --show "$image" 2>/dev/null); then
    check 'the label of a block device' ends 0 '' '' "$program" "$loop" label device
    check 'mk on a block device' ends 0 'made 4096 used 529' '' "$program" "$loop" mk --blocks 4096 --name device
    check 'one that is too short' ends 10 'small 8192 16384' '' "$program" "$loop" mk --blocks 8192
    losetup -d "$loop"
    check 'its bytes are those of a volume' sh -c "test \"\$(head -c 518 '$image' | tail -c 6)\" = device"
else
    skip 'there is no loop device'
fi
finish
