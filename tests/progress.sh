#!/bin/sh
# The line on standard error that tells how far `sh`, `soak` and `check` have come: it stands there where standard error is a terminal, which `script`
# makes, and nowhere else; standard output is the same; and what is told behind it begins on a clean line.
. "$(dirname "$(readlink -f "$0")")/checks.sh"

"$root/bfs" "$work/none.img" >/dev/null
program=$root/crates/bfs_main/out/bfs_main
image=$work/volume.img

truncate -s 4M "$work/fresh.img"
"$program" "$work/fresh.img" mk --blocks 4096 >/dev/null
printf '1 mkdir /a\n1 make /a/f\n1 sync\n1 ls /a\n' >"$work/lines"

# Runs the program on a fresh volume without a terminal: its output goes to a file, and its standard error to another.
plain() { # WORDS..
    cp "$work/fresh.img" "$image"
    "$program" "$image" "$@" <"$work/lines" >"$work/plain.out" 2>"$work/plain.err"
}

# The same where standard error is a terminal; what was written to it goes to a file.
shown() { # WORDS..
    cp "$work/fresh.img" "$image"
    script -qec "'$program' '$image' $* <'$work/lines' >'$work/shown.out'" /dev/null </dev/null >"$work/shown.err"
}

# Each time that the line was written, and each text behind it, on a line of its own.
written() { tr '\r' '\n' <"$work/shown.err"; }

# The line is wiped: behind its last writing stand as many blanks as it is long, and nothing else.
is_wiped() {
    last=$(written | grep -v '^ *$' | tail -n 1)
    printf '%s\r%*s\r' "$last" "${#last}" '' >"$work/wiped"
    tail -c $((2 * ${#last} + 2)) "$work/shown.err" | cmp -s - "$work/wiped" && return
    od -c "$work/shown.err" | tail -n 5
    return 1
}

# It is written at most ten times a second.
is_rare() { # SECONDS
    times=$(written | grep -c '[a-z]')
    test "$times" -ge 1 && test "$times" -le $((10 * $1 + 11)) && return
    echo "$times times in $1 seconds"
    return 1
}

plain sh
check 'sh without a terminal says nothing on standard error' test ! -s "$work/plain.err"
plain soak 7 300
check 'nor does soak' test ! -s "$work/plain.err"
plain check
check 'nor does check' test ! -s "$work/plain.err"

if command -v script >/dev/null 2>&1 && test "$(script -qec 'tty <&1' /dev/null </dev/null | head -c 5)" = /dev/; then
    plain sh
    shown sh
    check 'on a terminal sh tells its lines' sh -c "tr '\r' '\n' <'$work/shown.err' | grep -q '^lines 1 of 4, entries 1, groups 0\$'"
    check 'and wipes the line' is_wiped
    check 'and prints the same' cmp -s "$work/plain.out" "$work/shown.out"

    plain soak 7 20000
    begun=$(date +%s)
    shown soak 7 20000
    taken=$(($(date +%s) - begun))
    check 'on a terminal soak tells its lines' sh -c "tr '\r' '\n' <'$work/shown.err' | grep -q '^lines [1-9][0-9]* of 20004, entries [1-9][0-9]*, groups [1-9][0-9]*\$'"
    check 'at most ten times a second' is_rare "$taken"
    check 'and wipes the line' is_wiped
    check 'and prints the same' cmp -s "$work/plain.out" "$work/shown.out"

    cp "$image" "$work/fresh.img"
    plain check
    shown check
    check 'on a terminal check tells the blocks' sh -c "tr '\r' '\n' <'$work/shown.err' | grep -q '^blocks read [1-9][0-9]*, of the volume 4096\$'"
    check 'and wipes the line' is_wiped
    check 'and prints the same' cmp -s "$work/plain.out" "$work/shown.out"

    shown label new
    check 'label tells nothing' test ! -s "$work/shown.err"
    shown mk --blocks 4096
    check 'nor does mk' test ! -s "$work/shown.err"

    # A failed call is told behind the wiped line.
    if command -v strace >/dev/null 2>&1 && strace -o "$work/calls" true 2>/dev/null; then
        cp "$work/fresh.img" "$image"
        script -qec "strace -o '$work/calls' -P '$image' -e inject=fsync:error=EIO:when=3 '$program' '$image' soak 7 2000 >'$work/shown.out'" /dev/null </dev/null >"$work/shown.err"
        check 'the message of a failed call stands alone' sh -c "tr '\r' '\n' <'$work/shown.err' | grep -q \"^bfs: $image: it could not be brought\""
    else
        skip 'strace is not installed, or may not trace'
    fi
else
    skip 'script is not installed, or makes no terminal'
fi
finish
