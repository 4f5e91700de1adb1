#!/bin/sh
# Standard input, output and error closed in every combination: the image has the bytes that the command promises, and no
# others. The program itself is run, since a shell that lacks its descriptors is another matter.
. "$(dirname "$(readlink -f "$0")")/checks.sh"

"$root/bfs" "$work/none.img" >/dev/null
program=$root/crates/bfs_main/out/bfs_main
image=$work/volume.img

script=$work/script
printf '1 mkdir /a\n1 make /a/b\n1 size /a/b 3\n1 write /a/b 0 :abc\n1 sync\n' >"$script"

# Runs the program with the descriptors closed that the first word names; else its standard input is a script.
with_closed() {
    closed=$1
    shift
    case $closed in
    0) "$program" "$@" <&- >"$work/out" 2>"$work/err" ;;
    1) "$program" "$@" <"$script" >&- 2>"$work/err" ;;
    2) "$program" "$@" <"$script" >"$work/out" 2>&- ;;
    01) "$program" "$@" <&- >&- 2>"$work/err" ;;
    02) "$program" "$@" <&- >"$work/out" 2>&- ;;
    12) "$program" "$@" <"$script" >&- 2>&- ;;
    012) "$program" "$@" <&- >&- 2>&- ;;
    esac
}

# Two volumes made within one second are the same, byte by byte.
made_alike() {
    for _ in 1 2 3 4 5; do
        rm -f "$image" "$work/plain.img"
        truncate -s 4M "$image" "$work/plain.img"
        before=$(date +%s)
        with_closed "$1" "$image" mk --blocks 4096
        status=$?
        "$program" "$work/plain.img" mk --blocks 4096 >/dev/null
        [ "$(date +%s)" = "$before" ] && break
    done
    cmp -s "$image" "$work/plain.img" && [ "$status" -eq "$2" ]
}

labelled_alike() {
    rm -f "$image"
    truncate -s 4M "$image"
    "$program" "$image" mk --blocks 4096 >/dev/null
    cp "$image" "$work/plain.img"
    "$program" "$work/plain.img" label new
    with_closed "$1" "$image" label new
    [ $? -eq 0 ] && cmp -s "$image" "$work/plain.img"
}

# A script or a workload leaves the volume as it does with nothing closed, within one second.
run_alike() {
    closed=$1
    want=$2
    shift 2
    for _ in 1 2 3 4 5; do
        rm -f "$image"
        truncate -s 4M "$image"
        before=$(date +%s)
        "$program" "$image" mk --blocks 4096 >/dev/null
        cp "$image" "$work/plain.img"
        "$program" "$work/plain.img" "$@" <"$script" >/dev/null
        with_closed "$closed" "$image" "$@"
        status=$?
        [ "$(date +%s)" = "$before" ] && break
    done
    cmp -s "$image" "$work/plain.img" && [ "$status" -eq "$want" ]
}

untouched() {
    cp "$work/plain.img" "$image"
    with_closed "$@"
    status=$?
    cmp -s "$image" "$work/plain.img"
}

for closed in 0 1 2 01 02 12 012; do
    case $closed in
    *1*) want=6 ;;
    *) want=0 ;;
    esac
    check "mk with $closed closed" made_alike "$closed" "$want"
    check "label with $closed closed" labelled_alike "$closed"
    check "no words with $closed closed" untouched "$closed" "$image"
    check "status $want" test "$status" -eq "$want"
    check "faulty words with $closed closed" untouched "$closed" "$image" label
    check "status 2" test "$status" -eq 2
    check "check with $closed closed" untouched "$closed" "$image" check
    check "status $want" test "$status" -eq "$want"
    case $closed in
    *0*)
        check "sh with $closed closed" untouched "$closed" "$image" sh
        check "status 5" test "$status" -eq 5
        ;;
    *) check "sh with $closed closed" run_alike "$closed" "$want" sh ;;
    esac
    check "soak with $closed closed" run_alike "$closed" "$want" soak 7 100
done
finish
