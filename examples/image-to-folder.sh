#!/bin/sh
# Writes what an image has into a folder: directories, files with their bytes, and symbolic links. Modes, owners, times and attributes aren't taken.
# The image isn't changed, but for the replay of its log, where it wasn't unmounted cleanly. What is left out is told on standard error, and the
# status is then 1.
# usage: examples/image-to-folder.sh IMAGE FOLDER
# FOLDER must not be there, or be empty. BFS may name the program.
set -eu
export LC_ALL=C
root=$(dirname "$(dirname "$(readlink -f "$0")")")
bfs=${BFS:-$root/bfs}
if [ $# -ne 2 ]; then
    echo 'usage: image-to-folder.sh IMAGE FOLDER' >&2
    exit 2
fi
image=$1
folder=$2
if [ "$(awk 'BEGIN { printf "%c%c", 0, 255 }' | od -An -v -tx1 | tr -d ' \n')" != 00ff ]; then
    echo 'the awk that is installed can not print each byte' >&2
    exit 1
fi
if [ -L "$folder" ] || [ -e "$folder" ]; then
    if [ ! -d "$folder" ] || [ -n "$(ls -A -- "$folder")" ]; then
        echo "$folder is there already, and is no empty folder" >&2
        exit 1
    fi
fi
work=$(mktemp -d)
trap 'rm -rf "$work"' EXIT
: >"$work/told"

# Runs the lines of a file, each of which has before it how many bytes its reply may have. A run has at most some 16,000 lines, and replies of some
# 16 MiB, since the program keeps both in memory. Each line goes to the answers, with its reply behind it.
run_lines() {
    rm -f "$work"/script.*
    awk -v scripts="$work/script." '
        {
            cost += $1 + 1024
            if (script == "" || cost > 16777216) {
                if (script != "") close(script)
                script = sprintf("%s%06d", scripts, ++count)
                cost = $1 + 1024
            }
            sub(/^[0-9]+ /, "")
            print >script
        }' "$1"
    : >"$work/answers"
    for script in "$work"/script.*; do
        [ -e "$script" ] || continue
        status=0
        "$bfs" "$image" sh <"$script" >"$work/replies" || status=$?
        if [ "$status" -ne 0 ]; then
            echo "sh ended with status $status: $(tail -n 1 "$work/replies")" >&2
            exit 1
        fi
        paste -d ' ' "$script" "$work/replies" >>"$work/answers"
    done
}

# Level by level: each node is asked for its kind and size, and for its names, which only a directory has. The names come as a script spells them.
: >"$work/nodes"
echo '0 1 ls /' >"$work/lines"
while [ -s "$work/lines" ]; do
    run_lines "$work/lines"
    awk -v nodes="$work/nodes" -v told="$work/told" '
        function tell(path, why) { print "left out: " path ": " why >>told }
        $2 == "stat" && $6 == "ok" { print $7, $11, $3 >>nodes }
        $2 == "ls" && $6 == "ok" {
            for (i = 8; i <= NF; i++) {
                path = ($3 == "/" ? "" : $3) "/" $i
                if ($i == "." || $i == ".." || $i ~ /\// || $i ~ /%00/) tell(path, "this is no name")
                else if (length(path) > 4060) tell(path, "its path is too long for a line")
                else print "100 1 stat " path "\n100 1 ls " path
            }
        }
        $6 != "ok" && ($2 == "stat" || $6 != "notdir") { tell($3, $6) }
    ' "$work/answers" >"$work/lines"
done

# Commands of the shell for what has a name: directories, then files, empty yet, then symbolic links. They stop at a name that is there already.
names='
    BEGIN { for (i = 1; i < 256; i++) byte[sprintf("%02X", i)] = sprintf("%c", i) }
    function plain(word, at, out) {
        while ((at = index(word, "%")) > 0) {
            out = out substr(word, 1, at - 1) byte[substr(word, at + 1, 2)]
            word = substr(word, at + 3)
        }
        return out word
    }
    function quoted(text) {
        gsub(/\047/, "\047\"\047\"\047", text)
        return "\047" text "\047"
    }'
awk '$1 == "link" { print $2, "1 readlink " $3 }' "$work/nodes" >"$work/lines"
run_lines "$work/lines"
{
    echo 'set -eC'
    awk "$names"'
        $1 == "dir" { print "mkdir -- " quoted("." plain($3)) }
        $1 == "file" { files = files ": >" quoted("." plain($3)) "\n" }
        END { printf "%s", files }' "$work/nodes"
    awk -v told="$work/told" "$names"'
        $6 == "ok" { print "ln -s -- " quoted(plain($7)) " " quoted("." plain($3)) }
        $6 != "ok" { print "left out: " $3 ": " $6 >>told }' "$work/answers"
} >"$work/commands"
[ -d "$folder" ] || mkdir -- "$folder"
(CDPATH='' cd -- "$folder" && sh "$work/commands")

# The bytes of files, in pieces.
awk '$1 == "file" { for (at = 0; at < $2; at += 65536) { n = $2 - at < 65536 ? $2 - at : 65536; print 2 * n, "1 read", $3, at, n } }' "$work/nodes" >"$work/lines"
run_lines "$work/lines"
(
    CDPATH='' cd -- "$folder"
    awk -v told="$work/told" "$names"'
        BEGIN { for (i = 0; i < 256; i++) letter[sprintf("%02x", i)] = sprintf("%c", i) }
        $8 != "ok" { print "not whole: " $3 ": " $8 >>told; next }
        {
            if ($3 != last && file != "") close(file)
            last = $3
            file = "." plain($3)
            text = ""
            for (i = 1; i < length($10); i += 2) {
                text = text letter[substr($10, i, 2)]
                if (i % 512 == 511) { printf "%s", text >>file; text = "" }
            }
            printf "%s", text >>file
        }' "$work/answers"
)
cat "$work/told" >&2
[ ! -s "$work/told" ]
