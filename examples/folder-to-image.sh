#!/bin/sh
# Makes an image with what a folder has: its directories, its regular files with their bytes, and its symbolic links. Modes, owners and times
# aren't kept. What is left out is told on standard error, and the status is then 1. The folder must not change meanwhile.
# usage: examples/folder-to-image.sh FOLDER IMAGE [MEGABYTES]
# IMAGE must not be there. It gets so many mebibytes, 1 to 4096, or what the folder takes and some room. BFS may name the program.
set -eu
export LC_ALL=C
root=$(dirname "$(dirname "$(readlink -f "$0")")")
bfs=${BFS:-$root/bfs}
if [ $# -ne 2 ] && [ $# -ne 3 ]; then
    echo 'usage: folder-to-image.sh FOLDER IMAGE [MEGABYTES]' >&2
    exit 2
fi
folder=$1
image=$2
if [ ! -d "$folder" ]; then
    echo "$folder is no folder" >&2
    exit 1
fi
if [ -e "$image" ]; then
    echo "$image is there already" >&2
    exit 1
fi
work=$(mktemp -d)
trap 'rm -rf "$work"' EXIT
: >"$work/told"

# What the folder has: for each node its kind, its size or its target, and its path, each with a zero byte behind it.
(
    CDPATH='' cd -- "$folder" && find . -exec sh -c '
        for path; do
            if [ -L "$path" ]; then
                target=$(readlink -- "$path" && echo x)
                printf "%s\0" link "${target%?x}" "$path"
            elif [ -d "$path" ]; then
                printf "%s\0" dir - "$path"
            elif [ -f "$path" ] && [ -r "$path" ]; then
                printf "%s\0" file $(($(wc -c <"$path"))) "$path"
            else
                printf "%s\0" other - "$path"
            fi
        done' sh {} +
) >"$work/found" || echo 'left out: what find could not read' >"$work/told"

# The same as lines of three words, spelled as a script spells words: %XX for a space, a percent sign, and each byte below or at 127 without a letter.
od -An -v -tx1 "$work/found" | awk '
    BEGIN { for (i = 1; i < 256; i++) spelled[sprintf("%02x", i)] = i <= 32 || i == 37 || i == 127 ? sprintf("%%%02X", i) : sprintf("%c", i) }
    {
        for (i = 1; i <= NF; i++) {
            if ($i != "00") { text = text spelled[$i]; continue }
            word[++words] = text
            text = ""
            if (words < 3) continue
            words = 0
            if (word[3] != ".") print word[1], word[2], substr(word[3], 2)
        }
    }' >"$work/nodes"

# The blocks of 1,024 bytes: the log and the trees of the volume, some for each node, those of the bytes, and a quarter more.
blocks=$(awk '{ blocks += 6; if ($1 == "file") blocks += int(($2 + 1023) / 1024) } END { print int((4096 + blocks) * 5 / 4) }' "$work/nodes")
[ $# -eq 2 ] || blocks=$(($3 * 1024))
if [ "$blocks" -gt 4194304 ]; then
    echo "a volume has 4,194,304 blocks at most, and this one would have $blocks" >&2
    exit 1
fi

# The scripts. A line has 4,096 bytes at most. A script may have 1,048,576 lines and 268,435,456 bytes; one of 4,096 lines stays far below both, and so
# does the memory of its run. The bytes of a file go as text, in which all but three of them stand for themselves.
(
    CDPATH='' cd -- "$folder"
    awk -v most_lines=4096 -v scripts="$work/script." -v told="$work/told" '
        BEGIN {
            for (i = 0; i < 256; i++) {
                letter = sprintf("%c", i)
                if (i == 10 || i == 32 || i == 37 || length(letter) != 1) letter = sprintf("%%%02X", i)
                text[sprintf("%02x", i)] = letter
                byte[sprintf("%02X", i)] = sprintf("%c", i)
            }
        }
        function tell(path, why) { print "left out: " path ": " why >>told }
        # The path itself, as a word of the shell.
        function quoted(path, at, out) {
            while ((at = index(path, "%")) > 0) {
                out = out substr(path, 1, at - 1) byte[substr(path, at + 1, 2)]
                path = substr(path, at + 3)
            }
            out = out path
            gsub(/\047/, "\047\"\047\"\047", out)
            return "\047." out "\047"
        }
        function put(line) {
            if (script == "" || lines == most_lines) {
                if (script != "") close(script)
                script = sprintf("%s%06d", scripts, ++count)
                lines = 0
            }
            print line >script
            lines++
        }
        function put_bytes(path, size, command, row, n, cut, i, part, line, at) {
            command = "od -An -v -tx1 " quoted(path)
            line = "1 write " path " 0 :"
            while ((command | getline row) > 0) {
                n = split(row, cut)
                part = ""
                for (i = 1; i <= n; i++) part = part text[cut[i]]
                if (length(line) + length(part) > 4096) {
                    put(line)
                    line = "1 write " path " " at " :"
                }
                line = line part
                at += n
            }
            close(command)
            put(line)
            if (at != size) print "not whole: " path ": its bytes could not be read, or it changed" >>told
        }
        length($3) > 4000 || length($2) + length($3) > 4080 { tell($3, "its path is too long for a line"); next }
        $1 == "other" { tell($3, "neither a directory, nor a file that can be read, nor a symbolic link"); next }
        $1 == "file" && $2 > 1073741824 { tell($3, "it has more than 1,073,741,824 bytes"); next }
        $1 == "dir" { put("1 mkdir " $3) }
        $1 == "link" { put("1 link " $3 " " $2) }
        $1 == "file" { put("1 make " $3) }
        $1 == "file" && $2 > 0 { put("1 size " $3 " " $2); put_bytes($3, $2) }
    ' "$work/nodes"
)

truncate -s $((blocks * 1024)) -- "$image"
"$bfs" "$image" mk --blocks "$blocks"
for script in "$work"/script.*; do
    [ -e "$script" ] || continue
    status=0
    "$bfs" "$image" sh <"$script" >"$work/replies" || status=$?
    if [ "$status" -ne 0 ]; then
        echo "sh ended with status $status: $(tail -n 1 "$work/replies")" >&2
        exit 1
    fi
    # The first refusal of each path.
    awk '
        NR == FNR { if ($3 != "ok") { said = $3; for (i = 4; i <= NF; i++) said = said " " $i; refused[$1] = said } next }
        (FNR in refused) && !($3 in seen) { seen[$3]; print ($2 == "size" || $2 == "write" ? "not whole: " : "left out: ") $3 ": " refused[FNR] }
    ' "$work/replies" "$script" >>"$work/told"
done
"$bfs" "$image" check
cat "$work/told" >&2
[ ! -s "$work/told" ]
