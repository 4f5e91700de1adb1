#!/bin/sh
# The two examples on real files: a folder goes into an image and comes back the same; what can't go in is told.
. "$(dirname "$(readlink -f "$0")")/checks.sh"

"$root/bfs" "$work/none.img" >/dev/null
BFS=$root/crates/bfs_main/out/bfs_main
export BFS
image=$work/volume.img
folder=$work/folder

arbitrary() { # SEED SIZE
    python3 -c 'import random, sys; sys.stdout.buffer.write(random.Random(int(sys.argv[1])).randbytes(int(sys.argv[2])))' "$1" "$2"
}

said_last() { # TEXT: the last line of the output
    test "$(tail -n 1 "$work/out")" = "$1" && return
    echo "printed: $(cat "$work/out") and: $(cat "$work/err")"
    return 1
}

# The links of a folder: their paths and targets.
links() {
    (cd "$1" && find . -type l | sort | while IFS= read -r link; do printf '%s -> %s\n' "$link" "$(readlink "$link")"; done)
}

mkdir -p "$folder/a/b/c/d" "$folder/none" "$folder/-e" "$folder/a name" "$folder/Füße"
: >"$folder/empty"
for size in 1 1023 1024 65536 200000; do arbitrary $size $size >"$folder/a/b/$size"; done
i=0
while [ $i -lt 256 ]; do printf "\\$(printf %o $i)"; i=$((i + 1)); done >"$folder/a/b/c/d/bytes"
echo space >"$folder/a name/with  two"
echo quote >"$folder/a'b\"c"
echo percent >"$folder/50%=x"
echo dash >"$folder/-e/-f"
echo utf >"$folder/Füße/日本語"
printf 'line feed\n' >"$folder/a
b"
ln -s b/c "$folder/a/short"
ln -s "../there is'no %/such" "$folder/a/odd"
ln -s "$(printf 'long/%.0s' $(seq 40))end" "$folder/long"

"$root/examples/folder-to-image.sh" "$folder" "$image" >"$work/out" 2>"$work/err"
check 'a folder goes into an image' test $? -eq 0
check 'which is whole' said_last "$("$BFS" "$image" check </dev/null)"
check 'with nothing left out' test ! -s "$work/err"
cp "$image" "$work/before.img"
"$root/examples/image-to-folder.sh" "$image" "$work/back" >"$work/out" 2>"$work/err"
check 'and comes back' test $? -eq 0
check 'with all of it' test ! -s "$work/err"
check 'the same' diff -r --no-dereference "$folder" "$work/back"
links "$folder" >"$work/links"
links "$work/back" >"$work/links_back"
check 'three links' test "$(wc -l <"$work/links")" -eq 3
check 'with the same targets' cmp -s "$work/links" "$work/links_back"
check 'the image is as it was' cmp -s "$image" "$work/before.img"

# What is there is kept.
"$root/examples/folder-to-image.sh" "$folder" "$image" >"$work/out" 2>"$work/err"
check 'an image that is there' test $? -eq 1
check 'is as it was' cmp -s "$image" "$work/before.img"
"$root/examples/image-to-folder.sh" "$image" "$work/back" >"$work/out" 2>"$work/err"
check 'a folder that is not empty' test $? -eq 1
check 'is as it was too' diff -r --no-dereference "$folder" "$work/back"

# What can't go in is told, and the rest goes in, in several scripts.
mkdir "$work/odd" "$work/examples" "$work/odd/sub" "$work/odd_back"
mkfifo "$work/odd/pipe"
arbitrary 7 9000 >"$work/odd/bytes"
echo x >"$work/odd/$(printf 'n\377')"
echo y >"$work/odd/sub/y"
ln -s "$(printf 't%.0s' $(seq 1025))" "$work/odd/long"
sed 's/most_lines=4096/most_lines=8/' "$root/examples/folder-to-image.sh" >"$work/examples/few.sh"
chmod +x "$work/examples/few.sh"
"$work/examples/few.sh" "$work/odd" "$work/odd.img" 2 >"$work/out" 2>"$work/err"
check 'a folder with what can not go in' test $? -eq 1
check 'goes in but for that' said_last 'whole nodes 4 used 544'
sort "$work/err" >"$work/told"
check 'which is told' test "$(cat "$work/told")" = "left out: /long: toobig
left out: /n$(printf '\377'): namebad
left out: /pipe: neither a directory, nor a file that can be read, nor a symbolic link"
check 'two mebibytes' test "$(wc -c <"$work/odd.img")" -eq 2097152
"$root/examples/image-to-folder.sh" "$work/odd.img" "$work/odd_back" >"$work/out" 2>"$work/err"
check 'and comes back into an empty folder' test $? -eq 0
rm "$work/odd/pipe" "$work/odd/long" "$work/odd/$(printf 'n\377')"
check 'without it' diff -r "$work/odd" "$work/odd_back"
finish
