#!/bin/sh
# Formats a small volume in a folder of its own, changes its label, and shows both.
set -eu
root=$(dirname "$(dirname "$(readlink -f "$0")")")
work=$(mktemp -d)
trap 'rm -rf "$work"' EXIT
image=$work/volume.img

truncate -s 4194304 "$image"
"$root/bfs" "$image" mk --blocks 4096
echo "before: $(dd if="$image" bs=1 skip=512 count=32 2>/dev/null | tr -d '\0')"
"$root/bfs" "$image" label new
echo "after:  $(dd if="$image" bs=1 skip=512 count=32 2>/dev/null | tr -d '\0')"
if command -v blkid >/dev/null 2>&1; then
    blkid -p "$image" || echo "blkid does not tell"
fi
