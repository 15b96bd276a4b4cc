#!/bin/sh
# A disk that becomes full: `sh tests/c/full_disk.sh PROGRAM`, where PROGRAM is built of kills.c. On ext4, where the file is
# mapped, and in memory, where it is written, calls are refused by name before they are made. All that returned is there, and once
# there is room, the next run goes on. It needs root, to mount a small disk that nobody else sees.
set -e
program=$1
here=$(cd "$(dirname "$0")" && pwd)
if [ "$(id -u)" -ne 0 ] || ! unshare -m true 2> /dev/null; then
    echo 'left out: only root can mount a small disk'
    exit 0
fi
if [ -z "$SERYUGO_ALONE" ]; then
    SERYUGO_ALONE=1 exec unshare -m sh "$here/full_disk.sh" "$program"
fi
work=$(mktemp -d "${SERYUGO_TRY:-.}/full.XXXXXX")
trap 'umount "$work/disk" 2> /dev/null || true; rm -rf "$work"' EXIT
mkdir "$work/disk"

# text FILE: its text, up to the first byte 0 and the last line end.
text() { { cat "$1"; printf '\0'; } | tr '\0\n' '\n\0' | head -n 1 | tr '\0\n' '\n\0' | sed '$d'; }

# run NUMBER COUNT EXPECTED: a run ends with this status, and the file has what it printed.
run() {
    status=0
    "$program" "$work/disk/x.journal" "$1" "$2" $kind 65536 > "$work/now" 2> "$work/error" || status=$?
    [ "$status" -eq "$3" ] || { echo "$system $kind: run $1 ended with $status, not $3"; cat "$work/error"; exit 1; }
    cat "$work/now" >> "$work/all"
    text "$work/disk/x.journal" > "$work/text"
    awk -f "$here/kept.awk" "$work/all" "$work/text" > "$work/verdict" || { cat "$work/verdict"; exit 1; }
}

for system in ext4 tmpfs; do
    for kind in bytes numbers; do
        if [ "$system" = ext4 ]; then
            head -c 16000000 /dev/zero > "$work/image"
            mkfs.ext4 -q -F -O ^has_journal "$work/image"
            mount -o loop "$work/image" "$work/disk"
        else
            mount -t tmpfs -o size=12m tmpfs "$work/disk"
        fi
        : > "$work/all"
        [ "$kind" = bytes ] && room=4600000 || room=450000
        run 1 5 0
        # All but some room is taken: of bytes a line may need four megabytes.
        free=$(df --output=avail -B 1 "$work/disk" | tail -1)
        head -c $((free - room)) /dev/zero > "$work/disk/filler"
        run 2 1000000 29
        grep -q 'No space left' "$work/error"
        run 3 5 29
        rm "$work/disk/filler"
        run 4 5 0
        umount "$work/disk"
    done
done
echo 'calls are refused while the disk is full, and nothing is lost'
