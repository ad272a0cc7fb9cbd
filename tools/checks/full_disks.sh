#!/usr/bin/env bash
# If this fails, parv-tree may report a tree of damaged sets as whole when the disk for temporary files is full.
#
# It runs parv-tree with a limit on the size of files, with small file systems for temporary files, and with a parv
# that fails halfway. Each damaged set must have its line, or the status is 6 and a message says why.
. "$(dirname "$0")/with/wants.sh"
. "$tools/checks/with/commands.sh"
. "$tools/checks/with/rooms.sh"
cd "$work" || exit 1

# Five sets in five folders, one of them whole; and one folder that has two sets in one packet file.
for number in 1 2 3 4 5; do
    furnish 8 1 "a file of set $number" "$(seq $number 60)"
    mkdir -p tree/$number
    mv room/* tree/$number
    [ $number -eq 5 ] || rm "tree/$number/a file of set $number"
done
mkdir tree/two
cat tree/1/set.par2 tree/5/set.par2 > tree/two/both.par2
cp "tree/5/a file of set 5" tree/two
"${tree[@]}" tree > lines 2> line
status=$?
{ [ $status -eq 2 ] && [ "$(wc -l < lines)" -eq 7 ] && [ "$(grep -c '^[12] ' lines)" -eq 5 ] && [ ! -s line ]; } \
    || fails "with room: status $status, $(cat lines line)"

# told NAME COMMAND..: wants a line for each set that isn't whole, and the status of the worst one; or status 6 and a
# message that says why.
told() {
    local name=$1 status id set lost=0
    "${@:2}" 2>&1 | cat > text
    status=${PIPESTATUS[0]}
    while read -r _ id _ _ _ _ set; do
        grep -q "^[126] $id need .* $set$" text || lost=$((lost + 1))
    done < <(grep '^[12] ' lines)
    if { [ "$status" -eq 6 ] && grep -q "^$tree_says " text; } || { [ "$status" -eq 2 ] && [ $lost -eq 0 ]; }; then
        echo "ok: $name: status $status, $lost lines lost"
    else
        fails "$name: status $status, $lost lines lost, $(cat text)"
    fi
}
for words in "one by one" "side by side"; do
    command=("${tree_quiet[@]}" tree)
    [ "$words" != "side by side" ] || command=("${tree_beside[@]}" 3 tree)
    for kib in 0 1 2; do
        told "files of $kib KiB at most, $words" limited $kib "${command[@]}"
    done
    if can_mount "a full folder for temporary files, $words"; then
        mkdir -p full
        for kib in 4 8 12 16 20 24 28 32 48; do
            TMPDIR=$work/full told "$kib KiB for temporary files, $words" mounting bash -c \
                'mount -t tmpfs -o size='$kib'k tmpfs "$TMPDIR" && exec "$@"' - "${command[@]}"
        done
    fi
done
# parv may also fail halfway.
for name in packets set verify; do
    for status in 0 1 2 6; do
        printf '#!/bin/sh\n[ "$1" = %s ] || exec %q "$@"\n%q "$@" | head -c 30\nexit %s\n' $name "$parv" "$parv" $status > broken
        chmod +x broken
        told "parv $name fails in the middle, with $status" env PARV="$work/broken" "${tree_quiet[@]}" tree
    done
done
exit $failed
