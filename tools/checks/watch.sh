#!/usr/bin/env bash
# If this fails, parv-watch may report a download as complete too early, or never.
#
# It compares the line and the exit status of one check while the files of a set arrive, and watches a folder until its
# last file is there.
. "$(dirname "$0")/with/wants.sh"
. "$tools/checks/with/commands.sh"
cd "$work" || exit 1
demo=$top/demo

mkdir -p -- 'a room/-coast/folder.par2'
room='a room/-coast'
checked() {
    wants "a folder $1" "$2" "$3" "" "${watch[@]}" "$room" 0 1
}
checked "without a packet file" 3 "nothing to tell yet: no packet file"
head -c 100 "$demo/photos.par2" > "$room/photos.par2"
checked "without a set" 4 "nothing to tell yet: no usable set: no main"
cp "$demo/photos.par2" "$room"
checked "without the files of the set" 2 "not enough for a repair: need 38 have 0"
cp "$demo/beach.raw" "$demo/harbour.raw" "$demo/notes.txt" "$room"
checked "with all files but one" 2 "not enough for a repair: need 5 have 0"
cp "$demo/photos.vol07+8.par2" "$room"
checked "with recovery slices enough" 1 "a repair can be tried: need 5 have 8"
cp "$demo/tower.raw" "$room/-t w.raw"
checked "with a file under another name" 1 "a repair can be tried: need 0 have 8"
mv "$room/-t w.raw" "$room/tower.raw"
checked "with all files" 0 "complete"
wants "a folder that isn't there" 6 "" "parv-watch: cannot open none: No such file or directory" \
    "${watch[@]}" none 0 1

# The last file arrives while the folder is watched.
mv "$room/tower.raw" tower.raw
timeout "$most" "${watch[@]}" "$room" 0.1 > watched &
comes [ -s watched ]
mv tower.raw "$room"
wait $!
status=$?
if [ $status -eq 0 ] && [ "$(sed '$!d' watched)" = complete ] \
    && [ "$(sed '$d' watched | sort -u)" = "a repair can be tried: need 5 have 8" ]; then
    echo "ok: a folder is checked until its last file has come"
else
    fails "a folder that is checked: status $status, $(sort -u watched)"
fi

# One file contains two files of the set, whose last slices are short, and begins with neither.
mkdir joined
cp "$demo/photos.par2" "$demo/harbour.raw" joined
cat "$demo/notes.txt" "$demo/tower.raw" "$demo/beach.raw" "$demo/harbour.raw" > 'joined/disc image'
wants "a folder with files that are joined" 2 "not enough for a repair: need 3 have 0" "" "${watch[@]}" joined 0 1
wants "the same with --tails" 1 "a repair can be tried: need 0 have 0" "" "${watch[@]}" --tails joined 0 1
exit $failed
