#!/usr/bin/env bash
# If this fails, parv may call a damaged file complete, or say that a repair can be tried when it can't.
#
# It damages and renames files of the set in demo/. The expected lines follow from that damage.
. "$(dirname "$0")/with/wants.sh"
cd "$top/demo" || exit 1

line="set 589c76e09f0580b9203c5b64963b8957 size 1024 slices 38"
wants "all files as they were" 0 "$line
complete harbour.raw
complete beach.raw
complete notes.txt
complete tower.raw
need 0 have 0
result complete" "" "$parv" verify photos.par2 beach.raw harbour.raw notes.txt tower.raw

cp photos.par2 photos.vol00+1.par2 photos.vol01+2.par2 beach.raw "$work"
cp harbour.raw "$work/port.raw"
{ head -c 2000 tower.raw; printf '?'; tail -c 3000 tower.raw; } > "$work/tower.raw"
cd "$work" || exit 1
states="$line
renamed harbour.raw from port.raw
complete beach.raw
missing notes.txt 0/1
damaged tower.raw 4/5"
wants "a renamed, a damaged and a missing file" 1 "$states
need 2 have 3
result possible" "" "$parv" verify photos.par2 photos.vol00+1.par2 photos.vol01+2.par2 beach.raw port.raw tower.raw
few=(photos.par2 photos.vol00+1.par2 beach.raw port.raw tower.raw)
wants "the same with one recovery slice" 2 "$states
need 2 have 1
result impossible" "" "$parv" verify "${few[@]}"
wants "the result alone" 2 "need 2 have 1
result impossible" "" "$parv" verify -q "${few[@]}"
wants "the exit status alone" 2 "" "" "$parv" verify -qq "${few[@]}"
wants "names without their folder" 0 "need 0 have 0
result complete" "" "$parv" verify -q -B "$top/demo" photos.par2 \
    "$top/demo/beach.raw" "$top/demo/harbour.raw" "$top/demo/notes.txt" "$top/demo/tower.raw"
exit $failed
