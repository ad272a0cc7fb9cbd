#!/usr/bin/env bash
# If this fails, parv-tree may leave out a damaged set, report it as whole, or open a file outside the folder because a
# set names it.
#
# It runs over trees with whole, damaged and unusable sets, with names of any bytes and names that lead out of the
# folder, with links and FIFOs, with a parv that fails, and as a user who may not read some files.
. "$(dirname "$0")/with/wants.sh"
cd "$work" || exit 1
export LC_ALL=C
export PARV=$parv
script=$top/commands/bin/parv-tree
one_set=$tools/make/one_set.py
demo=$top/demo
photos=589c76e09f0580b9203c5b64963b8957

usage='usage: parv-tree [-h] [-j N] [-q] [--tails] [--json] [--state FILE] FOLDER'
while IFS='|' read -r words why; do
    # shellcheck disable=SC2086 # (these are words)
    wants "wrong words: $words" 3 "" "parv-tree: $why
parv-tree: $usage" "$script" $words
done << 'END'
|missing argument: FOLDER
--wrong tree|unrecognized arguments: --wrong
tree tree|unrecognized arguments: tree
-j 0 tree|argument -j: it is a number from 1 to 99999
-j|argument -j: expected one argument
-j x tree|argument -j: it is a number from 1 to 99999
-j100000 tree|argument -j: it is a number from 1 to 99999
--state|argument --state: expected one argument
--state= tree|--state has no FILE
END
wants "a folder that isn't there" 6 "" "parv-tree: cannot open no\\x0ane: No such file or directory" "$script" $'no\nne'
mkdir tree
wants "a folder without packet files" 3 "" "parv-tree: tree: no packet file" "$script" tree

# Several folders: one has two sets, and one has a copy of a set of another folder.
mkdir -p tree/{a,b/c,'b d/-e'} small
printf 'abcdefgh' > small/g.bin
"$one_set" v.par2 4 0 small
v=$("$parv" packets v.par2 | awk '$4 == "main" { print $5 }')
cp "$demo"/*.raw "$demo"/notes.txt "$demo"/photos*.par2 v.par2 tree/a
cp "$demo"/photos.vol07+8.par2 "tree/b/c/Photos of summer.VOL07-8.PAR2"
cp "$demo"/photos.vol00+1.par2 "tree/b/c/other.par2"
cp "$demo"/{beach,tower,harbour}.raw tree/b/c
cp v.par2 small/g.bin 'tree/b d/-e'
head -c 90 v.par2 > 'tree/b d/lost.par2'
cp 'tree/b d/lost.par2' 'tree/b d/lost.vol0+1.par2'
cp 'tree/b d/lost.par2' 'tree/a/photos.vol15+16.par2'
head -c 90 v.par2 > tree/b/c/.par2
lines="0 $photos need 0 have 14 a/photos
2 $v need 2 have 0 a/v
0 $v need 0 have 0 b d/-e/v
4 - need - have - b d/lost
1 $photos need 1 have 9 b/c/Photos of summer
4 - need - have - b/c/"
told="parv-tree: b d/lost: no usable set: no main
parv-tree: b/c/: no usable set: no main"
wants "sets of several folders" 4 "$lines" "$told" "$script" tree
for sides in 1 2 9; do
    wants "$sides sets side by side" 4 "$lines" "$told" "$script" -j "$sides" tree
done
wants "what isn't complete" 4 "$(grep -v '^0' <<< "$lines")" "$told" "$script" -q -j2 tree
rm tree/b*/*.par2 tree/b/c/.par2
wants "the greatest exit status" 2 "$(grep -v '^4' <<< "$lines")" "" "$script" ./tree/
rm tree/a/v.par2
wants "a repair can be tried" 1 "$(grep '^1' <<< "$lines")" "" "$script" -q tree
cp "$demo"/notes.txt tree/b/c
rm tree/a/tower.raw
wants "a repair can be tried by --tails" 1 "1 $photos need 5 have 14 a/photos" "" "$script" -q --tails tree
cp "$demo"/tower.raw tree/a
wants "nothing to tell" 0 "" "" "$script" -q tree
# Only recovery files are lost: -q doesn't report that, but a comparison with earlier lines does.
"$script" tree > before
"$script" -q --state kept tree 2> "$said/new"
grep -q '^parv-tree: kept is new' "$said/new" || fails "a new state: $(cat "$said/new")"
mv tree/a/photos.vol* .
mv tree/b/c/*.[pP]* .
wants "lost volumes, and a lost set, with -q" 0 "" "" "$script" -q tree
wants "lost volumes, and a lost set, by a comparison" 1 "1c1
< 0 $photos need 0 have 14 a/photos
---
> 0 $photos need 0 have 0 a/photos
3d2
< 0 $photos need 0 have 9 b/c/Photos of summer" "" bash -c '"$1" tree > now; diff before now' - "$script"
wants "the same by the state" 5 "fewer $photos have 0 was 14 a/photos
gone $photos b/c/Photos of summer" "" "$script" -q --state kept tree
wants "the same a second time" 0 "" "" "$script" -q --state kept tree
mv photos.vol* tree/a
mv ./*.VOL* other.par2 tree/b/c
wants "what is back" 0 "" "" "$script" -q --state kept tree
{ cat "$demo/notes.txt"; echo more; } > tree/b/c/notes.txt
wants "without --tails" 1 "1 $photos need 1 have 9 b/c/Photos of summer" "" "$script" -q tree
wants "with --tails" 1 "1 $photos need 0 have 9 b/c/Photos of summer" "" "$script" -q --tails tree

# One set has lost each Main packet, and one has lost some of its files.
rm -r tree
mkdir tree
main=$("$parv" packets v.par2 | awk '$4 == "main" { print $3 }')
tail -c +$((main + 1)) v.par2 > tree/no_main.par2
wants "a set without Main" 4 "4 $v need - have - no_main" "parv-tree: no_main: no usable set: no main" "$script" tree
cp "$demo/photos.vol03+4.damaged.par2" "$demo/photos.par2" tree
wants "damaged packet files" 4 "4 $v need - have - no_main
2 $photos need 38 have 3 photos" "parv-tree: no_main: no usable set: no main" "$script" tree
cp v.par2 tree/v.par2
wants "the same with Main elsewhere" 2 "2 $v need 2 have 0 no_main
2 $photos need 38 have 3 photos" "" "$script" tree

# Names of folders and of files in a set can have any bytes.
rm -r tree
mkdir -p whole/sub
names=($'line\nfeed\n' ' two  blanks ' -dash $'caf\xe9' $'\xff' 'back\slash' 'st*r[x]?' '@' sub/in 'from a to b' .hidden)
for name in "${names[@]}"; do printf 'content' > "whole/$name"; done
printf 'another' > $'whole/\xfe'
cp v.par2 whole/other.par2
folder=$'tree/sp ace/\xe9\n/-x'
mkdir -p "$folder"
cp -r whole/. "$folder"
"$one_set" "$folder/"$'\xe9\n.par2' 4 3 whole
id=$("$script" tree | tail -n 1 | cut -d ' ' -f 2)
printf abcdefgh > "$folder/g.bin"
# states NAME STATUS NEED: wants this status and need in the line of the set with these names. One of its files is the
# packet file of another set, whose line doesn't change.
states() {
    wants "$1" "$2" "0 $v need 0 have 0 sp ace/\\xe9\\x0a/-x/other
$2 $id need $3 have 3 sp ace/\\xe9\\x0a/-x/\\xe9\\x0a" "" "$script" tree
}
states "names of any bytes" 0 0
mv "$folder/@" "$folder/sub/@"
states "one of them in another folder" 1 0
mv "$folder/sub/@" "$folder/@"
rm "$folder/"$'\xff'
states "one of one content is gone" 1 0
cp $'whole/\xff' "$folder"
rm "$folder/"$'\xfe'
states "one is gone" 1 2

# If a name isn't a plain path below the folder, the file there isn't read, whatever else the set contains.
rm -r tree whole
mkdir -p tree/set/sub whole outer
printf 'abcdefgh' > outer/bad.txt
cp outer/bad.txt outside
printf 'ijkl' > whole/good.txt
cp outer/bad.txt whole
cp whole/good.txt tree/set
refused() {
    "$one_set" tree/set/set.par2 4 0 whole bad.txt "$1"
    id=$("$parv" packets tree/set/set.par2 | awk '$4 == "main" { print $5 }')
    wants "the name ${1@Q}" 2 "2 $id need 2 have 0 set/set" \
        "parv-tree: set/set: the name $2 is refused: its name $3" "$script" tree
}
refused ../outside ../outside "leads out of the folder"
refused ../../outside ../../outside "leads out of the folder"
refused "$work/outside" "$work/outside" "is absolute"
refused sub/../../../outside sub/../../../outside "leads out of the folder"
refused ./good.txt ./good.txt "isn't that of a file"
refused sub//bad.txt sub//bad.txt "isn't that of a file"
refused .. .. "leads out of the folder"
refused $'../\xff\n' '../\xff\x0a' "leads out of the folder"
"$one_set" tree/set/set.par2 4 0 whole bad.txt sub/bad.txt
id=$("$parv" packets tree/set/set.par2 | awk '$4 == "main" { print $5 }')
linked() {
    wants "$1" 6 "6 $id need 2 have 0 set/set" "parv-tree: set/set: not looked at: $2 (a link)" "$script" tree
}
ln -s "$work/outer/bad.txt" tree/set/sub/bad.txt
linked "a link at a name" sub/bad.txt
rm -r tree/set/sub
ln -s "$work/outer" tree/set/sub
linked "a link on the way to a name" sub
mkdir other
cp tree/set/set.par2 other
ln -s "$work/other" tree/other
ln -s "$work/other/set.par2" tree/set/linked.par2
mkdir tree/set/folder.par2
mkfifo tree/set/fifo.par2
linked "packet files that are links, folders or FIFOs" sub
rm -r tree/set/sub
mkdir tree/set/sub
mkfifo tree/set/sub/bad.txt
wants "a FIFO at a name" 2 "2 $id need 2 have 0 set/set" "" "$script" tree
rm tree/set/sub/bad.txt
cp outer/bad.txt tree/set/sub
for name in .verify_and_repair .parv-repair; do
    mkdir -p tree/set/$name/files
    cp v.par2 tree/set/$name/files
done
wants "a file in a subfolder" 0 "0 $id need 0 have 0 set/set" "" "$script" tree

# parv ends without an answer.
printf '#!/bin/sh\n[ "$1" != verify ] || kill -KILL $$\nexec "%s" "$@"\n' "$parv" > ends
chmod +x ends
PARV=$work/ends wants "parv is ended" 6 "6 $id need - have - set/set" \
    "parv-tree: set/set: $work/ends was ended by signal 9" "$script" tree
# If parv fails at a packet file, that is reported, even if the other packet files of this name are a complete set.
mkdir -p once/set
cp "$demo"/{*.raw,notes.txt,photos.par2} once/set
cp v.par2 once/set/photos.vol0+1.par2
for status in 1 6 8 137; do
    printf '#!/bin/sh\ncase "$*" in packets*photos.vol0+1.par2) echo "%s" >&2; exit %s ;; esac\nexec "%s" "$@"\n' \
        'parv: read fault in f/photos.vol0+1.par2' $status "$parv" > fails
    chmod +x fails
    told=$status line="read fault in photos.vol0+1.par2"
    case $status in 1 | 137) told=6 line="$work/fails packets has ended with status $status, and isn't parv" ;; esac
    PARV=$work/fails wants "a packet file at which parv ends with $status" $told "0 $photos need 0 have 0 set/photos" \
        "parv-tree: set/photos.vol0+1.par2: $line" "$script" once
done
# Files and folders that a user who isn't root may not read.
other_user
cp "$parv" parv
cp -r "$top/commands" commands
rm -r tree
mkdir -p tree/{a,b,c}
cp v.par2 small/g.bin tree/a
cp v.par2 tree/a/w.vol0+1.par2
cp tree/a/* tree/b
cp tree/a/* tree/c
chmod 000 tree/a/g.bin tree/b/v.par2 tree/c
wants "what may not be read" 6 "6 $v need 2 have 0 a/v
0 $v need 0 have 0 b/w
6 - need - have - b/v" "parv-tree: tree: cannot read c: Permission denied
parv-tree: a/v: not looked at: g.bin (Permission denied)
parv-tree: b/v: cannot open v.par2" env PARV="$work/parv" "${user[@]}" commands/bin/parv-tree tree
chmod 700 tree/c
exit $failed
