#!/usr/bin/env bash
# If this fails, parv-rescue may copy wrong bytes out of a disc image, or miss bytes that are there.
#
# Its copies, and the holes that it lists, are compared with the originals by an independent search. There are images of
# discs whose short last slices are at the expected places, elsewhere, or replaced by decoys; runs that continue an
# earlier one, that were stopped, or that have other files; and slices that are found at each offset.
. "$(dirname "$0")/with/wants.sh"
cd "$work" || exit 1
export PARV=$parv TMPDIR=$said      # a killed run leaves links there
extract=$top/commands/bin/parv-rescue
demo=$top/demo
record=.parv-rescue

# leaves NAME FOLDER: wants the folder to have the files of `wanted`, apart from the record.
leaves() {
    diff -r --exclude=$record "$2" wanted > differ 2>&1 || fails "$1: $(head -c 300 differ)"
}
# extracts NAME STATUS COPIED ORIGINALS FOLDER [--tails] FILES: wants the files and lines of the independent search and,
# without --tails, a line about the missing short slices.
extracts() {
    local name=$1 status=$2 copied=$3 originals=$4 folder=$5 tails=() line=
    shift 5
    if [ "$1" = --tails ]; then
        tails=(--tails)
        shift
    fi
    rm -rf wanted
    mkdir wanted
    "$tools/models/place_slices.py" "${tails[@]}" "$originals" wanted "$@" 2> short \
        | sed "\$s/\$/, copied now $copied/" > lines
    if [ ${#tails[@]} -eq 0 ] && [ -s short ]; then
        line="${extract##*/}: $(< short); --tails might find more"
    fi
    gives "$name" "$status" lines "$line" "$extract" "${tails[@]}" "$folder" "$@"
    leaves "$name" "$folder"
}

# The image has zeros, a file whose last slice is one byte further on, the end of another file at a different alignment,
# a damaged file, and a short file.
{
    head -c 20000 /dev/zero
    head -c 19456 "$demo/beach.raw"
    printf 'x'
    tail -c 544 "$demo/beach.raw"
    printf 'x'
    tail -c 9001 "$demo/harbour.raw"
    head -c 3000 "$demo/tower.raw"
    printf '?'
    tail -c 2000 "$demo/tower.raw"
    cat "$demo/notes.txt"
} > 'disc image'
words=("$demo/photos.par2" 'disc image')
extracts "what an image has" 1 32 "$demo" 'out 1/in' "${words[@]}"
extracts "the same with --tails" 1 33 "$demo" out --tails "${words[@]}"
grep -q '^hole ' lines || fails "there is no hole"
extracts "with --tails where the rest is there" 1 1 "$demo" 'out 1/in' --tails "${words[@]}"

# Records the calls of parv, so that repeated ones are seen.
cat > logs << 'END'
#!/bin/sh
echo "$*" >> "$calls"
exec "$parv" "$@"
END
chmod +x logs
export parv calls=$work/calls waits=$work/waits
extracts "a second run" 1 0 "$demo" 'out 1/in' --tails "${words[@]}"
PARV=$work/logs extracts "a third one" 1 0 "$demo" 'out 1/in' --tails "${words[@]}"
if grep -q '^set ' calls && ! grep -q '^find ' calls; then
    echo "ok: nothing is looked for where that was done"
else
    fails "parv was asked $(cat calls)"
fi
# The remaining slices are in another file.
head -c 4000 "$demo/harbour.raw" > more.bin
cat "$demo/tower.raw" >> more.bin
rm -rf wanted
mkdir wanted
"$tools/models/place_slices.py" --tails "$demo" wanted "${words[@]}" more.bin > lines
sed -i '$s/$/, copied now 4/' lines
gives "another file has more" 1 lines "" "$extract" --tails 'out 1/in' "$demo/photos.par2" more.bin
leaves "another file has more" 'out 1/in'
extracts "all files at once, into a new folder" 1 37 "$demo" all --tails "${words[@]}" more.bin
{ head -c 5000 "$demo/harbour.raw"; } > last.bin
wants "the last slice" 0 "complete harbour.raw
complete beach.raw
complete notes.txt
complete tower.raw
slices 38/38, copied now 1" "" "$extract" all "$demo/photos.par2" last.bin
for file in harbour.raw beach.raw notes.txt tower.raw; do
    cmp "all/$file" "$demo/$file" || fails "$file isn't whole"
done
truncate -s 64G last.bin
wants "where all is there nothing is looked for" 0 "complete harbour.raw
complete beach.raw
complete notes.txt
complete tower.raw
slices 38/38, copied now 0" "" "$extract" all "$demo/photos.par2" last.bin
cat "$demo"/*.raw "$demo/notes.txt" > joined
truncate -s 64G joined
wants "where all is found nothing more is" 0 "complete harbour.raw
complete beach.raw
complete notes.txt
complete tower.raw
slices 38/38, copied now 38" "" "$extract" --tails joined.out "$demo/photos.par2" joined

# Images of discs: all files are whole, and their short slices are at the expected places.
"$tools/make/rescue_discs.py" . || exit 1
image=(disc.par2 disc.img)
rm calls
for tails in "" --tails; do
    # shellcheck disable=SC2086 # (these are words)
    PARV=$work/logs extracts "an image of a disc${tails:+, with $tails}" 0 19 disc "disc$tails out" $tails "${image[@]}"
    diff -r --exclude=$record disc "disc$tails out" || fails "the files of the disc aren't whole"
done
if grep -q '^find ' calls && ! grep -q '^find --tails' calls; then
    echo "ok: nothing is looked for with --tails where all is there"
else
    fails "parv was asked $(cat calls)"
fi
# A record that isn't shown to be of a run in this folder is kept aside, and the files are known by their content.
cp -r "disc out" "disc copy"
sed -i '$s/19$/0/' lines
PARV=$work/logs gives "a copy of a folder" 0 lines "parv-rescue: disc copy/$record isn't shown to be of a run of yours in\
 this folder, which may be a copy: it is now parv-rescue.kept.1, and the files are read again" \
    "$extract" "disc copy" "${image[@]}"
rm "disc copy/parv-rescue.kept.1"
leaves "a copy of a folder" "disc copy"
PARV=$work/logs extracts "and once more" 0 0 disc "disc copy" "${image[@]}"
PARV=$work/logs extracts "the folder itself" 0 0 disc "disc out" "${image[@]}"
# There are decoys at the expected places.
decoys=(disc.par2 decoys.img)
extracts "one with the same CRC-32, and one with another byte" 1 17 disc decoys "${decoys[@]}"
extracts "the same with --tails" 1 0 disc decoys --tails "${decoys[@]}"
gives "what --tails didn't find isn't looked for by it again" 1 lines "" "$extract" decoys "${decoys[@]}"
extracts "they stand elsewhere" 1 0 disc decoys "${decoys[@]}" elsewhere.img
rm -f calls
PARV=$work/logs extracts "they stand elsewhere, with --tails" 0 2 disc decoys --tails "${decoys[@]}" elsewhere.img
[ "$(grep -c '^find --tails' calls)" -eq 1 ] || fails "parv was asked $(cat calls)"
extracts "another copy has them" 0 19 disc copies "${decoys[@]}" again.img
sed -i '$s/19$/2/' lines
"$extract" later "${decoys[@]}" > text 2>&1
gives "it has them in a later run" 0 lines "" "$extract" later disc.par2 again.img
extracts "one with another CRC-32" 1 18 disc crc other_crc.par2 disc.img
extracts "the same with --tails" 1 18 disc crc_tails --tails other_crc.par2 disc.img
extracts "one far behind the slice that is there" 1 2 disc gap disc.par2 gap.img
# More different lengths than parv looks for with --tails; it can look only for a few of them.
cat > sorts << 'END'
#!/bin/bash
"$@" | sort
exit "${PIPESTATUS[0]}"
END
chmod +x sorts
extracts "many lengths" 0 600 many many_out many.par2 many.img
gives "the same with --tails" 0 lines "" "$extract" --tails many_tails many.par2 many.img
leaves "many lengths, with --tails" many_tails
extracts "many lengths, of which two are elsewhere" 1 598 many few many.par2 few.img
wants "the same with --tails" 0 "$(seq -f 'complete %03g' 300)
slices 600/600, copied now 2" "" ./sorts "$extract" --tails few many.par2 few.img
diff -r --exclude=$record many few || fails "the two that are elsewhere aren't whole"
wants "too many lengths are missing" 1 "$(seq -f 'damaged %03g 1/2' 300)
$(seq -f 'hole 400 %g' 300 | awk '{ printf "%s %03d\n", $0, $3 }' | sort)
slices 300/600, copied now 300" "" ./sorts "$extract" none many.par2 no_lasts.img
wants "too many lengths are missing, with --tails" 4 "" "parv-rescue: no usable set: too many tails" \
    "$extract" --tails none many.par2 no_lasts.img
# The image ends within the slice or before it. The bytes that are missing there are zeros of the slice.
extracts "the file ends within a slice" 1 1 cut cut_within cut.par2 cut.img
extracts "the file ends before a slice" 1 1 cut cut_before cut.par2 cut_off.img
extracts "the same with --tails" 1 0 cut cut_before --tails cut.par2 cut_off.img

# recorded FOLDER: how many slices the record of a folder has.
recorded() {
    awk '/^slices / { for (at = 2; at < NF; at++) count += split($at, ends, "-") == 2 ? ends[2] - ends[1] + 1 : 1 }
        END { print count + 0 }' "$1/$record"
}
# written FOLDER: how many slices of 1024 bytes, or shorter last ones, are in the files of a folder. (Each has other bytes
# than zeros.)
written() {
    python3 - "$1" << 'END'
import os, sys
count = 0
for name in os.listdir(sys.argv[1]):
    if not name.startswith("."):
        with open(os.path.join(sys.argv[1], name), "rb") as file:
            data = file.read()
        count += sum(any(data[at:at + 1024]) for at in range(0, len(data), 1024))
print(count)
END
}

# Stopped runs: parv ends after 9 lines, or the command is killed while it waits for more.
cat > ends << 'END'
#!/bin/bash
[ "$1" = find ] || exec "$parv" "$@"
"$parv" "$@" 2> /dev/null | head -n 9
exit 6
END
cat > hangs << 'END'
#!/bin/bash
[ "$1" = find ] || exec "$parv" "$@"
"$parv" "$@" | head -n 9
echo $$ > "$waits"
exec sleep 600
END
chmod +x ends hangs
ended="parv-rescue: what parv find has written is no answer of it: is PARV another program?"
PARV=$work/ends wants "a run on a disc that is stopped" 6 "" "$ended" "$extract" stopped_disc "${image[@]}"
extracts "it goes on" 0 $((19 - $(recorded stopped_disc))) disc stopped_disc "${image[@]}"
PARV=$work/ends wants "a run that is stopped" 6 "" "$ended" "$extract" --tails stopped "${words[@]}"
rm calls
PARV=$work/logs extracts "it goes on" 1 24 "$demo" stopped --tails "${words[@]}"
grep -q '^find .*:0:2[0-9]*:[0-9]* -- ' calls || fails "it doesn't go on behind the zeros: $(cat calls)"
PARV=$work/hangs "$extract" --tails killed "${words[@]}" > told 2>&1 &
comes [ -s waits ]
comes [ -s killed/beach.raw ]
kill -KILL $!
wait $! 2> /dev/null
kill "$(cat waits)"
[ -s killed/beach.raw ] || fails "nothing was written before the kill"
extracts "a run that was killed goes on" 1 $((33 - $(written killed))) "$demo" killed --tails "${words[@]}"
head -c -3 killed/$record > short && cat short > killed/$record
extracts "it goes on behind the last whole line of its record" 1 0 "$demo" killed --tails "${words[@]}"
extracts "and once more" 1 0 "$demo" killed --tails "${words[@]}"

# A slice is copied if its bytes are there when they are copied, and not if they were there only when parv read them.
cat > shifts << 'END'
#!/bin/bash
[ "$1" = find ] || exec "$parv" "$@"
"$parv" "$@" | awk '/^1 / { $2 += 1 } { print }'
END
chmod +x shifts
cp "$demo/notes.txt" notes
printf 'more' >> notes
cp "$demo/tower.raw" tower
PARV=$work/shifts wants "a slice that isn't there any more" 1 "missing harbour.raw 0/12
missing beach.raw 0/20
missing notes.txt 0/1
complete tower.raw
slices 5/38, copied now 5" "parv-rescue: notes has changed at 1" \
    "$extract" --tails changed "$demo/photos.par2" notes tower
wants "a later run looks there again" 1 "missing harbour.raw 0/12
missing beach.raw 0/20
complete notes.txt
complete tower.raw
slices 6/38, copied now 1" "" "$extract" --tails changed "$demo/photos.par2" notes tower

# Full-length and short slices that are found at many offsets, an empty file, and a file whose slices have no checksums.
"$tools/make/rescue_sets.py" . || exit 1
for tails in "" --tails; do
    rm -f calls
    # shellcheck disable=SC2086 # (these are words)
    PARV=$work/logs extracts "slices that are seen again and again${tails:+, with $tails}" 1 21 \
        repeated "again$tails" $tails repeated.par2 repeated.img
    searches=$(grep -c '^find ' calls)
    if [ "$searches" -gt 1 ] && [ "$searches" -lt 12 ]; then
        echo "ok: they take $searches searches"
    else
        fails "they take $searches searches"
    fi
done
# The same when the search begins again after each match of a slice that is already there.
script=$extract
extract=$tools/checks/rescue_anew.py
for tails in "" --tails; do
    # shellcheck disable=SC2086 # (these are words)
    commands=$top/commands extracts "slices that are seen again, each time anew${tails:+, with $tails}" \
        1 21 repeated "again$tails anew" $tails repeated.par2 repeated.img
done
extract=$script
# Half a GiB of zeros surrounds a file. parv would take an MD5 of 64 KiB at each offset in them. One slice of the file
# has a changed byte.
mkdir large
{ head -c 300000 /dev/zero; head -c 100000 "$parv"; head -c 200000 /dev/zero; printf 'end'; } > large/zeros
PYTHONPATH=$tools python3 "$tools/checks/rescue_large.py"
truncate -s 256M large.img
{ head -c 330000 large/zeros | tail -c 80000; printf '?'; tail -c +330002 large/zeros; } >> large.img
truncate -s 512M large.img
for tails in "" --tails; do
    # shellcheck disable=SC2086 # (these are words)
    wants "zeros for a long way${tails:+, with $tails}" 1 "damaged zeros 9/10
hole 327680 65536 zeros
slices 9/10, copied now 9" "" "$extract" $tails "zeros$tails" large.par2 large.img
    { head -c 327680 large/zeros; head -c 65536 /dev/zero; tail -c +393217 large/zeros; } > wanted/zeros
    cmp "zeros$tails/zeros" wanted/zeros || fails "zeros for a long way, $tails: another content"
done
if [ "$(stat -c %b zeros/zeros)" -lt 200 ] && [ "$(stat -c %s zeros/zeros)" -eq 600003 ]; then
    echo "ok: zeros that were copied, and holes, take no room"
else
    fails "the file takes $(stat -c '%b blocks for %s bytes' zeros/zeros)"
fi

# All slices are found, but together they aren't the file of the set.
PYTHONPATH=$tools python3 "$tools/checks/rescue_wrong.py"
printf 'efgXabcd' > pieces
wants "a file that isn't that of the set" 1 "wrong wrong 2/2
slices 2/2, copied now 2" "" "$extract" wrong wrong.par2 pieces
exit $failed
