#!/usr/bin/env bash
# If this fails, parv-map may show a slice as found that isn't there, or a name in the set may put a script into its
# page.
#
# Its signs are compared with an independent search at each offset, for whole files, damaged files, and slices that are
# found again and again. Further tests: widths, colours, pages and drawings (one of these is docs/slice_map.svg); names
# that lead elsewhere or are markup; and files that exist already.
. "$(dirname "$0")/with/wants.sh"
cd "$work" || exit 1
export PARV=$parv LC_ALL=C
unset NO_COLOR COLUMNS
map=$top/commands/bin/parv-map
me='parv-map'
demo=$top/demo
set="set 589c76e09f0580b9203c5b64963b8957 size 1024 slices 38"
legend="# in place  + moved  ? not known  . missing"

# maps NAME [--tails] FILES: wants the signs of the independent search, and the numbers of parv verify.
maps() {
    local name=$1 got needed
    shift
    "$tools/models/map_slices.py" "$@" > "$said/wanted"
    timeout "$most" "$map" --width 4000 "$@" > "$said/text" 2> "$said/line" < /dev/null
    got=$?
    sed '1,/^$/d; /^$/d; $d; s/: .*//' "$said/text" > "$said/signs"
    needed=$("$parv" verify -q "$@" | head -n 1)
    if [ $got -eq 0 ] && cmp -s "$said/signs" "$said/wanted" && [ ! -s "$said/line" ] \
        && [ "$(tail -n 1 "$said/text" | sed 's/.*; //')" = "$needed" ]; then
        echo "ok: $name"
    else
        fails "$name: status $got, $(diff "$said/signs" "$said/wanted" | head -n 4), $(cat "$said/line")" \
            "$(tail -n 1 "$said/text"), and $needed"
    fi
}

# Files that are renamed, have a byte more inside, or are whole; then files with a changed byte, with more bytes after
# them, cut off, and missing.
mkdir photos
cd photos || exit 1
cp "$demo"/photos*.par2 "$demo/notes.txt" "$demo/tower.raw" .
cp "$demo/harbour.raw" port.raw
{ head -c 6000 "$demo/beach.raw"; printf '?'; tail -c +6001 "$demo/beach.raw"; } > beach.raw
maps "some are moved" photos.par2 photos.vol0* beach.raw port.raw tower.raw notes.txt
maps "some are moved, with --tails" --tails photos.par2 photos.vol0* beach.raw port.raw tower.raw notes.txt
rm notes.txt port.raw
{ head -c 5000 "$demo/harbour.raw"; printf '?'; tail -c +5002 "$demo/harbour.raw"; } > harbour.raw
printf 'more' >> tower.raw
head -c 7000 "$demo/beach.raw" > beach.raw
maps "some are missing" photos.par2 photos.vol0* beach.raw harbour.raw tower.raw
maps "some are missing, with --tails" --tails photos.par2 photos.vol0* beach.raw harbour.raw tower.raw
maps "all are missing" photos.par2
cd "$work" || exit 1
head -c 2048 "$demo/beach.raw" > 'a disc'
wants "a folder, and what another file has" 0 "$set
$legend

harbour.raw: 11 in place, 1 missing
####.#######

beach.raw: 6 in place, 14 missing
######..............

notes.txt: 1 missing
.

tower.raw: 4 in place, 1 missing
####.

21 in place, 17 missing; need 17 have 0" "" "$map" -B photos photos/photos.par2 photos/*.raw 'a disc'
moved="$set
$legend

harbour.raw: 12 missing
............

beach.raw: 2 moved, 18 missing
++..................

notes.txt: 1 missing
.

tower.raw: 5 missing
.....

2 moved, 36 missing; need 36 have 0"
wants "names with their folder are others" 0 "$moved" "" "$map" photos/photos.par2 'a disc'
mkdir renamed
cp 'a disc' renamed/beach.raw
wants "names with their folder, of one that is in place" 0 "$moved" "" "$map" photos/photos.par2 renamed/beach.raw
wants "the name of -B ends in a slash" 0 "$(sed 's/2 moved/2 in place/; s/++/##/' <<< "$moved")" "" \
    "$map" --base renamed/ photos/photos.par2 renamed/beach.raw

# Slices that are found at many offsets, and files whose slices have no checksums.
"$tools/make/rescue_sets.py" . || exit 1
cd repeated || exit 1
for tails in "" --tails; do
    # shellcheck disable=SC2086 # (these are words)
    maps "slices that are seen again and again${tails:+, with $tails}" $tails ../repeated.par2 ../repeated.img
    # shellcheck disable=SC2086 # (these are words)
    maps "slices that are in place, and others that are the same${tails:+, with $tails}" $tails ../repeated.par2 \
        zeros ones odd begins no_sums
done
truncate -s -50 zeros
truncate -s 1948 ends
for tails in "" --tails; do
    # shellcheck disable=SC2086 # (these are words)
    maps "slices of zeros that aren't inside${tails:+, with $tails}" $tails ../repeated.par2 zeros ends
done
mv no_sums renamed
maps "sums that aren't known, of a file that was renamed" ../repeated.par2 renamed ends
truncate -s 2400 renamed
maps "sums that aren't known, of a file that was cut" ../repeated.par2 renamed ends
cd "$work" || exit 1

# Widths. If twenty slices have eight cells, each cell shows the worst of its two or three slices.
head -c 7000 "$demo/beach.raw" > photos/beach.raw
head -c 6144 "$demo/beach.raw" | tail -c 3072 > 'a disc'
tail -c +8193 "$demo/beach.raw" | head -c 1024 >> 'a disc'
printf '?' | dd of=photos/beach.raw bs=1 seek=4000 conv=notrunc status=none
wide=(-B photos photos/photos.par2 photos/beach.raw 'a disc')
"$map" --width 90 "${wide[@]}" > text
[ "$(grep '^#' text | tail -n 1)" = "###+##..+..........." ] || fails "these are to be summed up: $(cat text)"
wants "the worst of each cell" 0 "$set
${legend//  /$'\n'}

..
..
..
..
..
..

..
..
#+
..
..
..

..
..
.

..
..
..
..
.

5 in place, 2 moved, 31 missing; need 31 have 0" "" "$map" --width 2 "${wide[@]}"
for columns in 7 30 79; do
    for words in "--width $columns" ""; do
        # shellcheck disable=SC2086 # (these are words)
        if COLUMNS=$columns "$map" $words "${wide[@]}" | sed '1,/^$/d; $d' | awk -v n=$columns 'length > n { exit 1 }'
        then
            echo "ok: no line of a file is longer than $columns${words:+, by --width}"
        else
            fails "a line is longer than $columns"
        fi
    done
done

# Only a terminal gets colours, and its width is used.
cat > painted << 'END'
set 589c76e09f0580b9203c5b64963b8957 size 1024 slices 38
[32m#[0m in place
[33m+[0m moved
[35m?[0m not known
[31m.[0m missing

harbour.raw
12 missing
[31m............[0m

beach.raw
5 in place, 2 mo..
[32m###[33m+[32m##[31m..[33m+[31m.........[0m
[31m..[0m

notes.txt
1 missing
[31m.[0m

tower.raw
5 missing
[31m.....[0m

5 in place, 2 moved, 31 missing; need 31 have 0
END
if command -v script > /dev/null; then
    on_terminal() {
        script -qec "stty cols 18; $(printf '%q ' "$@")" /dev/null < /dev/null | tr -d '\r\033'
    }
    on_terminal "$map" "${wide[@]}" > text
    if cmp text painted; then echo "ok: a terminal has colours"; else fails "a terminal: $(cat text)"; fi
    NO_COLOR=1 on_terminal "$map" "${wide[@]}" > text
    if sed 's/\[[0-9]*m//g' painted | cmp - text; then
        echo "ok: a terminal has none with NO_COLOR"
    else
        fails "a terminal with NO_COLOR: $(cat text)"
    fi
else
    echo "not run: there is no script"
fi

# The drawing in docs/ shows demo/ with one file renamed, one damaged, and one missing.
mkdir drawn
cd drawn || exit 1
cp "$demo"/photos.par2 "$demo"/photos.vol00+1.par2 "$demo/beach.raw" .
cp "$demo/harbour.raw" port.raw
{ head -c 2000 "$demo/tower.raw"; printf '?'; tail -c 3000 "$demo/tower.raw"; } > tower.raw
wants "a page and a drawing" 0 "$set
$legend

harbour.raw: 12 moved
++++++++++++

beach.raw: 20 in place
####################

notes.txt: 1 missing
.

tower.raw: 4 in place, 1 missing
#.###

24 in place, 12 moved, 2 missing; need 2 have 1" "" \
    "$map" --html page.html --svg drawing.svg photos.par2 photos.vol00+1.par2 ./*.raw -B .
if cmp drawing.svg "$top/docs/slice_map.svg"; then
    echo "ok: the drawing is that of docs/"
else
    fails "the drawing isn't that of docs/"
fi
python3 "$tools/checks/slice_map_read.py" > "read" || fails "the page or the drawing can't be read"
for text in 38 "harbour.raw: 12 moved" "slice 3: moved, in ./port.raw at 3072" "slices 0 to 11 in ./port.raw from 0" \
    "slice 1: missing" "slice 0: in place" "24 in place, 12 moved, 2 missing; need 2 have 1"; do
    grep -qxF "$text" read || fails "neither page nor drawing has $text"
done
# Names that are markup or lead elsewhere. parv-map doesn't open what they lead to, which would be a FIFO.
PYTHONPATH=$tools python3 "$tools/checks/slice_map_names.py"
rm page.html drawing.svg
cd odd || exit 1
timeout "$most" "$map" --html ../page.html --svg ../drawing.svg ../odd.par2 a* $'\e[31mred\n' > ../text 2> ../line
status=$?
cd .. || exit 1
python3 "$tools/checks/slice_map_read.py" > "read" || fails "the page or the drawing with odd names can't be read"
if [ $status -eq 0 ] && [ ! -s line ] && ! grep -q "$(printf '\033')" text page.html drawing.svg \
    && ! grep -q '<script' page.html drawing.svg && grep -q '^\\x1b\[31mred\\x0a: [0-9]* in place; up to 2 slices a sign$' text \
    && grep -qF 'a&b"c".bin: ' read; then
    echo "ok: names that are markup, or lead elsewhere"
else
    fails "odd names: status $status $(cat line) $(head -c 600 text)"
fi

# Wrong arguments, and files that can't be read.
usage="$me: usage: $me [-h] [--tails] [--set ID] [-B DIR] [--width N] [--html FILE] [--svg FILE] FILES"
wants "no files" 3 "" "$me: missing argument: FILES
$usage" "$map"
wants "no width" 3 "" "$me: a line has one character at least
$usage" "$map" --width 0 photos.par2
wants "no packet file" 3 "" "$me: no packet file" "$map" beach.raw
wants "no set" 4 "" "$me: no usable set: no main" "$map" --set 00000000000000000000000000000000 photos.par2
wants "a file that isn't there" 6 "" "$me: cannot open none.raw: No such file or directory" "$map" photos.par2 none.raw
wants "a FIFO" 6 "" "$me: cannot open fifo: no regular file" "$map" photos.par2 fifo
cp photos.par2 ./-photos.par2
cp "$demo/notes.txt" ./-notes
"$map" photos.par2 ./-notes > text
gives "names that begin with a dash, after --" 0 text "" "$map" -- -photos.par2 -notes
gives "an option between names" 0 text "" "$map" photos.par2 --width 80 -- -notes
exit $failed
