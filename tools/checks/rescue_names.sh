#!/usr/bin/env bash
# If this fails, somebody's set could make parv-rescue write outside its folder, or overwrite a file there.
#
# Anyone may have made the packets: their names lead out of the folder, meet files that are already there or links on
# the way, or files that somebody put there between two runs. Nothing around the folder may be made or changed, and
# nothing in it overwritten. It also tries folders that the command refuses, wrong arguments, and files that it can't
# read.
. "$(dirname "$0")/with/wants.sh"
cd "$work" || exit 1
export PARV=$parv LC_ALL=C
extract=$top/commands/bin/parv-rescue
me="parv-rescue"
record=.parv-rescue

mkdir room
"$tools/make/rescue_sets.py" room || exit 1
cd room || exit 1
names=(--tails names.par2 names.img)
# The lines about names that lead elsewhere.
cat > refusals << END
$PWD/absolute: its name is absolute
/absolute: its name is absolute
../above: its name leads out of the folder
in/../../above: its name leads out of the folder
in/..: its name leads out of the folder
..: its name leads out of the folder
.: its name isn't that of a file
./dot: its name isn't that of a file
in/./dot: its name isn't that of a file
in//twice: its name isn't that of a file
in/: its name isn't that of a file
$record: its name is kept for the command itself
$record/in: its name is kept for the command itself
both: its name is that of another file's folder
$(printf 'x%.0s' {1..256}): a part of its name is too long
END
# The other names, as they are shown.
cat > fine << END
both/in
fine
in/fine
in/deep/..fine
new\\x0aline \\xff\\\\
way/through
late
$(printf 'y%.0s' {1..255})
-dash
back\\\\slash
END

# Prints everything around the folder `out`, with its times and contents.
around() {
    find . -path ./out -prune -o ! -path . -printf '%p %y %s %T@ %n %l\n' | sort
    find . -path ./out -prune -o -type f -print0 | sort -z | xargs -0 md5sum
}
begins() {
    around > "$said/around"
}
# tells NAME COPIED COMPLETE [REFUSAL ..]: wants `out` to get the files of the set. Those that match the pattern
# COMPLETE are complete; the refusals are about the others, in addition to those about names. The files around stay as
# they are.
tells() {
    local name=$1 copied=$2 complete=$3
    shift 3
    { cat refusals; [ $# -eq 0 ] || printf '%s\n' "$@"; } > "$said/why"
    {
        grep -xE -- "$complete" fine | sed 's/^/complete /'
        sed 's/: .*//; s/^/refused /' "$said/why"
        echo "slices $(($(grep -cxE -- "$complete" fine) * 2))/50, copied now $copied"
    } | sort > "$said/wanted"
    timeout "$most" "$extract" out "${names[@]}" > "$said/text" 2> "$said/line" < /dev/null
    local got=$?
    around > "$said/now"
    if [ $got -eq 1 ] && [ "$(sort "$said/text")" = "$(cat "$said/wanted")" ] \
        && [ "$(sort "$said/line")" = "$(sed "s/^/$me: refused: /" "$said/why" | sort)" ] \
        && cmp -s "$said/around" "$said/now"; then
        echo "ok: $name"
    else
        fails "$name: status $got $(sort "$said/text" | diff - "$said/wanted" | head -n 4)" \
            "$(sed "s/^/$me: refused: /" "$said/why" | sort | diff <(sort "$said/line") - | head -n 4)" \
            "$(diff "$said/around" "$said/now" | head -n 4)"
    fi
}

begins
tells "names that lead out of the folder" 20 ".*"
diff -r --exclude=$record out names || fails "the other files aren't as they were"
tells "the same once more" 0 ".*"

# One file of the set was begun; something else is at the names of the others.
cp -r names elsewhere
printf 'mine' > elsewhere/mine
head -c 1024 names/fine > begun
again() {
    rm -rf out
    "$extract" out --tails names.par2 begun > "$said/begun" 2>&1
    [ "$(tail -n 1 "$said/begun")" = "slices 1/50, copied now 1" ] || fails "no file was begun: $(cat "$said/begun")"
}
again
printf 'mine' > out/late
ln -s ../elsewhere out/in
ln -s ../elsewhere/none out/way
mkfifo out/both
mkdir out/-dash
ln -s ../elsewhere/none 'out/back\slash'
begins
there="something is in its place already"
no_way="its place can't be opened"
tells "what stands in places already" 5 "(fine|new.*|y*)" "late: $there" "in/fine: $no_way: Not a directory" \
    "in/deep/..fine: $no_way: Not a directory" "way/through: $no_way: Not a directory" \
    "both/in: $no_way: Not a directory" "-dash: $there" "back\\\\slash: $there"
{ [ "$(cat out/late)" = mine ] && [ -p out/both ] && [ -L out/way ] && [ -L out/in ] && [ -d out/-dash ]; } \
    || fails "what stood in places is gone"
rm -r out/late out/in out/way out/both out/-dash 'out/back\slash'
tells "all of it, once that is gone" 14 ".*"
diff -r --exclude=$record out names || fails "the other files aren't as they were"

# Somebody replaced or changed the file that was begun.
others="(both.*|in/.*|new.*|way.*|late|y*|-dash|back.*)"
left="fine: what is in its place isn't what was left there"
again
rm out/fine
ln -s ../elsewhere/fine out/fine
begins
tells "a link in place of a file that was begun" 18 "$others" "fine: $no_way: Too many levels of symbolic links"
again
ln -f elsewhere/fine out/fine
begins
tells "a second name of another file" 18 "$others" "$left"
rm elsewhere/fine
cp names/fine elsewhere
again
rm out/fine
mkfifo out/fine
begins
tells "a FIFO" 18 "$others" "$left"
again
truncate -s 1499 out/fine
tells "a file of another length" 18 "$others" "$left"
[ "$(stat -c %s out/fine)" -eq 1499 ] || fails "the file of another length has another one"
again
rm out/fine
tells "no file" 20 ".*"
again
head -c 1500 names/late > out/fine
tells "another file in its place" 18 "$others" "$left"
head -c 1500 names/late | cmp out/fine - || fails "another file was written over"
again
printf 'mine' | dd of=out/fine bs=1 seek=1200 conv=notrunc status=none
tells "other bytes where a slice belongs" 18 "$others" "fine: it has other bytes where a slice belongs"
[ "$(tail -c +1201 out/fine | head -c 4)" = mine ] || fails "other bytes were written over"
again
mv out elsewhere/out
mkdir out
mv elsewhere/out/$record elsewhere
ln -s ../elsewhere/$record out/$record
begins
wants "a record that is a link" 6 "" "$me: cannot open out/$record: Too many levels of symbolic links" \
    "$extract" out "${names[@]}"
rm out/$record
ln elsewhere/$record out/$record
cp elsewhere/$record "$said/record"
"$extract" out "${names[@]}" > "$said/out" 2> "$said/line"
if grep -q "it is now parv-rescue.kept.1, " "$said/line" && cmp -s "$said/record" elsewhere/$record; then
    echo "ok: a record that has another name too is set aside, and not written to"
else
    fails "a record that has another name too: $(cat "$said/line")"
fi
rm -r out
mkdir out
mkfifo out/$record
wants "a record that is a FIFO" 6 "" "$me: out/$record is no file" "$extract" out "${names[@]}"
around > "$said/now"
sed -i '/parv-rescue /d' "$said/around" "$said/now"
cmp -s "$said/around" "$said/now" || fails "around the folder: $(diff "$said/around" "$said/now")"

# Folders that the command refuses.
rm -rf out
mkdir out
printf 'mine' > out/mine
wants "a folder of others" 3 "" "$me: out isn't empty, and has no $record" "$extract" out "${names[@]}"
[ "$(ls -A out)" = mine ] || fails "the folder of others has more now: $(ls -A out)"
usage="$me: usage: $me [-h] [--tails] [--set ID] FOLDER FILES"
wants "a file in place of the folder" 3 "" "$me: out/mine is a file: FOLDER comes before FILES
$usage" "$extract" out/mine "${names[@]}"
wants "no folder" 3 "" "$me: names.par2 is a file: FOLDER comes before FILES
$usage" "$extract" "${names[@]}"
[ "$(cat out/mine)" = mine ] || fails "the file in place of the folder was changed"
ln -s none broken
wants "a broken link in place of the folder" 6 "" "$me: cannot make broken: File exists" "$extract" broken "${names[@]}"
[ ! -e none ] || fails "the broken link leads to something now"
"$extract" other "$top/demo/photos.par2" > text
wants "a folder of another set" 3 "" "$me: other/$record is of another set" "$extract" other "${names[@]}"
again
exec 9< out/$record
flock 9
wants "another run at work" 3 "" "$me: another run is at work in out" "$extract" out "${names[@]}"
exec 9<&-

# Wrong arguments, and files that can't be read.
wants "no files" 3 "" "$me: missing argument: FILES
$usage" "$extract" new
wants "an option that there isn't" 3 "" "$me: unrecognized arguments: --tail
$usage" "$extract" --tail new names.par2
wants "an ID that is none" 3 "" "$me: argument --set: a set ID has 32 hexadecimal digits
$usage" "$extract" --set 12 new names.par2
wants "an option of other bytes" 3 "" "$me: unrecognized arguments: --\\x1b[31m\\xff
$usage" "$extract" $'--\e[31m\xff' new names.par2
wants "no packet file" 3 "" "$me: no packet file" "$extract" new names.img
wants "no set" 4 "" "$me: no usable set: no main" "$extract" --set 00000000000000000000000000000000 new names.par2
for name in none.par2 none.img; do
    wants "a file that isn't there: $name" 6 "" "$me: cannot open $name: No such file or directory" \
        "$extract" new names.par2 $name
done
mkfifo fifo.img fifo.par2
for name in fifo.img fifo.par2 names; do
    wants "what is no regular file: $name" 6 "" "$me: cannot open $name: no regular file" "$extract" new names.par2 $name
done
[ ! -e new ] || fails "a folder was made for nothing"
# A name that isn't UTF-8, which parv accepts only through a link.
odd=$'\xff\n.img'
cp "$top/demo/notes.txt" "$odd"
cp "$top/demo/photos.par2" $'\xff.par2'
wants "names that aren't UTF-8" 1 "missing harbour.raw 0/12
missing beach.raw 0/20
complete notes.txt
missing tower.raw 0/5
slices 1/38, copied now 1" "$me: short slices missing: 2; --tails might find more" "$extract" odd $'\xff.par2' "$odd"
exit $failed
