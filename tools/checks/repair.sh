#!/usr/bin/env bash
# If this fails, parv-repair may lose or overwrite a file of yours, or report a repair that it hasn't made.
#
# It repairs folders with real damage, with a program that stands in for par2, and compares each file afterwards.
# Nothing may be overwritten or lost. If the repair fails, is interrupted or refuses a name, all must be as before, and
# the message must say why.
. "$(dirname "$0")/with/wants.sh"
. "$tools/checks/with/rooms.sh"
cd "$work" || exit 1
export PAR2=$tools/stand_in/par2.py ORIGINALS=$work/whole GIVEN=$work/given
. "$tools/checks/with/commands.sh"
script=${repair[0]}
one_set=$tools/make/one_set.py

# ends NAME STATUS TEXT LINE WORDS..: wants the command over `room` to end like this.
ends() {
    wants "$1" "$2" "$3" "$4" "$script" "${@:5}" room
}

# fails_with NAME STATUS TEXT LINE WORDS..: wants it to end like this, and all files to be as before.
fails_with() {
    listed room > before
    ends "$@"
    as_before "$1"
}

usage='usage: parv-repair [-h] [--dry-run] [--remove-backups] [--set ID] FOLDER'
say='parv-repair: room:'
named="$say the name"
refused_names="$say the set is refused for its names"
wants "no word" 3 "" "parv-repair: missing argument: FOLDER
parv-repair: $usage" "$script"
wants "an option that there isn't" 3 "" "parv-repair: unrecognized arguments: --wrong
parv-repair: $usage" "$script" --wrong room
wants "an option of other bytes" 3 "" "parv-repair: unrecognized arguments: --\\x1b[31m\\xff
parv-repair: $usage" "$script" $'--\e[31m\xff' room
wants "two folders" 3 "" "parv-repair: unrecognized arguments: room
parv-repair: $usage" "$script" room room
wants "an ID that is left out" 3 "" "parv-repair: argument --set: expected one argument
parv-repair: $usage" "$script" --set
wants "a folder that isn't there" 6 "" "parv-repair: cannot open none\\x0a: No such file or directory" "$script" $'none\n'
mkdir room
ends "a folder without packet files" 3 "" "$say no packet file"
printf 'damaged' > room/a.par2
ends "a packet file without a packet" 4 "" "$say no usable set: no main"

furnish 4 2 first.txt abcdefgh second.txt ijklmnop third.txt qrstuvwxyz
fails_with "a set that is complete" 0 complete ""
mv room/first.txt room/-x
mv room/second.txt 'room/ a  b '
told="rename -x to first.txt
rename  a  b  to second.txt"
fails_with "renamed files, tried" 1 "$told
a repair can be tried: need 0 have 2" "" --dry-run
PAR2=none ends "renamed files" 0 "$told
complete" ""
whole_now "renamed files"
mv room/first.txt room/x
mv room/second.txt room/first.txt
mv room/third.txt room/second.txt
mv room/x room/third.txt
PAR2=none ends "names that go round" 0 "rename second.txt to third.txt
rename third.txt to first.txt
rename first.txt to second.txt
complete" ""
whole_now "names that go round"
if [ ! -s given ]; then echo "ok: no repair where names alone are wrong"; else fails "par2 was called for names"; fi

# The files that par2 gets, and what happens to damaged ones.
mv room/first.txt room/other
printf 'ijklXXXX' > room/second.txt
printf 'kept' > room/second.txt.1
rm room/third.txt
"$one_set" room/set.par2 4 4 whole
fails_with "a repair, tried" 1 "repair third.txt
rename other to first.txt
repair second.txt
keep second.txt as second.txt.2
a repair can be tried: need 4 have 4" "" --dry-run
md5sum room/other room/second.txt{,.1} | cut -c 1-32 | sort > wanted_given
ends "a repair" 0 "repair third.txt
rename other to first.txt
repair second.txt
keep second.txt as second.txt.2
complete" ""
whole_now "a repair" second.txt.1 kept second.txt.2 ijklXXXX
if cmp -s <(sort given) wanted_given; then
    echo "ok: par2 gets all files"
else
    fails "par2 got other files: $(sort given | diff - wanted_given | tr '\n' ';')"
fi
printf 'abcdXXXX' > room/first.txt
ends "a repair without its backups" 0 "repair first.txt
keep first.txt as first.txt.1
remove first.txt.1
complete" "" --remove-backups
whole_now "a repair without its backups" second.txt.1 kept second.txt.2 ijklXXXX

# Names of any bytes are shown as parv shows them, even if parv accepts them only through a link, or par2 reads them
# differently.
names=($'line\nfeed\n' ' two  blanks ' -dash --set $'caf\xe9' 'back\slash' 'st*r[x]?' '$(id)`id`"' "it's" '%41' '@' '*' \
    'in a/sub/folder' .hidden 'from a to b' other.par2 $'\xff\n.PAR2')
words=()
for name in "${names[@]}"; do words+=("$name" "content of $name"); done
furnish 8 100 "${words[@]}"
fails_with "a set with names of any bytes" 0 complete ""
number=0
find room -type f ! -name set.par2 -print0 | sort -z | while IFS= read -r -d '' name; do
    number=$((number + 1))
    mv -- "$name" "room/-$number"
done
rm -r 'room/in a'
printf 'complete\n' > last
"$script" room > text 2> line
status=$?
if [ $status -eq 0 ] && [ ! -s line ] && [ "$(wc -l < text)" -eq $((${#names[@]} + 1)) ] \
    && grep -qx 'rename -[0-9]* to line\\x0afeed\\x0a' text && grep -qx 'rename -[0-9]* to caf\\xe9' text \
    && grep -qx 'rename -[0-9]* to back\\\\slash' text && cmp -s <(tail -n 1 text) last; then
    echo "ok: names of any bytes are given back"
else
    fails "names of any bytes: status $status, $(cat text line)"
fi
whole_now "names of any bytes are given back"
find room -type f ! -name set.par2 -exec sh -c 'printf x >> "$1"' sh {} \;
"$script" --remove-backups room > text 2> line
status=$?
if [ $status -eq 0 ] && [ ! -s line ] && [ "$(grep -c '^repair ' text)" -eq ${#names[@]} ]; then
    echo "ok: files with names of any bytes are repaired"
else
    fails "a repair with names of any bytes: status $status, $(cat text line)"
fi
whole_now "files with names of any bytes are repaired"

furnish 8 1 $'line\nfeed' 0123456789 other abcdefgh
printf 'abcd' > room/other
ends "a name that par2 reads as another, and a backup that has no slice of its file" 0 "repair other
keep other as other.1
complete" "$say other.1 has no slice of other that is found without --tails, and stays" --remove-backups
whole_now "a name that par2 reads as another, and a backup that has no slice of its file" other.1 abcd

# A set that anyone may have made describes a file of the folder as empty, or as one of which no slice is there.
furnish 4 20 film abcdefgh thesis ""
printf 'my thesis, of a year' > room/thesis
ends "a foreign file at the name of an empty one" 0 "make thesis
keep thesis as thesis.1
complete" "$say thesis.1 has no slice of thesis that is found without --tails, and stays" --remove-backups
whole_now "a foreign file at the name of an empty one" thesis.1 'my thesis, of a year'
printf 'my film, of a year' > room/film
ends "a foreign file at the name of another" 0 "repair film
keep film as film.1
complete" "$say film.1 has no slice of film that is found without --tails, and stays" --remove-backups
whole_now "a foreign file at the name of another" thesis.1 'my thesis, of a year' film.1 'my film, of a year'

# Two files with the same content, and empty files.
furnish 4 0 one same-same two same-same three "" four other
fails_with "files of one content, and an empty one" 0 complete ""
mv room/one room/x
mv room/two room/y
ends "files of one content renamed" 0 "rename x to two
rename y to one
complete" ""
whole_now "files of one content renamed"
rm room/two
: > room/lock
rm room/three
ends "one of two files of one content, and an empty one" 0 "make three
copy one to two
complete" ""
whole_now "one of two files of one content, and an empty one" lock ""
mv room/two room/x
rm room/one
ends "a file of one content for two" 0 "rename x to two
copy x to one
complete" ""

# Slices that parv finds with --tails and par2 doesn't find: they are in other files, put together.
furnish 8 1 long abcdefghijklmnopqrstuvwxyz short 01234
{ printf 'Some text. '; cat room/long; printf ' and '; cat room/short; printf ' behind it'; } > room/image
rm room/long room/short
ends "slices that par2 doesn't see" 0 "repair short
repair long
complete" ""
whole_now "slices that par2 doesn't see" image 'Some text. abcdefghijklmnopqrstuvwxyz and 01234 behind it'
rm room/long room/short
printf 'Some text. abcdefghijklmnopqrstuvwxyz and 0123' > room/image
PAR2=none fails_with "no par2" 5 "" "$say cannot run none: put par2 in PATH, or name it by PAR2"
ends "slices that par2 doesn't see, and one that is gone" 0 "repair short
repair long
complete" ""
rm room/long room/short
printf 'Some text. abcdefghijklmnopqrst0123' > room/image
fails_with "not enough, and not with --tails either" 2 "" "$say not enough for a repair: need 3 have 1"

# After a repair that fails, all is as before.
furnish 4 5 first.txt abcdefgh second.txt ijklmnop third.txt qrst 'sub/in sub' uvwx
mv room/second.txt room/first.txt
mv 'room/sub/in sub' room/other
rmdir room/sub
rm room/third.txt
printf 'damaged' > room/second.txt
WRONG=fails fails_with "a repair that fails" 5 "" "$say par2 repair has failed with status 5: Repair Failed."
WRONG=lies fails_with "a repair that isn't one" 5 "" "$say par2 repair has ended, but third.txt isn't complete"
for signal in INT:130 HUP:129 TERM:143; do
    WRONG=SIG${signal%:*} fails_with "a repair that is ended by SIG${signal%:*}" "${signal#*:}" "" ""
done

furnish 4 5 first.txt abcdefgh second.txt ijklmnop
mv room/first.txt room/x
printf outside > outside
flock room "$script" room 2> line
status=$?
if [ $status -eq 6 ] && [ "$(< line)" = "$say another run is at work" ]; then
    echo "ok: one run at a time"
else
    fails "two runs: status $status, $(< line)"
fi
ends "after that" 0 "rename x to first.txt
complete" ""
whole_now "after that"

# Some names are refused, whatever else could be repaired. The files at these paths stay as they are.
printf 'abcdefgh' > content
refused() {
    local name=$1 shown=$2
    furnish 4 5 good.txt ijkl bad.txt abcdefgh
    "$one_set" room/set.par2 4 5 whole bad.txt "$name"
    mv room/good.txt room/x
    mv room/bad.txt room/y
    # The file could be repaired, or renamed, or is there already.
    fails_with "a name that is refused: $shown" 4 "" "$named $shown is refused: $3
$refused_names"
    rm room/y
    fails_with "a name that is refused, of a file that is gone: $shown" 4 "" "$named $shown is refused: $3
$refused_names"
    [ "$(cat outside)" = outside ] || fails "another file was written: $shown"
}
out="its name leads out of the folder"
none="its name isn't that of a file"
own="its name is kept for the command itself"
refused ../outside ../outside "$out"
refused "$work/outside" "$work/outside" "its name is absolute"
refused sub/../../outside sub/../../outside "$out"
refused .. .. "$out"
refused ./bad.txt ./bad.txt "$none"
refused sub//bad.txt sub//bad.txt "$none"
refused sub/ sub/ "$none"
refused '..\outside' '..\\outside' "$out"
refused '\outside' '\\outside' "$out"
refused .parv-repair/journal .parv-repair/journal "$own"
refused .verify_and_repair/moves .verify_and_repair/moves "$own"
refused $'../\xff\n' '../\xff\x0a' "$out"
[ "$(find "$work" -maxdepth 1 -newer content | grep -c outside)" -eq 0 ] || fails "something was written elsewhere"

# Something other than a regular file is at a name, or on the way to it.
furnish 4 5 good.txt ijkl 'sub/bad.txt' abcdefgh
mv room/good.txt room/x
mkdir outer
cp whole/sub/bad.txt outer
hindered() {
    fails_with "what stands at a name: $1" 4 "" "$named sub/bad.txt is refused: $2
$refused_names"
}
mv room/sub/bad.txt room/y
ln -s "$work/outer/bad.txt" room/sub/bad.txt
hindered "a link" "sub/bad.txt is a link"
ln -sf none room/sub/bad.txt
hindered "a link to nothing" "sub/bad.txt is a link"
rm room/sub/bad.txt
mkfifo room/sub/bad.txt
hindered "a FIFO" "sub/bad.txt is no regular file"
rm room/sub/bad.txt
mkdir room/sub/bad.txt
hindered "a folder" "sub/bad.txt is no regular file"
rm -r room/sub
ln -s "$work/outer" room/sub
hindered "a link to a folder" "sub is a link"
rm room/y
hindered "a link to a folder that has the file" "sub is a link"
rm room/sub
printf 'abcd' > room/sub
hindered "a file in place of a folder" "sub is no folder"
[ "$(cat outer/*)" = abcdefgh ] || fails "a file behind a link is another one"
rm room/sub
mv room/set.par2 outer
ln -s "$work/outer/set.par2" room/set.par2
fails_with "packet files that are links" 3 "" "$say set.par2 is a link, and isn't read
$say no packet file"

# Names that can't exist side by side, or that are too long.
furnish 4 5 one abcdefgh two ijkl
for name in one/two "$(printf 'x%.0s' $(seq 300))"; do
    "$one_set" room/set.par2 4 5 whole two "$name"
    mv room/one room/x
    mv room/two room/y
    listed room > before
    "$script" room > text 2> line
    if [ $? -eq 4 ] && [ ! -s text ] && [ "$(wc -l < line)" -eq 2 ] && cmp -s before <(listed room); then
        echo "ok: a name that can't be made is refused: ${name:0:9}"
    else
        fails "a name that can't be made: ${name:0:9}: $(cat text line)"
    fi
    rm room/x room/y
    cp whole/* room
done

# Several sets in a folder, of which one is chosen. A file that has a name of the other set keeps it.
furnish 4 5 first.txt abcdefgh
mkdir two
printf 'abcdefgh' > two/second.txt
"$one_set" room/two.par2 4 5 two
mv room/first.txt room/second.txt
ids=$("$parv" packets room/set.par2 room/two.par2 | awk '$4 == "main" { printf " %s", $5 }')
fails_with "two sets" 3 "" "$say there are several sets, of which --set takes one:$ids"
id=${ids:1:32}
ends "one of two sets" 0 "copy second.txt to first.txt
complete" "" --set "${id^^}"
whole_now "one of two sets" second.txt abcdefgh
fails_with "a set that isn't there" 4 "" "$say no usable set: no main" --set 00000000000000000000000000000000
fails_with "an ID that is none" 3 "" "parv-repair: argument --set: a set ID has 32 hexadecimal digits
parv-repair: $usage" --set 0
rm room/first.txt
cat room/two.par2 >> room/all.par2
cat room/set.par2 >> room/all.par2
mv room/set.par2 room/two.par2 .
rm room/second.txt
ends "a set behind another in one packet file" 0 "repair first.txt
complete" "" --set "$id"

# Files and folders that a user who isn't root can't read or write.
other_user
furnish 4 5 first.txt abcdefgh second.txt ijkl
mv room/second.txt room/x
chmod 555 room
mkdir commands
cp "$parv" parv
chmod 755 parv
cp -r "$top/commands/bin" "$top/commands/parv_commands" commands
chmod -R a+rX commands
mkdir states
chmod 1777 states
export XDG_STATE_HOME=$work/states      # of that user
script=commands/bin/parv-repair
wants "a trial in a folder that may not be written" 1 "rename x to second.txt
a repair can be tried: need 0 have 5" "" env PARV="$work/parv" "${user[@]}" "$script" --dry-run room
wants "a folder that may not be written" 6 "" "$say cannot write in room: Permission denied" env PARV="$work/parv" "${user[@]}" "$script" room
chmod 000 room/first.txt
wants "a file that may not be read" 6 "" "$say first.txt isn't looked at (Permission denied), and isn't replaced: need 2 have 5" \
    env PARV="$work/parv" "${user[@]}" "$script" room
chmod 000 room
wants "a folder that may not be read" 6 "" "parv-repair: cannot open room: Permission denied" \
    env PARV="$work/parv" "${user[@]}" "$script" room
chmod 700 room room/first.txt
exit $failed
