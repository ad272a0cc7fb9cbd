#!/usr/bin/env bash
# If this fails, a repair may fail, or take too long, for sets like those that were once a problem.
#
# These are: two sets that share names, an empty file, names that par2 writes differently, and many long names of
# unprintable bytes.
. "$(dirname "$0")/with/wants.sh"
. "$tools/checks/with/commands.sh"
. "$tools/checks/with/rooms.sh"
cd "$work" || exit 1
export ORIGINALS=$work/whole GIVEN=$work/given
one_set=$tools/make/one_set.py
stand_in=$tools/stand_in/par2.py
real=$(type -P par2) || echo "not run: repairs by par2 itself: it isn't installed"

# ends NAME STATUS LAST WORDS..: wants a command over `room` to end with this status and last line, and without a
# message.
ends() {
    local name=$1 status=$2 last=$3
    shift 3
    "$@" room > text 2> line
    local got=$?
    if [ $got -eq "$status" ] && [ "$(tail -n 1 text)" = "$last" ] && [ ! -s line ]; then
        echo "ok: $name"
    else
        fails "$name: status $got, $(cat text line)"
    fi
}

# Two sets of logs, with a rotation in between: log.1 of the first week is log.2 of the second.
rm -rf room week1 week2
mkdir room week1 week2
printf 'the first week' > week1/log.1
printf 'the week before it' > week1/log.2
printf 'the second week' > week2/log.1
cp week1/log.1 week2/log.2
"$one_set" room/week1.par2 8 0 week1
"$one_set" room/week2.par2 8 0 week2
cp week2/* room
cp week1/log.2 room/old
cp -r week1 whole
id=$("$parv" set room/week1.par2 | sed -n 's/^set \([0-9a-f]*\) .*/\1/p')
ends "a name of another set: a file that is copied and makes way" 0 complete "${repair_set[@]}" "$id"
whole_now "a name of another set: a file that is copied and makes way" log.1.1 'the second week' log.2.1 'the first week'
ends "once more" 0 complete "${repair_set[@]}" "$id"
ends "once more, as a trial" 0 complete "${repair_set_dry[@]}" "$id"

# repaired NAME FILE WORDS..: wants `room`, in which this file of `whole` is damaged, to be complete after the repair.
repaired() {
    local name=$1 file=$2 par2
    for par2 in "$stand_in" ${real:+"$real"}; do
        rm -rf room
        cp -r whole room
        "$one_set" room/set.par2 1024 1 whole
        printf 'X' | dd of="room/$file" bs=1 seek=100 conv=notrunc status=none
        cp "room/$file" damaged
        ends "a trial of a repair with $name" 1 "a repair can be tried: need 1 have 1" "${repair_dry[@]}"
        PAR2=$par2 ends "a repair with $name by ${par2##*/}" 0 complete "${repair[@]}"
        cp "room/$file.1" kept 2> "$said/kept"
        rm -f "room/$file.1"
        whole_now "a repair with $name by ${par2##*/}"
        cmp damaged kept || fails "what was damaged isn't kept: a repair with $name by ${par2##*/}"
    done
}
rm -rf whole
mkdir whole
head -c 3000 "$parv" > whole/damaged.bin
head -c 6000 "$parv" | tail -c 2500 > whole/other.bin
: > whole/empty
repaired "an empty file" damaged.bin
rm whole/empty
for folder in 'Wait...' $'a\tb' $'a\nb' $'\x01' 'a../b' 'a..\b' 'back\slash' 'in/a' 'a:b' $'\x7f\xff'; do
    mkdir -p "whole/$folder"
    tail -c 4000 "$parv" > "whole/$folder/one.mp3"
    repaired "a folder ${folder@Q}" damaged.bin
    rm -r whole/"${folder%%/*}"
done
mkdir 'whole/Wait...'
tail -c 4000 "$parv" > 'whole/Wait.../one.mp3'
repaired "a damaged file below a folder 'Wait...'" 'Wait.../one.mp3'

# 40 names of 3.8 KB of unprintable bytes, 20 folders deep. They take a second of processor time, and may take 40.
rm -rf room
mkdir room
PYTHONPATH=$tools python3 "$tools/checks/repairs_names.py"
ends "long names of unprintable bytes" 0 complete bash -c 'ulimit -t 40 && exec "$@"' - "${repair[@]}"
[ "$(find room -type f -empty | wc -l)" -eq 40 ] || fails "long names of unprintable bytes: not each file was made"
ends "long names of unprintable bytes that are there" 0 complete bash -c 'ulimit -t 40 && exec "$@"' - "${repair[@]}"
exit $failed
