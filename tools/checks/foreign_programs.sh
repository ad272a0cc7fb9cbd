#!/usr/bin/env bash
# If this fails, a repair of a downloaded folder may run a program from that folder.
#
# The folder contains programs under the names of all programs that a command may run. None may be run, in whatever way
# parv, par2 and PATH are named.
. "$(dirname "$0")/with/wants.sh"
. "$tools/checks/with/commands.sh"
. "$tools/checks/with/rooms.sh"
cd "$work" || exit 1
export ORIGINALS=$work/whole GIVEN=$work/given

# Programs of each name that a command may run, at each place where a relative name could find them. Each records that
# it was run, and then does what the real one does.
mkdir planted out
names=(parv par2 par2.py awk basename bash cat chmod cmp cp cut date dd dirname env file find flock getconf grep head id ln ls \
    md5sum mkdir mkfifo mktemp mv nproc printf ps python3 readlink realpath rm rmdir sed sh sleep sort stat sync tail tee \
    test timeout touch tr uname uniq wc which xargs)
for name in "${names[@]}"; do
    case $name in
    parv) real=$parv ;;
    par2*) real=$tools/stand_in/par2.py ;;
    *) real=$(type -P "$name") || continue ;;
    esac
    printf '#!/bin/sh\necho %s >> %q\nPATH=%q exec %q "$@"\n' "$name" "$work/run" "$PATH" "$real" > "planted/$name"
done
chmod +x planted/*
cp "$parv" out/parv
printf '#!/bin/sh\nexec %q "$@"\n' "$tools/stand_in/par2.py" > out/par2
chmod +x out/par2

# runs NAME STATUS LAST COMMAND..: wants the command, over a folder with these programs, to end with this status and
# last line, and to have run none of them.
runs() {
    local name=$1 status=$2 last=$3 folder got
    shift 3
    furnish 8 5 first.txt abcdefgh second.txt ijklmnop
    mv room/second.txt room/renamed
    rm room/first.txt
    for folder in . out bin; do
        mkdir -p "room/$folder"
        cp planted/* "room/$folder"
    done
    rm -f run
    "$@" > text 2> line < /dev/null
    got=$?
    if [ $got -eq "$status" ] && [ "$(tail -n 1 text)" = "$last" ] && [ ! -e run ]; then
        echo "ok: $name"
    else
        fails "$name: status $got, $(cat text line), ran $(sort run 2> "$said/run" | uniq -c | tr '\n' ' ')"
    fi
}
furnish 8 5 first.txt abcdefgh second.txt ijklmnop
id=$("$parv" set room/set.par2 | sed -n 's/^set \([0-9a-f]*\) .*/\1/p')
# over_it NAME STATUS LAST COMMAND..: does the same with parv, par2 and PATH named in each of these ways.
over_it() {
    local name=$1 status=$2 last=$3 dot path
    shift 3
    for dot in "" ./; do
        runs "$name: parv and par2 by the relative paths ${dot}out/.." "$status" "$last" \
            env PARV=${dot}out/parv PAR2=${dot}out/par2 "$@"
    done
    for path in ":$work/out:$PATH" ".:$work/out:$PATH" "out:$PATH" "$PATH:out" "$work/out::$PATH" "$PATH:$work/out:"; do
        runs "$name: PATH ${path//"$PATH"/..}" "$status" "$last" env -u PARV -u PAR2 PATH="$path" "$@"
    done
}
over_it "a repair" 0 complete "${repair[@]}" room
# If par2 isn't found, it isn't looked for in the folder of the set, or in the one in which par2 would work.
furnish 8 5 first.txt abcdefgh tools/par2 "$(cat planted/par2)" nopar2 "$(cat planted/par2)"
chmod +x room/tools/par2 room/nopar2
printf 'abcdXXXX' > room/first.txt
rm -f run
for name in tools/par2 ./tools/par2 nopar2; do
    PAR2=$name PATH=:.:$PATH "${repair[@]}" room > text 2> line
    status=$?
    if [ $status -eq 5 ] && [ ! -e run ]; then
        echo "ok: no par2, and a file $name in the set"
    else
        fails "no par2, and a file $name in the set: status $status, $(cat text line)"
    fi
done
# A program `parv` in the current folder isn't used, if no part of PATH names that folder.
printf '#!/bin/sh\nexit 0\n' > parv
chmod +x parv
for name in repair tree watch; do
    declare -n command=$name
    env -u PARV PATH=/usr/bin:/bin "${command[@]}" room > text 2> line
    status=$?
    if [ $status -eq 6 ] && grep -q 'cannot run parv: put parv in PATH' line; then
        echo "ok: no parv in PATH, and one beside the caller: $name"
    else
        fails "no parv in PATH, and one beside the caller: $name: status $status, $(cat text line)"
    fi
done
rm parv
over_it "a tree" 1 "1 $id need 1 have 5 set" "${tree[@]}" room
over_it "a folder that is watched" 1 "a repair can be tried: need 1 have 5" "${watch[@]}" room 0 1
exit $failed
