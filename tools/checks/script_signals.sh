#!/usr/bin/env bash
# If this fails, parv may keep running for hours after you press Ctrl-C, or temporary files may stay.
#
# Commands are ended while parv reads, by a signal to the command or by Ctrl-C. parv must end with them, no temporary
# file may stay, and the exit status must be that of the signal.
. "$(dirname "$0")/with/wants.sh"
. "$tools/checks/with/commands.sh"
. "$tools/checks/with/rooms.sh"
cd "$work" || exit 1
export ORIGINALS=$work/whole GIVEN=$work/given PAR2=$tools/stand_in/par2.py

# Three sets, each with a file that takes parv hours to read.
furnish 8 5 first.txt abcdefgh second.txt ijklmnop
rm room/second.txt
truncate -s 1T room/image
mkdir tree
cp --sparse=always -r room tree/1
cp --sparse=always -r room tree/2
cp --sparse=always -r room tree/3
mkdir packets
truncate -s 1T packets/large.par2

# tells NAME TEXT HOW SIGNAL READERS COMMAND..: wants TEXT from script_signals_ends.py with these arguments.
tells() {
    rm -rf temporary out parts
    mkdir temporary
    TMPDIR=$work/temporary python3 "$tools/checks/script_signals_ends.py" "${@:3}" > text 2> line
    if [ "$(< text)" = "$2" ]; then
        echo "ok: $1: $3 $4"
    else
        fails "$1: $3 $4: $(cat text line)"
    fi
}

# each_tells TEXT HOW SIGNAL: does that for each command, while it has parv read for long.
each_tells() {
    tells "a tree, one by one" "$1" "$2" "$3" 1 "${tree[@]}" tree
    tells "a tree, side by side" "$1" "$2" "$3" 3 "${tree_beside[@]}" 3 tree
    tells "a tree with a large packet file" "$1" "$2" "$3" 1 "${tree[@]}" packets
    tells "slices that are copied" "$1" "$2" "$3" 1 "${rescue_tails[@]}" out room/set.par2 room/image
    tells "slices that are drawn" "$1" "$2" "$3" 1 "${draw_tails[@]}" room/set.par2 room/image
    tells "a repair" "$1" "$2" "$3" 1 "${repair[@]}" room
    tells "a search in parts" "$1" "$2" "$3" 1 "${search[@]}" parts 100 room/set.par2 room/image
    tells "a folder that is watched" "$1" "$2" "$3" 1 "${watch[@]}" room
}
for signal in INT:130 TERM:143 HUP:129; do
    for how in alone all; do
        each_tells "begun ${signal#*:} left 0 kept 0 said 0" $how SIG${signal%:*}
    done
done
each_tells "begun and goes on" ignored SIGHUP

# The signal comes at a call that makes or removes a temporary folder, or makes a file.
if strace -o trace true 2> "$said/strace"; then
    cp "$top/demo/photos.par2" "$top/demo/beach.raw" .
    for call in mkdir openat unlinkat rmdir; do
        for number in 1 2 3 4; do
            [ $call != openat ] || number=$((number * 37))
            for name in rescue_tails draw_tails; do
                declare -n command=$name
                files=(photos.par2 beach.raw)
                [ $name != rescue_tails ] || files=(out "${files[@]}")
                rm -rf temporary out
                mkdir temporary
                {
                    TMPDIR=$work/temporary strace -o trace -e trace=$call -e inject=$call:signal=SIGTERM:when=$number \
                        "${command[@]}" "${files[@]}" > text 2> line
                } 2> "$said/ended"
                status=$?
                # (The command may have ended by then, or not yet have begun.)
                if [[ $status =~ ^(0|1|143)$ ]] && [ -z "$(ls temporary)" ] && ! grep -q Traceback line; then
                    echo "ok: $name: SIGTERM at $call $number: status $status"
                else
                    fails "$name: SIGTERM at $call $number: status $status, $(ls temporary; cat line)"
                fi
                [ $name != rescue_tails ] || "${command[@]}" "${files[@]}" > text 2> line
                [ $name != rescue_tails ] || grep -q '^complete beach.raw$' text \
                    || fails "$name doesn't go on after SIGTERM at $call $number: $(cat text line)"
            done
        done
    done
else
    echo "not run: signals at calls of the system: strace isn't there, or not allowed"
fi
exit $failed
