#!/usr/bin/env bash
# If this fails, a set could make parv open a file of its choice, because a name in the set is a path to that file.
#
# Whatever is at such a path, parv must not open it. It opens only files that the arguments name; it compares the names
# in the set with these, and shows them. A library records each file that it looks at or opens.
. "$(dirname "$0")/with/wants.sh"
mkdir "$work/below"
cd "$work/below" || exit 1
gcc -shared -fPIC -O1 -o "$work/disturb.so" "$tools/disturb/disturb.c" -ldl || exit 1
recorded=(env CALLS="$work/calls" LD_PRELOAD="$work/disturb.so" "$parv")

# one_file NAME: writes that.par2, the set of one file of this name with the content abcdefgh, and prints its ID.
one_file() {
    PYTHONPATH=$tools PYTHONDONTWRITEBYTECODE=1 python3 "$tools/checks/names_set.py" "$1"
}

# passes WHAT: wants the file at $place, which no argument names, to be neither verified nor searched, nor opened.
passes() {
    wants "$1 at $place is missing" 2 "$line
missing $name 0/2
need 2 have 0
result impossible" "" "${recorded[@]}" verify that.par2
    opens_none "$1 at $place: verify"
    wants "$1 at $place is not searched" 0 end "" "${recorded[@]}" find that.par2
    opens_none "$1 at $place: find"
}

# opens_none NAME: wants the recorded calls to concern that.par2, whose number is 1, and no other file.
opens_none() {
    if [ "$(cut -d ' ' -f 2 "$work/calls" | LC_ALL=C sort -u | xargs)" = "1 that.par2" ]; then
        echo "ok: nothing is opened: $1"
    else
        fails "something is opened: $1: $(tr '\n' ';' < "$work/calls")"
    fi
}

for name in ../g.bin "$work/g.bin" g.bin; do
    place=${name/#"$work"\//a whole path to }
    line="set $(one_file "$name") size 4 slices 2"
    passes "no file"

    printf 'abcdefgh' > "$name"
    passes "a file with the bytes"
    wants "the file at $place where a word names it" 0 "$line
complete $name
need 0 have 0
result complete" "" "$parv" verify that.par2 "$name"
    chmod 000 "$name"
    passes "a file that may not be read"
    rm -f "$name"

    mkfifo "$name"
    passes "a FIFO"
    rm "$name"
done

# With a base, the name of a file is what follows the base in its argument. The file that the argument names is opened.
mkdir folder
printf 'abcdefgh' > folder/g.bin
printf 'other' > g.bin
wants "what a word names, and not what its name behind the base does" 0 "set $(one_file g.bin) size 4 slices 2
complete g.bin
need 0 have 0
result complete" "" "$parv" verify -B folder that.par2 folder/g.bin

"$tools/make/packet_files.py" sets > made || exit 1
: > $'../g\n.bin'
wants "an empty file whose name has a line feed is missing" 1 \
    "$("$tools/models/describe_set.py" sets/many_packets.par2 | sed -n 1p)
missing ../g\\x0a.bin 0/0
need 0 have 2
result possible" "" "$parv" verify sets/many_packets.par2
exit $failed
