#!/usr/bin/env bash
# If this fails, a search that you resume with --cursor may go on over changed files, and then miss slices or report
# them twice.
#
# A search is cut in two, and the files change in between. A cursor of version 2 is rejected, before any scanned file is
# read, if a name, a length or the order of the files has changed. Further tests: changes that the fingerprint of the
# file list doesn't see; cursors of version 1, which go on over any files; and which error comes first.
. "$(dirname "$0")/with/wants.sh"
cd "$work" || exit 1
cp "$top/crates/parv/data/v.par2" v.par2
cp v.par2 w.par2
set=617cdc72ba53d94fe713fea2ae18f776
file=e345eacbe656c0e6fd20ed63cb7b062c
mkdir d
printf 'XXabcdefgh' | tee x.bin > d/x.bin
printf 'ZZZefgh' > y.bin

# mark NAME LENGTH ..: prints the fingerprint that `find` makes of these names and lengths: an MD5, with each number as
# eight bytes.
eight() {
    local shift
    for shift in 0 8 16 24 32 40 48 56; do printf '%b' "\\0$(printf %03o $(($1 >> shift & 255)))"; done
}
mark() {
    while [ $# -gt 0 ]; do
        eight "$(printf %s "$1" | wc -c)"
        printf %s "$1"
        eight "$2"
        shift 2
    done | md5sum | cut -c 1-32
}
same() {
    if [ "$2" = "$3" ]; then echo "ok: $1"; else fails "$1: $2 and not $3"; fi
}
one=53e12607a1d11cab6b927147969fc38c
same "the mark of one file" "$(mark x.bin 10)" $one
same "the mark of no files" "$(mark)" d41d8cd98f00b204e9800998ecf8427e
two=$(mark x.bin 10 y.bin 7)
same "the mark of two files, by the independent reading" "$("$tools/models/cursor_texts.py" x.bin y.bin)" "$two"

first="x.bin 2 $file 0"
rest="x.bin 6 $file 1
y.bin 3 $file 1
end"
from=2:$set:$two:0:2:1
wants "the first part" 0 "$first
cursor $from" "" "$parv" find --limit 1 v.par2 x.bin y.bin
goes_on() {
    local name=$1 text=$2
    shift 2
    wants "$name" 0 "$text" "" "$parv" find --cursor "$@"
}
goes_on "the second part" "$rest" "$from" v.par2 x.bin y.bin
goes_on "the second part, the packet file behind" "$rest" "$from" x.bin y.bin v.par2
goes_on "the second part, by another packet file of the set" "$rest" "$from" w.par2 x.bin y.bin
goes_on "the second part with --tails" "$rest" "$from" --tails v.par2 x.bin y.bin
wants "the second part, cut too" 0 "x.bin 6 $file 1
cursor 2:$set:$two:0:6:2" "" "$parv" find --limit 1 --cursor "$from" v.par2 x.bin y.bin
goes_on "a cursor behind all files" end 2:$set:"$two":4294967295:18446744073709551615:4294967295 v.par2 x.bin y.bin

# If only a read of a scanned file could show the change, disturb.so reports that only the packet file is read.
gcc -shared -fPIC -O1 -o disturb.so "$tools/disturb/disturb.c" -ldl || exit 1
reads() {
    rm -f report
    REPORT=report LD_PRELOAD=$PWD/disturb.so "$parv" "$@" > text 2> line
    cut -d " " -f 8 report
}
alone=$(reads set v.par2)
[ "$alone" -gt 0 ] || fails "the packet file is read $alone times"
other="parv: cursor of other files"
refused() {
    local name=$1 count
    shift
    wants "refused: $name" 3 "" "$other" "$parv" find --cursor "$@"
    count=$(reads find --cursor "$@")
    [ "$count" = "$alone" ] || fails "$name: $count reads, and $alone of the packet file alone"
}
cp x.bin z.bin
refused "a file renamed" "$from" v.par2 z.bin y.bin
refused "the second file renamed" "$from" v.par2 x.bin z.bin
refused "another order" "$from" v.par2 y.bin x.bin
refused "a file less" "$from" v.par2 x.bin
refused "a file more" "$from" v.par2 x.bin y.bin z.bin
refused "a file twice" "$from" v.par2 x.bin x.bin y.bin
refused "no files" "$from" v.par2
refused "another name of the same file" "$from" v.par2 ./x.bin y.bin
refused "the folder before a name, without -B" "$from" v.par2 d/x.bin y.bin
refused "another mark" 2:$set:$one:0:2:1 v.par2 x.bin y.bin
refused "a limit too" "$from" --limit 1 v.par2 y.bin
refused "a place that no file has" 2:$set:$one:9:9:9 v.par2 x.bin y.bin
printf 'i' >> x.bin
refused "a file grown" "$from" v.par2 x.bin y.bin
truncate -s 9 x.bin
refused "a file made shorter" "$from" v.par2 x.bin y.bin
: > x.bin
refused "a file emptied" "$from" v.par2 x.bin y.bin

# Changes that the fingerprint doesn't see.
printf 'XXXXXXabcd' > x.bin
goes_on "not seen: another file of this name and length" "x.bin 6 $file 0
y.bin 3 $file 1
end" "$from" v.par2 x.bin y.bin
printf 'XXabcdefgh' > x.bin
touch -d '2001-01-01' x.bin
goes_on "not seen: another time" "$rest" "$from" v.par2 x.bin y.bin
goes_on "not seen: another folder, with -B" "$rest" "$from" -B d v.par2 d/x.bin y.bin
goes_on "not seen: -B that takes off nothing" "$rest" "$from" -B d v.par2 x.bin y.bin
bare="d/x.bin 2 $file 0
cursor 2:$set:$(mark d/x.bin 10):0:2:1"
wants "a first part with a folder" 0 "$bare" "" "$parv" find --limit 1 v.par2 d/x.bin
refused "the same files, with -B the second time" 2:$set:"$(mark d/x.bin 10)":0:2:1 -B d v.par2 d/x.bin
wants "a first part with -B" 0 "$first
cursor 2:$set:$one:0:2:1" "" "$parv" find --limit 1 -B d/ v.par2 d/x.bin

# The fingerprint takes names byte by byte, and not as they are shown.
odd=$'o d\t\\\303\251%s\n.bin'
cp x.bin "$odd"
shown='o d\x09\\\xc3\xa9%s\x0a.bin'
wants "a name that isn't shown as it is" 0 "$shown 2 $file 0
cursor 2:$set:$(mark "$odd" 10):0:2:1" "" "$parv" find --limit 1 v.par2 "$odd"
goes_on "on with such a name" "$shown 6 $file 1
end" 2:$set:"$(mark "$odd" 10)":0:2:1 v.par2 "$odd"
# Lengths separate the names, and a length has eight bytes.
refused "two names that are one, joined" 2:$set:"$(mark x 0 .bin 10)":0:2:1 v.par2 x.bin
truncate -s 5G large.bin
goes_on "a file of 5 GiB, behind its end" end 2:$set:"$(mark large.bin 5368709120)":0:5368709120:0 v.par2 large.bin
refused "a file shorter by 4 GiB" 2:$set:"$(mark large.bin 1073741824)":0:5368709120:0 v.par2 large.bin
wants "no files, and a cursor of none" 0 end "" "$parv" find --cursor 2:$set:"$(mark)":0:0:0 v.par2

# Version 1: the same cursor for all files.
for words in "x.bin y.bin" "-B d d/x.bin y.bin"; do
    # shellcheck disable=SC2086 # (these are words)
    goes_on "version 1, over $words" "$rest" $set:0:2:1 v.par2 $words
done
goes_on "version 1, over other files" "y.bin 3 $file 1
x.bin 2 $file 0
x.bin 6 $file 1
end" $set:0:2:1 v.par2 y.bin x.bin

# The error that is reported, also if there are two.
none=00000000000000000000000000000000
another="parv: cursor of another set"
wants "another set and other files" 3 "" "$another" "$parv" find --cursor 2:$none:$one:0:2:1 v.par2 y.bin
wants "another set" 3 "" "$another" "$parv" find --cursor 2:$none:"$two":0:2:1 v.par2 x.bin y.bin
wants "no set and other files" 4 "" "parv: no usable set: no main" "$parv" find --cursor 2:$set:$one:0:2:1 --set $none v.par2 y.bin
wants "a file that isn't there" 6 "" "parv: cannot open none" "$parv" find --cursor 2:$set:$one:0:2:1 v.par2 none
"$tools/make/tail_sets.py" tails || exit 1
many=$("$tools/models/describe_set.py" tails/257.par2 | sed -n '1s/^set \([^ ]*\) .*/\1/p')
wants "too many tails and other files" 3 "" "$other" \
    "$parv" find --tails --cursor "2:$many:$one:0:0:0" tails/257.par2 x.bin y.bin
wants "too many tails" 4 "" "parv: no usable set: too many tails" \
    "$parv" find --tails --cursor "2:$many:$one:0:0:0" tails/257.par2 x.bin

# Texts that aren't cursors.
upper=${set^^}
for text in "" 2 2: ::: 3:$set:$one:0:2:1 1:$set:$one:0:2:1 02:$set:$one:0:2:1 22:$set:$one:0:2:1 :$set:$one:0:2:1 \
    $set:$one:0:2:1 2:$set:0:2:1 2:$set::0:2:1 2::$one:0:2:1 2:$set:$one:0:2 2:$set:$one:0:2: 2:$set:$one:0:2:1: \
    2:$set:$one:0:2:1:0 2:$set:$one:$one:0:2:1 2:2:$set:$one:0:2:1 "2:$set:$one:0:2:1 " " 2:$set:$one:0:2:1" \
    "2:$set:$one:0:2:1"$'\n' 2:"$upper":$one:0:2:1 2:$set:${one^^}:0:2:1 2:$set:${one%?}:0:2:1 2:$set:${one}0:0:2:1 \
    2:${set%?}:$one:0:2:1 2:$set:${one%?}g:0:2:1 2:$set:$one:00:2:1 2:$set:$one:0:02:1 2:$set:$one:0:2:01 \
    2:$set:$one:+0:2:1 2:$set:$one:0:2:-1 2:$set:$one:4294967296:2:1 2:$set:$one:0:18446744073709551616:1 \
    2:$set:$one:0:2:4294967296 2:0:2:1 2:$set 2:$set:$one 2:$set:$one:0 2:$set:$one::0:2:1 2:$set:$one::2:1 \
    2:$set:$one:0::1 2:$set:2:$one:0:2:1 0:$set:$one:0:2:1 +2:$set:$one:0:2:1 "2 :$set:$one:0:2:1" \
    "2: $set:$one:0:2:1" "2:$set: ${one%?}:0:2:1" "2:$set:$one:0: 2:1" 1:$set:0:2:1 $set $set:0:2: $set:0:2:1: \
    "$upper":0:2:1 ${set%?}:0:2:1 ${set}0:0:2:1 $set:0:02:1 $set:0:+2:1 "$set:0:2:1 " " $set:0:2:1" $set:0:2 \
    $set:0:2:1:0 $set:4294967296:2:1 $set:0:18446744073709551616:1 $set:0:340282366920938463463374607431768211456:1 \
    $set:0:2:4294967296 "cursor 2:$set:$one:0:2:1"; do
    wants "no cursor: ${text@Q}" 3 "" "parv: bad value" "$parv" find --cursor "$text" v.par2 x.bin
done
long=2:$set:$one:4294967295:18446744073709551615:4294967295
same "the longest cursor has 110 bytes" ${#long} 110
goes_on "the longest cursor" end $long v.par2 x.bin
exit $failed
