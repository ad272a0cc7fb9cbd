#!/usr/bin/env bash
# If this fails, parv may end with "out of memory", or with a wrong answer, at large inputs that it promises to read.
#
# Each call in the program that takes memory runs once at its greatest input: long names, texts and arguments, bodies at
# their limit, a million packets, the greatest slice size, lengths and offsets above 2^32 and at the end of the longest
# file, and as many files as the arguments may name. Each run must have its exact text and status, and none may end with
# 8.
. "$(dirname "$0")/with/wants.sh"
cd "$work" || exit 1

# Files with long holes are in a folder in memory. That allows any length, and doesn't keep what was read.
far=$work
[ -w /dev/shm ] && far=$(mktemp -d -p /dev/shm) && trap 'rm -rf "$work" "$far"' EXIT
"$tools/make/greatest.py" . "$far" || exit 1
cp "$top/crates/parv/data/v.par2" v.par2
printf 'XXabcdefgh' > x.bin
printf 'abcdefgh' > g.bin
set=617cdc72ba53d94fe713fea2ae18f776
file=e345eacbe656c0e6fd20ed63cb7b062c
none=00000000000000000000000000000000
whole="set $set size 4 slices 2
complete g.bin
need 0 have 0
result complete"
in_x="x.bin 2 $file 0
x.bin 6 $file 1
end"

# The first of a million packets are those of v.par2, at 0, 92, 220 and 340. Its recovery slice is rejected.
own_from=416
aside_from=$((own_from + 64 * 130000))
other_from=$((aside_from + 68 * 70000))
rows() { seq -f "$1million.par2 %.0f $5" "$2" "$3" $(($2 + $3 * ($4 - 1))); }
{
    printf "million.par2 %s $set\n" "0 92 main" "92 128 filedesc" "220 120 ifsc" "340 76 recvslic"
    rows '' $own_from 64 130000 "64 creator $set"
    rows '' $aside_from 68 70000 "68 recvslic $set"
    rows '' $other_from 64 799996 "64 creator $none"
    echo packets 1000000
} > wanted
gives "a million packets in a file" 0 wanted "" "$parv" packets million.par2
{
    printf '%s\n' "set $set size 4 slices 2" "file $file 8 2 yes g.bin" "others 0" "have 0" "aside million.par2 340 1"
    rows 'aside ' $aside_from 68 70000 1
} > wanted
gives "200,000 packets of a set, of which 70,000 are put aside" 0 wanted "" "$parv" set million.par2
wants "slices of a set in a million packets" 0 "$in_x" "" "$parv" find million.par2 x.bin
wants "the verdict by a million packets" 0 "$whole" "" "$parv" verify million.par2 g.bin
rm million.par2

"$tools/models/list_packets.py" bodies.par2 > wanted
gives "the packets with bodies of 1,048,576 bytes and of four more" 0 wanted "" "$parv" packets bodies.par2
"$tools/models/describe_set.py" bodies.par2 > wanted
[ "$(grep '^creator ' wanted | wc -c) $(grep -c '^aside ' wanted)" = "$((8 + 4 * 1048576 + 1)) 11" ] \
    || fails "the bodies are not as they should be: $(cut -c 1-80 wanted)"
gives "bodies of 1,048,576 bytes and of four more" 0 wanted "" "$parv" set bodies.par2
"$tools/models/describe_set.py" names.par2 > wanted
[ "$(grep -c '^file .\{4096\}' wanted)$(grep -c '^aside .* 5$' wanted)" = 32 ] \
    || fails "the names are not as they should be: $(cut -c 1-80 wanted)"
gives "names of 4,096 bytes, of one more and of 1,048,520" 0 wanted "" "$parv" set names.par2
{
    head -n 1 wanted
    sed -n 's/^file [^ ]* [^ ]* \([^ ]*\) [^ ]* \(.*\)/missing \2 0\/\1/p' wanted
    printf '%s\n' "need 4 have 0" "result impossible"
} > states
gives "the states of files of such names" 2 states "" "$parv" verify names.par2
"$tools/models/describe_set.py" others.par2 > wanted
grep -q '^others 32767$' wanted || fails "the IDs are not as they should be: $(cat wanted)"
gives "a Main packet with 32,768 IDs" 0 wanted "" "$parv" set others.par2

# Paths of 4,000 bytes, of which 195 bytes are shown by four characters each; and a folder whose path has 4,000 bytes.
times() { printf "$2%.0s" $(seq "$1"); }
path=$(times 1900 ./)$(times 195 '\t')x.bin
other=${path%x.bin}.par2
shown=$(times 1900 ./)$(times 195 '\\x09')
cp g.bin "$path"
cp v.par2 "$other"
wants "slices in a file with a name of 4,000 bytes" 0 "${shown}x.bin 0 $file 0
${shown}x.bin 4 $file 1
end" "" "$parv" find "$other" "$path"
wants "a file that has a name of 4,000 bytes" 1 "set $set size 4 slices 2
renamed g.bin from ${shown}x.bin
need 0 have 0
result possible" "" "$parv" verify "$other" "$path"
wants "packets of a file with a name of 4,000 bytes" 0 "$shown.par2 0 92 main $set
$shown.par2 92 128 filedesc $set
$shown.par2 220 120 ifsc $set
$shown.par2 340 76 recvslic $set
packets 4" "" "$parv" packets "$other"
gcc -shared -fPIC -O1 -o disturb.so "$tools/disturb/disturb.c" -ldl || exit 1
wants "a read that fails of a file with a name of 4,000 bytes" 6 "" "parv: read fault in $shown.par2" \
    env FAIL_READ=1 LD_PRELOAD="$PWD/disturb.so" "$parv" packets "$other"
mkdir d
cp g.bin d
base=d$(times 1999 /.)/
wants "a base of ${#base} bytes" 0 "$whole" "" "$parv" verify -B "$base" v.par2 "${base}g.bin"
long=$(times 131066 a)
wants "a base of 131,071 bytes" 0 "$whole" "" "$parv" verify -B "aaaaa$long" v.par2 g.bin
wants "an argument of 131,071 bytes in a message" 6 "" "parv: cannot open $(times 131066 '\\x09').par2" \
    "$parv" packets "$(times 131066 '\t').par2"
wants "a scanned file's argument of 131,071 bytes in a message" 6 "" "parv: cannot open aaaaa$long" \
    "$parv" find v.par2 "aaaaa$long"
wants "an option's value of 131,071 bytes" 3 "" "parv: bad value" "$parv" find --cursor "aaaaa$long" v.par2 x.bin

# 100,000 arguments, of which at most 65,535 may be files.
words=()
for _ in $(seq 100000); do words+=(-q); done
if env true "${words[@]}" 2> "$said/words"; then
    wants "100,000 words, all but three -q" 0 "" "" "$parv" verify "${words[@]:3}" v.par2 g.bin
    wants "100,000 files" 3 "" "parv: bad value" "$parv" find v.par2 "${words[@]//-q/n}"
else
    echo "not run: 100,000 words: $(head -c 200 "$said/words")"
fi
gcc -shared -fPIC -O2 -o many_open.so "$tools/bench/many_open.c" || exit 1
many=(env LD_PRELOAD="$PWD/many_open.so" "$parv")
others=()
for _ in $(seq 65533); do others+=(n); done
printf none > n
if env true "${others[@]}" 2> "$said/words"; then
    wants "the last of 65,535 files, searched" 0 "$in_x" "" "${many[@]}" find v.par2 "${others[@]}" x.bin
    mark=$(PYTHONPATH=$tools python3 -c 'from models.cursor_texts import mark_of
print(mark_of([b"n"] * 65533 + [b"x.bin"], [4] * 65533 + [10]))')
    wants "a cursor in the last of 65,535 files" 0 "x.bin 2 $file 0
cursor 2:$set:$mark:65533:2:1" "" \
        "${many[@]}" find --limit 1 v.par2 "${others[@]}" x.bin
    wants "the last of 65,535 files, verified" 0 "$whole" "" "${many[@]}" verify v.par2 "${others[@]}" g.bin
    wants "65,536 files" 3 "" "parv: bad value" "${many[@]}" find v.par2 "${others[@]}" n x.bin
    packets=("${others[@]/n/v.par2}" v.par2 v.par2)
    wants "65,535 packet files" 2 "set $set size 4 slices 2
missing g.bin 0/2
need 2 have 0
result impossible" "" env PACKET_FILES_TOO=1 "${many[@]}" verify "${packets[@]}"
else
    echo "not run: 65,535 files: $(head -c 200 "$said/words")"
fi

# 1,100 files of different lengths: the one of 1,099 bytes is damaged, and the one of 1,100 has a different name.
lengths=$("$tools/models/describe_set.py" lengths.par2 | sed -n 1p)
printf X | dd of=lengths/1099 conv=notrunc status=none
mv lengths/1100 lengths/x
{
    echo "$lengths"
    seq -f "complete %04.0f" 1098
    printf '%s\n' "damaged 1099 0/1" "renamed 1100 from x" "need 1 have 0" "result impossible"
} > wanted
gives "files of 1,100 lengths" 2 wanted "" "$parv" verify -B lengths lengths.par2 lengths/*
wants "too many tails by 1,100 lengths" 4 "" "parv: no usable set: too many tails" \
    "$parv" verify --tails -B lengths lengths.par2 lengths/*

# Files whose lengths are near 2^32, and one of 2^15 times 2^28 bytes, the greatest length whose slices can be numbered.
"$tools/models/describe_set.py" wide.par2 > wanted
[ "$(cut -d ' ' -f 3 wanted | sed -n 2,5p | xargs)" = "4294967295 4294967296 4294967297 4398046511104" ] \
    || fails "the lengths are not as they should be: $(cat wanted)"
gives "files of lengths about 2^32" 0 wanted "" "$parv" set wide.par2
long_set=$("$tools/models/describe_set.py" long.par2 | sed -n '1s/^set \([^ ]*\) .*/\1/p')
wants "a file of 2^43 bytes in 32,768 slices" 0 "set $long_set size 268435456 slices 32768
file $none 8796093022208 32768 yes long
others 0
have 0" "" "$parv" set long.par2
wants "a file of 2^43 bytes that is missing" 2 "set $long_set size 268435456 slices 32768
missing long 0/32768
need 32768 have 0
result impossible" "" "$parv" verify long.par2 x.bin
wants "a file of 2^43 bytes and one more" 4 "" "parv: no usable set: too many slices" "$parv" set longer.par2
# This file is 2^32 bytes longer than g.bin, and its slices are at its beginning.
cd "$far" || exit 1
mkdir long
cp "$work/g.bin" long
truncate -s 4294967304 long/g.bin
wants "a file that is longer by 2^32" 1 "set $set size 4 slices 2
damaged g.bin 2/2
need 0 have 0
result possible" "" "$parv" verify -B long "$work/v.par2" long/g.bin

# Slices of 268,435,456 bytes. Nothing follows the last one, which is short; later two bytes follow it.
wants "slices of 268,435,456 bytes" 0 "large.bin 2 $file 0
large.bin 268435458 $file 1
end" "" "$parv" find "$work/large.par2" large.bin
large=$("$tools/models/describe_set.py" "$work/large.par2" | sed -n 1p)
found="$large
missing large 2/2
need 0 have 0
result possible"
wants "the verdict on slices of 268,435,456 bytes" 1 "$found" "" "$parv" verify "$work/large.par2" large.bin
printf YY >> large.bin
wants "the verdict on slices of 268,435,456 bytes, with --tails" 1 "$found" "" \
    "$parv" verify --tails "$work/large.par2" large.bin
rm large.bin

# A packet of more than 2^32 bytes, and the packets after it.
wants "a packet of 4,294,967,364 bytes" 0 "far.par2 0 4294967364 recvslic $set
far.par2 4294967364 92 main $set
far.par2 4294967456 128 filedesc $set
far.par2 4294967584 120 ifsc $set
far.par2 4294967704 76 recvslic $set
packets 5" "" "$parv" packets far.par2
truncate -s 4294967364 hole.par2
cat "$work/v.par2" >> hole.par2
wants "a packet that is put aside behind 2^32" 0 "set $set size 4 slices 2
file $file 8 2 yes g.bin
others 0
have 0
aside hole.par2 4294967704 1" "" "$parv" set hole.par2

# The last byte of the longest file that the file system allows.
for length in 9223372036854775807 17592186040320 8796093018112 2199023251456; do
    truncate -s $length last.bin 2> "$said/length" && break
done
printf i | dd of=last.bin bs=1 seek=$((length - 1)) conv=notrunc status=none
one=$("$tools/models/describe_set.py" "$work/one.par2" | sed -n '1s/^set \([^ ]*\) .*/\1/p')
id=01010101010101010101010101010101
mark=$("$tools/models/cursor_texts.py" last.bin)
wants "a sighting at $((length - 1))" 0 "last.bin $((length - 1)) $id 0
end" "" "$parv" find --cursor "$one:0:$((length - 9)):0" "$work/one.par2" last.bin
wants "a cursor behind a sighting at $((length - 1))" 0 "last.bin $((length - 1)) $id 0
cursor 2:$one:$mark:0:$((length - 1)):1" "" \
    "$parv" find --limit 1 --cursor "2:$one:$mark:0:$((length - 9)):0" "$work/one.par2" last.bin
wants "on from there" 0 end "" "$parv" find --cursor "2:$one:$mark:0:$((length - 1)):1" "$work/one.par2" last.bin
exit $failed
