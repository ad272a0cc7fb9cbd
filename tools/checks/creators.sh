#!/usr/bin/env bash
# If this fails, parv may misread sets that were made by another program than par2cmdline.
#
# Sets are laid out as different creators lay them out: they differ in the order and number of packets, in optional and
# packed packets, in files that aren't recoverable, in exponents and names, and in the bytes between packets. parv must
# agree with the independent models over whole and damaged files, and with texts that were worked out by hand.
. "$(dirname "$0")/with/wants.sh"
cd "$work" || exit 1
"$tools/make/creator_sets.py" . || exit 1
"$tools/make/creator_sets.py" read || exit 1

# gathers: collects the packet files of the folder in `packets`, and the other files in `files`.
gathers() {
    mapfile -t packets < <(find . -type f -iname '*.par2' -printf '%P\n' | LC_ALL=C sort)
    mapfile -t files < <(find . -type f ! -iname '*.par2' -printf '%P\n' | LC_ALL=C sort)
}

# is_read WHAT: wants the matches and states of parv to be those of the models, over the collected files.
is_read() {
    local tails status
    for tails in "" --tails; do
        # shellcheck disable=SC2086 # (these are words)
        "$tools/models/find_slices.py" $tails "${packets[@]}" "${files[@]}" > "$said/sightings"
        # shellcheck disable=SC2086 # (these are words)
        gives "$1: the sightings${tails:+, with $tails}" 0 "$said/sightings" "" \
            "$parv" find $tails "${packets[@]}" "${files[@]}"
        # shellcheck disable=SC2086 # (these are words)
        "$tools/models/tell_states.py" $tails "${packets[@]}" "${files[@]}" > "$said/states"
        status=$?
        # shellcheck disable=SC2086 # (these are words)
        gives "$1: the states${tails:+, with $tails}" $status "$said/states" "" \
            "$parv" verify $tails "${packets[@]}" "${files[@]}"
    done
}

# Each set is read as it is, and then damaged: one more file has a byte and then the bytes of all files, and the first
# file is removed.
for set in read/*; do
    cd "$work/$set" || exit 1
    set=${set#*/}
    gathers
    "$tools/models/list_packets.py" "${packets[@]}" > "$said/packets"
    gives "$set: the packets" 0 "$said/packets" "" "$parv" packets "${packets[@]}"
    if [ "$set" != packed ]; then
        "$tools/models/describe_set.py" "${packets[@]}" > "$said/set"
        gives "$set: the set" 0 "$said/set" "" "$parv" set "${packets[@]}"
        is_read "$set"
        { printf '?'; cat "${files[@]}"; } > joined
        rm "${files[0]}"
        gathers
        is_read "$set, damaged"
    fi
done

# laid FILE ID LENGTH:KIND ..: prints the lines of packets that follow one another in FILE. The kind `-` is a gap.
laid() {
    local file=$1 id=$2 at=0 part
    shift 2
    for part in "$@"; do
        [ "${part#*:}" = - ] || echo "$file $at ${part%:*} ${part#*:} $id"
        at=$((at + ${part%:*}))
    done
}
# lists NAME LINES WORDS ..: wants these lines from `packets` with these arguments.
lists() {
    local name=$1 lines=$2
    shift 2
    wants "$name" 0 "$lines
packets $(wc -l <<< "$lines")" "" "$parv" packets "$@"
}
# describes NAME TEXT WORDS ..: wants this text from `set` with these arguments.
describes() {
    local name=$1 text=$2
    shift 2
    wants "$name" 0 "$text" "" "$parv" set "$@"
}

three=0c6fa42c1b8af12ddb9d903ceed04cb6
files_of_three="file 8518967ec7d76742acb44935fc8d392c 23 3 yes first.txt
file dea945f699b75312d752d703ebef09ee 8 1 yes second.txt
file 93f4e1c4286892b73e25016cb42cc5f9 5 1 yes third.dat
others 0"
lines_of_three="set $three size 8 slices 5
$files_of_three"
text="creator Created by par2cmdline version 0.8.1."
main=124:main
descs="132:filedesc 132:filedesc 132:filedesc"
sums="140:ifsc 100:ifsc 100:ifsc"
slice=76:recvslic
creator=104:creator

# In the three files, each packet except recovery slices and the creator occurs once, twice and three times, beside one,
# two and four recovery slices.
cd "$work/interleaved" || exit 1
# shellcheck disable=SC2086 # (these are words)
lists "packets that are interleaved" "$(laid set.par2 $three $main $descs $sums $creator
laid set.vol0+1.par2 $three $slice $main $descs $sums $creator
laid set.vol1+2.par2 $three $slice $main $descs $sums $slice $main $descs $sums $creator
laid set.vol3+4.par2 $three $slice $main $descs 140:ifsc $slice 100:ifsc 100:ifsc $main 132:filedesc 132:filedesc \
    $slice 132:filedesc $sums $main $slice $descs $sums $creator)" \
    set.par2 set.vol0+1.par2 set.vol1+2.par2 set.vol3+4.par2
describes "their set" "$lines_of_three
have 7
$text" set.par2 set.vol0+1.par2 set.vol1+2.par2 set.vol3+4.par2
describes "the same files in another order" "$lines_of_three
have 7
$text" set.vol3+4.par2 set.vol0+1.par2 set.par2 set.vol1+2.par2
for have in 0 1 2 4; do
    volume=$(echo set.vol?+$have.par2)
    [ $have = 0 ] && volume=set.par2
    describes "$volume alone" "$lines_of_three
have $have
$text" "$volume"
done
wants "their verdict, without a file" 1 "set $three size 8 slices 5
missing first.txt 0/3
complete second.txt
complete third.dat
need 3 have 4
result possible" "" "$parv" verify set.vol3+4.par2 second.txt third.dat

cd "$work/at_the_end" || exit 1
turned=82414d2385e3ddcac437b3c91dc6795a
# shellcheck disable=SC2086 # (these are words)
lists "packets that stand at the end again" "$(laid set.vol00+02.PAR2 $turned 76:creator $slice $slice \
    $main $descs $sums $main $descs $sums $main $descs $sums
laid set.vol02+03.PAR2 $turned 76:creator $slice $slice $slice $sums $descs $main $sums $descs $main)" \
    set.vol00+02.PAR2 set.vol02+03.PAR2
describes "a set whose Main lists its files in another order" "set $turned size 8 slices 5
$files_of_three
have 5
creator One of 2004" set.par2 set.vol00+02.PAR2 set.vol02+03.PAR2

# File names, comments of both kinds, two input slices and the checksums of a recovery file: parv looks into none of
# them.
cd "$work/optional" || exit 1
coffee=be66a32c116a15f6381b8a97476060ea
beside="96:unknown 76:unknown 100:unknown 84:unknown 96:unknown 96:unknown 120:unknown"
# shellcheck disable=SC2086 # (these are words)
lists "optional packets are unknown" "$(laid set.par2 $coffee 92:main 128:filedesc 120:ifsc $beside $creator
laid set.vol0+1.par2 $coffee $beside $slice $creator 92:main 128:filedesc 120:ifsc)" set.par2 set.vol0+1.par2
describes "a set with optional packets has none aside" "set $coffee size 8 slices 2
file 0ab83ea6d9bdda0979a8851548589c8b 16 2 yes caf\\xe9.txt
others 0
have 1
$text" set.par2 set.vol0+1.par2
wants "the name is that of the description" 1 "set $coffee size 8 slices 2
renamed caf\\xe9.txt from caf\\xc3\\xa9.txt
need 0 have 1
result possible" "" "$parv" verify set.par2 set.vol0+1.par2 café.txt
wants "slices in packets are not found" 2 "set $coffee size 8 slices 2
missing caf\\xe9.txt 0/2
need 2 have 1
result impossible" "" "$parv" verify set.par2 set.vol0+1.par2

# A packed Main packet isn't taken for a Main packet, and a packed recovery slice isn't taken for a recovery slice.
cd "$work/packed" || exit 1
# shellcheck disable=SC2086 # (these are words)
lists "packed packets are unknown" \
    "$(laid set.par2 d6b23b1fcf57d8104e8b423eb6fa2d24 132:unknown $descs $sums $creator 76:unknown 76:unknown)" set.par2
for command in set find verify; do
    wants "no set with packed packets alone: $command" 4 "" "parv: no usable set: no main" \
        "$parv" $command set.par2 first.txt second.txt third.dat
done

# A description and checksums don't make a file recoverable that the Main packet lists as not recoverable.
cd "$work/others" || exit 1
set=c8ef204899826f5dbadfe1022e333c8f
describes "files that aren't recoverable" "set $set size 8 slices 3
file 8518967ec7d76742acb44935fc8d392c 23 3 yes first.txt
others 3
have 2
$text" set.vol0+2.par2 set.par2
wants "a file that isn't recoverable has no slices" 0 end "" "$parv" find set.par2 plain.txt
wants "a file that isn't recoverable isn't needed" 0 "set $set size 8 slices 3
complete first.txt
need 0 have 2
result complete" "" "$parv" verify set.par2 set.vol0+2.par2 first.txt

# Two of seven recovery slices have the exponent 100.
cd "$work/gaps" || exit 1
describes "exponents with gaps" "$lines_of_three
have 5
$text" set.par2 set.vol*.par2
wants "exponents with gaps are enough" 1 "need 5 have 5
result possible" "" "$parv" verify -q set.vol*.par2
wants "without a volume they aren't" 2 "need 5 have 4
result impossible" "" "$parv" verify -q set.vol7+65528.par2 set.vol32767+1.par2

cd "$work/bare" || exit 1
describes "volumes without the index and without a creator" "$lines_of_three
have 2" set.vol0+1.par2 set.vol1+1.par2
describes "a volume whose Main comes last" "$lines_of_three
have 1" set.vol1+1.par2
wants "a volume without Main" 4 "" "parv: no usable set: no main" "$parv" set set.vol0+1.par2

cd "$work/names" || exit 1
names=17857142afb31f977196f335c34af348
describes "folders by either slash, and names with no zeros to seven" "set $names size 8 slices 9
file 7186bb46f6318d8c41c0de6f9774a918 1 1 yes ab
file 546d2c389ec50590171d335e8e725232 1 1 yes a
file e3e2850ca4d8ce3ec2cba6b975c5d340 1 1 yes abcdefgh
file 34c523c1f6b76d051a2fe2170e7eb653 1 1 yes abcd
file 1b6e19bf5222db546af432a532ed557c 1 1 yes abcdef
file 817063649c44fcfd57cc4fbaeb7d8e89 1 1 yes sub\\\\two.bin
file 0ae7f8c4e6b4532f32c4192dbd89fc9c 1 1 yes sub/one.bin
file 47c12db81cc7315ce4e848278ae3b29d 1 1 yes abcde
file 2bbb420cd756192eb1746dab724d32c9 1 1 yes abc
others 0
have 0
$text" set.par2
# states NAME STATUS LINE RESULT FILE: wants LINE about the file `sub\two.bin` of the set, and this result, if FILE is
# scanned for it.
states() {
    wants "$1" "$2" "set $names size 8 slices 9
complete ab
complete a
complete abcdefgh
complete abcd
complete abcdef
$3
complete sub/one.bin
complete abcde
complete abc
need 0 have 0
result $4" "" "$parv" verify set.par2 a ab abc abcd abcde abcdef abcdefgh sub/one.bin "$5"
}
states "a slash is no backslash" 1 'renamed sub\\two.bin from sub/two.bin' possible sub/two.bin
mv sub/two.bin 'sub\two.bin'
states "a name with a backslash" 0 'complete sub\\two.bin' complete 'sub\two.bin'

cd "$work/long_creator" || exit 1
{
    printf '%s\nhave 0\ncreator ' "$lines_of_three"
    for _ in $(seq 2500); do printf '%s' 'A creator\xc2\xa0of sets,\x0d\x0a\x09a \\ in each line\x0a'; done
    echo
} > wanted
gives "a creator with a long text, behind one of zeros" 0 wanted "" "$parv" set set.par2

# The first Main packet belongs to the second set.
cd "$work/mixed" || exit 1
two=b4d124697f83e22e6441bc4814f73cf1
both="132:$three:filedesc 108:$two:main 132:$three:filedesc 132:$two:filedesc 132:$three:filedesc 128:$two:filedesc
140:$three:ifsc 100:$two:ifsc 100:$three:ifsc 120:$two:ifsc 100:$three:ifsc 76:$two:recvslic
76:$three:recvslic 76:$two:recvslic 76:$three:recvslic 76:$two:recvslic
104:$three:creator 76:$two:creator 124:$three:main"
lines=$(at=0
    for part in $both; do
        IFS=: read -r length id kind <<< "$part"
        echo "set.par2 $at $length $kind $id"
        at=$((at + length))
    done)
lists "packets of two sets" "$lines" set.par2
for id in $three $two; do
    lists "the packets of one of them, ${id:0:4}" "$(grep "$id" <<< "$lines")" --set "$id" set.par2
done
fourth="file dea945f699b75312d752d703ebef09ee 8 1 yes second.txt
file ad322ca3337e7871a3af8e9d7d51fffe 12 2 yes fourth"
describes "the set of the first Main of two" "set $two size 8 slices 3
$fourth
others 0
have 3
creator Another one" set.par2
describes "the other one" "$lines_of_three
have 2
$text" --set $three set.par2
wants "the verdict on the other one" 2 "set $three size 8 slices 5
missing first.txt 0/3
complete second.txt
complete third.dat
need 3 have 2
result impossible" "" "$parv" verify --set $three set.par2 second.txt fourth third.dat

# Between the packets are a line, an exclamation mark, zeros up to the next multiple of 512, the magic, beginnings of
# packets, and a packet in which one byte was changed.
cd "$work/junk" || exit 1
# shellcheck disable=SC2086 # (these are words)
lists "packets between other bytes" "$(laid set.par2 $three 20:- $main 1:- $descs 483:- 140:ifsc 8:- 100:ifsc \
    99:- 100:ifsc 76:- $slice 7:- $creator)" set.par2
describes "their set alone" "$lines_of_three
have 1
$text" set.par2
exit $failed
