#!/usr/bin/env bash
# If this fails, parv may give wrong answers for large sets or long files.
#
# It compares parv with the models on: a packet file of 5 MB, 100 and 300 packet files at once, sets of 3,000 and of
# 32,768 files, 40,000 recovery slices, twenty scanned files and a long one, 3,000 scanned files (600 if no more may be
# open), and packets and slices after 4 GiB of zeros. It also counts how often a file is read and a text is written.
. "$(dirname "$0")/with/wants.sh"
cd "$work" || exit 1

"$tools/make/many_packets.py" 6000 long.par2
"$tools/models/list_packets.py" long.par2 > wanted
if [ "$(stat -c %s long.par2)" -gt 5000000 ] && [ "$(wc -l < wanted)" -gt 5000 ]; then
    echo "ok: a packet file of $(stat -c %s long.par2) bytes has $(tail -n 1 wanted)"
else
    fails "the packet file is not large"
fi
gives "the packets of a large file" 0 wanted "" "$parv" packets long.par2

files=()
for i in $(seq 100); do files+=("few$i.par2"); done
"$tools/make/many_packets.py" 4 "${files[@]}"
"$tools/models/list_packets.py" "${files[@]}" > wanted
gives "the packets of a hundred files" 0 wanted "" "$parv" packets "${files[@]}"
files=()
for i in $(seq 300); do files+=("three$i.par2"); done
"$tools/make/many_packets.py" 3 "${files[@]}"
"$tools/models/list_packets.py" "${files[@]}" > wanted
gives "the packets of three hundred files" 0 wanted "" "$parv" packets "${files[@]}"

"$tools/make/big_set.py" big 3000 2
"$tools/models/describe_set.py" big/*.par2 > "set"
gives "a set of 3,000 files" 0 set "" "$parv" set big/*.par2
"$tools/make/big_set.py" full 32768 1
"$tools/models/describe_set.py" full/*.par2 > wanted
gives "a set of 32,768 files" 0 wanted "" "$parv" set full/*.par2
awk '$1 == "set" { print } $1 == "file" { print "missing " $6 " 0/1" }
    $1 == "have" { print "need 32768 have", $2; print "result impossible" }' wanted > states
gives "the states of 32,768 files, none of them there" 2 states "" "$parv" verify full/*.par2
"$tools/models/list_packets.py" full/*.par2 > wanted
gives "the packets of a set of 32,768 files" 0 wanted "" "$parv" packets full/*.par2

# The set of g.bin with 40,000 recovery slices with different exponents, in no order. Some slices occur twice, and some
# others have an exponent above the limit.
PYTHONPATH=$tools python3 "$tools/checks/limits_exponents.py"
"$tools/models/describe_set.py" exponents.par2 > wanted
[ "$(grep '^have' wanted)" = "have 40000" ] || fails "the exponents are not as they should be: $(grep '^have' wanted)"
gives "a set with 40,000 exponents" 0 wanted "" "$parv" set exponents.par2
wants "the verdict with 40,000 exponents" 1 "need 2 have 40000
result possible" "" "$parv" verify -q exponents.par2

# Texts are written in blocks of at least 65,536 bytes while they are made, and a block ends with a line.
gcc -shared -fPIC -O1 -o disturb.so "$tools/disturb/disturb.c" -ldl || exit 1
in_blocks() {
    local size writes
    rm -f report
    REPORT=report LD_PRELOAD=$PWD/disturb.so "$parv" "$@" > text
    size=$(stat -c %s text)
    read -r _ _ _ _ _ writes _ < report
    if [ "$size" -gt 150000 ] && [ "$writes" -ge $((size / 70000)) ] && [ "$writes" -le $((size / 65536 + 1)) ]; then
        echo "ok: $1: $size bytes by $writes writes"
    else
        fails "$1: $size bytes by $writes writes"
    fi
}
in_blocks packets long.par2
in_blocks set big/*.par2
in_blocks verify full/*.par2

# counts NAME LEAST MOST reads|writes WORDS..: wants from LEAST to MOST reads or writes, as disturb.so counts them.
counts() {
    local name=$1 least=$2 most=$3 what=$4 count writes reads
    shift 4
    rm -f report
    REPORT=report LD_PRELOAD=$PWD/disturb.so "$parv" "$@" > text
    # shellcheck disable=SC2034 # (`what` is the name of one of them)
    read -r _ _ _ _ _ writes _ reads < report
    count=${!what}
    if [ "$count" -ge "$least" ] && [ "$count" -le "$most" ]; then
        echo "ok: $name: $count $what"
    else
        fails "$name: $count $what, and not $least to $most: $(tail -n 1 text)"
    fi
}

cp "$top/crates/parv/data/v.par2" v.par2
printf 'XXabcdefgh' > x.bin
# Each line is written before the search goes on.
counts "two sightings and the end" 3 3 writes find v.par2 x.bin
# 8 MiB are 2,048 pieces of 4,096 bytes for a search for slices; 129 pieces of 65,536 bytes for a search for packets,
# since two neighbouring pieces share seven bytes; and 256 pieces of 32,768 bytes for an MD5. In addition a packet file
# is read.
PYTHONPATH=$tools python3 "$tools/checks/limits_zeros.py"
dd if=v.par2 of=padded.par2 conv=notrunc status=none
counts "a search of 8 MiB for slices" 2049 2060 reads find v.par2 zeros.bin
counts "a search of 8 MiB for packets" 129 140 reads packets padded.par2
counts "the MD5 of 8 MiB" 257 270 reads verify zeros.par2 zeros.bin

scanned=()
for i in $(seq 0 137 2700); do
    name=$(printf %07d "$i")
    python3 -c 'import struct, sys; sys.stdout.buffer.write(struct.pack("<I", int(sys.argv[1])))' "$i" > "$name"
    scanned+=("$name")
done
{ head -c 150000 /dev/zero; cat "${scanned[@]}"; head -c 150001 /dev/zero; cat "${scanned[@]}"; } > long.bin
"$tools/models/find_slices.py" big/*.par2 "${scanned[@]}" long.bin > wanted
gives "the slices in ${#scanned[@]} files and in a long one" 0 wanted "" \
    "$parv" find --limit 400000 big/*.par2 "${scanned[@]}" long.bin

# Each scanned file is complete, and each other file of the set is missing.
awk -v names="${scanned[*]}" 'BEGIN { n = split(names, given, " "); for (i in given) here[given[i]] }
    $1 == "set" { print }
    $1 == "file" { print ($6 in here ? "complete " $6 : "missing " $6 " 0/1") }
    $1 == "have" { print "need", 3000 - n, "have", $2; print "result impossible" }' set > wanted
gives "the states of 3,000 files" 2 wanted "" "$parv" verify big/*.par2 "${scanned[@]}"
wants "the verdict on 3,000 files" 2 "$(tail -n 2 wanted)" "" "$parv" verify -q big/*.par2 "${scanned[@]}"
wants "the verdict on 32,768 files" 2 "need $((32768 - ${#scanned[@]})) have 1
result impossible" "" "$parv" verify -q full/*.par2 "${scanned[@]}"

# Of the files to scan, only the last contains a slice; and then only the last can't be opened.
many=3000
ulimit -n 3100 2> "$said/limit" || many=600
mkdir many
others=()
for i in $(seq "$many"); do
    printf none > "many/$i"
    others+=("many/$i")
done
cp 0000137 "many/$many"
"$tools/models/find_slices.py" big/*.par2 "${others[@]}" > wanted
if [ "$(wc -l < wanted)" -eq 2 ]; then
    gives "the last of $many files to scan" 0 wanted "" "$parv" find big/*.par2 "${others[@]}"
    # The file that the last one contains is renamed, and each other file of the set is missing.
    awk -v last="many/$many" '$1 == "set" { print }
        $1 == "file" { print ($6 == "0000137" ? "renamed " $6 " from " last : "missing " $6 " 0/1") }
        $1 == "have" { print "need 2999 have", $2; print "result impossible" }' set > wanted
    gives "the states by $many files to scan" 2 wanted "" "$parv" verify big/*.par2 "${others[@]}"
else
    fails "the last of $many files is not as it should be: $(head -3 wanted)"
fi
wants "a missing one behind $many files to scan" 6 "" "parv: cannot open many/none" \
    "$parv" find big/*.par2 "${others[@]}" many/none

# Packets and slices after 4 GiB of zeros. The files are in a folder in memory, which stores no zeros.
far=$work
[ -w /dev/shm ] && far=$(mktemp -d -p /dev/shm) && trap 'rm -rf "$work" "$far"' EXIT
cd "$far" || exit 1
set=617cdc72ba53d94fe713fea2ae18f776
file=e345eacbe656c0e6fd20ed63cb7b062c
truncate -s 4G far.par2 far.bin
cat "$work/v.par2" >> far.par2
cat "$work/x.bin" >> far.bin
wants "packets behind 4 GiB" 0 "far.par2 4294967296 92 main $set
far.par2 4294967388 128 filedesc $set
far.par2 4294967516 120 ifsc $set
far.par2 4294967636 76 recvslic $set
packets 4" "" "$parv" packets far.par2
wants "slices behind 4 GiB" 0 "far.bin 4294967298 $file 0
far.bin 4294967302 $file 1
end" "" "$parv" find --cursor "$set:0:4294967290:0" "$work/v.par2" far.bin
exit $failed
