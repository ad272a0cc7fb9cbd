#!/usr/bin/env bash
# If this fails, parv may report a file as complete, or end without a message, after an opening, a read or a write has
# failed.
#
# Runs are repeated, and each repetition disturbs another call: an opening, a read or a write fails, or a file ends
# while it is read. Each end must give the right message, and leave no file open and no memory taken. (For memory that
# is refused, see refused.sh.)
. "$(dirname "$0")/with/disturbing.sh"
"$tools/make/packet_files.py" sets > made || exit 1
printf 'abcdXXXX' > z.bin

# names LINES DISTURBANCE WORDS..: wants the disturbed runs to end with these lines, each once and in this order.
names() {
    local named=$1 line
    shift
    line=$("$tools/disturb/disturb.sh" "$@")
    case $line in
    "ok: "*": parv ${*:2}$named") echo "$line" ;;
    *) fails "it should name$named: $line" ;;
    esac
}

# reads LINES WORDS..: wants failed reads to name each file that was being read, packet files before scanned ones.
reads() {
    local named=$1
    shift
    names "$named" FAIL_READ "$@"
    names "$named" CUT_READ "$@"
}

about() {
    printf ', parv: read fault in %s' "$@"
}

reads "$(about v.par2 w.par2)" packets v.par2 w.par2
"$tools/make/many_packets.py" 240 long.par2 || exit 1
reads "$(about long.par2 v.par2)" packets long.par2 v.par2
reads "$(about v.par2 w.par2)" set v.par2 w.par2
reads "$(about v.par2 w.par2 x.bin y.bin)" find v.par2 x.bin w.par2 y.bin
# All slices are found in y.bin. x.bin isn't read: it has the length of no file of the set, and no slice is left to be
# found.
reads "$(about v.par2 w.par2 y.bin)" verify x.bin v.par2 w.par2 y.bin
# z.bin is read for its MD5; then it is searched for slices, before x.bin.
reads "$(about v.par2 z.bin x.bin)" verify z.bin x.bin v.par2
# Without the checksums of a.bin's only slice: all other slices are found in y.bin, and that one can't be found in
# x.bin.
{ head -c 236 sets/a_and_b.par2; tail -c +337 sets/a_and_b.par2; } > some_sums.par2
reads "$(about some_sums.par2 y.bin)" verify x.bin y.bin some_sums.par2
# Tails before other bytes, and three slices at one offset.
"$tools/make/tail_sets.py" tails || exit 1
for words in "two.par2 turned" "three.par2 abcd"; do
    named=$(about "tails/${words% *}" "tails/${words#* }")
    for command in find verify; do
        reads "$named" $command --tails "tails/${words% *}" "tails/${words#* }"
    done
done
# x.bin is read if the cursor, of either version, belongs to the file list. If x.bin has grown, it isn't read.
set=617cdc72ba53d94fe713fea2ae18f776
list=53e12607a1d11cab6b927147969fc38c
mkdir grown
{ cat x.bin; printf X; } > grown/x.bin
reads "$(about v.par2 x.bin)" find --cursor 2:$set:$list:0:2:1 v.par2 x.bin
reads "$(about v.par2 x.bin)" find --cursor $set:0:2:1 v.par2 x.bin
reads "$(about v.par2)" find --cursor 2:$set:$list:0:2:1 -B grown v.par2 grown/x.bin
# Any error of the system is a read error: an interrupted call (4), out of memory (12), a file that has gone (116).
for number in 4 12 116; do
    ERROR=$number names "$(about v.par2 x.bin)" FAIL_READ find v.par2 x.bin
done
# Openings that fail: by an error of the device, by a lack of permission (13), by too many open files (24). Without
# memory (12) no file is named. The same holds if the system doesn't return the kind and length of a path or of an open
# file.
opens() {
    names "$(printf ', parv: cannot open %s' v.par2 w.par2 x.bin y.bin)" "$1" find v.par2 x.bin w.par2 y.bin
}

for what in FAIL_OPEN FAIL_STAT; do
    opens $what
    for number in 13 24; do
        ERROR=$number opens $what
    done
    ERROR=12 names "" $what find v.par2 x.bin w.par2 y.bin
done
# Any error of a write is a write error too. A write that was interrupted isn't repeated.
for number in 4 11 28; do
    for words in "packets v.par2 w.par2" "find v.par2 x.bin y.bin"; do
        # shellcheck disable=SC2086 # (these are words)
        ERROR=$number disturb FAIL_WRITE $words
    done
done
# Texts of several blocks: if a block can't be written, no later one is written.
"$tools/make/many_packets.py" 3500 blocks.par2 || exit 1
for words in "packets blocks.par2" "packets v.par2 blocks.par2"; do
    # shellcheck disable=SC2086 # (these are words)
    disturb FAIL_WRITE $words
    # shellcheck disable=SC2086 # (these are words)
    disturb EMPTY_WRITE $words
done
disturb SHORT packets none.par2
for words in "packets v.par2 w.par2" "set v.par2 w.par2" "find v.par2 x.bin y.bin" "verify v.par2 x.bin y.bin" \
    "find --cursor 2:$set:$list:0:2:1 v.par2 x.bin" "find --cursor $set:0:2:1 v.par2 x.bin" \
    "find --tails tails/two.par2 tails/turned" "verify --tails tails/two.par2 tails/turned" \
    "find --tails tails/three.par2 tails/abcd" "verify --tails tails/three.par2 tails/abcd"; do
    # shellcheck disable=SC2086 # (these are words)
    disturb FAIL_WRITE $words
    # shellcheck disable=SC2086 # (these are words)
    disturb EMPTY_WRITE $words
    # shellcheck disable=SC2086 # (these are words)
    disturb SHORT $words
done

# sees FAULT LINE WHAT: wants a run with this fault of wrong_disk.c to fail under the disturbance WHAT, with this line.
sees() {
    local line wanted="FAILED: $3 $2: *"
    line=$(WRONG=$1 UNMET=1 BEFORE=$work/wrong.so "$tools/disturb/disturb.sh" "$3" find v.par2 x.bin)
    # shellcheck disable=SC2053 # (it is a pattern)
    if [[ $line == $wanted ]]; then
        echo "ok: it is seen by $3: $1"
    else
        fails "it isn't seen by $3: $1: $line"
    fi
}
gcc -shared -fPIC -O1 -o wrong.so "$tools/disturb/wrong_disk.c" -ldl || exit 1
sees "opened for writing too" "0: 2 files opened for more than reading" FAIL_READ
sees "zeros past an early end" "1: status *" CUT_READ
sees "stale bytes past an early end" "1: status *" CUT_READ
sees "a failed read tried again" "1: 2 reads and writes behind the one that was disturbed" FAIL_READ
exit $failed
