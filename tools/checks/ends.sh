#!/usr/bin/env bash
# If this fails, a script that looks at the exit status of parv may take bad arguments, an unusable set or a failed
# write for success.
#
# It runs parv with wrong arguments, unusable sets, outputs that fail and each verdict, and compares the exit status and
# the message. It also checks that parv skips no argument.
. "$(dirname "$0")/with/wants.sh"
cd "$work" || exit 1
cp "$top/crates/parv/data/v.par2" v.par2
cp v.par2 w.par2
set=617cdc72ba53d94fe713fea2ae18f776
head -c 92 v.par2 > main.par2
: > empty.par2
printf 'XXabcdefgh' > x.bin
printf 'abcdefgh' > g.bin

usage="parv: usage: parv packets|set|find|verify [options] FILES"
wants "no words" 3 "" "$usage" "$parv"
for words in packets set find verify; do
    wants "the word $words alone" 3 "" "$usage" "$parv" $words
done
wants "a file before the command" 3 "" "$usage" "$parv" v.par2 packets v.par2
wants "another word before the command" 3 "" "$usage" "$parv" x packets v.par2
wants "an empty word before the command" 3 "" "$usage" "$parv" "" packets v.par2
wants "another command" 3 "" "$usage" "$parv" packet v.par2
wants "help is no command" 3 "" "$usage" "$parv" --help
wants "help of a command" 3 "" "$usage" "$parv" find --help v.par2
wants "version" 3 "" "$usage" "$parv" --version
wants "an argument that is no text" 3 "" "$usage" \
    sh -c '"$0" packets "$(printf "\377.par2")"' "$parv"
wants "no packet file" 3 "" "parv: no packet file" "$parv" packets x.bin
wants "a limit of 0" 3 "" "parv: bad value" "$parv" find --limit 0 v.par2
wants "a limit of 0 and no file" 3 "" "$usage" "$parv" find --limit 0
wants "a cursor of another set" 3 "" "parv: cursor of another set" \
    "$parv" find --cursor 00000000000000000000000000000000:0:0:0 v.par2 x.bin
wants "a cursor of other files" 3 "" "parv: cursor of other files" \
    "$parv" find --cursor 2:$set:00000000000000000000000000000000:0:0:0 v.par2 x.bin

lines_of() {
    printf '%s\n' "$1 0 92 main $set" "$1 92 128 filedesc $set" "$1 220 120 ifsc $set" "$1 340 76 recvslic $set"
}
wants "each packet file of two, from the first word on" 0 \
    "$(lines_of v.par2; lines_of w.par2; echo packets 8)" "" "$parv" packets v.par2 w.par2
wants "the same file three times" 0 \
    "$(lines_of v.par2; lines_of v.par2; lines_of v.par2; echo packets 12)" "" "$parv" packets v.par2 v.par2 v.par2
wants "each scanned file of two, before and behind the packet file" 0 \
    "$(printf '%s\n' "g.bin 0 e345eacbe656c0e6fd20ed63cb7b062c 0" "g.bin 4 e345eacbe656c0e6fd20ed63cb7b062c 1" \
        "x.bin 2 e345eacbe656c0e6fd20ed63cb7b062c 0" "x.bin 6 e345eacbe656c0e6fd20ed63cb7b062c 1" end)" "" \
    "$parv" find g.bin v.par2 x.bin
wants "the packets of another set" 0 "packets 0" "" "$parv" packets --set 00000000000000000000000000000000 v.par2

wants "no packet of a set" 4 "" "parv: no usable set: no main" "$parv" set empty.par2
wants "a set without a description" 4 "" \
    "parv: no usable set: no description of e345eacbe656c0e6fd20ed63cb7b062c" "$parv" set main.par2
wants "no set to search for" 4 "" "parv: no usable set: no main" "$parv" find empty.par2 x.bin
wants "no set to verify" 4 "" "parv: no usable set: no main" "$parv" verify -qq empty.par2 x.bin
wants "the whole file" 0 "need 0 have 0
result complete" "" "$parv" verify -q v.par2 g.bin
wants "the whole file inside another" 1 "need 0 have 0
result possible" "" "$parv" verify -q v.par2 x.bin
wants "no file" 2 "need 2 have 0
result impossible" "" "$parv" verify -q v.par2

# At a limit on the size of files, the program is ended by the signal for that. If the signal is ignored, this is a
# write error.
wants "a limit on the size of files" 0 "-25
6 parv: write fault" "" python3 -c 'import resource, subprocess, sys
for is_default in True, False:
    ran = subprocess.run(["sh", "-c", "ulimit -f 0; exec \"$0\" packets v.par2 2>&1 >> limited", sys.argv[1]],
                         stdout=subprocess.PIPE, text=True, restore_signals=is_default)
    print(f"{ran.returncode} {ran.stdout}".strip())
print(open("limited").read(), end="")' "$parv"

# Arguments and the environment are on the stack too, so there are few arguments and no environment here.
for words in "packets v.par2" "set v.par2" "find v.par2 x.bin" "find --tails v.par2 x.bin" "verify v.par2 g.bin"; do
    # shellcheck disable=SC2086 # (these are words)
    "$parv" $words > "$said/alone"
    gives "a stack of 128 KiB: $words" 0 "$said/alone" "" \
        env -i sh -c "ulimit -s 128; exec \"\$0\" $words" "$parv"
done
# The slices are searched for in zeros until the processor time is used up.
truncate -s 16G endless.bin
wants "a limit on the time of the processor" 0 -24 "" python3 -c 'import subprocess, sys
print(subprocess.run(["sh", "-c", "ulimit -S -t 1; exec \"$0\" find v.par2 endless.bin", sys.argv[1]]).returncode)' "$parv"

wants "lines before a full device" 6 "" "parv: write fault" sh -c '"$0" find v.par2 x.bin > /dev/full' "$parv"
for words in "packets v.par2" "set v.par2" "verify v.par2 x.bin"; do
    wants "a full device: $words" 6 "" "parv: write fault" sh -c "\"\$0\" $words > /dev/full" "$parv"
done
wants "a closed output" 6 "" "parv: write fault" sh -c '"$0" packets v.par2 >&-' "$parv"
# With -qq there is nothing to write, so parv doesn't notice that these outputs fail.
wants "a full device and nothing to write" 0 "" "" sh -c '"$0" verify -qq v.par2 g.bin > /dev/full' "$parv"
wants "a closed output and nothing to write" 0 "" "" sh -c '"$0" verify -qq v.par2 g.bin >&-' "$parv"
wants "a reader that takes one line alone" 6 "x.bin 2 e345eacbe656c0e6fd20ed63cb7b062c 0" "parv: write fault" \
    bash -c 'many=$(yes x.bin | head -2000); { "$0" find --limit 100000 v.par2 $many; exit $?; } | { head -1; }; exit ${PIPESTATUS[0]}' "$parv"
wants "a closed line for faults" 6 "" "" sh -c '"$0" packets none.par2 2>&-' "$parv"
wants "a closed line for wrong usage" 3 "" "" sh -c '"$0" 2>&-' "$parv"
wants "a closed line for a cursor of other files" 3 "" "" \
    sh -c '"$0" find --cursor "$1" v.par2 x.bin 2>&-' "$parv" 2:$set:00000000000000000000000000000000:0:0:0
wants "a closed line for no set" 4 "" "" sh -c '"$0" set empty.par2 2>&-' "$parv"
wants "a full line" 6 "" "" sh -c '"$0" packets none.par2 2> /dev/full' "$parv"
exit $failed
