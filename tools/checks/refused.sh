#!/usr/bin/env bash
# If this fails, parv may crash or give a wrong answer when it can't get memory.
#
# Runs are repeated, and each repetition refuses the next allocation. This covers most kinds of end, also when an
# opening, a read or a write fails in addition. Each end must leave no file open and no memory taken. (refused_sets.sh
# and refused_tails.sh have more sets.)
. "$(dirname "$0")/with/disturbing.sh"
head -c 92 v.par2 > main.par2
mkdir grown
{ cat x.bin; printf X; } > grown/x.bin

disturb REFUSE packets v.par2
disturb REFUSE set v.par2
disturb REFUSE set v.par2 w.par2
set=617cdc72ba53d94fe713fea2ae18f776
disturb REFUSE find v.par2 x.bin
disturb REFUSE find --limit 1 v.par2 x.bin
disturb REFUSE find --limit 2 v.par2 x.bin
disturb REFUSE find --cursor $set:0:2:1 v.par2 x.bin
disturb REFUSE find --cursor $set:4294967295:18446744073709551615:4294967295 v.par2 x.bin
disturb REFUSE find --limit 1 --cursor $set:0:2:1 -B d v.par2 x.bin
list=53e12607a1d11cab6b927147969fc38c
disturb REFUSE find --cursor 2:$set:$list:0:2:1 v.par2 x.bin
disturb REFUSE find --limit 1 --cursor 2:$set:$list:0:2:1 -B d v.par2 x.bin
disturb REFUSE find --limit 1 v.par2 x.bin y.bin x.bin
disturb REFUSE verify v.par2 x.bin
disturb REFUSE verify -q v.par2 y.bin
# Runs that end with an error other than out of memory.
disturb REFUSE packets none.par2
disturb REFUSE find v.par2 w.par2 x.bin none.bin
disturb REFUSE find v.par2 x.bin .
disturb REFUSE set main.par2
disturb REFUSE packets x.bin
disturb REFUSE find x.bin
disturb REFUSE find --limit 0 v.par2
disturb REFUSE find --limit 07 v.par2
disturb REFUSE find --limit 0 v.par2 x.bin
disturb REFUSE find --cursor 00000000000000000000000000000000:0:0:0 v.par2 x.bin
disturb REFUSE find --cursor 2:$set:$list:0:2:1 v.par2 y.bin
disturb REFUSE find --cursor 2:$set:$list:0:2:1 -B grown v.par2 grown/x.bin
disturb REFUSE find --cursor 2:$set:0:2:1 v.par2 x.bin
disturb REFUSE --help
disturb REFUSE packets
disturb REFUSE verify
disturb REFUSE
# A read, an opening or a write fails in addition, so memory may also be refused to the message about that.
FAIL_READ=2 disturb REFUSE packets v.par2 w.par2
CUT_READ=1 disturb REFUSE set v.par2 w.par2
FAIL_READ=3 disturb REFUSE find v.par2 x.bin y.bin
CUT_READ=2 disturb REFUSE verify v.par2 x.bin
FAIL_OPEN=2 disturb REFUSE find v.par2 x.bin
FAIL_STAT=2 disturb REFUSE find v.par2 x.bin
for words in "packets v.par2" "set v.par2" "find v.par2 x.bin" "verify v.par2 x.bin"; do
    # shellcheck disable=SC2086 # (these are words)
    FAIL_WRITE=1 disturb REFUSE $words
done
exit $failed
