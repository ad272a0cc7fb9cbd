#!/usr/bin/env bash
# If this fails, parv may crash or give a wrong answer when it can't get memory.
#
# Like refused.sh, with --tails: tails before other bytes, several slices at one offset, and the greatest number of
# lengths.
. "$(dirname "$0")/with/disturbing.sh"
"$tools/make/tail_sets.py" . || exit 1

for words in "two.par2 turned" "three.par2 abcd"; do
    # shellcheck disable=SC2086 # (these are words)
    disturb REFUSE find --tails $words
    # shellcheck disable=SC2086 # (these are words)
    disturb REFUSE verify --tails $words
    # shellcheck disable=SC2086 # (these are words)
    disturb REFUSE find --tails --limit 1 $words
done
three=$("$tools/models/describe_set.py" three.par2 | sed -n '1s/^set \([^ ]*\) .*/\1/p')
disturb REFUSE find --tails --cursor "$three:0:0:1" three.par2 abcd
list=$("$tools/models/cursor_texts.py" abcd)
disturb REFUSE find --tails --limit 1 --cursor "2:$three:$list:0:0:1" three.par2 abcd
FAIL_READ=2 disturb REFUSE find --tails two.par2 turned
FAIL_WRITE=1 disturb REFUSE verify --tails two.par2 turned
disturb REFUSE find --tails 256.par2 abcd
disturb REFUSE find --tails --tails two.par2 turned
disturb REFUSE packets --tails two.par2
exit $failed
