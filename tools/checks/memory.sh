#!/usr/bin/env bash
# If this fails, parv takes more memory than docs/MEMORY.md promises, and may be killed on a small machine.
#
# It measures the greatest resident size of runs at two sizes of each input, and compares it with the formulas of that
# page. Runs over slices of 268,435,456 bytes must also fit into a stack of 128 KiB. (address_space.sh covers memory
# that is reserved and not used.)
. "$(dirname "$0")/with/wants.sh"
cd "$work" || exit 1
export PARV=$parv
"$tools/bench/memory_cost.py" || failed=1

PYTHONPATH=$tools python3 "$tools/checks/memory_set.py"
printf 'XXabcdefgh' > x.bin
line=$("$tools/models/describe_set.py" deep.par2 | sed -n 1p)
small_stack=(env -i sh -c 'ulimit -s 128; exec "$@"' sh "$parv")
for tails in "" --tails; do
    # shellcheck disable=SC2086 # (these are words)
    wants "a stack of 128 KiB: find${tails:+ $tails} in slices of 268,435,456 bytes" 0 end "" \
        "${small_stack[@]}" find $tails deep.par2 x.bin
    # shellcheck disable=SC2086 # (these are words)
    wants "a stack of 128 KiB: verify${tails:+ $tails} in slices of 268,435,456 bytes" 2 "$line
missing a 0/2
need 2 have 0
result impossible" "" "${small_stack[@]}" verify $tails deep.par2 x.bin
done
exit $failed
