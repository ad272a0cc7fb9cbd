#!/usr/bin/env bash
# If this fails, parv may crash or give a wrong answer when it can't get memory.
#
# Like refused.sh, over more sets: with a packet inside another, with no recovery slice or the same one twice, with
# offsets at which equal slices are found, with hundreds of packets, and the set of the demonstration. It also refuses
# the allocations of an index that the survey makes on its way.
. "$(dirname "$0")/with/disturbing.sh"
"$tools/make/packet_files.py" sets > made || exit 1
printf 'abcd' > a.bin
printf 'aaaaXaaaa' > e.bin
"$tools/make/big_set.py" big 40 3 || exit 1
disturb REFUSE packets sets/packet_in_packet.par2
for words in "" -q "-q -q"; do
    # shellcheck disable=SC2086 # (these are words)
    disturb REFUSE verify $words sets/a_with_a_slice_twice.par2 a.bin
    # shellcheck disable=SC2086 # (these are words)
    disturb REFUSE verify $words sets/a.par2 a.bin
done
disturb REFUSE find sets/a_and_b.par2 e.bin
disturb REFUSE packets big/*.par2
disturb REFUSE set big/*.par2
mkdir demo
cp "$top"/demo/* demo
disturb REFUSE verify -B demo demo/*.par2 demo/*.raw

# The survey of these four slices replaces its index by a smaller one each time it has compared more than 4 / 2 + 1,024
# windows in vain and has found more slices. The files in `few` have fewer windows than that. In `many`, the zeros are
# enough for one smaller index, and the zeros and ones for two.
mkdir repeats few many
head -c 4 /dev/zero > repeats/zeros
printf '1111' > repeats/ones
printf 'abcd' > repeats/whole
printf 'wxyz' > repeats/nowhere
"$tools/make/one_set.py" repeats.par2 4 0 repeats || exit 1
for length in few/500 many/9000; do
    folder=${length%/*}
    cp repeats/whole "$folder"
    head -c "${length#*/}" /dev/zero > "$folder/zeros"
    { cat "$folder/zeros"; tr '\0' 1 < "$folder/zeros"; } > "$folder/both"
done

# survey INDEXES FILE..: refuses each allocation of a run over the files in `few` in turn, and of a run over those in
# `many`, which differs only by these smaller indexes. The second run must allocate more, by the same number for each
# index. A refusal of these allocations must change nothing: as many refusals end the run as before.
survey() {
    local indexes=$1 folder line places=() ended=() more
    shift
    for folder in few many; do
        line=$("$tools/disturb/disturb.sh" REFUSE verify repeats.par2 "${@/#/$folder/}")
        echo "$line"
        if ! [[ $line =~ ^"ok: REFUSE at each of "([0-9]+)" places, "([0-9]+)" ended the run, " ]]; then
            failed=1
            return
        fi
        places+=("${BASH_REMATCH[1]}")
        ended+=("${BASH_REMATCH[2]}")
    done
    more=$((places[1] - places[0]))
    [ -n "${for_one:-}" ] || for_one=$more
    if [ $more -gt 0 ] && [ $more -eq $((indexes * for_one)) ] && [ "${ended[0]}" -eq "${ended[1]}" ]; then
        echo "ok: REFUSE at each of $more places in the survey changes nothing, smaller indexes: $indexes: $*"
    else
        fails "$more places in the survey, $((ended[1] - ended[0])) ended the run, smaller indexes: $indexes: $*"
    fi
}
survey 1 zeros
survey 1 whole zeros
survey 2 both
survey 2 whole both
exit $failed
