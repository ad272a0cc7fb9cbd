#!/usr/bin/env bash
# If this fails, parv may misread a set that is partly damaged.
#
# It compares parv with the independent models on the set in demo/, one of whose volumes is damaged.
. "$(dirname "$0")/with/wants.sh"
cd "$top/demo" || exit 1

wants "the packets of the damaged set are those of the independent lister" 0 \
    "$("$tools/models/list_packets.py" ./*.par2)" "" "$parv" packets ./*.par2
for file in ./*.par2; do
    wants "the packets of $file" 0 "$("$tools/models/list_packets.py" "$file")" "" "$parv" packets "$file"
done

wants "the set of the damaged volumes is that of the independent reading" 0 \
    "$("$tools/models/describe_set.py" ./*.par2)" "" "$parv" set ./*.par2
wants "the set of the damaged volume alone" 0 \
    "$("$tools/models/describe_set.py" ./photos.vol03+4.damaged.par2)" "" \
    "$parv" set ./photos.vol03+4.damaged.par2

scanned=(beach.raw harbour.raw tower.raw notes.txt)
{
    printf 'Text before a cut picture. '
    head -c 7000 harbour.raw
    printf 'x'
    tail -c 2000 tower.raw
    cat notes.txt
    tail -c 544 beach.raw
} > "$work/cut.bin"
for tails in "" --tails; do
    with=${tails:+, with $tails}
    # shellcheck disable=SC2086 # (these are words)
    wants "the slices in the files of the set are those that the independent search finds$with" 0 \
        "$("$tools/models/find_slices.py" $tails ./*.par2 "${scanned[@]}")" "" \
        "$parv" find $tails ./*.par2 "${scanned[@]}"
    # shellcheck disable=SC2086 # (these are words)
    wants "the slices in a file that was cut and put together$with" 0 \
        "$("$tools/models/find_slices.py" $tails ./*.par2 "$work/cut.bin")" "" \
        "$parv" find $tails ./*.par2 "$work/cut.bin"
    for files in "${scanned[*]}" "notes.txt $work/cut.bin"; do
        # shellcheck disable=SC2086 # (these are words)
        states=$("$tools/models/tell_states.py" $tails ./*.par2 $files)
        # shellcheck disable=SC2086 # (these are words)
        wants "the states of the set are those of the independent reading$with" $? "$states" "" \
            "$parv" verify $tails ./*.par2 $files
    done
done

"$tools/checks/with/cut_search.sh" ./*.par2 notes.txt "$work/cut.bin" || failed=1
"$tools/checks/with/cut_search.sh" --tails ./*.par2 notes.txt "$work/cut.bin" || failed=1
exit $failed
