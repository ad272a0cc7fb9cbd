#!/usr/bin/env bash
# If this fails, `--tails` may miss the short last slice of a file inside an image, or report it in the wrong place.
#
# Short last slices before other bytes are found only with --tails, in the order of the slices at each offset. Further
# tests: searches that go on with and without the option, verdicts, too many lengths, and wrong arguments.
. "$(dirname "$0")/with/wants.sh"
cd "$work" || exit 1
export PARV=$parv
"$tools/make/tail_sets.py" . || exit 1

# sightings FILE [OFFSET:ID:SLICE ..]: prints the lines of these matches. ID is one of the sixteen equal bytes of an ID.
sightings() {
    local file=$1 sighting offset id slice
    shift
    for sighting in "$@"; do
        IFS=: read -r offset id slice <<< "$sighting"
        echo "$file $offset $(printf "$id%.0s" {1..16}) $slice"
    done
}

# finds NAME SET FILE PLAIN TAILS: wants the matches PLAIN without --tails and TAILS with it, as the independent search
# has them.
finds() {
    local name=$1 set=$2 file=$3 words option
    for option in "" --tails; do
        words=$4
        [ -z "$option" ] || words=$5
        # shellcheck disable=SC2086 # (these are words)
        { sightings "$file" $words; echo end; } > wanted
        # shellcheck disable=SC2086 # (these are words)
        gives "$name${option:+, with $option}" 0 wanted "" "$parv" find $option "$set.par2" "$file"
        # shellcheck disable=SC2086 # (these are words)
        "$tools/models/find_slices.py" $option "$set.par2" "$file" | cmp -s - wanted \
            || fails "$name: the independent search finds something else"
    done
}
finds "a tail before a byte" one before "" 0:01:0
finds "a tail between bytes" one between "" 1:01:0
finds "a tail at the end of a file" two two "0:01:0 4:01:1" "0:01:0 4:01:1"
finds "a tail whose last byte, a zero, isn't there" zero short "" ""
finds "a tail with a zero, before a byte" zero other "" 0:01:0
finds "the last slice before the first" two turned 3:01:0 "1:01:1 3:01:0"
finds "slices of three lengths at one place" three abcd 0:02:0 "0:01:0 0:02:0 0:03:0"

# Searches that go on from a cursor.
two=2b5d19a47ee4561a2c85b51d7f6d65c4
three=3fb741695895a858b9947b2d67b83ef3
two_at=2:$two:$("$tools/models/cursor_texts.py" turned)
three_at=2:$three:$("$tools/models/cursor_texts.py" abcd)
# goes_on NAME WORDS FILE [SIGHTING ..] LAST: wants these lines from `find` with these words, and the last line.
goes_on() {
    local name=$1 words=$2 file=$3
    # shellcheck disable=SC2086 # (these are words)
    wants "$name" 0 "$(sightings "$file" "${@:4:$#-4}"; echo "${!#}")" "" "$parv" find $words "$file"
}
goes_on "in the midst of a place" "--tails --cursor $three:0:0:1 three.par2" abcd 0:02:0 0:03:0 end
goes_on "a part that ends in the midst of a place" "--tails --limit 1 three.par2" abcd 0:01:0 "cursor $three_at:0:0:1"
goes_on "on without --tails, in the midst of a place" "--cursor $three_at:0:0:1 three.par2" abcd 0:02:0 end
goes_on "a part without --tails" "--limit 1 three.par2" abcd 0:02:0 "cursor $three_at:0:0:2"
goes_on "on with --tails, in the midst of a place" "--cursor $three_at:0:0:2 --tails three.par2" abcd 0:03:0 end
goes_on "a part that ends before a whole slice" "--tails --limit 1 two.par2" turned 1:01:1 "cursor $two_at:0:1:2"
goes_on "on without --tails" "--cursor $two_at:0:1:2 two.par2" turned 3:01:0 end
goes_on "a part that ends behind the tail" "--limit 1 two.par2" turned 3:01:0 "cursor $two_at:0:3:1"
goes_on "on with --tails, behind the tail" "--tails --cursor $two:0:3:1 two.par2" turned end
"$tools/checks/with/cut_search.sh" --tails three.par2 abcd before turned two || failed=1
"$tools/checks/with/cut_search.sh" --tails 256.par2 005 001 003 || failed=1

# Verdicts.
line="set $two size 4 slices 2"
wants "a tail that isn't looked for is needed" 2 "$line
missing two 1/2
need 1 have 0
result impossible" "" "$parv" verify two.par2 turned
wants "a tail that is found isn't needed" 1 "$line
missing two 2/2
need 0 have 0
result possible" "" "$parv" verify --tails two.par2 turned
wants "the result alone" 1 "need 0 have 0
result possible" "" "$parv" verify -q --tails two.par2 turned
wants "the exit status alone" 1 "" "" "$parv" verify --tails -qq two.par2 turned
wants "a whole file" 0 "$line
complete two
need 0 have 0
result complete" "" "$parv" verify --tails two.par2 two
wants "one file of three" 1 "set $three size 4 slices 3
missing ab 1/1
complete abcd
missing a 1/1
need 0 have 0
result possible" "" "$parv" verify --tails three.par2 abcd

# The greatest number of lengths, and one more.
many=()
for length in $(seq 257); do many+=("$(printf %03d "$length")"); done
"$tools/models/find_slices.py" --tails 256.par2 003 turned 256 > wanted
gives "256 lengths" 0 wanted "" "$parv" find --tails 256.par2 003 turned 256
wants "the verdict on 256 lengths" 0 "need 0 have 0
result complete" "" "$parv" verify -q --tails 256.par2 "${many[@]:0:256}"
"$tools/models/find_slices.py" --tails beside.par2 turned 257 > wanted
gives "256 lengths, one twice, a whole slice and a length without sums" 0 wanted "" \
    "$parv" find --tails beside.par2 turned 257
refusal="parv: no usable set: too many tails"
wants "257 lengths" 4 "" "$refusal" "$parv" find --tails 257.par2 turned
wants "257 lengths and a limit" 4 "" "$refusal" "$parv" find --limit 1 --tails 257.par2 001
wants "257 lengths and nothing to scan" 4 "" "$refusal" "$parv" find --tails 257.par2
wants "257 lengths, each file complete" 4 "" "$refusal" "$parv" verify --tails 257.par2 "${many[@]}"
wants "257 lengths and the exit status alone" 4 "" "$refusal" "$parv" verify -qq --tails 257.par2 "${many[@]}"
set=abf80c7a31bb2d53c48b3840d851945b
wants "257 lengths and a cursor of the set" 4 "" "$refusal" "$parv" find --tails --cursor "$set:9:0:0" 257.par2 turned
wants "257 lengths and a cursor of another set" 3 "" "parv: cursor of another set" \
    "$parv" find --tails --cursor "$two:0:0:0" 257.par2 turned
wants "257 lengths and a file that isn't there" 6 "" "parv: cannot open none" "$parv" find --tails 257.par2 none
wants "257 lengths without --tails" 0 end "" "$parv" find 257.par2 turned
wants "the verdict on 257 lengths without --tails" 0 "need 0 have 0
result complete" "" "$parv" verify -q 257.par2 "${many[@]}"

# disturb.so reports that only the packet file is read.
gcc -shared -fPIC -O1 -o disturb.so "$tools/disturb/disturb.c" -ldl || exit 1
reads() {
    rm -f report
    REPORT=report LD_PRELOAD=$PWD/disturb.so "$parv" "$@" > text 2> line
    cut -d " " -f 8 report
}
alone=$(reads set 257.par2)
for command in find verify; do
    count=$(reads $command --tails 257.par2 "${many[@]}")
    if [ "$alone" -gt 0 ] && [ "$count" = "$alone" ] && [ ! -s text ]; then
        echo "ok: with too many lengths $command reads no file that is scanned"
    else
        fails "with too many lengths $command reads $count times, and its packet file is read $alone times"
    fi
done

usage="parv: usage: parv packets|set|find|verify [options] FILES"
for words in "find --tails --tails" "verify --tails --tails" "verify --tails -q --tails" "packets --tails" \
    "set --tails" "find --tails=1" "find --tails=" "find --tail" "verify -t" "--tails find"; do
    # shellcheck disable=SC2086 # (these are words)
    wants "wrong usage: $words" 3 "" "$usage" "$parv" $words two.par2 turned
done
wants "--tails and no file" 3 "" "$usage" "$parv" find --tails
wants "--tails and no packet file" 3 "" "parv: no packet file" "$parv" find --tails turned
wants "a file of this name" 6 "" "parv: cannot open --tails" "$parv" find two.par2 -- --tails
wants "a limit of 0 with --tails" 3 "" "parv: bad value" "$parv" find --tails --limit 0 two.par2
exit $failed
