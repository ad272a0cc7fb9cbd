#!/usr/bin/env bash
# usage: cut_search.sh [--tails] FILES, in the folder of the files
#
# If this fails, a search that is resumed with --cursor misses slices or reports them twice.
#
# It cuts one search into parts, by each limit from 1 to the number of matches. Each part is resumed from the cursor
# that the one before has printed. Each part except the last must have as many lines as the limit, and a cursor.
# Together the parts must have the lines of the whole search.
set -euo pipefail
parv=${PARV:-$(cd "$(dirname "$0")/../../.." && pwd)/crates/parv/out/parv}

find_part() {
    timeout "${most:-600}" "$parv" find "$@"
}

fail() {
    echo "FAILED: a search in parts of $limit: $*"
    exit 1
}

whole=$(find_part "$@")
count=$(($(wc -l <<< "$whole") - 1))
limit=all
[ "$count" -gt 0 ] || fail "there is no sighting"
for ((limit = 1; limit <= count; limit++)); do
    text=
    part=$(find_part --limit "$limit" "$@")
    for ((done = 0; done + limit <= count; done += limit)); do
        [ "$(wc -l <<< "$part")" -eq $((limit + 1)) ] || fail "a part of other length: $part"
        cursor=${part##*$'\n'cursor }
        [ "$part" != "$cursor" ] || fail "a part without a cursor: $part"
        text+=${part%$'\n'*}$'\n'
        part=$(find_part --limit "$limit" --cursor "$cursor" "$@")
    done
    [ "$text$part" = "$whole" ] || fail "they are not the whole"
done
echo "ok: $count sightings in parts of each size: parv find $*"
