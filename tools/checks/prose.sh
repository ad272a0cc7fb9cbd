#!/usr/bin/env bash
# If this fails, pages and usage texts become harder to read.
#
# hard_phrases.py counts phrases that readers often misunderstand. No page may have more of them than prose.txt allows,
# and the numbers there may only fall.
. "$(dirname "$0")/with/wants.sh"
count=$tools/hard_phrases.py
ceilings=$tools/checks/prose.txt

"$count" --try || failed=1
"$count" --check "$ceilings" || failed=1
# One phrase more than a page may have is refused, and so is a phrase on a page that isn't in prose.txt.
awk 'NR == 1 { $1 -= 1 } { print }' "$ceilings" > "$work/lower"
sed 1d "$ceilings" > "$work/without"
for name in lower without; do
    if ! "$count" --check "$work/$name" > "$work/told" 2>&1 && grep -q "^FAILED: $(awk 'NR == 1 { print $2 }' "$ceilings") has " "$work/told"; then
        echo "ok: a hard phrase more is refused: $name"
    else
        fails "a hard phrase more isn't refused: $(head -c 300 "$work/told")"
    fi
done
# A number that is too high is lowered, and one that is too low isn't raised.
awk 'NR == 1 { $1 += 5 } NR == 2 { $1 -= 1 } { print }' "$ceilings" > "$work/other"
"$count" --lower "$work/other" || failed=1
"$count" --lower "$work/lower" || failed=1
if [ "$(head -n 1 "$work/other")" = "$(head -n 1 "$ceilings")" ] && [ "$(sed -n 2p "$work/other")" != "$(sed -n 2p "$ceilings")" ] \
    && ! "$count" --check "$work/lower" > "$work/told" 2>&1; then
    echo "ok: ceilings fall and don't rise"
else
    fails "ceilings: $(head -n 2 "$work/other")"
fi
exit $failed
