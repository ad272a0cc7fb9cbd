#!/usr/bin/env bash
# If this fails, a script in examples/ that you copied may give a wrong answer.
#
# Each script runs over a folder that is whole, over one that has lost a file, and over one without a set.
. "$(dirname "$0")/with/wants.sh"
cd "$work" || exit 1
export PARV=$parv LC_ALL=C
examples=$top/examples

# Each folder has subfolders, as other programs leave them; parv accepts only files.
mkdir -- 'a whole' -damaged none
mkdir -p 'a whole/saved/a b' ./-damaged/parts
cp "$top"/demo/{photos.par2,photos.vol07+8.par2,*.raw,notes.txt} 'a whole'
cp 'a whole'/*.* ./-damaged
cd ./-damaged || exit 1
rm tower.raw
mv notes.txt 'my notes.txt'
{ head -c 5000 harbour.raw; printf '?'; tail -c +5002 harbour.raw; } > changed
mv changed harbour.raw
cd "$work" || exit 1

act=$examples/act_on_verdict.sh
wants "acts on a verdict: complete" 0 "need 0 have 8
result complete
a whole: nothing to do" "" "$act" 'a whole'
wants "acts on a verdict: a repair can be tried" 1 "need 6 have 8
result possible
-damaged: now parv-repair can be called" "" "$act" -damaged
rm ./-damaged/photos.vol07+8.par2
wants "acts on a verdict: not enough" 2 "need 6 have 0
result impossible
-damaged: 6 recovery slices are missing" "" "$act" -damaged
wants "acts on a verdict: no file" 3 "" "act_on_verdict.sh: no file in none" "$act" none
echo text > none/text
wants "acts on a verdict: none" 3 "none: no verdict" "parv: no packet file" "$act" none
wants "acts on a verdict: no folder" 6 "" "act_on_verdict.sh: cannot open nothing" "$act" nothing

list=$examples/list_damaged.sh
wants "lists damaged files: none" 0 "" "" "$list" 'a whole'
wants "lists damaged files" 0 "harbour.raw
tower.raw" "" "$list" -damaged
mkdir -p empty/subfolder
wants "lists damaged files: no file" 3 "" "list_damaged.sh: no file in empty" "$list" empty
wants "lists damaged files: no folder" 6 "" "list_damaged.sh: cannot open nothing" "$list" nothing
printf 'a file' > ./-damaged/other.par2
rm ./-damaged/photos.par2
wants "lists damaged files: no set" 4 "" "parv: no usable set: no main" "$list" -damaged

count=$examples/count_slices.py
head -c 3000 "$top/demo/beach.raw" > part
wants "counts slices" 0 "part: 2 of 38 slices
a whole/tower.raw: 5 of 38 slices" "" "$count" 'a whole/photos.par2' part 'a whole/saved' 'a whole/tower.raw'
wants "counts slices: a file that isn't there" 6 "" "parv: cannot open nothing" "$count" 'a whole/photos.par2' nothing
# Each script was run, and is short.
for script in "$examples"/*; do
    lines=$(wc -l < "$script")
    if grep -q "^[a-z]*=\$examples/${script##*/}$" "$tools/checks/examples.sh" && [ "$lines" -ge 10 ] && [ "$lines" -le 30 ]; then
        echo "ok: ${script##*/} has $lines lines"
    else
        fails "${script##*/} isn't run here, or has $lines lines"
    fi
done
exit $failed
