#!/usr/bin/env bash
# usage: act_on_verdict.sh FOLDER
#
# Acts on the exit status of `parv verify`. 0, 1 and 2 are its verdicts. With 3 or more there is no verdict, and a line
# on standard error says why.
parv=${PARV:-parv}
CDPATH="" cd -- "$1" 2> /dev/null || { echo "act_on_verdict.sh: cannot open $1" >&2; exit 6; }

# parv accepts only regular files, so subfolders are left out.
files=()
for file in ./*; do [ ! -f "$file" ] || files+=("$file"); done
[ ${#files[@]} -gt 0 ] || { echo "act_on_verdict.sh: no file in $1" >&2; exit 3; }

# With -q, only two lines are left: `need N have N`, and the result. `-B .` removes the ./ from the names.
text=$("$parv" verify -q -B . "${files[@]}")
status=$?
[ -z "$text" ] || echo "$text"
read -r _ need _ have <<< "$text"
case $status in
0) echo "$1: nothing to do" ;;
1) echo "$1: now parv-repair can be called" ;;
2) echo "$1: $((need - have)) recovery slices are missing" ;;
*) echo "$1: no verdict" ;;
esac
exit $status
