#!/usr/bin/env bash
# usage: list_damaged.sh FOLDER
#
# Lists the names of the files of a PAR2 set that are damaged or missing in a folder. It reads the lines of `parv
# verify`: for these files, a line has the state, the name, and how many slices were found, as in `damaged tower.raw
# 4/5`.
set -o pipefail
parv=${PARV:-parv}
CDPATH="" cd -- "$1" 2> /dev/null || { echo "list_damaged.sh: cannot open $1" >&2; exit 6; }

# parv accepts only regular files, so subfolders are left out.
files=()
for file in ./*; do [ ! -f "$file" ] || files+=("$file"); done
[ ${#files[@]} -gt 0 ] || { echo "list_damaged.sh: no file in $1" >&2; exit 3; }

"$parv" verify -B . "${files[@]}" | sed -nE 's/^(damaged|missing) (.*) [0-9]+\/[0-9]+$/\2/p'

# With each of the verdicts 0, 1 and 2, the list is complete.
status=${PIPESTATUS[0]}
[ "$status" -gt 2 ] || status=0
exit "$status"
