#!/usr/bin/env bash
# If this fails, packet files that somebody has made on purpose may crash parv, keep it busy for hours, or make it print
# a wrong answer.
#
# It compares parv with the plain models on 2,000 hostile packet files, on 200 joined files and on 200 files of content
# that repeats, and on a packet file that is changed at each byte. On 1,000 random packet files it only wants an end
# that is allowed. HOSTILE, JOINED, REPEATED and FUZZED set these numbers, and SEED sets the seed of all of them.
. "$(dirname "$0")/with/wants.sh"
cd "$work" || exit 1
export PARV=$parv PYTHONDONTWRITEBYTECODE=1

"$tools/hostile/hostile.py" --seed "${SEED:-1}" --cases "${HOSTILE:-2000}" --jobs "$(nproc)" || failed=1
"$tools/hostile/hostile.py" --joined --seed "${SEED:-1}" --cases "${JOINED:-200}" --jobs "$(nproc)" || failed=1
"$tools/hostile/hostile.py" --repeated --seed "${SEED:-1}" --cases "${REPEATED:-200}" --jobs "$(nproc)" || failed=1
"$tools/hostile/changed.py" || failed=1
"$tools/hostile/fuzz.py" --seed "${SEED:-1}" --cases "${FUZZED:-1000}" || failed=1
exit $failed
