#!/usr/bin/env bash
# usage: checks.sh [NAME..]
#
# Runs the checks of the built program, crates/parv/out/parv: each script in the folder checks, or
# those that are named. As many run at once as there are processors, or RT_JOBS. The output of a
# check is shown when it has ended. A check that prints no result, or can't be run, has failed. The
# last lines name the five checks that took longest, and count the passed and failed comparisons.
set -uo pipefail
cd "$(dirname "$0")/checks" || exit 1
# These take long, so they begin first.
long="commands_tests refused greatest limits memory refused_sets refused_tails refused_tests hostile repair address_space disturbed"
logs=$(mktemp -d) || exit 1
trap 'rm -rf "$logs"' EXIT
export logs

run() {
    { ./"$1".sh > "$logs/$1" 2>&1 && grep -Eq '^(ok|not run): ' "$logs/$1"; } \
        || grep -q '^FAILED: ' "$logs/$1" \
        || printf '\nFAILED: %s ended early\n' "$1" >> "$logs/$1"
    sed -i "s/^not run: /&$1: /" "$logs/$1"
    flock "$logs" cat "$logs/$1"
    echo "$1 $SECONDS s" >> "$logs/.seconds"
}
export -f run
names() {
    if [ $# -gt 0 ]; then
        printf '%s\n' "$@"
    else
        for name in $long *.sh; do echo "${name%.sh}"; done | awk '!seen[$0]++'
    fi
}
names "$@" | xargs -P "${RT_JOBS:-$(nproc)}" -I{} bash -c 'run {}' \
    || echo "FAILED: not every check was run" | tee "$logs/xargs"
echo "slowest: $(sort -k 2nr "$logs/.seconds" | head -n 5 | paste -sd , | sed 's/,/, /g')"
failed=$(cat "$logs"/* | grep -c '^FAILED: ')
echo "checks: $(cat "$logs"/* | grep -c '^ok: ') passed, $failed failed"
[ "$failed" -eq 0 ]
