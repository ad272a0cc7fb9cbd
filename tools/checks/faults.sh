#!/usr/bin/env bash
# If this fails, `make faults` can't show any more that some check or test notices the bug for which it was written.
#
# It checks the files in tools/faults without building or running anything (`make faults` does that): each text to be
# replaced occurs exactly once in its file, and the named checks, tests and crates exist. Then it checks that wrong
# files of this kind are refused.
cd "$(dirname "$0")/../.." || exit 1
work=$(mktemp -d) || exit 1
trap 'rm -rf "$work"' EXIT
export PYTHONDONTWRITEBYTECODE=1
failed=0
tools/faults/run.py --dry || failed=1

# refuses NAME TEXT FILE..: wants the last of these files to be refused, in a line with this text.
refuses() {
    local name=$1 text=$2
    shift 2
    rm -f "$work"/*
    for file; do
        printf '%s\n' "$file" > "$work/fault$#.fault"
        shift
    done
    if ! tools/faults/run.py --dry "$work" > "$work/said" && grep -q "^FAILED: .*$text" "$work/said"; then
        echo "ok: refused: $name"
    else
        echo "FAILED: not refused: $name: $(cat "$work/said")"
        failed=1
    fi
}
fault="crate: parfield
file: src/packet.rt
old: pub fn packet_at
new: pub fn packet_behind
seen: check reads"
printf '%s\n' "$fault" > "$work/one.fault"
if tools/faults/run.py --dry "$work" > "$work/said"; then
    echo "ok: not refused: a fault that is right"
else
    echo "FAILED: refused: $(cat "$work/said")"
    failed=1
fi
refuses "no fault at all" "there is no fault"
refuses "a text that isn't there" "has 0 times" "${fault/packet_at/packet_nowhere}"
refuses "a text that stands there twice" "times" "${fault/pub fn packet_at/fn}"
refuses "a text in place of itself" "doesn't apply" "${fault/packet_behind/packet_at}"
refuses "a file that isn't there" "there is no" "${fault/packet.rt/packets.rt}"
refuses "a crate that isn't there" "there is no" "${fault/parfield/parfields}"
refuses "tests that aren't there" "names a crate" "$fault
beside: no_tests"
refuses "a check that isn't there" "names a check" "${fault/reads/readers}"
refuses "a test that isn't there" "names a test" "${fault/check reads/test packets_tests nothing_holds}"
refuses "a test of another crate" "names a test" \
    "${fault/check reads/test search_tests a_part_is_told_by_its_own_bytes}"
refuses "what is neither check nor test" "isn't understood" "${fault/check reads/proof reads}"
refuses "a line that isn't understood" "isn't understood" "${fault/old:/was:}"
refuses "a fault that nothing sees" "nothing says of it" "${fault%$'\n'*}"
refuses "a text that nothing replaces" "plants nothing" "${fault/new: pub fn packet_behind$'\n'/}"
refuses "a fault that is there twice" "plants what" "$fault" "$fault"
exit $failed
