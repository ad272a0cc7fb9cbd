#!/usr/bin/env bash
# If this fails, a mutant isn't tried any more, and nobody sees it: `rt ci` passes over a file of must-fail/ whose text
# is no longer in the source, and nothing tries those of mutants/ every day.
#
# It compares each mutant with the sources. Then it checks that mutants that don't apply are refused.
set -uo pipefail
tools=$(cd "$(dirname "$0")/.." && pwd)
top=$(dirname "$tools")
work=$(mktemp -d) || exit 1
trap 'rm -rf "$work"' EXIT
failed=0
export PYTHONDONTWRITEBYTECODE=1

"$tools/mutants.py" --dry || failed=1

# refuses NAME SED: the comparison fails after this change to a mutant in a copy.
edit=crates/parfield/must-fail/$(cd "$top/crates/parfield/must-fail" && printf '%s\n' *.edit | head -n 1)
refuses() {
    rm -rf "$work/crates"
    (cd "$top" && cp --parents -r crates/parfield/src "$edit" "$work") || exit 1
    sed -i "$2" "$work/$edit" || exit 1
    if ! "$tools/mutants.py" --dry "$work" > "$work/said" 2>&1 && grep -q "^FAILED: $edit" "$work/said"; then
        echo "ok: refused: $1"
    else
        failed=1
        echo "FAILED: not refused: $1: $(head -c 300 "$work/said")"
    fi
}
refuses "a text that isn't there" 's/^old: .*/old: no such text/'
refuses "a text that is there many times" 's/^old: .*/old: e/'
refuses "a file that isn't there" 's/^file: .*/file: src\/nowhere.rt/'
refuses "a mutant without a text" '/^old: /d'
refuses "a mutant that replaces nothing" '/^new: /d'
refuses "a mutant of must-fail/ that guards nothing" '/^# guards: /d'
exit $failed
