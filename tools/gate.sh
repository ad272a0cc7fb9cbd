#!/usr/bin/env bash
# Runs the gate: `rt ci`, and then, whatever that gives, the checks of the program that it leaves at
# crates/parv/out/parv. The last lines say how long each part took, which checks were not run, and
# what both count. out/gate.log gets all lines. If ANEW is set, nothing of an earlier run counts.
# docs/GATE.md says what `rt ci` keeps otherwise.
set -uo pipefail
cd "$(dirname "$0")/.." || exit 1
mkdir -p out
log=out/gate.log
tee "$log" << END
The gate: every proof, the mutants of must-fail/, every test, then checks of the built program.
From nothing it takes 31 minutes on four processors, 47 on two. The log is $log.
END

# The number of crates that `rt ci` works on at once: one for each processor, if each can have 5 GB.
# Without this number, it guesses the memory of a crate three times too high, and then works on only
# two.
available=$(awk '/^MemAvailable:/ { print int($2 / 5000000) }' /proc/meminfo)
most=$(nproc)
[ "${available:-1}" -lt "$most" ] && most=${available:-1}
[ "$most" -ge 1 ] || most=1
export RT_JOBS=${RT_JOBS:-$most}

# Programs that an earlier run left would be taken for those that are proved now.
rm -f crates/parv/out/parv crates/*/out/*_tests
# A kit that keeps what passed has an option against that; the others begin from nothing anyway.
anew=
[ -n "${ANEW:-}" ] && rt help 2>&1 | grep -qe '--anew' && anew=--anew
PYTHONDONTWRITEBYTECODE=1 tools/proving.py "$log" rt ci $anew
proved=$?
if [ -n "${ANEW:-}" ] && grep -q '^rt: [a-z_]* is kept: ' "$log"; then
    echo "FAILED: ANEW is set, but rt ci took what an earlier run kept" | tee -a "$log"
    proved=1
fi
began=$SECONDS
GATE=1 tools/checks.sh < /dev/null | tee -a "$log"
checked=${PIPESTATUS[0]}

counted=$(grep -E '^[0-9]+ passed, [0-9]+ failed$' "$log" | tail -n 1)
# `rt ci` passes even if a mutant doesn't apply, or the prover can't read it.
bad=$(grep -c ': BAD EDIT: ' "$log")
checks=$(grep '^checks: ' "$log" | tail -n 1)
{
    echo
    grep '^rt ci took ' "$log"
    grep '^slowest: ' "$log" | tail -n 1
    echo "The checks took $((SECONDS - began)) s, the whole $((SECONDS / 60)) min."
    grep '^not run: ' "$log" || echo "No check was left out."
    printf '%s\n' "rt ci: ${counted:-ended with status $proved}, bad mutants: $bad" \
        "${checks:-checks: ended early}"
} | tee -a "$log"
[ "$proved" -eq 0 ] && [ "$bad" -eq 0 ] && [ "$checked" -eq 0 ]
