#!/usr/bin/env bash
# If this fails, a command around parv (parv-repair, parv-tree, ..) may do something other than its page says.
#
# It runs the unit tests in commands/tests, several modules at once, with a line for each test, and checks the types of
# the package with mypy, if that is installed.
. "$(dirname "$0")/with/wants.sh"
cd "$top/commands" || exit 1
export PARV=$parv
# These take long, so they begin first.
long=(test_repair_crashes test_rescue_power test_repair_states test_repair_people test_rescue_files test_repair_moves test_tree)
(cd tests && printf '%s\n' "${long[@]}" test_*.py) | sed 's/[.]py$//' | awk '!seen[$0]++' \
    | TMPDIR=$work xargs -P "${RT_JOBS:-$(nproc)}" -n 1 python3 -m tests || failed=1
if command -v mypy > /dev/null; then
    if MYPYPATH=. mypy --strict --cache-dir="$work/mypy" -p parv_commands -p tests > "$said/mypy" 2>&1; then
        echo "ok: mypy --strict: $(tail -n 1 "$said/mypy")"
    else
        fails "mypy --strict: $(head -n 20 "$said/mypy" | tr '\n' ';')"
    fi
else
    echo "not run: there is no mypy"
fi
exit $failed
