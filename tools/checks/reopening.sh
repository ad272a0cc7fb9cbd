#!/usr/bin/env bash
# If this fails, a program of yours that reopens a search with the library parfind may need memory for two windows.
#
# A reopening must free the window of one finder before the next one takes its own. A test with a window of 4 MiB must
# pass with 6 MiB more address space than a small test needs, and fail with 2 MiB more. The gate leaves the test
# program; without the gate there may be none, and then nothing is run.
. "$(dirname "$0")/with/wants.sh"
tests=$top/crates/search_tests/out/search_tests_tests
if [ ! -x "$tests" ]; then
    if [ -n "${GATE:-}" ]; then
        fails "there is no $tests"
    else
        echo "not run: there is no $tests, which the gate leaves"
    fi
    exit $failed
fi
names=$("$tests" --list | sed -n 's/: test$//p')
small=$(head -n 1 <<< "$names")
test=$(grep 'a_reopening_holds_one_window$' <<< "$names")

# passes TEST KIB: whether the test passes in this address space. (The shell reports a test that was ended by a signal.)
passes() {
    { (ulimit -v "$2" && exec "$tests" "$1") > "$work/text" 2>&1; } 2> "$said/line"
}

least=1000
until passes "$small" $least || [ $least -ge 60000 ]; do
    least=$((least + 1024))
done
for room in 6144 2048; do
    passes "$test" $((least + room)) && echo -n "$room passes " || echo -n "$room fails "
done > "$work/told"
if [ -n "$test" ] && [ "$(< "$work/told")" = "6144 passes 2048 fails " ]; then
    echo "ok: a reopening holds one window"
else
    fails "a reopening holds one window: ${test:-no test}: $(< "$work/told")beside $least KiB: $(tail -n 3 "$work/text")"
fi
exit $failed
