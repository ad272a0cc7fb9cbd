#!/usr/bin/env bash
# If this fails, the libraries may crash, or give a wrong answer, when they can't get memory.
#
# It runs the tests of parwindow and parfind, and some tests of other crates, and refuses each allocation of a test in
# turn (about a hundred of them, spread evenly, if the test makes more than a thousand). A test must pass, or fail
# because it is out of memory. In mode `later`, all allocations after the refused one are refused too; in mode `none`,
# none is. Each message in the last column of the table below must come from some test.
#
# The test programs are crates/NAME/out/NAME_tests. The gate leaves them; without the gate there may be none, and then
# nothing is run. All tests of packets_tests and runs_tests must at least give back the memory that they take; the
# checks of the built program cover their refusals.
. "$(dirname "$0")/with/wants.sh"
gcc -shared -fPIC -O1 -o "$work/disturb.so" "$tools/disturb/disturb.c" -ldl || fails "no compiler"
while IFS='|' read -r crate mode word told; do
    tests=$top/crates/$crate/out/${crate}_tests
    if [ -x "$tests" ]; then
        "$tools/disturb/refuse_tests.py" "$work/disturb.so" "$mode" "$tests" "$word" ${told:+"$told"} || failed=1
    elif [ -n "${GATE:-}" ]; then
        fails "there is no $tests"
    else
        echo "not run: there is no $tests, which the gate leaves"
    fi
done << 'END'
packets_tests|none
packets_tests|one|no_packet
packets_tests|one|packet_inside
packets_tests|one|many_bytes
packets_tests|one|bodies_up_to
runs_tests|none
runs_tests|one|names_are_shown
runs_tests|one|::shelves::
search_tests|one||OutOfMemory before the first call,NoMemory told at a reopening,NoMemory told at a first reopening
search_tests|later|equal_slices
search_tests|later|many_lengths|all found without Memory,all marked without Memory,too many lengths told without Memory
END
exit $failed
