#!/usr/bin/env bash
# Disturbs one call of a run of the built program, and repeats the run for each call in turn.
#
# usage: disturb.sh DISTURBANCE ARGUMENTS, in the folder of the files
#
# DISTURBANCE is the name of a variable of disturb.c: REFUSE refuses an allocation; FAIL_OPEN fails an opening,
# FAIL_STAT a question about a file's kind and length, FAIL_READ a read and FAIL_WRITE a write (by the error ERROR);
# CUT_READ ends the file at a read; EMPTY_WRITE takes nothing at a write.
#
# The run must end with 8, or with 6 and its line, and its text must be a beginning of the undisturbed text. After a
# refusal it may also be like the undisturbed run, if the memory was only requested ahead and then taken bit by bit.
# After the last call, it is like the undisturbed run. Each run frees each allocation and closes each file, opens none
# for more than reading, and reads nothing after a read that failed or ended. If the environment makes a read, an
# opening or a write fail in addition to REFUSE, the undisturbed run fails in the same way.
#
# The last line contains the messages about openings and reads that failed, each once, in the order in which they came.
# With SHORT, each read and each write moves at most 1, then 3, then 64 bytes, and each run must be like the undisturbed
# one.
#
# DISTURB, if it is set, is the path of the library that disturbs; the first script that doesn't find it there builds
# it. BEFORE is a library that is loaded before that one.
set -uo pipefail
# (A hang ends all of it. A limit on each run would take two more processes for each.)
[ -n "${LIMITED-}" ] || LIMITED=1 exec timeout "${most:-600}" "$0" "$@"
here=$(cd "$(dirname "$0")" && pwd)
parv=${PARV:-$here/../../crates/parv/out/parv}
what=$1
shift
work=$(mktemp -d)
trap 'rm -rf "$work"' EXIT

fail() {
    echo "FAILED: $what $n: $*: parv $words"
    exit 1
}

# run WORDS..: runs the program with the call number n disturbed (0: none). It sets `status`, `text`, `line` and `met`.
run() {
    : > "$work/report"
    (export "$what=$n" REPORT="$work/report" LD_PRELOAD="${BEFORE-} $library" && exec "$parv" "$@") \
        > "$work/text" 2> "$work/err" < /dev/null
    status=$?
    IFS= read -rd '' text < "$work/text"
    IFS= read -rd '' line < "$work/err"
    line=${line%$'\n'}
    [ -s "$work/report" ] || fail "status $status, and no report"
    read -r met live opened _ behind _ changing _ < "$work/report"
    [ "$changing" = 0 ] || fail "$changing files opened for more than reading"
    [ "$behind" = 0 ] || fail "$behind reads and writes behind the one that was disturbed"
    [ "$live $opened" = "0 0" ] || fail "$live allocations not given back, $opened files not closed, status $status"
}

# ends_so: whether the run ended as the disturbance demands.
ends_so() {
    case $what in
    REFUSE) [ $status -eq 8 ] && [ "$line" = "parv: out of memory" ] ;;
    FAIL_OPEN | FAIL_STAT)
        # (Nothing is written before all files are open.)
        [ -n "$text" ] && return 1
        if [ "${ERROR-}" = 12 ]; then
            [ $status -eq 8 ] && [ "$line" = "parv: out of memory" ]
        else
            [ $status -eq 6 ] && [[ $line == "parv: cannot open "?* ]]
        fi
        ;;
    FAIL_WRITE | EMPTY_WRITE) [ $status -eq 6 ] && [ "$line" = "parv: write fault" ] ;;
    *) [ $status -eq 6 ] && [[ $line == "parv: read fault in "?* ]] ;;
    esac && [[ $whole_text == "$text"* ]]
}

is_undisturbed() {
    [ "$status $text" = "$whole $whole_text" ] && [ "$line" = "$whole_line" ]
}

words=$*
n=0
library=${DISTURB:-$work/disturb.so}
[ -e "$library" ] || gcc -shared -fPIC -O1 -o "$library" "$here/disturb.c" -ldl || fail "no compiler"
run "$@"
whole=$status whole_text=$text whole_line=$line
[ -z "${FAIL_OPEN-}${FAIL_STAT-}${FAIL_READ-}${CUT_READ-}${FAIL_WRITE-}" ] || [ $whole -eq 6 ] || fail "nothing else failed"
if [ "$what" = SHORT ]; then
    for n in 1 3 64; do
        run "$@"
        [ "$met" = 1 ] || [ $n -gt 1 ] || fail "nothing was cut short"
        is_undisturbed || fail "another run"
    done
    echo "ok: SHORT reads and writes of 1, 3 and 64 bytes change nothing: parv $words"
    exit 0
fi
ended=0
named=
for ((n = 1; n <= 100000; n++)); do
    run "$@"
    if [ "$met" = 0 ]; then
        is_undisturbed || fail "past the last place, and the run is another"
        [ $ended -gt 0 ] || fail "it ended no run"
        echo "ok: $what at each of $((n - 1)) places, $ended ended the run, nothing left behind: parv $words$named"
        exit 0
    fi
    [ "$what" = REFUSE ] && is_undisturbed && continue
    ends_so || fail "status $status, $line"
    ended=$((ended + 1))
    case $line in
    *"read fault in "* | *"cannot open "*) [[ "$named," == *"$line,"* ]] || named+=", $line" ;;
    esac
done
fail "no end"
