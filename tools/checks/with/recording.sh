# Read by the checks of calls of the system: the files of disturbing.sh, and `record`, which records a run's calls on
# files. If WRONG is set, the run has that bug of wrong_disk.c.
. "$(dirname "$0")/with/disturbing.sh"
gcc -shared -fPIC -O1 -o disturb.so "$tools/disturb/disturb.c" -ldl || exit 1
gcc -shared -fPIC -O1 -o wrong.so "$tools/disturb/wrong_disk.c" -ldl || exit 1

# record WORDS..: runs the program with these words. The file `calls` gets its calls on files, `text` and `line` get its
# output and messages, and `status` its exit status.
record() {
    rm -f calls
    timeout "$most" env CALLS=calls LD_PRELOAD="$work/wrong.so $work/disturb.so" "$parv" "$@" \
        > text 2> line < /dev/null
    status=$?
}
