# Read by the checks that disturb runs: a small set, files that contain its slices, and `disturb`, which runs the
# program with a disturbance. The library for that is built once.
. "$(dirname "$0")/with/wants.sh"
cd "$work" || exit 1
cp "$top/crates/parv/data/v.par2" v.par2
cp v.par2 w.par2
printf 'XXabcdefgh' > x.bin
printf 'abcdefgh' > y.bin
export DISTURB=$work/disturb.so

disturb() {
    "$tools/disturb/disturb.sh" "$@" || failed=1
}
