#!/usr/bin/env bash
# If this fails, parv may name the wrong file when one can't be opened, hang at a pipe, or make, rename or remove a
# file.
#
# It runs parv with files that can't be opened, and compares which is named and in which order they are opened. A link
# to a file can be opened. It also lists the functions of the C library that the program uses.
. "$(dirname "$0")/with/wants.sh"
cd "$work" || exit 1
cp "$top/crates/parv/data/v.par2" v.par2
printf 'XXabcdefgh' > x.bin
: > empty.par2
mkdir folder.par2
mkfifo fifo.par2
ln -s /dev/zero zero.par2
ln -s none.par2 broken.par2
ln -s v.par2 link.par2

cannot() {
    local name=$1 file=$2
    shift 2
    wants "$name" 6 "" "parv: cannot open $file" "$parv" "$@"
}

cannot "the second packet file is missing" none.par2 packets v.par2 none.par2
cannot "the first packet file is missing" none.par2 packets none.par2 v.par2
cannot "the third of four, and the fourth too" none.par2 packets v.par2 v.par2 none.par2 other.par2
cannot "the second of two files to scan is missing" none.bin find v.par2 x.bin none.bin
cannot "the first of two files to scan is missing" none.bin verify none.bin v.par2 x.bin
for command in find verify; do
    cannot "a packet file is missing, and a file to scan: $command" none.par2 $command none.bin v.par2 none.par2
done
cannot "no set and no file to scan" none.bin find empty.par2 none.bin
cannot "the name as it was given, whatever the base" ./d/none.bin find -B d v.par2 ./d/none.bin
cannot "a name with a byte that is not shown" 'a\x09b\\.par2' packets $'a\tb\\.par2'
cannot "a folder to scan" . find v.par2 .
cannot "a folder" folder.par2 packets folder.par2
cannot "a FIFO" fifo.par2 packets fifo.par2
cannot "a device" zero.par2 packets zero.par2
cannot "a broken link" broken.par2 packets broken.par2
cannot "a folder behind files that are open" folder.par2 packets v.par2 link.par2 folder.par2
"$tools/models/list_packets.py" link.par2 > linked
gives "a link to a file" 0 linked "" "$parv" packets link.par2
gcc -shared -fPIC -O1 -o wrong.so "$tools/disturb/wrong_disk.c" -ldl || exit 1
wants "a link to a file, if links weren't followed" 6 "" "parv: cannot open link.par2" \
    env WRONG="a link isn't followed" LD_PRELOAD="$work/wrong.so" "$parv" packets link.par2
deep=$(printf 'none\t/%.0s' $(seq 650))
cannot "a path of 3,909 bytes, each tab of which is shown by four" \
    "${deep//$'\t'/\\x09}none.par2" packets "${deep}none.par2"
for command in packets set; do
    "$parv" $command v.par2 > "$said/alone"
    gives "a file that no command scans: $command" 0 "$said/alone" "" "$parv" $command v.par2 none.bin
done

for i in 1 2 3 4 5 6 7; do cp v.par2 "v$i.par2"; done
wants "more files than may be open at once" 6 "" "parv: cannot open v6.par2" \
    sh -c 'ulimit -n 8; exec "$0" packets v1.par2 v2.par2 v3.par2 v4.par2 v5.par2 v6.par2 v7.par2' "$parv"
# The functions of the C library that the program uses: for reading and writing, for memory, for error numbers and for
# the setting of a signal. None makes, renames or removes a file, or uses the network.
nm -D --undefined-only "$parv" | awk '$1 == "U" { sub(/@.*/, "", $2); print $2 }' | LC_ALL=C sort > imports
printf '%s\n' __errno_location __libc_start_main __sysv_signal __write __x86_get_cpuid_feature_leaf close free \
    malloc memcpy memmove memset open pread realloc statx write > wanted_imports
if [ -s imports ] && [ -z "$(LC_ALL=C comm -23 imports wanted_imports)" ]; then
    echo "ok: the program has $(wc -l < imports) calls of the C library, none that changes files"
else
    fails "the program calls $(LC_ALL=C comm -23 imports wanted_imports | tr '\n' ' ')"
fi
exit $failed
