#!/usr/bin/env bash
# Shows the built program at work on the PAR2 set in demo/, of which one volume is damaged.
# out/demo.log gets everything that it prints.
set -euo pipefail
cd "$(dirname "$0")/.."
parv=$PWD/crates/parv/out/parv
demo=$PWD/demo
work=$(mktemp -d)
trap 'rm -rf "$work"' EXIT

verify() {
    echo '$ parv verify' "$@"
    local status=0
    "$parv" verify "$@" || status=$?
    echo "exit status $status"
}

show() {
    echo "The program at work on the set in demo/. The log is out/demo.log."
    echo
    cd "$demo"
    echo '$ parv packets' ./*.par2
    "$parv" packets ./*.par2
    echo
    echo '$ parv set' ./*.par2
    "$parv" set ./*.par2
    echo
    echo 'A file that holds the first 5,000 bytes of harbour.raw behind some text:'
    { printf 'Some text ahead. '; head -c 5000 harbour.raw; } > "$work/found.bin"
    echo '$ parv find' ./*.par2 found.bin
    cd "$work"
    "$parv" find "$demo"/*.par2 found.bin

    echo
    echo 'One picture as it was, one renamed, one with a byte changed, and the notes missing:'
    cp "$demo/beach.raw" "$demo/photos.par2" "$work"
    cp "$demo/photos.vol00+1.par2" "$demo/photos.vol01+2.par2" "$work"
    cp "$demo/harbour.raw" "$work/port.raw"
    { head -c 2000 "$demo/tower.raw"; printf '?'; tail -c 3000 "$demo/tower.raw"; } \
        > "$work/tower.raw"
    verify photos.par2 photos.vol00+1.par2 photos.vol01+2.par2 beach.raw port.raw tower.raw
    echo
    echo 'The same without the larger volume:'
    verify photos.par2 photos.vol00+1.par2 beach.raw port.raw tower.raw
    echo
    echo 'And the files as they were:'
    cd "$demo"
    verify photos.par2 beach.raw harbour.raw notes.txt tower.raw
}

mkdir -p out
show 2>&1 | tee out/demo.log
