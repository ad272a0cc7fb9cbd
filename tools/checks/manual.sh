#!/usr/bin/env bash
# If this fails, a manual page may leave out an option or an exit status, or show an example that doesn't work.
#
# mandoc and man, if they are installed, must accept each page without a warning. The page of parv must have each option
# and each line of standard error. The page of a command must have the options and exit statuses of its help. All
# examples are run in a folder with the files that they name.
. "$(dirname "$0")/with/wants.sh"
. "$tools/checks/with/commands.sh"
cd "$work" || exit 1
page=$top/docs/parv.1

pages=("$top"/docs/*.1)
for command in "$commands"/*; do [ -e "$top/docs/${command##*/}.1" ] || fails "there is no page of ${command##*/}"; done
[ ${#pages[@]} -eq $(($(find "$commands" -name 'parv-*' | wc -l) + 1)) ] || fails "there are ${#pages[@]} pages"
for page in "${pages[@]}"; do
    # Some of the pages that this one refers to may not be installed here.
    if command -v mandoc > /dev/null; then
        mandoc -T lint "$page" 2>&1 \
            | grep -v 'not found: Xr par[a-z0-9-]* 1\|outdated mandoc.db lacks par[a-z0-9-]*(1) entry' > said
        if [ ! -s said ]; then
            echo "ok: mandoc -T lint is silent: ${page##*/}"
        else
            fails "mandoc -T lint: ${page##*/}: $(head -c 600 said)"
        fi
    else
        echo "not run: there is no mandoc"
    fi
    if command -v man > /dev/null; then
        if MANWIDTH=80 man --warnings -E UTF-8 -l "$page" 2> said > text && [ ! -s said ] && grep -q '^EXIT STATUS' text; then
            echo "ok: man --warnings is silent: ${page##*/}"
        else
            fails "man --warnings: ${page##*/}: $(head -c 600 said)"
        fi
    else
        echo "not run: there is no man"
    fi
done

# The page of a command has each option and each exit status of its help, and no others.
for command in "$commands"/*; do
    name=${command##*/}
    page=$top/docs/$name.1
    grep -q "^\.Xr $name 1\b" "$top/docs/parv.1" || fails "the page of parv doesn't tell of $name"
    "$command" -h > help
    sed -nE 's/^  (-[A-Za-z], )?(--[a-z-]+).*/\2/p; s/^  (-[A-Za-z]) .*/\1/p
        /^exit status/,$s/^  ([0-9]) .*/\1/p' help | sort > wanted
    { sed -nE 's/^\.It Fl ([A-Za-z] , )?-([a-z-]+).*/--\2/p; s/^\.It Fl ([A-Za-z])( Ar .*)?$/-\1/p' "$page"
        sed -n '/^\.Sh EXIT STATUS/,/^\.El/s/^\.It \([0-9]\)$/\1/p' "$page"; } | sort > told
    if [ "$(wc -l < wanted)" -ge 3 ] && cmp -s wanted told; then
        echo "ok: the page of $name has each option and exit status"
    else
        fails "the page of $name: $(diff wanted told | tr '\n' ' ')"
    fi
done
grep -q 'No bytes that were in the folder are lost' "$top/docs/parv-repair.1" || fails "parv-repair's page has no promise"
page=$top/docs/parv.1

for word in --set -B --base --limit --cursor --tails -q; do
    grep -q "^\.It.* Fl ${word#-}\b" "$page" || fails "the page has no $word"
done
grep -o '`parv: [^`]*`' "$top/docs/FORMATS.md" | tr -d '\140\134' | sed 's/ <[A-Za-z]*>$//' > messages
while IFS= read -r message; do
    grep -qF "It \"$message" "$page" || fails "the page has no '$message'"
done < messages
[ "$(wc -l < messages)" -eq 14 ] || fails "there are $(wc -l < messages) messages"

# The page names each script, and each installed file that it names exists.
for script in "$top"/examples/*; do
    grep -q "^\.It Pa ${script##*/}$" "$page" || fails "the page doesn't tell of ${script##*/}"
done
grep -o '/usr/local/share/doc/parv/[A-Za-z_./]*' "$page" | sed 's|^/usr/local/share/doc/parv/||' > paths
[ "$(wc -l < paths)" -ge 3 ] || fails "the page names $(wc -l < paths) paths of what is installed"
while IFS= read -r path; do
    [ -e "$top/$path" ] || [ -e "$top/docs/$path" ] || fails "the page names $path, which isn't there"
done < paths
# The calls of commands in the pages. Each runs in a copy of a folder with the files that it names, and its end is
# compared.
{ sed -n 's/^\.Dl \$ \(parv-[a-z]* .*\)/\1/p' "$top"/docs/*.1
    sed -n '/^\.Bd/,/^\.Ed/s/^\(\$ \|  *\)\(.*\)/\2/p' "$top/docs/parv-repair.1" | tr '\n' ' '; } \
    | sed 's/\\-/-/g; s/\\&//g' > calls
[ "$(wc -l < calls)" -ge 14 ] || fails "the pages have $(wc -l < calls) calls of commands"
mkdir -p whole/download bin
cp "$top"/demo/{photos.par2,*.raw,notes.txt} whole/download
mv whole/download/beach.raw whole/download/other
mkdir -p whole/backup
cp -r whole/download whole/backup/2019
cp -r whole/download whole/photos
cp whole/photos/photos.par2 whole
cat whole/photos/*.raw whole/photos/other whole/photos/notes.txt > whole/disc.img
printf more >> whole/disc.img
cp whole/disc.img whole/second.img
ln -s "$parv" bin/parv
ln -s "$top"/commands/bin/* bin
while IFS= read -r call; do
    rm -rf part
    cp -r whole part
    wanted=0 place=part
    case $call in *--dry-run* | "parv-rescue saved"* | parv-progress* | parv-tree*) wanted=1 ;; esac
    [[ $call != *./\** ]] || place=part/download
    [[ $call != parv-watch* ]] || mv part/download/other part/download/beach.raw
    if [[ $call == "parv-repair saved" ]]; then     # after a rescue that has left holes
        (cd part && "$commands/parv-rescue" saved photos.par2 disc.img > "$work/text" 2> "$work/line")
        [ $? -eq 1 ] || fails "the rescue before $call: $(cat text line)"
        cp "$top"/demo/photos*.par2 part/saved
    fi
    (cd $place && env -u PARV PATH="$work/bin:$PATH" bash -c "${call//\/srv\//}" > "$work/text" 2> "$work/line")
    status=$?
    last=$(tail -n 1 text)
    case $call in
    parv-map*) end="* in place, * moved; need 0 have 0" ;;
    parv-parts*) end="disc.img 37289 * 0" ;;
    parv-progress*) end="result possible" ;;
    parv-rescue*) end="slices *" ;;
    parv-tree*--json*) end='{"status": 1, *' ;;
    parv-tree*) end="1 589c76e09f0580b9203c5b64963b8957 need 0 have 0 2019/photos" ;;
    *--dry-run*) end="a repair can be tried*" ;;
    *) end=complete ;;
    esac
    # shellcheck disable=SC2053 # (it is a pattern)
    if [ $status -eq $wanted ] && [[ $last == $end ]]; then
        echo "ok: $call"
    else
        fails "$call: status $status, $(cat text line)"
    fi
done < calls
# The line for cron, over a folder that is whole and over one that has lost a file or recovery slices; without parv; and
# without space for temporary files or for the state.
page=$top/docs/parv-tree.1
sed -n 's/^17 3 \* \* \* //p' "$page" > cron
[ "$(wc -l < cron)" -eq 1 ] || fails "the page has no line for cron"
[ "$(grep -c '^17 3 ' "$top"/docs/*.1 | grep -vc ':0$')" -eq 1 ] || fails "there are several lines for cron"
sed -i "s|/usr/local/bin/parv-tree|$top/commands/bin/parv-tree|; s|/usr/local/bin/parv |$parv |; s|/srv|$work|" cron
python=$(dirname "$(python3 -c 'import sys; print(sys.executable)')")
mkdir -p backup/2019 home
cp "$top"/demo/{photos.par2,photos.vol07+8.par2,*.raw,notes.txt} backup/2019
set=589c76e09f0580b9203c5b64963b8957
# cron NAME STATUS TEXT LINE: runs the line once, with the variables in `room` and after the words in `around`.
around=() room=()
cron() {
    wants "the line for cron: $1" "$2" "$3" "$4" "${around[@]}" \
        env -i HOME="$work/home" PATH="$python:/usr/bin:/bin" "${room[@]}" sh cron
}
cron "the first night" 0 "" "parv-tree: $work/home/.backup.parv is new: this run has nothing to compare with"
cron "all is whole" 0 "" ""
mv backup/2019/photos.vol07+8.par2 .
cron "recovery slices are lost" 5 "fewer $set have 0 was 8 2019/photos" ""
cron "they are lost still" 0 "" ""
mv photos.vol07+8.par2 backup/2019
cron "they are back" 0 "" ""
rm backup/2019/tower.raw
cron "a file is lost" 5 "1 $set need 5 have 8 2019/photos
worse $set status 1 was 0 2019/photos" ""
cron "it is lost still" 1 "1 $set need 5 have 8 2019/photos" ""
cp home/.backup.parv state
sed -i "s|$parv |$work/none |" cron
cron "there is no parv" 6 "" "parv-tree: cannot run $work/none: put parv in PATH, or name it by PARV"
sed -i "s|$work/none |$parv |" cron
if can_mount "the line for cron with no room"; then
    mkdir small
    export -f mounting
    room=("TMPDIR=$work/small")
    around=(bash -c 'mounting "$@"' - bash -c 'mount -t tmpfs -o size=4k,nr_inodes=$0 tmpfs small
        head -c 9999 /dev/zero 2> /dev/null > small/full
        "$@" 2> line || status=$?
        sed "s|small/parv-[0-9a-z_]*|small/parv-|" line >&2
        exit $status')
    around+=(2)
    cron "no room for a temporary folder" 6 "" \
        "parv-tree: cannot make a temporary folder in $work/small: No space left on device"
    around[-1]=3
    cron "no room for a second one" 6 "6 - need - have - 2019/photos" \
        "parv-tree: 2019/photos: cannot make a temporary folder in $work/small/parv-: No space left on device
parv-tree: 2019/photos.vol07+8.par2: cannot make a temporary folder in $work/small/parv-: No space left on device"
    around[-1]=5
    cron "no room for data" 1 "1 $set need 5 have 8 2019/photos" ""
    around=(bash -c 'mounting "$@"' - bash -c 'mount -t tmpfs -o size=4k tmpfs home && cat state > home/.backup.parv && "$@"
        status=$?
        cmp state home/.backup.parv && [ "$(ls -A home)" = .backup.parv ] || exit 99
        exit $status' "")
    room=()
    rm backup/2019/photos.vol07+8.par2
    for night in "a first" "a second"; do
        cron "no room for the state, $night night" 6 "2 $set need 5 have 0 2019/photos
fewer $set have 0 was 8 2019/photos
worse $set status 2 was 1 2019/photos" "parv-tree: cannot write $work/home/.backup.parv: No space left on device"
    done
fi
page=$top/docs/parv.1

# Each example becomes a file with its commands, without `$ `, as bash reads them.
mkdir examples
awk '/^\.Sh /{ here = $2 == "EXAMPLES" } here && /^\.Bd/{ n++; text = 1; next } /^\.Ed/{ text = 0 }
    here && text { sub(/^(\$ |  )/, ""); print > ("examples/" n) }' "$page"
sed -i 's/\\-/-/g; s/\\e/\\/g' examples/*
# FORMATS has the example that makes a cursor by hand.
formats=$top/docs/FORMATS.md
awk '/^    eight\(\) / { here = 1 } here && !/^    / { exit } here { sub(/^    /, ""); print }' "$formats" > examples/cursor

# Makes the folder photos, with the whole set and other files. The volume has one recovery slice.
furnish() {
    rm -rf photos
    mkdir photos
    cp "$top"/demo/{beach,harbour,tower}.raw "$top"/demo/notes.txt photos
    cp "$top"/demo/photos.{par2,vol00+1.par2} photos
    { head -c 40000 /dev/zero; cat "$top/demo/beach.raw"; printf 'more'; } > photos/disc.img
    printf 'odd' > photos/-odd.raw
    cd photos || exit 1
}
# example NUMBER NAME STATUS TEXT: runs this example in the current folder.
example() {
    given=$((given + 1))
    wants "the example of $2" "$3" "$4" "" \
        env PATH="$(dirname "$parv"):$PATH" bash "$work/examples/$1"
}

set=589c76e09f0580b9203c5b64963b8957
line="set $set size 1024 slices 38"
whole="$line
complete harbour.raw
complete beach.raw
complete notes.txt
complete tower.raw
need 0 have 1
result complete"
gone="$line
missing harbour.raw 0/12
missing beach.raw 0/20
missing notes.txt 0/1
missing tower.raw 0/5
need 38 have 0
result impossible"
given=0
furnish
example 1 "a folder" 0 "$whole"
example 2 "a folder without its base" 1 "$line
renamed harbour.raw from ./harbour.raw
renamed beach.raw from ./beach.raw
renamed notes.txt from ./notes.txt
renamed tower.raw from ./tower.raw
need 0 have 1
result possible"
cd ..
example 3 "a folder elsewhere" 0 "$whole"
cd photos || exit 1
mkdir within
mkfifo pipe
example 4 "the regular files of a folder" 0 "$whole"
example 5 "these files, with the status" 0 "$whole"
wants "all names of that folder" 6 "" "parv: cannot open ./pipe" "$parv" verify -B . ./*
rm -r within pipe
cp "$top/crates/parv/data/v.par2" a.par2
example 6 "two sets in a folder" 0 "$set
617cdc72ba53d94fe713fea2ae18f776
$whole"
rm a.par2
example 7 "a script" 0 "nothing to repair"
example 8 "a name that begins with a dash" 2 "$gone
$gone"
cp beach.raw 'a\b c.raw'
example 9 "the names of files with slices" 0 "./a\b c.raw
./beach.raw
./harbour.raw
./tower.raw
./disc.img"
"$tools/models/find_slices.py" --tails photos.par2 disc.img > ../found
example 10 "a search from a cursor on" 0 "$(cat ../found; awk '$1 == "end" || $2 > 51200' ../found)"
sed -i 's/1000/3/' ../examples/11
example 11 "a search in parts" 0 "$(sed '$d' ../found)"
example cursor "a cursor made by hand" 0 "$(awk '$1 == "end" || $2 >= 51200' ../found)"
example 12 "a folder with its subfolders" 0 "$whole"
example 13 "as many files as may be open" 0 "$whole"
"$tools/models/find_slices.py" photos.par2 disc.img > ../plain
example 14 "a search behind a bad region" 0 "$(awk '$1 == "end" || $2 >= 51200' ../plain)"
example 15 "the recovery slices of each packet file" 0 "0 ./photos.par2
1 ./photos.vol00+1.par2"
printf 'XXabcdefgh' > x.bin
{ sed '/^set=/,$d' ../examples/cursor; echo 'listed "$@" | md5sum'; } > ../mark
# marked MARK NAME [FILE]: wants this fingerprint from the functions of that example.
marked() {
    grep -q "$1" "$formats" || fails "FORMATS has no fingerprint $1"
    for shell in sh bash; do
        wants "the mark of $2 by hand, in $shell" 0 "$1  -" "" $shell ../mark "${@:3}"
    done
}
marked 53e12607a1d11cab6b927147969fc38c "one file" x.bin
marked d41d8cd98f00b204e9800998ecf8427e "no files"
if [ $given -eq "$(find ../examples -type f | wc -l)" ] && [ "$(wc -l < ../found)" -gt 20 ]; then
    echo "ok: each example of the manual page and the cursor of FORMATS were run"
else
    fails "$given examples were run of $(find ../examples -type f | wc -l)"
fi
exit $failed
