#!/usr/bin/env bash
# If this fails, a search in parts may miss slices or report them twice after it was interrupted, or overwrite files in
# its folder.
#
# parv-parts must find what an independent search finds: in one go, stopped and resumed. It must leave a folder with
# other files as it is, must not take a part that a power failure has cut for a whole one, and must allow only one run in
# a folder at a time.
. "$(dirname "$0")/with/wants.sh"
. "$tools/checks/with/commands.sh"
. "$tools/checks/with/rooms.sh"
mkdir "$work/long"
cd "$work/long" || exit 1
demo=$top/demo

# A long file: the files of the set, cut at other offsets and with bytes between them.
head -c 300000 /dev/zero > 'disc image'
{ cat "$demo/beach.raw"; printf 'x'; tail -c 9001 "$demo/harbour.raw"; } >> 'disc image'
cat "$demo/tower.raw" "$demo/notes.txt" >> 'disc image'
words=("$demo/photos.par2" 'disc image' "$demo/notes.txt")
"$tools/models/find_slices.py" "${words[@]}" | sed '$d' > wanted
"$tools/models/find_slices.py" --tails "${words[@]}" | sed '$d' > wanted--tails
[ "$(wc -l < wanted)" -gt 25 ] || fails "there is little to find"
[ "$(wc -l < wanted--tails)" -gt "$(wc -l < wanted)" ] || fails "there is no tail to find"
for tails in "" --tails; do
    for limit in 7 1000; do
        # shellcheck disable=SC2086 # (it is a word, or none)
        if "${search[@]}" $tails parts$limit$tails $limit "${words[@]}" > found 2> told && cmp -s found wanted$tails; then
            parts=$(wc -l < told)
            echo "ok: a search in $parts parts of $limit${tails:+ with $tails} finds what the independent search finds"
        else
            fails "a search in parts of $limit $tails: $(cmp found wanted$tails 2>&1), $(tail -n 1 told)"
        fi
    done
done
# The run was stopped: the last part is missing, and the one before it has only its beginning.
last=$(find parts7 -name '[0-9]*' | wc -l)
head -c 50 "parts7/$((last - 1))" > parts7/new
rm "parts7/$last" "parts7/$((last - 1))"
if "${search[@]}" parts7 7 "${words[@]}" > found 2> told && cmp -s found wanted && [ "$(wc -l < told)" -eq 2 ]; then
    echo "ok: a search that was stopped goes on behind its last whole part"
else
    fails "a search that goes on: $(cmp found wanted 2>&1), $(cat told)"
fi
# The files have changed: the search isn't resumed from its parts, unless a cursor is of version 1. A search that is
# over isn't repeated.
mkdir parts
cp -r parts7 parts/marked
rm "parts/marked/$last"
cp -r parts/marked parts/plain
sed -i '$s/^cursor 2:\([0-9a-f]*\):[0-9a-f]*:/cursor \1:/' "parts/plain/$((last - 1))"
printf 'x' >> 'disc image'
wants "a search in parts over a file that has grown" 3 "" \
    "$search_says a searched file has another length than when this search began" \
    "${search[@]}" parts/marked 7 "${words[@]}"
wants "a search that is over, of a file that has grown since" 0 "$(cat wanted)" "" "${search[@]}" parts7 7 "${words[@]}"
truncate -s -1 'disc image'
for kind in marked plain; do
    if "${search[@]}" parts/$kind 7 "${words[@]}" > found 2> told && cmp -s found wanted \
        && [ "$(wc -l < told)" -eq 1 ]; then
        echo "ok: a search in parts goes on from a $kind cursor"
    else
        fails "a search from a $kind cursor: $(cmp found wanted 2>&1), $(cat told)"
    fi
done
wants "a search that is over is told again" 0 "$(cat wanted)" "" "${search[@]}" parts7 7 "${words[@]}"
wants "a search with other words" 3 "" \
    "$search_says parts7 is of a search with other words" \
    "${search[@]}" parts7 7 "${words[0]}" 'disc image'
wants "a search with --tails where parts are without" 3 "" \
    "$search_says parts7 is of a search with other words" "${search[@]}" --tails parts7 7 "${words[@]}"
wants "a search without --tails where parts are with it" 3 "" \
    "$search_says parts7--tails is of a search with other words" "${search[@]}" parts7--tails 7 "${words[@]}"
wants "a search that can't begin" 6 "" "$search_says cannot open none" \
    "${search[@]}" parts0 7 "${words[0]}" none

cd "$work" || exit 1
cp "$top/demo/photos.par2" .
cat "$top/demo/"*.raw > image
words=(photos.par2 image)
"$tools/models/find_slices.py" "${words[@]}" | sed '$d' > wanted
[ "$(wc -l < wanted)" -gt 30 ] || fails "there is little to find"

# refuses NAME FOLDER: wants a search in this folder to end with 3 and one line, and everything below `room` to be as
# before.
refuses() {
    listed room > before
    "${search[@]}" "$2" 100 "${words[@]}" > found 2> told
    local status=$?
    if [ $status -eq 3 ] && [ ! -s found ] && [ "$(grep -vc ': usage: ' told)" -eq 1 ]; then
        echo "ok: refused: $1"
    else
        fails "$1: status $status, $(head -c 300 found; cat told)"
    fi
    as_before "$1"
}
mkdir -p room/novel room/link room/part room/elsewhere
printf 'my novel' > room/novel/new
refuses "a folder with a file \`new\`" room/novel
printf 'my thesis' > room/elsewhere/thesis
ln -s ../elsewhere/thesis room/link/new
refuses "a folder with a link \`new\`" room/link
printf 'my part' > room/part/1
refuses "a folder with a file \`1\`" room/part
refuses "a folder with folders" room
# (By a user who may not write there.)
other_user
mkdir public
mkdir public/bin
cp "$parv" "${words[@]}" public
cp "${search[0]}" public/bin
cp -r "$top/commands/parv_commands" public
(cd public && wants "the root folder" 3 "" "$search_says / has other files" env PARV="$work/public/${parv##*/}" \
    "${user[@]}" "bin/${search[0]##*/}" "${search[@]:1}" / 100 "${words[@]}") || failed=1
# whole NAME FOLDER LIMIT: wants a search there to find what the independent search finds, each match once.
whole() {
    "${search[@]}" "$2" "$3" "${words[@]}" > found 2> told
    local status=$?
    if [ $status -eq 0 ] && cmp -s found wanted; then
        echo "ok: $1"
    else
        fails "$1: status $status, $(wc -l < found) lines of $(wc -l < wanted), $(cat told)"
    fi
}
mkdir empty
whole "a folder that is empty" empty 5
whole "a folder whose name ends in a slash" empty/ 5
mkdir planted
ln -s "$work/room/elsewhere/words" planted/words
wants "a folder with a link \`words\`, to nothing" 3 "" "$search_says planted has other files" \
    "${search[@]}" planted 5 "${words[@]}"
[ ! -e room/elsewhere/words ] || fails "what a link leads to was made"
[ -L planted/words ] || fails "a link is gone"
cp -r empty linked
rm linked/3 linked/[4-9]
ln -sf "$work/room/elsewhere/thesis" linked/new
whole "a link \`new\` among parts" linked 5
[ "$(cat room/elsewhere/thesis)" = 'my thesis' ] || fails "what a link leads to is written"
{ [ -f linked/3 ] && [ ! -L linked/3 ]; } || fails "a part is a link"

# After a power failure, a part may be empty, have the beginning of a line, or only some of its lines.
last=$(find empty -name '[0-9]*' | wc -l)
for part in 1 3 "$last"; do
    for length in 0 5 200 -1; do
        rm -rf cut
        cp -r empty cut
        truncate -s "$([ $length -ge 0 ] && echo $length || echo $(($(stat -c %s "empty/$part") - 1)))" "cut/$part"
        whole "part $part is cut to $length bytes" cut 5
        # The same again, with parts that are longer than the earlier ones.
        cp -r empty/. cut
        truncate -s "$([ $length -ge 0 ] && echo $length || echo $(($(stat -c %s "empty/$part") - 1)))" "cut/$part"
        whole "part $part is cut to $length bytes, and parts are longer then" cut 11
        whole "once more, and all is there" cut 11
    done
done
# One part is missing, and a run with longer parts is ended after its first part.
cp -r empty gap
rm gap/3
cat > once << 'END'
#!/usr/bin/env bash
[ ! -e "$BEGUN" ] || { kill -KILL $PPID; exit 1; }
: > "$BEGUN"
exec "$REAL" "$@"
END
chmod +x once
export REAL=$parv BEGUN=$work/begun
{ PARV=$work/once "${search[@]}" gap 11 "${words[@]}" > found; } 2> told
flock -w "$most" gap true
rm begun
whole "a part that is gone, and a run that was ended" gap 11
# The record of the arguments, `words`, is cut, and there is no part: the search begins again.
for length in 0 1 20; do
    rm -rf cut
    mkdir cut
    head -c $length empty/words > cut/words
    whole "words that were cut to $length bytes" cut 5
done
(
    cd room && rm -rf ./* && cp "$work"/{photos.par2,image} .
    for name in -n -- '* ?' $'line\nfeed' ' '; do "${search[@]}" -- "$name" 9 "${words[@]}" 2> ../told | cmp - ../wanted || exit 1; done
)
status=$?
if [ $status -eq 0 ]; then echo "ok: odd names of the folder"; else fails "odd names of the folder: $(cat told)"; fi
POSIXLY_CORRECT=1 whole "programs that are asked for POSIX" posix 9
"${search[@]}" progress 9 "${words[@]}" > found 2> /dev/full
status=$?
if [ $status -eq 0 ] && cmp -s found wanted; then echo "ok: no line of its progress can be written"; else
    fails "no line of its progress can be written: status $status"
fi
cp -r empty mine
printf 'my own' > "mine/$((last + 1))"
whole "a number after the last part" mine 5
[ "$(cat "mine/$((last + 1))")" = 'my own' ] || fails "a file after the last part has gone"

# Two runs in one folder. Before its second part, the first run waits until the other has ended.
cat > waits << 'END'
#!/usr/bin/env bash
"$REAL" "$@"
status=$?
[ -e "$BEGUN" ] || { : > "$BEGUN"; until [ -e "$BEGUN.over" ]; do sleep 0.1; done; }
exit $status
END
chmod +x waits
PARV=$work/waits "${search[@]}" two 4 "${words[@]}" > first 2> told &
comes [ -e begun ]
"${search[@]}" two 7 "${words[@]}" > second 2> line
status=$?
: > begun.over
wait $!
other=$?
if [ $status -eq 3 ] && [ ! -s second ] && [ "$(wc -l < line)" -eq 1 ] && [ $other -eq 0 ] && cmp -s first wanted; then
    echo "ok: one run at a time in a folder"
else
    fails "two runs in a folder: $status and $other, $(wc -l < first) and $(wc -l < second) lines, $(cat told line)"
fi
whole "the same folder once one run has ended" two 7

exit $failed
