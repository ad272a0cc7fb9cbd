#!/usr/bin/env bash
# If this fails, a page may link to nothing, or show an example that doesn't work.
#
# Each path in the pages, and each link inside the repository, must lead somewhere. README's example, its calls of scripts
# and its ways to install must do what it says. LAYERS and DEFINITIONS must name each module. Each clause in a row of PROVED
# must belong to a function or a type that this row names.
. "$(dirname "$0")/with/wants.sh"
cd "$work" || exit 1

python3 "$tools/checks/pages.py" "$top" || failed=1

# The first example of README, run in demo/ as it is written.
awk '/^    \$ parv verify/ { here = 1 } here && !/^    / { exit } here { sub(/^    /, ""); print }' \
    "$top/README.md" > example
words=$(sed -n '1s/^\$ parv //p' example)
cd "$top/demo" || exit 1
[ "$(wc -l < "$work/example")" -ge 7 ] || fails "README has no example"
# shellcheck disable=SC2086 # (these are words)
wants "the example of README" 1 "$(sed 1d "$work/example")" "" "$parv" $words

# README's calls of parv and of commands, each in a folder with the files that it names: its exit status and its last
# line.
cd "$work" || exit 1
mkdir -p download backup/whole bin
ln -s "$parv" bin/parv
cp "$top"/demo/{photos.par2,*.raw,notes.txt} backup/whole
cp backup/whole/* download
cp backup/whole/photos.par2 .
mv download/harbour.raw download/port.raw
{ head -c 5000 /dev/zero; cat backup/whole/*.raw backup/whole/notes.txt; printf 'more'; } > disc.img
last_match=$("$tools/models/find_slices.py" --tails photos.par2 disc.img | sed '$d' | tail -n 1)
# `find -exec` ends with 1 if parv ends with any status other than 0. Some calls also write a line to standard error.
wanted=("1 result possible" "1 result possible" "1 result possible"
    "1 a repair can be tried: need 0 have 0" "0 complete" "1 slices 37/38, copied now 37" "0 slices 38/38, copied now 1"
    "0 " "0 result complete" "0 complete" "0 $last_match" "0 38 in place; need 0 have 0")
declare -A lines=(
    ["parv-rescue saved photos.par2 disc.img"]="parv-rescue: short slices missing: 1; --tails might find more"
    ["parv-tree -q --state sets.state /srv/backup"]="parv-tree: sets.state is new: this run has nothing to compare with")
sed -nE 's/^    (([a-z_]+\.(sh|py)|parv(-[a-z]+)?|find \..* parv) .*)/\1/p' "$top/README.md" > calls
[ "$(wc -l < calls)" -eq ${#wanted[@]} ] || fails "README has $(wc -l < calls) calls of parv and of commands"
number=0
while IFS= read -r call; do
    place=.
    [[ $call != *" ./*" && $call != "find ."* ]] || place=download
    # The subfolder exists only for the call that leaves subfolders out.
    [[ $call != "find ."* ]] || mkdir download/subfolder
    # The progress lines of parv-parts don't matter here.
    got=$(cd "$place" && env -u PARV PATH="$top/examples:$top/commands/bin:$work/bin:$PATH" timeout "$most" \
        bash -c "${call/\/srv/$work}" 2> "$work/line" < /dev/null > "$work/text"; echo $?)
    [[ $call != parv-parts* ]] || : > line
    [ ! -d download/subfolder ] || rmdir download/subfolder
    if [ "$got $(tail -n 1 text)" = "${wanted[number]-}" ] && [ "$(cat line)" = "${lines[$call]-}" ]; then
        echo "ok: README's $call"
    else
        fails "README's $call: status $got, $(tail -n 1 text) $(cat line)"
    fi
    number=$((number + 1))
done < calls

# Each target of make that README names exists. They aren't built, since most take long.
cd "$top" || exit 1
{ sed -nE 's/^    (sudo )?make ([a-z]+).*/\2/p' README.md; grep -o '`make [a-z]*' README.md | sed 's/.* //'; } | sort -u > "$work/targets"
while IFS= read -r target; do
    make -n "$target" PARV="$parv" > "$work/made" 2>&1 || fails "README's make $target: $(tail -n 1 "$work/made")"
done < "$work/targets"
if [ "$(wc -l < "$work/targets")" -ge 6 ]; then
    echo "ok: README's $(wc -l < "$work/targets") targets of make are there"
else
    fails "README names $(wc -l < "$work/targets") targets of make"
fi

# README's ways to install, except those with sudo.
cd "$top" || exit 1
grep -o '^    make install PREFIX=[^ ]*' README.md | sed 's/^ *//' > "$work/install"
[ "$(wc -l < "$work/install")" -eq 1 ] || fails "README has no way to install below a folder"
mkdir "$work/home"
if HOME=$work/home PARV=$parv bash -c "$(cat "$work/install") PARV=\"\$PARV\"" > "$work/made" 2>&1 \
    && cmp -s "$parv" "$work/home/.local/bin/parv" && [ -s "$work/home/.local/share/man/man1/parv.1" ]; then
    echo "ok: README installs below a folder"
else
    fails "README doesn't install: $(head -c 300 "$work/made")"
fi
exit $failed
