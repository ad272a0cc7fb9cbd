#!/usr/bin/env bash
# If this fails, the shell offers wrong options or file names when you press TAB.
#
# Each line is typed into bash at a terminal, and into zsh if it is installed, followed by a key; then the line must be
# the expected one. If fish is installed, it is asked what it offers for the same lines.
. "$(dirname "$0")/with/wants.sh"
cd "$work" || exit 1
mkdir 'a folder' folder typed
mkdir sets
cp "$top/demo/photos.par2" sets/photos.par2
cat "$top/demo/photos.par2" "$top/crates/parv/data/v.par2" > 'sets/two sets.par2'
mkdir bin
ln -s "$parv" bin/parv
ln -s "$top"/commands/bin/* bin
export PATH="$work/bin:$PATH"
unset PARV
touch photos.par2 'more photos.PAR2' 'a picture.raw' -- -odd.raw folder/inner.par2

cat > lines << 'LINES'
parv ver|TAB|parv verify
parv f|TAB|parv find
parv |ALL|parv packets set find verify
parv packets -|ALL|parv packets --set --base -B
parv set -|ALL|parv set --set --base -B
parv find -|ALL|parv find --set --base -B --limit --cursor --tails
parv verify -|ALL|parv verify --set --base -B -q --tails
parv find --l|TAB|parv find --limit
parv verify --c|TAB|parv verify --c
parv find --t|TAB|parv find --tails
parv verify --t|TAB|parv verify --tails
parv packets --t|TAB|parv packets --t
parv find --tails -|ALL|parv find --tails --set --base -B --limit --cursor
parv verify --tails ph|TAB|parv verify --tails photos.par2
parv packets --s|TAB|parv packets --set
parv verify -B a|TAB|parv verify -B a\ folder/
parv verify --base=a|TAB|parv verify --base=a\ folder/
parv verify -B . --b|TAB|parv verify -B . --b
parv verify --base . -|ALL|parv verify --base . --set -q --tails
parv verify -q -|ALL|parv verify -q --set --base -B -q --tails
parv find --limit 3 --|ALL|parv find --limit 3 --set --base --cursor --tails
parv find --limit ph|TAB|parv find --limit ph
parv verify ph|TAB|parv verify photos.par2
parv verify a\ p|TAB|parv verify a\ picture.raw
parv verify photos.par2 a\ p|TAB|parv verify photos.par2 a\ picture.raw
parv packets m|TAB|parv packets more\ photos.PAR2
parv packets folder/|TAB|parv packets folder/inner.par2
parv set -B . p|TAB|parv set -B . photos.par2
parv verify -- -o|TAB|parv verify -- -odd.raw
parv other -|TAB|parv other -
parv verify --set |TAB|parv verify --set
parv verify sets/photos.par2 --set 5|TAB|parv verify sets/photos.par2 --set 589c76e09f0580b9203c5b64963b8957
parv find sets/two\ sets.par2 --set 61|TAB|parv find sets/two\ sets.par2 --set 617cdc72ba53d94fe713fea2ae18f776
parv-repair -|ALL|parv-repair --dry-run --remove-backups --set --help -h
parv-rescue -|ALL|parv-rescue --tails --set --help -h
parv-repair --d|TAB|parv-repair --dry-run
parv-repair --dry-run --|ALL|parv-repair --dry-run --remove-backups --set --help
parv-repair se|TAB|parv-repair sets/
parv-repair sets --set 6|TAB|parv-repair sets --set 617cdc72ba53d94fe713fea2ae18f776
parv-rescue --t|TAB|parv-rescue --tails
parv-rescue --tails new ph|TAB|parv-rescue --tails new photos.par2
parv-rescue new sets/photos.par2 --set 5|TAB|parv-rescue new sets/photos.par2 --set 589c76e09f0580b9203c5b64963b8957
parv-tree -|ALL|parv-tree -j -q --tails --json --state --help -h
parv-tree --j|TAB|parv-tree --json
parv-tree --json --t|TAB|parv-tree --json --tails
parv-tree -q --|ALL|parv-tree -q --tails --json --state --help
parv-tree -j |TAB|parv-tree -j
parv-tree -q se|TAB|parv-tree -q sets/
parv-tree --state ph|TAB|parv-tree --state photos.par2
parv-tree --state photos.par2 se|TAB|parv-tree --state photos.par2 sets/
parv-map -|ALL|parv-map --tails --set --base -B --width --html --svg --help -h
parv-map --w|TAB|parv-map --width
parv-map --width 3 -B . --|ALL|parv-map --width 3 -B . --tails --set --html --svg --help
parv-map -B a|TAB|parv-map -B a\ folder/
parv-map ph|TAB|parv-map photos.par2
parv-map sets/photos.par2 --set 5|TAB|parv-map sets/photos.par2 --set 589c76e09f0580b9203c5b64963b8957
parv-watch -|ALL|parv-watch --tails --help -h
parv-watch --t|TAB|parv-watch --tails
parv-watch se|TAB|parv-watch sets/
parv-parts -|ALL|parv-parts --tails --help -h
parv-parts --tails parts 9 ph|TAB|parv-parts --tails parts 9 photos.par2
parv-progress |ALL|parv-progress find verify
parv-progress ver|TAB|parv-progress verify
parv-progress verify -|ALL|parv-progress verify --set --base -B -q --tails
parv-progress find --l|TAB|parv-progress find --limit
parv-progress verify photos.par2 a\ p|TAB|parv-progress verify photos.par2 a\ picture.raw
parv set sets/photos.par2 sets/two\ sets.par2 --set |ALL|parv set sets/photos.par2 sets/two\ sets.par2 --set 589c76e09f0580b9203c5b64963b8957 617cdc72ba53d94fe713fea2ae18f776
LINES

for shell in bash zsh; do
    if command -v $shell > /dev/null; then
        timeout "$most" python3 "$tools/checks/completions_typed.py" $shell "$top/completions" < lines || failed=1
    else
        echo "not run: there is no $shell"
    fi
done
if command -v fish > /dev/null; then
    timeout "$most" python3 "$tools/checks/completions_offered.py" "$top/completions" < lines || failed=1
else
    echo "not run: there is no fish"
fi
exit $failed
