#!/bin/bash
# Makes the files of demo/ again: four small data files, their PAR2 set, and one damaged volume. Needs par2 (Debian
# package par2) and python3. It doesn't write demo/README.md.
set -euo pipefail

tools=$(cd "$(dirname "$0")/.." && pwd)
demo=$(dirname "$tools")/demo
work=$(mktemp -d)
trap 'rm -rf "$work"' EXIT
cd "$work"

cat > notes.txt <<'END'
Three pictures from the walk along the coast.

beach.raw    low tide, looking west
harbour.raw  the boats before the rain
tower.raw    the old light, from the pier

They hold pseudo-random bytes, so no two slices are alike.
END

# Each picture has the first bytes of SHAKE-256 of its own name.
python3 "$tools/make/demo_pictures.py"

par2 create -q -q -s1024 -c15 photos.par2 beach.raw harbour.raw tower.raw notes.txt

# Damages one volume, from its end to its beginning, so that earlier offsets stay valid.
PYTHONPATH=$tools PYTHONDONTWRITEBYTECODE=1 \
    python3 "$tools/make/demo_damage.py" photos.vol03+4.par2 photos.vol03+4.damaged.par2
rm photos.vol03+4.par2

mkdir -p "$demo"
rm -f "$demo"/photos*.par2
cp -- *.raw notes.txt photos*.par2 "$demo"
