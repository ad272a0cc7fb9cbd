# Read by dist.sh and deb.sh: installs the files that both pack into a folder, and writes BUILD,
# which names the commit and the kit. PARV names the program.
set -euo pipefail
cd "$(dirname "${BASH_SOURCE[0]}")/.."
built=crates/parv/out/parv
parv=${PARV:-$built}
[ -x "$parv" ] || { echo "There is no program at $parv: 'make build' builds it." >&2; exit 1; }
version=$(sed -n 's/^## \([0-9.]*\), .*/\1/p' CHANGELOG.md | head -n 1)

# The commit is known only for the program that `make build` leaves.
if commit=$(git rev-parse HEAD 2> /dev/null); then
    git diff --quiet HEAD || commit+=", with changes"
else
    commit=unknown
fi
[ "$parv" -ef "$built" ] || commit="unknown: the program was given"
kit=$(rt version 2> /dev/null | head -n 1) || kit=unknown

# stage ROOM NAME=VALUE..: installs below ROOM as the Makefile does, with these values of its
# variables.
stage() {
    local room=$1
    shift
    make -s install PARV="$parv" DESTDIR="$room" "$@" > /dev/null
    local docs
    docs=$(dirname "$(cd "$room" && find . -name FORMATS.md)")
    printf '%s\n' "parv $version" "commit $commit" "kit $kit" "program $(sha256sum < "$parv" | sed 's/ .*//')" \
        > "$room/$docs/BUILD"
    chmod 644 "$room/$docs/BUILD"
    find "$room" -type d -exec chmod 755 {} +
}
