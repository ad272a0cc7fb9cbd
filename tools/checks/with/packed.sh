# Read after wants.sh by the checks of packages: what the file BUILD says about the program.
version=$(sed -n 's/^## \([0-9.]*\), .*/\1/p' "$top/CHANGELOG.md" | head -n 1)

# has_build FILE: whether the file has the version, the commit from which the program was built, the kit, and the
# checksum of the program. If the program isn't the one that `make build` leaves, its commit isn't known.
has_build() {
    local commit kit
    commit=$(git -C "$top" rev-parse HEAD 2> "$said/git") || commit=unknown
    [ -z "$(git -C "$top" status --porcelain -uno 2> "$said/git")" ] || commit+=", with changes"
    [ "$parv" -ef "$top/crates/parv/out/parv" ] || commit="unknown: the program was given"
    kit=$(rt version 2> "$said/kit" | head -n 1)
    printf '%s\n' "parv $version" "commit $commit" "kit ${kit:-unknown}" "program $(sha256sum < "$parv" | cut -d ' ' -f 1)" \
        > "$said/build"
    cmp -s "$said/build" "$1"
}
