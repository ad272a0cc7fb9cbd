#!/usr/bin/env bash
# Makes out/dist/parv-VERSION-x86_64-linux.tar.gz of the built program and the files that belong to
# it, with SHA256SUMS. Nothing in it depends on the time or the folder in which it is made, so the
# same commit and toolchain give the same bytes.
. "$(dirname "$0")/staging.sh"
name=parv-$version-x86_64-linux
dist=${DIST:-out/dist}
mkdir -p "$dist"
work=$(mktemp -d)
trap 'rm -rf "$work"' EXIT
room=$work/$name

stage "$room" PREFIX=
install -m 755 tools/install.sh "$room/install.sh"
(cd "$room" && find . -type f | sed 's/^..//' | LC_ALL=C sort | xargs sha256sum) > "$work/sums"
mv "$work/sums" "$room/SHA256SUMS"
tar --sort=name --mtime=@0 --owner=0 --group=0 --numeric-owner --format=ustar -C "$work" -cf - "$name" \
    | gzip -n9 > "$dist/$name.tar.gz"
(cd "$dist" && sha256sum "$name.tar.gz" > SHA256SUMS)
cat "$dist/SHA256SUMS"
