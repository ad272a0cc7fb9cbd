#!/usr/bin/env bash
# Makes out/dist/parv_VERSION-1_amd64.deb, a Debian package of the built program and the files that
# belong to it. The same commit and toolchain give the same bytes: the times of files are
# SOURCE_DATE_EPOCH, or the time of the commit or, without git, of the release.
. "$(dirname "$0")/staging.sh"
command -v dpkg-deb > /dev/null || { echo "There is no dpkg-deb, with which Debian makes packages." >&2; exit 1; }
umask 022
release=$version-1
package=parv_${release}_amd64.deb
dist=${DIST:-out/dist}
mkdir -p "$dist"
released=$(sed -n "s/^## $version, //p" CHANGELOG.md)
export SOURCE_DATE_EPOCH=${SOURCE_DATE_EPOCH:-$(git log -1 --format=%ct 2> /dev/null || date -u -d "$released" +%s)}
work=$(mktemp -d)
trap 'rm -rf "$work"' EXIT
room=$work/room
docs=$room/usr/share/doc/parv

# Debian has other places than `make install` for the completions of zsh, and compresses pages.
stage "$room" PREFIX=/usr ZSHDIR=/usr/share/zsh/vendor-completions
find "$room/usr/share/man" -type f -exec gzip -n9 {} +
gzip -n9 < CHANGELOG.md > "$docs/changelog.gz"
gzip -n9 > "$docs/changelog.Debian.gz" << CHANGES
parv ($release) unstable; urgency=medium

  * The program of version $version, as it was proved and built; what changed
    is told by changelog.gz.

 -- Pijargun maintainers <maintainers@users.noreply.pijargun.example>  $(LC_ALL=C date -u -R -d "@$SOURCE_DATE_EPOCH")
CHANGES
cat > "$docs/copyright" << 'COPYRIGHT'
No licence has been chosen for parv: that is its owner's to do.
COPYRIGHT
install -d "$room/usr/share/lintian/overrides"
cat > "$room/usr/share/lintian/overrides/parv" << 'OVERRIDES'
# The proved program is packed byte for byte as it was built, so that it can be
# compared with a build of one's own. Stripping it would make it another one.
parv: unstripped-binary-or-object [usr/bin/parv]
# No licence has been chosen, and whose notice it is goes with that: both are the
# owner's to say.
parv: copyright-without-copyright-notice
# Nobody has proposed it to Debian.
parv: initial-upload-closes-no-bugs *
OVERRIDES

# The program needs only the C library, in at least the version found here. Python is for the
# commands.
library=$(grep -aoE 'GLIBC_[0-9.]+' "$parv" | sed 's/^GLIBC_//' | sort -Vu | tail -n 1)
size=$(find "$room" -type f -printf '%s\n' | awk '{ sum += int(($1 + 1023) / 1024) } END { print sum }')
mkdir "$room/DEBIAN"
cat > "$room/DEBIAN/control" << CONTROL
Package: parv
Version: $release
Architecture: amd64
Maintainer: Pijargun maintainers <maintainers@users.noreply.pijargun.example>
Installed-Size: $size
Depends: libc6 (>= $library), python3 (>= 3.8)
Recommends: par2
Suggests: bash-completion
Section: utils
Priority: optional
Description: verifier of PAR2 sets that is proved to answer right
 parv says what is still there of files for which there are PAR2 files, and
 whether a repair can be tried. It finds slices at every byte of other files,
 as in images of discs. It is proved that its answer is right for any files that
 agree with what it read.
 .
 parv-repair has par2 make the files complete, and gives renamed files their
 names back. parv-rescue copies what is there of files out of an image.
CONTROL
(cd "$room" && find usr -type f | LC_ALL=C sort | xargs md5sum) > "$room/DEBIAN/md5sums"
find "$room" -exec touch --no-dereference --date="@$SOURCE_DATE_EPOCH" {} +
# (It is compressed by gzip because the bytes that xz writes depend on the number of its threads.)
dpkg-deb --root-owner-group -Zgzip -z9 --build "$room" "$dist/$package" > /dev/null
(cd "$dist" && sha256sum "$package")
