#!/usr/bin/env bash
# If this fails, the Debian package may lack files, install something other than the built program, or leave files after
# its removal.
#
# The package is made twice, at different times and in different folders, and must have the same bytes. Its files are
# compared with those of the archive, and its fields with what the program needs; lintian must find no error. It is
# installed below a folder, run there, and purged.
. "$(dirname "$0")/with/wants.sh"
. "$tools/checks/with/packed.sh"
cd "$work" || exit 1
PATH=$PATH:/usr/sbin:/sbin

if ! command -v dpkg-deb > "$said/deb" || ! command -v dpkg >> "$said/deb"; then
    echo "not run: there is no dpkg-deb or no dpkg, which Debian has"
    exit 0
fi
package=parv_$version-1_amd64.deb

if (cd "$top" && PARV=$parv DIST=$work/first tools/deb.sh) > first.log 2>&1 && sleep 1 && mkdir room \
    && (umask 077 && cd / && TMPDIR=$work/room TZ=Asia/Tokyo PARV=$parv DIST=$work/second "$top/tools/deb.sh") \
        > second.log 2>&1 \
    && cmp -s "first/$package" "second/$package"; then
    echo "ok: the package is the same bytes twice"
else
    fails "the package: $(head -c 300 first.log second.log)"
    exit $failed
fi
dpkg-deb -R "first/$package" deb || exit 1

field() {
    dpkg-deb -f "first/$package" "$1"
}
size=$(find deb/usr -type f -printf '%s\n' | awk '{ sum += int(($1 + 1023) / 1024) } END { print sum }')
# The libraries that the program needs, and the newest version of the C library of which it uses a symbol.
needed=$(objdump -p "$parv" | awk '$1 == "NEEDED" { print $2 }')
newest=$(objdump -T "$parv" | grep -o 'GLIBC_[0-9.]*' | sort -Vu | tail -n 1)
if [ "$(field Package) $(field Version) $(field Architecture)" = "parv $version-1 amd64" ] && [ "$needed" = libc.so.6 ] \
    && [ "$(field Depends)" = "libc6 (>= ${newest#GLIBC_}), python3 (>= 3.8)" ] && [ "$(field Recommends)" = par2 ] \
    && [ "$(field Installed-Size)" = "$size" ] && (cd deb && md5sum --quiet -c DEBIAN/md5sums) \
    && [ "$(cd deb && find usr -type f | wc -l)" -eq "$(wc -l < deb/DEBIAN/md5sums)" ]; then
    echo "ok: the package's fields are right, and its sums are those of all its files"
else
    fails "the package's fields: $(dpkg-deb -f "first/$package" | tr '\n' ';') $needed $newest $size"
fi
if dpkg-deb -c "first/$package" | awk '{ print $1, $2 }' | grep -Evx '(drwxr-xr-x|-rwxr-xr-x|-rw-r--r--) root/root' > owners; then
    fails "owners and modes in the package: $(sort owners | uniq -c)"
else
    echo "ok: all in the package is root's, which everybody can read and nobody else can change"
fi

# Each file of the archive must be in its place in the package, with the same content, along with the files that Debian
# demands.
(cd "$top" && PARV=$parv DIST=$work/archive tools/dist.sh) > archive.log 2>&1 || fails "no archive: $(head -c 300 archive.log)"
tar -xzf archive/*.tar.gz
(cd "parv-$version-x86_64-linux" && find bin lib share -type f) | while IFS= read -r file; do
    place=usr/$file
    case $file in
    share/man/*) place+=.gz ;;
    share/zsh/*) place=${place/site-functions/vendor-completions} ;;
    esac
    echo "$place" >> places
    content=$file
    case $place in *.gz) gunzip -c "deb/$place" > "$said/content" && content=$said/content || content=none ;;
    *) content=deb/$place ;; esac
    cmp -s "parv-$version-x86_64-linux/$file" "$content" || echo "$place" >> others
done
printf 'usr/share/%s\n' doc/parv/changelog{,.Debian}.gz doc/parv/copyright lintian/overrides/parv >> places
if cmp -s <(sort places) <(cd deb && find usr -type f | sort) && [ ! -e others ]; then
    echo "ok: the package has the files of the archive, and what Debian wants besides"
else
    fails "the package has others than the archive: $(diff <(sort places) <(cd deb && find usr -type f | sort)) $(cat others 2>&1)"
fi
if has_build deb/usr/share/doc/parv/BUILD && grep -q 'No licence has been chosen' deb/usr/share/doc/parv/copyright; then
    echo "ok: the package names commit and kit, and says that no licence has been chosen"
else
    fails "what the package says: $(diff "$said/build" deb/usr/share/doc/parv/BUILD) $(cat deb/usr/share/doc/parv/copyright)"
fi

# complaints PACKAGE: prints the errors and warnings of lintian, and fails if there are any.
complaints() {
    lintian --fail-on error,warning "$1" > complaints 2> "$said/lintian"
    local status=$?
    grep -E '^[EW]: ' complaints
    [ $status -eq 0 ]
}
if ! command -v lintian > "$said/lintian"; then
    echo "not run: there is no lintian"
elif complaints "first/$package" > told; then
    rm -r deb/usr/share/doc/parv/copyright
    dpkg-deb --root-owner-group -Zgzip --build deb worse.deb > "$said/worse"
    if ! complaints worse.deb > told && grep -q '^E: parv: no-copyright-file' told; then
        echo "ok: lintian complains of nothing, and does of a package without a copyright file"
    else
        fails "lintian doesn't see that the copyright file is gone"
    fi
else
    fails "lintian: $(head -c 600 told "$said/lintian")"
fi

# Installs below a folder, without root and without the packages that this one depends on. It has no maintainer scripts.
mkdir -p rooted/var/lib/dpkg/{info,updates}
touch rooted/var/lib/dpkg/{status,available}
rooted() {
    dpkg --root="$work/rooted" --log="$said/dpkg" --force-not-root --force-script-chrootless --force-depends "$@"
}
find rooted | sort > before
if rooted -i "first/$package" > installed 2>&1 && cmp -s "$parv" rooted/usr/bin/parv; then
    echo "ok: the package installs the built program"
else
    fails "the package doesn't install: $(head -c 600 installed)"
fi
cd "$top/demo" || exit 1
names=(photos.par2 photos.vol00+1.par2 beach.raw harbour.raw tower.raw)
text=$("$tools/models/tell_states.py" "${names[@]}")
wants "what the package installs verifies the set in demo/" $? "$text" "" "$work/rooted/usr/bin/parv" verify "${names[@]}"
cp -r "$top/demo" "$work/demo"
cd "$work" || exit 1
rm demo/tower.raw
for name in parv-repair parv-rescue; do
    wants "the help of $name, which the package installs" 0 "$("$top/commands/bin/$name" -h)" "" "rooted/usr/bin/$name" -h
done
wants "the repair that the package installs" 1 "repair tower.raw
a repair can be tried: need 5 have 14" "" \
    env -u PARV PAR2=/bin/true PATH="$work/rooted/usr/bin:$PATH" rooted/usr/bin/parv-repair --dry-run demo
if rooted -P parv > purged 2>&1 && [ ! -e rooted/usr ] && ! grep -q parv <(find rooted); then
    echo "ok: after a purge nothing of it is left"
else
    fails "a purge leaves: $(head -c 300 purged) $(find rooted | diff before - | head -n 20)"
fi
exit $failed
