#!/usr/bin/env bash
# If this fails, the archive that users download may lack files, install something other than the built program, or need
# the toolchain.
#
# The archive is made twice, at different times, and must have the same bytes. Its checksums must hold. It is installed
# with only a few programs in PATH, and the installed commands are run. A changed or planted file must not be installed.
. "$(dirname "$0")/with/wants.sh"
. "$tools/checks/with/packed.sh"
cd "$work" || exit 1

made() {
    (cd "$top" && PARV=$parv DIST=$work/$1 tools/dist.sh) > "$1.log" 2>&1
}

if made first && sleep 1 && made second && cmp -s first/*.tar.gz second/*.tar.gz \
    && (cd first && sha256sum --quiet -c SHA256SUMS); then
    echo "ok: the archive is the same bytes twice, and its sum holds"
else
    fails "the archive: $(head -c 300 first.log second.log)"
fi
tar -xzf first/*.tar.gz
room=$(echo parv-*-x86_64-linux)
if [ "$room" = "parv-$version-x86_64-linux" ] && (cd "$room" && sha256sum --quiet -c SHA256SUMS) \
    && cmp -s "$parv" "$room/bin/parv" && has_build "$room/share/doc/parv/BUILD" \
    && [ "$(cd "$room" && find . -type f -not -name SHA256SUMS | wc -l)" -eq "$(wc -l < "$room/SHA256SUMS")" ]; then
    echo "ok: the archive has the built program, names its version, commit and kit, and the sums are those of all its files"
else
    fails "what the archive holds: $room, $(diff "$said/build" "$room/share/doc/parv/BUILD")"
fi
if grep -q "version $version" "$top/README.md" && grep -q "version $version" "$top/docs/parv.1"; then
    echo "ok: the pages are of that version"
else
    fails "the pages are of another version than $version"
fi

path=$work/path
mkdir "$path"
for tool in sh dirname sha256sum install sed; do ln -s "$(command -v $tool)" "$path"; done
if env -i PATH="$path" "$room/install.sh" "$work/a place" > said 2>&1 \
    && cmp -s "$parv" "a place/bin/parv" && cmp -s "$top/docs/parv.1" "a place/share/man/man1/parv.1" \
    && [ "$(cd "a place" && find . -type f | wc -l)" -eq "$(cd "$room" && find bin lib share -type f | wc -l)" ]; then
    echo "ok: the archive installs without a toolchain"
else
    fails "the archive doesn't install: $(head -c 300 said)"
fi
last="parv and the commands beside it are installed in $work/a place/bin, and examples of scripts in \
$work/a place/share/doc/parv/examples."
if [ "$(cat said)" = "PATH has no $work/a place/bin yet, by which the shell finds parv and man its page.
$last" ]; then
    echo "ok: it says where parv and the examples are, and that PATH has no such folder"
else
    fails "it says: $(head -c 300 said)"
fi
wants "where PATH has the folder it says no more of that" 0 "$last" "" \
    env -i PATH="$path:$work/a place/bin" "$room/install.sh" "$work/a place/"
wants "a relative folder is below that of the caller, and is told whole" 0 "${last//"$work/a place"/"$work/below"}" "" \
    env -i PATH="$path:$work/below/bin" "$room/install.sh" below
cmp -s "$parv" below/bin/parv || fails "nothing is installed in a relative folder"
mkdir elsewhere
cp -r "$room" elsewhere
printf other > "elsewhere/$room/bin/parv"
wants "another folder for cd has no say" 0 "$last" "" \
    env -i CDPATH="$work/elsewhere" PATH="$path:$work/a place/bin" "$room/install.sh" "$work/a place/"
for command in "$top"/commands/bin/*; do
    name=${command##*/}
    wants "what the archive installs runs: $name" 0 "$("$command" -h)" "" "a place/bin/$name" -h
done
printf '#!/bin/sh\n' > "$room/bin/planted"
if env -i PATH="$path" "$room/install.sh" "$work/a place" > said 2>&1 && [ ! -e "a place/bin/planted" ]; then
    echo "ok: what its sums don't have isn't installed"
else
    fails "a planted file: $(head -c 300 said)"
fi
wants "what the archive installs runs" 0 "$("$parv" packets "$top/demo/photos.par2")" "" \
    "a place/bin/parv" packets "$top/demo/photos.par2"
printf x >> "$room/bin/parv"
if ! env -i PATH="$path" "$room/install.sh" "$work/other" > said 2>&1 && [ ! -e "$work/other" ]; then
    echo "ok: a changed file isn't installed"
else
    fails "a changed file is installed: $(head -c 300 said)"
fi
exit $failed
