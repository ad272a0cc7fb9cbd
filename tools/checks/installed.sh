#!/usr/bin/env bash
# If this fails, `make install` may leave out a file, need the toolchain, or `make uninstall` may leave files or remove
# others.
#
# It installs below a folder with a PATH without `rt`, compares each installed file with its source, runs the installed
# commands, and uninstalls.
. "$(dirname "$0")/with/wants.sh"

commands="parv $(cd "$top/commands/bin" && echo *)"
places=$({
    for name in $commands; do
        echo "/usr/bin/$name
/usr/share/bash-completion/completions/$name
/usr/share/fish/vendor_completions.d/$name.fish
/usr/share/man/man1/$name.1"
    done
    cd "$top/examples" && printf '/usr/share/doc/parv/examples/%s\n' *
    cd "$top/commands" && find parv_commands -name '*.py' | sed 's|^|/usr/lib/parv/|'
    echo "/usr/share/doc/parv/FORMATS.md
/usr/share/doc/parv/GLOSSARY.md"
    echo /usr/share/zsh/site-functions/_parv
} | LC_ALL=C sort)
room="$work/a room"
path=$work/path
mkdir "$path"
for tool in bash make install rm rmdir test sed; do ln -s "$(command -v $tool)" "$path"; done
ln -s "$(python3 -c 'import sys; print(sys.executable)')" "$path/python3"

# made WORDS..: runs make with a PATH that has no rt, and with no other variable from outside.
made() {
    env -i PATH="$path" make -s -C "$top" "$@" DESTDIR="$room" PREFIX=/usr PARV="$parv" \
        > "$work/made" 2>&1 < /dev/null
}

standing() {
    (cd "$room" && find . -not -type d | LC_ALL=C sort | sed 's/^.//')
}

if made install && [ "$(standing)" = "$places" ]; then
    echo "ok: what is installed stands in its places"
else
    fails "installed: $(head -c 300 "$work/made"), $(standing)"
fi
if cmp -s "$parv" "$room/usr/bin/parv" && [ -x "$room/usr/bin/parv" ] \
    && cmp -s "$top/docs/parv.1" "$room/usr/share/man/man1/parv.1" \
    && cmp -s "$top/completions/parv.bash" "$room/usr/share/bash-completion/completions/parv" \
    && cmp -s "$top/completions/_parv" "$room/usr/share/zsh/site-functions/_parv" \
    && cmp -s "$top/completions/parv.fish" "$room/usr/share/fish/vendor_completions.d/parv.fish" \
    && cmp -s "$top/docs/FORMATS.md" "$room/usr/share/doc/parv/FORMATS.md" \
    && cmp -s "$top/docs/GLOSSARY.md" "$room/usr/share/doc/parv/GLOSSARY.md" \
    && diff -rq --exclude=__pycache__ --exclude=launcher "$top/commands/parv_commands" "$room/usr/lib/parv/parv_commands" > /dev/null \
    && diff -rq "$top/examples" "$room/usr/share/doc/parv/examples" > /dev/null; then
    echo "ok: what is installed is what was built"
else
    fails "what is installed is another"
fi
# Each command is the one in commands/bin, prints its help, and without parv does nothing else.
for script in "$room"/usr/bin/parv-*; do
    name=${script##*/}
    { [ -x "$script" ] && cmp "$top/commands/bin/$name" "$script" \
        && cmp "$top/docs/$name.1" "$room/usr/share/man/man1/$name.1"; } || fails "what is installed is another: $name"
    env -i PATH="$path" "$script" -h > "$work/help" 2> "$work/line"
    got=$?
    if [ $got -eq 0 ] && [ ! -s "$work/line" ] && head -n 1 "$work/help" | grep -q "^usage: $name .*[A-Z]" \
        && grep -q "^  6  .*parv can't be run$" "$work/help" && [ "$(wc -l < "$work/help")" -gt 15 ]; then
        echo "ok: the help of $name"
    else
        fails "the help of $name: status $got, $(head -c 300 "$work/help" "$work/line")"
    fi
    words=(verify 1 x.par2)
    case $name in parv-tree | parv-repair | parv-watch) words=("$work") ;; esac
    wants "$name without parv" 6 "" "$name: cannot run parv: put parv in PATH, or name it by PARV" \
        env -i PATH="$path" "$script" "${words[@]}"
done
# The command finds the program that was installed beside it.
cp -r "$top/demo" "$work/demo"
rm "$work/demo/tower.raw"
wants "the repair that was installed" 1 "repair tower.raw
a repair can be tried: need 5 have 14" \
    "parv-repair: $work/demo: par2 will be needed: cannot run none: put par2 in PATH, or name it by PAR2" \
    env -i PATH="$room/usr/bin:$path" PAR2=none "$room/usr/bin/parv-repair" --dry-run "$work/demo"
touch "$room/usr/bin/other"
if made uninstall && [ "$(standing)" = /usr/bin/other ] && [ ! -e "$room/usr/lib/parv" ]; then
    echo "ok: what is removed is what was installed"
else
    fails "removed: $(head -c 300 "$work/made"), $(standing)"
fi
parv=$work/none
if ! made install && grep -q "make build" "$work/made" && [ "$(standing)" = /usr/bin/other ]; then
    echo "ok: where nothing is built nothing is installed"
else
    fails "installed without a program: $(head -c 300 "$work/made"), $(standing)"
fi
exit $failed
