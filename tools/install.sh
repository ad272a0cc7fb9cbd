#!/bin/sh
# usage: ./install.sh [PREFIX]
# Installs parv and the commands beside it with their pages, completions and examples below PREFIX, or /usr/local.
# DESTDIR goes before it. It needs no toolchain. Then PREFIX/bin has to be in PATH, for man too.
set -eu
case ${1-} in
-*) sed -n 's/^# //p' "$0" | sed 1,3!d; exit 3 ;;
esac
prefix=${1:-/usr/local}
case $prefix in
/*) ;;
*) prefix=$PWD/$prefix ;;
esac
CDPATH='' cd -- "$(dirname -- "$0")"
sha256sum --quiet -c SHA256SUMS
# (A file that isn't in SHA256SUMS doesn't belong to the archive.)
sed -n 's/^[0-9a-f]\{64\}  \(\(bin\|lib\|share\)\/.*\)$/\1/p' SHA256SUMS | while IFS= read -r file; do
    mode=644
    case $file in bin/* | share/*.sh | share/*.py) mode=755 ;; esac
    install -D -m "$mode" "$file" "${DESTDIR-}$prefix/$file"
done
prefix=${prefix%/}
case :$PATH: in
*":$prefix/bin:"*) ;;
*) echo "PATH has no $prefix/bin yet, by which the shell finds parv and man its page." ;;
esac
echo "parv and the commands beside it are installed in $prefix/bin, and examples of scripts in $prefix/share/doc/parv/examples."
